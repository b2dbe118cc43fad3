//! A session of Bidirectional Forwarding Detection (RFC 5880) in asynchronous mode, without authentication and echo.
//! It neither sends nor reads a clock: who has it gives it packets and the time, in ms.
use rand::Rng;
use serde::{Deserialize, Serialize};

/// Sessions send to this port (RFC 5881, 4), from one of these.
pub const PORT: u16 = 3784;
pub const SOURCE_PORTS: std::ops::RangeInclusive<u16> = 49152..=65535;
/// What a packet has on a link (RFC 5881, 5).
pub const TTL: u8 = 255;
const LENGTH: usize = 24;
const VERSION: u8 = 1;
const POLL: u8 = 0x20;
const FINAL: u8 = 0x10;
const AUTHENTICATION: u8 = 0x04;
const MULTIPOINT: u8 = 0x01;
/// While a session isn't up it sends at most so often, in ms (RFC 5880, 6.8.3).
const SLOW: u32 = 1_000;
const MICROSECONDS: u32 = 1_000;
const DETECTION_TIME_EXPIRED: u8 = 1;
const NEIGHBOUR_SIGNALED_DOWN: u8 = 3;
const ADMINISTRATIVELY_DOWN: u8 = 7;

/// As the settings have them.
#[derive(Clone, Copy, Debug, PartialEq, Eq, Serialize, Deserialize)]
pub struct Times {
    /// Between two packets of either side, in ms.
    pub interval: u32,
    /// So many may be lost.
    pub multiplier: u8,
}

#[derive(Clone, Copy, Debug, PartialEq, Eq, Serialize, Deserialize)]
pub enum State {
    AdminDown,
    Down,
    Init,
    Up,
}

impl State {
    fn of(bits: u8) -> State {
        [State::AdminDown, State::Down, State::Init, State::Up][usize::from(bits & 3)]
    }

    pub fn name(self) -> &'static str {
        ["admin down", "down", "init", "up"][self as usize]
    }
}

/// A control packet, as far as it is looked at.
#[derive(Clone, Copy, Debug, PartialEq, Eq)]
pub struct Control {
    pub state: State,
    flags: u8,
    multiplier: u8,
    pub mine: u32,
    pub yours: u32,
    /// In microseconds.
    desired_tx: u32,
    required_rx: u32,
}

fn word(bytes: &[u8], at: usize) -> u32 {
    u32::from_be_bytes([bytes[at], bytes[at + 1], bytes[at + 2], bytes[at + 3]])
}

impl Control {
    /// `None` for a packet that is to be discarded whoever it is for (RFC 5880, 6.8.6).
    pub fn read(bytes: &[u8]) -> Option<Control> {
        if bytes.len() < LENGTH || usize::from(bytes[3]) < LENGTH || usize::from(bytes[3]) > bytes.len() {
            return None;
        }
        let it = Control {
            state: State::of(bytes[1] >> 6),
            flags: bytes[1] & 0x3f,
            multiplier: bytes[2],
            mine: word(bytes, 4),
            yours: word(bytes, 8),
            desired_tx: word(bytes, 12),
            required_rx: word(bytes, 16),
        };
        let is_known = bytes[0] >> 5 == VERSION && it.flags & (AUTHENTICATION | MULTIPOINT) == 0;
        let has_session = it.yours != 0 || matches!(it.state, State::AdminDown | State::Down);
        (is_known && it.multiplier != 0 && it.mine != 0 && has_session).then_some(it)
    }
}

/// What a packet or the time did to a session.
#[derive(Clone, Debug, Default, PartialEq, Eq)]
pub struct Change {
    /// To be sent at once.
    pub packet: Option<Vec<u8>>,
    pub is_up: bool,
    /// It was up, and the other side is gone. A session that the other side ends says nothing of it (RFC 5882, 4.3.2).
    pub is_lost: bool,
}

#[derive(Clone, Debug, PartialEq, Eq, Serialize, Deserialize)]
pub struct Session {
    times: Times,
    pub state: State,
    diagnostic: u8,
    pub discriminator: u32,
    remote: u32,
    remote_multiplier: u8,
    /// In microseconds.
    remote_desired_tx: u32,
    remote_required_rx: u32,
    polls: bool,
    send_due: u64,
    detect_due: Option<u64>,
}

impl Session {
    /// One that is down, with a number that no other one of this side has.
    pub fn new(times: Times, discriminator: u32, now: u64) -> Session {
        Session {
            times,
            state: State::Down,
            diagnostic: 0,
            discriminator,
            remote: 0,
            remote_multiplier: 0,
            remote_desired_tx: 0,
            remote_required_rx: 1,
            polls: false,
            send_due: now,
            detect_due: None,
        }
    }

    /// Takes other times, and tells the other side.
    pub fn set_times(&mut self, times: Times, now: u64) {
        if times != self.times {
            self.times = times;
            self.polls = true;
            self.send_due = now;
        }
    }

    /// In ms.
    fn desired_tx(&self) -> u32 {
        if self.state == State::Up {
            self.times.interval
        } else {
            self.times.interval.max(SLOW)
        }
    }

    fn packet(&self, flags: u8) -> Vec<u8> {
        let mut bytes = vec![VERSION << 5 | self.diagnostic, (self.state as u8) << 6 | flags];
        bytes.extend([self.times.multiplier, LENGTH as u8]);
        let words =
            [self.discriminator, self.remote, self.desired_tx() * MICROSECONDS, self.times.interval * MICROSECONDS, 0];
        words.iter().for_each(|word| bytes.extend(word.to_be_bytes()));
        bytes
    }

    fn own_flags(&self) -> u8 {
        if self.polls {
            POLL
        } else {
            0
        }
    }

    /// The last packet of a session that ends.
    pub fn ended(mut self) -> Vec<u8> {
        (self.state, self.diagnostic) = (State::AdminDown, ADMINISTRATIVELY_DOWN);
        self.packet(0)
    }

    /// When something is due, in ms.
    pub fn due(&self) -> u64 {
        self.detect_due.unwrap_or(u64::MAX).min(self.send_due)
    }

    /// Packets leave after three quarters of the interval to all of it; with one that may be lost, to nine tenths
    /// (RFC 5880, 6.8.7).
    fn send_later(&mut self, now: u64) {
        let interval = u64::from(self.desired_tx().max(self.remote_required_rx / MICROSECONDS));
        let most = if self.times.multiplier == 1 { 90 } else { 100 };
        let part = rand::thread_rng().gen_range(75..=most);
        self.send_due = if self.remote_required_rx == 0 { u64::MAX } else { now + interval * part / 100 };
    }

    fn detect_later(&mut self, now: u64) {
        let interval = (self.remote_desired_tx / MICROSECONDS).max(self.times.interval);
        self.detect_due = Some(now + u64::from(interval) * u64::from(self.remote_multiplier));
    }

    fn goes(&mut self, to: State, diagnostic: u8) {
        let is_other_pace = (self.state == State::Up) != (to == State::Up);
        (self.state, self.diagnostic) = (to, diagnostic);
        self.polls |= is_other_pace;
    }

    /// A packet for the session came.
    pub fn heard(&mut self, it: &Control, now: u64) -> Change {
        let before = self.state;
        self.remote = it.mine;
        self.remote_multiplier = it.multiplier;
        (self.remote_desired_tx, self.remote_required_rx) = (it.desired_tx, it.required_rx);
        self.polls &= it.flags & FINAL == 0;
        match (self.state, it.state) {
            (State::Down, State::AdminDown) => {}
            (_, State::AdminDown) => self.goes(State::Down, NEIGHBOUR_SIGNALED_DOWN),
            (State::Down, State::Down) => self.goes(State::Init, 0),
            (State::Down | State::Init, State::Init) | (State::Init, State::Up) => self.goes(State::Up, 0),
            (State::Up, State::Down) => self.goes(State::Down, NEIGHBOUR_SIGNALED_DOWN),
            _ => {}
        }
        self.detect_later(now);
        let is_asked = it.flags & POLL != 0;
        let is_new = self.state != before;
        if is_new || it.required_rx == 0 || self.send_due == u64::MAX {
            self.send_later(now);
        }
        // The interval may be shorter by now.
        if it.required_rx != 0 {
            let longest = self.desired_tx().max(it.required_rx / MICROSECONDS);
            self.send_due = self.send_due.min(now + u64::from(longest));
        }
        let packet = (is_asked || is_new).then(|| self.packet(if is_asked { FINAL } else { self.own_flags() }));
        let is_lost = before == State::Up && self.state == State::Down && it.state == State::Down;
        Change { packet, is_up: is_new && self.state == State::Up, is_lost }
    }

    /// What is due by the clock.
    pub fn passes(&mut self, now: u64) -> Change {
        let mut change = Change::default();
        if self.detect_due.map_or(false, |due| due <= now) {
            self.detect_due = None;
            change.is_lost = self.state == State::Up;
            if matches!(self.state, State::Up | State::Init) {
                self.goes(State::Down, DETECTION_TIME_EXPIRED);
                self.send_due = now;
            }
            // Who is silent may have begun anew (RFC 5880, 6.8.1).
            (self.remote, self.remote_required_rx) = (0, 1);
        }
        if self.send_due <= now {
            change.packet = Some(self.packet(self.own_flags()));
            self.send_later(now);
        }
        change
    }
}

#[cfg(test)]
mod tests {
    use super::*;

    const QUICK: Times = Times { interval: 300, multiplier: 3 };
    const SLOWER: Times = Times { interval: 400, multiplier: 2 };

    /// Two sides of a link, with what each sent last.
    struct Link {
        sides: [Session; 2],
        now: u64,
        is_cut: bool,
        sent: [Vec<(u64, Control)>; 2],
        lost: [Option<u64>; 2],
    }

    impl Link {
        fn new(one: Times, other: Times) -> Link {
            let sides = [Session::new(one, 11, 0), Session::new(other, 22, 0)];
            Link { sides, now: 0, is_cut: false, sent: Default::default(), lost: [None, None] }
        }

        fn took(&mut self, side: usize, change: Change) {
            if change.is_lost {
                self.lost[side].get_or_insert(self.now);
            }
            if let Some(packet) = change.packet {
                let control = Control::read(&packet).expect("it is in order");
                self.sent[side].push((self.now, control));
                if !self.is_cut {
                    let answer = self.sides[1 - side].heard(&control, self.now);
                    self.took(1 - side, answer);
                }
            }
        }

        fn passes(&mut self, milliseconds: u64) {
            for _ in 0..milliseconds {
                self.now += 1;
                for side in [0, 1] {
                    let change = self.sides[side].passes(self.now);
                    self.took(side, change);
                }
            }
        }

        fn states(&self) -> [State; 2] {
            [self.sides[0].state, self.sides[1].state]
        }
    }

    #[test]
    fn two_sides_come_up_and_keep_the_slower_pace() {
        let mut link = Link::new(QUICK, SLOWER);
        link.passes(3_000);
        assert_eq!(link.states(), [State::Up, State::Up]);
        // Each has said so and has its answer.
        assert!(link.sides.iter().all(|side| !side.polls));
        link.sent = Default::default();
        link.passes(10_000);
        for sent in &link.sent {
            let gaps: Vec<_> = sent.windows(2).map(|two| two[1].0 - two[0].0).collect();
            assert!(gaps.len() > 20 && gaps.iter().all(|gap| (300..=401).contains(gap)), "{gaps:?}");
        }
        assert_eq!(link.states(), [State::Up, State::Up]);
    }

    #[test]
    fn silence_is_noticed_after_the_detection_time() {
        let mut link = Link::new(QUICK, SLOWER);
        link.passes(5_000);
        link.is_cut = true;
        let last = [0, 1].map(|side: usize| link.sent[1 - side].last().expect("it sent").0);
        link.passes(3_000);
        // Twice 400 ms of the other one, and thrice.
        assert_eq!(link.lost, [Some(last[0] + 800), Some(last[1] + 1_200)]);
        assert_eq!(link.sides[0].diagnostic, DETECTION_TIME_EXPIRED);
        // At most one a second while it isn't up.
        link.sent = Default::default();
        link.passes(10_000);
        assert!((10..=14).contains(&link.sent[0].len()), "{}", link.sent[0].len());
        link.is_cut = false;
        link.passes(4_000);
        assert_eq!(link.states(), [State::Up, State::Up]);
    }

    #[test]
    fn an_end_that_is_said_is_no_loss() {
        let mut link = Link::new(QUICK, QUICK);
        link.passes(5_000);
        let goodbye = Control::read(&link.sides[0].clone().ended()).expect("it is in order");
        assert_eq!((goodbye.state, goodbye.mine, goodbye.yours), (State::AdminDown, 11, 22));
        let change = link.sides[1].heard(&goodbye, link.now);
        assert!(!change.is_lost && link.sides[1].state == State::Down);
        let mut link = Link::new(QUICK, QUICK);
        link.passes(5_000);
        let down = Control { state: State::Down, ..goodbye };
        assert!(link.sides[1].heard(&down, link.now).is_lost);
    }

    #[test]
    fn a_poll_is_answered_at_once() {
        let mut link = Link::new(QUICK, QUICK);
        link.passes(5_000);
        link.sides[0].set_times(Times { interval: 100, multiplier: 5 }, link.now);
        link.is_cut = true;
        link.passes(1);
        let (_, asked) = *link.sent[0].last().expect("it asks");
        assert_eq!((asked.flags & POLL, asked.desired_tx, asked.multiplier), (POLL, 100_000, 5));
        let answer = link.sides[1].heard(&asked, link.now).packet.expect("it answers");
        assert_eq!(answer[1], (State::Up as u8) << 6 | FINAL);
        link.sides[0].heard(&Control::read(&answer).expect("it is in order"), link.now);
        assert!(!link.sides[0].polls);
    }

    #[test]
    fn a_packet_has_its_fields_and_others_are_discarded() {
        let bytes = Session::new(QUICK, 0x01020304, 0).packet(0);
        let wanted =
            [0x20, 0x40, 3, 24, 1, 2, 3, 4, 0, 0, 0, 0, 0x00, 0x0f, 0x42, 0x40, 0x00, 0x04, 0x93, 0xe0, 0, 0, 0, 0];
        assert_eq!(bytes, wanted);
        let with = |at: usize, value: u8| {
            let mut other = bytes.clone();
            other[at] = value;
            Control::read(&other)
        };
        assert!(with(0, 0x20).is_some() && Control::read(&bytes[..23]).is_none());
        // Another version, a length, no multiplier, authentication, multipoint, up without a number of ours.
        let wrong = [(0, 0x40), (3, 23), (3, 25), (2, 0), (1, 0x44), (1, 0x41), (1, 0xc0)];
        assert!(wrong.iter().all(|(at, value)| with(*at, *value).is_none()));
        assert!(Control::read(&[&bytes[..4], &[0; 4], &bytes[8..]].concat()).is_none());
    }
}
