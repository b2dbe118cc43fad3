//! A session with a peer that is up (RFC 3618, 11): what came is read message by message, and what is to leave waits for
//! the socket.
use super::tlv::{self, Message, Read};
use super::{HOLD, KEEPALIVE};
use crate::mroute::Key;
use std::net::Ipv4Addr;

/// A peer that doesn't read is let go when so many bytes wait for it.
const MOST_WAITING: usize = 4 << 20;

/// A Source-Active message that came.
#[derive(Clone, Debug, PartialEq, Eq)]
pub struct Told {
    pub rp: Ipv4Addr,
    pub keys: Vec<Key>,
    pub packet: Option<(Key, Vec<u8>)>,
}

#[derive(Debug, Default, PartialEq, Eq)]
pub struct Counts {
    /// Source-Active messages.
    pub heard: u64,
    pub sent: u64,
    /// Messages of types that aren't used.
    pub others: u64,
}

#[derive(Debug)]
pub struct Session {
    /// In ms.
    pub since: u64,
    came: Vec<u8>,
    leaves: Vec<u8>,
    hold_due: u64,
    keepalive_due: u64,
    pub counts: Counts,
}

impl Session {
    /// One that has come up: a Keepalive leaves.
    pub fn new(now: u64) -> Session {
        let mut session = Session {
            since: now,
            came: Vec::new(),
            leaves: Vec::new(),
            hold_due: now + HOLD,
            keepalive_due: now,
            counts: Counts::default(),
        };
        session.keep_alive(now);
        session
    }

    fn keep_alive(&mut self, now: u64) {
        self.leaves.extend(tlv::keepalive());
        self.keepalive_due = now + KEEPALIVE;
    }

    /// Source-Active messages of these sources are to leave.
    pub fn tell(&mut self, rp: Ipv4Addr, keys: &[Key], now: u64) {
        if !keys.is_empty() {
            self.leaves.extend(tlv::source_actives(rp, keys));
            self.counts.sent += ((keys.len() + tlv::MOST_ENTRIES - 1) / tlv::MOST_ENTRIES) as u64;
            self.keepalive_due = now + KEEPALIVE;
        }
    }

    /// Bytes came. An `Err` says why the session is over.
    pub fn heard(&mut self, bytes: &[u8], now: u64) -> Result<Vec<Told>, &'static str> {
        self.came.extend(bytes);
        let (mut at, mut told) = (0, Vec::new());
        loop {
            let (message, length) = match tlv::read(&self.came[at..]) {
                Read::Whole(message, length) => (message, length),
                Read::Part => break,
                Read::Wrong(why) => return Err(why),
            };
            self.hold_due = now + HOLD;
            match message {
                Message::SourceActive(it) => {
                    self.counts.heard += 1;
                    let packet = it.packet.map(|(key, packet)| (key, packet.to_vec()));
                    told.push(Told { rp: it.rp, keys: it.keys, packet });
                }
                Message::Keepalive => {}
                Message::Other(_) => self.counts.others += 1,
            }
            at += length;
        }
        self.came.drain(..at);
        Ok(told)
    }

    /// What is due by the clock. An `Err` says why the session is over.
    pub fn passes(&mut self, now: u64) -> Result<(), &'static str> {
        if self.hold_due <= now {
            return Err("nothing was heard of it for 75 s");
        }
        if self.leaves.len() > MOST_WAITING {
            return Err("it doesn't read what is sent");
        }
        if self.keepalive_due <= now {
            self.keep_alive(now);
        }
        Ok(())
    }

    /// When something is due, in ms.
    #[cfg(test)]
    pub fn due(&self) -> u64 {
        self.hold_due.min(self.keepalive_due)
    }

    /// The bytes that are to leave.
    pub fn leaves(&self) -> &[u8] {
        &self.leaves
    }

    /// So many have left.
    pub fn left(&mut self, count: usize) {
        self.leaves.drain(..count);
    }
}

#[cfg(test)]
mod tests {
    use super::*;

    const RP: Ipv4Addr = Ipv4Addr::new(10, 0, 0, 9);

    fn key(last: u8) -> Key {
        Key { source: [10, 1, 0, last].into(), group: [239, 1, 1, last].into() }
    }

    #[test]
    fn two_sides_keep_each_other_alive() {
        let (mut one, mut other) = (Session::new(0), Session::new(0));
        for now in (0..600_000).step_by(1_000) {
            one.passes(now).expect("it is alive");
            other.passes(now).expect("it is alive");
            let (from_one, from_other) = (one.leaves().to_vec(), other.leaves().to_vec());
            one.left(from_one.len());
            other.left(from_other.len());
            assert!(other.heard(&from_one, now).unwrap().is_empty() && one.heard(&from_other, now).unwrap().is_empty());
            assert!(one.due() > now);
        }
        // One that says nothing more is gone 75 s after its last message.
        let last = 540_000;
        assert!(one.passes(last + 74_999).is_ok() && one.passes(last + HOLD).is_err());
    }

    #[test]
    fn a_message_comes_whole_however_it_is_cut() {
        let mut from = Session::new(0);
        from.tell(RP, &[key(1), key(2)], 5);
        let bytes = from.leaves().to_vec();
        for cut in 0..bytes.len() {
            let mut to = Session::new(0);
            let mut told = to.heard(&bytes[..cut], 1).unwrap();
            told.extend(to.heard(&bytes[cut..], 2).unwrap());
            assert_eq!(told, [Told { rp: RP, keys: vec![key(1), key(2)], packet: None }]);
            assert_eq!((to.counts.heard, to.counts.others, to.came.len()), (1, 0, 0));
        }
        assert_eq!(from.counts.sent, 1);
        // What is told stands for a Keepalive.
        assert_eq!(from.due(), 5 + KEEPALIVE);
    }

    #[test]
    fn wrong_bytes_end_it_and_unknown_types_dont() {
        let mut session = Session::new(0);
        assert!(session.heard(&[9, 0, 4, 0, 5, 0, 3], 1).unwrap().is_empty());
        assert_eq!(session.counts.others, 2);
        assert!(session.heard(b"GET / HTTP/1.1\r\n\r\n", 2).unwrap().is_empty());
        assert_eq!(session.heard(&[1, 0, 0], 3).ok(), Some(Vec::new()));
        let mut session = Session::new(0);
        assert!(session.heard(&[4, 0, 3, 1, 0, 2], 3).is_err());
    }

    #[test]
    fn a_peer_that_doesnt_read_is_let_go() {
        let mut session = Session::new(0);
        let keys: Vec<_> = (0..200).map(key).collect();
        while session.leaves().len() <= MOST_WAITING {
            session.tell(RP, &keys, 1);
        }
        assert!(session.passes(2).is_err());
    }
}
