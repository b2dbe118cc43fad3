//! A flight recorder: the state of the library's router, each event that it took from then on with its moment and its
//! draw, what it answered, and a sum of what it sent.
//!
//! It writes the format of `viqeshor.recording` (docs/LIBRARY.md, "A recording"), so `tools/recorded` plays it. Two
//! files are written in turn, each from a state of its own on.
use crate::core::Event;
use crate::log::wall_time;
use crate::mroute::Key;
use crate::older::Speech;
use std::collections::BTreeMap;
use std::fs::File;
use std::io::{self, Write};
use std::path::PathBuf;
use std::time::Duration;
use time::OffsetDateTime;
use viqeshor::{Call, Error, Interface, Range, Route, Router, RpSet, Settings, Target, Verdict};

const MAGIC: &[u8; 4] = b"VQRC";
const VERSION: u16 = 7;
const DONE: u32 = 0;
/// What `viq_keep` answers where the source's timer doesn't run.
const NO_TIMER: u32 = 52;
/// What waits to be written: at most so many bytes, and after a turn for so long, in ms.
const ROOM: usize = 1 << 16;
const WAITS: u64 = 200;

/// Where it writes.
#[derive(Clone, Debug, PartialEq, Eq)]
pub struct Place {
    pub folder: PathBuf,
    /// Of the router, before the number of the file.
    pub name: String,
    /// The most bytes of both files.
    pub size: u64,
}

/// What was set in a router, which isn't in its saved state.
pub struct Set<'a> {
    pub speech: &'a BTreeMap<u32, Speech>,
    pub has_guard: bool,
    /// RPs that share an address.
    pub rp_sets: &'a [RpSet],
}

/// What a router is told with which it goes on.
pub struct Configuration<'a> {
    pub settings: &'a Settings,
    pub interfaces: &'a [Interface],
    pub routes: &'a [Route],
    pub ranges: &'a [Range],
    /// Where interfaces get other numbers.
    pub places: Option<&'a [Option<u32>]>,
}

pub struct Recorder {
    place: Place,
    number: usize,
    file: File,
    written: u64,
    waiting: Vec<u8>,
    /// With so many the other file is begun.
    full: u64,
    /// When what waits is written, in ms.
    due: Option<u64>,
}

pub fn answer_of(verdict: &Result<Verdict, Error>) -> u32 {
    match verdict {
        Ok(Verdict::Done) => DONE,
        Ok(Verdict::Ignored(reason)) => *reason as u32,
        Err(error) => error.number(),
    }
}

/// What `Router::sum` tells of packets before they are taken, by the processor's own instructions.
fn sum_of<'a>(sent: impl Iterator<Item = (Target, &'a [u8])>) -> u32 {
    let mut hasher = crc32fast::Hasher::new();
    for (target, bytes) in sent {
        let (letter, place): (u8, u32) = match target {
            Target::Unicast(to) => (b'u', to.into()),
            Target::Frame(iface) | Target::Copy(iface) => (b'f', iface),
        };
        hasher.update(&[letter]);
        hasher.update(&place.to_be_bytes());
        hasher.update(&(bytes.len() as u64).to_be_bytes());
        hasher.update(bytes);
    }
    hasher.finalize()
}

/// A call with this draw that had this answer; nothing of a call that wasn't done is to be sent.
fn answered<'a>(sent: impl Iterator<Item = (Target, &'a [u8])>, draw: u32, answer: u32) -> Call {
    let sum = if answer == DONE { sum_of(sent) } else { 0 };
    Call { draw, answer, sum, ..Call::default() }
}

fn refused(error: Error) -> io::Error {
    io::Error::new(io::ErrorKind::Other, error)
}

/// A setting, by its letter.
fn setting(letter: u8, iface: u32, value: u32, answer: u32) -> Call {
    Call { letter: letter.into(), iface, value, answer, ..Call::default() }
}

impl Place {
    fn path(&self, number: usize) -> PathBuf {
        self.folder.join(format!("{}.{number}", self.name))
    }

    /// The file that was written last.
    fn newest(&self) -> usize {
        let written = |number| std::fs::metadata(self.path(number)).and_then(|it| it.modified()).ok();
        usize::from(written(1) >= written(0))
    }
}

impl Recorder {
    /// Begins with the state that the router has, at a moment in ms. The file is written that wasn't the last one before.
    pub fn begin(place: &Place, router: &mut Router, set: &Set, now: u64) -> io::Result<Recorder> {
        // So that the moments of the records can be told as times.
        let began = OffsetDateTime::now_utc() - Duration::from_millis(now);
        std::fs::write(place.folder.join(format!("{}.clock", place.name)), wall_time(began) + "\n")?;
        let number = 1 - place.newest();
        let (file, written) = Recorder::file(place, number, router, set)?;
        let (place, waiting) = (place.clone(), Vec::with_capacity(2 * ROOM));
        let mut recorder = Recorder { place, number, file, written, waiting, full: 0, due: None };
        recorder.set_sizes();
        Ok(recorder)
    }

    /// Writes what is before the first event.
    fn file(place: &Place, number: usize, router: &mut Router, set: &Set) -> io::Result<(File, u64)> {
        let older = router.older_rows().map_err(refused)?.len() as u32;
        let state = router.save().map_err(refused)?;
        let mut bytes = [MAGIC.as_slice(), &VERSION.to_be_bytes()].concat();
        bytes.extend_from_slice(&older.to_be_bytes());
        bytes.extend_from_slice(&(state.len() as u64).to_be_bytes());
        bytes.extend_from_slice(&crc32fast::hash(&bytes).to_be_bytes());
        bytes.extend_from_slice(&state);
        for (iface, speech) in set.speech {
            setting(b'o', *iface, speech.older_hosts as u32, DONE).put(&[], &mut bytes).map_err(refused)?;
            setting(b'q', *iface, speech.queries as u32, DONE).put(&[], &mut bytes).map_err(refused)?;
        }
        if !set.has_guard {
            setting(b'd', 0, 0, DONE).put(&[], &mut bytes).map_err(refused)?;
        }
        if !set.rp_sets.is_empty() {
            Call::default().put_rp_sets(set.rp_sets, &mut bytes).map_err(refused)?;
        }
        let beside = place.folder.join(format!("{}.new", place.name));
        let mut file = File::create(&beside)?;
        file.write_all(&bytes)?;
        std::fs::rename(&beside, place.path(number))?;
        Ok((file, bytes.len() as u64))
    }

    /// A state that is nearly as long as a file may be is followed by as many bytes of events.
    fn set_sizes(&mut self) {
        let most = self.place.size / 2;
        self.full = most.max(2 * self.written);
    }

    pub fn place(&self) -> &Place {
        &self.place
    }

    /// A record was put.
    fn was_put(&mut self) -> io::Result<()> {
        match self.waiting.len() {
            waiting if waiting >= ROOM => self.flush(),
            _ => Ok(()),
        }
    }

    /// What the router answered to an event, and sent.
    pub fn event<'a>(
        &mut self,
        sent: impl Iterator<Item = (Target, &'a [u8])>,
        event: &Event,
        draw: u32,
        answer: u32,
    ) -> io::Result<()> {
        let call = answered(sent, draw, answer);
        let (kind, to) = (|letter: u8| u32::from(letter), &mut self.waiting);
        let put = match *event {
            Event::Advance(moment) => Call { letter: kind(b'a'), moment, ..call }.put(&[], to),
            Event::Frame(iface, packet) => Call { letter: kind(b'f'), iface, ..call }.put(packet, to),
            Event::Unicast(packet) => Call { letter: kind(b'u'), ..call }.put(packet, to),
            Event::Up(iface) => Call { letter: kind(b'+'), iface, ..call }.put(&[], to),
            Event::Down(iface) => Call { letter: kind(b'-'), iface, ..call }.put(&[], to),
            Event::Routes(routes) => call.put_routes(routes, to),
            Event::Ranges(ranges) | Event::Learned(ranges) => call.put_ranges(ranges, to),
            Event::Candidates(candidates) => call.put_candidates(candidates, to),
            Event::Seen(iface, key) => {
                let (source, group) = (key.source.into(), key.group.into());
                Call { letter: kind(b's'), iface, source, group, ..call }.put(&[], to)
            }
        };
        put.map_err(refused)?;
        self.was_put()
    }

    /// What the router answered to another configuration, and sent.
    pub fn reload<'a>(
        &mut self,
        sent: impl Iterator<Item = (Target, &'a [u8])>,
        it: &Configuration,
        draw: u32,
        answer: u32,
    ) -> io::Result<()> {
        let call = answered(sent, draw, answer);
        let to = &mut self.waiting;
        let put = match it.places {
            None => call.put_reload(it.settings, it.interfaces, it.routes, it.ranges, to),
            Some(places) => call.put_reload_places(it.settings, it.interfaces, it.routes, it.ranges, places, to),
        };
        put.map_err(refused)?;
        self.was_put()
    }

    pub fn kept(&mut self, key: Key, moment: u64, runs: bool) -> io::Result<()> {
        let (source, group) = (key.source.into(), key.group.into());
        let answer = if runs { DONE } else { NO_TIMER };
        let call = Call { letter: b'k'.into(), moment, source, group, answer, ..Call::default() };
        call.put(&[], &mut self.waiting).map_err(refused)?;
        self.was_put()
    }

    /// A setting, by its letter.
    pub fn set(&mut self, letter: u8, iface: u32, value: u32, answer: u32) -> io::Result<()> {
        setting(letter, iface, value, answer).put(&[], &mut self.waiting).map_err(refused)?;
        self.was_put()
    }

    /// Sets of RPs, which the router took.
    pub fn set_rp_sets(&mut self, sets: &[RpSet]) -> io::Result<()> {
        Call::default().put_rp_sets(sets, &mut self.waiting).map_err(refused)?;
        self.was_put()
    }

    /// When what waits is to be written, in ms.
    pub fn due(&self) -> Option<u64> {
        self.due
    }

    /// What waits is written.
    pub fn flush(&mut self) -> io::Result<()> {
        self.due = None;
        self.written += self.waiting.len() as u64;
        let written = self.file.write_all(&self.waiting);
        self.waiting.clear();
        written
    }

    /// After a turn, at a moment in ms: what waits for long is written, and where the file is full the other one begins.
    pub fn end_turn(&mut self, router: &mut Router, set: &Set, now: u64) -> io::Result<()> {
        if !self.waiting.is_empty() && *self.due.get_or_insert(now + WAITS) <= now {
            self.flush()?;
        }
        let size = self.written + self.waiting.len() as u64;
        if size >= self.full {
            self.flush()?;
            self.number = 1 - self.number;
            (self.file, self.written) = Recorder::file(&self.place, self.number, router, set)?;
            self.set_sizes();
        }
        Ok(())
    }
}

impl Drop for Recorder {
    fn drop(&mut self) {
        let _ = self.flush();
    }
}

#[cfg(test)]
mod tests {
    use super::*;
    use crate::outgoing::Outgoing;
    use std::net::Ipv4Addr;

    const OWN: Ipv4Addr = Ipv4Addr::new(10, 1, 0, 1);

    fn router() -> Router {
        let interfaces = [viqeshor::Interface::new(OWN, 24)];
        Router::new(&viqeshor::Settings::default(), &interfaces, &[], &[]).unwrap()
    }

    /// What it has to send, with the sum that it tells of it.
    fn taken(router: &mut Router) -> (Outgoing, u32) {
        let (mut sent, sum) = (Outgoing::default(), router.sum());
        sent.take(router);
        assert_eq!(sum_of(sent.since(0)), sum);
        (sent, sum)
    }

    fn place(name: &str, size: u64) -> Place {
        let folder = std::env::temp_dir().join(format!("viqeshord-recorder-{name}-{}", std::process::id()));
        std::fs::create_dir_all(&folder).unwrap();
        Place { folder, name: "router".to_string(), size }
    }

    #[test]
    fn records_are_as_the_library_writes_them() {
        let (place, mut router) = (place("form", 1 << 20), router());
        let speech = BTreeMap::from([(0, Speech::NEW)]);
        let (shared, others) = (Ipv4Addr::new(10, 9, 9, 9), vec![Ipv4Addr::new(10, 1, 0, 7)]);
        let sets = [RpSet { shared, own: OWN, others }];
        let set = Set { speech: &speech, has_guard: true, rp_sets: &sets };
        let state = router.save().unwrap();
        let mut recorder = Recorder::begin(&place, &mut router, &set, 0).unwrap();
        let answer = answer_of(&router.up(0, 7));
        let (sent, sum) = taken(&mut router);
        assert_ne!(sum, 0);
        recorder.event(sent.since(0), &Event::Up(0), 7, answer).unwrap();
        let routes = [Route::new(Ipv4Addr::new(10, 9, 0, 0), 16, Ipv4Addr::new(10, 1, 0, 2), 0)];
        let answer = answer_of(&router.set_routes(&routes, 8));
        recorder.event(taken(&mut router).0.since(0), &Event::Routes(&routes), 8, answer).unwrap();
        let key = Key { source: OWN, group: Ipv4Addr::new(239, 1, 1, 1) };
        recorder.kept(key, 5, false).unwrap();
        let interfaces = [Interface { priority: 7, ..Interface::new(OWN, 24) }];
        let ranges = [Range::new(Ipv4Addr::new(239, 0, 0, 0), 8, OWN)];
        let addresses = vec![Ipv4Addr::new(10, 255, 0, 1)];
        let settings = Settings { limit: 1000, stays_on_shared_tree: true, addresses, ..Settings::default() };
        router.reload(&settings, &interfaces, &routes, &ranges, 9).unwrap();
        let (interfaces, routes, ranges) = (&interfaces[..], &routes[..], &ranges[..]);
        let given = Configuration { settings: &settings, interfaces, routes, ranges, places: None };
        let (sent, sum_then) = taken(&mut router);
        assert_ne!(sum_then, 0);
        recorder.reload(sent.since(0), &given, 9, DONE).unwrap();
        router.reload_places(&settings, interfaces, routes, ranges, &[Some(0)], 9).unwrap();
        let given = Configuration { places: Some(&[Some(0)]), ..given };
        recorder.reload(taken(&mut router).0.since(0), &given, 9, DONE).unwrap();
        recorder.set_rp_sets(&[]).unwrap();
        recorder.end_turn(&mut router, &set, 0).unwrap();
        assert_eq!(recorder.due(), Some(WAITS));
        recorder.end_turn(&mut router, &set, WAITS).unwrap();
        assert_eq!(recorder.due(), None);
        let summed = |bytes: Vec<u8>| [&bytes[..], &crc32fast::hash(&bytes).to_be_bytes()].concat();
        let head = [b"VQRC\0\x07\0\0\0\0".as_slice(), &(state.len() as u64).to_be_bytes()].concat();
        let mut wanted = [summed(head), state].concat();
        let words = |numbers: &[u32]| numbers.iter().flat_map(|number| number.to_be_bytes()).collect::<Vec<_>>();
        let record = |letter: u8, numbers: &[u32]| [vec![letter], words(numbers)].concat();
        let route = [0x0a09_0000, 16, 0x0a01_0002, 0, 110, 20];
        wanted.extend(summed(record(b'o', &[0, 0, 0, 0])));
        wanted.extend(summed(record(b'q', &[0, 3, 0, 0])));
        let in_sets = [0, 1, shared.into(), OWN.into(), 0, 1, 0x0a01_0007, 0, 0];
        wanted.extend(summed(record(b'y', &in_sets)));
        wanted.extend(summed(record(b'+', &[7, 0, 0, sum])));
        wanted.extend(summed(record(b'r', &[&[8, 0, 1], &route[..], &[0, 0]].concat())));
        wanted.extend(summed(record(b'k', &[OWN.into(), 0xef01_0101, 0, 5, 52, 0])));
        let mut reload = record(b'c', &[9, 1000]);
        reload.push(1);
        reload.extend(words(&[2, 125, 100, 10, 0, 1, OWN.into(), 24, 7, 500, 2500, 0, 1, 0x0aff_0001, 0, 1]));
        reload.extend(words(&[&route[..], &[0, 1, 0xef00_0000, 8, OWN.into(), 0, sum_then]].concat()));
        let behind = reload.len() - 8;
        let placed = [&b"m"[..], &reload[1..behind], &words(&[0, 1, 0, 0, 0])].concat();
        wanted.extend(summed(reload));
        wanted.extend(summed(placed));
        wanted.extend(summed(record(b'y', &[0, 0, 0, 0])));
        assert_eq!(std::fs::read(place.path(0)).unwrap(), wanted);
        std::fs::remove_dir_all(&place.folder).unwrap();
    }

    #[test]
    fn two_files_are_written_in_turn_and_bounded() {
        let (place, mut router) = (place("ring", 4_000), router());
        let set = Set { speech: &BTreeMap::new(), has_guard: true, rp_sets: &[] };
        let mut recorder = Recorder::begin(&place, &mut router, &set, 0).unwrap();
        for moment in 1..1_000 {
            let answer = answer_of(&router.advance(moment, 0));
            recorder.event(taken(&mut router).0.since(0), &Event::Advance(moment), 0, answer).unwrap();
            recorder.end_turn(&mut router, &set, moment).unwrap();
            let sizes = [0, 1].map(|number| std::fs::metadata(place.path(number)).map_or(0, |it| it.len()));
            assert!(sizes.iter().sum::<u64>() <= 4_100, "{sizes:?}");
        }
        // Another one leaves the newest file, and begins with the other one.
        let last = recorder.number;
        drop(recorder);
        std::thread::sleep(std::time::Duration::from_millis(20));
        let before = std::fs::read(place.path(last)).unwrap();
        assert_eq!(Recorder::begin(&place, &mut router, &set, 999).unwrap().number, 1 - last);
        let clock = std::fs::read_to_string(place.folder.join("router.clock")).unwrap();
        assert!(clock < wall_time(OffsetDateTime::now_utc()) && clock.ends_with("Z\n"));
        assert_eq!(std::fs::read(place.path(last)).unwrap(), before);
        std::fs::remove_dir_all(&place.folder).unwrap();
    }
}
