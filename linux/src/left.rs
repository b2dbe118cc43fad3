//! What a router leaves to the one that goes on in its place: the state of the library's router as bytes, and what of
//! the daemon isn't in them.
//!
//! It is handed over in a sealed file of memory, or stands in a file of the runtime directory. Its version is the
//! daemon's own: where another one is read, the router begins anew.
use crate::bfd::Session;
use crate::mroute::{Forwarded, Key};
use crate::netlink::Used;
use crate::plane::{Entry, Way};
use serde::{Deserialize, Serialize};
use std::io::{self, Write};
use std::net::Ipv4Addr;
use std::os::unix::fs::OpenOptionsExt;
use std::path::Path;
use viqeshor::{Range, RpSet};

const MAGIC: &[u8; 4] = b"VQRD";
const VERSION: u16 = 1;
const NS_PER_MS: u64 = 1_000_000;

/// By which a library's router was made. One that is restored has to have the same.
#[derive(Clone, Debug, PartialEq, Eq, Serialize, Deserialize)]
pub struct Told {
    pub limit: u32,
    pub robustness: u32,
    pub query_interval: u32,
    pub query_response: u32,
    pub last_member_query: u32,
    pub stays_on_shared_tree: bool,
    /// Of each interface the address, its prefix, the priority and the two delays.
    pub interfaces: Vec<(Ipv4Addr, u32, u32, u32, u32)>,
    /// The own addresses that are on no link.
    #[serde(default)]
    pub addresses: Vec<Ipv4Addr>,
}

impl Told {
    pub fn is_own(&self, address: Ipv4Addr) -> bool {
        self.interfaces.iter().any(|it| it.0 == address) || self.addresses.contains(&address)
    }

    /// Why a router with these addresses can't have a set of RPs that share one.
    pub fn unfit(&self, set: &RpSet) -> Option<String> {
        let of_set = format!("the set of RPs that share {}", set.shared);
        let lacking = [set.shared, set.own].iter().copied().find(|address| !self.is_own(*address));
        let lacks = lacking.map(|address| format!("{of_set} waits: no interface has the address {address}"));
        let own = set.others.iter().find(|other| self.is_own(**other));
        lacks.or_else(|| own.map(|other| format!("{of_set} is left out: its other {other} is this router's own")))
    }
}

#[derive(Clone, Debug, PartialEq, Eq, Serialize, Deserialize)]
pub struct LeftPort {
    pub name: String,
    pub subnet: Option<(Ipv4Addr, u8)>,
    pub index: Option<u32>,
    pub vif: Option<u16>,
    /// It is on no link.
    #[serde(default)]
    pub is_apart: bool,
    pub is_up: bool,
    pub since: u64,
    pub hello: Option<Vec<u8>>,
    pub hello_due: Option<u64>,
}

#[derive(Clone, Debug, PartialEq, Eq, Serialize, Deserialize)]
pub struct LeftNeighbour {
    pub iface: u32,
    pub address: Ipv4Addr,
    pub since: u64,
    pub said: String,
    pub priority: Option<u32>,
    #[serde(default)]
    pub generation: Option<u32>,
}

#[derive(Clone, Debug, PartialEq, Eq, Serialize, Deserialize)]
pub struct LeftSession {
    pub iface: u32,
    pub address: Ipv4Addr,
    pub session: Session,
}

/// What the kernel's cache has of a source, and what is known beside that.
#[derive(Clone, Debug, PartialEq, Eq, Serialize, Deserialize)]
pub struct LeftEntry {
    pub source: Ipv4Addr,
    pub group: Ipv4Addr,
    accepted: Option<u32>,
    parent: u16,
    outgoing: u32,
    is_refused: bool,
    is_unset: bool,
    is_kept: bool,
    came_on: Option<u32>,
    since: u64,
    told: u64,
    came_whole: bool,
    /// Packets, bytes, strays and idle time, as the kernel counted last.
    used: Option<(u64, u64, u64, u64)>,
}

impl LeftEntry {
    pub fn of(key: Key, entry: &Entry) -> LeftEntry {
        LeftEntry {
            source: key.source,
            group: key.group,
            accepted: entry.way.accepted,
            parent: entry.way.forwarded.parent,
            outgoing: entry.way.forwarded.outgoing,
            is_refused: entry.way.is_refused,
            is_unset: entry.is_unset,
            is_kept: entry.is_kept,
            came_on: entry.came_on,
            since: entry.since,
            told: entry.told,
            came_whole: entry.came_whole,
            used: entry.used.map(|used| (used.packets, used.bytes, used.stray, used.idle)),
        }
    }

    pub fn key(&self) -> Key {
        Key { source: self.source, group: self.group }
    }

    /// As it stood, without a row of the library.
    pub fn entry(&self) -> Entry {
        let key = self.key();
        let forwarded = Forwarded { parent: self.parent, outgoing: self.outgoing };
        let used = |(packets, bytes, stray, idle)| Used { key, packets, bytes, stray, idle };
        Entry {
            row: None,
            came_on: self.came_on,
            way: Way { accepted: self.accepted, forwarded, is_refused: self.is_refused },
            is_unset: self.is_unset,
            is_kept: self.is_kept,
            since: self.since,
            used: self.used.map(used),
            told: self.told,
            came_whole: self.came_whole,
        }
    }
}

/// A range of groups, and its RP.
#[derive(Clone, Debug, PartialEq, Eq, Serialize, Deserialize)]
pub struct LeftRange {
    prefix: Ipv4Addr,
    length: u32,
    rp: Ipv4Addr,
}

impl LeftRange {
    pub fn of(ranges: &[Range]) -> Vec<LeftRange> {
        ranges.iter().map(|it| LeftRange { prefix: it.prefix, length: it.length, rp: it.rp }).collect()
    }
}

#[derive(Clone, Debug, PartialEq, Eq, Serialize, Deserialize)]
pub struct Left {
    /// Of which start of the machine it is.
    pub boot: String,
    /// What the machine's clock (CLOCK_MONOTONIC) showed at timestamp 0, in ns.
    pub began: u64,
    /// When it was saved, in ms.
    pub moment: u64,
    /// The router's VRF or table.
    pub domain: Option<String>,
    pub told: Told,
    pub ports: Vec<LeftPort>,
    pub neighbours: Vec<LeftNeighbour>,
    pub sessions: Vec<LeftSession>,
    pub entries: Vec<LeftEntry>,
    /// Of a router that was made anew, and learns.
    pub learned: Option<u64>,
    pub unlearned: u64,
    /// The ranges of the file, of a router that hears Bootstraps.
    #[serde(default)]
    pub ranges: Option<Vec<LeftRange>>,
    /// What it learned of them, as the library's bytes.
    #[serde(default)]
    pub listener: Option<Vec<u8>>,
    /// The processes that write answers.
    pub answers: Vec<i32>,
    /// The router that left it had ended in order, so that nothing happened since.
    #[serde(default)]
    pub is_in_order: bool,
}

/// Why what was left can't be taken.
#[derive(Clone, Debug, PartialEq, Eq, thiserror::Error)]
pub enum Unusable {
    #[error("it isn't whole")]
    CutShort,
    #[error("it is of version {0}, and this router reads {VERSION}")]
    OtherVersion(u16),
    #[error("it can't be read: {0}")]
    Unreadable(String),
    #[error("it is of another start of the machine")]
    OtherBoot,
    #[error("it is of the router of {0}")]
    OtherDomain(String),
    #[error("it is {0} ms old, and one of more than {1} ms isn't taken")]
    Old(u64, u64),
}

/// What CLOCK_MONOTONIC shows, in ns.
pub fn clock() -> u64 {
    let mut time = libc::timespec { tv_sec: 0, tv_nsec: 0 };
    // SAFETY: the place is one such structure.
    unsafe { libc::clock_gettime(libc::CLOCK_MONOTONIC, &mut time) };
    time.tv_sec as u64 * 1_000_000_000 + time.tv_nsec as u64
}

/// The number of this start of the machine; empty where the kernel doesn't tell it.
pub fn boot() -> String {
    std::fs::read_to_string("/proc/sys/kernel/random/boot_id").unwrap_or_default().trim().to_string()
}

/// Takes a number of bytes off the front.
fn taken<'a>(bytes: &mut &'a [u8], count: usize) -> Result<&'a [u8], Unusable> {
    if bytes.len() < count {
        return Err(Unusable::CutShort);
    }
    let (front, rest) = bytes.split_at(count);
    *bytes = rest;
    Ok(front)
}

fn length(bytes: &mut &[u8]) -> Result<usize, Unusable> {
    let mut eight = [0; 8];
    eight.copy_from_slice(taken(bytes, 8)?);
    usize::try_from(u64::from_be_bytes(eight)).map_err(|_| Unusable::CutShort)
}

impl Left {
    /// With the bytes of the library's router.
    pub fn bytes(&self, saved: &[u8]) -> Vec<u8> {
        let own = serde_json::to_vec(self).unwrap_or_default();
        let mut bytes = [MAGIC.as_slice(), &VERSION.to_be_bytes()].concat();
        for part in [&own, saved] {
            bytes.extend((part.len() as u64).to_be_bytes());
            bytes.extend(part);
        }
        bytes.extend(crc32fast::hash(&bytes).to_be_bytes());
        bytes
    }

    pub fn read(whole: &[u8]) -> Result<(Left, Vec<u8>), Unusable> {
        let mut rest = whole;
        if taken(&mut rest, MAGIC.len())? != MAGIC {
            return Err(Unusable::Unreadable("it is something else".to_string()));
        }
        let version = taken(&mut rest, 2)?;
        match u16::from_be_bytes([version[0], version[1]]) {
            VERSION => {}
            other => return Err(Unusable::OtherVersion(other)),
        }
        let count = length(&mut rest)?;
        let own = taken(&mut rest, count)?;
        let count = length(&mut rest)?;
        let saved = taken(&mut rest, count)?.to_vec();
        let summed = &whole[..whole.len() - rest.len()];
        if taken(&mut rest, 4)? != crc32fast::hash(summed).to_be_bytes() {
            return Err(Unusable::CutShort);
        }
        let left = serde_json::from_slice(own).map_err(|error| Unusable::Unreadable(error.to_string()))?;
        Ok((left, saved))
    }

    /// How long ago it was saved, in ms.
    pub fn age(&self) -> u64 {
        (clock().saturating_sub(self.began) / NS_PER_MS).saturating_sub(self.moment)
    }

    /// Whether a router of a VRF or a table may take it, which takes none that is older than so many ms.
    pub fn check(&self, domain: Option<&str>, fresh: u64) -> Result<(), Unusable> {
        if self.boot != boot() || self.began > clock() {
            return Err(Unusable::OtherBoot);
        }
        if self.domain.as_deref() != domain {
            let usual = || "the usual tables".to_string();
            return Err(Unusable::OtherDomain(self.domain.clone().unwrap_or_else(usual)));
        }
        match self.age() {
            age if age > fresh => Err(Unusable::Old(age, fresh)),
            _ => Ok(()),
        }
    }
}

/// Writes a file that is whole or isn't there: under another name first, which is then given its own.
pub fn write(path: &Path, bytes: &[u8]) -> io::Result<()> {
    let beside = path.with_extension("new");
    let mut file = std::fs::OpenOptions::new().write(true).create(true).truncate(true).mode(0o600).open(&beside)?;
    file.write_all(bytes)?;
    std::fs::rename(&beside, path)
}

#[cfg(test)]
mod tests {
    use super::*;
    use crate::bfd::Times;

    fn left() -> Left {
        let times = Times { interval: 300, multiplier: 3 };
        let address = Ipv4Addr::new(10, 1, 0, 2);
        let key = Key { source: address, group: Ipv4Addr::new(239, 1, 1, 1) };
        let way = Way { accepted: Some(1), forwarded: Forwarded { parent: 1, outgoing: 5 }, is_refused: false };
        let used = Used { key, packets: u64::MAX, bytes: 2, stray: 3, idle: 4 };
        let entry = Entry {
            row: None,
            came_on: Some(1),
            way,
            is_unset: false,
            is_kept: true,
            since: 5,
            used: Some(used),
            told: 6,
            came_whole: true,
        };
        Left {
            boot: boot(),
            began: clock(),
            moment: 0,
            domain: None,
            told: Told {
                limit: 1,
                robustness: 2,
                query_interval: 3,
                query_response: 4,
                last_member_query: 5,
                stays_on_shared_tree: true,
                interfaces: vec![(address, 24, 1, 500, 2500)],
                addresses: vec![[10, 255, 0, 1].into()],
            },
            ports: vec![LeftPort {
                name: "eth0".to_string(),
                subnet: Some((address, 24)),
                index: Some(2),
                vif: Some(0),
                is_apart: false,
                is_up: true,
                since: 7,
                hello: Some(vec![1, 2, 3]),
                hello_due: Some(8),
            }],
            neighbours: vec![LeftNeighbour {
                iface: 0,
                address,
                since: 9,
                said: "it".to_string(),
                priority: None,
                generation: Some(7),
            }],
            sessions: vec![LeftSession { iface: 0, address, session: Session::new(times, 77, 10) }],
            entries: vec![LeftEntry::of(key, &entry)],
            learned: Some(11),
            unlearned: 12,
            ranges: Some(LeftRange::of(&[Range::new([239, 0, 0, 0].into(), 8, [10, 0, 0, 9].into())])),
            listener: Some(vec![14, 15]),
            answers: vec![13],
            is_in_order: true,
        }
    }

    #[test]
    fn what_is_left_is_read_again() {
        let (left, saved) = (left(), vec![9; 1_000]);
        assert_eq!(Left::read(&left.bytes(&saved)), Ok((left.clone(), saved)));
        let entry = left.entries[0].entry();
        assert_eq!(LeftEntry::of(left.entries[0].key(), &entry), left.entries[0]);
    }

    /// One that had every address on a link, said of its loopback that it is one, and kept nothing of Bootstraps.
    #[test]
    fn what_an_older_daemon_left_is_read() {
        let mut value = serde_json::to_value(left()).expect("it is JSON");
        value["told"].as_object_mut().expect("it has fields").remove("addresses");
        value.as_object_mut().expect("it has fields").remove("listener");
        let port = value["ports"][0].as_object_mut().expect("it has fields");
        port.remove("is_apart");
        port.insert("is_loopback".to_string(), true.into());
        let read: Left = serde_json::from_value(value).expect("it is read");
        assert_eq!((read.told.addresses.len(), read.ports[0].is_apart, read.listener), (0, false, None));
    }

    #[test]
    fn what_is_spoilt_is_refused() {
        let bytes = left().bytes(b"of the library");
        assert!((0..bytes.len()).all(|length| Left::read(&bytes[..length]).is_err()));
        let is_refused = |at: usize| {
            let mut spoilt = bytes.clone();
            spoilt[at] ^= 0x20;
            Left::read(&spoilt).is_err()
        };
        assert!((0..bytes.len()).all(is_refused));
        let mut other = bytes.clone();
        other[5] = 2;
        assert_eq!(Left::read(&other), Err(Unusable::OtherVersion(2)));
    }

    #[test]
    fn what_is_of_another_router_or_old_is_refused() {
        let mut it = left();
        assert_eq!(it.check(None, 1_000), Ok(()));
        assert!(matches!(it.check(Some("red"), 1_000), Err(Unusable::OtherDomain(_))));
        it.began -= 2_000 * NS_PER_MS;
        assert!(matches!(it.check(None, 1_000), Err(Unusable::Old(2_000..=60_000, 1_000))));
        it.moment = 1_500;
        assert_eq!(it.check(None, 30_000), Ok(()));
        it.boot = "another".to_string();
        assert_eq!(it.check(None, 30_000), Err(Unusable::OtherBoot));
    }

    #[test]
    fn a_file_is_written_whole() {
        let path = std::env::temp_dir().join(format!("viqeshord-left-{}", std::process::id()));
        write(&path, b"first").unwrap();
        write(&path, b"second").unwrap();
        assert_eq!(std::fs::read(&path).unwrap(), b"second");
        assert!(!path.with_extension("new").exists());
        std::fs::remove_file(&path).unwrap();
    }
}
