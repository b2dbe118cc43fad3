//! The kernel's forwarding cache as it stands, kept to the rows that the router tells.
//!
//! The kernel accepts packets of a source and a group on one virtual interface. So of a row:
//!
//! - where packets on its incoming interface are forwarded, the entry accepts them there and sends them to the
//!   outgoing ones;
//! - where they are the router's, the entry accepts them and sends them to the register tunnel alone: then each comes
//!   up
//!   whole;
//! - where there is no incoming interface, or nothing would leave of what comes on it, and packets on another one are
//!   the router's, the entry accepts those likewise;
//! - where nothing is to be had, the entry accepts on the register tunnel, and sends nowhere.
//!
//! What comes on another interface is a stray for the kernel, which drops it and hands up one in three seconds, whole. Of
//! a new entry it hands up the first at once: so an entry is made anew where the router begins to wait for what strays.
use crate::mroute::{Forwarded, Key, REGISTER_VIF};
use crate::netlink::Used;
use std::collections::{BTreeSet, HashMap};
use std::io;
use std::net::Ipv4Addr;
use viqeshor::{Interfaces, PlaneRow};

/// Told so long after a source's last packet that it was alive, the router would let it go.
pub const KEEPALIVE: u64 = 210_000;

/// Where entries stand.
pub trait Cache {
    fn put(&self, key: Key, forwarded: Forwarded) -> io::Result<()>;
    fn remove(&self, key: Key) -> io::Result<()>;
}

/// What the router tells of a source and a group.
#[derive(Clone, Copy, Debug, PartialEq, Eq)]
pub struct Row {
    /// The source has a fact: the row stays until the router says that it changed, else until the router's next event.
    pub is_known: bool,
    pub incoming: Option<u32>,
    pub outgoing: Interfaces,
    pub alive: Interfaces,
    pub to_core: Interfaces,
}

impl Row {
    fn renumbered(self, there: &impl Fn(u32) -> Option<u32>) -> Row {
        let set = |old: Interfaces| interfaces(old.iter().filter_map(there));
        Row {
            is_known: self.is_known,
            incoming: self.incoming.and_then(there),
            outgoing: set(self.outgoing),
            alive: set(self.alive),
            to_core: set(self.to_core),
        }
    }
}

fn interfaces(numbers: impl Iterator<Item = u32>) -> Interfaces {
    let set = numbers.fold(0, |set, number| set | 1_u128 << number);
    Interfaces { low: set as u64, high: (set >> 64) as u64 }
}

impl From<PlaneRow> for Row {
    fn from(row: PlaneRow) -> Row {
        Row {
            is_known: row.is_known,
            incoming: row.incoming(),
            outgoing: row.outgoing,
            alive: row.alive,
            to_core: row.to_core,
        }
    }
}

/// What the interfaces of the router are for the kernel.
pub struct Ways<'a> {
    /// The virtual interface of an interface, where it has one.
    pub vif: &'a dyn Fn(u32) -> Option<u16>,
    /// Whether packets of a source may come on an interface.
    pub permits: &'a dyn Fn(u32, Key) -> bool,
}

/// What the kernel is to do of the packets of a source.
#[derive(Clone, Copy, Debug, PartialEq, Eq)]
pub struct Way {
    /// Where they are accepted.
    pub accepted: Option<u32>,
    pub forwarded: Forwarded,
    /// They are dropped there, since the settings don't permit them.
    pub is_refused: bool,
}

const NOWHERE: Way =
    Way { accepted: None, forwarded: Forwarded { parent: REGISTER_VIF, outgoing: 0 }, is_refused: false };

/// What the kernel is to do by a row, of a source of which packets came last on an interface.
pub fn way(key: Key, row: Option<&Row>, came_on: Option<u32>, ways: &Ways) -> Way {
    let row = match row {
        Some(row) => row,
        None => return NOWHERE,
    };
    let has_vif = |iface: &u32| (ways.vif)(*iface).is_some();
    let incoming = row.incoming.filter(has_vif);
    // Where the router waits for them: where they come, if it waits there.
    let is_core = |iface: &u32| row.to_core.contains(*iface) && has_vif(iface);
    let core = || came_on.filter(is_core).or(incoming.filter(is_core)).or_else(|| row.to_core.iter().find(has_vif));
    let flows = incoming.filter(|iface| row.outgoing.iter().any(|other| other != *iface && has_vif(&other)));
    let accepted = flows.or_else(core).or(incoming);
    let (iface, parent) = match accepted.and_then(|iface| Some((iface, (ways.vif)(iface)?))) {
        Some(found) => found,
        None => return NOWHERE,
    };
    let is_refused = !(ways.permits)(iface, key);
    let outgoing = if is_refused {
        0
    } else if row.to_core.contains(iface) {
        1 << REGISTER_VIF
    } else {
        let leaving = row.outgoing.iter().filter(|other| *other != iface).filter_map(|other| (ways.vif)(other));
        leaving.fold(0, |set, vif| set | 1 << vif)
    };
    Way { accepted, forwarded: Forwarded { parent, outgoing }, is_refused }
}

#[derive(Clone, Copy, Debug)]
pub struct Entry {
    /// As told; `None` where all packets are the router's, and each would be refused.
    pub row: Option<Row>,
    /// Where a packet of the source came last, as far as the router heard.
    pub came_on: Option<u32>,
    pub way: Way,
    /// The kernel refused it, so it stands there as it was, or not at all.
    pub is_unset: bool,
    /// It stands as it did in a router that was made anew since, which learns again what it needs.
    pub is_kept: bool,
    /// When it was made, in ms.
    pub since: u64,
    /// As the kernel counted last.
    pub used: Option<Used>,
    /// The moment of the last packet of which the router was told, in ms.
    pub told: u64,
    /// Whether packets came up whole since the kernel was asked last.
    pub came_whole: bool,
}

impl Entry {
    pub fn is_known(&self) -> bool {
        self.row.map_or(false, |row| row.is_known)
    }

    /// Whether the router waits for strays that come where packets of the source came last.
    fn waits_for_strays(&self) -> bool {
        let waits = |row: &Row, iface| row.to_core.contains(iface) && self.way.accepted != Some(iface);
        self.row.as_ref().zip(self.came_on).map_or(false, |(row, iface)| waits(row, iface))
    }

    /// Packets leave by it.
    pub fn flows(&self) -> bool {
        self.way.accepted.is_some() && self.way.forwarded.outgoing & !(1 << REGISTER_VIF) != 0
    }

    /// How many packets were accepted since the last look, of what the kernel counts now.
    fn accepted_since(&self, now: &Used) -> u64 {
        let accepted = |used: &Used| used.packets.saturating_sub(used.stray);
        // Where the kernel's entry was made anew it counts from 0.
        let before = self.used.as_ref().map_or(0, accepted);
        if accepted(now) < before {
            accepted(now)
        } else {
            accepted(now) - before
        }
    }
}

/// What a look at the kernel's counts says of a source.
#[derive(Clone, Copy, Debug, PartialEq, Eq)]
pub struct Notice {
    pub key: Key,
    pub iface: u32,
    /// In ms: of the last packet.
    pub moment: u64,
    /// The packet is the router's, so it has to hear of the interface.
    pub is_core: bool,
}

/// A row that is told of a source.
#[derive(Clone, Copy, Debug)]
pub struct Placed {
    pub key: Key,
    pub row: Option<Row>,
    pub came_on: Option<u32>,
    /// In ms.
    pub now: u64,
}

#[derive(Default)]
pub struct Plane {
    entries: HashMap<Key, Entry>,
    /// The groups and sources without a fact.
    unknown: BTreeSet<(Ipv4Addr, Ipv4Addr)>,
    /// When the kernel's counts were read last, in ms.
    looked_at: u64,
}

impl Plane {
    pub fn get(&self, key: Key) -> Option<&Entry> {
        self.entries.get(&key)
    }

    pub fn entries(&self) -> impl Iterator<Item = (&Key, &Entry)> {
        self.entries.iter()
    }

    pub fn len(&self) -> usize {
        self.entries.len()
    }

    /// The sources without a fact that have an entry.
    pub fn unknown(&self) -> Vec<Key> {
        self.unknown.iter().map(|(group, source)| Key { source: *source, group: *group }).collect()
    }

    /// Those of which the router tells nothing, since it is full, or refuses them: at most so many, those first that
    /// were asked for the longest time ago.
    pub fn untold(&self, most: usize) -> Vec<Key> {
        let told = |key: &Key| self.entries.get(key).filter(|entry| entry.row.is_none()).map(|entry| entry.told);
        let mut found: Vec<_> = self.unknown().into_iter().filter_map(|key| Some((told(&key)?, key))).collect();
        found.sort_unstable();
        found.into_iter().take(most).map(|(_, key)| key).collect()
    }

    /// Those of a group.
    pub fn unknown_of(&self, group: Ipv4Addr) -> Vec<Key> {
        let places = (group, Ipv4Addr::UNSPECIFIED)..=(group, Ipv4Addr::BROADCAST);
        self.unknown.range(places).map(|(group, source)| Key { source: *source, group: *group }).collect()
    }

    /// One of them.
    pub fn an_unknown(&self) -> Option<Key> {
        self.unknown.iter().next().map(|(group, source)| Key { source: *source, group: *group })
    }

    fn list(&mut self, key: Key, row: Option<&Row>) {
        let place = (key.group, key.source);
        if row.map_or(false, |row| row.is_known) {
            self.unknown.remove(&place);
        } else {
            self.unknown.insert(place);
        }
    }

    /// A row is told, of a source of which a packet may have come on an interface: the kernel's entry is made so.
    pub fn place<C: Cache + ?Sized>(&mut self, cache: &C, placed: Placed, ways: &Ways) -> io::Result<()> {
        let Placed { key, row, came_on, now } = placed;
        self.list(key, row.as_ref());
        let entry = self.entries.entry(key).or_insert(Entry {
            row: None,
            came_on: None,
            way: NOWHERE,
            is_unset: true,
            is_kept: false,
            since: now,
            used: None,
            told: now,
            came_whole: false,
        });
        entry.came_on = came_on.or(entry.came_on);
        let waited = entry.is_unset || entry.waits_for_strays();
        entry.row = row;
        if entry.is_kept {
            return Ok(());
        }
        let before = entry.way.forwarded;
        entry.way = way(key, entry.row.as_ref(), entry.came_on, ways);
        if !waited && entry.waits_for_strays() {
            // It may be gone with its interface.
            let _ = cache.remove(key);
            (entry.is_unset, entry.used) = (true, None);
        }
        if entry.is_unset || entry.way.forwarded != before {
            entry.is_unset = true;
            cache.put(key, entry.way.forwarded)?;
            entry.is_unset = false;
        }
        Ok(())
    }

    /// Tries again what the kernel refused. It answers how many it refused again.
    pub fn set_again<C: Cache + ?Sized>(&mut self, cache: &C) -> usize {
        let mut left = 0;
        for (key, entry) in self.entries.iter_mut().filter(|(_, entry)| entry.is_unset) {
            entry.is_unset = cache.put(*key, entry.way.forwarded).is_err();
            left += usize::from(entry.is_unset);
        }
        left
    }

    #[cfg(test)]
    pub fn has_unset(&self) -> bool {
        self.entries.values().any(|entry| entry.is_unset)
    }

    pub fn remove<C: Cache + ?Sized>(&mut self, cache: &C, key: Key) -> io::Result<()> {
        self.unknown.remove(&(key.group, key.source));
        match self.entries.remove(&key) {
            Some(_) => cache.remove(key),
            None => Ok(()),
        }
    }

    /// All entries anew, after virtual interfaces came or went, or what may be sent changed. The first error is
    /// answered.
    pub fn place_all<C: Cache + ?Sized>(&mut self, cache: &C, ways: &Ways) -> io::Result<()> {
        let mut answer = Ok(());
        for (key, entry) in self.entries.iter_mut().filter(|(_, entry)| !entry.is_kept) {
            let before = entry.way.forwarded;
            entry.way = way(*key, entry.row.as_ref(), entry.came_on, ways);
            if entry.way.forwarded != before {
                let put = cache.put(*key, entry.way.forwarded);
                entry.is_unset = put.is_err();
                answer = answer.and(put);
            }
        }
        answer
    }

    /// Takes each entry out of the kernel and puts it there again, so that the kernel counts from 0. The first error is
    /// answered.
    pub fn write_anew<C: Cache + ?Sized>(&mut self, cache: &C) -> io::Result<()> {
        let mut answer = Ok(());
        for (key, entry) in &mut self.entries {
            // The kernel has none where its interface went.
            let _ = cache.remove(*key);
            let put = cache.put(*key, entry.way.forwarded);
            entry.is_unset = put.is_err();
            entry.used = None;
            answer = answer.and(put);
        }
        answer
    }

    /// The router is made anew, and knows no source: the entries stay as they are, until it has learned again.
    pub fn keep_all(&mut self) {
        self.entries.values_mut().for_each(|entry| entry.is_kept = true);
    }

    /// An entry of the router before this one: it stands as it is, or is to be set again, until its row is told.
    pub fn take_up(&mut self, key: Key, entry: Entry) {
        self.entries.insert(key, entry);
    }

    /// Those that are kept.
    pub fn kept(&self) -> Vec<(Key, Entry)> {
        self.entries.iter().filter(|(_, entry)| entry.is_kept).map(|(key, entry)| (*key, *entry)).collect()
    }

    /// An entry goes by its row again.
    pub fn let_go(&mut self, key: Key) {
        if let Some(entry) = self.entries.get_mut(&key) {
            entry.is_kept = false;
        }
    }

    /// A packet of the source strayed on an interface.
    pub fn strayed(&mut self, key: Key, iface: u32) {
        if let Some(entry) = self.entries.get_mut(&key) {
            entry.came_on = Some(iface);
        }
    }

    /// A packet of the source came up whole, for the router to have it.
    pub fn came_whole(&mut self, key: Key) {
        if let Some(entry) = self.entries.get_mut(&key) {
            entry.came_whole = true;
        }
    }

    /// The router has heard that the source is alive.
    pub fn told(&mut self, key: Key, moment: u64) {
        if let Some(entry) = self.entries.get_mut(&key) {
            entry.told = entry.told.max(moment);
        }
    }

    /// Whether the router may let a source go by this moment of which the kernel has forwarded packets since the last
    /// look.
    pub fn is_overdue(&self, now: u64) -> bool {
        let ends = self.entries.values().filter(|entry| entry.is_known()).map(|entry| entry.told + KEEPALIVE);
        ends.into_iter().any(|end| end > self.looked_at && end <= now)
    }

    /// What the kernel's counts say: of which sources packets were accepted that the router didn't hear of.
    pub fn looked(&mut self, used: &[Used], now: u64) -> Vec<Notice> {
        self.looked_at = now;
        let mut notices = Vec::new();
        for it in used {
            let entry = match self.entries.get_mut(&it.key) {
                Some(entry) => entry,
                None => continue,
            };
            let (accepted, came_whole) = (entry.accepted_since(it), entry.came_whole);
            entry.used = Some(*it);
            entry.came_whole = false;
            let (iface, row) = match (entry.way.accepted, entry.row) {
                (Some(iface), Some(row)) if accepted > 0 && !entry.way.is_refused && !entry.is_kept => (iface, row),
                _ => continue,
            };
            let is_core = row.to_core.contains(iface);
            if (is_core && !came_whole) || (!is_core && row.alive.contains(iface)) {
                notices.push(Notice { key: it.key, iface, moment: now.saturating_sub(it.idle), is_core });
            }
        }
        notices
    }

    /// The sources without a fact of which nothing came for a time.
    pub fn idle(&self, longer_than: u64) -> Vec<Key> {
        let idle = |entry: &Entry| !entry.is_known() && entry.used.map_or(false, |used| used.idle > longer_than);
        self.entries.iter().filter(|(_, entry)| idle(entry)).map(|(key, _)| *key).collect()
    }

    /// Interfaces have other numbers. Their virtual ones stay, and so does what the kernel has.
    pub fn renumber(&mut self, there: impl Fn(u32) -> Option<u32>) {
        for entry in self.entries.values_mut() {
            entry.row = entry.row.map(|row| row.renumbered(&there));
            entry.came_on = entry.came_on.and_then(&there);
            entry.way.accepted = entry.way.accepted.and_then(&there);
        }
    }

    /// After a fault all rows go.
    pub fn clear<C: Cache + ?Sized>(&mut self, cache: &C) {
        self.unknown.clear();
        for key in self.entries.drain().map(|(key, _)| key) {
            // The kernel has none where its interface went.
            let _ = cache.remove(key);
        }
    }
}

#[cfg(test)]
mod tests {
    use super::*;
    use std::cell::{Cell, RefCell};
    use std::net::Ipv4Addr;

    #[derive(Default)]
    struct Written {
        written: RefCell<Vec<(Key, Option<Forwarded>)>>,
        is_full: Cell<bool>,
    }

    impl Cache for Written {
        fn put(&self, key: Key, forwarded: Forwarded) -> io::Result<()> {
            if self.is_full.get() {
                return Err(io::Error::from_raw_os_error(libc::ENOMEM));
            }
            self.written.borrow_mut().push((key, Some(forwarded)));
            Ok(())
        }

        fn remove(&self, key: Key) -> io::Result<()> {
            self.written.borrow_mut().push((key, None));
            Ok(())
        }
    }

    const KEY: Key = Key { source: Ipv4Addr::new(10, 1, 0, 50), group: Ipv4Addr::new(239, 1, 1, 1) };

    fn row(incoming: Option<u32>, outgoing: &[u32], alive: &[u32], to_core: &[u32]) -> Row {
        let set = |ifaces: &[u32]| Interfaces { low: ifaces.iter().map(|iface| 1 << iface).sum(), high: 0 };
        Row { is_known: true, incoming, outgoing: set(outgoing), alive: set(alive), to_core: set(to_core) }
    }

    fn ways<'a>() -> Ways<'a> {
        Ways { vif: &|iface| Some(iface as u16), permits: &|_, _| true }
    }

    fn to(row: Option<Row>, came_on: Option<u32>, ways: &Ways) -> Forwarded {
        way(KEY, row.as_ref(), came_on, ways).forwarded
    }

    fn placed(row: Row, now: u64) -> Placed {
        Placed { key: KEY, row: Some(row), came_on: None, now }
    }

    fn used(packets: u64, stray: u64, idle: u64) -> Used {
        Used { key: KEY, packets, bytes: 0, stray, idle }
    }

    #[test]
    fn copies_leave_but_where_they_came() {
        let it = to(Some(row(Some(1), &[0, 1, 4], &[], &[])), None, &ways());
        assert_eq!(it, Forwarded { parent: 1, outgoing: 0b10001 });
    }

    #[test]
    fn what_is_the_routers_comes_up_whole() {
        let it = to(Some(row(Some(1), &[0, 4], &[], &[1])), None, &ways());
        assert_eq!(it, Forwarded { parent: 1, outgoing: 1 << REGISTER_VIF });
        let strays = to(Some(row(Some(1), &[0, 4], &[], &[0, 4])), None, &ways());
        assert_eq!(strays, Forwarded { parent: 1, outgoing: 0b10001 });
    }

    #[test]
    fn without_an_incoming_interface_nothing_leaves() {
        let nothing = Forwarded { parent: REGISTER_VIF, outgoing: 0 };
        assert_eq!(to(Some(row(None, &[0, 4], &[], &[])), Some(1), &ways()), nothing);
        assert_eq!(to(None, Some(1), &ways()), nothing);
        let all_but_one = Ways { vif: &|iface| (iface != 1).then_some(iface as u16), ..ways() };
        assert_eq!(to(Some(row(Some(1), &[0, 4], &[], &[])), None, &all_but_one), nothing);
    }

    #[test]
    fn what_the_router_waits_for_is_accepted_where_it_comes() {
        let up = |parent| Forwarded { parent, outgoing: 1 << REGISTER_VIF };
        let it = row(None, &[], &[], &[1, 3]);
        assert_eq!(to(Some(it), None, &ways()), up(1));
        assert_eq!(to(Some(it), Some(3), &ways()), up(3));
        assert_eq!(to(Some(it), Some(2), &ways()), up(1));
        let all_but_one = Ways { vif: &|iface| (iface != 1).then_some(iface as u16), ..ways() };
        assert_eq!(to(Some(it), None, &all_but_one), up(3));
    }

    /// A join comes for a source on a link of the router (3), whose RP is behind 1: the source's packets are strays until
    /// the router has had one.
    #[test]
    fn what_the_router_waits_for_is_accepted_where_nothing_else_leaves() {
        let up = |parent| Forwarded { parent, outgoing: 1 << REGISTER_VIF };
        assert_eq!(to(Some(row(Some(1), &[1], &[3], &[3])), Some(3), &ways()), up(3));
        assert_eq!(to(Some(row(Some(1), &[], &[3], &[2, 3])), None, &ways()), up(2));
        assert_eq!(to(Some(row(Some(3), &[], &[3], &[2, 3])), None, &ways()), up(3));
        // What comes on the shared tree isn't cut off for that.
        let flows = Forwarded { parent: 1, outgoing: 1 };
        assert_eq!(to(Some(row(Some(1), &[0, 1], &[3], &[3])), Some(3), &ways()), flows);
        // Where the router waits for nothing, its incoming interface is kept.
        assert_eq!(to(Some(row(Some(1), &[1], &[3], &[])), Some(3), &ways()), Forwarded { parent: 1, outgoing: 0 });
    }

    #[test]
    fn where_the_router_begins_to_wait_for_strays_the_entry_is_made_anew() {
        let (cache, mut plane) = (Written::default(), Plane::default());
        plane.place(&cache, placed(row(Some(1), &[], &[3], &[]), 0), &ways()).unwrap();
        plane.strayed(KEY, 3);
        plane.place(&cache, placed(row(Some(1), &[0], &[3], &[3]), 1), &ways()).unwrap();
        let flows = Forwarded { parent: 1, outgoing: 1 };
        assert_eq!(cache.written.borrow()[1..], [(KEY, None), (KEY, Some(flows))]);
        // Once it waits it is told of one, and then of one in three seconds.
        plane.place(&cache, placed(row(Some(1), &[0], &[], &[2, 3]), 2), &ways()).unwrap();
        assert_eq!(cache.written.borrow().len(), 3);
        // What strays elsewhere makes nothing anew.
        plane.place(&cache, placed(row(Some(1), &[0], &[], &[]), 3), &ways()).unwrap();
        plane.place(&cache, placed(row(Some(1), &[0], &[], &[2]), 4), &ways()).unwrap();
        assert_eq!(cache.written.borrow().len(), 3);
    }

    #[test]
    fn what_may_not_be_sent_is_dropped_where_it_comes() {
        let none = Ways { permits: &|iface, _| iface != 1, ..ways() };
        assert_eq!(to(Some(row(Some(1), &[0, 4], &[], &[1])), None, &none), Forwarded { parent: 1, outgoing: 0 });
        assert_eq!(to(Some(row(Some(2), &[0, 4], &[], &[])), None, &none), Forwarded { parent: 2, outgoing: 0b10001 });
    }

    #[test]
    fn virtual_interfaces_have_their_own_numbers() {
        let shifted = Ways { vif: &|iface| (iface < 4).then_some(iface as u16 + 7), ..ways() };
        let it = to(Some(row(Some(1), &[0, 4, 63], &[], &[])), None, &shifted);
        assert_eq!(it, Forwarded { parent: 8, outgoing: 1 << 7 });
    }

    #[test]
    fn only_a_changed_entry_is_written() {
        let (cache, mut plane) = (Written::default(), Plane::default());
        plane.place(&cache, placed(row(Some(1), &[0], &[1], &[]), 5), &ways()).unwrap();
        plane.place(&cache, placed(row(Some(1), &[0, 1], &[], &[]), 6), &ways()).unwrap();
        plane.place(&cache, placed(row(Some(1), &[0, 2], &[], &[]), 7), &ways()).unwrap();
        plane.remove(&cache, KEY).unwrap();
        plane.remove(&cache, KEY).unwrap();
        let wanted = [Some(Forwarded { parent: 1, outgoing: 1 }), Some(Forwarded { parent: 1, outgoing: 5 }), None];
        assert_eq!(*cache.written.borrow(), wanted.map(|it| (KEY, it)));
    }

    #[test]
    fn what_the_kernel_refuses_is_tried_again() {
        let (cache, mut plane) = (Written::default(), Plane::default());
        cache.is_full.set(true);
        assert!(plane.place(&cache, placed(row(Some(1), &[0], &[1], &[]), 5), &ways()).is_err());
        assert_eq!((plane.has_unset(), plane.set_again(&cache)), (true, 1));
        cache.is_full.set(false);
        assert_eq!((plane.set_again(&cache), plane.has_unset()), (0, false));
        assert_eq!(*cache.written.borrow(), [(KEY, Some(Forwarded { parent: 1, outgoing: 1 }))]);
    }

    #[test]
    fn kept_entries_stay_until_they_are_let_go() {
        let (cache, mut plane) = (Written::default(), Plane::default());
        plane.place(&cache, placed(row(Some(1), &[0], &[1], &[]), 5), &ways()).unwrap();
        plane.keep_all();
        plane.place(&cache, placed(row(Some(1), &[], &[1], &[]), 6), &ways()).unwrap();
        plane.place_all(&cache, &ways()).unwrap();
        assert_eq!(cache.written.borrow().len(), 1);
        plane.let_go(KEY);
        plane.place_all(&cache, &ways()).unwrap();
        assert_eq!(cache.written.borrow()[1], (KEY, Some(Forwarded { parent: 1, outgoing: 0 })));
    }

    #[test]
    fn the_unknown_are_found_by_their_group() {
        let (cache, mut plane) = (Written::default(), Plane::default());
        let other = Key { group: Ipv4Addr::new(239, 1, 1, 2), ..KEY };
        for key in [KEY, other] {
            let row = Row { is_known: false, ..row(Some(1), &[0], &[], &[]) };
            plane.place(&cache, Placed { key, ..placed(row, 5) }, &ways()).unwrap();
        }
        assert_eq!((plane.unknown(), plane.unknown_of(other.group)), (vec![KEY, other], vec![other]));
        plane.place(&cache, placed(row(Some(1), &[0], &[], &[]), 6), &ways()).unwrap();
        plane.remove(&cache, other).unwrap();
        assert_eq!(plane.an_unknown(), None);
    }

    #[test]
    fn accepted_packets_are_told_with_their_moment() {
        let (cache, mut plane) = (Written::default(), Plane::default());
        plane.place(&cache, placed(row(Some(1), &[0], &[1], &[]), 0), &ways()).unwrap();
        let notice = Notice { key: KEY, iface: 1, moment: 9_700, is_core: false };
        assert_eq!(plane.looked(&[used(5, 1, 300)], 10_000), [notice]);
        // Only a stray came since.
        assert!(plane.looked(&[used(6, 2, 100)], 20_000).is_empty());
        // The entry was made anew.
        assert_eq!(plane.looked(&[used(1, 0, 0)], 30_000), [Notice { moment: 30_000, ..notice }]);
    }

    #[test]
    fn what_shows_nothing_alive_is_not_told() {
        let (cache, mut plane) = (Written::default(), Plane::default());
        plane.place(&cache, placed(row(Some(1), &[0], &[2], &[]), 0), &ways()).unwrap();
        assert!(plane.looked(&[used(5, 0, 0)], 10_000).is_empty());
    }

    #[test]
    fn what_came_up_whole_is_not_told_again() {
        let (cache, mut plane) = (Written::default(), Plane::default());
        plane.place(&cache, placed(row(Some(1), &[0], &[1], &[1]), 0), &ways()).unwrap();
        plane.came_whole(KEY);
        assert!(plane.looked(&[used(5, 0, 0)], 10_000).is_empty());
        assert_eq!(
            plane.looked(&[used(7, 0, 0)], 20_000),
            [Notice { key: KEY, iface: 1, moment: 20_000, is_core: true }]
        );
    }

    #[test]
    fn a_source_is_overdue_after_its_time() {
        let (cache, mut plane) = (Written::default(), Plane::default());
        plane.place(&cache, placed(row(Some(1), &[0], &[1], &[]), 1_000), &ways()).unwrap();
        assert!(!plane.is_overdue(210_999));
        assert!(plane.is_overdue(211_000));
        plane.told(KEY, 1_001);
        assert!(!plane.is_overdue(211_000));
        // Looked at then, nothing had come.
        plane.looked(&[], 211_001);
        assert!(!plane.is_overdue(211_002));
    }
}
