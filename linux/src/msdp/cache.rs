//! The cache of Source-Active messages (RFC 3618, 4): which sources peers said, until when.
use super::{PASS_AGAIN, STATE};
use crate::mroute::Key;
use std::collections::BTreeMap;
use std::net::Ipv4Addr;

/// What a peer said of a source.
#[derive(Clone, Copy, Debug, PartialEq, Eq)]
pub struct Entry {
    /// The peer of which it came last.
    pub from: Ipv4Addr,
    /// In ms.
    pub since: u64,
    pub end: u64,
    /// When it was passed on last, in ms.
    passed: Option<u64>,
}

/// What became of it.
#[derive(Clone, Copy, Debug, PartialEq, Eq)]
pub enum Put {
    /// It is kept, and passed on.
    PassedOn,
    /// It is kept.
    Kept,
    /// There is no room for another one of the peer.
    Full,
}

/// By the source and its RP.
#[derive(Debug, Default)]
pub struct Cache {
    entries: BTreeMap<(Key, Ipv4Addr), Entry>,
    counts: BTreeMap<Ipv4Addr, usize>,
}

impl Cache {
    /// A peer said that a source of an RP sends; of the peer so many are kept at most.
    pub fn put(&mut self, key: Key, rp: Ipv4Addr, from: Ipv4Addr, most: usize, now: u64) -> Put {
        let before = self.entries.get(&(key, rp)).copied();
        let is_of_it = before.map_or(false, |it| it.from == from);
        if !is_of_it && self.count(from) >= most {
            return Put::Full;
        }
        if !is_of_it {
            before.iter().for_each(|it| self.lose(it.from));
            *self.counts.entry(from).or_default() += 1;
        }
        let passed = before.and_then(|it| it.passed).filter(|passed| now < passed + PASS_AGAIN);
        let since = before.map_or(now, |it| it.since);
        let entry = Entry { from, since, end: now + STATE, passed: Some(passed.unwrap_or(now)) };
        self.entries.insert((key, rp), entry);
        match passed {
            Some(_) => Put::Kept,
            None => Put::PassedOn,
        }
    }

    fn lose(&mut self, from: Ipv4Addr) {
        if let Some(count) = self.counts.get_mut(&from) {
            *count -= 1;
            if *count == 0 {
                self.counts.remove(&from);
            }
        }
    }

    /// How many a peer said last.
    pub fn count(&self, from: Ipv4Addr) -> usize {
        self.counts.get(&from).copied().unwrap_or(0)
    }

    #[cfg(test)]
    pub fn len(&self) -> usize {
        self.entries.len()
    }

    /// Ascending by the source, its group and its RP.
    pub fn entries(&self) -> impl Iterator<Item = (Key, Ipv4Addr, Entry)> + '_ {
        self.entries.iter().map(|((key, rp), entry)| (*key, *rp, *entry))
    }

    /// Those whose time is over are forgotten.
    pub fn forget(&mut self, now: u64) {
        let over: Vec<_> = self.entries.iter().filter(|(_, it)| it.end <= now).map(|(at, _)| *at).collect();
        over.iter().for_each(|at| self.remove(at));
    }

    /// Those of a peer are forgotten.
    pub fn forget_peer(&mut self, from: Ipv4Addr) {
        let its: Vec<_> = self.entries.iter().filter(|(_, it)| it.from == from).map(|(at, _)| *at).collect();
        its.iter().for_each(|at| self.remove(at));
    }

    fn remove(&mut self, at: &(Key, Ipv4Addr)) {
        if let Some(entry) = self.entries.remove(at) {
            self.lose(entry.from);
        }
    }
}

#[cfg(test)]
mod tests {
    use super::*;

    const ONE: Ipv4Addr = Ipv4Addr::new(10, 0, 0, 1);
    const OTHER: Ipv4Addr = Ipv4Addr::new(10, 0, 0, 2);

    fn key(last: u8) -> Key {
        Key { source: [10, 1, 0, last].into(), group: [239, 1, 1, last].into() }
    }

    #[test]
    fn an_entry_lasts_150_s_and_is_passed_on_at_most_twice_a_minute() {
        let mut cache = Cache::default();
        assert_eq!(cache.put(key(1), ONE, ONE, 9, 0), Put::PassedOn);
        assert_eq!(cache.put(key(1), ONE, ONE, 9, 29_999), Put::Kept);
        assert_eq!(cache.put(key(1), ONE, ONE, 9, 30_000), Put::PassedOn);
        // Another RP's is another entry.
        assert_eq!(cache.put(key(1), OTHER, ONE, 9, 30_001), Put::PassedOn);
        cache.forget(179_999);
        assert_eq!(cache.len(), 2);
        cache.forget(180_000);
        assert_eq!(cache.entries().map(|(_, rp, it)| (rp, it.since)).collect::<Vec<_>>(), [(OTHER, 30_001)]);
    }

    #[test]
    fn a_peer_has_room_for_so_many_and_takes_none_of_another() {
        let mut cache = Cache::default();
        let kept = (0..5).map(|last| cache.put(key(last), ONE, ONE, 3, 0)).filter(|put| *put != Put::Full).count();
        assert_eq!((kept, cache.count(ONE)), (3, 3));
        assert_eq!(cache.put(key(9), ONE, OTHER, 3, 1), Put::PassedOn);
        // What is kept is kept alive, whoever says it.
        assert_eq!(cache.put(key(0), ONE, ONE, 3, 40_000), Put::PassedOn);
        assert_eq!(cache.put(key(0), ONE, OTHER, 3, 40_001), Put::Kept);
        assert_eq!((cache.count(ONE), cache.count(OTHER), cache.len()), (2, 2, 4));
        cache.forget_peer(ONE);
        assert_eq!((cache.count(ONE), cache.len()), (0, 2));
        cache.forget(200_000);
        assert_eq!((cache.count(OTHER), cache.len()), (0, 0));
    }
}
