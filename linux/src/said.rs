//! Lines that others cause, at a bounded rate: for each kind some in a time, and then how many were left out.
use std::collections::BTreeMap;

/// In ms.
pub const WINDOW: u64 = 10_000;

#[derive(Clone, Copy, Debug)]
struct Window {
    began: u64,
    said: u32,
    left_out: u64,
}

/// By what lines are of: their kind, and the interface.
#[derive(Debug)]
pub struct Said<K>(BTreeMap<K, Window>);

impl<K: Ord> Default for Said<K> {
    fn default() -> Said<K> {
        Said(BTreeMap::new())
    }
}

impl<K: Ord + Copy> Said<K> {
    /// Whether a line may be said, of which there are to be so many in a time; one that may not is counted.
    pub fn may(&mut self, now: u64, kind: K, most: u32) -> bool {
        let new = Window { began: now, said: 0, left_out: 0 };
        let it = self.0.entry(kind).or_insert(new);
        // What was left out is to be told of first.
        if it.left_out == 0 && it.began + WINDOW <= now {
            *it = new;
        }
        match it.said < most {
            true => it.said += 1,
            false => it.left_out += 1,
        }
        it.left_out == 0
    }

    /// Lines are of other interfaces, or of none that there is.
    pub fn renumber(&mut self, there: impl Fn(K) -> Option<K>) {
        self.0 = std::mem::take(&mut self.0).into_iter().filter_map(|(kind, it)| Some((there(kind)?, it))).collect();
    }

    /// Of what lines were left out in times that are over, and how many; the next ones may be said again.
    pub fn left_out(&mut self, now: u64) -> Vec<(K, u64)> {
        let is_over = |it: &Window| it.began + WINDOW <= now;
        let found = self.0.iter().filter(|(_, it)| is_over(it) && it.left_out > 0);
        let found = found.map(|(kind, it)| (*kind, it.left_out)).collect();
        self.0.retain(|_, it| !is_over(it));
        found
    }
}

#[cfg(test)]
mod tests {
    use super::*;

    #[test]
    fn lines_of_a_kind_are_some_in_a_time_and_then_counted() {
        let mut it = Said::default();
        let may = |it: &mut Said<(char, u32)>, now| it.may(now, ('a', 1), 2);
        assert_eq!([0, 1, 2, 9_999].map(|now| may(&mut it, now)), [true, true, false, false]);
        assert!(it.may(3, ('a', 2), 2) && it.may(3, ('b', 1), 2));
        assert!(it.left_out(9_999).is_empty());
        // Nothing is said before it was told what was left out.
        assert!(!may(&mut it, 10_001));
        assert_eq!(it.left_out(10_002), [(('a', 1), 3)]);
        assert!(it.left_out(10_002).is_empty());
        assert_eq!([10_003, 10_004, 10_005].map(|now| may(&mut it, now)), [true, true, false]);
    }

    #[test]
    fn where_nothing_was_left_out_the_time_begins_again() {
        let mut it = Said::default();
        assert_eq!([0, 5_000, 10_000, 10_001].map(|now| it.may(now, 'a', 2)), [true; 4]);
        assert!(!it.may(10_002, 'a', 2));
    }
}
