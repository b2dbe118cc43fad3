//! Joins that override another router's Prune(S,G,rpt), which leave a second time where an interface's settings say so.
//!
//! Where frames of a link come out of order the Join may come before the Prune that it overrides. Then this takes effect
//! J/P_Override_Interval later, and nobody is told: there is no PruneEcho of (S,G,rpt) (RFC 7761, 4.5.3). A second Join
//! that leaves the override interval after the Prune was heard comes behind it, and before it takes effect.
use crate::packet::Packet;
use crate::split::{join_prune, rpt_join, Entry, JoinKey};
use std::collections::BTreeMap;
use std::net::Ipv4Addr;

/// So many Prunes are remembered at a time.
const MOST: usize = 4_096;

/// The interface, the neighbour that is to prune, the group and the source.
type Pruned = (u32, Ipv4Addr, Ipv4Addr, Ipv4Addr);

#[derive(Debug)]
struct Waiting {
    /// In ms.
    due: u64,
    /// By which it was overridden.
    join: Option<Vec<u8>>,
}

#[derive(Debug, Default)]
pub struct Overrides(BTreeMap<Pruned, Waiting>);

impl Overrides {
    /// A packet came on an interface: what overrides its Prunes is due again at a moment, in ms.
    pub fn heard(&mut self, iface: u32, packet: Packet, due: u64) {
        let message = match join_prune(packet) {
            Some(message) => message,
            None => return,
        };
        let pruned = message.entries.iter().filter(|entry| !entry.is_join && entry.key.is_rpt);
        for key in pruned.filter_map(|entry| Some((iface, message.to, entry.key.group, entry.key.source?))) {
            if self.0.len() < MOST {
                // One more meanwhile doesn't make the first one take effect later.
                self.0.entry(key).or_insert(Waiting { due, join: None });
            }
        }
    }

    /// Whether none is remembered.
    pub fn is_empty(&self) -> bool {
        self.0.is_empty()
    }

    /// A packet leaves an interface: of a source the last word counts.
    pub fn leaves(&mut self, iface: u32, packet: Packet) {
        let message = match join_prune(packet) {
            Some(message) => message,
            None => return,
        };
        for Entry { key, is_join, .. } in message.entries.iter().filter(|entry| is_of_shared_tree(entry.key)) {
            let of = |source| (iface, message.to, key.group, source);
            // Those of (*,G) are all those of its group.
            let first = key.source.unwrap_or(Ipv4Addr::UNSPECIFIED);
            let last = key.source.unwrap_or(Ipv4Addr::BROADCAST);
            self.0.range_mut(of(first)..=of(last)).for_each(|((.., source), waiting)| {
                waiting.join = is_join.then(|| rpt_join(packet, key.group, *source));
            });
        }
    }

    /// When the next one is due, in ms.
    pub fn due(&self) -> Option<u64> {
        self.0.values().map(|waiting| waiting.due).min()
    }

    /// What is due again at a moment, in ms, with its interface. Prunes that the router let be are forgotten.
    pub fn again(&mut self, now: u64) -> Vec<(u32, Vec<u8>)> {
        let mut found = Vec::new();
        self.0.retain(|(iface, ..), waiting| {
            let is_due = waiting.due <= now;
            if is_due {
                found.extend(waiting.join.take().map(|join| (*iface, join)));
            }
            !is_due
        });
        found
    }
}

/// Whether an entry of it says what comes by the shared tree.
fn is_of_shared_tree(key: JoinKey) -> bool {
    key.source.is_none() || key.is_rpt
}

#[cfg(test)]
mod tests {
    use super::*;
    use crate::packet::{put_checksum, with_content, PIM};

    const TO: [u8; 4] = [10, 0, 0, 1];
    const SOURCE: [u8; 4] = [10, 9, 0, 50];

    /// A source as an entry has it: by its flags, W or R or none.
    fn entry(flags: u8, source: [u8; 4]) -> Vec<u8> {
        [[1, 0, 4 | flags, 32], source].concat()
    }

    const STAR: u8 = 3;
    const RPT: u8 = 1;
    const OWN: u8 = 0;

    /// Of one group.
    fn message(to: [u8; 4], joins: &[Vec<u8>], prunes: &[Vec<u8>]) -> Vec<u8> {
        let mut content = [&[0x23, 0, 0, 0, 1, 0], &to[..], &[0, 1, 0, 210, 1, 0, 0, 32, 239, 1, 1, 1]].concat();
        content.extend([0, joins.len() as u8, 0, prunes.len() as u8]);
        content.extend([joins, prunes].concat().concat());
        put_checksum(&mut content, 2);
        let header = [0x45, 0xc0, 0, 0, 0, 0, 0, 0, 1, PIM, 0, 0, 10, 0, 0, 2, 224, 0, 0, 13];
        with_content(&header, &content)
    }

    fn rpt(source: [u8; 4]) -> Vec<u8> {
        entry(RPT, source)
    }

    fn star() -> Vec<u8> {
        entry(STAR, [10, 9, 0, 1])
    }

    fn heard(it: &mut Overrides, bytes: &[u8], due: u64) {
        it.heard(3, Packet::read(bytes).unwrap(), due);
    }

    /// What leaves again after a Prune(S,G,rpt) was heard and these left.
    fn again_after(left: &[(u32, Vec<u8>)]) -> Vec<(u32, Vec<u8>)> {
        let mut it = Overrides::default();
        heard(&mut it, &message(TO, &[], &[rpt(SOURCE)]), 2_500);
        left.iter().for_each(|(iface, bytes)| it.leaves(*iface, Packet::read(bytes).unwrap()));
        assert_eq!((it.due(), it.again(2_499)), (Some(2_500), Vec::new()));
        let found = it.again(2_500);
        assert!(it.is_empty() && it.due().is_none());
        found
    }

    #[test]
    fn what_overrides_a_prune_leaves_again_once() {
        let join = message(TO, &[rpt(SOURCE)], &[]);
        assert_eq!(again_after(&[(3, join.clone())]), [(3, join.clone())]);
        assert_eq!(again_after(&[(3, join.clone()), (3, join.clone())]), [(3, join)]);
        assert!(again_after(&[]).is_empty());
    }

    #[test]
    fn a_join_of_all_sources_overrides_too_but_for_those_that_it_prunes() {
        let joined = message(TO, &[rpt(SOURCE)], &[]);
        assert_eq!(again_after(&[(3, message(TO, &[star()], &[]))]), [(3, joined.clone())]);
        let another = message(TO, &[star()], &[rpt([10, 9, 0, 51])]);
        assert_eq!(again_after(&[(3, another)]), [(3, joined)]);
        assert!(again_after(&[(3, message(TO, &[star()], &[rpt(SOURCE)]))]).is_empty());
    }

    #[test]
    fn what_the_router_prunes_itself_meanwhile_is_not_joined_again() {
        let join = (3, message(TO, &[rpt(SOURCE)], &[]));
        for prune in [rpt(SOURCE), star()] {
            assert!(again_after(&[join.clone(), (3, message(TO, &[], &[prune]))]).is_empty());
        }
    }

    #[test]
    fn others_are_no_override() {
        let elsewhere = (2, message(TO, &[rpt(SOURCE)], &[]));
        let to_another = (3, message([10, 0, 0, 7], &[rpt(SOURCE)], &[]));
        let of_another = (3, message(TO, &[rpt([10, 9, 0, 49])], &[]));
        let of_its_own_tree = (3, message(TO, &[entry(OWN, SOURCE)], &[]));
        assert!(again_after(&[elsewhere, to_another, of_another, of_its_own_tree]).is_empty());
    }

    #[test]
    fn the_first_of_several_prunes_counts_and_no_join_that_is_heard() {
        let mut it = Overrides::default();
        heard(&mut it, &message(TO, &[rpt(SOURCE)], &[star(), entry(OWN, SOURCE)]), 1_000);
        assert!(it.is_empty());
        heard(&mut it, &message(TO, &[], &[rpt(SOURCE)]), 2_500);
        heard(&mut it, &message(TO, &[], &[rpt(SOURCE)]), 3_000);
        assert_eq!(it.due(), Some(2_500));
    }

    #[test]
    fn so_many_are_remembered() {
        let mut it = Overrides::default();
        for number in 0..MOST as u16 + 9 {
            let [high, low] = number.to_be_bytes();
            heard(&mut it, &message(TO, &[], &[rpt([10, 9, high, low])]), 2_500);
        }
        assert_eq!(it.0.len(), MOST);
    }
}
