//! Join/Prunes that one event sends to a neighbour, in as few packets as hold them (RFC 7761, 4.9.5).
//!
//! The library writes one for each group. Those that follow each other on a link, to the same neighbour and for the same
//! time, are put together, in their order. A group stands once in a packet: a Join(*,G) ends what was pruned of its group
//! before, at the end of the packet that it is in.
use crate::packet::{address, is_pim, put_checksum, two, with_content, Packet};
use std::collections::{BTreeMap, HashSet};
use std::net::Ipv4Addr;

const JOIN_PRUNE: u8 = 3;
/// The neighbour, a byte that is 0, the number of groups, the holdtime; then the groups.
const NEIGHBOUR_AT: usize = 4;
const NUMBER_OF_GROUPS_AT: usize = 11;
const HOLDTIME_AT: usize = 12;
const GROUPS_AT: usize = 14;
/// A group's address, and how many joins and prunes follow it.
const GROUP_HEAD: usize = 12;
const SOURCE: usize = 8;

/// The groups of a Join/Prune; `None` where the packet is none, or isn't whole.
fn groups(packet: Packet) -> Option<Vec<Ipv4Addr>> {
    let content = packet.content();
    if !is_pim(packet, JOIN_PRUNE) || content.len() < GROUPS_AT {
        return None;
    }
    let mut at = GROUPS_AT;
    let mut found = Vec::new();
    for _ in 0..content[NUMBER_OF_GROUPS_AT] {
        let head = content.get(at..at + GROUP_HEAD)?;
        found.push(address(head, 4));
        at += GROUP_HEAD + SOURCE * (two(head, 8) + two(head, 10));
    }
    (at == content.len()).then_some(found)
}

/// A Join/Prune to which others may come.
struct Open {
    header: Vec<u8>,
    content: Vec<u8>,
    groups: HashSet<Ipv4Addr>,
    others: u64,
}

impl Open {
    fn new(packet: Packet, groups: &[Ipv4Addr]) -> Open {
        let (header, content) = (packet.header().to_vec(), packet.content().to_vec());
        Open { header, content, groups: groups.iter().copied().collect(), others: 0 }
    }

    fn takes(&self, packet: Packet, groups: &[Ipv4Addr], most: usize) -> bool {
        let (header, content) = (packet.header(), packet.content());
        // All of the header but its length and its checksum.
        let is_alike = header.len() == self.header.len()
            && header[..2] == self.header[..2]
            && header[4..10] == self.header[4..10]
            && header[12..] == self.header[12..];
        let goes_there = content[NEIGHBOUR_AT..NUMBER_OF_GROUPS_AT] == self.content[NEIGHBOUR_AT..NUMBER_OF_GROUPS_AT]
            && content[HOLDTIME_AT..GROUPS_AT] == self.content[HOLDTIME_AT..GROUPS_AT];
        let length = self.header.len() + self.content.len() + content.len() - GROUPS_AT;
        let is_room = length <= most && self.groups.len() + groups.len() <= usize::from(u8::MAX);
        is_alike && goes_there && is_room && groups.iter().all(|group| !self.groups.contains(group))
    }

    fn add(&mut self, packet: Packet, groups: &[Ipv4Addr]) {
        self.content.extend(&packet.content()[GROUPS_AT..]);
        self.groups.extend(groups);
        self.others += 1;
    }

    fn packet(mut self) -> Left {
        self.content[NUMBER_OF_GROUPS_AT] = self.groups.len() as u8;
        put_checksum(&mut self.content, 2);
        Left { bytes: with_content(&self.header, &self.content), others: self.others }
    }
}

/// A packet that is to leave, and how many others are in it.
#[derive(Debug, PartialEq, Eq)]
pub struct Left {
    pub bytes: Vec<u8>,
    pub others: u64,
}

/// What an event sends, by interface. Packets of a link leave in their order.
#[derive(Default)]
pub struct Packing(BTreeMap<u32, Open>);

impl Packing {
    /// Takes a packet of at most so many bytes for an interface; it answers what is to leave there now.
    pub fn take(&mut self, iface: u32, bytes: &[u8], most: usize) -> Vec<Left> {
        let read = Packet::read(bytes).and_then(|packet| Some((packet, groups(packet)?)));
        let (packet, groups) = match read {
            Some((packet, groups))
                if !groups.is_empty() && groups.len() == groups.iter().collect::<HashSet<_>>().len() =>
            {
                (packet, groups)
            }
            _ => {
                let before = self.0.remove(&iface).map(Open::packet);
                return before.into_iter().chain([Left { bytes: bytes.to_vec(), others: 0 }]).collect();
            }
        };
        match self.0.get_mut(&iface) {
            Some(open) if open.takes(packet, &groups, most) => {
                open.add(packet, &groups);
                Vec::new()
            }
            _ => self.0.insert(iface, Open::new(packet, &groups)).map(Open::packet).into_iter().collect(),
        }
    }

    /// What is left to leave, with its interface.
    pub fn rest(self) -> impl Iterator<Item = (u32, Left)> {
        self.0.into_iter().map(|(iface, open)| (iface, open.packet()))
    }
}

#[cfg(test)]
mod tests {
    use super::*;
    use crate::packet::{sum, PIM};
    use crate::split;

    /// A Join of all sources of a group, as the library writes it.
    fn join(neighbour: u8, holdtime: u8, group: [u8; 4]) -> Vec<u8> {
        let mut content = vec![0x23, 0, 0, 0, 1, 0, 10, 1, 0, neighbour, 0, 1, 0, holdtime, 1, 0, 0, 32];
        content.extend(group);
        content.extend([0, 1, 0, 0, 1, 0, 7, 32, 10, 9, 0, 1]);
        put_checksum(&mut content, 2);
        with_content(&[0x45, 0xc0, 0, 0, 0, 0, 0, 0, 1, PIM, 0, 0, 10, 1, 0, 1, 224, 0, 0, 13], &content)
    }

    /// What leaves interface 0 of some packets, as the groups of each.
    fn left(packets: &[Vec<u8>], most: usize) -> Vec<Vec<u8>> {
        let mut packing = Packing::default();
        let mut found: Vec<_> = packets.iter().flat_map(|packet| packing.take(0, packet, most)).collect();
        found.extend(packing.rest().map(|(_, left)| left));
        found.into_iter().map(|left| left.bytes).collect()
    }

    fn groups_of(packet: &[u8]) -> Vec<u8> {
        let packet = Packet::read(packet).unwrap();
        assert_eq!((sum(&[packet.header()]), sum(&[packet.content()])), (0xffff, 0xffff));
        groups(packet).unwrap().iter().map(|group| group.octets()[3]).collect()
    }

    #[test]
    fn those_to_a_neighbour_leave_together_and_in_their_order() {
        let one = |last| join(2, 210, [239, 1, 1, last]);
        let found = left(&[one(7), one(3), one(5)], 1500);
        assert_eq!(found.iter().map(|packet| groups_of(packet)).collect::<Vec<_>>(), [[7, 3, 5]]);
        let read = split::join_prune(Packet::read(&found[0]).unwrap()).unwrap();
        assert_eq!((read.entries.len(), read.holdtime, read.to), (3, 210, Ipv4Addr::new(10, 1, 0, 2)));
    }

    #[test]
    fn another_neighbour_time_or_kind_ends_a_packet() {
        let hello = with_content(&join(2, 210, [239, 1, 1, 1])[..20], &[0x20, 0, 0xdf, 0xff]);
        let packets = [
            join(2, 210, [239, 1, 1, 1]),
            join(3, 210, [239, 1, 1, 2]),
            join(3, 9, [239, 1, 1, 3]),
            hello.clone(),
            join(3, 9, [239, 1, 1, 4]),
        ];
        assert_eq!(left(&packets, 1500), packets);
    }

    #[test]
    fn a_group_stands_once_in_a_packet() {
        let one = |last| join(2, 210, [239, 1, 1, last]);
        let found = left(&[one(1), one(2), one(1)], 1500);
        assert_eq!(found.iter().map(|packet| groups_of(packet)).collect::<Vec<_>>(), [vec![1, 2], vec![1]]);
    }

    #[test]
    fn a_packet_has_as_many_as_its_link_takes_and_at_most_255() {
        let many: Vec<_> = (0..600u32).map(|number| join(2, 210, (0xef01_0000 + number).to_be_bytes())).collect();
        let found = left(&many, 1500);
        assert!(found.iter().all(|packet| packet.len() <= 1500));
        assert_eq!(found.iter().map(|packet| groups_of(packet).len()).collect::<Vec<_>>()[..2], [73, 73]);
        assert_eq!(found.iter().map(|packet| groups_of(packet).len()).sum::<usize>(), 600);
        assert_eq!(left(&many, 9000).iter().map(|packet| groups_of(packet).len()).collect::<Vec<_>>(), [255, 255, 90]);
    }

    #[test]
    fn links_are_told_apart() {
        let mut packing = Packing::default();
        for iface in [1, 0, 1] {
            assert!(packing.take(iface, &join(2, 210, [239, 1, 1, iface as u8]), 1500).is_empty() || iface == 1);
        }
        assert_eq!(packing.rest().map(|(iface, _)| iface).collect::<Vec<_>>(), [0, 1]);
    }
}
