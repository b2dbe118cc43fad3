//! Reports and Join/Prunes in parts: each record of a report, each entry of a Join/Prune, and messages of some of them.
//!
//! By the rules a message is taken whole or not at all. So where one names what is known beside what is new, a router
//! at its limit would let the known end too. Offered part by part, the known is refreshed, and the new alone refused.
use crate::older::Older;
use crate::packet::{address, is_pim, put_checksum, two, with_content, Packet, IGMP};
use std::fmt;
use std::net::Ipv4Addr;
use std::ops::Range;
use viqeshor::DownstreamRow;

const JOIN_PRUNE: u8 = 3;
/// The PIM header, the upstream neighbour, a byte, the number of groups, the holdtime.
const GROUPS_AT: usize = 14;
const UPSTREAM_AT: usize = 6;
const NUMBER_OF_GROUPS_AT: usize = 11;
const HOLDTIME_AT: usize = 12;
/// A group's address, then how many joins and prunes follow.
const GROUP_ADDRESS: usize = 8;
const GROUP_HEAD: usize = 12;
const SOURCE: usize = 8;
/// Of an encoded source address: S, WC and RPT.
const SPARSE: u8 = 4;
const WILDCARD: u8 = 2;
const RPT: u8 = 1;
const REPORT: u8 = 0x22;
const RECORDS_AT: usize = 8;
const IS_IN: u8 = 1;
const IS_EX: u8 = 2;
const TO_IN: u8 = 3;
const ALLOW: u8 = 5;
const BLOCK: u8 = 6;

/// The parts; none where the packet is no message of two or more.
pub fn parts(packet: &[u8]) -> Vec<Vec<u8>> {
    let whole = match Packet::read(packet) {
        Some(whole) => whole,
        None => return Vec::new(),
    };
    let found: Vec<_> = if is_pim(whole, JOIN_PRUNE) {
        let entries = join_prune(whole).map_or(Vec::new(), |message| message.entries);
        by_group(&entries).into_iter().map(|group| with_entries(whole, group)).collect()
    } else {
        let records = records(whole).unwrap_or_default();
        records.iter().map(|record| with_records(whole, std::slice::from_ref(record))).collect()
    };
    if found.len() > 1 {
        found
    } else {
        Vec::new()
    }
}

/// The packet in parts of at most so many bytes, as few as hold its records or groups in their order; itself where it
/// is short, is no such message, or has one record or group.
pub fn within(packet: &[u8], most: usize) -> Vec<Vec<u8>> {
    let mut found: Vec<Vec<u8>> = Vec::new();
    for part in if packet.len() > most { parts(packet) } else { Vec::new() } {
        let joined = found.last().and_then(|last| together(last, &part)).filter(|joined| joined.len() <= most);
        match (joined, found.last_mut()) {
            (Some(joined), Some(last)) => *last = joined,
            _ => found.push(part),
        }
    }
    if found.is_empty() {
        found.push(packet.to_vec());
    }
    found
}

/// Two messages as one.
fn together(one: &[u8], other: &[u8]) -> Option<Vec<u8>> {
    let (one, other) = (Packet::read(one)?, Packet::read(other)?);
    let (from, count_at) = if one.protocol() == IGMP { (RECORDS_AT, 7) } else { (GROUPS_AT, NUMBER_OF_GROUPS_AT) };
    let mut own = [one.content(), &other.content()[from..]].concat();
    own[count_at] = own[count_at].checked_add(other.content()[count_at])?;
    put_checksum(&mut own, 2);
    Some(with_content(one.header(), &own))
}

// ---- reports

/// A record of an IGMPv3 report.
#[derive(Clone, Debug, PartialEq, Eq)]
pub struct Record {
    kind: u8,
    pub group: Ipv4Addr,
    pub sources: Vec<Ipv4Addr>,
    /// Where it stands in the report.
    place: Range<usize>,
}

impl Record {
    /// Which a message of an older host becomes (RFC 3376, 7.3.2); it stands in no report.
    pub fn of_older(older: Older) -> Record {
        let kind = if older.is_leave { TO_IN } else { IS_EX };
        Record { kind, group: older.group, sources: Vec::new(), place: 0..0 }
    }

    /// It makes no state: it takes back what may have been asked for, or is of a group of the link alone
    /// (224.0.0.0/24).
    pub fn asks_for_nothing(&self) -> bool {
        let is_of_link = self.group.octets().starts_with(&[224, 0, 0]);
        is_of_link || self.kind == BLOCK || (self.sources.is_empty() && matches!(self.kind, IS_IN | TO_IN))
    }

    /// The sources that it asks for; `None` where it asks for all but some.
    pub fn included(&self) -> Option<&[Ipv4Addr]> {
        matches!(self.kind, IS_IN | TO_IN | ALLOW).then_some(&self.sources)
    }
}

/// The records of a report; `None` where the packet is none, or isn't whole.
pub fn records(packet: Packet) -> Option<Vec<Record>> {
    let content = packet.content();
    if packet.protocol() != IGMP || content.len() < RECORDS_AT || content[0] != REPORT {
        return None;
    }
    let mut found = Vec::new();
    let mut at = RECORDS_AT;
    for _ in 0..two(content, 6) {
        let record = record(content, at)?;
        at = record.place.end;
        found.push(record);
    }
    Some(found)
}

fn record(content: &[u8], at: usize) -> Option<Record> {
    let head = content.get(at..at + 8)?;
    let count = two(head, 2);
    let sources = content.get(at + 8..at + 8 + 4 * count)?;
    let place = at..at + 8 + 4 * (count + usize::from(head[1]));
    (place.end <= content.len()).then(|| Record {
        kind: head[0],
        group: address(head, 4),
        sources: (0..count).map(|number| address(sources, 4 * number)).collect(),
        place,
    })
}

/// The report with some of its records alone.
pub fn with_records(packet: Packet, records: &[Record]) -> Vec<u8> {
    let content = packet.content();
    let mut own = content[..RECORDS_AT].to_vec();
    records.iter().for_each(|record| own.extend(&content[record.place.clone()]));
    own[6..8].copy_from_slice(&(records.len() as u16).to_be_bytes());
    put_checksum(&mut own, 2);
    with_content(packet.header(), &own)
}

// ---- Join/Prunes

/// What a neighbour can join: (*,G) without a source, (S,G), (S,G,rpt).
#[derive(Clone, Copy, Debug, PartialEq, Eq, Hash)]
pub struct JoinKey {
    pub group: Ipv4Addr,
    pub source: Option<Ipv4Addr>,
    pub is_rpt: bool,
}

impl JoinKey {
    pub fn of_row(row: &DownstreamRow) -> JoinKey {
        JoinKey { group: row.group, source: row.source, is_rpt: row.is_rpt }
    }
}

impl fmt::Display for JoinKey {
    fn fmt(&self, to: &mut fmt::Formatter) -> fmt::Result {
        match (self.source, self.is_rpt) {
            (None, _) => write!(to, "(*, {})", self.group),
            (Some(source), false) => write!(to, "({source}, {})", self.group),
            (Some(source), true) => write!(to, "({source}, {}, rpt)", self.group),
        }
    }
}

/// An entry of a Join/Prune.
#[derive(Clone, Debug, PartialEq, Eq)]
pub struct Entry {
    pub is_join: bool,
    pub key: JoinKey,
    /// Where the group's address and the source's stand.
    group_place: Range<usize>,
    place: Range<usize>,
}

impl Entry {
    /// The router keeps joins of (*,G) and (S,G), and prunes of (S,G,rpt).
    pub fn makes_state(&self) -> bool {
        self.is_join != self.key.is_rpt
    }
}

#[derive(Clone, Debug, PartialEq, Eq)]
pub struct JoinPrune {
    pub to: Ipv4Addr,
    /// In seconds.
    pub holdtime: usize,
    pub entries: Vec<Entry>,
}

/// A Join(S,G,rpt) as part of a Join/Prune: to the same neighbour, for as long.
pub fn rpt_join(packet: Packet, group: Ipv4Addr, source: Ipv4Addr) -> Vec<u8> {
    let mut own = packet.content()[..GROUPS_AT].to_vec();
    own[NUMBER_OF_GROUPS_AT] = 1;
    own.extend([[1, 0, 0, 32], group.octets(), [0, 1, 0, 0]].concat());
    own.extend([[1, 0, SPARSE | RPT, 32], source.octets()].concat());
    put_checksum(&mut own, 2);
    with_content(packet.header(), &own)
}

/// A Join/Prune; `None` where the packet is none, or isn't whole.
pub fn join_prune(packet: Packet) -> Option<JoinPrune> {
    let content = packet.content();
    if !is_pim(packet, JOIN_PRUNE) || content.len() < GROUPS_AT {
        return None;
    }
    let mut entries = Vec::new();
    let mut at = GROUPS_AT;
    for _ in 0..content[NUMBER_OF_GROUPS_AT] {
        let head = content.get(at..at + GROUP_HEAD)?;
        let (joins, prunes) = (two(head, 8), two(head, 10));
        for number in 0..joins + prunes {
            entries.push(entry(content, at, number, number < joins)?);
        }
        at += GROUP_HEAD + SOURCE * (joins + prunes);
    }
    Some(JoinPrune { to: address(content, UPSTREAM_AT), holdtime: two(content, HOLDTIME_AT), entries })
}

fn entry(content: &[u8], group_at: usize, number: usize, is_join: bool) -> Option<Entry> {
    let at = group_at + GROUP_HEAD + SOURCE * number;
    let bytes = content.get(at..at + SOURCE)?;
    let is_star = bytes[2] & WILDCARD != 0;
    let source = (!is_star).then(|| address(bytes, 4));
    let key = JoinKey { group: address(content, group_at + 4), source, is_rpt: !is_star && bytes[2] & RPT != 0 };
    Some(Entry { is_join, key, group_place: group_at..group_at + GROUP_ADDRESS, place: at..at + SOURCE })
}

/// The entries of each group of a message.
fn by_group(entries: &[Entry]) -> Vec<&[Entry]> {
    let mut rest = entries;
    let mut found = Vec::new();
    while let Some(first) = rest.first() {
        let end = rest.iter().position(|entry| entry.group_place != first.group_place).unwrap_or(rest.len());
        found.push(&rest[..end]);
        rest = &rest[end..];
    }
    found
}

/// The message with some of its entries alone.
pub fn with_entries(packet: Packet, entries: &[Entry]) -> Vec<u8> {
    let content = packet.content();
    let groups = by_group(entries);
    let mut own = content[..GROUPS_AT].to_vec();
    own[NUMBER_OF_GROUPS_AT] = groups.len() as u8;
    for group in groups {
        let joins = group.iter().filter(|entry| entry.is_join).count();
        own.extend(&content[group[0].group_place.clone()]);
        own.extend((joins as u16).to_be_bytes());
        own.extend(((group.len() - joins) as u16).to_be_bytes());
        group.iter().for_each(|entry| own.extend(&content[entry.place.clone()]));
    }
    put_checksum(&mut own, 2);
    with_content(packet.header(), &own)
}

#[cfg(test)]
mod tests {
    use super::*;
    use crate::packet::{sum, PIM};

    fn packet(protocol: u8, content: &[u8]) -> Vec<u8> {
        let header = [0x46, 0xc0, 0, 0, 0, 0, 0, 0, 1, protocol, 0, 0, 10, 0, 0, 2, 224, 0, 0, 13, 0x94, 4, 0, 0];
        with_content(&header, content)
    }

    fn group(last: u8, sources: u8) -> Vec<u8> {
        let mut bytes = vec![1, 0, 0, 32, 239, 1, 1, last, 0, sources, 0, 1];
        (0..=sources).for_each(|number| bytes.extend([1, 0, 4, 32, 10, 1, 0, number]));
        bytes
    }

    fn join_prune_of(groups: &[Vec<u8>]) -> Vec<u8> {
        let mut content = vec![0x23, 0, 0, 0, 1, 0, 10, 0, 0, 1, 0, groups.len() as u8, 0, 210];
        content.extend(groups.concat());
        put_checksum(&mut content, 2);
        packet(PIM, &content)
    }

    fn report(records: &[Vec<u8>]) -> Vec<u8> {
        let mut content = vec![0x22, 0, 0, 0, 0, 0, 0, records.len() as u8];
        content.extend(records.concat());
        put_checksum(&mut content, 2);
        packet(IGMP, &content)
    }

    fn record(last: u8, sources: u8) -> Vec<u8> {
        let mut bytes = vec![4, 1, 0, sources, 239, 1, 1, last];
        (0..=sources).for_each(|number| bytes.extend([10, 1, 0, number]));
        bytes
    }

    #[test]
    fn a_join_prune_has_a_part_for_each_group() {
        let groups = [group(1, 0), group(2, 3), group(3, 1)];
        let wanted: Vec<_> = groups.iter().map(|one| join_prune_of(std::slice::from_ref(one))).collect();
        assert_eq!(parts(&join_prune_of(&groups)), wanted);
    }

    #[test]
    fn a_report_has_a_part_for_each_record() {
        let records = [record(1, 2), record(2, 0)];
        let wanted: Vec<_> = records.iter().map(|one| report(std::slice::from_ref(one))).collect();
        assert_eq!(parts(&report(&records)), wanted);
        assert!(wanted.iter().all(|part| sum(&[Packet::read(part).unwrap().content()]) == 0xffff));
    }

    #[test]
    fn what_has_one_part_has_none() {
        assert!(parts(&join_prune_of(&[group(1, 1)])).is_empty());
        assert!(parts(&report(&[record(1, 1)])).is_empty());
    }

    #[test]
    fn what_is_not_whole_has_none() {
        let whole = join_prune_of(&[group(1, 1), group(2, 1)]);
        let content = Packet::read(&whole).unwrap().content().to_vec();
        for length in 0..content.len() {
            assert!(parts(&packet(PIM, &content[..length])).is_empty(), "{length}");
        }
        assert!(parts(&[]).is_empty());
    }

    #[test]
    fn a_report_can_have_some_of_its_records() {
        let whole = report(&[record(1, 2), record(2, 0), record(3, 1)]);
        let packet = Packet::read(&whole).unwrap();
        let found = records(packet).unwrap();
        assert_eq!(found[0].group, Ipv4Addr::new(239, 1, 1, 1));
        assert_eq!((found[0].sources.len(), found[0].included(), found[0].asks_for_nothing()), (2, None, false));
        let kept = with_records(packet, &[found[0].clone(), found[2].clone()]);
        assert_eq!(kept, report(&[record(1, 2), record(3, 1)]));
    }

    #[test]
    fn a_join_prune_can_have_some_of_its_entries() {
        let whole = join_prune_of(&[group(1, 1), group(2, 0)]);
        let packet = Packet::read(&whole).unwrap();
        let found = join_prune(packet).unwrap();
        assert_eq!((found.to, found.holdtime, found.entries.len()), (Ipv4Addr::new(10, 0, 0, 1), 210, 3));
        let said: Vec<_> = found.entries.iter().map(|entry| (entry.is_join, entry.key.to_string())).collect();
        let wanted =
            [(true, "(10.1.0.0, 239.1.1.1)"), (false, "(10.1.0.1, 239.1.1.1)"), (false, "(10.1.0.0, 239.1.1.2)")];
        assert_eq!(said, wanted.map(|(is_join, name)| (is_join, name.to_string())));
        // The prune of the first group goes.
        let kept = with_entries(packet, &[found.entries[0].clone(), found.entries[2].clone()]);
        let one = [&[1, 0, 0, 32, 239, 1, 1, 1, 0, 1, 0, 0][..], &[1, 0, 4, 32, 10, 1, 0, 0]].concat();
        assert_eq!(kept, join_prune_of(&[one, group(2, 0)]));
    }

    #[test]
    fn a_source_can_be_joined_on_the_shared_tree_as_part_of_another_message() {
        let whole = join_prune_of(&[group(1, 1), group(2, 0)]);
        let made = rpt_join(Packet::read(&whole).unwrap(), [239, 1, 1, 9].into(), [10, 1, 0, 7].into());
        let one = [&[1, 0, 0, 32, 239, 1, 1, 9, 0, 1, 0, 0][..], &[1, 0, 5, 32, 10, 1, 0, 7]].concat();
        assert_eq!(made, join_prune_of(&[one]));
    }

    #[test]
    fn only_some_entries_make_state() {
        let source = |flags| vec![1, 0, flags, 32, 10, 1, 0, 9];
        let content = [vec![1, 0, 0, 32, 239, 1, 1, 1, 0, 3, 0, 3], [7, 4, 5, 7, 4, 5].map(source).concat()].concat();
        let whole = join_prune_of(&[content]);
        let found = join_prune(Packet::read(&whole).unwrap()).unwrap().entries;
        let made: Vec<_> = found.iter().map(Entry::makes_state).collect();
        assert_eq!(made, [true, true, false, false, false, true]);
    }

    #[test]
    fn a_long_message_has_parts_of_a_length() {
        let all: Vec<_> = (0..250).map(|last| record(last, 2)).collect();
        let parts = within(&report(&all), 1500);
        // 24 and 8 bytes, and 20 for each record.
        let wanted: Vec<_> = all.chunks(73).map(report).collect();
        assert_eq!(parts, wanted);
        let groups: Vec<_> = (0..60).map(|last| group(last, 1)).collect();
        let parts = within(&join_prune_of(&groups), 500);
        assert_eq!(parts, groups.chunks(16).map(join_prune_of).collect::<Vec<_>>());
        let short = report(&all[..3]);
        assert_eq!(within(&short, 1500), [short]);
        assert_eq!(within(&[1; 2000], 1500), [vec![1; 2000]]);
    }
}
