use super::lists::{List, Rule};
use super::*;
use crate::packet::{put_checksum, with_content, PIM};
use crate::settings::Subnet;
use std::cell::Cell;
use viqeshor::{AssertRow, DownstreamRow, DownstreamState, GroupRow, NeighbourRow, OlderHosts, SourceRow};

/// A router that holds some rows.
#[derive(Default)]
struct Holds {
    rows: Vec<Row>,
    now: Cell<u64>,
}

impl Books for Holds {
    fn rows(&mut self, table: Table) -> Vec<Row> {
        self.rows.iter().filter(|row| table_of(row) == table).copied().collect()
    }

    fn now(&self) -> u64 {
        self.now.get()
    }

    fn is_of_link(&self, _: u32, address: Ipv4Addr) -> bool {
        address.octets().starts_with(&[10, 5, 0])
    }
}

impl Policy {
    /// What of a packet to a group goes to the router.
    fn frame(&mut self, books: &mut dyn Books, iface: u32, bytes: &[u8]) -> Option<Vec<u8>> {
        self.let_in(books, iface, bytes).map(Cow::into_owned)
    }
}

const OWN: [u8; 4] = [10, 5, 0, 1];

fn policy(limit: u32, of_one: InterfacePolicy) -> Policy {
    hearing(OlderHosts::All, limit, of_one)
}

fn hearing(older_hosts: OlderHosts, limit: u32, of_one: InterfacePolicy) -> Policy {
    let speech = Speech { older_hosts, ..Speech::NEW };
    let gate = |name: &str, policy| Gate { name: name.to_string(), address: OWN.into(), speech, policy };
    let mut policy = Policy::default();
    let gates = [(0, gate("eth0", of_one)), (1, gate("eth1", InterfacePolicy::default()))].into_iter().collect();
    policy.set(PolicySettings::default(), limit, gates);
    policy
}

fn packet(protocol: u8, from: u8, to: [u8; 4], content: &[u8]) -> Vec<u8> {
    let mut header = [0x45, 0, 0, 0, 0, 0, 0, 0, 1, protocol, 0, 0, 10, 5, 0, from, 0, 0, 0, 0];
    header[16..].copy_from_slice(&to);
    let mut content = content.to_vec();
    put_checksum(&mut content, 2);
    with_content(&header, &content)
}

/// Of TO_EX without sources, or of ALLOW with them, for group 239.1.x.y each.
fn report(records: &[([u8; 2], &[u8])]) -> Vec<u8> {
    let mut content = vec![0x22, 0, 0, 0, 0, 0, 0, records.len() as u8];
    for (group, sources) in records {
        let kind = if sources.is_empty() { 4 } else { 5 };
        content.extend([kind, 0, 0, sources.len() as u8, 239, 1, group[0], group[1]]);
        sources.iter().for_each(|last| content.extend([10, 1, 0, *last]));
    }
    packet(IGMP, 77, [224, 0, 0, 22], &content)
}

fn hello(from: u8) -> Vec<u8> {
    packet(PIM, from, [224, 0, 0, 13], &[0x20, 0, 0, 0, 0, 1, 0, 2, 0, 105])
}

/// Joins of (*,G) for groups 239.1.1.x.
fn join(from: u8, groups: &[u8]) -> Vec<u8> {
    let mut content = vec![0x23, 0, 0, 0, 1, 0];
    content.extend(OWN);
    content.extend([0, groups.len() as u8, 0, 210]);
    for last in groups {
        content.extend([1, 0, 0, 32, 239, 1, 1, *last, 0, 1, 0, 0, 1, 0, 7, 32, 10, 9, 9, 9]);
    }
    packet(PIM, from, [224, 0, 0, 13], &content)
}

fn table_of(row: &Row) -> Table {
    match row {
        Row::Neighbour(_) => Table::Neighbours,
        Row::Group(_) => Table::Groups,
        Row::Source(_) => Table::Sources,
        Row::Downstream(_) => Table::Downstream,
        Row::Assert(_) => Table::Asserts,
        _ => panic!("no policy reads {row:?}"),
    }
}

// Rows of the first interface, of group 239.1.1.x.

fn neighbour(address: [u8; 4]) -> Row {
    Row::Neighbour(NeighbourRow { iface: 0, address: address.into(), end: None })
}

fn group(last: [u8; 2]) -> Row {
    Row::Group(GroupRow { iface: 0, group: [239, 1, last[0], last[1]].into(), is_exclude: true, end: Some(9_000) })
}

fn source(address: [u8; 4], last: u8) -> Row {
    let (group, source) = ([239, 1, 1, last].into(), address.into());
    Row::Source(SourceRow { iface: 0, group, source, end: Some(9_000) })
}

fn joined(last: u8) -> Row {
    Row::Downstream(DownstreamRow {
        iface: 0,
        group: [239, 1, 1, last].into(),
        source: None,
        is_rpt: false,
        state: DownstreamState::Joined,
        end: Some(9_000),
        pending: None,
    })
}

fn asserted(source: [u8; 4], last: u8) -> Row {
    Row::Assert(AssertRow {
        iface: 0,
        group: [239, 1, 1, last].into(),
        source: Some(source.into()),
        is_loser: true,
        winner: [10, 5, 0, 2].into(),
        end: 9_000,
    })
}

/// The same with another address of its source, and another TTL.
fn forged(bytes: &[u8], from: [u8; 4], ttl: u8) -> Vec<u8> {
    let mut header = Packet::read(bytes).expect("it is a packet").header().to_vec();
    header[12..16].copy_from_slice(&from);
    header[8] = ttl;
    with_content(&header, Packet::read(bytes).expect("it is a packet").content())
}

#[test]
fn one_host_leaves_groups_to_others() {
    let quota = InterfacePolicy { max_groups: 6, max_host_groups: 2, ..InterfacePolicy::default() };
    let (mut it, mut books) = (policy(1_000, quota), Holds::default());
    // What was let through stands.
    it.read_due = u64::MAX;
    let asks = |from: [u8; 4], last: u8, sources: &[u8]| forged(&report(&[([1, last], sources)]), from, 1);
    let (one, other) = ([10, 5, 0, 77], [10, 5, 0, 78]);
    let mut passes = |it: &mut Policy, packet: Vec<u8>| it.frame(&mut books, 0, &packet).is_some();
    assert!(passes(&mut it, asks(one, 1, &[])) && passes(&mut it, asks(one, 2, &[])));
    assert!(!passes(&mut it, asks(one, 3, &[])) && !passes(&mut it, asks(one, 1, &[9])));
    // Another one has its share, also of the group of the first, which still refreshes its own.
    assert!(passes(&mut it, asks(other, 1, &[])) && passes(&mut it, asks(other, 3, &[9])));
    assert!(!passes(&mut it, asks(other, 4, &[])) && passes(&mut it, asks(one, 2, &[])));
    // Those without an address, and of another subnet, have one share together.
    assert!(passes(&mut it, asks([0; 4], 5, &[])) && passes(&mut it, asks([10, 9, 0, 1], 6, &[])));
    assert!(!passes(&mut it, asks([10, 9, 0, 2], 7, &[])) && !passes(&mut it, asks([10, 5, 0, 79], 7, &[])));
    assert_eq!((it.refusals.of(Cause::HostGroups), it.refusals.of(Cause::Groups)), (3, 2));
}

#[test]
fn what_ends_is_given_back_to_its_host() {
    let quota = InterfacePolicy { max_host_groups: 2, ..InterfacePolicy::default() };
    let (mut it, mut books) = (policy(1_000, quota), Holds::default());
    it.read_due = 5_000;
    let asks = |last: u8| report(&[([1, last], &[])]);
    assert!(it.frame(&mut books, 0, &asks(1)).is_some() && it.frame(&mut books, 0, &asks(2)).is_some());
    // The router holds one of them, once it is read again.
    books.rows = vec![group([1, 2])];
    books.now.set(5_000);
    assert!(it.frame(&mut books, 0, &asks(3)).is_some());
    assert_eq!(it.frame(&mut books, 0, &asks(4)), None);
}

#[test]
fn pim_is_believed_of_the_link_alone() {
    let mut books = Holds::default();
    let link = InterfacePolicy::default();
    let listed = Some(vec![Subnet { address: [10, 9, 0, 9].into(), length: 32 }]);
    let unnumbered = InterfacePolicy { is_unnumbered: true, ..link.clone() };
    let named = InterfacePolicy { neighbours: listed, ..unnumbered.clone() };
    for bytes in [hello(2), join(2, &[1])] {
        let foreign = forged(&bytes, [10, 9, 0, 9], 1);
        let mut it = policy(1_000, link.clone());
        assert!(it.frame(&mut books, 0, &bytes).is_some());
        assert_eq!(it.frame(&mut books, 0, &foreign), None);
        assert_eq!(it.frame(&mut books, 0, &forged(&bytes, [10, 5, 0, 2], 64)), None);
        assert_eq!((it.refusals.of(Cause::OtherSubnet), it.refusals.of(Cause::FarTtl)), (1, 1));
        // Where the link is unnumbered another subnet's is believed, but none that was routed.
        let mut it = policy(1_000, unnumbered.clone());
        assert!(it.frame(&mut books, 0, &foreign).is_some());
        assert_eq!(it.frame(&mut books, 0, &forged(&bytes, [10, 9, 0, 9], 64)), None);
        let mut it = policy(1_000, named.clone());
        assert!(it.frame(&mut books, 0, &foreign).is_some());
        assert_eq!(it.frame(&mut books, 0, &bytes), None);
    }
}

#[test]
fn a_quota_of_groups_takes_what_is_known_and_cuts_the_rest() {
    let mut it = policy(1_000, InterfacePolicy { max_groups: 2, ..InterfacePolicy::default() });
    let mut books = Holds::default();
    let known = report(&[([1, 1], &[]), ([1, 2], &[])]);
    assert_eq!(it.frame(&mut books, 0, &known), Some(known.clone()));
    books.rows = vec![group([1, 1]), group([1, 2])];
    assert_eq!(it.frame(&mut books, 0, &report(&[([1, 3], &[])])), None);
    let mixed = report(&[([1, 1], &[]), ([1, 3], &[]), ([1, 2], &[])]);
    assert_eq!(it.frame(&mut books, 0, &mixed), Some(known.clone()));
    assert_eq!(it.refusals.of(Cause::Groups), 2);
    // Another interface has its own.
    let other = report(&[([1, 3], &[])]);
    assert_eq!(it.frame(&mut books, 1, &other), Some(other.clone()));
    // What ended makes room, once the router is asked again.
    books.rows.pop();
    books.now.set(2_000);
    assert_eq!(it.frame(&mut books, 0, &other), Some(other));
}

#[test]
fn a_quota_of_sources_is_of_one_group() {
    let mut it = policy(1_000, InterfacePolicy { max_sources: 2, ..InterfacePolicy::default() });
    let mut books = Holds::default();
    let two = report(&[([1, 1], &[1, 2])]);
    assert_eq!(it.frame(&mut books, 0, &two), Some(two.clone()));
    books.rows = [1, 2].map(|last| source([10, 1, 0, last], 1)).to_vec();
    assert_eq!(it.frame(&mut books, 0, &report(&[([1, 1], &[3])])), None);
    let other = report(&[([1, 2], &[3])]);
    assert_eq!(it.frame(&mut books, 0, &other), Some(other));
    assert_eq!(it.frame(&mut books, 0, &two), Some(two));
}

#[test]
fn room_stays_for_neighbours() {
    // An eighth of the limit, which is 2.
    let mut it = policy(16, InterfacePolicy::default());
    let mut books = Holds::default();
    for last in 0..20 {
        if it.frame(&mut books, 0, &report(&[([7, last], &[])])).is_some() {
            books.rows.push(group([7, last]));
        }
    }
    assert_eq!((books.rows.len(), it.refusals.of(Cause::Reserve)), (14, 6));
    assert!(it.frame(&mut books, 0, &hello(2)).is_some());
    assert!(!it.stream(&mut books, 1, Key { source: [10, 1, 0, 50].into(), group: [239, 1, 1, 1].into() }));
}

#[test]
fn what_asks_for_nothing_passes() {
    let mut it = policy(1_000, InterfacePolicy { max_groups: 0, ..InterfacePolicy::default() });
    let mut leave = report(&[([1, 1], &[])]);
    leave[28] = 3;
    put_checksum(&mut leave[20..], 2);
    assert_eq!(it.frame(&mut Holds::default(), 0, &leave), Some(leave.clone()));
    assert_eq!(it.frame(&mut Holds::default(), 0, &report(&[([1, 1], &[])])), None);
}

#[test]
fn neighbours_are_counted_and_told_apart() {
    let list = vec![Subnet { address: [10, 5, 0, 2].into(), length: 31 }];
    let believed = InterfacePolicy { neighbours: Some(list), ..InterfacePolicy::default() };
    let mut it = policy(1_000, believed);
    let mut books = Holds::default();
    assert!(it.frame(&mut books, 0, &hello(3)).is_some());
    assert_eq!((it.frame(&mut books, 0, &hello(4)), it.frame(&mut books, 0, &join(4, &[1]))), (None, None));
    assert_eq!(it.refusals.of(Cause::NotBelieved), 2);
    let mut few = policy(1_000, InterfacePolicy { max_neighbours: 1, ..InterfacePolicy::default() });
    assert!(few.frame(&mut books, 0, &hello(3)).is_some());
    books.rows = vec![neighbour([10, 5, 0, 3])];
    assert_eq!(few.frame(&mut books, 0, &hello(4)), None);
    assert!(few.frame(&mut books, 0, &hello(3)).is_some());
    assert_eq!(few.refusals.of(Cause::Neighbours), 1);
}

#[test]
fn pim_on_a_passive_interface_is_refused_and_igmp_is_not() {
    let mut it = policy(1_000, InterfacePolicy { is_passive: true, ..InterfacePolicy::default() });
    let asked = report(&[([1, 1], &[])]);
    assert_eq!(it.frame(&mut Holds::default(), 0, &hello(2)), None);
    assert_eq!(it.frame(&mut Holds::default(), 0, &asked), Some(asked.clone()));
    assert_eq!(it.refusals.of(Cause::Passive), 1);
}

#[test]
fn a_list_cuts_groups_out_of_joins_and_reports() {
    let groups = Subnet { address: [239, 1, 1, 2].into(), length: 32 };
    let all = Subnet { address: [224, 0, 0, 0].into(), length: 4 };
    let rule = |permits, groups| Rule { permits, groups, sources: None };
    let list = List(Some(vec![rule(false, groups), rule(true, all)]));
    let mut it = policy(1_000, InterfacePolicy { join: list, ..InterfacePolicy::default() });
    let mut books = Holds::default();
    assert_eq!(it.frame(&mut books, 0, &join(2, &[1, 2, 3])), Some(join(2, &[1, 3])));
    assert_eq!(it.frame(&mut books, 0, &join(2, &[2])), None);
    let asked = report(&[([1, 1], &[]), ([1, 2], &[])]);
    assert_eq!(it.frame(&mut books, 0, &asked), Some(report(&[([1, 1], &[])])));
    assert_eq!(it.refusals.of(Cause::JoinList), 3);
}

#[test]
fn a_quota_of_joins_takes_what_is_known() {
    let mut it = policy(1_000, InterfacePolicy { max_joins: 2, ..InterfacePolicy::default() });
    let mut books = Holds::default();
    assert_eq!(it.frame(&mut books, 0, &join(2, &[1, 2])), Some(join(2, &[1, 2])));
    books.rows = [1, 2].map(joined).to_vec();
    assert_eq!(it.frame(&mut books, 0, &join(2, &[1, 3, 2])), Some(join(2, &[1, 2])));
    // What goes to another router, or ends, is none of it.
    let mut to_another = join(2, &[4]);
    to_another[29] = 9;
    put_checksum(&mut to_another[20..], 2);
    assert_eq!(it.frame(&mut books, 0, &to_another), Some(to_another.clone()));
}

#[test]
fn asserts_share_the_quota_of_joins() {
    let mut it = policy(1_000, InterfacePolicy { max_joins: 2, ..InterfacePolicy::default() });
    let mut books = Holds::default();
    let assert = |last: u8| {
        let content = [0x25, 0, 0, 0, 1, 0, 0, 32, 239, 1, 1, last, 1, 0, 10, 1, 0, 50, 0, 0, 0, 110, 0, 0, 0, 20];
        packet(PIM, 2, [224, 0, 0, 13], &content)
    };
    assert!(it.frame(&mut books, 0, &join(2, &[1])).is_some());
    assert_eq!(it.frame(&mut books, 0, &assert(1)), Some(assert(1)));
    books.rows = vec![joined(1), asserted([10, 1, 0, 50], 1)];
    assert_eq!((it.frame(&mut books, 0, &assert(2)), it.frame(&mut books, 0, &join(2, &[2]))), (None, None));
    assert_eq!(it.frame(&mut books, 0, &assert(1)), Some(assert(1)));
    assert_eq!(it.refusals.of(Cause::Joins), 2);
}

#[test]
fn streams_and_registers_have_lists_and_quotas() {
    let key = |last| Key { source: [10, 1, 0, last].into(), group: [239, 1, 1, 1].into() };
    let one = Subnet { address: [10, 1, 0, 0].into(), length: 28 };
    let all = Subnet { address: [224, 0, 0, 0].into(), length: 4 };
    let list = || List(Some(vec![Rule { permits: true, groups: all, sources: Some(one) }]));
    let mut it = policy(1_000, InterfacePolicy { send: list(), max_streams: 1, ..InterfacePolicy::default() });
    let mut books = Holds::default();
    assert!(!it.stream(&mut books, 0, key(16)) && it.stream(&mut books, 0, key(1)));
    it.began(key(1), Some(0));
    assert!(it.stream(&mut books, 0, key(1)) && !it.stream(&mut books, 0, key(2)) && it.stream(&mut books, 1, key(2)));
    it.ended(key(1));
    assert!(it.stream(&mut books, 0, key(2)));

    it.settings = PolicySettings { register: list(), max_registered: 1 };
    let registered = |last: u8| {
        let inner = with_content(&[0x45, 0, 0, 0, 0, 0, 0, 0, 9, 17, 0, 0, 10, 1, 0, last, 239, 1, 1, 1], &[0; 8]);
        packet(PIM, 9, [10, 4, 0, 2], &[vec![0x21, 0, 0, 0, 0, 0, 0, 0], inner].concat())
    };
    assert!(!it.unicast(&mut books, &registered(16)) && it.unicast(&mut books, &registered(1)));
    it.began(key(1), None);
    assert!(it.unicast(&mut books, &registered(1)) && !it.unicast(&mut books, &registered(2)));
    let causes = [Cause::SendList, Cause::Streams, Cause::RegisterList, Cause::Registered];
    assert_eq!(causes.map(|cause| it.refusals.of(cause)), [1; 4]);
}

// ---- older hosts

const REPORT_ONE: u8 = 0x12;
const REPORT_TWO: u8 = 0x16;
const LEAVE: u8 = 0x17;

/// A message of an older host about a group.
fn older(kind: u8, group: [u8; 4]) -> Vec<u8> {
    packet(IGMP, 77, group, &[&[kind, 0, 0, 0], &group[..]].concat())
}

/// Whether each of some packets on the first interface passes.
fn pass<const N: usize>(it: &mut Policy, books: &mut Holds, packets: [Vec<u8>; N]) -> [bool; N] {
    packets.map(|packet| {
        let let_in = it.frame(books, 0, &packet);
        assert!(let_in.is_none() || let_in.as_ref() == Some(&packet));
        let_in.is_some()
    })
}

#[test]
fn older_hosts_that_are_not_heard_are_counted_and_told_apart() {
    let group = [239, 1, 1, 1];
    let messages = || [REPORT_ONE, REPORT_TWO, LEAVE].map(|kind| older(kind, group));
    let mut it = hearing(OlderHosts::Nobody, 1_000, InterfacePolicy::default());
    assert_eq!(pass(&mut it, &mut Holds::default(), messages()), [false; 3]);
    assert_eq!((it.refusals.of(Cause::OlderHost), it.older_hosts.len()), (3, 1));
    let mut it = hearing(OlderHosts::VersionTwo, 1_000, InterfacePolicy::default());
    assert_eq!(pass(&mut it, &mut Holds::default(), messages()), [false, true, true]);
    assert_eq!(it.refusals.of(Cause::OlderHost), 1);
    let mut it = policy(1_000, InterfacePolicy::default());
    assert_eq!(pass(&mut it, &mut Holds::default(), messages()), [true; 3]);
}

#[test]
fn reports_of_older_hosts_share_the_quota_of_groups() {
    let mut it = policy(1_000, InterfacePolicy { max_groups: 2, ..InterfacePolicy::default() });
    let mut books = Holds::default();
    let first = [older(REPORT_TWO, [239, 1, 1, 1]), report(&[([1, 2], &[])])];
    assert_eq!(pass(&mut it, &mut books, first), [true; 2]);
    books.rows = [1, 2].map(|last| group([1, last])).to_vec();
    let more = [older(REPORT_ONE, [239, 1, 1, 3]), older(REPORT_TWO, [239, 1, 1, 4])];
    assert_eq!(pass(&mut it, &mut books, more), [false; 2]);
    let again = [older(REPORT_ONE, [239, 1, 1, 2]), report(&[([1, 1], &[])])];
    assert_eq!(pass(&mut it, &mut books, again), [true; 2]);
    assert_eq!(it.refusals.of(Cause::Groups), 2);
    // A Leave asks for nothing.
    assert_eq!(pass(&mut it, &mut books, [older(LEAVE, [239, 1, 1, 9])]), [true]);
}

#[test]
fn a_list_of_joins_is_of_older_hosts_too() {
    let one = |permits, group: [u8; 4], sources| {
        let groups = Subnet { address: group.into(), length: 32 };
        Rule { permits, groups, sources }
    };
    let source = Subnet { address: [10, 1, 0, 50].into(), length: 32 };
    let list = List(Some(vec![one(true, [239, 1, 1, 1], None), one(true, [239, 1, 1, 2], Some(source))]));
    let mut it = policy(1_000, InterfacePolicy { join: list, ..InterfacePolicy::default() });
    // A rule with sources fits no report of a whole group.
    let asked = [1, 2, 3].map(|last| older(REPORT_TWO, [239, 1, 1, last]));
    assert_eq!(pass(&mut it, &mut Holds::default(), asked), [true, false, false]);
    assert_eq!(it.refusals.of(Cause::JoinList), 2);
    assert_eq!(pass(&mut it, &mut Holds::default(), [older(LEAVE, [239, 1, 1, 3])]), [true]);
}

#[test]
fn older_hosts_have_no_group_of_the_link_and_none_of_ssm() {
    let mut it = policy(1_000, InterfacePolicy::default());
    let asked = [older(REPORT_TWO, [224, 0, 0, 251]), older(REPORT_TWO, [232, 1, 1, 1]), older(LEAVE, [232, 1, 1, 1])];
    assert_eq!(pass(&mut it, &mut Holds::default(), asked), [false; 3]);
    assert_eq!((it.refusals.of(Cause::SourceSpecific), it.refusals.of(Cause::OlderHost)), (2, 0));
    assert_eq!(it.refusals.counts().count(), 1);
}

#[test]
fn what_is_no_whole_message_of_an_older_host_is_the_library_s() {
    let mut it = hearing(OlderHosts::Nobody, 1_000, InterfacePolicy::default());
    let short = packet(IGMP, 77, [239, 1, 1, 1], &[REPORT_TWO, 0, 0, 0, 239, 1, 1]);
    let query = packet(IGMP, 9, [224, 0, 0, 1], &[0x11, 100, 0, 0, 0, 0, 0, 0]);
    assert_eq!(pass(&mut it, &mut Holds::default(), [short, query]), [true; 2]);
}
