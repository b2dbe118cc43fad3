//! Hosts and routers of IGMPv1 and IGMPv2: what they get, and what operators see of them.
use super::shown::{samples, shown};
use super::*;
use crate::metrics::text;

pub(super) const REPORT_ONE: u8 = 0x12;
pub(super) const REPORT_TWO: u8 = 0x16;
pub(super) const LEAVE: u8 = 0x17;
const QUERY: u8 = 0x11;
const ALL_ROUTERS: Ipv4Addr = Ipv4Addr::new(224, 0, 0, 2);
const ALL_HOSTS: Ipv4Addr = Ipv4Addr::new(224, 0, 0, 1);
const HOST: [u8; 4] = [10, 5, 0, 77];
/// Robustness times the query interval, and the query response interval (RFC 3376, 8.13), in ms.
pub(super) const PRESENT: u64 = 260_000;
/// Robustness times the last member query interval (RFC 3376, 8.8), in ms.
pub(super) const LAST_MEMBER: u64 = 2_000;

/// The packet of an older message about a group.
fn older(kind: u8, from: [u8; 4], group: Ipv4Addr) -> Vec<u8> {
    let to = if kind == LEAVE { ALL_ROUTERS } else { group };
    packet(IGMP, from.into(), to, &summed(&[&[kind, 0, 0, 0], &group.octets()[..]].concat()))
}

pub(super) fn said(kind: u8, group: Ipv4Addr) -> (Source, kernel::Event) {
    frame(ETH1, older(kind, HOST, group))
}

/// The version of a group, and in how many seconds its older hosts expire.
pub(super) fn version(daemon: &mut Daemon, group: Ipv4Addr) -> Option<(String, Option<u64>)> {
    let rows = shown(daemon, "igmp");
    let row = rows.into_iter().find(|row| row["group"] == group.to_string() && row["source"] == "*")?;
    let seconds = row["older_expires_seconds"].as_f64().map(|seconds| seconds.ceil() as u64);
    Some((row["version"].as_str().expect("a text").to_string(), seconds))
}

pub(super) fn in_mode(text: &str, seconds: Option<u64>) -> Option<(String, Option<u64>)> {
    Some((text.to_string(), seconds))
}

/// What was asked on an interface since a number of packets: how long each query is, and the group.
pub(super) fn asked(fake: &Fake, index: u32, since: usize) -> Vec<(usize, Ipv4Addr)> {
    let sent = fake.sent.borrow();
    let queries = sent[since..].iter().filter(|(on, _)| *on == index).filter_map(|(_, bytes)| {
        let packet = Packet::read(bytes).filter(|it| it.protocol() == IGMP && it.content()[0] == QUERY)?;
        Some((packet.content().len(), crate::packet::address(packet.content(), 4)))
    });
    queries.collect()
}

#[test]
fn a_host_of_version_two_is_served_until_it_leaves() {
    let (mut daemon, fake) = begun(TWO, &both());
    let stream = key(FAR, [239, 2, 1, 1]);
    happens(&mut daemon, &fake, said(REPORT_TWO, stream.group));
    assert_eq!(version(&mut daemon, stream.group), in_mode("IGMPv2", Some(PRESENT / 1_000)));
    happens(&mut daemon, &fake, no_cache(0, stream));
    happens(&mut daemon, &fake, whole(stream, data(FAR, stream.group, 0, 40)));
    assert_eq!(fake.entry(stream).map(|entry| entry.outgoing), Some(0b10));
    let before = fake.sent.borrow().len();
    happens(&mut daemon, &fake, said(LEAVE, stream.group));
    assert_eq!(asked(&fake, ETH1, before), [(12, stream.group)]);
    passes(&mut daemon, &fake, LAST_MEMBER + 200);
    assert_eq!((version(&mut daemon, stream.group), fake.entry(stream).map(|entry| entry.outgoing)), (None, Some(0)));
}

#[test]
fn a_host_of_version_one_is_served_until_it_expires() {
    let (mut daemon, fake) = begun(TWO, &both());
    let group = Ipv4Addr::new(239, 2, 1, 1);
    happens(&mut daemon, &fake, said(REPORT_ONE, group));
    passes(&mut daemon, &fake, 10_000);
    happens(&mut daemon, &fake, said(REPORT_TWO, group));
    assert_eq!(version(&mut daemon, group), in_mode("IGMPv1", Some(PRESENT / 1_000 - 10)));
    // A Leave counts for nothing (RFC 3376, 7.3.2).
    let before = fake.sent.borrow().len();
    happens(&mut daemon, &fake, said(LEAVE, group));
    passes(&mut daemon, &fake, LAST_MEMBER + 200);
    assert_eq!((asked(&fake, ETH1, before), version(&mut daemon, group).is_some()), (Vec::new(), true));
    passes(&mut daemon, &fake, PRESENT - 12_200);
    assert_eq!(version(&mut daemon, group), in_mode("IGMPv2", Some(10)));
    passes(&mut daemon, &fake, 10_000);
    assert_eq!(version(&mut daemon, group), None);
}

#[test]
fn a_host_of_version_three_cuts_no_older_one_off() {
    let (mut daemon, fake) = begun(TWO, &both());
    let group = Ipv4Addr::new(239, 2, 1, 1);
    happens(&mut daemon, &fake, report(ETH1, [10, 5, 0, 78], group));
    assert_eq!(version(&mut daemon, group), in_mode("IGMPv3", None));
    happens(&mut daemon, &fake, said(REPORT_TWO, group));
    // TO_EX of a source, which would be excluded.
    let mut content = vec![0x22, 0, 0, 0, 0, 0, 0, 1, 4, 0, 0, 1];
    content.extend(group.octets());
    content.extend(FAR.octets());
    let excluding = packet(IGMP, [10, 5, 0, 78].into(), [224, 0, 0, 22].into(), &summed(&content));
    happens(&mut daemon, &fake, frame(ETH1, excluding));
    assert!(shown(&mut daemon, "igmp").iter().all(|row| row["source"] == "*"));
    assert_eq!(version(&mut daemon, group), in_mode("IGMPv2", Some(PRESENT / 1_000)));
}

#[test]
fn a_list_and_a_quota_are_of_older_hosts_too() {
    let settings = TWO.replace("\"eth1\"\n", "\"eth1\"\nmax_groups = 1\njoin = [{ groups = \"239.2.0.0/16\" }]\n");
    let (mut daemon, fake) = begun(&settings, &both());
    for group in [[239, 1, 1, 1], [239, 2, 1, 1], [239, 2, 1, 2]] {
        happens(&mut daemon, &fake, said(REPORT_TWO, group.into()));
    }
    let groups: Vec<_> = shown(&mut daemon, "igmp").iter().map(|row| row["group"].to_string()).collect();
    assert_eq!(groups, ["\"239.2.1.1\""]);
    assert_eq!(daemon.policy.refusals.by_cause().map(|(_, _, count)| count).sum::<u64>(), 2);
}

#[test]
fn other_settings_are_taken_without_another_router() {
    let (mut daemon, fake) = begun(TWO, &both());
    let (group, kept) = (Ipv4Addr::new(239, 2, 1, 1), Ipv4Addr::new(239, 2, 1, 2));
    happens(&mut daemon, &fake, said(REPORT_ONE, group));
    happens(&mut daemon, &fake, frame(ETH0, older(REPORT_ONE, [10, 1, 0, 77], kept)));
    let of_eth1 =
        |lines: &str| settings::read(&TWO.replace("\"eth1\"\n", &format!("\"eth1\"\n{lines}"))).expect("fine");
    daemon.take_settings(of_eth1("older_hosts = \"v2\"\n")).expect("it goes on");
    assert_eq!((version(&mut daemon, group), daemon.counters.made_anew), (in_mode("IGMPv3", None), 0));
    happens(&mut daemon, &fake, said(REPORT_ONE, group));
    assert_eq!(version(&mut daemon, group), in_mode("IGMPv3", None));
    happens(&mut daemon, &fake, said(REPORT_TWO, group));
    assert_eq!(version(&mut daemon, group), in_mode("IGMPv2", Some(PRESENT / 1_000)));
    // What differs nowhere is told to nobody: what was heard there stays.
    daemon.take_settings(of_eth1("older_hosts = \"v2\"\nmax_groups = 9\n")).expect("it goes on");
    assert_eq!(version(&mut daemon, group), in_mode("IGMPv2", Some(PRESENT / 1_000)));
    assert_eq!(version(&mut daemon, kept), in_mode("IGMPv1", Some(PRESENT / 1_000)));
    daemon.make_anew("it is to be").expect("it goes on");
    happens(&mut daemon, &fake, said(REPORT_ONE, group));
    assert_eq!(version(&mut daemon, group), None);
}

#[test]
fn metrics_count_groups_of_older_hosts() {
    let (mut daemon, fake) = begun(TWO, &both());
    for (kind, last) in [(REPORT_ONE, 1), (REPORT_TWO, 2), (REPORT_TWO, 3)] {
        happens(&mut daemon, &fake, said(kind, [239, 2, 1, last].into()));
    }
    let found = samples(&text(&mut daemon).expect("it tells"));
    let of = |name: &str| found.get(&format!("viqeshor_{name}")).copied();
    let groups = |version: &str| of(&format!("igmp_older_groups{{interface=\"eth1\",version=\"{version}\"}}"));
    assert_eq!((groups("1"), groups("2")), (Some(1.0), Some(2.0)));
    assert_eq!(of("igmp_messages_total{interface=\"eth1\",type=\"older_report\",direction=\"received\"}"), Some(3.0));
}

#[test]
fn time_passes_for_the_library_for_a_part_of_the_time() {
    let after = |microseconds| Pace::after(1_000, Duration::from_micros(microseconds));
    assert!(after(99).is_early(1_009) && !after(99).is_early(1_010));
    assert!(after(3_000).is_early(1_029) && !after(3_000).is_early(1_030));
    assert!(after(60_000_000).is_early(1_049) && !after(60_000_000).is_early(1_050));
}

#[test]
fn queries_of_version_two_have_eight_bytes() {
    let (mut daemon, fake) = begun(&TWO.replace("\"eth1\"\n", "\"eth1\"\nversion = 2\n"), &both());
    let group = Ipv4Addr::new(239, 2, 1, 1);
    let all = Ipv4Addr::UNSPECIFIED;
    assert_eq!((asked(&fake, ETH1, 0), asked(&fake, ETH0, 0)), (vec![(8, all)], vec![(12, all)]));
    happens(&mut daemon, &fake, said(REPORT_TWO, group));
    let before = fake.sent.borrow().len();
    happens(&mut daemon, &fake, said(LEAVE, group));
    assert_eq!(asked(&fake, ETH1, before), [(8, group)]);
}

#[test]
fn an_older_querier_with_a_lower_address_asks_alone() {
    let query = packet(IGMP, [10, 1, 0, 2].into(), ALL_HOSTS, &summed(&[QUERY, 100, 0, 0, 0, 0, 0, 0]));
    // How many queries of the router, and messages that its library refused, follow in 160 s.
    let follow = |settings: &str| {
        let (mut daemon, fake) = begun(settings, &[(ETH0, [10, 1, 0, 9]), (ETH1, [10, 5, 0, 1])]);
        let before = fake.sent.borrow().len();
        happens(&mut daemon, &fake, frame(ETH0, query.clone()));
        passes(&mut daemon, &fake, 160_000);
        (asked(&fake, ETH0, before).len(), daemon.ports[0].passed.refused)
    };
    assert_eq!(follow(TWO), (0, 0));
    // The second of the start, and one after the query interval.
    assert_eq!(follow(&format!("[igmp]\nolder_hosts = \"none\"\n{TWO}")), (2, 1));
}

#[test]
fn the_machine_s_own_older_reports_and_leaves_are_heard() {
    let (mut daemon, fake) = begun(TWO, &both());
    let group = Ipv4Addr::new(239, 2, 1, 1);
    let own = |kind| (Source::OwnReports, kernel::Event::OwnReport(older(kind, [10, 5, 0, 1], group)));
    happens(&mut daemon, &fake, own(REPORT_TWO));
    assert_eq!(version(&mut daemon, group), in_mode("IGMPv2", Some(PRESENT / 1_000)));
    happens(&mut daemon, &fake, own(LEAVE));
    passes(&mut daemon, &fake, LAST_MEMBER + 200);
    assert_eq!(version(&mut daemon, group), None);
}
