//! RPs that are learned of Bootstraps (RFC 5059): which are believed, what the library's router has of them, and until when.
use super::restarted::{left_by, resumed, same_machine};
use super::*;
use crate::left::Left;
use crate::policy::Cause;
use crate::schemas::Schema;
use crate::show;
use serde_json::{json, Value};

const BSR: [u8; 4] = [10, 9, 0, 9];
const LEARNED: [u8; 4] = [10, 9, 0, 7];
const OTHER: [u8; 4] = [10, 9, 0, 8];
const GROUP: [u8; 4] = [239, 9, 9, 9];
/// RPs of 239.0.0.0/8. By RFC 7761, 4.7.2, their hash values with a mask of 30 bits are 2067580945, 240866473 and 53588824
/// for 239.0.0.1, as FRR has them too; 418197941, 343260749 and 974265596 for 239.0.0.5; 612161605, 1478452445 and
/// 657310604 for 239.0.0.21.
const SEVERAL: [[u8; 4]; 3] = [[10, 99, 0, 1], [10, 88, 0, 9], [10, 77, 0, 2]];
const GROUPS: [[u8; 4]; 3] = [[239, 0, 0, 1], [239, 0, 0, 5], [239, 0, 0, 21]];

pub fn listening() -> String {
    format!("{TWO}[bsr]\nlisten = true\n")
}

/// One of several RPs of a range is chosen for each group.
fn by_group() -> String {
    format!("{}choice = \"group\"\n", listening())
}

/// The first interface is a border.
fn bordered() -> String {
    listening().replacen("name = \"eth0\"\n", "name = \"eth0\"\nbsr_border = true\n", 1)
}

/// A Bootstrap of the neighbour, which says one RP of each range for 150 s.
pub fn bootstrap(ranges: &[([u8; 4], u8, [u8; 4])]) -> (Source, kernel::Event) {
    from([10, 1, 0, 2], ranges)
}

/// One of a router on the link.
fn from(sender: [u8; 4], ranges: &[([u8; 4], u8, [u8; 4])]) -> (Source, kernel::Event) {
    said(sender, 1, ranges)
}

/// One in which each range has so many RPs, of which it says one.
fn said(sender: [u8; 4], count: u8, ranges: &[([u8; 4], u8, [u8; 4])]) -> (Source, kernel::Event) {
    let mut content = vec![0x24, 0, 0, 0, 0, 7, 30, 10, 1, 0];
    content.extend(BSR);
    for (prefix, length, rp) in ranges {
        content.extend([1, 0, 0, *length]);
        content.extend(prefix);
        content.extend([count, 1, 0, 0, 1, 0]);
        content.extend(rp);
        content.extend([0, 150, 0, 0]);
    }
    frame(ETH0, packet(PIM, sender.into(), [224, 0, 0, 13].into(), &summed(&content)))
}

fn wide(rp: [u8; 4]) -> (Source, kernel::Event) {
    bootstrap(&[([239, 0, 0, 0], 8, rp)])
}

/// All of these RPs of 239.0.0.0/8.
fn several() -> (Source, kernel::Event) {
    said([10, 1, 0, 2], 3, &SEVERAL.map(|rp| ([239, 0, 0, 0], 8, rp)))
}

/// The RPs of the groups.
fn rps(daemon: &Daemon) -> [Option<Ipv4Addr>; 3] {
    GROUPS.map(|group| rp(daemon, group))
}

const SEVERAL_OF_GROUPS: [&str; 3] = ["10.99.0.1", "10.77.0.2", "10.88.0.9"];

/// Those that are chosen for each group, and for the range.
fn of_groups() -> [Option<Ipv4Addr>; 3] {
    SEVERAL_OF_GROUPS.map(|rp| rp.parse().ok())
}

fn of_range() -> [Option<Ipv4Addr>; 3] {
    [Some(SEVERAL[0].into()); 3]
}

pub fn takes(daemon: &mut Daemon, text: &str) {
    daemon.take_settings(settings::read(text).expect("they are in order")).expect("it goes on");
}

pub fn rp(daemon: &Daemon, group: [u8; 4]) -> Option<Ipv4Addr> {
    show::rp_of(daemon, Ipv4Addr::from(group).into())
}

/// On which interfaces Bootstraps left since it was asked last.
pub(super) fn sent_on(fake: &Fake) -> Vec<u32> {
    let sent = fake.sent.take();
    let is_bootstrap = |bytes: &[u8]| Packet::read(bytes).map_or(false, |it| is_pim(it, BOOTSTRAP));
    sent.iter().filter(|(_, bytes)| is_bootstrap(bytes)).map(|(index, _)| *index).collect()
}

pub fn shown(daemon: &mut Daemon, topic: &str) -> Value {
    let mut told = Vec::new();
    show::answer(daemon, &format!("show {topic} json"), &mut told).expect("it is told");
    let told: Value = serde_json::from_slice(&told).expect("JSON");
    let name = topic.split(' ').next().expect("a name");
    assert!(Schema::read(&format!("show-{name}")).fits(&told), "{told}");
    told[name].clone()
}

#[test]
fn an_rp_is_learned_for_its_time() {
    let (mut daemon, fake) = begun(&listening(), &both());
    sent_on(&fake);
    happens(&mut daemon, &fake, wide(LEARNED));
    assert_eq!((rp(&daemon, GROUP), sent_on(&fake)), (Some(LEARNED.into()), vec![ETH0]));
    // What the file has wins.
    happens(&mut daemon, &fake, bootstrap(&[([239, 1, 0, 0], 16, LEARNED)]));
    assert_eq!(rp(&daemon, [239, 1, 1, 1]), Some([10, 1, 0, 1].into()));
    assert_eq!((daemon.counters.bootstraps_taken, daemon.counters.bootstrap_moves), (2, 1));
    passes(&mut daemon, &fake, 149_900);
    assert_eq!(rp(&daemon, GROUP), Some(LEARNED.into()));
    passes(&mut daemon, &fake, 100);
    assert_eq!((rp(&daemon, GROUP), rp(&daemon, [239, 1, 1, 1])), (None, Some([10, 1, 0, 1].into())));
}

#[test]
fn a_join_goes_to_the_rp_that_is_learned() {
    let (mut daemon, fake) = begun(&listening(), &both());
    happens(&mut daemon, &fake, report(ETH1, [10, 5, 0, 77], GROUP.into()));
    fake.sent.take();
    happens(&mut daemon, &fake, wide(LEARNED));
    let joins = |fake: &Fake| {
        fake.sent.take().iter().filter(|(_, bytes)| Packet::read(bytes).map_or(false, |it| is_pim(it, 3))).count()
    };
    assert_eq!(joins(&fake), 1);
    assert_eq!(daemon.core.rows(Table::Upstream).expect("it tells").len(), 1);
}

#[test]
fn nothing_is_learned_where_the_settings_say_so() {
    let (mut daemon, fake) = begun(TWO, &both());
    happens(&mut daemon, &fake, wide(LEARNED));
    assert_eq!((rp(&daemon, GROUP), daemon.core.next_end()), (None, None));
    let (mut daemon, fake) = begun(&bordered(), &both());
    sent_on(&fake);
    happens(&mut daemon, &fake, wide(LEARNED));
    assert_eq!((rp(&daemon, GROUP), sent_on(&fake)), (None, vec![]));
    assert_eq!(daemon.policy.refusals.of(Cause::BsrBorder), 1);
    for (from, learned) in [("10.9.0.8", None), ("10.9.0.9", Some(LEARNED.into()))] {
        let (mut daemon, fake) = begun(&format!("{}from = [\"{from}\"]\n", listening()), &both());
        happens(&mut daemon, &fake, wide(LEARNED));
        assert_eq!(rp(&daemon, GROUP), learned);
        assert_eq!(daemon.policy.refusals.of(Cause::OtherBsr), u64::from(learned.is_none()));
    }
}

#[test]
fn other_settings_leave_what_is_learned() {
    let (mut daemon, fake) = begun(&listening(), &both());
    happens(&mut daemon, &fake, wide(LEARNED));
    // Another configuration, other ranges, and one that is learned too.
    takes(&mut daemon, &format!("limit = 70000\n{}", listening()));
    assert_eq!((daemon.counters.reloaded, rp(&daemon, GROUP)), (1, Some(LEARNED.into())));
    takes(&mut daemon, &listening().replace("239.2.0.0/16", "239.3.0.0/16"));
    assert_eq!(
        (rp(&daemon, [239, 2, 1, 1]), rp(&daemon, [239, 3, 1, 1])),
        (Some(LEARNED.into()), Some([10, 9, 0, 1].into()))
    );
    takes(&mut daemon, &listening().replace("239.2.0.0/16", "239.0.0.0/8"));
    assert_eq!(rp(&daemon, GROUP), Some([10, 9, 0, 1].into()));
    takes(&mut daemon, &listening());
    assert_eq!(rp(&daemon, GROUP), Some(LEARNED.into()));
    takes(&mut daemon, TWO);
    assert_eq!((rp(&daemon, GROUP), rp(&daemon, [239, 2, 1, 1])), (None, Some([10, 9, 0, 1].into())));
}

#[test]
fn each_group_has_its_own_rp_where_the_settings_say_so() {
    let (mut daemon, fake) = begun(&by_group(), &both());
    happens(&mut daemon, &fake, several());
    assert_eq!((rps(&daemon), daemon.counters.bootstrap_moves), (of_groups(), 1));
    // What the file has wins for its own range.
    happens(&mut daemon, &fake, bootstrap(&[([239, 1, 0, 0], 16, LEARNED)]));
    assert_eq!(rp(&daemon, [239, 1, 1, 1]), Some([10, 1, 0, 1].into()));
    passes(&mut daemon, &fake, 149_900);
    assert_eq!(rps(&daemon), of_groups());
    passes(&mut daemon, &fake, 200);
    assert_eq!((rps(&daemon), rp(&daemon, [239, 1, 1, 1])), ([None; 3], Some([10, 1, 0, 1].into())));
    let (mut daemon, fake) = begun(&listening(), &both());
    happens(&mut daemon, &fake, several());
    assert_eq!(rps(&daemon), of_range());
}

#[test]
fn another_choice_is_taken_while_the_router_runs() {
    let (mut daemon, fake) = begun(&listening(), &both());
    happens(&mut daemon, &fake, several());
    for (text, wanted) in [(by_group(), of_groups()), (listening(), of_range()), (by_group(), of_groups())] {
        takes(&mut daemon, &text);
        assert_eq!((rps(&daemon), rp(&daemon, [239, 1, 1, 1])), (wanted, Some([10, 1, 0, 1].into())));
    }
    // With another configuration, with fewer RPs, and without Bootstraps.
    takes(&mut daemon, &format!("limit = 70000\n{}", by_group()));
    assert_eq!((daemon.counters.reloaded, rps(&daemon)), (1, of_groups()));
    takes(&mut daemon, &by_group().replace("239.2.0.0/16", "239.0.0.0/8"));
    assert_eq!(rps(&daemon), [Some([10, 9, 0, 1].into()); 3]);
    takes(&mut daemon, &format!("{}limit = 1\n", by_group()));
    assert_eq!((rps(&daemon), daemon.core.candidates().len()), (of_range(), 1));
    takes(&mut daemon, TWO);
    assert_eq!((rps(&daemon), rp(&daemon, [239, 2, 1, 1])), ([None; 3], Some([10, 9, 0, 1].into())));
}

#[test]
fn a_router_in_the_place_of_another_one_has_the_choice_of_its_settings() {
    let texts = [(listening(), of_range()), (by_group(), of_groups()), (TWO.to_string(), [None; 3])];
    for before in [listening(), by_group()] {
        let (mut daemon, fake) = begun(&before, &both());
        happens(&mut daemon, &fake, several());
        for (text, wanted) in &texts {
            let other = same_machine(&fake);
            let mut next = resumed(text, &other, left_by(&daemon), Way::Whole);
            assert_eq!(rps(&next), *wanted, "{before} and then {text}");
            passes(&mut next, &other, 151_000);
            assert_eq!(rps(&next), [None; 3]);
        }
        // One that kept nothing of Bootstraps: what its router has stays until they are heard.
        for (text, wanted) in &texts[..2] {
            let (other, (left, saved)) = (same_machine(&fake), left_by(&daemon));
            let mut next = resumed(text, &other, (Left { listener: None, ..left }, saved), Way::Whole);
            assert_eq!(rps(&next), rps(&daemon));
            happens(&mut next, &other, several());
            passes(&mut next, &other, 1_500);
            assert_eq!(rps(&next), *wanted, "{before} and then {text}");
            passes(&mut next, &other, 151_000);
            assert_eq!(rps(&next), [None; 3]);
        }
    }
}

/// What `show rp GROUP` prints.
fn of_group(daemon: &mut Daemon, group: [u8; 4]) -> Value {
    let group = Ipv4Addr::from(group);
    let told = shown(daemon, &format!("rp {group}"));
    told.as_array().expect("rows").iter().map(|row| row["rp"].clone()).collect()
}

#[test]
fn which_rp_is_chosen_is_shown() {
    let (mut daemon, fake) = begun(&by_group(), &both());
    happens(&mut daemon, &fake, several());
    for group in GROUPS {
        happens(&mut daemon, &fake, report(ETH1, [10, 5, 0, 77], group.into()));
    }
    let learned = |daemon: &mut Daemon| {
        let rows = shown(daemon, "rp");
        let rows = rows.as_array().expect("rows").iter().filter(|row| row["from"] == json!("bsr"));
        rows.map(|row| (row["rp"].clone(), row["chosen_for"].clone(), row["used_by"].clone())).collect::<Vec<_>>()
    };
    let row =
        |rp: [u8; 4], chosen: &str, used: u32| (json!(Ipv4Addr::from(rp).to_string()), json!(chosen), json!(used));
    assert_eq!(learned(&mut daemon), SEVERAL.map(|rp| row(rp, "groups", 1)));
    assert_eq!(GROUPS.map(|group| of_group(&mut daemon, group)), SEVERAL_OF_GROUPS.map(|rp| json!([rp])));
    let rows = shown(&mut daemon, "rp");
    assert_eq!((&rows[0]["chosen_for"], &rows[0]["hash_length"]), (&json!("range"), &Value::Null));
    assert_eq!(rows.as_array().and_then(|rows| rows.last()).expect("a row")["hash_length"], json!(30));
    assert!(shown(&mut daemon, "bsr").as_array().expect("rows")[1..].iter().all(|row| row["in_use"] == json!(true)));
    takes(&mut daemon, &listening());
    let [first, second, third] = SEVERAL;
    let of_range = [row(first, "range", 3), row(second, "nothing", 0), row(third, "nothing", 0)];
    assert_eq!(learned(&mut daemon), of_range);
    takes(&mut daemon, &by_group().replace("239.2.0.0/16", "239.0.0.0/8"));
    assert_eq!(learned(&mut daemon), SEVERAL.map(|rp| row(rp, "nothing", 0)));
    assert_eq!(of_group(&mut daemon, GROUPS[1]), json!(["10.9.0.1"]));
    let ways = shown(&mut daemon, "rpf");
    assert!(ways.as_array().expect("rows").iter().all(|row| row["address"] != json!("10.88.0.9")));
    let metrics = crate::metrics::text(&mut daemon).expect("they are told");
    for wanted in ["viqeshor_bootstrap_ranges 1", "viqeshor_bootstrap_candidates 3"] {
        assert!(metrics.lines().any(|line| line == wanted), "{wanted}");
    }
}

#[test]
fn a_router_in_the_place_of_another_one_knows_what_that_learned() {
    let (mut daemon, fake) = begun(&listening(), &both());
    happens(&mut daemon, &fake, wide(LEARNED));
    // Of two RPs, one of which is missing.
    happens(&mut daemon, &fake, said([10, 1, 0, 2], 2, &[([238, 0, 0, 0], 8, LEARNED)]));
    let begins = |text: &str| {
        let other = same_machine(&fake);
        (resumed(text, &other, left_by(&daemon), Way::Death), other)
    };
    // Nothing is said again.
    let (mut next, other) = begins(&listening());
    assert_eq!((next.core.learned(), next.core.learned_parts()), (daemon.core.learned(), daemon.core.learned_parts()));
    assert_eq!((next.core.elected(), rp(&next, GROUP)), (daemon.core.elected(), Some(LEARNED.into())));
    passes(&mut next, &other, 149_000);
    assert_eq!(rp(&next, GROUP), Some(LEARNED.into()));
    passes(&mut next, &other, 1_500);
    assert_eq!(rp(&next, GROUP), None);
    // The other fragment comes.
    let (mut next, other) = begins(&listening());
    assert_eq!(rp(&next, [238, 1, 1, 1]), None);
    happens(&mut next, &other, said([10, 1, 0, 2], 2, &[([238, 0, 0, 0], 8, OTHER)]));
    assert!(rp(&next, [238, 1, 1, 1]).is_some());
    // The file has other ranges, or hears none.
    let (next, _) = begins(&listening().replace("239.2.0.0/16", "239.3.0.0/16"));
    assert_eq!((rp(&next, [239, 2, 1, 1]), rp(&next, GROUP)), (Some(LEARNED.into()), Some(LEARNED.into())));
    assert_eq!(rp(&begins(TWO).0, GROUP), None);
}

#[test]
fn a_router_in_the_place_of_an_older_one_keeps_what_that_learned() {
    let (mut daemon, fake) = begun(&listening(), &both());
    happens(&mut daemon, &fake, wide(LEARNED));
    let left_by_older = || {
        let (left, saved) = left_by(&daemon);
        (Left { listener: None, ..left }, saved)
    };
    let begins = || {
        let other = same_machine(&fake);
        let next = resumed(&listening(), &other, left_by_older(), Way::Whole);
        assert_eq!(rp(&next, GROUP), Some(LEARNED.into()));
        (next, other)
    };
    // Nothing is said again.
    let (mut next, other) = begins();
    passes(&mut next, &other, 129_000);
    assert_eq!(rp(&next, GROUP), Some(LEARNED.into()));
    passes(&mut next, &other, 1_500);
    assert_eq!(rp(&next, GROUP), None);
    // Another RP is said.
    let (mut next, other) = begins();
    happens(&mut next, &other, wide(OTHER));
    passes(&mut next, &other, 1_500);
    assert_eq!(rp(&next, GROUP), Some(OTHER.into()));
    // The file has other ranges.
    let text = listening().replace("239.2.0.0/16", "239.3.0.0/16");
    assert_eq!(rp(&resumed(&text, &same_machine(&fake), left_by_older(), Way::Whole), GROUP), None);
}

#[test]
fn what_is_learned_is_shown() {
    let (mut daemon, fake) = begun(&listening(), &both());
    assert_eq!(shown(&mut daemon, "bsr"), json!([]));
    happens(&mut daemon, &fake, wide(LEARNED));
    let rows = shown(&mut daemon, "bsr");
    assert_eq!(
        (&rows[0]["what"], &rows[0]["address"], &rows[0]["priority"]),
        (&json!("BSR"), &json!("10.9.0.9"), &json!(10))
    );
    assert_eq!((&rows[1]["groups"], &rows[1]["address"]), (&json!("239.0.0.0/8"), &json!("10.9.0.7")));
    assert_eq!((&rows[1]["in_use"], &rows[1]["expires_seconds"]), (&json!(true), &json!(150.0)));
    assert_eq!((&rows[0]["up_seconds"], &rows[1]["up_seconds"]), (&json!(0.0), &Value::Null));
    let rows = shown(&mut daemon, "rp");
    assert_eq!((&rows[0]["from"], &rows[0]["expires_seconds"]), (&json!("file"), &Value::Null));
    assert_eq!(rows[0]["priority"], Value::Null);
    let learned = rows.as_array().and_then(|rows| rows.last()).expect("a row");
    assert_eq!(
        (&learned["rp"], &learned["from"], &learned["priority"], &learned["next_hop"]),
        (&json!("10.9.0.7"), &json!("bsr"), &json!(0), &json!("10.1.0.2"))
    );
}

#[test]
fn since_when_the_bsr_is_elected_is_shown() {
    let (mut daemon, fake) = begun(&listening(), &both());
    happens(&mut daemon, &fake, wide(LEARNED));
    passes(&mut daemon, &fake, 60_000);
    happens(&mut daemon, &fake, wide(LEARNED));
    passes(&mut daemon, &fake, 60_000);
    assert_eq!(shown(&mut daemon, "bsr")[0]["up_seconds"], json!(120.0));
    passes(&mut daemon, &fake, 71_000);
    assert_eq!((shown(&mut daemon, "bsr")[0]["what"].as_str(), daemon.bsr_since), (Some("RP"), None));
}

#[test]
fn what_does_not_count_is_counted_by_its_reason() {
    let (mut daemon, fake) = begun(&listening(), &both());
    happens(&mut daemon, &fake, wide(LEARNED));
    for _ in 0..2 {
        happens(&mut daemon, &fake, from([10, 1, 0, 77], &[([239, 0, 0, 0], 8, OTHER)]));
    }
    let rows = shown(&mut daemon, "counters");
    let count = |name: &str| {
        let row = rows.as_array().and_then(|rows| rows.iter().find(|row| row["counter"] == json!(name)));
        row.map(|row| row["count"].clone())
    };
    assert_eq!(count("Bootstraps that didn't count"), Some(json!(2)));
    assert_eq!(count("Bootstraps that didn't count: the sender is no neighbour"), Some(json!(2)));
    assert_eq!(count("ranges of which the router has a learned RP"), Some(json!(1)));
    let metrics = crate::metrics::text(&mut daemon).expect("they are told");
    let by_reason = r#"viqeshor_bootstraps_left_out_by_reason_total{reason="the sender is no neighbour"} 2"#;
    let bootstraps = r#"viqeshor_pim_messages_total{interface="eth0",type="bootstrap",direction="received"} 3"#;
    for wanted in [by_reason, bootstraps] {
        assert!(metrics.lines().any(|line| line == wanted), "{wanted}");
    }
}
