//! The router as candidate BSR and as candidate RP (RFC 5059): what its settings, others and time make of it.
use super::bootstraps::{bootstrap, rp, sent_on, shown, takes};
use super::restarted::{left_by, resumed, same_machine};
use super::*;
use serde_json::{json, Value};
use viqeshor::Role;

/// The router's address in both roles.
const OWN: [u8; 4] = [10, 5, 0, 1];
/// The BSR of `bootstrap`, of priority 10.
const BSR: [u8; 4] = [10, 9, 0, 9];
const OTHER: [u8; 4] = [10, 9, 0, 7];
/// Of the range of which the router is a candidate RP.
const GROUP: [u8; 4] = [238, 1, 1, 1];

fn as_bsr(priority: u32) -> String {
    format!("{TWO}[bsr]\nlisten = true\ncandidate = {{ address = \"10.5.0.1\", priority = {priority} }}\n")
}

fn as_rp(priority: u32) -> String {
    format!("[rp_candidate]\naddress = \"10.5.0.1\"\npriority = {priority}\nranges = [\"238.0.0.0/8\"]\n")
}

fn as_both() -> String {
    as_bsr(20) + &as_rp(192)
}

/// Of a candidate RP alone.
fn only_rp(priority: u32) -> String {
    format!("{TWO}[bsr]\nlisten = true\n{}", as_rp(priority))
}

/// An advertisement of an RP of 239.0.0.0/8 with priority 5 (RFC 5059, 4.2), to the router.
fn advertisement(holdtime: u8) -> (Source, kernel::Event) {
    let mut content = vec![0x28, 0, 0, 0, 1, 5, 0, holdtime, 1, 0];
    content.extend(OTHER);
    content.extend([1, 0, 0, 8, 239, 0, 0, 0]);
    (Source::Unicasts, kernel::Event::Unicast(packet(PIM, OTHER.into(), OWN.into(), &summed(&content))))
}

fn better() -> (Source, kernel::Event) {
    bootstrap(&[([239, 0, 0, 0], 8, OTHER)])
}

fn role(daemon: &Daemon) -> Option<Role> {
    daemon.core.standing().and_then(|it| it.role)
}

/// What left of advertisements since it was asked last: to which BSR, with which priority and holdtime.
fn told(fake: &Fake) -> Vec<(Ipv4Addr, u8, u16)> {
    let sent = fake.unicasts.take();
    let of = |bytes: &Vec<u8>| {
        let packet = Packet::read(bytes).filter(|packet| is_pim(*packet, 8))?;
        let content = packet.content();
        Some((packet.destination(), content[5], u16::from_be_bytes([content[6], content[7]])))
    };
    sent.iter().filter_map(of).collect()
}

/// The rows of `show bsr` of a kind.
fn rows(daemon: &mut Daemon, what: &str) -> Vec<Value> {
    let rows = shown(daemon, "bsr");
    rows.as_array().expect("rows").iter().filter(|row| row["what"] == json!(what)).cloned().collect()
}

fn has_metric(daemon: &mut Daemon, line: &str) -> bool {
    crate::metrics::text(daemon).expect("they are told").lines().any(|it| it == line)
}

#[test]
fn a_router_alone_is_elected_and_has_its_own_rp() {
    let (mut daemon, fake) = begun(&as_both(), &both());
    assert_eq!((role(&daemon), daemon.core.elected()), (Some(Role::Pending), None));
    assert_eq!(rows(&mut daemon, "candidate BSR")[0]["role"], json!("pending"));
    sent_on(&fake);
    passes(&mut daemon, &fake, 5_000);
    assert_eq!((role(&daemon), sent_on(&fake)), (Some(Role::Elected), vec![ETH0]));
    assert_eq!(daemon.bsr_since, Some((OWN.into(), 5_000)));
    assert!(has_metric(&mut daemon, "viqeshor_bsr_elected 1"));
    passes(&mut daemon, &fake, 10_000);
    assert_eq!((rp(&daemon, GROUP), sent_on(&fake)), (Some(OWN.into()), vec![ETH0]));
    // Nothing goes by the kernel where the router tells itself.
    assert_eq!(told(&fake), []);
    assert!(has_metric(&mut daemon, "viqeshor_advertised_rps 1"));
    let (bsr, own) = (rows(&mut daemon, "candidate BSR"), rows(&mut daemon, "candidate RP"));
    assert_eq!((&bsr[0]["role"], &bsr[0]["priority"]), (&json!("elected"), &json!(20)));
    assert_eq!((&bsr[0]["address"], &bsr[0]["expires_seconds"]), (&json!("10.5.0.1"), &json!(60.0)));
    assert_eq!((&own[0]["groups"], &own[0]["tells"]), (&json!("238.0.0.0/8"), &json!("10.5.0.1")));
    let held = rows(&mut daemon, "advertised RP");
    assert_eq!((held.len(), &held[0]["address"], &held[0]["priority"]), (1, &json!("10.5.0.1"), &json!(192)));
    let own = shown(&mut daemon, "rp");
    let own = own.as_array().and_then(|rows| rows.last()).expect("a row");
    assert_eq!((&own["rp"], &own["is_here"], &own["from"]), (&json!("10.5.0.1"), &json!(true), &json!("bsr")));
}

#[test]
fn an_elected_router_is_told_of_rps_of_others() {
    let (mut daemon, fake) = begun(&as_bsr(20), &both());
    happens(&mut daemon, &fake, advertisement(150));
    assert_eq!((daemon.counters.advertisements_taken, daemon.core.held().len()), (0, 0));
    let reason = "viqeshor_advertisements_left_out_by_reason_total{reason=\"the router isn't the elected BSR\"} 1";
    assert!(has_metric(&mut daemon, reason));
    passes(&mut daemon, &fake, 15_500);
    happens(&mut daemon, &fake, advertisement(150));
    assert_eq!((daemon.counters.advertisements_taken, daemon.core.held().len()), (1, 1));
    daemon.house_keeping().expect("it goes on");
    assert_eq!(rp(&daemon, [239, 9, 9, 9]), Some(OTHER.into()));
    // It goes.
    passes(&mut daemon, &fake, 20_000);
    happens(&mut daemon, &fake, advertisement(0));
    daemon.house_keeping().expect("it goes on");
    assert_eq!((rp(&daemon, [239, 9, 9, 9]), daemon.core.held().len()), (None, 0));
    assert!(has_metric(&mut daemon, "viqeshor_advertisements_taken_total 2"));
    let received = r#"viqeshor_pim_messages_total{interface="",type="candidate_rp",direction="received"} 3"#;
    assert!(has_metric(&mut daemon, received));
}

#[test]
fn a_router_yields_to_more_weight_and_tells_it_of_its_rp() {
    let (mut daemon, fake) = begun(&(as_bsr(5) + &as_rp(192)), &both());
    happens(&mut daemon, &fake, better());
    assert_eq!((role(&daemon), rp(&daemon, [239, 9, 9, 9])), (Some(Role::Candidate), Some(OTHER.into())));
    passes(&mut daemon, &fake, 10_000);
    assert_eq!(told(&fake), [(BSR.into(), 192, 150); 3]);
    assert_eq!(rows(&mut daemon, "candidate RP")[0]["tells"], json!("10.9.0.9"));
    assert_eq!(rows(&mut daemon, "candidate BSR")[0]["role"], json!("candidate"));
    // Nothing is heard of it any more.
    passes(&mut daemon, &fake, 119_000);
    assert_eq!((role(&daemon), rows(&mut daemon, "BSR").len()), (Some(Role::Candidate), 1));
    passes(&mut daemon, &fake, 1_000);
    assert_eq!((role(&daemon), rows(&mut daemon, "BSR").len()), (Some(Role::Pending), 0));
    passes(&mut daemon, &fake, 30_000);
    assert_eq!(
        (role(&daemon), rows(&mut daemon, "BSR")[0]["address"].clone()),
        (Some(Role::Elected), json!("10.5.0.1"))
    );
}

#[test]
fn other_settings_are_taken_and_an_rp_that_goes_says_so() {
    let (mut daemon, fake) = begun(&only_rp(192), &both());
    happens(&mut daemon, &fake, better());
    passes(&mut daemon, &fake, 10_000);
    assert_eq!(told(&fake).len(), 3);
    // Another priority: the BSR is told soon, and the RP doesn't go before.
    takes(&mut daemon, &only_rp(7));
    passes(&mut daemon, &fake, 10_000);
    assert_eq!(told(&fake), [(BSR.into(), 7, 150); 3]);
    takes(&mut daemon, &only_rp(7));
    passes(&mut daemon, &fake, 1_000);
    assert_eq!(told(&fake), []);
    takes(&mut daemon, &only_rp(7).replace("238.0.0.0/8", "237.0.0.0/8"));
    assert_eq!(told(&fake), [(BSR.into(), 7, 0)]);
    passes(&mut daemon, &fake, 10_000);
    assert_eq!(told(&fake), [(BSR.into(), 7, 150); 3]);
    // As BSR of more weight, which keeps what is learned, and as none again.
    takes(&mut daemon, &as_both());
    assert_eq!((role(&daemon), told(&fake)), (Some(Role::Pending), vec![(BSR.into(), 7, 0)]));
    assert_eq!((rp(&daemon, [239, 9, 9, 9]), rows(&mut daemon, "BSR").len()), (Some(OTHER.into()), 1));
    passes(&mut daemon, &fake, 5_000);
    assert_eq!((role(&daemon), daemon.core.elected().map(|it| it.bsr)), (Some(Role::Elected), Some(OWN.into())));
    takes(&mut daemon, &format!("{TWO}[bsr]\nlisten = true\n"));
    assert_eq!((daemon.core.standing(), rows(&mut daemon, "candidate RP").len()), (None, 0));
    // Nothing is heard any more.
    takes(&mut daemon, &only_rp(192));
    takes(&mut daemon, TWO);
    assert!(daemon.core.standing().is_none() && !daemon.core.listens());
    passes(&mut daemon, &fake, 1_000);
}

#[test]
fn a_router_that_ends_says_that_its_rp_goes() {
    let (mut daemon, fake) = begun(&only_rp(192), &both());
    happens(&mut daemon, &fake, better());
    passes(&mut daemon, &fake, 10_000);
    told(&fake);
    daemon.say_goodbye();
    assert_eq!(told(&fake), [(BSR.into(), 192, 0)]);
}

#[test]
fn a_router_in_the_place_of_another_one_begins_its_candidacy_anew() {
    let (mut daemon, fake) = begun(&as_both(), &both());
    passes(&mut daemon, &fake, 20_000);
    assert_eq!((role(&daemon), rp(&daemon, GROUP)), (Some(Role::Elected), Some(OWN.into())));
    for way in [Way::Whole, Way::Death] {
        let other = same_machine(&fake);
        let mut next = resumed(&as_both(), &other, left_by(&daemon), way);
        assert_eq!((role(&next), rp(&next, GROUP)), (Some(Role::Pending), Some(OWN.into())));
        assert_eq!(next.core.elected(), daemon.core.elected());
        passes(&mut next, &other, 5_000);
        assert_eq!((role(&next), rp(&next, GROUP)), (Some(Role::Elected), Some(OWN.into())));
        passes(&mut next, &other, 200_000);
        assert_eq!((role(&next), rp(&next, GROUP)), (Some(Role::Elected), Some(OWN.into())));
        // It stands as nothing.
        let next = resumed(&as_bsr(20).replace("candidate", "# "), &same_machine(&fake), left_by(&daemon), way);
        assert_eq!((next.core.standing(), rp(&next, GROUP)), (None, Some(OWN.into())));
    }
}

#[test]
fn a_bsr_that_begins_anew_holds_the_rps_that_it_said() {
    let (mut daemon, fake) = begun(&as_both(), &both());
    passes(&mut daemon, &fake, 15_500);
    happens(&mut daemon, &fake, advertisement(200));
    passes(&mut daemon, &fake, 20_000);
    let rps = |daemon: &Daemon| [[239, 9, 9, 9], GROUP].map(|group| rp(daemon, group));
    assert_eq!(rps(&daemon), [Some(OTHER.into()), Some(OWN.into())]);
    // In another's place: the other RP isn't told again, and lasts for the rest of its time.
    let other = same_machine(&fake);
    let mut next = resumed(&as_both(), &other, left_by(&daemon), Way::Whole);
    passes(&mut next, &other, 4_900);
    assert_eq!(next.core.held().len(), 0);
    passes(&mut next, &other, 100);
    let held: Vec<_> = next.core.held().iter().map(|it| (it.range.rp.octets(), it.priority)).collect();
    assert_eq!(held, [(OTHER, 5), (OWN, 192)]);
    passes(&mut next, &other, 100_000);
    assert_eq!(rps(&next), [Some(OTHER.into()), Some(OWN.into())]);
    passes(&mut next, &other, 100_000);
    assert_eq!(rps(&next), [None, Some(OWN.into())]);
    // By other settings: a better priority, and then the own RP goes.
    takes(&mut daemon, &(as_bsr(30) + &as_rp(192)));
    assert_eq!((role(&daemon), daemon.core.held().len()), (Some(Role::Pending), 0));
    passes(&mut daemon, &fake, 5_000);
    assert_eq!((role(&daemon), daemon.core.held().len()), (Some(Role::Elected), 2));
    takes(&mut daemon, &as_bsr(30));
    passes(&mut daemon, &fake, 5_000);
    assert_eq!(daemon.core.held().iter().map(|it| it.range.rp.octets()).collect::<Vec<_>>(), [OTHER]);
    passes(&mut daemon, &fake, 11_000);
    assert_eq!(rps(&daemon), [Some(OTHER.into()), None]);
}

#[test]
fn a_router_stands_once_an_interface_has_the_address() {
    let (mut daemon, fake) = begun(&as_both(), &both()[..1]);
    passes(&mut daemon, &fake, 6_000);
    assert_eq!((daemon.core.standing(), rows(&mut daemon, "candidate RP").len()), (None, 0));
    let late = subnet(OWN);
    fake.addresses.borrow_mut().push((ETH1, late));
    happens(&mut daemon, &fake, moves(ETH1, None, Some(late)));
    passes(&mut daemon, &fake, 1_100);
    assert_eq!(role(&daemon), Some(Role::Pending));
    passes(&mut daemon, &fake, 5_000);
    assert_eq!(role(&daemon), Some(Role::Elected));
    fake.addresses.borrow_mut().pop();
    happens(&mut daemon, &fake, moves(ETH1, Some(late), None));
    passes(&mut daemon, &fake, 1_100);
    assert_eq!(daemon.core.standing(), None);
}

#[test]
fn a_router_that_is_made_anew_stands_again() {
    let (mut daemon, fake) = begun(&as_both(), &both());
    passes(&mut daemon, &fake, 20_000);
    daemon.make_anew("it is to be").expect("it goes on");
    assert_eq!((role(&daemon), rp(&daemon, GROUP)), (Some(Role::Pending), None));
    happens(&mut daemon, &fake, hello());
    passes(&mut daemon, &fake, 20_000);
    assert_eq!((role(&daemon), rp(&daemon, GROUP)), (Some(Role::Elected), Some(OWN.into())));
}
