//! Sources of other RPs (MSDP, RFC 3618): what a router is given for a message of a peer, and which sources are its own.
use std::net::Ipv4Addr;
use viqeshor::{Error, Interface, Range, Reason, Route, Router, Settings, SourceActive, Target, Verdict};

const OWN: Ipv4Addr = Ipv4Addr::new(10, 0, 0, 2);
const PEER: Ipv4Addr = Ipv4Addr::new(10, 9, 0, 2);
const FAR: Ipv4Addr = Ipv4Addr::new(10, 9, 0, 50);
const NEAR: Ipv4Addr = Ipv4Addr::new(10, 0, 1, 50);
const GROUP: Ipv4Addr = Ipv4Addr::new(239, 1, 1, 1);
const TOLD: SourceActive = SourceActive { peer: PEER, rp: OWN, source: FAR, group: GROUP, packet: &[] };
const NOT_FOR_ME: Result<Verdict, Error> = Ok(Verdict::Ignored(Reason::NotForMe));

fn router() -> Router {
    let interfaces = [Interface::new(OWN, 24), Interface::new(Ipv4Addr::new(10, 0, 1, 1), 24)];
    let routes = [Route::new(Ipv4Addr::new(10, 9, 0, 0), 16, Ipv4Addr::new(10, 0, 0, 1), 0)];
    let ranges = [Range::new(Ipv4Addr::new(239, 0, 0, 0), 8, OWN)];
    let mut router = Router::new(&Settings::default(), &interfaces, &routes, &ranges).unwrap();
    for iface in 0..2 {
        router.up(iface, 7).unwrap();
        router.clear();
    }
    router
}

#[test]
fn an_sa_is_an_event_and_no_register_of_a_dr() {
    let mut router = router();
    assert_eq!(router.source_active(&TOLD, 7), Ok(Verdict::Done));
    let mut room = [0; viqeshor::MOST_BYTES];
    assert_eq!(router.take(&mut room).map(|(target, _)| target), Some(Target::Unicast(PEER)));
    assert!(router.source_tree(FAR, GROUP).unwrap().is_kept_alive && !router.is_own_source(FAR, GROUP));
    let given = router.source_active_packet(&TOLD).unwrap().unwrap();
    assert_eq!((given[8], router.registered(&given)), (1, None));
    // With a TTL above 1 a DR sent it.
    let mut sent = given.clone();
    sent[8] = 2;
    let sum = u16::from_be_bytes([sent[10], sent[11]]) - 0x100;
    sent[10..12].copy_from_slice(&sum.to_be_bytes());
    let name = router.registered(&sent).unwrap();
    assert_eq!((name.source(), name.group()), (FAR, GROUP));
    assert_eq!((router.registered(&[]), router.registered(&sent[..30])), (None, None));
}

#[test]
fn nothing_is_given_of_a_source_on_a_link_of_the_router() {
    let mut router = router();
    let near = SourceActive { source: NEAR, ..TOLD };
    assert_eq!((router.source_active(&near, 7), router.source_active_packet(&near)), (NOT_FOR_ME, Ok(None)));
    assert_eq!(router.source_active(&SourceActive { rp: PEER, ..TOLD }, 7), NOT_FOR_ME);
    assert!(!router.source_tree(FAR, GROUP).unwrap().is_kept_alive);
}
