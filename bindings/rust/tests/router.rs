//! Each call of the crate once, and what it answers: a Join of 10.0.1.2 comes and a packet of its source, as in `examples/library`.
use std::net::Ipv4Addr;
use viqeshor::{
    message, refused_candidate, refused_range, refused_route, ActiveRow, Asks, Call, Candidate, DownstreamRow,
    DownstreamState, Error, GroupRow, Hop, Interface, NeighbourRow, NoPrefix, OlderHosts, OlderRow, Prefix, Querier,
    QueryVersion, Range, Reason, Received, Refusal, RefusedAt, Route, Router, Row, RpSet, Rpf, RptState, Sent,
    Settings, Table, Target, UpstreamRow, Verdict, MOST_BYTES,
};

const HELLO_ABOVE: &str = "45C0001E000000000167CEAB0A000001E000000D2000DFFC00010002FFFF";
const HELLO_BELOW: &str = "45C0001E000000000167CDAA0A000102E000000D2000DFFC00010002FFFF";
const JOIN: &str =
    "45C00036000000000167CD920A000102E000000D2300DBB301000A0001010001000101000020E101010100010000010004200A000305";
const DATA: &str = "4500001C0000000040118BCA0A000305E10101010001000200030004";
const DONE: Result<Verdict, Error> = Ok(Verdict::Done);

fn bytes_of(hex: &str) -> Vec<u8> {
    (0..hex.len()).step_by(2).map(|at| u8::from_str_radix(&hex[at..at + 2], 16).unwrap()).collect()
}

fn address(last: [u8; 4]) -> Ipv4Addr {
    Ipv4Addr::from(last)
}

fn interfaces() -> [Interface; 3] {
    [0, 1, 2].map(|net| Interface::new(address([10, 0, net, if net == 0 { 2 } else { 1 }]), 24))
}

fn routes() -> [Route; 2] {
    [[10, 9, 9, 0], [10, 0, 3, 0]].map(|prefix| Route::new(address(prefix), 24, address([10, 0, 0, 1]), 0))
}

fn ranges() -> [Range; 1] {
    [Range::new(address([224, 0, 0, 0]), 4, address([10, 9, 9, 9]))]
}

/// Of a range of 239.0.0.0 of this length.
fn candidate(length: u32, rp: [u8; 4], priority: u32, hash_length: u32) -> Candidate {
    Candidate::new(Range::new(address([239, 0, 0, 0]), length, address(rp)), priority, hash_length)
}

fn router() -> Router {
    Router::new(&Settings::default(), &interfaces(), &routes(), &ranges()).unwrap()
}

/// With all interfaces up, and the Join of 10.0.3.5 to 225.1.1.1 on the second one, for which two packets are untaken.
fn just_joined() -> Router {
    let mut router = router();
    for iface in 0..3 {
        assert_eq!(router.up(iface, 7), DONE);
        router.clear();
    }
    assert_eq!(router.frame(0, &bytes_of(HELLO_ABOVE), 0), DONE);
    router.clear();
    assert_eq!(router.frame(1, &bytes_of(HELLO_BELOW), 0), DONE);
    router.clear();
    assert_eq!(router.frame(1, &bytes_of(JOIN), 0), DONE);
    router
}

/// The same, with all packets taken.
fn joined() -> Router {
    let mut router = just_joined();
    router.clear();
    router
}

fn taken(router: &mut Router) -> Vec<Sent> {
    router.drain().collect()
}

/// The one that there is.
fn only<One>(mut all: Vec<One>) -> One {
    assert_eq!(all.len(), 1);
    all.remove(0)
}

#[test]
fn configurations_that_are_refused() {
    let none: [Interface; 0] = [];
    let made = Router::new(&Settings::default(), &none, &[], &[]);
    assert_eq!(made.err(), Some(Error::Refused(Refusal::InterfaceCount)));
    let settings = Settings { limit: 0, ..Settings::default() };
    let error = Router::new(&settings, &interfaces(), &[], &[]).err().unwrap();
    assert_eq!(error, Error::Refused(Refusal::BadLimit));
    assert_eq!(error.to_string(), "the limit isn't 1 to 1,000,000 (34)");
}

#[test]
fn which_item_is_refused() {
    let usual = Settings::default();
    assert_eq!((refused_route(&usual, &interfaces(), &routes()), refused_range(&ranges())), (None, None));
    let to_itself = Route { next_hop: address([10, 0, 1, 1]), ..routes()[1] };
    let at = refused_route(&usual, &interfaces(), &[routes()[0], to_itself]).unwrap();
    assert_eq!(at, RefusedAt { index: 1, reason: 5 });
    let own = Settings { addresses: vec![routes()[0].next_hop], ..usual };
    assert_eq!(refused_route(&own, &interfaces(), &routes()), Some(RefusedAt { index: 0, reason: 5 }));
    assert_eq!(at.to_string(), "number 1, its next hop is the router's own");
    assert_eq!(refused_range(&[ranges()[0]; 2]), Some(RefusedAt { index: 1, reason: 8 }));
    let good = candidate(8, [10, 8, 8, 8], 255, 32);
    let wrong = [(Candidate { priority: 256, ..good }, 10), (Candidate { hash_length: 33, ..good }, 11), (good, 12)];
    for (wrong, reason) in wrong {
        assert_eq!(refused_candidate(&[good, wrong]), Some(RefusedAt { index: 1, reason }));
        assert_eq!(router().set_candidates(&[good, wrong], 0), Err(Error::Refused(Refusal::BadCandidates)));
    }
    assert_eq!(refused_candidate(&[good, candidate(9, [10, 8, 8, 8], 0, 0)]), None);
}

/// They are the router's, and no interface has them.
#[test]
fn addresses_of_no_interface() {
    let own = address([10, 255, 0, 1]);
    let of = |addresses: &[Ipv4Addr]| Settings { addresses: addresses.to_vec(), ..Settings::default() };
    let ranges = [Range::new(address([224, 0, 0, 0]), 4, own)];
    let mut router = Router::new(&of(&[own]), &interfaces(), &routes(), &ranges).unwrap();
    assert_eq!(router.up(0, 0), DONE);
    router.clear();
    let towards_rp = |router: &Router| router.tree(address([225, 1, 1, 1])).unwrap().path.map(|path| path.iface);
    assert_eq!(router.tree(address([225, 1, 1, 1])).unwrap().rp, Some(own));
    assert_eq!(towards_rp(&router), None);
    let refused = Err(Error::Refused(Refusal::OwnAddresses));
    for addresses in [&[own, own][..], &[address([0; 4])], &[interfaces()[1].address], &[address([10, 0, 1, 9])]] {
        assert_eq!(router.reload(&of(addresses), &interfaces(), &routes(), &ranges, 7), refused);
        assert_eq!(Router::new(&of(addresses), &interfaces(), &routes(), &ranges).map(|_| ()), refused);
    }
    // No route leads to itself, and one leads to an RP that is another router.
    let to_it = [Route::new(own, 32, address([10, 0, 0, 1]), 0)];
    assert_eq!((router.set_routes(&to_it, 0), towards_rp(&router)), (DONE, None));
    router.reload(&of(&[]), &interfaces(), &to_it, &ranges, 7).unwrap();
    assert_eq!(towards_rp(&router), Some(0));
}

#[test]
fn messages_and_reports() {
    assert_eq!([HELLO_ABOVE, JOIN, DATA].map(|hex| message(&bytes_of(hex))), ["Hello", "Join/Prune", "data"]);
    let (mut router, group) = (joined(), address([239, 1, 1, 1]));
    let report = |asks, sources: &[Ipv4Addr]| viqeshor::report(address([10, 0, 2, 9]), asks, group, sources);
    let wants = report(Asks::ToEx, &[]).unwrap();
    assert_eq!((message(&wants), router.frame(2, &wants, 0)), ("report", DONE));
    let row = GroupRow { iface: 2, group, is_exclude: true, end: Some(260_000) };
    assert_eq!(router.rows_of(), Ok(vec![row]));
    assert_eq!(report(Asks::Allow, &[group; 361]), None);
}

#[test]
fn an_address_and_a_length_as_a_text() {
    assert_eq!("10.0.0.2/24".parse().map(Interface::at), Ok(interfaces()[0]));
    assert_eq!("10.9.9.0/24".parse().map(|to| Route::to(to, address([10, 0, 0, 1]), 0)), Ok(routes()[0]));
    assert_eq!("224.0.0.0/4".parse().map(|to| Range::of(to, address([10, 9, 9, 9]))), Ok(ranges()[0]));
    for text in ["10.0.0.1", "10.0.0/24", "10.0.0.1/", "10.0.0.1/+4", "10.0.0.1/24/3", ""] {
        assert_eq!(text.parse::<Prefix>(), Err(NoPrefix));
    }
}

/// As `include/viqeshor/viqeshor.h` has them.
#[test]
fn errors_have_their_numbers() {
    let errors = [Error::Memory, Error::Failed, Error::Lost, Error::OtherAbi, Error::NoSetting, Error::Untaken];
    assert_eq!(errors.map(Error::number), [40, 41, 43, 53, 54, 55]);
    assert_eq!((Error::Refused(Refusal::Short).number(), Error::Unknown(99).number()), (1, 99));
}

#[test]
fn events_that_are_refused_or_ignored() {
    let mut router = router();
    assert_eq!(router.frame(0, &[], 0), Err(Error::Refused(Refusal::InterfaceDown)));
    assert_eq!(router.up(3, 0), Err(Error::Refused(Refusal::BadInterface)));
    assert_eq!(router.down(0, 0), Ok(Verdict::Ignored(Reason::Already)));
    assert_eq!(router.unicast(&[], 0), Err(Error::Refused(Refusal::Short)));
    assert_eq!(router.advance(5, 0), DONE);
    assert_eq!(router.advance(4, 0), Err(Error::Refused(Refusal::MomentBack)));
    assert_eq!(router.set_routes(&[routes()[0], routes()[0]], 0), Err(Error::Refused(Refusal::BadRoutes)));
    assert_eq!(router.set_ranges(&[Range { length: 3, ..ranges()[0] }], 0), Err(Error::Refused(Refusal::BadRanges)));
}

#[test]
fn lists_are_replaced() {
    let mut router = router();
    assert_eq!(router.set_routes(&[], 0), DONE);
    assert_eq!(router.set_ranges(&[], 0), DONE);
    assert_eq!(router.set_candidates(&[], 0), DONE);
}

/// By RFC 7761, 4.7.2, Value(239.1.1.1, M, C) is 1,909,564,438 of 10.8.8.8 and 458,221,737 of 10.9.9.9 with a mask of 30
/// bits, 464,069,967 and 1,219,757,756 with one of 32.
#[test]
fn a_range_has_several_rps() {
    let mut router = router();
    let (eight, nine, other) = ([10, 8, 8, 8], [10, 9, 9, 9], [10, 0, 3, 9]);
    let rp = |router: &Router| router.tree(address([239, 1, 1, 1])).unwrap().rp;
    for (candidates, wanted) in [
        (vec![candidate(8, nine, 7, 30), candidate(8, eight, 7, 30)], eight),
        (vec![candidate(8, nine, 7, 32), candidate(8, eight, 7, 32)], nine),
        (vec![candidate(8, nine, 6, 30), candidate(8, eight, 7, 30)], nine),
        (vec![candidate(8, nine, 7, 30), candidate(8, eight, 7, 30), candidate(12, other, 9, 0)], other),
        (vec![Candidate::new(Range { rp: address(eight), ..ranges()[0] }, 0, 30)], nine),
    ] {
        assert_eq!((router.set_candidates(&candidates, 0), rp(&router)), (DONE, Some(address(wanted))));
    }
    let saved = [candidate(8, eight, 7, 30), candidate(8, other, 7, 30)];
    assert_eq!((router.set_candidates(&saved, 0), router.set_ranges(&[], 0)), (DONE, DONE));
    assert_eq!(rp(&router), Some(address(eight)));
    router.reload(&Settings::default(), &interfaces(), &routes(), &ranges(), 7).expect("taken");
    let again = Router::restore(&router.save().unwrap()).unwrap();
    assert_eq!((rp(&router), rp(&again)), (Some(address(eight)), Some(address(eight))));
    assert_eq!(&router.save().unwrap()[..6], b"VQST\0\x04");
    assert_eq!((router.set_candidates(&[], 0), rp(&router)), (DONE, Some(address(nine))));
}

#[test]
fn another_configuration() {
    let mut router = joined();
    let before = router.rows(Table::Downstream).expect("read");
    router.reload(&Settings::default(), &interfaces(), &routes(), &ranges(), 7).expect("taken");
    assert_eq!(router.packet_count(), 0);
    assert_eq!(router.rows(Table::Downstream), Ok(before));
    let mut more = interfaces().to_vec();
    more[0].priority = 9;
    more.push(Interface::new(address([10, 0, 4, 1]), 24));
    router.reload(&Settings::default(), &more, &routes(), &ranges(), 7).expect("taken");
    assert_eq!(taken(&mut router).len(), 1);
    assert_eq!(router.up(3, 7), Ok(Verdict::Done));
    assert_eq!(router.reload(&Settings::default(), &more, &routes(), &ranges(), 7), Err(Error::Untaken));
    router.clear();
    assert_eq!(
        router.reload(&Settings::default(), &[], &routes(), &ranges(), 7),
        Err(Error::Refused(Refusal::InterfaceCount))
    );
    router.reload(&Settings::default(), &interfaces()[..1], &routes(), &ranges(), 7).expect("taken");
    assert_eq!(router.rows(Table::Downstream), Ok(Vec::new()));
    router.clear();
    assert_eq!(router.up(1, 7), Err(Error::Refused(Refusal::BadInterface)));
}

#[test]
fn another_configuration_by_places() {
    let mut router = joined();
    let settings = Settings::default();
    let mut by = |interfaces: &[Interface], places: &[Option<u32>]| {
        let routes: Vec<_> = routes()
            .iter()
            .map(|route| Route { iface: (interfaces.len() as u32).saturating_sub(1), ..*route })
            .collect();
        (router.reload_places(&settings, interfaces, &routes, &ranges(), places, 7), router.packet_count())
    };
    let refused = (Err(Error::Refused(Refusal::PlacesDontFit)), 0);
    let [first, second, third] = interfaces();
    let turned = [third, second, first];
    for places in [&[][..], &[Some(2), Some(1)], &[Some(2), Some(1), None, None]] {
        assert_eq!(by(&turned, places), refused);
    }
    for place in [1, 3, u32::MAX - 1, u32::MAX] {
        assert_eq!(by(&turned, &[Some(2), Some(1), Some(place)]), refused);
    }
    assert_eq!(by(&[], &[]), (Err(Error::Refused(Refusal::InterfaceCount)), 0));
    assert_eq!(by(&turned, &[Some(2), Some(1), Some(0)]), (Ok(()), 0));
    assert_eq!(by(&[second, first], &[None, Some(0), Some(1)]), (Ok(()), 0));
    // The Join was on the second interface, which is the first now, and the source is behind the other one.
    assert_eq!(router.frame(1, &bytes_of(DATA), 0), DONE);
    assert_eq!(only(taken(&mut router)).target, Target::Copy(0));
}

#[test]
fn a_join_a_packet_and_its_copy() {
    let mut router = just_joined();
    let sent = taken(&mut router);
    assert_eq!(sent.len(), 2);
    assert!(sent.iter().all(|sent| sent.target == Target::Frame(0) && sent.target.iface() == Some(0)));
    assert_eq!(router.frame(0, &bytes_of(DATA), 0), DONE);
    let copy = only(taken(&mut router));
    assert_eq!((copy.target, copy.bytes.len()), (Target::Copy(1), 28));
    assert_eq!(copy.bytes[8], 63);
    assert_eq!(router.copies(), 1);
    assert_eq!(router.take(&mut [0; MOST_BYTES]), None);
    assert!(router.probes() >= 1);
    assert_eq!(router.frame(0, &bytes_of(DATA), 0), DONE);
    assert_eq!(router.touched(), 0);
}

/// The same frames, each by a call of its own and all by few calls: the same answers, packets and state.
#[test]
fn many_frames_by_one_call() {
    let report =
        viqeshor::report(address([10, 0, 2, 9]), Asks::Allow, address([225, 1, 1, 1]), &[address([10, 0, 3, 5])]);
    let report = report.unwrap();
    let packets = [HELLO_ABOVE, HELLO_BELOW, "", HELLO_ABOVE, JOIN, JOIN, DATA].map(bytes_of);
    let mut frames: Vec<_> = [0, 1, 1, 3, 1, 1, 0].into_iter().zip(packets.iter().map(Vec::as_slice)).collect();
    frames.extend([(1, packets[5].as_slice()), (2, &report), (2, &report), (0, &packets[6])]);
    let frames = (7..).zip(frames).map(|(draw, (iface, packet))| Received { iface, packet, draw });
    let frames: Vec<_> = frames.collect();
    let (mut one, mut other) = (router(), router());
    for router in [&mut one, &mut other] {
        assert_eq!([0, 1, 2].map(|iface| (router.up(iface, 7), router.clear()).0), [DONE; 3]);
    }
    let (mut answers, mut sent) = (Vec::new(), Vec::new());
    for frame in &frames {
        answers.push(one.frame(frame.iface, frame.packet, frame.draw));
        sent.extend(taken(&mut one));
    }
    let (mut told, mut others, mut counts) = (Vec::new(), Vec::new(), Vec::new());
    while told.len() < frames.len() {
        let given = other.frames(&frames[told.len()..]);
        counts.push(given.len());
        told.extend(given);
        others.extend(taken(&mut other));
    }
    assert_eq!((&told, &others, other.save()), (&answers, &sent, one.save()));
    // There is something to do behind the Join and each packet, which send, and the first report, which changes a row.
    assert_eq!(counts, [5, 2, 2, 2]);
    let refused = [Refusal::Short, Refusal::BadInterface].map(|refusal| Err(Error::Refused(refusal)));
    assert_eq!((&told[2..4], told.iter().filter(|answer| **answer == DONE).count()), (&refused[..], 9));
    assert_eq!((other.frames(&[]), other.frame(0, &packets[6], 0)), (Vec::new(), DONE));
    assert_eq!(other.frames(&frames), [Err(Error::Untaken)]);
}

#[test]
fn what_the_router_knows() {
    let mut router = joined();
    let counts = Table::ALL.map(|table| router.rows(table).unwrap().len());
    assert_eq!(counts, [2, 0, 0, 1, 0, 1, 0, 0]);
    let (source, group) = (address([10, 0, 3, 5]), address([225, 1, 1, 1]));
    let (end, state) = (Some(1000), DownstreamState::Joined);
    let join = DownstreamRow { iface: 1, group, source: Some(source), is_rpt: false, state, end, pending: None };
    assert_eq!(router.rows(Table::Downstream), Ok(vec![Row::Downstream(join)]));
    assert_eq!(router.rows_of(), Ok(vec![join]));
    let upstream: UpstreamRow = only(router.rows_of().unwrap());
    assert_eq!((upstream.group, upstream.source), (group, Some(source)));
    let second = NeighbourRow { iface: 1, address: address([10, 0, 1, 2]), end: None };
    assert_eq!(router.rows_of().unwrap().last(), Some(&second));
    assert!(router.next_moment().is_some());
}

#[test]
fn how_data_goes() {
    let mut router = joined();
    let (source, group) = (address([10, 0, 3, 5]), address([225, 1, 1, 1]));
    assert_eq!(router.frame(0, &bytes_of(DATA), 0), DONE);
    let told = router.cached(source, group).unwrap();
    assert_eq!((told.rpf(), told.shared_rpf()), (Some(0), Some(0)));
    assert_eq!((told.has_spt_bit, told.has_tunnel), (true, false));
    assert_eq!(told.immediate.iter().collect::<Vec<_>>(), [1]);
    assert_eq!(told.inherited, told.immediate);
    assert_eq!(told.shared_tree.iter().count(), 0);
    assert!(!told.immediate.contains(128));
    assert_eq!(router.cached(address([10, 0, 3, 6]), group), None);
    router.clear();
    let to_rp = Route::new(address([10, 9, 9, 0]), 24, address([10, 0, 1, 2]), 1);
    assert_eq!(router.set_routes(&[to_rp, routes()[1]], 0), DONE);
    let told = router.cached(source, group).unwrap();
    assert_eq!((told.rpf(), told.shared_rpf()), (Some(0), Some(1)));
    assert_eq!(router.set_ranges(&[], 0), DONE);
    assert_eq!(router.cached(source, group).unwrap().shared_rpf(), None);
}

#[test]
fn what_the_trees_are() {
    let router = joined();
    let (source, group) = (address([10, 0, 3, 5]), address([225, 1, 1, 1]));
    let next_hop = Hop { iface: 0, address: address([10, 0, 0, 1]) };
    let tree = router.tree(group).unwrap();
    assert_eq!((tree.rp, tree.rpf), (Some(address([10, 9, 9, 9])), Rpf::NextHop(next_hop)));
    assert_eq!((tree.path.unwrap().iface, tree.join_desired), (0, false));
    assert_eq!(tree.immediate_olist.iter().count(), 0);
    assert_eq!(router.tree(address([232, 1, 1, 1])).unwrap().rpf, Rpf::NoRp);
    let tree = router.source_tree(source, group).unwrap();
    assert_eq!(tree.immediate_olist.iter().collect::<Vec<_>>(), [1]);
    assert_eq!((tree.joins, tree.inherited_olist), (tree.immediate_olist, tree.immediate_olist));
    assert_eq!((tree.rpf.neighbour(), tree.rpt_state), (Some(next_hop), RptState::NotJoined));
    assert!(tree.join_desired && !tree.spt_bit && !tree.has_tunnel);
    assert_eq!(router.source_tree(address([10, 0, 1, 1]), group).unwrap().rpf, Rpf::Own);
}

#[test]
fn what_the_links_are() {
    let mut router = joined();
    let link = router.link(1).unwrap();
    assert_eq!((link.is_up, link.is_dr, link.dr), (true, false, Some(address([10, 0, 1, 2]))));
    let querying = link.querying.unwrap();
    assert!(matches!(querying.querier, Querier::Own { .. }));
    assert_eq!((querying.robustness, querying.query_interval), (2, 125));
    assert_eq!(router.link(9), None);
    assert!(router.neighbour(1, address([10, 0, 1, 2])).is_some());
    assert_eq!(router.neighbour(1, address([10, 0, 1, 3])), None);
    assert_eq!(router.down(1, 0), DONE);
    let link = router.link(1).unwrap();
    assert_eq!((link.is_up, link.is_dr, link.dr), (false, false, None));
}

#[test]
fn what_a_data_plane_is_told() {
    let mut router = joined();
    let (source, group) = (address([10, 0, 3, 5]), address([225, 1, 1, 1]));
    let unknown = router.offload(source, group).unwrap();
    assert!(!unknown.is_known && unknown.to_core.contains(0));
    assert_eq!(router.keep(source, group, 0), Ok(false));
    assert_eq!(router.seen(0, source, group, 0), DONE);
    assert_eq!(router.packet_count(), 0);
    assert_eq!(
        router.changed().iter().map(|name| (name.source(), name.group())).collect::<Vec<_>>(),
        [(source, group)]
    );
    assert!(router.may_differ(source, group));
    assert!(!router.may_differ(address([10, 0, 3, 6]), address([225, 1, 1, 2])));
    let row = router.offload(source, group).unwrap();
    assert_eq!((row.is_known, row.incoming()), (true, Some(0)));
    assert_eq!([row.outgoing, row.alive, row.to_core].map(|set| set.iter().collect::<Vec<_>>()), [[1], [0], [1]]);
}

#[test]
fn what_a_data_plane_tells() {
    let mut router = joined();
    let (source, group) = (address([10, 0, 3, 5]), address([225, 1, 1, 1]));
    assert_eq!(router.frame(0, &bytes_of(DATA), 0), DONE);
    assert_eq!(router.keep(source, group, 1000), Ok(true));
    router.clear();
    let active = ActiveRow { group, source, keepalive: Some(211_000), spt_bit: true, register: None };
    assert_eq!(router.rows_of(), Ok(vec![active]));
    assert_eq!(router.seen(0, source, group, 0), DONE);
    assert_eq!(router.changed(), []);
    assert_eq!(router.seen(3, source, group, 0), Err(Error::Refused(Refusal::BadInterface)));
}

#[test]
fn a_router_without_room_offers_nothing() {
    let settings = Settings { limit: 1, ..Settings::default() };
    let mut router = Router::new(&settings, &interfaces(), &routes(), &ranges()).unwrap();
    let (source, group) = (address([10, 0, 2, 7]), address([225, 1, 1, 1]));
    assert_eq!(router.up(2, 7), DONE);
    router.clear();
    assert!(router.offload(address([10, 0, 3, 6]), group).is_some());
    assert_eq!(router.seen(2, source, group, 0), DONE);
    assert_eq!(router.offload(address([10, 0, 3, 6]), group), None);
    assert!(router.offload(source, group).is_some());
}

#[test]
fn a_moment_that_is_too_far() {
    let mut router = joined();
    let (source, group) = (address([10, 0, 3, 5]), address([225, 1, 1, 1]));
    assert_eq!(router.keep(source, group, 1 << 62), Ok(false));
    assert_eq!(router.keep(source, group, (1 << 62) + 1), Err(Error::Refused(Refusal::MomentFar)));
}

#[test]
fn time_passes_timer_by_timer() {
    let (mut at_once, mut by_timers, mut hellos) = (joined(), joined(), Vec::new());
    let mut draws = 0..;
    by_timers
        .run_to(100_000, || draws.next().unwrap(), |target, bytes| hellos.push((target.iface(), bytes.to_vec())))
        .unwrap();
    assert!(by_timers.next_moment().unwrap() > 100_000);
    assert_eq!(
        hellos.iter().filter(|(iface, bytes)| *iface == Some(2) && bytes[9] == 103 && bytes[20] == 0x20).count(),
        4
    );
    assert_eq!(at_once.advance(100_000, 0), DONE);
    assert!(draws.start > 4);
    assert_eq!(by_timers.run_to(99_999, || 0, |_, _| ()), Err(Error::Refused(Refusal::MomentBack)));
}

/// Two interfaces go up, and what each sends is taken before the next event: what isn't taken is refused the event.
#[test]
fn no_packet_is_lost_or_given_twice() {
    let mut router = just_joined();
    let before = router.save().unwrap();
    for answer in [
        router.advance(9, 0),
        router.frame(0, &bytes_of(DATA), 0),
        router.unicast(&[], 0),
        router.up(0, 0),
        router.down(9, 0),
        router.set_routes(&routes(), 0),
        router.set_ranges(&ranges(), 0),
        router.set_candidates(&[], 0),
        router.seen(0, address([10, 0, 3, 5]), address([225, 1, 1, 1]), 0),
    ] {
        assert_eq!(answer, Err(Error::Untaken));
    }
    assert_eq!((router.save(), router.packet_count()), (Ok(before), 2));
    let mut again = just_joined();
    let all = taken(&mut again);
    assert_eq!((router.drain().next().as_ref(), router.packet_count()), (all.first(), 1));
    assert_eq!(router.up(0, 0), Err(Error::Untaken));
    assert_eq!((router.drain().next().as_ref(), router.packet_count()), (all.last(), 0));
    assert_eq!((router.drain().next(), router.up(0, 0)), (None, Ok(Verdict::Ignored(Reason::Already))));
    let (mut other, mut sent) = (just_joined(), Vec::new());
    other.run_to(0, || 0, |target, bytes| sent.push((target, bytes.to_vec()))).unwrap();
    assert_eq!(sent, all.into_iter().map(|one| (one.target, one.bytes)).collect::<Vec<_>>());
}

#[test]
fn it_goes_on_from_saved_bytes() {
    let mut router = joined();
    assert_eq!(router.frame(0, &bytes_of(DATA), 0), DONE);
    let saved = router.save().unwrap();
    let mut other = Router::restore(&saved).unwrap();
    assert_eq!((other.packet_count(), other.changed(), other.older_rows()), (0, vec![], Ok(vec![])));
    assert_eq!((other.next_moment(), other.save()), (router.next_moment(), Ok(saved.clone())));
    for table in Table::ALL {
        assert_eq!(other.rows(table), router.rows(table));
    }
    let (source, group) = (address([10, 0, 3, 5]), address([225, 1, 1, 1]));
    assert_eq!(other.cached(source, group), router.cached(source, group));
    router.clear();
    assert_eq!((router.advance(100_000, 9), other.advance(100_000, 9)), (DONE, DONE));
    assert_eq!((taken(&mut router), router.save()), (taken(&mut other), other.save()));
    let mut room = [7; 6];
    assert_eq!(router.save_into(&mut room), Ok(router.save().unwrap().len()));
    assert_eq!(&room, b"VQST\0\x02");
}

#[test]
fn what_is_recorded() {
    assert_eq!(router().sum(), 0);
    let mut router = joined();
    assert_eq!(router.frame(0, &bytes_of(DATA), 0), DONE);
    assert!(router.packet_count() > 0 && router.sum() != 0);
    let call = Call { letter: b'+'.into(), draw: 7, iface: 1, answer: 24, sum: 9, ..Call::default() };
    let (words, mut put) =
        (|numbers: &[u32]| numbers.iter().flat_map(|it| it.to_be_bytes()).collect::<Vec<_>>(), vec![5]);
    call.put(&[], &mut put).unwrap();
    Call { letter: b'f'.into(), ..call }.put(&[1, 2, 3], &mut put).unwrap();
    call.put_ranges(&ranges(), &mut put).unwrap();
    call.put_candidates(&[candidate(8, [10, 9, 9, 9], 5, 30)], &mut put).unwrap();
    let many = vec![routes()[0]; 20];
    call.put_routes(&many, &mut put).unwrap();
    let (range, route) = ([0xe000_0000, 4, 0x0a09_0909], [0x0a09_0900, 24, 0x0a00_0001, 0, 110, 20]);
    let end = words(&[24, 9]);
    let mut wanted = [vec![5], summed(&[vec![b'+'], words(&[7, 1]), end.clone()].concat())].concat();
    wanted.extend(summed(&[vec![b'f'], words(&[7, 1, 0, 3]), vec![1, 2, 3], end.clone()].concat()));
    wanted.extend(summed(&[vec![b'g'], words(&[7, 0, 1]), words(&range), end.clone()].concat()));
    wanted.extend(summed(&[vec![b'h'], words(&[7, 0, 1, 0xef00_0000, 8, 0x0a09_0909, 5, 30]), end.clone()].concat()));
    wanted.extend(summed(&[vec![b'r'], words(&[7, 0, 20]), words(&route).repeat(20), end.clone()].concat()));
    assert_eq!(put, wanted);
    let settings = Settings { addresses: vec![address([10, 255, 0, 1])], ..Settings::default() };
    call.put_reload(&settings, &interfaces(), &routes(), &ranges(), &mut put).unwrap();
    assert_eq!(put.len() - wanted.len(), 1 + 4 + 21 + 8 + 3 * 20 + 8 + 4 + 8 + 2 * 24 + 8 + 12 + 8 + 4);
    assert_eq!(put[wanted.len()..][..5], [b'c', 0, 0, 0, 7]);
    let mut placed = Vec::new();
    call.put_reload_places(&settings, &interfaces(), &routes(), &ranges(), &[None, Some(1)], &mut placed).unwrap();
    let behind = placed.len() - 28;
    assert_eq!(placed[1..behind], put[wanted.len()..][1..behind]);
    let places = [vec![b'm'], words(&[0, 2, u32::MAX, 1]), end.clone()].concat();
    assert_eq!([&placed[..1], &placed[behind..placed.len() - 4]].concat(), places);
    let set =
        RpSet { shared: address([10, 9, 9, 9]), own: address([10, 0, 0, 2]), others: vec![address([10, 0, 3, 7])] };
    let mut sets = Vec::new();
    Call { answer: 74, ..Call::default() }.put_rp_sets(&[set], &mut sets).unwrap();
    let wanted = [0, 1, 0x0a09_0909, 0x0a00_0002, 0, 1, 0x0a00_0307, 74, 0];
    assert_eq!(sets, summed(&[vec![b'y'], words(&wanted)].concat()));
}

/// These bytes, with their CRC-32 behind them.
fn summed(front: &[u8]) -> Vec<u8> {
    let step = |crc: u32, _| if crc & 1 == 1 { crc >> 1 ^ 0xedb8_8320 } else { crc >> 1 };
    let sum = front.iter().fold(!0, |crc, &byte| (0..8).fold(crc ^ u32::from(byte), step));
    [front, &(!sum).to_be_bytes()].concat()
}

#[test]
fn bytes_of_no_router() {
    let saved = joined().save().unwrap();
    let front = saved[..saved.len() - 4].to_vec();
    let changed = |place: usize, value: u8| {
        let mut given = front.clone();
        given[place] = value;
        summed(&given)
    };
    let mut flipped = saved.clone();
    flipped[20] ^= 1;
    for (given, refusal) in [
        (vec![], Refusal::CutShort),
        (saved[..saved.len() - 1].to_vec(), Refusal::Damaged),
        (flipped, Refusal::Damaged),
        (summed(&front[..front.len() - 1]), Refusal::CutShort),
        (changed(0, 0), Refusal::NotOurs),
        (changed(5, 1), Refusal::OtherVersion),
        (changed(10, 2), Refusal::OutOfRange),
        (summed(&[&front[..], &[0]].concat()), Refusal::LeftOver),
        (changed(7, 0), Refusal::NotHeld),
    ] {
        assert_eq!(Router::restore(&given).err(), Some(Error::Refused(refusal)));
    }
    assert_eq!(Error::Refused(Refusal::Damaged).number(), 69);
}

#[test]
fn what_is_shown_of_it() {
    assert!(format!("{:?}", joined()).starts_with("Router { next_moment: Some("));
}

#[test]
fn a_router_goes_to_another_thread() {
    let mut router = joined();
    let sent = std::thread::spawn(move || {
        assert_eq!(router.frame(0, &bytes_of(DATA), 0), DONE);
        router.drain().len()
    });
    assert_eq!(sent.join().unwrap(), 1);
}

#[test]
fn texts() {
    let (number, how) = viqeshor::version().split_once(' ').unwrap();
    assert_eq!(number, env!("CARGO_PKG_VERSION"));
    assert!(["proved", "not proved"].contains(&how));
    assert_eq!(viqeshor::answer_text(0), "done");
}

/// To 10.0.1.1, of 10.0.3.5 to 225.1.1.1: a query of IGMPv3, and data.
const REGISTER_OF_A_QUERY: &str =
    "45c0003c000000003c67659a0a0003010a0001012100deff00000000450000200000000040028bd50a000305e101010111010afbe1010101\
     02010000";
const REGISTER_OF_DATA: &str =
    "45c00038000000003c67659e0a0003010a0001012100deff000000004500001c0000000040118bca0a000305e10101010001000200080000";

#[test]
fn the_guard_stops_igmp_in_a_register() {
    let mut router = joined();
    let guarded = Ok(Verdict::Ignored(Reason::Guarded));
    assert_eq!(router.unicast(&bytes_of(REGISTER_OF_A_QUERY), 0), guarded);
    assert_eq!((router.packet_count(), router.changed(), Reason::Guarded as u32), (0, vec![], 109));
    assert_eq!(router.unicast(&bytes_of(REGISTER_OF_DATA), 0), DONE);
    // The RP is another router.
    assert_eq!(only(taken(&mut router)).target, Target::Unicast(address([10, 0, 3, 1])));
    assert_eq!(router.set_guard(false), Ok(()));
    assert_eq!(router.unicast(&bytes_of(REGISTER_OF_A_QUERY), 0), DONE);
    assert_eq!(only(taken(&mut router)).target, Target::Unicast(address([10, 0, 3, 1])));
    let saved = router.save().unwrap();
    assert_eq!(Router::restore(&saved).unwrap().unicast(&bytes_of(REGISTER_OF_A_QUERY), 0), guarded);
    assert_eq!(router.set_guard(true), Ok(()));
    assert_eq!(router.unicast(&bytes_of(REGISTER_OF_A_QUERY), 0), guarded);
}

/// Of 10.0.3.1, to the shared address.
const REGISTER_TO_ALL: &str =
    "45c00038000000003c675d8d0a0003010a0909092100deff000000004500001c0000000040118bca0a000305e10101010001000200080000";

fn sharing() -> Router {
    let settings = Settings { addresses: vec![address([10, 9, 9, 9])], ..Settings::default() };
    Router::new(&settings, &interfaces(), &[], &ranges()).unwrap()
}

#[test]
fn rps_share_an_address() {
    let mut router = sharing();
    let other = address([10, 0, 3, 7]);
    let set = RpSet { shared: address([10, 9, 9, 9]), own: address([10, 0, 0, 2]), others: vec![other] };
    let refused = Err(Error::Refused(Refusal::BadRpSet));
    assert_eq!(router.next_moment(), None);
    assert_eq!(router.set_rp_sets(&[RpSet { own: other, ..set.clone() }]), refused);
    assert_eq!(router.set_rp_sets(&[RpSet { others: vec![other; 17], ..set.clone() }]), refused);
    assert_eq!(router.set_rp_sets(&vec![set.clone(); 136]), refused);
    assert_eq!(router.set_rp_sets(std::slice::from_ref(&set)), Ok(()));
    assert_eq!(router.next_moment(), Some(60_000));

    // One goes on to the other, and then the router answers by a Register-Stop.
    let register = bytes_of(REGISTER_TO_ALL);
    assert_eq!(router.unicast(&register, 0), DONE);
    let sent = taken(&mut router);
    let targets: Vec<_> = sent.iter().map(|sent| sent.target).collect();
    assert_eq!(targets, [Target::Unicast(other), Target::Unicast(address([10, 0, 3, 1]))]);
    assert_eq!((sent[0].bytes[8], &sent[0].bytes[12..16]), (0x3b, &[10, 0, 0, 2][..]));
    assert_eq!(sent[0].bytes[20..], register[20..]);

    // The sets stay, and refuse a configuration to whose addresses they don't fit.
    assert_eq!(router.reload(&Settings::default(), &interfaces(), &[], &ranges(), 0), refused);
    let mut other = Router::restore(&router.save().unwrap()).unwrap();
    assert_eq!(other.unicast(&register, 0), DONE);
    assert_eq!(only(taken(&mut other)).target, Target::Unicast(address([10, 0, 3, 1])));
    assert_eq!(router.set_rp_sets(&[]), Ok(()));
    assert_eq!(router.unicast(&register, 0), DONE);
    assert_eq!(only(taken(&mut router)).target, Target::Unicast(address([10, 0, 3, 1])));
    assert_eq!(router.reload(&Settings::default(), &interfaces(), &[], &ranges(), 0), Ok(()));
}

/// Of 10.0.1.9, about 239.1.1.1.
const REPORT_OF_TWO: &str = "4600002000000000010229CD0A000109EF010101940400001600F9FCEF010101";
const LEAVE_OF_TWO: &str = "4600002000000000010239CD0A000109E0000002940400001700F8FCEF010101";

#[test]
fn hosts_of_older_versions() {
    let mut router = joined();
    let group = address([239, 1, 1, 1]);
    let old = Err(Error::Refused(Refusal::OldVersion));
    assert_eq!(router.frame(1, &bytes_of(REPORT_OF_TWO), 0), old);
    assert_eq!(router.set_older_hosts(3, OlderHosts::All), Err(Error::Refused(Refusal::BadInterface)));
    assert_eq!(router.set_older_hosts(1, OlderHosts::All), Ok(()));
    assert_eq!(router.frame(1, &bytes_of(REPORT_OF_TWO), 0), DONE);
    let row = OlderRow { iface: 1, group, mode: 2, one_end: None, two_end: Some(260_000) };
    assert_eq!(router.older_rows(), Ok(vec![row]));
    let row = GroupRow { iface: 1, group, is_exclude: true, end: Some(260_000) };
    assert_eq!(router.rows_of(), Ok(vec![row]));
    let saved = router.save().unwrap();
    let mut other = Router::restore(&saved).unwrap();
    assert_eq!(other.set_older_hosts(1, OlderHosts::VersionTwo), Ok(()));
    assert_eq!((other.older_rows(), other.save()), (router.older_rows(), Ok(saved.clone())));
    let cut = Router::restore(&saved[..saved.len() - 1]).map(|_| ());
    assert_eq!(cut, Err(Error::Refused(Refusal::HostsNotHeld)));
    assert_eq!(router.set_older_hosts(1, OlderHosts::VersionTwo), Ok(()));
    assert_eq!(router.older_rows(), Ok(vec![]));
    assert_eq!(router.set_query_version(1, QueryVersion::Two), Ok(()));
    assert_eq!(router.frame(1, &bytes_of(LEAVE_OF_TWO), 0), DONE);
    assert_eq!(only(taken(&mut router)).bytes.len(), 32);
    assert_eq!(router.set_older_hosts(1, OlderHosts::Nobody), Ok(()));
    assert_eq!(router.frame(1, &bytes_of(REPORT_OF_TWO), 0), old);
}
