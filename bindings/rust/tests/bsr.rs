//! Bootstraps (RFC 5059), and what a listener and a router make of them. The messages and what follows of them are those of
//! the worked runs of `crates/pim_bsr/specs/Runs.antt`.
mod network;

use network::*;
use viqeshor::{message, Bsr, Choice, Error, Heard, Range, Reason, Refusal, Router, Target, Verdict};

/// A message comes from the neighbour above: what became of it, and what left.
fn hear(bsr: &mut Bsr, router: &mut Router, message: Vec<u8>) -> (Result<Verdict, Error>, Sent) {
    let mut sent = Vec::new();
    let answer = bsr.frame(router, 0, &packet(ABOVE, message), 7, |target, bytes| sent.push((target, bytes.to_vec())));
    (answer, sent)
}

#[test]
fn a_listener_is_saved_between_two_fragments() {
    let (mut bsr, mut router) = (listener(100), router());
    let one = bootstrap(HEAD, &wide(3, &[(SECOND, 150), (THIRD, 150)]));
    assert_eq!(hear(&mut bsr, &mut router, one).0, DONE);
    let saved = bsr.save().unwrap();
    assert_eq!(bsr.save_into(&mut []), Ok(saved.len()));
    let mut next = Bsr::restore(&saved).unwrap();
    assert_eq!((next.save(), next.configured()), (Ok(saved.clone()), &configured()[..]));
    assert_eq!((next.parts(), next.elected()), (bsr.parts(), bsr.elected()));
    next.run_to(&mut router, 1005, || 7, |_, _| ()).unwrap();
    let two = bootstrap(HEAD, &wide(3, &[(FIRST, 150)]));
    assert_eq!(hear(&mut next, &mut router, two).0, DONE);
    assert_eq!(rp(&router, [239, 9, 9, 9]), Some(address(FIRST)));
    let refused = |bytes: &[u8]| Bsr::restore(bytes).err();
    assert_eq!(refused(&saved[..3]), Some(Error::Refused(Refusal::CutShort)));
    assert_eq!(refused(&saved[1..]), Some(Error::Refused(Refusal::NotOurs)));
    assert_eq!(refused(&saved[..9]), Some(Error::Refused(Refusal::Damaged)));
}

/// All three RPs are learned, by two fragments, the second 5 ms after the first.
fn learned() -> (Bsr, Router) {
    let (mut bsr, mut router) = (listener(100), router());
    let one = bootstrap(HEAD, &wide(3, &[(SECOND, 150), (THIRD, 150)]));
    assert_eq!(hear(&mut bsr, &mut router, one).0, DONE);
    bsr.run_to(&mut router, 1005, || 7, |_, _| ()).unwrap();
    let two = bootstrap(HEAD, &wide(3, &[(FIRST, 150)]));
    assert_eq!(hear(&mut bsr, &mut router, two).0, DONE);
    (bsr, router)
}

#[test]
fn a_fragment_is_sent_on_and_waits() {
    let (mut bsr, mut router) = (listener(100), router());
    let message = bootstrap(HEAD, &wide(3, &[(SECOND, 150), (THIRD, 150)]));
    let (answer, sent) = hear(&mut bsr, &mut router, message.clone());
    assert_eq!(answer, DONE);
    assert_eq!(
        sent,
        [
            (Target::Frame(0), packet([10, 0, 0, 2], message.clone())),
            (Target::Frame(1), packet([10, 0, 1, 1], message)),
        ]
    );
    assert_eq!(viqeshor::message(&sent[0].1), "other PIM");
    assert_eq!((bsr.rps(), bsr.given()), (vec![], configured().to_vec()));
    let parts = bsr.parts();
    assert_eq!(parts.len(), 2);
    assert_eq!(parts[0].range, Range::new(address([239, 0, 0, 0]), 8, address(SECOND)));
    assert_eq!((parts[0].priority, parts[0].holdtime, parts[0].tag), (5, 150, 7));
    assert_eq!((parts[0].bsr, parts[0].end), (address(BSR), 131_000));
    assert_eq!((rp(&router, [239, 9, 9, 9]), bsr.next_end()), (None, None));
}

#[test]
fn the_chosen_rp_is_the_routers_until_its_end() {
    let (mut bsr, mut router) = learned();
    assert_eq!(rp(&router, [239, 9, 9, 9]), Some(address(FIRST)));
    assert_eq!(rp(&router, [239, 1, 1, 1]), Some(address(STATIC)));
    let wide = Range::new(address([239, 0, 0, 0]), 8, address(FIRST));
    assert_eq!(bsr.given(), [configured()[0], wide]);
    let rps = bsr.rps();
    assert_eq!((rps.len(), bsr.parts().len()), (3, 0));
    let first = rps.iter().find(|rp| rp.is_given).unwrap();
    assert_eq!((first.range, first.priority, first.hash_length, first.end), (wide, 5, 30, 151_005));
    let elected = bsr.elected().unwrap();
    assert_eq!((elected.bsr, elected.priority, elected.end), (address(BSR), 10, 131_005));
    assert_eq!(bsr.next_end(), Some(151_005));
    bsr.run_to(&mut router, 151_004, || 7, |_, _| ()).unwrap();
    assert_eq!((rp(&router, [239, 9, 9, 9]), bsr.elected()), (Some(address(FIRST)), None));
    bsr.run_to(&mut router, 151_005, || 7, |_, _| ()).unwrap();
    assert_eq!((rp(&router, [239, 9, 9, 9]), bsr.next_end()), (None, None));
    assert_eq!(rp(&router, [239, 1, 1, 1]), Some(address(STATIC)));
}

/// By the values of the hash function that the worked run has.
#[test]
fn each_group_has_its_rp() {
    let (mut bsr, mut router) = learned();
    assert_eq!(bsr.choice(), Choice::Range);
    assert_eq!(bsr.choose(&mut router, Choice::Group, 7, |_, _| ()), DONE);
    assert_eq!(bsr.choice(), Choice::Group);
    assert_eq!(bsr.given(), configured());
    assert!(bsr.rps().iter().all(|rp| rp.is_given));
    let rps = |router: &Router| [[239, 0, 0, 1], [239, 0, 0, 4], [239, 1, 0, 4]].map(|group| rp(router, group));
    assert_eq!(rps(&router), [FIRST, THIRD, STATIC].map(|last| Some(address(last))));
    let mut again = Bsr::restore(&bsr.save().unwrap()).unwrap();
    assert_eq!((again.choice(), again.save()), (Choice::Group, bsr.save()));
    assert_eq!(again.choose(&mut router, Choice::Range, 7, |_, _| ()), DONE);
    assert_eq!(rps(&router), [FIRST, FIRST, STATIC].map(|last| Some(address(last))));
    assert_eq!(bsr.choose(&mut router, Choice::Group, 7, |_, _| ()), DONE);
    bsr.run_to(&mut router, 151_005, || 7, |_, _| ()).unwrap();
    assert_eq!(rps(&router), [None, None, Some(address(STATIC))]);
}

#[test]
fn time_that_passes_at_once_passes_the_ends_on_the_way() {
    let (mut bsr, mut router) = learned();
    assert_eq!(bsr.advance(&mut router, 200_000, 7, |_, _| ()), DONE);
    assert_eq!((rp(&router, [239, 9, 9, 9]), bsr.rps()), (None, vec![]));
    let back = bsr.advance(&mut router, 199_999, 7, |_, _| ());
    assert_eq!(back, Err(Error::Refused(Refusal::MomentBack)));
    let far = bsr.advance(&mut router, (1 << 62) + 1, 7, |_, _| ());
    assert_eq!(far, Err(Error::Refused(Refusal::MomentFar)));
}

#[test]
fn a_message_takes_rps_away() {
    let (mut bsr, mut router) = learned();
    let head = Head { tag: 8, ..HEAD };
    let three = bootstrap(head, &wide(3, &[(SECOND, 150), (THIRD, 150), (FIRST, 0)]));
    assert_eq!(hear(&mut bsr, &mut router, three).0, DONE);
    assert_eq!(rp(&router, [239, 9, 9, 9]), Some(address(SECOND)));
    let none = bootstrap(Head { tag: 9, ..HEAD }, &wide(0, &[]));
    assert_eq!(hear(&mut bsr, &mut router, none).0, DONE);
    assert_eq!((rp(&router, [239, 9, 9, 9]), bsr.given()), (None, configured().to_vec()));
}

/// What becomes of all RPs of the range, said by a BSR, where the three are learned.
fn said_by(bsr: [u8; 4], priority: u8, no_forward: bool) -> Result<Verdict, Error> {
    let (mut listener, mut router) = learned();
    let head = Head { no_forward, tag: 7, priority, bsr };
    hear(&mut listener, &mut router, bootstrap(head, &wide(2, &[(SECOND, 150), (THIRD, 150)]))).0
}

#[test]
fn messages_that_count_and_that_do_not() {
    let ignored = |reason| Ok(Verdict::Ignored(reason));
    assert_eq!(said_by(BSR, 10, false), DONE);
    assert_eq!(said_by([10, 9, 9, 8], 10, false), ignored(Reason::NotPreferred));
    assert_eq!(said_by([10, 9, 9, 10], 10, false), DONE);
    assert_eq!(said_by([10, 9, 9, 8], 11, false), DONE);
    assert_eq!(said_by(BSR, 10, true), ignored(Reason::LateRefresh));
    assert_eq!(said_by([10, 0, 0, 2], 10, false), ignored(Reason::OwnBsr));
    // No route leads to it.
    assert_eq!(said_by([10, 200, 0, 1], 10, false), ignored(Reason::NotFromRpf));
}

#[test]
fn messages_from_elsewhere() {
    let (mut bsr, mut router) = (listener(100), router());
    let whole = bootstrap(HEAD, &wide(2, &[(SECOND, 150), (THIRD, 150)]));
    let mut from = |iface, source| bsr.frame(&mut router, iface, &packet(source, whole.clone()), 7, |_, _| ());
    assert_eq!(from(1, BELOW), Ok(Verdict::Ignored(Reason::NotFromRpf)));
    assert_eq!(from(0, [10, 0, 0, 3]), Ok(Verdict::Ignored(Reason::NoNeighbour)));
    let refresh = bootstrap(Head { no_forward: true, ..HEAD }, &wide(2, &[(SECOND, 150), (THIRD, 150)]));
    let mut sent = Vec::new();
    let answer = bsr.frame(&mut router, 1, &packet(BELOW, refresh), 7, |_, bytes| sent.push(message(bytes)));
    assert_eq!((answer, rp(&router, [239, 9, 9, 9])), (DONE, Some(address(SECOND))));
    assert!(!sent.contains(&"other PIM"), "a refresh isn't sent on");
}

#[test]
fn zones_other_types_and_what_is_too_much() {
    let (mut bsr, mut router) = (listener(1), router());
    let zone = Said { zone: true, rp_count: 1, rps: &[(FIRST, 150)] };
    let (answer, sent) = hear(&mut bsr, &mut router, bootstrap(HEAD, &zone));
    assert_eq!((answer, sent), (Ok(Verdict::Ignored(Reason::Scoped)), vec![]));
    let two = bootstrap(HEAD, &wide(2, &[(SECOND, 150), (THIRD, 150)]));
    assert_eq!(hear(&mut bsr, &mut router, two).0, Err(Error::Refused(Refusal::Full)));
    let graft = vec![0x26, 0, 0, 0];
    assert_eq!(hear(&mut bsr, &mut router, graft).0, Ok(Verdict::Ignored(Reason::OtherType)));
    let mut cut = bootstrap(HEAD, &wide(1, &[(FIRST, 150)]));
    cut.pop();
    assert_eq!(hear(&mut bsr, &mut router, cut).0, Err(Error::Refused(Refusal::Short)));
    assert_eq!((bsr.elected(), bsr.rps(), bsr.parts()), (None, vec![], vec![]));
}

#[test]
fn the_steps_one_by_one() {
    let (mut bsr, mut router) = (listener(100), router());
    let whole = packet(ABOVE, bootstrap(HEAD, &wide(2, &[(SECOND, 150), (THIRD, 150)])));
    assert_eq!(router.frame(0, &whole, 7), Ok(Verdict::Ignored(Reason::OtherType)));
    assert_eq!(bsr.hear(&mut router, 0, &whole), Ok(Heard::Taken { moved: true }));
    assert_eq!(bsr.give(&mut router, 7), Err(Error::Untaken));
    assert_eq!(bsr.hear(&mut router, 0, &whole), Err(Error::Untaken));
    assert_eq!(router.drain().count(), 2);
    assert_eq!(bsr.give(&mut router, 7), DONE);
    router.clear();
    // The same again is a repetition, which isn't sent on where it came.
    assert_eq!(bsr.hear(&mut router, 0, &whole), Ok(Heard::Taken { moved: false }));
    assert_eq!(router.drain().map(|sent| sent.target).collect::<Vec<_>>(), [Target::Frame(1)]);
    assert_eq!(bsr.pass(150_999), Ok(false));
    assert_eq!(bsr.pass(151_000), Ok(true));
}

#[test]
fn other_configured_ranges() {
    let (mut bsr, mut router) = learned();
    let wide = [Range::new(address([239, 0, 0, 0]), 8, address(STATIC))];
    assert_eq!(bsr.set_ranges(&mut router, 0, &wide, 7), Err(Error::NoSetting));
    assert_eq!(bsr.set_ranges(&mut router, 257, &wide, 7), Err(Error::NoSetting));
    let twice = [wide[0], wide[0]];
    assert_eq!(bsr.set_ranges(&mut router, 100, &twice, 7), Err(Error::Refused(Refusal::BadRanges)));
    assert_eq!((bsr.configured(), rp(&router, [239, 9, 9, 9])), (&configured()[..], Some(address(FIRST))));
    assert_eq!(bsr.set_ranges(&mut router, 100, &wide, 7), DONE);
    router.clear();
    assert_eq!((bsr.configured(), bsr.given()), (&wide[..], wide.to_vec()));
    assert_eq!((rp(&router, [239, 9, 9, 9]), bsr.rps().len()), (Some(address(STATIC)), 3));
    assert_eq!(bsr.set_ranges(&mut router, 2, &[], 7), DONE);
    router.clear();
    // The newest goes: there is room for two.
    assert_eq!((rp(&router, [239, 9, 9, 9]), bsr.rps().len()), (Some(address(SECOND)), 2));
}

#[test]
fn limits_that_are_refused() {
    assert!(matches!(Bsr::new(0, &[], 0), Err(Error::NoSetting)));
    assert!(matches!(Bsr::new(257, &[], 0), Err(Error::NoSetting)));
    assert!(Bsr::new(256, &[], 0).is_ok());
}
