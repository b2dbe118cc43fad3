//! Candidate BSRs and candidate RPs (RFC 5059), and what becomes of a router with a candidacy.
mod network;

use network::*;
use viqeshor::{
    message, Bsr, Candidacy, CandidateBsr, CandidateRp, Error, HeldRp, Prefix, Range, Reason, Refusal, Role, Router,
    Target, Verdict,
};

/// Of the router, on the links above and below, and of the RP of 239.0.0.0/8.
const OWN: [u8; 4] = [10, 0, 0, 2];
const OWN_BELOW: [u8; 4] = [10, 0, 1, 1];
/// Its draws, in ms.
const DRAW: u32 = 7;

/// As the BSR that is said in `HEAD`, with the lower address.
fn as_bsr() -> CandidateBsr {
    CandidateBsr { priority: 10, ..CandidateBsr::new(address(OWN)) }
}

fn range() -> Prefix {
    "239.0.0.0/8".parse().unwrap()
}

fn as_rp() -> CandidateRp {
    CandidateRp::new(address(OWN), &[range()])
}

/// A router with its listener and its candidacy, and what left since it was asked last.
struct Node {
    router: Router,
    bsr: Bsr,
    candidacy: Candidacy,
    sent: Sent,
}

impl Node {
    /// 1 s after the start.
    fn new(as_bsr: Option<&CandidateBsr>, as_rp: Option<&CandidateRp>) -> Node {
        let candidacy = Candidacy::new(as_bsr, as_rp, 1_000).unwrap();
        let mut node = Node { router: router(), bsr: listener(100), candidacy, sent: Vec::new() };
        node.run_to(1_000);
        node
    }

    fn run_to(&mut self, now: u64) {
        let Node { router, bsr, candidacy, sent } = self;
        let send = |target, bytes: &[u8]| sent.push((target, bytes.to_vec()));
        candidacy.run_to(bsr, router, now, || DRAW, send).unwrap();
    }

    /// From the neighbour above.
    fn hear(&mut self, message: Vec<u8>) -> Result<Verdict, Error> {
        let Node { router, bsr, candidacy, sent } = self;
        let send = |target, bytes: &[u8]| sent.push((target, bytes.to_vec()));
        candidacy.frame(bsr, router, 0, &packet(ABOVE, message), DRAW, send)
    }

    fn unicast(&mut self, packet: &[u8]) -> Result<Verdict, Error> {
        let Node { router, candidacy, sent, .. } = self;
        candidacy.unicast(router, packet, DRAW, |target, bytes| sent.push((target, bytes.to_vec())))
    }

    /// What left of Bootstraps and advertisements: all is PIM of types that the router doesn't know.
    fn said(&mut self) -> Sent {
        let sent = std::mem::take(&mut self.sent);
        sent.into_iter().filter(|(_, bytes)| message(bytes) == "other PIM").collect()
    }

    fn role(&self) -> Option<(Role, u64)> {
        let standing = self.candidacy.standing();
        standing.role.zip(standing.end)
    }

    /// The BSR that is told of the RP, and when.
    fn told(&self) -> Option<([u8; 4], u64)> {
        let standing = self.candidacy.standing();
        standing.told.map(|bsr| bsr.octets()).zip(standing.told_end)
    }

    fn held(&self) -> Vec<([u8; 4], u32, u32, u64)> {
        let row = |it: HeldRp| (it.range.rp.octets(), it.priority, it.holdtime, it.end);
        self.candidacy.rps().into_iter().map(row).collect()
    }
}

/// An advertisement of an RP of 239.0.0.0/8 with priority 5 (section 4.2), from its address to the router's.
fn advertisement(rp: [u8; 4], holdtime: u16) -> Vec<u8> {
    let mut message = vec![0x28, 0, 0, 0, 1, 5];
    message.extend(holdtime.to_be_bytes());
    message.extend([1, 0]);
    message.extend(rp);
    message.extend([1, 0, 0, 8, 239, 0, 0, 0]);
    packet_to(OWN, 64, rp, message)
}

/// Where Bootstraps leave, and which of these interfaces' addresses they have.
fn places(said: &Sent) -> Vec<(Target, [u8; 4])> {
    said.iter().map(|(target, bytes)| (*target, bytes[12..16].try_into().unwrap())).collect()
}

const BOTH: [(Target, [u8; 4]); 2] = [(Target::Frame(0), OWN), (Target::Frame(1), OWN_BELOW)];

/// Elected, 5 s after it began, and 7 ms and a message later with its own RP.
fn elected() -> Node {
    let mut node = Node::new(Some(&as_bsr()), Some(&as_rp()));
    node.run_to(16_000);
    node.said();
    node
}

#[test]
fn a_candidate_without_a_priority_says_64() {
    let mut node = Node::new(Some(&CandidateBsr::new(address(OWN))), None);
    node.run_to(6_000);
    assert_eq!((places(&node.said()), node.bsr.elected().map(|it| it.priority)), (BOTH.to_vec(), Some(64)));
}

#[test]
fn a_candidate_without_others_is_elected() {
    let mut node = Node::new(Some(&as_bsr()), Some(&as_rp()));
    assert_eq!((node.role(), node.told()), (Some((Role::Pending, 6_000)), None));
    assert_eq!(node.candidacy.next_moment(&node.bsr, &node.router).map(|at| at <= 6_000), Some(true));
    node.run_to(5_999);
    assert_eq!((node.said().len(), node.bsr.elected()), (0, None));
    node.run_to(6_000);
    assert_eq!((places(&node.said()), node.role()), (BOTH.to_vec(), Some((Role::Elected, 66_000))));
    let it = node.bsr.elected().unwrap();
    assert_eq!((it.bsr, it.priority, it.end), (address(OWN), 10, 136_000));
    // Its own RP is told it straight, and it says that no sooner than 10 s after it said the last.
    node.run_to(6_007);
    assert_eq!((node.said().len(), node.told()), (0, Some((OWN, 6_014))));
    assert_eq!((node.held(), node.role()), (vec![(OWN, 192, 150, 156_007)], Some((Role::Elected, 16_000))));
    assert_eq!(node.candidacy.rps()[0].range, Range::of(range(), address(OWN)));
    assert_eq!(rp(&node.router, [239, 9, 9, 9]), None);
    node.run_to(16_000);
    assert_eq!(places(&node.said()), BOTH);
    assert_eq!((rp(&node.router, [239, 9, 9, 9]), node.bsr.rps().len()), (Some(address(OWN)), 1));
    assert_eq!((node.told(), node.role()), (Some((OWN, 66_021)), Some((Role::Elected, 76_000))));
}

#[test]
fn an_elected_bsr_is_told_of_rps() {
    let mut node = elected();
    assert_eq!((node.unicast(&advertisement(FIRST, 100)), node.held().len()), (DONE, 2));
    assert_eq!(node.role(), Some((Role::Elected, 26_000)));
    node.run_to(26_000);
    // Of the lower priority number is the other one.
    assert_eq!((places(&node.said()), rp(&node.router, [239, 9, 9, 9])), (BOTH.to_vec(), Some(address(FIRST))));
    // It goes.
    assert_eq!((node.unicast(&advertisement(FIRST, 0)), node.held().len()), (DONE, 1));
    node.run_to(36_000);
    assert_eq!(rp(&node.router, [239, 9, 9, 9]), Some(address(OWN)));
    // What isn't for it, and what can't be read.
    let ignored = |reason| Ok(Verdict::Ignored(reason));
    assert_eq!(node.unicast(&packet_to(OWN, 64, FIRST, vec![0x26, 0, 0, 0])), ignored(Reason::NotForMe));
    let mut cut = vec![0x28, 0, 0, 0, 1, 5, 0, 100, 1, 0];
    cut.extend(FIRST);
    assert_eq!(node.unicast(&packet_to(OWN, 64, FIRST, cut)), Err(Error::Refused(Refusal::Short)));
    let mut young = Node::new(Some(&as_bsr()), None);
    assert_eq!(young.unicast(&advertisement(FIRST, 100)), ignored(Reason::NotElected));
    let mut none = Node::new(None, Some(&as_rp()));
    assert_eq!((none.unicast(&advertisement(FIRST, 100)), none.role()), (ignored(Reason::NotForMe), None));
}

#[test]
fn a_candidate_yields_to_more_weight_and_answers_less() {
    let mut node = elected();
    let said = wide(1, &[(SECOND, 150)]);
    let less = Head { priority: 9, ..HEAD };
    // Within 10 s of its last message it doesn't answer.
    assert_eq!(node.hear(bootstrap(less, &said)), Ok(Verdict::Ignored(Reason::NotPreferred)));
    assert_eq!((node.said().len(), node.role()), (0, Some((Role::Elected, 26_000))));
    node.run_to(26_000);
    assert_eq!(places(&node.said()), BOTH);
    node.run_to(50_000);
    assert_eq!((node.hear(bootstrap(less, &said)), places(&node.said())), (DONE, BOTH.to_vec()));
    assert_eq!((node.role(), rp(&node.router, [239, 9, 9, 9])), (Some((Role::Elected, 110_000)), Some(address(OWN))));
    // One of the same priority has the higher address.
    assert_eq!(node.hear(bootstrap(HEAD, &said)), DONE);
    assert_eq!((node.role(), node.said().len()), (Some((Role::Candidate, 180_000)), 2));
    assert_eq!((rp(&node.router, [239, 9, 9, 9]), node.told()), (Some(address(SECOND)), Some((BSR, 50_007))));
    // The RP tells the other BSR, by unicast, and when it goes.
    node.run_to(50_007);
    let told = node.said();
    assert_eq!(told.iter().map(|(target, _)| *target).collect::<Vec<_>>(), [Target::Unicast(address(BSR))]);
    let mut wanted = vec![1, 192, 0, 150, 1, 0];
    wanted.extend(OWN);
    wanted.extend([1, 0, 0, 8, 239, 0, 0, 0]);
    assert_eq!((&told[0].1[12..16], &told[0].1[16..20], &told[0].1[24..]), (&OWN[..], &BSR[..], &wanted[..]));
    let Node { router, bsr, candidacy, .. } = &mut node;
    candidacy.leave(bsr, router).unwrap();
    let left = router.drain().map(|sent| sent.bytes.to_vec()).collect::<Vec<_>>();
    assert_eq!((left.len(), &left[0][24..28]), (1, &[1, 192, 0, 0][..]));
    // Nothing is heard of it any more: after 130 s, and as long as a candidate of its weight waits, it is the BSR again.
    node.run_to(190_000);
    assert!(matches!(node.role(), Some((Role::Elected, _))));
    assert_eq!(node.bsr.elected().map(|it| it.bsr), Some(address(OWN)));
}

#[test]
fn a_pending_candidate_passes_on_what_has_less_weight() {
    let mut node = Node::new(Some(&as_bsr()), None);
    let less = bootstrap(Head { priority: 9, ..HEAD }, &wide(1, &[(SECOND, 150)]));
    assert_eq!((node.hear(less), node.said().len()), (DONE, 2));
    assert_eq!((node.role(), node.bsr.elected()), (Some((Role::Pending, 6_000)), None));
    assert_eq!(rp(&node.router, [239, 9, 9, 9]), None);
}

#[test]
fn a_candidate_rp_alone_follows_the_bsr() {
    let mut node = Node::new(None, Some(&as_rp()));
    assert_eq!((node.candidacy.next_end(), node.role()), (None, None));
    assert_eq!(node.hear(bootstrap(HEAD, &wide(1, &[(SECOND, 150)]))), DONE);
    assert_eq!((node.told(), node.candidacy.next_end()), (Some((BSR, 1_007)), Some(1_007)));
    node.said();
    node.run_to(70_000);
    // Three times soon, and then each minute.
    let told = node.said();
    assert_eq!(told.len(), 4);
    assert!(told.iter().all(|(target, _)| *target == Target::Unicast(address(BSR))));
    // A candidacy that is made anew follows it too.
    node.candidacy = Candidacy::new(None, Some(&as_rp()), 70_000).unwrap();
    node.run_to(70_000);
    assert_eq!(node.told(), Some((BSR, 70_007)));
    node.run_to(140_000);
    assert_eq!((node.told(), node.candidacy.next_end()), (None, None));
}

#[test]
fn what_no_candidate_can_be() {
    let refused =
        |bsr: Option<CandidateBsr>, rp: Option<CandidateRp>| Candidacy::new(bsr.as_ref(), rp.as_ref(), 0).err();
    let (bsr, rp) = (as_bsr(), as_rp());
    for wrong in [
        CandidateBsr { priority: 256, ..bsr },
        CandidateBsr { hash_length: 33, ..bsr },
        CandidateBsr { limit: 0, ..bsr },
        CandidateBsr { limit: 256, ..bsr },
        CandidateBsr { address: address([224, 0, 0, 13]), ..bsr },
    ] {
        assert_eq!(refused(Some(wrong), None), Some(Error::NoSetting), "{wrong:?}");
    }
    let with = |ranges: &[Prefix]| CandidateRp { ranges: ranges.to_vec(), ..rp.clone() };
    let prefix = |text: &str| text.parse::<Prefix>().unwrap();
    for wrong in [
        CandidateRp { priority: 256, ..rp.clone() },
        CandidateRp { address: address([0, 0, 0, 0]), ..rp.clone() },
        with(&[]),
        with(&[range(); 256]),
        with(&[prefix("10.0.0.0/8")]),
        with(&[prefix("239.0.0.1/8")]),
        with(&[prefix("239.0.0.0/33")]),
    ] {
        assert_eq!(refused(None, Some(wrong.clone())), Some(Error::NoSetting), "{wrong:?}");
    }
    assert_eq!(Candidacy::new(Some(&bsr), None, u64::MAX).err(), Some(Error::Refused(Refusal::MomentFar)));
    assert_eq!((refused(Some(bsr), Some(rp)), refused(None, None)), (None, None));
}
