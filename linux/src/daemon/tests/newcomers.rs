//! Neighbours that have just come, or have begun anew, are told what Bootstraps said (RFC 5059, 3.5).
use super::bootstraps::{bootstrap, listening, rp};
use super::*;
use crate::daemon::newcomers::{no_forward, ToldRp};
use crate::packet::sum;
use viqeshor::Range;

const RP: [u8; 4] = [10, 9, 0, 7];
const GROUP: [u8; 4] = [239, 9, 9, 9];
const NO_FORWARD: [u8; 2] = [0x24, 0x80];

/// A Hello on the second link, on which the router is 10.5.0.1 with priority 1.
fn greets(last: u8, priority: u32, generation: u8) -> (Source, kernel::Event) {
    let mut content = vec![0x20, 0, 0, 0, 0, 1, 0, 2, 0, 105, 0, 20, 0, 4, 0, 0, 0, generation, 0, 19, 0, 4];
    content.extend(priority.to_be_bytes());
    frame(ETH1, packet(PIM, [10, 5, 0, last].into(), [224, 0, 0, 13].into(), &summed(&content)))
}

/// A router that has learned of 239.0.0.0/8, 10 s after it began.
fn learned(settings: &str) -> (Daemon, Rc<Fake>) {
    let (mut daemon, fake) = begun(settings, &both());
    passes(&mut daemon, &fake, 10_000);
    happens(&mut daemon, &fake, bootstrap(&[([239, 0, 0, 0], 8, RP)]));
    fake.sent.take();
    (daemon, fake)
}

/// What left on the second link of Hellos and Bootstraps in the 5 s after a Hello there.
fn told_after(daemon: &mut Daemon, fake: &Fake, hello: (Source, kernel::Event)) -> Vec<Vec<u8>> {
    fake.sent.take();
    happens(daemon, fake, hello);
    passes(daemon, fake, 5_000);
    let sent = fake.sent.take();
    let on_link = sent.iter().filter(|(index, _)| *index == ETH1).filter_map(|(_, bytes)| Packet::read(bytes));
    on_link.filter(|it| is_pim(*it, HELLO) || is_pim(*it, BOOTSTRAP)).map(|it| it.content().to_vec()).collect()
}

fn is_told(messages: &[Vec<u8>]) -> bool {
    messages.iter().any(|message| message.starts_with(&NO_FORWARD))
}

#[test]
fn a_newcomer_is_told_after_a_hello() {
    let (mut daemon, fake) = learned(&listening());
    let left = told_after(&mut daemon, &fake, greets(2, 1, 7));
    let kinds: Vec<_> = left.iter().map(|message| message[0]).collect();
    assert_eq!((kinds.as_slice(), &left[1][..2]), (&[0x20, 0x24][..], &NO_FORWARD[..]));
    let (holdtime, said) = (left[1][33], &left[1][6..]);
    let wanted = [
        [30, 10, 1, 0, 10, 9, 0, 9, 1, 0, 0, 8, 239, 0, 0, 0, 1, 1, 0, 0, 1, 0, 10, 9, 0, 7].as_slice(),
        &[0, holdtime, 0, 0],
    ];
    assert_eq!((said, sum(&[&left[1]])), (wanted.concat().as_slice(), 0xffff));
    assert!((145..=150).contains(&holdtime));
    // A router that begins learns of it, and sends it nowhere.
    let (mut next, other) = begun(&listening(), &both());
    other.sent.take();
    happens(&mut next, &other, frame(ETH0, packet(PIM, [10, 1, 0, 2].into(), [224, 0, 0, 13].into(), &left[1])));
    assert_eq!((rp(&next, GROUP), next.counters.bootstraps_taken), (Some(RP.into()), 1));
    assert!(!other.sent.take().iter().any(|(_, bytes)| Packet::read(bytes).map_or(false, |it| is_pim(it, BOOTSTRAP))));
    // Its next Hello is of one that is known, and one of another generation isn't.
    assert!(!is_told(&told_after(&mut daemon, &fake, greets(2, 1, 7))));
    assert!(is_told(&told_after(&mut daemon, &fake, greets(2, 1, 8))));
}

#[test]
fn the_router_tells_that_is_the_dr_beside_the_newcomer() {
    for (others, newcomer, wanted) in [
        (vec![], greets(2, 0, 7), true),
        (vec![], greets(2, 9, 7), true),
        // Another one is the designated router, or would be.
        (vec![(3, 5)], greets(2, 0, 7), false),
        (vec![(3, 1)], greets(4, 1, 7), false),
        (vec![(3, 0)], greets(4, 1, 7), true),
    ] {
        let (mut daemon, fake) = learned(&listening());
        for (last, priority) in &others {
            happens(&mut daemon, &fake, greets(*last, *priority, 1));
        }
        passes(&mut daemon, &fake, 6_000);
        assert_eq!(is_told(&told_after(&mut daemon, &fake, newcomer)), wanted, "{others:?}");
    }
}

#[test]
fn nobody_is_told_where_none_is_the_bsr_or_on_a_border() {
    let (mut daemon, fake) = begun(&listening(), &both());
    assert!(!is_told(&told_after(&mut daemon, &fake, greets(2, 0, 7))));
    let bordered = listening().replacen("name = \"eth1\"\n", "name = \"eth1\"\nbsr_border = true\n", 1);
    let (mut daemon, fake) = learned(&bordered);
    assert!(!is_told(&told_after(&mut daemon, &fake, greets(2, 0, 7))));
    // A goodbye is no newcomer's.
    let (mut daemon, fake) = learned(&listening());
    let goodbye = crate::packet::goodbye_of([10, 5, 0, 2].into());
    assert!(!is_told(&told_after(&mut daemon, &fake, frame(ETH1, goodbye))));
}

#[test]
fn many_rps_are_said_in_fragments() {
    let rp = |range: &str, last: u32| ToldRp {
        range: Range::of(range.parse().expect("a prefix"), (0x0a09_0000 + last).into()),
        priority: 192,
        holdtime: 60,
    };
    let mut rps: Vec<_> = (1..=200).map(|last| rp("239.0.0.0/8", last)).collect();
    rps.extend([rp("239.2.0.0/16", 7), rp("239.1.0.0/16", 7)]);
    let said = no_forward(([10, 9, 0, 9].into(), 64), 30, 0x0102, &rps);
    // 14 bytes, 12 for each range, 10 for each RP.
    assert_eq!(said.iter().map(Vec::len).collect::<Vec<_>>(), [14 + 12 + 1_430, 14 + 12 + 570 + 22 + 22]);
    for message in &said {
        assert_eq!(&message[..14], &[0x24, 0x80, 0, 0, 1, 2, 30, 64, 1, 0, 10, 9, 0, 9]);
    }
    assert_eq!((&said[0][22..26], &said[1][22..26]), (&[200, 143, 0, 0][..], &[200, 57, 0, 0][..]));
    assert_eq!((&said[1][600..604], &said[1][622..626]), (&[239, 1, 0, 0][..], &[239, 2, 0, 0][..]));
    let none = no_forward(([10, 9, 0, 9].into(), 64), 30, 0x0102, &[]);
    assert_eq!(none, [&said[0][..14]]);
}
