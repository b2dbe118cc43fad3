//! Frames of a link that come out of order: the Join(S,G,rpt) of one router before the Prune of another that it
//! overrides.
use super::*;

/// The neighbour on the shared tree, and the router whose hosts are on the source's tree.
const UPSTREAM: [u8; 4] = [10, 1, 0, 2];
const PRUNING: [u8; 4] = [10, 1, 0, 3];
const GROUP: [u8; 4] = [239, 2, 1, 1];

fn pim(from: [u8; 4], content: &[u8]) -> (Source, kernel::Event) {
    frame(ETH0, packet(PIM, from.into(), [224, 0, 0, 13].into(), &summed(content)))
}

fn hello_of(from: [u8; 4]) -> (Source, kernel::Event) {
    pim(from, &[0x20, 0, 0, 0, 0, 1, 0, 2, 0, 105, 0, 19, 0, 4, 0, 0, 0, 0])
}

/// Of FAR, from the shared tree.
fn prune() -> (Source, kernel::Event) {
    let head = [&[0x23, 0, 0, 0, 1, 0], &UPSTREAM[..], &[0, 1, 0, 210, 1, 0, 0, 32], &GROUP].concat();
    pim(PRUNING, &[&head[..], &[0, 0, 0, 1, 1, 0, 5, 32], &FAR.octets()].concat())
}

/// The Join/Prunes that left on the shared link.
fn joins(fake: &Fake) -> Vec<Vec<u8>> {
    let sent = fake.sent.borrow();
    let is_join = |bytes: &&Vec<u8>| Packet::read(bytes).map_or(false, |packet| is_pim(packet, 3));
    sent.iter().filter(|(index, _)| *index == ETH0).map(|(_, bytes)| bytes).filter(is_join).cloned().collect()
}

/// The router with a viewer, and that upstream of it, which is the RP and has the source on eth1; the link is eth0's.
fn two_routers(settings: &str) -> [(Daemon, Rc<Fake>); 2] {
    let (mut viewing, of_viewing) = begun(settings, &both());
    happens(&mut viewing, &of_viewing, hello_of(PRUNING));
    happens(&mut viewing, &of_viewing, report(ETH1, [10, 5, 0, 77], GROUP.into()));
    let (mut rp, of_rp) = begun(TWO, &[(ETH0, UPSTREAM), (ETH1, [10, 9, 0, 1])]);
    [[10, 1, 0, 1], PRUNING].into_iter().for_each(|from| happens(&mut rp, &of_rp, hello_of(from)));
    joins(&of_viewing).into_iter().for_each(|join| happens(&mut rp, &of_rp, frame(ETH0, join)));
    happens(&mut rp, &of_rp, no_cache(1, key(FAR, GROUP)));
    assert_eq!(of_rp.entry(key(FAR, GROUP)), Some(Forwarded { parent: 1, outgoing: 0b01 }));
    of_viewing.sent.borrow_mut().clear();
    [(viewing, of_viewing), (rp, of_rp)]
}

/// Whether the stream still leaves the RP after the Prune could take effect; and how many Joins left meanwhile.
fn out_of_order(settings: &str) -> (bool, usize) {
    let [(mut viewing, of_viewing), (mut rp, of_rp)] = two_routers(settings);
    happens(&mut viewing, &of_viewing, prune());
    // What overrides it leaves after a random time of up to 2.5 s, and comes to the RP before the Prune.
    let mut taken = 0;
    for _ in 0..40 {
        for join in joins(&of_viewing).split_off(taken) {
            happens(&mut rp, &of_rp, frame(ETH0, join));
            if taken == 0 {
                happens(&mut rp, &of_rp, prune());
            }
            taken += 1;
        }
        passes(&mut viewing, &of_viewing, 100);
        passes(&mut rp, &of_rp, 100);
    }
    passes(&mut rp, &of_rp, 3_000);
    (of_rp.entry(key(FAR, GROUP)).map_or(false, |entry| entry.outgoing == 0b01), taken)
}

#[test]
fn an_override_that_comes_before_its_prune_heals_where_it_leaves_twice() {
    assert_eq!(out_of_order(TWO), (false, 1));
    let twice = TWO.replace("name = \"eth0\"\n", "name = \"eth0\"\noverride_twice = true\n");
    assert_eq!(out_of_order(&twice), (true, 2));
}
