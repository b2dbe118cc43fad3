//! RPs that share an address: which sets the router has, by the settings and its addresses, and what it sends.
use super::restarted::{left_by, resumed, same_machine};
use super::*;

const SHARED: Ipv4Addr = Ipv4Addr::new(10, 255, 0, 1);
const OWN: Ipv4Addr = Ipv4Addr::new(10, 1, 0, 1);
const OTHER: Ipv4Addr = Ipv4Addr::new(10, 1, 0, 9);
const GROUP: Ipv4Addr = Ipv4Addr::new(239, 3, 1, 1);

/// The shared address is lo's.
fn alone() -> String {
    format!("[[interface]]\nname = \"lo\"\n[[rp]]\ngroups = \"239.3.0.0/16\"\naddress = \"{SHARED}\"\n{TWO}")
}

fn sharing() -> String {
    format!("{}[[anycast]]\nshared = \"{SHARED}\"\nown = \"{OWN}\"\nothers = [\"{OTHER}\"]\n", alone())
}

fn with_lo() -> [(u32, [u8; 4]); 3] {
    [(LO, SHARED.octets()), both()[0], both()[1]]
}

/// A Register of FAR from another router, which isn't at the end of its way.
fn registered(to: Ipv4Addr) -> (Source, kernel::Event) {
    let content = [summed(&[0x21, 0, 0, 0, 0, 0, 0, 0]), data(FAR, GROUP, 0, 40)].concat();
    let mut whole = packet(PIM, [10, 1, 0, 2].into(), to, &content);
    whole[8] = 64;
    put_checksum(&mut whole[..20], 10);
    (Source::Unicasts, kernel::Event::Unicast(whole))
}

/// The ends of what left by unicast since it was asked last.
fn unicasts(fake: &Fake) -> Vec<(Ipv4Addr, Ipv4Addr)> {
    let sent = fake.unicasts.take();
    let ends = |bytes: &Vec<u8>| Packet::read(bytes).map(|packet| (packet.source(), packet.destination()));
    sent.iter().filter_map(ends).collect()
}

/// To which others a Register to the shared address goes on.
fn told(daemon: &mut Daemon, fake: &Fake) -> Vec<Ipv4Addr> {
    fake.unicasts.take();
    happens(daemon, fake, registered(SHARED));
    unicasts(fake).into_iter().filter(|(from, _)| *from == OWN).map(|(_, to)| to).collect()
}

#[test]
fn a_register_goes_on_and_a_source_is_announced() {
    let (mut daemon, fake) = begun(&sharing(), &with_lo());
    happens(&mut daemon, &fake, registered(SHARED));
    assert_eq!(unicasts(&fake), [(OWN, OTHER), (SHARED, [10, 1, 0, 2].into())]);
    // A source on a link of which the router is the DR, at its first packet and then each minute.
    passes(&mut daemon, &fake, 6_000);
    unicasts(&fake);
    happens(&mut daemon, &fake, no_cache(1, key(NEAR, GROUP.octets())));
    assert_eq!(unicasts(&fake), [(OWN, OTHER)]);
    passes(&mut daemon, &fake, 53_000);
    assert!(unicasts(&fake).is_empty());
    passes(&mut daemon, &fake, 1_000);
    assert_eq!(unicasts(&fake), [(OWN, OTHER)]);
}

#[test]
fn a_set_waits_for_its_addresses() {
    let (mut daemon, fake) = begun(&sharing(), &both());
    assert!(daemon.core.rp_sets().is_empty());
    happens(&mut daemon, &fake, moves(LO, None, Some(subnet(SHARED.octets()))));
    passes(&mut daemon, &fake, 1_100);
    assert_eq!(told(&mut daemon, &fake), [OTHER]);
    // It doesn't keep the router from other addresses.
    let other = subnet([10, 255, 0, 7]);
    happens(&mut daemon, &fake, moves(LO, Some(subnet(SHARED.octets())), Some(other)));
    passes(&mut daemon, &fake, 1_100);
    assert_eq!((daemon.core.told.addresses.as_slice(), daemon.core.rp_sets().len()), (&[other.address][..], 0));
    happens(&mut daemon, &fake, moves(LO, Some(other), Some(subnet(SHARED.octets()))));
    passes(&mut daemon, &fake, 1_100);
    assert_eq!((daemon.core.rp_sets().len(), daemon.counters.made_anew), (1, 0));
}

#[test]
fn other_settings_have_other_sets() {
    let (mut daemon, fake) = begun(&sharing(), &with_lo());
    let takes = |daemon: &mut Daemon, text: &str| {
        daemon.take_settings(settings::read(text).expect("they are in order")).expect("it goes on");
    };
    takes(&mut daemon, &alone());
    assert!(told(&mut daemon, &fake).is_empty());
    takes(&mut daemon, &sharing().replace("10.1.0.9", "10.1.0.8"));
    assert_eq!(told(&mut daemon, &fake), [Ipv4Addr::new(10, 1, 0, 8)]);
    // With an interface its set goes.
    takes(&mut daemon, &sharing().replace("name = \"lo\"", "name = \"dummy0\""));
    assert_eq!((daemon.core.rp_sets().len(), daemon.core.told.addresses.len()), (0, 0));
    takes(&mut daemon, &sharing());
    assert_eq!(told(&mut daemon, &fake), [OTHER]);
}

#[test]
fn a_set_with_an_address_of_the_router_is_left_out() {
    let (daemon, _) = begun(&sharing().replace("10.1.0.9", "10.5.0.1"), &with_lo());
    assert!(daemon.core.rp_sets().is_empty());
}

#[test]
fn a_router_in_the_place_of_another_one_has_the_sets() {
    let (daemon, fake) = begun(&sharing(), &with_lo());
    for way in [Way::Whole, Way::Death] {
        let other = same_machine(&fake);
        let mut next = resumed(&sharing(), &other, left_by(&daemon), way);
        assert_eq!(told(&mut next, &other), [OTHER]);
    }
}
