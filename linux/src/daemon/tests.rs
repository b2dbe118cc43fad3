//! The daemon with the library and a machine that is none: what its kernel is told, and what leaves, after some events.
use super::*;
use crate::kernel::{self, Source};
use crate::mroute::{Carried, Forwarded, Upcall, REGISTER_VIF};
use crate::netlink::{Change, Link, Used};
use crate::packet::{put_checksum, with_content, IGMP, PIM, UDP};
use crate::plane::Cache;
use crate::routes::{Hop, KernelRoute, Kind};
use crate::settings;
use std::cell::{Cell, RefCell};
use std::collections::VecDeque;
use std::io;
use std::os::unix::io::RawFd;
use std::rc::Rc;
use viqeshor::GroupRow;

/// What a machine has, and what was asked of it.
#[derive(Default)]
struct Fake {
    now: Cell<u64>,
    waiting: RefCell<VecDeque<(Source, kernel::Event)>>,
    addresses: RefCell<Vec<(u32, Subnet)>>,
    /// By which next hop on which link FAR is; none where there is no other than usual.
    way: Cell<Option<(Ipv4Addr, u32)>>,
    is_down: Cell<bool>,
    entries: RefCell<BTreeMap<Key, Forwarded>>,
    used: RefCell<Vec<Used>>,
    has_no_memory: Cell<bool>,
    sent: RefCell<Vec<(u32, Vec<u8>)>>,
    bfd: RefCell<Vec<(Ipv4Addr, Vec<u8>)>>,
    unicasts: RefCell<Vec<Vec<u8>>>,
    /// Virtual interfaces that were added, and those that were taken over.
    vifs: RefCell<Vec<u16>>,
    resumed_vifs: RefCell<Vec<(u16, u32)>>,
    /// How often an entry was set.
    puts: Cell<usize>,
    is_ended: Cell<bool>,
    stays: Cell<bool>,
}

struct Handle(Rc<Fake>);

impl Cache for Handle {
    fn put(&self, key: Key, forwarded: Forwarded) -> io::Result<()> {
        if self.0.has_no_memory.get() {
            return Err(io::Error::from_raw_os_error(libc::ENOMEM));
        }
        self.0.puts.set(self.0.puts.get() + 1);
        self.0.entries.borrow_mut().insert(key, forwarded);
        Ok(())
    }

    fn remove(&self, key: Key) -> io::Result<()> {
        self.0.entries.borrow_mut().remove(&key);
        Ok(())
    }
}

const LO: u32 = 1;
const ETH0: u32 = 2;
const ETH1: u32 = 3;
const DUMMY: u32 = 4;

impl Kernel for Handle {
    fn now(&self) -> u64 {
        self.0.now.get()
    }

    fn began(&self) -> u64 {
        crate::left::clock() - self.now() * 1_000_000
    }

    fn sockets(&self) -> Vec<(String, RawFd)> {
        Vec::new()
    }

    fn end(&mut self) {
        self.0.is_ended.set(true);
    }

    fn stay(&mut self) {
        self.0.stays.set(true);
    }

    fn hear(&mut self, from: Source) -> io::Result<Option<kernel::Event>> {
        let mut waiting = self.0.waiting.borrow_mut();
        let at = waiting.iter().position(|(source, _)| *source == from);
        Ok(at.and_then(|at| waiting.remove(at)).map(|(_, event)| event))
    }

    fn has_read(&self, _: Source) -> bool {
        false
    }

    fn waits(&self) -> Vec<(Source, RawFd)> {
        Vec::new()
    }

    fn links(&mut self) -> io::Result<Vec<Link>> {
        let link = |index, name: &str| Link {
            index,
            name: name.to_string(),
            mtu: 1500,
            is_running: index != ETH0 || !self.0.is_down.get(),
            is_loopback: index == LO,
            is_dummy: index == DUMMY,
            vrf_table: None,
        };
        Ok(vec![link(LO, "lo"), link(ETH0, "eth0"), link(ETH1, "eth1"), link(DUMMY, "dummy0")])
    }

    fn addresses(&mut self) -> io::Result<Vec<(u32, Subnet)>> {
        Ok(self.0.addresses.borrow().clone())
    }

    fn multicast_table(&self) -> u32 {
        253
    }

    fn routes(&mut self, _: Option<u32>) -> io::Result<Vec<KernelRoute>> {
        let (gateway, index) = self.0.way.get().unwrap_or((Ipv4Addr::new(10, 1, 0, 2), ETH0));
        let hop = Hop { gateway: Some(gateway.into()), index, is_dead: false };
        let prefix = Ipv4Addr::new(10, 9, 0, 0).into();
        Ok(vec![KernelRoute { prefix, length: 16, kind: Kind::Unicast, metric: 1, protocol: 4, hops: vec![hop] }])
    }

    fn is_filter_strict(&self, _: &str) -> bool {
        false
    }

    fn add_vif(&mut self, vif: u16, _: u32) -> io::Result<()> {
        self.0.vifs.borrow_mut().push(vif);
        Ok(())
    }

    fn resume_vif(&mut self, vif: u16, index: u32) -> io::Result<()> {
        self.0.resumed_vifs.borrow_mut().push((vif, index));
        Ok(())
    }

    fn remove_vif(&mut self, _: u16) -> io::Result<()> {
        Ok(())
    }

    fn used(&mut self) -> io::Result<Vec<Used>> {
        Ok(self.0.used.borrow().clone())
    }

    fn carried(&self, vif: u16) -> io::Result<Carried> {
        Ok(Carried { packets_in: 10 + u64::from(vif), ..Carried::default() })
    }

    fn send_on(&mut self, index: u32, packet: &[u8]) -> io::Result<()> {
        self.0.sent.borrow_mut().push((index, packet.to_vec()));
        Ok(())
    }

    fn hear_bfd_on(&mut self, _: u32) -> io::Result<()> {
        Ok(())
    }

    fn hear_bfd_no_more(&mut self, _: u32) {}

    fn send_bfd(&mut self, _: u32, ends: (Ipv4Addr, Ipv4Addr), packet: &[u8]) -> io::Result<()> {
        self.0.bfd.borrow_mut().push((ends.1, packet.to_vec()));
        Ok(())
    }

    fn send_unicast(&mut self, packet: &[u8]) -> io::Result<()> {
        self.0.unicasts.borrow_mut().push(packet.to_vec());
        Ok(())
    }
}

const TWO: &str = "[[interface]]\nname = \"eth0\"\n[[interface]]\nname = \"eth1\"\n\
    [[rp]]\ngroups = \"239.1.0.0/16\"\naddress = \"10.1.0.1\"\n\
    [[rp]]\ngroups = \"239.2.0.0/16\"\naddress = \"10.9.0.1\"\n";
const FAR: Ipv4Addr = Ipv4Addr::new(10, 9, 0, 50);
const NEAR: Ipv4Addr = Ipv4Addr::new(10, 5, 0, 50);

fn subnet(address: [u8; 4]) -> Subnet {
    Subnet { address: address.into(), length: 24 }
}

/// A router of these settings, which has begun, with a neighbour behind which FAR is.
fn begun(settings: &str, addresses: &[(u32, [u8; 4])]) -> (Daemon, Rc<Fake>) {
    let fake = Rc::new(Fake::default());
    *fake.addresses.borrow_mut() = addresses.iter().map(|(index, address)| (*index, subnet(*address))).collect();
    let settings = settings::read(settings).expect("they are in order");
    let mut daemon = Daemon::new(Path::new("none"), settings, Box::new(Handle(Rc::clone(&fake)))).expect("it is made");
    daemon.begin().expect("it begins");
    happens(&mut daemon, &fake, hello());
    (daemon, fake)
}

fn both() -> [(u32, [u8; 4]); 2] {
    [(ETH0, [10, 1, 0, 1]), (ETH1, [10, 5, 0, 1])]
}

fn happens(daemon: &mut Daemon, fake: &Fake, event: (Source, kernel::Event)) {
    let ready = [event.0];
    fake.waiting.borrow_mut().push_back(event);
    daemon.turn(&ready).expect("it goes on");
    daemon.house_keeping().expect("it goes on");
}

fn passes(daemon: &mut Daemon, fake: &Fake, milliseconds: u64) {
    for _ in 0..milliseconds / 100 {
        fake.now.set(fake.now.get() + 100);
        daemon.house_keeping().expect("it goes on");
    }
}

fn packet(protocol: u8, from: Ipv4Addr, to: Ipv4Addr, content: &[u8]) -> Vec<u8> {
    let ttl = if protocol == UDP { 16 } else { 1 };
    let mut header = [0x45, 0, 0, 0, 0, 7, 0, 0, ttl, protocol, 0, 0, 0, 0, 0, 0, 0, 0, 0, 0];
    header[12..16].copy_from_slice(&from.octets());
    header[16..].copy_from_slice(&to.octets());
    with_content(&header, content)
}

fn summed(content: &[u8]) -> Vec<u8> {
    let mut content = content.to_vec();
    put_checksum(&mut content, 2);
    content
}

fn frame(index: u32, packet: Vec<u8>) -> (Source, kernel::Event) {
    (Source::Frames, kernel::Event::Frame { index, packet })
}

/// Of a neighbour that isn't to be the designated router.
fn hello() -> (Source, kernel::Event) {
    let content = summed(&[0x20, 0, 0, 0, 0, 1, 0, 2, 0, 105, 0, 19, 0, 4, 0, 0, 0, 0]);
    frame(ETH0, packet(PIM, [10, 1, 0, 2].into(), [224, 0, 0, 13].into(), &content))
}

fn report(index: u32, from: [u8; 4], group: Ipv4Addr) -> (Source, kernel::Event) {
    let mut content = vec![0x22, 0, 0, 0, 0, 0, 0, 1, 4, 0, 0, 0];
    content.extend(group.octets());
    frame(index, packet(IGMP, from.into(), [224, 0, 0, 22].into(), &summed(&content)))
}

/// A fragment where there are flags.
fn data(from: Ipv4Addr, group: Ipv4Addr, flags: u16, length: usize) -> Vec<u8> {
    let mut whole = packet(UDP, from, group, &vec![9; length]);
    whole[6..8].copy_from_slice(&flags.to_be_bytes());
    put_checksum(&mut whole[..20], 10);
    whole
}

fn register(inner: &[u8]) -> (Source, kernel::Event) {
    register_to([10, 1, 0, 1].into(), inner)
}

fn register_to(rp: Ipv4Addr, inner: &[u8]) -> (Source, kernel::Event) {
    let content = [summed(&[0x21, 0, 0, 0, 0, 0, 0, 0]), inner.to_vec()].concat();
    (Source::Unicasts, kernel::Event::Unicast(packet(PIM, [10, 1, 0, 2].into(), rp, &content)))
}

fn no_cache(vif: u16, key: Key) -> (Source, kernel::Event) {
    (Source::Upcalls, kernel::Event::Upcall(Upcall::NoCache { vif, key }))
}

fn whole(key: Key, packet: Vec<u8>) -> (Source, kernel::Event) {
    (Source::Upcalls, kernel::Event::Upcall(Upcall::Whole { key, packet }))
}

fn key(source: Ipv4Addr, group: [u8; 4]) -> Key {
    Key { source, group: group.into() }
}

impl Fake {
    fn entry(&self, key: Key) -> Option<Forwarded> {
        self.entries.borrow().get(&key).copied()
    }

    /// What left of data, by the kernel's number of the interface.
    fn copies(&self) -> Vec<(u32, Vec<u8>)> {
        let is_data = |(_, bytes): &&(u32, Vec<u8>)| Packet::read(bytes).map_or(false, Packet::is_data);
        self.sent.borrow().iter().filter(is_data).cloned().collect()
    }
}

const UP: u32 = 1 << REGISTER_VIF;

#[test]
fn a_join_to_a_running_stream_has_its_first_packet() {
    let (mut daemon, fake) = begun(TWO, &both());
    let stream = key(FAR, [239, 1, 1, 1]);
    happens(&mut daemon, &fake, register(&data(FAR, stream.group, 0, 40)));
    happens(&mut daemon, &fake, report(ETH1, [10, 5, 0, 77], stream.group));
    assert_eq!(fake.entry(stream), Some(Forwarded { parent: 0, outgoing: UP }));
    happens(&mut daemon, &fake, whole(stream, data(FAR, stream.group, 0, 40)));
    assert_eq!(fake.entry(stream), Some(Forwarded { parent: 0, outgoing: 0b10 }));
    assert_eq!(fake.copies().len(), 1);
    assert_eq!(fake.copies()[0].0, ETH1);
}

/// What becomes of an address of a link.
fn moves(index: u32, from: Option<Subnet>, to: Option<Subnet>) -> (Source, kernel::Event) {
    let gone = from.map(|subnet| Change::AddressGone { index, subnet });
    let there = to.map(|subnet| Change::Address { index, subnet });
    (Source::Changes, kernel::Event::Changes(gone.into_iter().chain(there).collect()))
}

#[test]
fn an_address_on_no_link_is_the_routers() {
    let of_lo = "[[interface]]\nname = \"lo\"\n[[rp]]\ngroups = \"239.3.0.0/16\"\naddress = \"10.255.0.1\"\n";
    let own = Ipv4Addr::new(10, 255, 0, 1);
    let (mut daemon, fake) = begun(&format!("{of_lo}{TWO}"), &[(LO, own.octets()), both()[0], both()[1]]);
    assert_eq!((daemon.ports[0].vif, daemon.ports[0].standing.is_up()), (None, true));
    assert_eq!((&*fake.vifs.borrow(), &daemon.core.told.addresses), (&vec![0, 1], &vec![own]));
    assert!(!daemon.core.link(0).expect("it is told").is_up);
    let stream = key(FAR, [239, 3, 1, 1]);
    happens(&mut daemon, &fake, report(ETH1, [10, 5, 0, 77], stream.group));
    happens(&mut daemon, &fake, register_to(own, &data(FAR, stream.group, 0, 40)));
    assert_eq!(fake.copies().iter().map(|(index, _)| *index).collect::<Vec<_>>(), [ETH1]);
    // Another one takes its place.
    let other = subnet([10, 255, 0, 9]);
    happens(&mut daemon, &fake, moves(LO, Some(subnet(own.octets())), Some(other)));
    passes(&mut daemon, &fake, 1_100);
    assert_eq!((daemon.core.told.addresses.as_slice(), daemon.ports[0].standing.is_up()), (&[other.address][..], true));
    happens(&mut daemon, &fake, register_to(own, &data(FAR, stream.group, 0, 40)));
    assert_eq!(fake.copies().len(), 1);
}

#[test]
fn a_dummy_leaves_its_link_and_has_one_again() {
    let settings = format!("{TWO}[[interface]]\nname = \"dummy0\"\n");
    let (mut daemon, fake) = begun(&settings, &[both()[0], both()[1], (DUMMY, [10, 8, 0, 1])]);
    let on_link = subnet([10, 8, 0, 1]);
    let alone = Subnet { length: 32, ..on_link };
    let is = |daemon: &Daemon| {
        let port = &daemon.ports[2];
        (port.vif, port.standing.is_up(), daemon.core.told.addresses.len(), daemon.core.link(2).map(|link| link.is_up))
    };
    assert_eq!(is(&daemon), (Some(2), true, 0, Some(true)));
    happens(&mut daemon, &fake, moves(DUMMY, Some(on_link), Some(alone)));
    passes(&mut daemon, &fake, 1_100);
    assert_eq!(is(&daemon), (None, true, 1, Some(false)));
    happens(&mut daemon, &fake, moves(DUMMY, Some(alone), Some(on_link)));
    passes(&mut daemon, &fake, 1_100);
    assert_eq!(is(&daemon), (Some(2), true, 0, Some(true)));
    assert_eq!((daemon.counters.reloaded, daemon.counters.made_anew), (2, 0));
}

#[test]
fn memory_that_the_kernel_lacks_costs_its_entry_alone() {
    let (mut daemon, fake) = begun(TWO, &both());
    let stream = key(NEAR, [239, 1, 1, 1]);
    happens(&mut daemon, &fake, report(ETH0, [10, 1, 0, 77], stream.group));
    fake.has_no_memory.set(true);
    happens(&mut daemon, &fake, no_cache(1, stream));
    passes(&mut daemon, &fake, 3_000);
    assert_eq!(fake.entry(stream), None);
    assert!(daemon.counters.entries_refused > 0);
    fake.has_no_memory.set(false);
    passes(&mut daemon, &fake, 1_000);
    assert_eq!(fake.entry(stream), Some(Forwarded { parent: 1, outgoing: 0b01 }));
}

#[test]
fn an_address_that_comes_late_is_taken() {
    let (mut daemon, fake) = begun(TWO, &both()[..1]);
    assert_eq!((daemon.ports[1].own.subnet, daemon.ports[1].standing.is_up()), (None, false));
    let stream = key(FAR, [239, 1, 1, 1]);
    happens(&mut daemon, &fake, report(ETH0, [10, 1, 0, 77], stream.group));
    let late = subnet([10, 5, 0, 1]);
    fake.addresses.borrow_mut().push((ETH1, late));
    happens(
        &mut daemon,
        &fake,
        (Source::Changes, kernel::Event::Changes(vec![Change::Address { index: ETH1, subnet: late }])),
    );
    passes(&mut daemon, &fake, 1_100);
    assert_eq!((daemon.ports[1].own.subnet, daemon.ports[1].standing.is_up()), (Some(late), true));
    assert_eq!((daemon.counters.reloaded, daemon.counters.made_anew), (1, 0));
    // The router goes on with what it knew.
    assert_eq!((daemon.neighbours.known.len(), daemon.core.rows(Table::Groups).expect("it tells").len()), (1, 1));
}

#[test]
fn entries_stay_while_a_router_that_was_made_anew_learns() {
    let (mut daemon, fake) = begun(TWO, &both());
    let stream = key(NEAR, [239, 1, 1, 1]);
    happens(&mut daemon, &fake, report(ETH0, [10, 1, 0, 77], stream.group));
    happens(&mut daemon, &fake, no_cache(1, stream));
    let flows = Some(Forwarded { parent: 1, outgoing: 0b01 });
    assert_eq!(fake.entry(stream), flows);
    *fake.used.borrow_mut() = vec![Used { key: stream, packets: 9, bytes: 0, stray: 0, idle: 0 }];
    daemon.make_anew("a test").expect("it goes on");
    assert_eq!((daemon.counters.made_anew, fake.entry(stream)), (1, flows));
    passes(&mut daemon, &fake, 3_000);
    assert_eq!(fake.entry(stream), flows);
    happens(&mut daemon, &fake, report(ETH0, [10, 1, 0, 77], stream.group));
    passes(&mut daemon, &fake, 12_000);
    assert_eq!(fake.entry(stream), flows);
    assert!(daemon.plane.kept().is_empty());
}

#[test]
fn an_rp_that_was_made_anew_waits_for_the_next_register() {
    let (mut daemon, fake) = begun(TWO, &both());
    let stream = key(FAR, [239, 1, 1, 1]);
    let asks = || report(ETH1, [10, 5, 0, 77], stream.group);
    happens(&mut daemon, &fake, register(&data(FAR, stream.group, 0, 40)));
    happens(&mut daemon, &fake, asks());
    happens(&mut daemon, &fake, whole(stream, data(FAR, stream.group, 0, 40)));
    let flows = Some(Forwarded { parent: 0, outgoing: 0b10 });
    assert_eq!(fake.entry(stream), flows);
    *fake.used.borrow_mut() = vec![Used { key: stream, packets: 9, bytes: 0, stray: 0, idle: 0 }];
    daemon.make_anew("a test").expect("it goes on");
    happens(&mut daemon, &fake, hello());
    happens(&mut daemon, &fake, asks());
    passes(&mut daemon, &fake, 60_000);
    assert_eq!((fake.entry(stream), daemon.plane.kept().len()), (flows, 1));
    happens(&mut daemon, &fake, register(&data(FAR, stream.group, 0, 40)));
    passes(&mut daemon, &fake, 6_000);
    assert_eq!((fake.entry(stream), daemon.plane.kept().len()), (flows, 0));
}

#[test]
fn what_nobody_asks_for_again_ends_after_the_router_has_learned() {
    let (mut daemon, fake) = begun(TWO, &both());
    let stream = key(NEAR, [239, 1, 1, 1]);
    happens(&mut daemon, &fake, report(ETH0, [10, 1, 0, 77], stream.group));
    happens(&mut daemon, &fake, no_cache(1, stream));
    daemon.make_anew("a test").expect("it goes on");
    passes(&mut daemon, &fake, 15_000);
    assert_eq!(fake.entry(stream).map_or(0, |entry| entry.outgoing & 0b01), 0);
}

#[test]
fn a_fragment_of_a_near_source_is_registered_and_copied_as_it_is() {
    let (mut daemon, fake) = begun(TWO, &both());
    // Its RP is behind the neighbour.
    let stream = key(NEAR, [239, 2, 1, 1]);
    happens(&mut daemon, &fake, report(ETH0, [10, 1, 0, 77], stream.group));
    happens(&mut daemon, &fake, no_cache(1, stream));
    assert_eq!(fake.entry(stream), Some(Forwarded { parent: 1, outgoing: UP }));
    let fragment = data(NEAR, stream.group, 0x2000, 1480);
    happens(&mut daemon, &fake, whole(stream, fragment.clone()));
    let registers = fake.unicasts.borrow().clone();
    assert_eq!(registers.len(), 1);
    let inner = &registers[0][28..];
    assert_eq!((&inner[20..], &inner[4..8], inner.len()), (&fragment[20..], &fragment[4..8], fragment.len()));
}

#[test]
fn a_register_of_a_long_packet_and_of_a_fragment_is_sent_on_as_it_is() {
    let (mut daemon, fake) = begun(TWO, &both());
    let stream = key(FAR, [239, 1, 1, 1]);
    happens(&mut daemon, &fake, report(ETH1, [10, 5, 0, 77], stream.group));
    for packet in [data(FAR, stream.group, 0, 3000), data(FAR, stream.group, 0x00b9, 700)] {
        fake.sent.borrow_mut().clear();
        happens(&mut daemon, &fake, register(&packet));
        let copies = fake.copies();
        assert_eq!(copies.len(), 1);
        let (index, left) = &copies[0];
        assert_eq!((*index, &left[20..], &left[4..8], left[8]), (ETH1, &packet[20..], &packet[4..8], 15));
    }
}

/// A query, whole and in fragments, and a Hello.
#[test]
fn a_register_of_igmp_or_pim_puts_nothing_on_a_link() {
    let (mut daemon, fake) = begun(TWO, &both());
    let group = Ipv4Addr::new(239, 1, 1, 1);
    let bring = |daemon: &mut Daemon| {
        for (protocol, flags) in [(IGMP, 0), (IGMP, 0x2000), (PIM, 0)] {
            let mut inner = data(FAR, group, flags, 40);
            inner[9] = protocol;
            put_checksum(&mut inner[..20], 10);
            happens(daemon, &fake, register(&inner));
        }
    };
    let left = || fake.sent.borrow().iter().filter(|(_, bytes)| bytes[12..16] == FAR.octets()).count();
    happens(&mut daemon, &fake, report(ETH1, [10, 5, 0, 77], group));
    bring(&mut daemon);
    assert_eq!((left(), daemon.policy.refusals.of(Cause::Guard), daemon.counters.ignored), (0, 3, 3));
    happens(&mut daemon, &fake, register(&data(FAR, group, 0, 40)));
    assert_eq!(left(), 1);
    let unguarded = settings::read(&format!("guard = false\n{TWO}")).expect("they are in order");
    daemon.take_settings(unguarded).expect("it goes on");
    bring(&mut daemon);
    assert_eq!((left(), daemon.policy.refusals.of(Cause::Guard)), (4, 3));
}

#[test]
fn a_program_on_the_router_is_heard() {
    let (mut daemon, fake) = begun(TWO, &both());
    let own = match report(ETH1, [10, 5, 0, 1], [239, 1, 1, 1].into()) {
        (_, kernel::Event::Frame { packet, .. }) => packet,
        other => panic!("{other:?} is no report"),
    };
    happens(&mut daemon, &fake, (Source::OwnReports, kernel::Event::OwnReport(own)));
    let groups = daemon.core.rows_of::<GroupRow>().expect("it tells");
    assert_eq!(groups.iter().map(|row| (row.iface, row.group)).collect::<Vec<_>>(), [(1, Ipv4Addr::new(239, 1, 1, 1))]);
    assert_eq!(daemon.counters.own_reports, 1);
}

#[test]
fn a_passive_interface_neither_hears_nor_sends_pim() {
    let passive = TWO.replace("name = \"eth0\"\n", "name = \"eth0\"\npassive = true\n");
    let (mut daemon, fake) = begun(&passive, &both());
    passes(&mut daemon, &fake, 10_000);
    assert!(daemon.neighbours.known.is_empty());
    let is_pim = |bytes: &[u8]| Packet::read(bytes).map_or(false, Packet::is_pim_of_link);
    let on: BTreeSet<u32> =
        fake.sent.borrow().iter().filter(|(_, bytes)| is_pim(bytes)).map(|(index, _)| *index).collect();
    assert_eq!(on, BTreeSet::from([ETH1]));
}

#[test]
fn a_neighbour_has_an_address_of_its_link() {
    let (mut daemon, fake) = begun(TWO, &both());
    fake.addresses.borrow_mut().push((ETH0, subnet([10, 7, 0, 1])));
    let hello_of = |from: [u8; 4]| {
        let content = summed(&[0x20, 0, 0, 0, 0, 1, 0, 2, 0, 105]);
        frame(ETH0, packet(PIM, from.into(), [224, 0, 0, 13].into(), &content))
    };
    let change = Change::Address { index: ETH0, subnet: subnet([10, 7, 0, 1]) };
    // Of eth1's, and of a subnet that eth0 gets besides the router's own.
    happens(&mut daemon, &fake, hello_of([10, 5, 0, 9]));
    happens(&mut daemon, &fake, hello_of([10, 7, 0, 9]));
    happens(&mut daemon, &fake, (Source::Changes, kernel::Event::Changes(vec![change])));
    happens(&mut daemon, &fake, hello_of([10, 7, 0, 8]));
    let known: Vec<_> = daemon.neighbours.known.keys().map(|(_, address)| address.octets()).collect();
    assert_eq!(known, [[10, 1, 0, 2], [10, 7, 0, 8]]);
    assert_eq!(daemon.policy.refusals.of(crate::policy::Cause::OtherSubnet), 2);
}

/// The holdtimes of the Hellos that left an interface, in seconds.
fn holdtimes(fake: &Fake, index: u32) -> Vec<usize> {
    let is_hello = |bytes: &[u8]| Packet::read(bytes).map_or(false, |packet| is_pim(packet, 0));
    let sent = fake.sent.borrow();
    let hellos = sent.iter().filter(|(on, bytes)| *on == index && is_hello(bytes));
    hellos.map(|(_, bytes)| crate::packet::two(bytes, 28)).collect()
}

/// On a link that comes up, and after that of a new neighbour (RFC 7761, 4.3.1: within five seconds).
#[test]
fn the_first_hellos_leave_soon() {
    for _ in 0..20 {
        let (mut daemon, fake) = begun(TWO, &both());
        passes(&mut daemon, &fake, 200);
        assert_eq!((holdtimes(&fake, ETH0).len(), holdtimes(&fake, ETH1).len()), (1, 1));
        let content = summed(&[0x20, 0, 0, 0, 0, 1, 0, 2, 0, 105]);
        happens(&mut daemon, &fake, frame(ETH1, packet(PIM, [10, 5, 0, 2].into(), [224, 0, 0, 13].into(), &content)));
        passes(&mut daemon, &fake, 200);
        assert_eq!((holdtimes(&fake, ETH0).len(), holdtimes(&fake, ETH1).len()), (1, 2));
    }
}

/// Where FAR is for the router.
fn way_to_far(daemon: &Daemon) -> Option<(Ipv4Addr, u32)> {
    crate::routes::longest(&daemon.routing.told, FAR.into()).map(|(next_hop, iface)| (next_hop.into(), iface))
}

#[test]
fn a_route_moves_once_its_next_hop_is_a_neighbour() {
    let (mut daemon, fake) = begun(TWO, &both());
    let (old, new) = (([10, 1, 0, 2].into(), 0), ([10, 5, 0, 2].into(), 1));
    let changes = || (Source::Changes, kernel::Event::Changes(vec![Change::Routes]));
    assert_eq!(way_to_far(&daemon), Some(old));
    fake.way.set(Some((new.0, ETH1)));
    happens(&mut daemon, &fake, changes());
    passes(&mut daemon, &fake, 10_000);
    assert_eq!(way_to_far(&daemon), Some(old));
    let content = summed(&[0x20, 0, 0, 0, 0, 1, 0, 2, 0, 105]);
    happens(&mut daemon, &fake, frame(ETH1, packet(PIM, new.0, [224, 0, 0, 13].into(), &content)));
    daemon.house_keeping().expect("it goes on");
    assert_eq!(way_to_far(&daemon), Some(new));
    // One that never comes isn't waited for any longer than a Hello takes.
    fake.way.set(Some(([10, 1, 0, 9].into(), ETH0)));
    happens(&mut daemon, &fake, changes());
    passes(&mut daemon, &fake, 34_000);
    assert_eq!(way_to_far(&daemon), Some(new));
    passes(&mut daemon, &fake, 2_000);
    assert_eq!(way_to_far(&daemon), Some(([10, 1, 0, 9].into(), 0)));
}

#[test]
fn a_route_by_a_link_that_goes_down_is_none_in_the_same_turn() {
    let (mut daemon, fake) = begun(TWO, &both());
    fake.is_down.set(true);
    happens(&mut daemon, &fake, (Source::Changes, kernel::Event::Changes(vec![Change::Lost])));
    assert_eq!((daemon.ports[0].standing.is_up(), way_to_far(&daemon)), (false, None));
}

#[test]
fn hellos_leave_as_often_as_the_settings_say_and_hold_as_long() {
    let quick = TWO.replace("name = \"eth0\"\n", "name = \"eth0\"\nhello_interval = 0.5\nhello_holdtime = 3\n");
    let (mut daemon, fake) = begun(&quick, &both());
    passes(&mut daemon, &fake, 10_000);
    fake.sent.borrow_mut().clear();
    passes(&mut daemon, &fake, 60_000);
    assert_eq!(holdtimes(&fake, ETH1), [105, 105]);
    let found = holdtimes(&fake, ETH0);
    assert!((118..=124).contains(&found.len()) && found.iter().all(|holdtime| *holdtime == 3), "{found:?}");
    // Others are taken at once, and no more than the library's own then.
    fake.sent.borrow_mut().clear();
    daemon.take_settings(settings::read(TWO).expect("they are in order")).expect("it goes on");
    passes(&mut daemon, &fake, 31_000);
    let found = holdtimes(&fake, ETH0);
    assert!((2..=3).contains(&found.len()) && found.iter().all(|holdtime| *holdtime == 105), "{found:?}");
    assert_eq!((daemon.counters.made_anew, daemon.counters.reloaded), (0, 0));
}

#[test]
fn what_may_not_be_sent_is_dropped_by_the_kernel() {
    let listed = TWO.replace("name = \"eth1\"\n", "name = \"eth1\"\nsend = [{ sources = \"10.5.0.77/32\" }]\n");
    let (mut daemon, fake) = begun(&listed, &both());
    let stream = key(NEAR, [239, 1, 1, 1]);
    happens(&mut daemon, &fake, report(ETH0, [10, 1, 0, 77], stream.group));
    happens(&mut daemon, &fake, no_cache(1, stream));
    assert_eq!(fake.entry(stream), Some(Forwarded { parent: REGISTER_VIF, outgoing: 0 }));
    assert!(daemon.core.rows(Table::Active).expect("it tells").is_empty());
    let other = key([10, 5, 0, 77].into(), [239, 1, 1, 1]);
    happens(&mut daemon, &fake, no_cache(1, other));
    assert_eq!(fake.entry(other), Some(Forwarded { parent: 1, outgoing: 0b01 }));
    // Once it is permitted its next packet is asked about.
    daemon.take_settings(settings::read(TWO).expect("they are in order")).expect("it goes on");
    assert_eq!(fake.entry(stream), None);
    happens(&mut daemon, &fake, no_cache(1, stream));
    assert_eq!(fake.entry(stream), Some(Forwarded { parent: 1, outgoing: 0b01 }));
}

#[test]
fn the_unknown_are_asked_for_anew_where_their_group_moves() {
    let (mut daemon, fake) = begun(TWO, &both());
    // Its RP is the neighbour's, so a source behind it has no fact here.
    let (one, other) = (key(FAR, [239, 2, 1, 1]), key(FAR, [239, 2, 1, 2]));
    happens(&mut daemon, &fake, no_cache(0, one));
    happens(&mut daemon, &fake, no_cache(0, other));
    let before = daemon.counters.entries_written;
    happens(&mut daemon, &fake, report(ETH1, [10, 5, 0, 77], [239, 2, 9, 9].into()));
    assert_eq!(daemon.counters.entries_written, before);
    happens(&mut daemon, &fake, report(ETH1, [10, 5, 0, 77], one.group));
    assert!(fake.entry(one) != fake.entry(other));
}

mod bootstraps;
mod candidacy;
mod liveness;
mod msdp;
mod newcomers;
mod older;
mod overridden;
mod reloaded;
mod restarted;
mod shared;
mod shown;
