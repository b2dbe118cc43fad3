//! The interfaces of the router, and what the kernel has of them.
use crate::counters::Passing;
use crate::left::LeftPort;
use crate::netlink::{Change, Link};
use crate::settings::{not_a_host, InterfaceSettings, Subnet, LOOPBACK};
use std::collections::HashMap;
use std::net::Ipv4Addr;

/// The library takes so many own addresses that are on no link.
const MOST_APART: usize = 16;

/// What an interface has of addresses.
#[derive(Clone, Copy, Debug, Default, PartialEq, Eq)]
pub struct Own {
    /// None where there is no address that can be taken.
    pub subnet: Option<Subnet>,
    /// It is on no link: the router has the address, and no interface in the library.
    pub is_apart: bool,
}

impl Own {
    fn overlaps(self, other: Own) -> bool {
        match (self.subnet, other.subnet) {
            (Some(mine), Some(theirs)) => alone(mine, self.is_apart).overlaps(alone(theirs, other.is_apart)),
            _ => false,
        }
    }
}

/// Of a subnet on no link there is the address alone.
fn alone(subnet: Subnet, is_apart: bool) -> Subnet {
    Subnet { length: if is_apart { 32 } else { subnet.length }, ..subnet }
}

/// Links and addresses as the kernel has them.
#[derive(Clone, Debug, Default)]
pub struct Machine {
    links: HashMap<u32, Link>,
    addresses: HashMap<u32, Vec<Subnet>>,
}

impl Machine {
    pub fn new(links: Vec<Link>, addresses: Vec<(u32, Subnet)>) -> Machine {
        let mut machine = Machine::default();
        machine.links.extend(links.into_iter().map(|link| (link.index, link)));
        addresses.into_iter().for_each(|(index, subnet)| machine.addresses.entry(index).or_default().push(subnet));
        machine
    }

    /// Takes a change of a link or an address.
    pub fn take(&mut self, change: &Change) {
        match change {
            Change::Link(link) => {
                self.links.insert(link.index, link.clone());
            }
            Change::LinkGone(index) => {
                self.links.remove(index);
                self.addresses.remove(index);
            }
            Change::Address { index, subnet } => {
                let known = self.addresses.entry(*index).or_default();
                if !known.contains(subnet) {
                    known.push(*subnet);
                }
            }
            Change::AddressGone { index, subnet } => {
                self.addresses.entry(*index).or_default().retain(|known| known != subnet)
            }
            Change::Routes | Change::Lost => {}
        }
    }

    pub fn link(&self, name: &str) -> Option<&Link> {
        self.links.values().find(|link| link.name == name)
    }

    /// The most bytes of a packet that a link takes; 0 where there is no such link.
    pub fn mtu(&self, index: u32) -> usize {
        self.links.get(&index).map_or(0, |link| link.mtu as usize)
    }

    pub fn addresses(&self, index: u32) -> &[Subnet] {
        self.addresses.get(&index).map_or(&[], Vec::as_slice)
    }

    pub fn has(&self, index: u32, address: Ipv4Addr) -> bool {
        self.addresses(index).iter().any(|subnet| subnet.address == address)
    }

    /// The first address of an interface on which the router could be.
    pub fn first_address(&self, name: &str) -> Option<Subnet> {
        let is_loopback = |subnet: &Subnet| subnet.address.is_loopback();
        self.addresses(self.link(name)?.index)
            .iter()
            .copied()
            .find(|subnet| not_a_host(*subnet).is_none() && !is_loopback(subnet))
    }
}

/// Whether an interface is up for the router.
#[derive(Clone, Debug, PartialEq, Eq)]
pub enum Standing {
    Up,
    Down(String),
}

impl Standing {
    pub fn is_up(&self) -> bool {
        *self == Standing::Up
    }
}

/// The neighbours of an interface that are to be told.
#[derive(Clone, Copy, Debug, PartialEq, Eq)]
pub enum Newcomers {
    Nobody,
    /// They don't know the router yet, and would ignore what it says.
    Ungreeted,
    /// A Hello has left there since.
    Greeted,
}

impl Newcomers {
    /// A Hello left.
    pub fn greet(&mut self) {
        if *self == Newcomers::Ungreeted {
            *self = Newcomers::Greeted;
        }
    }
}

/// What passed an interface.
#[derive(Clone, Copy, Debug, Default)]
pub struct Passed {
    pub heard: u64,
    pub refused: u64,
    pub sent: u64,
    pub copies: u64,
    pub not_sent: u64,
    pub messages: Passing,
}

/// An interface of the router. Its number stays until one before it is forgotten, which the file hasn't any more.
#[derive(Clone, Debug)]
pub struct Port {
    pub number: u32,
    pub settings: InterfaceSettings,
    /// What the library's router has of it.
    pub own: Own,
    /// The kernel's number, where it has the interface.
    pub index: Option<u32>,
    /// The kernel's virtual interface for multicast; one that is on no link takes none.
    pub vif: Option<u16>,
    /// The file hasn't it any more.
    pub is_removed: bool,
    pub standing: Standing,
    /// When it went up last, in ms.
    pub since: u64,
    /// The last Hello that left.
    pub hello: Option<Vec<u8>>,
    /// When it leaves again, in ms, where the library's own come too seldom.
    pub hello_due: Option<u64>,
    /// Whether neighbours that have just come there are to be told of RPs.
    pub newcomers: Newcomers,
    /// The kernel's number of the interface on which BFD is heard for it.
    pub bfd_index: Option<u32>,
    pub passed: Passed,
}

/// Interface number n has it in the library while it has no address: 0.1.n.0/30, which no link can have.
fn placeholder(number: u32) -> Subnet {
    Subnet { address: (0x0001_0001 | number << 8).into(), length: 30 }
}

impl Port {
    fn new(number: u32, settings: &InterfaceSettings) -> Port {
        Port {
            number,
            settings: settings.clone(),
            own: Own::default(),
            index: None,
            vif: None,
            is_removed: false,
            standing: Standing::Down("it hasn't come up yet".to_string()),
            since: 0,
            hello: None,
            hello_due: None,
            newcomers: Newcomers::Nobody,
            bfd_index: None,
            passed: Passed::default(),
        }
    }

    /// One of the router before this one, as it stood.
    pub fn resumed(number: u32, left: LeftPort) -> Port {
        let subnet = left.subnet.map(|(address, length)| Subnet { address, length });
        let why = || Standing::Down("it was down before".to_string());
        Port {
            own: Own { subnet, is_apart: left.is_apart },
            index: left.index,
            vif: left.vif,
            standing: if left.is_up { Standing::Up } else { why() },
            since: left.since,
            hello: left.hello,
            hello_due: left.hello_due,
            ..Port::new(number, &InterfaceSettings::usual(&left.name))
        }
    }

    /// What another router goes on with.
    pub fn left(&self) -> LeftPort {
        LeftPort {
            name: self.settings.name.clone(),
            subnet: self.own.subnet.map(|subnet| (subnet.address, subnet.length)),
            is_apart: self.own.is_apart,
            index: self.index,
            vif: self.vif,
            is_up: self.standing.is_up(),
            since: self.since,
            hello: self.hello.clone(),
            hello_due: self.hello_due,
        }
    }

    pub fn address(&self) -> Option<Ipv4Addr> {
        self.own.subnet.map(|subnet| subnet.address)
    }

    /// Its address, where it is on no link.
    pub fn apart(&self) -> Option<Ipv4Addr> {
        self.address().filter(|_| self.own.is_apart)
    }

    /// As the router is told: it wants a subnet with room for a neighbour. One that is on no link never goes up there.
    pub fn told(&self) -> viqeshor::Interface {
        let subnet = self.told_subnet();
        viqeshor::Interface {
            address: subnet.address,
            length: u32::from(subnet.length),
            priority: self.settings.priority,
            propagation_delay: self.settings.propagation,
            override_interval: self.settings.override_interval,
        }
    }

    pub fn told_subnet(&self) -> Subnet {
        let subnet = self.own.subnet.filter(|_| !self.own.is_apart).unwrap_or_else(|| placeholder(self.number));
        Subnet { length: subnet.length.min(31), ..subnet }
    }

    /// The addresses that are the router's, or its neighbours', by this interface.
    pub fn covered(&self) -> Subnet {
        let subnet = self.own.subnet.filter(|_| self.own.is_apart);
        subnet.map_or_else(|| self.told_subnet(), |subnet| alone(subnet, true))
    }

    /// The address that it is to have: the file's, else the one that it has, else the first one of the kernel.
    fn wanted(&self, machine: &Machine) -> Own {
        if self.is_removed {
            return Own::default();
        }
        let link = machine.link(&self.settings.name);
        let has = |subnet: &Subnet| link.map_or(false, |link| machine.addresses(link.index).contains(subnet));
        let (had, kept) = (self.own.subnet, self.own.subnet.filter(has));
        let subnet = self.settings.address.or(kept).or_else(|| machine.first_address(&self.settings.name)).or(had);
        let is_dummy = link.map_or(self.own.is_apart, |link| link.is_dummy);
        let is_alone = subnet.map_or(false, |subnet| subnet.length == 32);
        Own { subnet, is_apart: self.settings.name == LOOPBACK || (is_dummy && is_alone) }
    }

    /// What the kernel has of it now.
    pub fn standing_in(&self, machine: &Machine) -> (Option<u32>, Standing) {
        let link = machine.link(&self.settings.name).filter(|_| !self.is_removed);
        let why = match (link, self.own.subnet) {
            _ if self.is_removed => "the file hasn't it any more".to_string(),
            (None, _) => "there is no such interface".to_string(),
            (Some(link), _) if !link.is_running && !link.is_loopback => "the link is down".to_string(),
            (Some(link), Some(subnet)) if machine.addresses(link.index).contains(&subnet) => {
                return (Some(link.index), Standing::Up);
            }
            (Some(link), subnet) => lacking(subnet.or(self.settings.address), machine.addresses(link.index)),
        };
        (link.map(|link| link.index), Standing::Down(why))
    }
}

/// What an interface lacks whose address the kernel hasn't.
fn lacking(wanted: Option<Subnet>, has: &[Subnet]) -> String {
    let others: Vec<_> = has.iter().map(Subnet::to_string).collect();
    let others = if others.is_empty() { "none".to_string() } else { others.join(", ") };
    match wanted {
        Some(subnet) => format!("it hasn't the address {subnet} (it has {others})"),
        None => format!("it has no IPv4 address that can be taken (it has {others})"),
    }
}

/// Puts the interfaces of the settings into the list of those that there are: each keeps its number.
pub fn take_settings(ports: &mut Vec<Port>, settings: &[InterfaceSettings]) {
    for port in ports.iter_mut() {
        let found = settings.iter().find(|interface| interface.name == port.settings.name);
        port.is_removed = found.is_none();
        if let Some(interface) = found {
            port.settings = interface.clone();
        }
    }
    for interface in settings {
        if !ports.iter().any(|port| port.settings.name == interface.name) {
            ports.push(Port::new(ports.len() as u32, interface));
        }
    }
}

/// Of each interface, by its number, the number that it has without those that the file hasn't any more.
#[derive(Debug, PartialEq, Eq)]
pub struct Places(Vec<Option<u32>>);

impl Places {
    pub fn of(ports: &[Port]) -> Places {
        let mut numbers = 0..;
        Places(ports.iter().map(|port| if port.is_removed { None } else { numbers.next() }).collect())
    }

    /// Each keeps its number, or none would be left, and a router has one.
    pub fn is_same(&self) -> bool {
        self.0.iter().all(Option::is_some) || self.0.iter().all(Option::is_none)
    }

    pub fn get(&self, number: u32) -> Option<u32> {
        self.0.get(number as usize).copied().flatten()
    }

    pub fn as_slice(&self) -> &[Option<u32>] {
        &self.0
    }

    /// Those that stay, with their numbers then.
    pub fn ports(&self, ports: &[Port]) -> Vec<Port> {
        ports.iter().filter_map(|port| Some(Port { number: self.get(port.number)?, ..port.clone() })).collect()
    }

    /// A route by the numbers then; none where its interface goes.
    pub fn route(&self, route: &viqeshor::Route) -> Option<viqeshor::Route> {
        Some(viqeshor::Route { iface: self.get(route.iface)?, ..*route })
    }
}

/// The address that each interface is to have in the router, and what is to be said of those that can't be taken: links
/// come before what is on none.
pub fn addresses(ports: &[Port], machine: &Machine) -> (Vec<Own>, Vec<String>) {
    let wanted: Vec<_> = ports.iter().map(|port| port.wanted(machine)).collect();
    let (mut found, mut said) = (vec![Own::default(); ports.len()], Vec::new());
    let (apart, linked): (Vec<_>, Vec<_>) = (0..ports.len()).partition(|number| wanted[*number].is_apart);
    for number in linked.into_iter().chain(apart) {
        let (own, name) = (wanted[number], &ports[number].settings.name);
        let held = found.iter().filter(|it| it.is_apart && it.subnet.is_some()).count();
        let why = match found.iter().position(|other| own.overlaps(*other)) {
            Some(at) => Some(format!("the subnets of {} and {name} overlap", ports[at].settings.name)),
            None if own.is_apart && held == MOST_APART => Some(format!("{MOST_APART} other addresses are on no link")),
            None => None,
        };
        said.extend(why.iter().map(|why| format!("{why}: {name} has no address that can be taken")));
        found[number] = Own { subnet: own.subnet.filter(|_| why.is_none()), ..own };
    }
    (found, said)
}

/// The own addresses that are on no link.
pub fn apart(ports: &[Port]) -> Vec<Ipv4Addr> {
    ports.iter().filter_map(Port::apart).collect()
}

#[cfg(test)]
mod tests {
    use super::*;
    use crate::settings;

    fn link(index: u32, name: &str, is_running: bool) -> Link {
        let (is_loopback, is_dummy) = (name == "lo", name.starts_with("dummy"));
        Link { index, name: name.to_string(), mtu: 1500, is_running, is_loopback, is_dummy, vrf_table: None }
    }

    fn on_link(text: &str) -> Own {
        Own { subnet: Some(subnet(text)), is_apart: false }
    }

    fn apart_at(text: &str) -> Own {
        Own { is_apart: true, ..on_link(text) }
    }

    fn subnet(text: &str) -> Subnet {
        let (address, length) = text.split_once('/').unwrap();
        Subnet { address: address.parse().unwrap(), length: length.parse().unwrap() }
    }

    fn machine() -> Machine {
        let links = vec![link(1, "lo", true), link(2, "eth0", true), link(3, "eth1", true)];
        let addresses = [(1, "127.0.0.1/8"), (1, "10.255.0.1/32"), (2, "10.0.0.1/24"), (2, "10.0.9.1/24")];
        Machine::new(links, addresses.map(|(index, text)| (index, subnet(text))).to_vec())
    }

    fn settings_of(names: &[&str]) -> Vec<InterfaceSettings> {
        let text: String = names.iter().map(|name| format!("[[interface]]\nname = \"{name}\"\n")).collect();
        settings::read(&text).unwrap().interfaces
    }

    fn ports_of(names: &[&str]) -> Vec<Port> {
        let mut ports = Vec::new();
        take_settings(&mut ports, &settings_of(names));
        ports
    }

    fn ports(names: &[&str]) -> Vec<Port> {
        let mut ports = ports_of(names);
        let (found, _) = addresses(&ports, &machine());
        ports.iter_mut().zip(found).for_each(|(port, own)| port.own = own);
        ports
    }

    #[test]
    fn each_has_the_first_address_or_a_number_alone() {
        let found: Vec<_> = ports(&["eth0", "eth1", "lo", "eth7"])
            .iter()
            .map(|port| (port.number, port.own.subnet.map(|it| it.to_string()), port.told_subnet().to_string()))
            .collect();
        let some = |text: &str| Some(text.to_string());
        let wanted = [
            (0, some("10.0.0.1/24"), "10.0.0.1/24"),
            (1, None, "0.1.1.1/30"),
            (2, some("10.255.0.1/32"), "0.1.2.1/30"),
            (3, None, "0.1.3.1/30"),
        ];
        assert_eq!(found, wanted.map(|(number, subnet, told)| (number, subnet, told.to_string())));
    }

    #[test]
    fn a_port_follows_its_link() {
        let (mut machine, port) = (machine(), ports(&["eth0"]).remove(0));
        let down = |why: &str| Standing::Down(why.to_string());
        assert_eq!(port.standing_in(&machine), (Some(2), Standing::Up));
        machine.take(&Change::Link(link(2, "eth0", false)));
        assert_eq!(port.standing_in(&machine), (Some(2), down("the link is down")));
        machine.take(&Change::LinkGone(2));
        assert_eq!(port.standing_in(&machine), (None, down("there is no such interface")));
        assert_eq!(addresses(std::slice::from_ref(&port), &machine).0, [port.own]);
        machine.take(&Change::Link(link(9, "eth0", true)));
        machine.take(&Change::Address { index: 9, subnet: subnet("10.0.0.1/24") });
        assert_eq!(port.standing_in(&machine), (Some(9), Standing::Up));
    }

    #[test]
    fn another_address_is_taken_where_the_file_has_none() {
        let (mut machine, mut port) = (machine(), ports(&["eth0"]).remove(0));
        machine.take(&Change::AddressGone { index: 2, subnet: subnet("10.0.0.1/24") });
        let why = "it hasn't the address 10.0.0.1/24 (it has 10.0.9.1/24)";
        assert_eq!(port.standing_in(&machine), (Some(2), Standing::Down(why.to_string())));
        assert_eq!(addresses(std::slice::from_ref(&port), &machine).0, [on_link("10.0.9.1/24")]);
        port.settings.address = port.own.subnet;
        assert_eq!(addresses(std::slice::from_ref(&port), &machine).0, [port.own]);
    }

    #[test]
    fn an_address_that_comes_late_is_taken() {
        let (mut machine, port) = (machine(), ports(&["eth1"]).remove(0));
        let why = "it has no IPv4 address that can be taken (it has none)";
        assert_eq!(port.standing_in(&machine), (Some(3), Standing::Down(why.to_string())));
        machine.take(&Change::Address { index: 3, subnet: subnet("10.3.0.1/24") });
        assert_eq!(addresses(&[port], &machine).0, [on_link("10.3.0.1/24")]);
    }

    #[test]
    fn an_overlap_costs_the_later_one() {
        let mut machine = machine();
        machine.take(&Change::Address { index: 3, subnet: subnet("10.0.0.9/25") });
        let (found, said) = addresses(&ports(&["eth0", "eth1"]), &machine);
        assert_eq!(found, [on_link("10.0.0.1/24"), Own::default()]);
        assert_eq!(said, ["the subnets of eth0 and eth1 overlap: eth1 has no address that can be taken"]);
    }

    #[test]
    fn what_is_on_no_link_is_an_address_alone() {
        let mut machine = machine();
        machine.take(&Change::Link(link(4, "dummy0", true)));
        machine.take(&Change::Address { index: 4, subnet: subnet("10.255.0.0/32") });
        machine.take(&Change::Address { index: 3, subnet: subnet("10.3.0.1/32") });
        let names = ["lo", "dummy0", "eth0", "eth1"];
        let (found, said) = addresses(&ports(&names), &machine);
        let apart = [apart_at("10.255.0.1/32"), apart_at("10.255.0.0/32")];
        // Neighbours of an unnumbered link are elsewhere.
        assert_eq!(found, [apart[0], apart[1], on_link("10.0.0.1/24"), on_link("10.3.0.1/32")]);
        assert!(said.is_empty());
        // One of lo is on no link whatever its length, and gives way to a link.
        machine.take(&Change::AddressGone { index: 1, subnet: subnet("10.255.0.1/32") });
        machine.take(&Change::Address { index: 1, subnet: subnet("10.0.0.77/16") });
        let (found, said) = addresses(&ports_of(&names), &machine);
        assert_eq!(found[..3], [Own { subnet: None, is_apart: true }, apart[1], on_link("10.0.0.1/24")]);
        assert_eq!(said, ["the subnets of eth0 and lo overlap: lo has no address that can be taken"]);
        // A dummy with a subnet has a link.
        machine.take(&Change::AddressGone { index: 4, subnet: subnet("10.255.0.0/32") });
        machine.take(&Change::Address { index: 4, subnet: subnet("10.255.0.1/30") });
        assert_eq!(addresses(&ports_of(&names), &machine).0[1], on_link("10.255.0.1/30"));
    }

    #[test]
    fn the_library_has_room_for_some_of_them() {
        let names: Vec<_> = (0..18).map(|number| format!("dummy{number}")).collect();
        let names: Vec<_> = names.iter().map(String::as_str).collect();
        let mut machine = machine();
        for (index, name) in (10..).zip(&names) {
            machine.take(&Change::Link(link(index, name, true)));
            machine.take(&Change::Address { index, subnet: subnet(&format!("10.8.0.{index}/32")) });
        }
        let mut ports = ports_of(&names);
        let (found, said) = addresses(&ports, &machine);
        ports.iter_mut().zip(found).for_each(|(port, own)| port.own = own);
        assert_eq!((apart(&ports).len(), said.len()), (MOST_APART, 2));
        assert_eq!(said[1], "16 other addresses are on no link: dummy17 has no address that can be taken");
    }

    #[test]
    fn those_that_stay_get_the_numbers_without_gaps() {
        let mut ports = ports(&["eth0", "eth1", "lo"]);
        assert!(Places::of(&ports).is_same());
        take_settings(&mut ports, &settings_of(&["lo", "eth1", "eth7"]));
        let places = Places::of(&ports);
        assert_eq!((places.as_slice(), places.is_same()), (&[None, Some(0), Some(1), Some(2)][..], false));
        let stay: Vec<_> =
            places.ports(&ports).into_iter().map(|port| (port.number, port.settings.name, port.own)).collect();
        let own: Vec<_> = ports.iter().map(|port| port.own).collect();
        let name = |text: &str| text.to_string();
        assert_eq!(stay, [(0, name("eth1"), own[1]), (1, name("lo"), own[2]), (2, name("eth7"), own[3])]);
        let to = |iface: u32| viqeshor::Route::new([10, 9, 0, 0].into(), 16, [10, 1, 0, 2].into(), iface);
        assert_eq!([0, 1, 3, 9].map(|iface| places.route(&to(iface))), [None, Some(to(0)), Some(to(2)), None]);
        take_settings(&mut ports, &[]);
        assert!(Places::of(&ports).is_same());
    }

    #[test]
    fn numbers_stay_when_the_file_changes() {
        let mut ports = ports(&["eth0", "eth1"]);
        take_settings(&mut ports, &settings_of(&["eth7", "eth1"]));
        let found: Vec<_> =
            ports.iter().map(|port| (port.number, port.settings.name.as_str(), port.is_removed)).collect();
        assert_eq!(found, [(0, "eth0", true), (1, "eth1", false), (2, "eth7", false)]);
    }
}
