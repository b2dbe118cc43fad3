//! Of the kernel's unicast routes those that the router is told.
//!
//! The router knows routes by a next hop on an interface of its own, and the subnets of its interfaces. Whatever else
//! the kernel has for a prefix (a blackhole, an interface that isn't the router's, another subnet on a link, a next
//! hop in IPv6) is a hole: there a shorter route has to end, so it is told as the prefixes around the hole. A route
//! whose links are all down is none: another one of its prefix counts, with a higher metric, or a shorter one.
use crate::settings::{mask, RouteSettings, Subnet};
use std::collections::{HashMap, HashSet};
use viqeshor::Route;

pub const MOST_ROUTES: usize = 100_000;

/// What the kernel does of packets to a prefix.
#[derive(Clone, Copy, Debug, PartialEq, Eq)]
pub enum Kind {
    Unicast,
    /// Blackhole, unreachable, prohibit, throw.
    Refusing,
}

#[derive(Clone, Copy, Debug, PartialEq, Eq)]
pub struct Hop {
    /// None on a link of the machine itself, or where it is an IPv6 address.
    pub gateway: Option<u32>,
    /// The kernel's number of the interface.
    pub index: u32,
    pub is_dead: bool,
}

#[derive(Clone, Debug, PartialEq, Eq)]
pub struct KernelRoute {
    pub prefix: u32,
    pub length: u8,
    pub kind: Kind,
    pub metric: u32,
    pub protocol: u8,
    pub hops: Vec<Hop>,
}

/// How many prefixes were taken how.
#[derive(Clone, Copy, Debug, Default, PartialEq, Eq)]
pub struct Counts {
    pub by_next_hop: usize,
    /// Of these, with several next hops of which one was taken.
    pub multipath: usize,
    /// Of a prefix that has one with a lower metric.
    pub higher_metric: usize,
    /// Whose links are all down.
    pub dead: usize,
    /// Subnets of the router's interfaces.
    pub own_subnets: usize,
    pub refusing: usize,
    /// By interfaces that aren't the router's, by another subnet, by IPv6.
    pub elsewhere: usize,
}

/// What the router's machine knows of its interfaces.
#[derive(Clone, Debug, Default)]
pub struct Ours {
    /// From the kernel's number of an interface that is up to the router's.
    pub numbers: HashMap<u32, u32>,
    /// The kernel's numbers of those that are down.
    pub down: HashSet<u32>,
    pub subnets: Vec<Subnet>,
}

impl Ours {
    /// Whether nothing leaves by a route, whatever the kernel's flags say of the router's own interfaces.
    fn is_dead(&self, route: &KernelRoute) -> bool {
        let is_dead = |hop: &Hop| hop.is_dead || self.down.contains(&hop.index);
        route.kind == Kind::Unicast && !route.hops.is_empty() && route.hops.iter().all(is_dead)
    }
}

#[derive(Clone, Copy, Debug)]
struct Entry {
    prefix: u32,
    length: u8,
    /// A hole where there is none.
    route: Option<Route>,
}

impl Entry {
    fn is_hole(&self) -> bool {
        self.route.is_none()
    }
}

/// The routes that are told, ascending by prefix and length.
pub fn taken(kernel: &[KernelRoute], ours: &Ours, settings: &RouteSettings) -> (Vec<Route>, Counts) {
    let mut counts = Counts::default();
    let mut sorted: Vec<_> = kernel.iter().collect();
    sorted.sort_by_key(|route| (route.prefix, route.length, route.metric));
    let mut entries = Vec::new();
    let mut before = None;
    for route in sorted {
        if before == Some((route.prefix, route.length)) {
            counts.higher_metric += 1;
            continue;
        }
        if ours.is_dead(route) {
            counts.dead += 1;
            continue;
        }
        before = Some((route.prefix, route.length));
        entries.extend(entry(route, ours, settings, &mut counts));
    }
    let mut routes = Vec::new();
    around(0, 0, None, &entries, &mut routes);
    (routes, counts)
}

/// `None` for a subnet of the router's own.
fn entry(route: &KernelRoute, ours: &Ours, settings: &RouteSettings, counts: &mut Counts) -> Option<Entry> {
    let hole = Entry { prefix: route.prefix, length: route.length, route: None };
    let is_own_subnet =
        ours.subnets.iter().any(|subnet| (subnet.prefix(), subnet.length) == (route.prefix, route.length));
    let is_on_link = |hop: &Hop| hop.gateway.is_none() && ours.numbers.contains_key(&hop.index);
    if is_own_subnet && route.kind == Kind::Unicast && route.hops.iter().all(is_on_link) {
        counts.own_subnets += 1;
        return None;
    }
    if route.kind == Kind::Refusing {
        counts.refusing += 1;
        return Some(hole);
    }
    let is_own = |address: u32| ours.subnets.iter().any(|subnet| u32::from(subnet.address) == address);
    let usable = |hop: &Hop| {
        let gateway = hop.gateway.filter(|gateway| !hop.is_dead && !is_own(*gateway))?;
        Some((gateway, *ours.numbers.get(&hop.index)?))
    };
    // Of several the highest next hop, as of neighbours on a link.
    match route.hops.iter().filter_map(usable).max() {
        None => {
            counts.elsewhere += 1;
            Some(hole)
        }
        Some((next_hop, iface)) => {
            counts.by_next_hop += 1;
            counts.multipath += usize::from(route.hops.len() > 1);
            let preference = settings.preference_of(route.protocol);
            let told = Route {
                prefix: route.prefix.into(),
                length: route.length.into(),
                next_hop: next_hop.into(),
                iface,
                preference,
                metric: route.metric,
            };
            Some(Entry { route: Some(told), ..hole })
        }
    }
}

/// Tells what lies within a prefix: the entries there, ascending, and the route that covers it, around the holes.
fn around(prefix: u32, length: u8, covering: Option<Route>, entries: &[Entry], told: &mut Vec<Route>) {
    let (covering, inner) = match entries.split_first() {
        Some((first, rest)) if (first.prefix, first.length) == (prefix, length) => (first.route, rest),
        _ => (covering, entries),
    };
    let here = covering.map(|route| Route { prefix: prefix.into(), length: length.into(), ..route });
    if here.is_none() || !inner.iter().any(Entry::is_hole) {
        told.extend(here);
        match here {
            Some(_) => told.extend(inner.iter().filter_map(|entry| entry.route)),
            None => each_alone(inner, told),
        }
        return;
    }
    let half = prefix | 1 << (31 - length);
    let middle = inner.partition_point(|entry| entry.prefix < half);
    around(prefix, length + 1, covering, &inner[..middle], told);
    around(half, length + 1, covering, &inner[middle..], told);
}

/// The entries of a prefix that no route covers: each of the outermost with what lies in it.
fn each_alone(entries: &[Entry], told: &mut Vec<Route>) {
    let mut rest = entries;
    while let Some(first) = rest.first() {
        let bits = mask(first.length);
        let inside = rest.partition_point(|entry| entry.prefix & bits == first.prefix);
        around(first.prefix, first.length, None, &rest[..inside], told);
        rest = &rest[inside..];
    }
}

/// The longest match among told routes.
pub fn longest_route(routes: &[Route], address: u32) -> Option<&Route> {
    let fits = |route: &&Route| address & mask(route.length as u8) == u32::from(route.prefix);
    routes.iter().filter(fits).max_by_key(|route| route.length)
}

/// The same, as (next hop, interface).
pub fn longest(routes: &[Route], address: u32) -> Option<(u32, u32)> {
    longest_route(routes, address).map(|route| (u32::from(route.next_hop), route.iface))
}

#[cfg(test)]
mod tests {
    use super::*;
    use std::collections::BTreeMap;
    use std::net::Ipv4Addr;

    fn number(text: &str) -> u32 {
        text.parse::<Ipv4Addr>().unwrap().into()
    }

    fn ours() -> Ours {
        let subnet = |address: &str| Subnet { address: address.parse().unwrap(), length: 24 };
        Ours {
            numbers: [(11, 0), (12, 1)].into_iter().collect(),
            down: [13].into_iter().collect(),
            subnets: vec![subnet("10.0.0.1"), subnet("10.0.1.1")],
        }
    }

    fn settings() -> RouteSettings {
        RouteSettings { table: None, preference: 110, of_protocol: BTreeMap::from([(4, 1)]) }
    }

    fn kernel(prefix: &str, hops: &[(&str, u32)]) -> KernelRoute {
        let (prefix, length) = prefix.split_once('/').unwrap();
        let hop = |(gateway, index): &(&str, u32)| Hop {
            gateway: gateway.parse::<Ipv4Addr>().ok().map(u32::from),
            index: *index,
            is_dead: false,
        };
        let hops = hops.iter().map(hop).collect();
        KernelRoute {
            prefix: number(prefix),
            length: length.parse().unwrap(),
            kind: Kind::Unicast,
            metric: 20,
            protocol: 188,
            hops,
        }
    }

    fn hole(prefix: &str) -> KernelRoute {
        KernelRoute { kind: Kind::Refusing, ..kernel(prefix, &[]) }
    }

    fn told(routes: &[KernelRoute]) -> Vec<String> {
        let words = |route: Route| format!("{}/{} {} {}", route.prefix, route.length, route.next_hop, route.iface);
        taken(routes, &ours(), &settings()).0.into_iter().map(words).collect()
    }

    #[test]
    fn a_route_is_told_with_its_values() {
        let mut fixed = kernel("10.9.0.0/16", &[("10.0.1.2", 12)]);
        fixed.protocol = 4;
        let (routes, counts) = taken(&[fixed], &ours(), &settings());
        let wanted = Route {
            prefix: number("10.9.0.0").into(),
            length: 16,
            next_hop: number("10.0.1.2").into(),
            iface: 1,
            preference: 1,
            metric: 20,
        };
        assert_eq!((routes, counts), (vec![wanted], Counts { by_next_hop: 1, ..Counts::default() }));
    }

    #[test]
    fn own_subnets_are_left_out() {
        assert!(told(&[kernel("10.0.0.0/24", &[("", 11)])]).is_empty());
        let around = told(&[kernel("10.0.0.0/8", &[("10.0.0.2", 11)]), kernel("10.0.0.0/24", &[("", 11)])]);
        assert_eq!(around, ["10.0.0.0/8 10.0.0.2 0"]);
    }

    #[test]
    fn while_its_link_is_down_a_subnet_can_have_a_route() {
        assert_eq!(told(&[kernel("10.0.0.0/24", &[("10.0.1.2", 12)])]), ["10.0.0.0/24 10.0.1.2 1"]);
    }

    #[test]
    fn the_lowest_metric_is_taken() {
        let worse = KernelRoute { metric: 30, ..kernel("10.9.0.0/16", &[("10.0.0.9", 11)]) };
        let (routes, counts) = taken(&[worse, kernel("10.9.0.0/16", &[("10.0.0.2", 11)])], &ours(), &settings());
        assert_eq!((u32::from(routes[0].next_hop), routes.len(), counts.higher_metric), (number("10.0.0.2"), 1, 1));
    }

    /// Neither another one of its prefix nor a shorter one is hidden by it, be it the kernel that says so or the router.
    #[test]
    fn a_dead_route_hides_no_living_one() {
        let mut dead = kernel("10.9.0.0/16", &[("10.0.1.2", 12)]);
        dead.hops[0].is_dead = true;
        let other = || KernelRoute { metric: 30, ..kernel("10.9.0.0/16", &[("10.0.0.9", 11)]) };
        let by_one_that_is_down = kernel("10.9.0.0/16", &[("10.0.2.2", 13)]);
        for dead in [dead, by_one_that_is_down] {
            assert_eq!(told(&[dead.clone(), other()]), ["10.9.0.0/16 10.0.0.9 0"]);
            let shorter = kernel("10.8.0.0/15", &[("10.0.0.2", 11)]);
            assert_eq!(told(&[shorter, dead.clone()]), ["10.8.0.0/15 10.0.0.2 0"]);
            assert!(told(&[dead]).is_empty());
        }
        // One that leads elsewhere lives: the kernel sends there.
        assert!(told(&[kernel("10.9.0.0/16", &[("10.8.0.1", 99)]), other()]).is_empty());
    }

    #[test]
    fn of_several_the_highest_living_hop_of_ours() {
        let mut several =
            kernel("10.9.0.0/16", &[("10.0.0.2", 11), ("10.0.0.7", 11), ("10.0.1.9", 12), ("10.8.0.1", 99)]);
        several.hops[2].is_dead = true;
        assert_eq!(told(&[several]), ["10.9.0.0/16 10.0.0.7 0"]);
    }

    #[test]
    fn a_hole_is_left_out_of_what_covers_it() {
        let routes = [kernel("10.8.0.0/14", &[("10.0.0.2", 11)]), hole("10.9.0.0/16")];
        assert_eq!(told(&routes), ["10.8.0.0/16 10.0.0.2 0", "10.10.0.0/15 10.0.0.2 0"]);
        let elsewhere = [kernel("0.0.0.0/0", &[("10.0.0.2", 11)]), kernel("128.0.0.0/1", &[("192.0.2.1", 99)])];
        assert_eq!(told(&elsewhere), ["0.0.0.0/1 10.0.0.2 0"]);
    }

    #[test]
    fn a_route_within_a_hole_stands() {
        let routes = [
            kernel("10.8.0.0/15", &[("10.0.0.2", 11)]),
            hole("10.8.0.0/16"),
            kernel("10.8.1.0/24", &[("10.0.1.2", 12)]),
        ];
        assert_eq!(told(&routes), ["10.8.1.0/24 10.0.1.2 1", "10.9.0.0/16 10.0.0.2 0"]);
    }

    #[test]
    fn a_hole_within_a_route_that_nothing_covers() {
        let routes = [
            kernel("10.8.0.0/16", &[("10.0.0.2", 11)]),
            hole("10.8.0.0/17"),
            kernel("172.16.0.0/12", &[("10.0.0.3", 11)]),
        ];
        assert_eq!(told(&routes), ["10.8.128.0/17 10.0.0.2 0", "172.16.0.0/12 10.0.0.3 0"]);
    }

    /// Each address has the route that the kernel has, or none where that is a hole.
    #[test]
    fn every_address_goes_as_the_kernel_says() {
        let mut seed = 7u64;
        let mut draw = move |below: u64| {
            seed = seed.wrapping_mul(6_364_136_223_846_793_005).wrapping_add(1_442_695_040_888_963_407);
            (seed >> 33) % below
        };
        for _ in 0..200 {
            let mut routes = HashMap::new();
            for _ in 0..draw(12) {
                let length = draw(9) as u8;
                let prefix = (draw(256) as u32) << 24 & mask(length);
                let hop = Hop {
                    gateway: Some(number("10.0.0.2") + draw(50) as u32),
                    index: if draw(4) == 0 { 99 } else { 11 },
                    is_dead: false,
                };
                let kind = if draw(3) == 0 { Kind::Refusing } else { Kind::Unicast };
                routes.insert(
                    (prefix, length),
                    KernelRoute { prefix, length, kind, metric: 1, protocol: 4, hops: vec![hop] },
                );
            }
            let all: Vec<_> = routes.values().cloned().collect();
            let told = taken(&all, &Ours { subnets: Vec::new(), ..ours() }, &settings()).0;
            for top in 0..256u32 {
                let best = all
                    .iter()
                    .filter(|route| (top << 24) & mask(route.length) == route.prefix)
                    .max_by_key(|route| route.length);
                let wanted = best
                    .filter(|route| route.kind == Kind::Unicast && route.hops[0].index == 11)
                    .map(|route| (route.hops[0].gateway.unwrap(), 0));
                assert_eq!(longest(&told, top << 24), wanted);
            }
        }
    }
}
