//! A configuration read line by line.
use super::configuration::{BfdTimes, Configuration, HelloTimes, Interface, Join, MsdpPeer, Place, Route, Said};
use super::lists::{subnet, Entry};
use super::{candidates, reasons, Left};
use crate::settings::Subnet;
use std::net::Ipv4Addr;

/// The routing protocols that find routes for IPv4.
const PROTOCOLS: [&str; 7] = ["ospf", "isis", "bgp", "rip", "eigrp", "babel", "openfabric"];

/// Which groups an RP has.
#[derive(Debug)]
pub enum Groups {
    Prefix(Subnet),
    List(String),
}

/// What lines belong to.
#[derive(Clone, Copy, Debug, PartialEq, Eq)]
enum Kind {
    /// The whole router, or `vrf NAME`.
    Whole,
    /// `router pim`, whose lines leave out what those of the whole begin with.
    Pim,
    Interface(usize),
    /// Another protocol.
    Elsewhere,
}

/// What lines belong to, and in which VRF it is.
#[derive(Clone, Debug)]
struct Block {
    kind: Kind,
    vrf: Option<String>,
}

impl Block {
    fn new(kind: Kind, vrf: Option<&str>) -> Block {
        Block { kind, vrf: vrf.map(str::to_string) }
    }
}

/// What was read so far. RPs and SSM wait until each list is known.
pub struct Reader {
    pub found: Configuration,
    pub rps: Vec<(Place, Ipv4Addr, Groups)>,
    pub ssm: Option<Said<String>>,
    block: Block,
}

impl Reader {
    pub fn new(vrf: Option<&str>) -> Reader {
        let found = Configuration { vrf: vrf.map(str::to_string), ..Configuration::default() };
        Reader { found, rps: Vec::new(), ssm: None, block: Block::new(Kind::Whole, None) }
    }

    pub fn read(&mut self, configuration: &str) {
        for (at, raw) in configuration.lines().enumerate() {
            let words: Vec<_> = raw.split_whitespace().collect();
            if words.first().map_or(true, |first| first.starts_with(['!', '#'])) {
                continue;
            }
            if !raw.starts_with(char::is_whitespace) {
                self.block = Block::new(Kind::Whole, None);
            }
            if !matches!(words[..], ["exit" | "end" | "exit-vrf" | "exit-address-family"]) {
                self.line(&Place { line: at + 1, text: words.join(" ") }, &words);
            }
        }
    }

    fn line(&mut self, place: &Place, words: &[&str]) {
        if let Some(block) = self.begins(place, words) {
            self.block = block;
            return;
        }
        let words = match self.block.kind {
            Kind::Elsewhere => return,
            Kind::Pim => with_prefix(words),
            _ => words.to_vec(),
        };
        match (self.block.kind, &words[..]) {
            (_, ["ip", "prefix-list", ..]) => self.of_all(place, &words),
            _ if self.block.vrf != self.found.vrf => self.of_other_vrf(place, &words.join(" ")),
            (Kind::Interface(at), _) => self.of_interface(at, place, &words),
            _ => self.of_all(place, &words),
        }
    }

    /// What a line begins.
    fn begins(&mut self, place: &Place, words: &[&str]) -> Option<Block> {
        match words {
            ["interface", name, rest @ ..] => Some(self.interface(place, name, vrf_in(rest))),
            ["vrf", name] => Some(Block::new(Kind::Whole, Some(name))),
            ["router", "pim", rest @ ..] => Some(Block::new(Kind::Pim, vrf_in(rest))),
            ["router", name, rest @ ..] => {
                self.protocol(place, name, vrf_in(rest));
                Some(Block::new(Kind::Elsewhere, None))
            }
            ["route-map" | "key", ..] => {
                self.left_over(place, &place.text);
                Some(Block::new(Kind::Elsewhere, None))
            }
            ["line" | "bfd", ..] => Some(Block::new(Kind::Elsewhere, None)),
            _ => None,
        }
    }

    fn interface(&mut self, place: &Place, name: &str, vrf: Option<&str>) -> Block {
        if vrf != self.found.vrf.as_deref() {
            return Block::new(Kind::Whole, vrf);
        }
        let all = &mut self.found.interfaces;
        let at = all.iter().position(|it| it.name == name).unwrap_or(all.len());
        if at == all.len() {
            all.push(Interface { name: name.to_string(), place: place.clone(), ..Interface::default() });
        }
        Block::new(Kind::Interface(at), vrf)
    }

    fn protocol(&mut self, place: &Place, name: &str, vrf: Option<&str>) {
        if !PROTOCOLS.contains(&name) {
            self.left_over(place, &place.text);
        } else if vrf == self.found.vrf.as_deref() {
            self.found.protocols.push(Said { place: place.clone(), value: name.to_string() });
        }
    }

    // ---- lines that aren't read

    /// A line that can't be taken as it stands, unless it says nothing.
    fn left_over(&mut self, place: &Place, text: &str) {
        if reasons::says_nothing(text) {
            return;
        }
        let (reason, advice) = reasons::why(text);
        self.leave(text, Left::new(place, reason, advice));
    }

    fn of_other_vrf(&mut self, place: &Place, text: &str) {
        if reasons::says_nothing(text) {
            return;
        }
        let name = |vrf: &Option<String>| vrf.clone().unwrap_or_else(|| "default".to_string());
        let reason = format!("it is of the VRF {}, not of {}", name(&self.block.vrf), name(&self.found.vrf));
        let advice = match &self.block.vrf {
            Some(name) => format!("import --vrf {name} reads it"),
            None => "import without --vrf reads it".to_string(),
        };
        self.leave(text, Left::new(place, &reason, Some(&advice)));
    }

    fn leave(&mut self, text: &str, left: Left) {
        match reasons::is_multicast(text) {
            true => self.found.left.push(left),
            false => self.found.others.push(left),
        }
    }

    // ---- lines of all interfaces

    fn of_all(&mut self, place: &Place, words: &[&str]) {
        let named = |name: &str| Some(Said { place: place.clone(), value: name.to_string() });
        match words {
            ["ip", "prefix-list", _, "description", ..] => {}
            ["ip", "prefix-list", name, rest @ ..] => self.list(place, name, rest),
            ["ip", "pim", "rp", address, groups @ ..] if address.parse::<Ipv4Addr>().is_ok() => {
                self.rp(place, address, groups)
            }
            ["ip", "pim", "spt-switchover", "infinity-and-beyond"] => self.found.spt_never = Some(place.clone()),
            ["ip", "pim", "bsr", rest @ ..] if candidates::taken(&mut self.found, place, rest) => {}
            ["ip", "pim", "ssm", "prefix-list", name] => self.ssm = named(name),
            ["ip", "pim", "register-accept-list", name] => self.found.register = named(name),
            ["ip", "nht", "resolve-via-default"] | ["frr", "defaults", "datacenter"] => {
                self.found.uses_default_route = true
            }
            ["ip", "msdp", rest @ ..] => self.msdp(place, rest),
            ["ip", "route", rest @ ..] => match route(rest) {
                Some(value) => self.found.static_routes.push(Said { place: place.clone(), value }),
                None => self.left_over(place, &place.text),
            },
            other => self.left_over(place, &other.join(" ")),
        }
    }

    fn list(&mut self, place: &Place, name: &str, rest: &[&str]) {
        let rules = self.found.list(name);
        let before = rules.iter().map(Entry::sequence).max().unwrap_or(0);
        match Entry::read(place, rest, before) {
            Some(entry) => {
                rules.push(entry);
                rules.sort_by_key(Entry::sequence);
            }
            None => self.found.leave(place, "this rule of a prefix list can't be read"),
        }
    }

    fn rp(&mut self, place: &Place, address: &str, groups: &[&str]) {
        let all = Subnet { address: Ipv4Addr::new(224, 0, 0, 0), length: 4 };
        let groups = match groups {
            [] => Some(Groups::Prefix(all)),
            ["prefix-list", name] => Some(Groups::List(name.to_string())),
            [prefix] => subnet(prefix).map(Groups::Prefix),
            _ => None,
        };
        match (address.parse(), groups) {
            (Ok(address), Some(groups)) => self.rps.push((place.clone(), address, groups)),
            _ => self.found.leave(place, "an RP has an address, and a range of groups or a prefix list"),
        }
    }

    /// What follows `ip msdp`.
    fn msdp(&mut self, place: &Place, words: &[&str]) {
        let address = |word: &str| word.parse::<Ipv4Addr>().ok();
        let read = match words {
            ["peer", peer, "source", source] => address(peer).zip(address(source)).map(|(peer, source)| {
                let value = MsdpPeer { peer, source };
                self.found.msdp_peers.push(Said { place: place.clone(), value });
            }),
            ["mesh-group", name, "source", source] => {
                address(source).map(|source| self.found.mesh_group(name).source = Some(source))
            }
            ["mesh-group", name, "member", member] => address(member).map(|value| {
                self.found.mesh_group(name).members.push(Said { place: place.clone(), value });
            }),
            _ => None,
        };
        if read.is_none() {
            self.left_over(place, &format!("ip msdp {}", words.join(" ")));
        }
    }

    // ---- lines of an interface

    fn of_interface(&mut self, at: usize, place: &Place, words: &[&str]) {
        if !taken(&mut self.found.interfaces[at], place, words) {
            self.left_over(place, &words.join(" "));
        }
    }
}

/// Whether a line of an interface is one that is read.
fn taken(it: &mut Interface, place: &Place, words: &[&str]) -> bool {
    match words {
        ["shutdown"] => it.is_shut_down = true,
        ["ip", "address", address] | ["ip", "address", address, "label", _] => {
            let read = subnet(address);
            it.addresses.extend(read.map(|value| Said { place: place.clone(), value }));
            return read.is_some();
        }
        ["no", "ip", "pim", "bsm"] => it.no_bsm = Some(place.clone()),
        ["ip", "pim", rest @ ..] => return pim(it, place, rest),
        ["ip", "igmp", rest @ ..] => return igmp(it, place, rest),
        ["ip", "multicast", "boundary", "oil", name] => {
            it.boundary = Some(Said { place: place.clone(), value: name.to_string() })
        }
        _ => return false,
    }
    true
}

/// The same, of what follows `ip pim`.
fn pim(it: &mut Interface, place: &Place, words: &[&str]) -> bool {
    match words {
        [] | ["sm" | "ssm"] => it.has_pim = true,
        ["passive"] => (it.has_pim, it.passive) = (true, Some(place.clone())),
        ["drpriority", number] => {
            it.priority = number.parse().ok();
            return it.priority.is_some();
        }
        ["hello", times @ ..] => {
            it.hello = hello(times).map(|value| Said { place: place.clone(), value });
            return it.hello.is_some();
        }
        ["allowed-neighbors", "prefix-list", name] => {
            it.neighbours = Some(Said { place: place.clone(), value: name.to_string() })
        }
        ["bsm"] => it.no_bsm = None,
        ["bfd"] => it.bfd = Some(Said { place: place.clone(), value: None }),
        ["bfd", multiplier, receive, send] => {
            let value = bfd(multiplier, receive, send);
            it.bfd = Some(Said { place: place.clone(), value });
            return value.is_some();
        }
        _ => return false,
    }
    true
}

/// The same, of what follows `ip igmp`.
fn igmp(it: &mut Interface, place: &Place, words: &[&str]) -> bool {
    match words {
        [] => it.has_igmp = true,
        ["version", "2"] => it.version_2 = Some(place.clone()),
        ["query-interval", number] => return numbered(&mut it.query_interval, place, number),
        ["query-max-response-time", number] => return numbered(&mut it.query_response, place, number),
        ["last-member-query-interval", number] => return numbered(&mut it.last_member_query, place, number),
        ["join" | "join-group", group, source @ ..] => {
            let read = join(group, source);
            it.joins.extend(read.map(|value| Said { place: place.clone(), value }));
            return read.is_some();
        }
        _ => return false,
    }
    true
}

/// Takes a number, if it is one.
fn numbered(to: &mut Option<Said<u32>>, place: &Place, number: &str) -> bool {
    let read = number.parse().ok();
    if let Some(value) = read {
        *to = Some(Said { place: place.clone(), value });
    }
    read.is_some()
}

fn join(group: &str, source: &[&str]) -> Option<Join> {
    let source = match source {
        [] => None,
        [source] => Some(source.parse().ok()?),
        _ => return None,
    };
    Some(Join { group: group.parse().ok()?, source })
}

/// Of what follows `ip route`.
fn route(words: &[&str]) -> Option<Route> {
    let (prefix, next_hop, distance) = match words {
        [prefix, next_hop] => (prefix, next_hop, 1),
        [prefix, next_hop, distance] => (prefix, next_hop, distance.parse().ok()?),
        _ => return None,
    };
    Some(Route { prefix: subnet(prefix)?, next_hop: next_hop.parse().ok()?, distance })
}

/// The times of BFD, of which the slower one is taken: here one is of both directions.
fn bfd(multiplier: &str, receive: &str, send: &str) -> Option<BfdTimes> {
    let (receive, send): (u32, u32) = (receive.parse().ok()?, send.parse().ok()?);
    let (interval, multiplier) = (receive.max(send), multiplier.parse().ok()?);
    let is_possible = (50..=60_000).contains(&interval) && (2..=255).contains(&multiplier);
    is_possible.then_some(BfdTimes { interval, multiplier })
}

fn hello(times: &[&str]) -> Option<HelloTimes> {
    match times {
        [interval] => Some(HelloTimes { interval: interval.parse().ok()?, holdtime: None }),
        [interval, holdtime] => {
            Some(HelloTimes { interval: interval.parse().ok()?, holdtime: Some(holdtime.parse().ok()?) })
        }
        _ => None,
    }
}

/// The VRF that a line names.
fn vrf_in<'a>(words: &[&'a str]) -> Option<&'a str> {
    words.windows(2).find(|pair| pair[0] == "vrf").map(|pair| pair[1]).filter(|name| *name != "default")
}

/// The lines of `router pim` leave out what those at the top begin with.
fn with_prefix<'a>(words: &[&'a str]) -> Vec<&'a str> {
    match words {
        ["ip" | "ipv6", ..] | ["no", "ip" | "ipv6", ..] => words.to_vec(),
        ["no", rest @ ..] => [&["no"], &with_prefix(rest)[..]].concat(),
        ["msdp", ..] => [&["ip"], words].concat(),
        _ => [&["ip", "pim"], words].concat(),
    }
}
