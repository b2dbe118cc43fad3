//! What a configuration of FRR says, each thing with its line.
use super::lists::Entry;
use super::Left;
use crate::settings::Subnet;
use serde::Serialize;
use std::net::Ipv4Addr;

/// A line, with its number, counted from 1, and its words joined by one space.
#[derive(Clone, Debug, Default, PartialEq, Eq, Serialize)]
pub struct Place {
    pub line: usize,
    pub text: String,
}

/// What a line says.
#[derive(Clone, Debug, Serialize)]
pub struct Said<T> {
    #[serde(flatten)]
    pub place: Place,
    pub value: T,
}

/// In seconds.
#[derive(Clone, Copy, Debug, Serialize)]
pub struct HelloTimes {
    pub interval: u32,
    pub holdtime: Option<u32>,
}

/// The interval is in ms.
#[derive(Clone, Copy, Debug, PartialEq, Eq, Serialize)]
pub struct BfdTimes {
    pub interval: u32,
    pub multiplier: u32,
}

/// A group that an interface joins itself: one source of it, or all.
#[derive(Clone, Copy, Debug, Serialize)]
pub struct Join {
    pub group: Ipv4Addr,
    pub source: Option<Ipv4Addr>,
}

/// An interface of the VRF.
#[derive(Debug, Default, Serialize)]
pub struct Interface {
    pub name: String,
    #[serde(flatten)]
    pub place: Place,
    pub addresses: Vec<Said<Subnet>>,
    pub has_pim: bool,
    pub has_igmp: bool,
    pub is_shut_down: bool,
    pub passive: Option<Place>,
    pub priority: Option<u32>,
    pub hello: Option<Said<HelloTimes>>,
    /// `None` is of the usual times.
    pub bfd: Option<Said<Option<BfdTimes>>>,
    /// The prefix list of the groups that may leave here.
    pub boundary: Option<Said<String>>,
    /// The prefix list of the neighbours.
    #[serde(rename = "neighbors")]
    pub neighbours: Option<Said<String>>,
    /// In seconds.
    pub query_interval: Option<Said<u32>>,
    /// In tenths of a second.
    pub query_response: Option<Said<u32>>,
    /// In tenths of a second.
    pub last_member_query: Option<Said<u32>>,
    /// Its queries are those of IGMPv2.
    pub version_2: Option<Place>,
    /// Bootstraps are neither heard nor sent on here.
    pub no_bsm: Option<Place>,
    pub joins: Vec<Said<Join>>,
}

impl Interface {
    /// Bootstraps are heard here: by FRR's default they are.
    pub fn hears_bootstraps(&self) -> bool {
        self.has_pim && self.passive.is_none() && self.no_bsm.is_none()
    }
}

/// Whose address a candidate has.
#[derive(Clone, Debug, PartialEq, Eq, Serialize)]
#[serde(tag = "kind", content = "of", rename_all = "snake_case")]
pub enum Source {
    Address(Ipv4Addr),
    Interface(String),
    Loopback,
    Any,
}

/// A candidate BSR, or a candidate RP.
#[derive(Clone, Debug, PartialEq, Eq, Serialize)]
pub struct Candidate {
    pub priority: Option<u32>,
    /// Between advertisements of an RP, in seconds.
    pub interval: Option<u32>,
    pub source: Source,
}

/// Groups and the address of their RP.
#[derive(Clone, Copy, Debug, Serialize)]
pub struct Range {
    pub groups: Subnet,
    pub address: Ipv4Addr,
}

/// A peer of MSDP, with the router's own address of the session.
#[derive(Clone, Copy, Debug, Serialize)]
pub struct MsdpPeer {
    pub peer: Ipv4Addr,
    pub source: Ipv4Addr,
}

/// A mesh group of MSDP: the router's own address, and the other members.
#[derive(Clone, Debug, Default, Serialize)]
pub struct MeshGroup {
    pub name: String,
    pub source: Option<Ipv4Addr>,
    pub members: Vec<Said<Ipv4Addr>>,
}

/// A static route.
#[derive(Clone, Copy, Debug, Serialize)]
pub struct Route {
    pub prefix: Subnet,
    pub next_hop: Ipv4Addr,
    pub distance: u32,
}

/// Rules in the order in which they are asked.
#[derive(Debug, Serialize)]
pub struct List {
    pub name: String,
    pub rules: Vec<Entry>,
}

/// What a configuration says of a VRF, or of what is in none.
#[derive(Debug, Default, Serialize)]
pub struct Configuration {
    pub vrf: Option<String>,
    pub interfaces: Vec<Interface>,
    /// Range by range, also where a prefix list names them.
    pub rps: Vec<Said<Range>>,
    pub candidate_bsr: Option<Said<Candidate>>,
    pub candidate_rp: Option<Said<Candidate>>,
    /// Of the candidate RP.
    pub candidate_groups: Vec<Said<Subnet>>,
    /// The router never leaves the RP's tree.
    pub spt_never: Option<Place>,
    /// The prefix list of the sources whose Registers are taken.
    pub register: Option<Said<String>>,
    pub msdp_peers: Vec<Said<MsdpPeer>>,
    pub mesh_groups: Vec<MeshGroup>,
    pub prefix_lists: Vec<List>,
    pub static_routes: Vec<Said<Route>>,
    /// A route to everything counts as a route to an RP or a source.
    pub uses_default_route: bool,
    /// The routing protocols that run.
    pub protocols: Vec<Said<String>>,
    /// The lines about multicast that have no place above.
    pub left: Vec<Left>,
    /// Other lines that have none, and may concern the network.
    pub others: Vec<Left>,
}

impl Configuration {
    /// The mesh group of a name, which is there from then on.
    pub fn mesh_group(&mut self, name: &str) -> &mut MeshGroup {
        let groups = &mut self.mesh_groups;
        let at = groups.iter().position(|it| it.name == name).unwrap_or(groups.len());
        if at == groups.len() {
            groups.push(MeshGroup { name: name.to_string(), ..MeshGroup::default() });
        }
        &mut groups[at]
    }

    pub fn leave(&mut self, place: &Place, reason: &str) {
        self.left.push(Left::new(place, reason, None));
    }

    /// The rules of a list that a line names; the line is left where there is none of the name.
    pub fn rules(&mut self, named: &Said<String>) -> Option<Vec<Entry>> {
        let found = self.prefix_lists.iter().find(|list| list.name == named.value).map(|list| list.rules.clone());
        if found.is_none() {
            self.leave(&named.place, &format!("there is no prefix list {}", named.value));
        }
        found
    }

    /// Those of a list by its name, which is put there where it isn't.
    pub fn list(&mut self, name: &str) -> &mut Vec<Entry> {
        let at = self.prefix_lists.iter().position(|list| list.name == name).unwrap_or(self.prefix_lists.len());
        if at == self.prefix_lists.len() {
            self.prefix_lists.push(List { name: name.to_string(), rules: Vec::new() });
        }
        &mut self.prefix_lists[at].rules
    }
}
