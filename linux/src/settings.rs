//! The file of settings, read and checked: each problem has its line and a reason.
use crate::bfd::Times;
use crate::control::Place;
use crate::log::LEVELS;
use crate::older::Speech;
use crate::policy::lists::{
    reserve, share_of_host, InterfacePolicy, List, PolicySettings, Rule, UsualQuotas, MOST_NEIGHBOURS,
    USUAL_NEIGHBOURS, USUAL_SOURCES,
};
use crate::recorder;
use crate::tables::Domain;
use log::LevelFilter;
use serde::{Deserialize, Serialize, Serializer};
use std::collections::{BTreeMap, HashSet};
use std::fmt;
use std::net::{Ipv4Addr, SocketAddr};
use std::path::PathBuf;
use toml::Spanned;
use viqeshor::{CandidateBsr, CandidateRp, Choice, OlderHosts, Prefix, QueryVersion, Range, RpSet};

/// Linux has 32 virtual interfaces, and the register tunnel is one.
pub const MOST_INTERFACES: usize = 31;
/// It takes no virtual interface.
pub const LOOPBACK: &str = "lo";
const MOST_RANGES: usize = 256;
/// RPs of ranges that a BSR holds.
const MOST_HELD: u32 = 255;
/// Ranges of a candidate RP, which one packet tells.
const MOST_ADVERTISED: usize = 183;
/// Of a set of RPs that share an address.
const MOST_OTHERS: usize = 16;
/// Peers of MSDP, and sources that are kept of one.
const MOST_PEERS: usize = 64;
const USUAL_SOURCE_ACTIVES: u32 = 8_192;
const MOST_SOURCE_ACTIVES: u32 = 1_000_000;
/// A neighbour, a group of a host, its source, and a Join.
const LEAST_LIMIT: u32 = 4;
/// Of a path in sun_path, with the byte behind it.
const LONGEST_SOCKET: usize = 107;
const ALL_GROUPS: Ipv4Addr = Ipv4Addr::new(224, 0, 0, 0);
const OLDER_HOSTS: [(&str, OlderHosts); 3] =
    [("all", OlderHosts::All), ("v2", OlderHosts::VersionTwo), ("none", OlderHosts::Nobody)];
const CHOICES: [(&str, Choice); 2] = [("range", Choice::Range), ("group", Choice::Group)];
/// A query of IGMPv2 asks for answers within at most so many tenths of a second.
const MOST_RESPONSE: u32 = 255;
const USUAL_SOCKET: &str = "/run/viqeshord/control";
/// By the names of the kernel's route protocols; `static` is also FRR's.
const PROTOCOLS: [(&str, &[u8]); 12] = [
    ("kernel", &[2]),
    ("boot", &[3]),
    ("static", &[4, 196]),
    ("zebra", &[11]),
    ("bird", &[12]),
    ("dhcp", &[16]),
    ("babel", &[42]),
    ("bgp", &[186]),
    ("isis", &[187]),
    ("ospf", &[188]),
    ("rip", &[189]),
    ("eigrp", &[192]),
];

/// Why the settings can't be taken.
#[derive(Clone, Debug, PartialEq, Eq)]
pub struct Problem {
    /// Counted from 1; 0 where it is of the whole file.
    pub line: usize,
    pub reason: String,
}

impl fmt::Display for Problem {
    fn fmt(&self, to: &mut fmt::Formatter) -> fmt::Result {
        match self.line {
            0 => write!(to, "{}", self.reason),
            line => write!(to, "line {line}: {}", self.reason),
        }
    }
}

/// An address with the length of its subnet's prefix.
#[derive(Clone, Copy, Debug, PartialEq, Eq, Hash, PartialOrd, Ord)]
pub struct Subnet {
    pub address: Ipv4Addr,
    pub length: u8,
}

impl fmt::Display for Subnet {
    fn fmt(&self, to: &mut fmt::Formatter) -> fmt::Result {
        write!(to, "{}/{}", self.address, self.length)
    }
}

pub fn mask(length: u8) -> u32 {
    u32::MAX.checked_shl(32 - u32::from(length)).unwrap_or(0)
}

impl Serialize for Subnet {
    fn serialize<S: Serializer>(&self, to: S) -> Result<S::Ok, S::Error> {
        to.collect_str(self)
    }
}

impl Subnet {
    pub fn prefix(self) -> u32 {
        u32::from(self.address) & mask(self.length)
    }

    pub fn contains(self, address: u32) -> bool {
        address & mask(self.length) == self.prefix()
    }

    pub fn overlaps(self, other: Subnet) -> bool {
        let shorter = self.length.min(other.length);
        (u32::from(self.address) ^ u32::from(other.address)) & mask(shorter) == 0
    }
}

/// When Hellos leave an interface, and for how long they hold. The library's own leave each 30 s, and hold for 105 s
/// (RFC 7761, 4.11).
#[derive(Clone, Copy, Debug, PartialEq, Eq)]
pub struct HelloSettings {
    /// In tenths of a second.
    pub interval: u32,
    /// In seconds.
    pub holdtime: u16,
}

/// Hello_Period, in tenths of a second.
const HELLO_PERIOD: u32 = 300;
/// t_override_default, in ms (RFC 7761, 4.11): routers go by it too where one of their link says no other.
const OVERRIDE: u32 = 2500;

impl HelloSettings {
    /// In ms; `None` where the library's own are enough.
    pub fn repeated(self) -> Option<u64> {
        (self.interval < HELLO_PERIOD).then(|| u64::from(self.interval) * 100)
    }
}

#[derive(Clone, Debug, PartialEq, Eq)]
pub struct InterfaceSettings {
    pub name: String,
    /// Else the first one that the kernel has.
    pub address: Option<Subnet>,
    pub priority: u32,
    /// In ms.
    pub propagation: u32,
    /// In ms.
    pub override_interval: u32,
    /// What overrides a Prune(S,G,rpt) leaves a second time.
    pub overrides_twice: bool,
    pub hello: HelloSettings,
    /// Sessions with the neighbours there.
    pub bfd: Option<Times>,
    pub speech: Speech,
    pub policy: InterfacePolicy,
    /// Bootstraps are neither heard nor sent there.
    pub is_bsr_border: bool,
    /// Where it stands in the file.
    pub line: usize,
}

impl InterfaceSettings {
    /// How long after a Prune(S,G,rpt) what overrides it leaves a second time, in ms; `None` where it doesn't. Until the
    /// Prune takes effect the link's propagation delay is left.
    pub fn overrides_again(&self) -> Option<u64> {
        self.overrides_twice.then(|| self.override_interval.min(OVERRIDE).into())
    }

    /// Whether it may be on no link, where it takes no virtual interface of the kernel's.
    pub fn may_be_apart(&self) -> bool {
        let is_alone = self.address.map_or(false, |subnet| subnet.length == 32);
        self.name == LOOPBACK || (is_alone && !self.policy.is_unnumbered)
    }

    /// The neighbours of the file that lie in none of these subnets, where their PIM isn't believed; where there is no
    /// subnet none is known to.
    pub fn strangers<'a>(&'a self, subnets: &'a [Subnet]) -> impl Iterator<Item = Subnet> + 'a {
        let is_within = |one: Subnet| subnets.iter().any(|subnet| subnet.overlaps(one));
        let named = self.policy.neighbours.iter().flatten().copied();
        named.filter(move |one| !self.policy.is_unnumbered && !subnets.is_empty() && !is_within(*one))
    }
}

#[derive(Clone, Debug, PartialEq, Eq)]
pub struct RpSettings {
    pub groups: Subnet,
    pub address: Ipv4Addr,
}

impl RpSettings {
    /// Of a range that the library tells.
    pub fn of(range: &Range) -> RpSettings {
        RpSettings { groups: Subnet { address: range.prefix, length: range.length as u8 }, address: range.rp }
    }
}

/// How Bootstraps (RFC 5059) are heard.
#[derive(Clone, Debug, PartialEq, Eq)]
pub struct BsrSettings {
    /// The most RPs that are kept.
    pub limit: u32,
    /// The BSRs that are believed; all where there is no list.
    pub from: Option<Vec<Ipv4Addr>>,
    /// What one of several RPs of a range is chosen for.
    pub choice: Choice,
}

/// As what a router stands (RFC 5059).
#[derive(Clone, Debug, Default, PartialEq, Eq)]
pub struct CandidacySettings {
    pub bsr: Option<CandidateBsr>,
    pub rp: Option<CandidateRp>,
}

impl CandidacySettings {
    /// What is left of it where the router has these addresses alone; `None` where nothing is.
    pub fn of_own(&self, is_own: impl Fn(Ipv4Addr) -> bool) -> Option<CandidacySettings> {
        let bsr = self.bsr.filter(|it| is_own(it.address));
        let rp = self.rp.clone().filter(|it| is_own(it.address));
        (bsr.is_some() || rp.is_some()).then_some(CandidacySettings { bsr, rp })
    }

    /// The address of each role, with its name.
    pub fn roles(&self) -> impl Iterator<Item = (&'static str, Ipv4Addr)> {
        let bsr = self.bsr.map(|it| ("candidate BSR", it.address));
        let rp = self.rp.as_ref().map(|it| ("candidate RP", it.address));
        bsr.into_iter().chain(rp)
    }

    /// Whether an RP that stands so says less as other ones: it has another address, or leaves out a range.
    pub fn says_less(&self, next: Option<&CandidacySettings>) -> bool {
        let next = next.and_then(|next| next.rp.as_ref());
        let says_all = |rp: &CandidateRp, next: &CandidateRp| {
            next.address == rp.address && rp.ranges.iter().all(|range| next.ranges.contains(range))
        };
        self.rp.as_ref().map_or(false, |rp| !next.map_or(false, |next| says_all(rp, next)))
    }
}

/// A peer of MSDP (RFC 3618).
#[derive(Clone, Debug, PartialEq, Eq)]
pub struct MsdpPeer {
    pub peer: Ipv4Addr,
    /// The router's own, of the session.
    pub address: Ipv4Addr,
    /// The mesh group of which both are members.
    pub mesh: Option<String>,
    /// The RPs for which it is the static RPF peer.
    pub rpf: Vec<Subnet>,
    /// The most sources that are kept of it.
    pub max_kept: u32,
    /// The sources that are taken of it.
    pub accept: List,
    /// Those that are told to it.
    pub tell: List,
}

impl MsdpPeer {
    /// The side with the higher address listens.
    pub fn listens(&self) -> bool {
        self.address > self.peer
    }
}

#[derive(Clone, Debug, PartialEq, Eq)]
pub struct RouteSettings {
    /// The kernel's table; else the one of the router's domain.
    pub table: Option<u32>,
    pub preference: u32,
    /// By the kernel's number of a protocol.
    pub of_protocol: BTreeMap<u8, u32>,
}

impl RouteSettings {
    pub fn preference_of(&self, protocol: u8) -> u32 {
        *self.of_protocol.get(&protocol).unwrap_or(&self.preference)
    }
}

#[derive(Clone, Debug, PartialEq, Eq)]
pub struct Settings {
    pub limit: u32,
    pub stays_on_shared_tree: bool,
    pub robustness: u32,
    /// In seconds.
    pub query_interval: u32,
    /// In tenths of a second.
    pub query_response: u32,
    /// In tenths of a second.
    pub last_member_query: u32,
    pub interfaces: Vec<InterfaceSettings>,
    pub rps: Vec<RpSettings>,
    /// RPs that share an address.
    pub rp_sets: Vec<RpSet>,
    /// Other RPs that tell of their sources.
    pub msdp: Vec<MsdpPeer>,
    /// Bootstraps are heard.
    pub bsr: Option<BsrSettings>,
    /// It stands as BSR or as RP, where they are heard.
    pub candidacy: CandidacySettings,
    pub policy: PolicySettings,
    pub routes: RouteSettings,
    pub level: LevelFilter,
    /// Whose tables of the kernel the router goes by.
    pub domain: Domain,
    pub control: Place,
    /// Where Prometheus is answered.
    pub metrics: Option<SocketAddr>,
    /// Join/Prunes to a neighbour leave together.
    pub packs: bool,
    /// IGMP and PIM are stopped that would be forwarded as data.
    pub guard: bool,
    pub restart: RestartSettings,
    /// Where events are recorded.
    pub recorder: Option<recorder::Place>,
}

/// What is kept for a router that begins after this one died.
#[derive(Clone, Debug, PartialEq, Eq)]
pub struct RestartSettings {
    pub saves: bool,
    /// In ms.
    pub save_every: u64,
    /// A state that is older isn't taken, in ms.
    pub fresh: u64,
}

// ---- the file as it stands

type Whole = Option<Spanned<u32>>;
type Text = Option<Spanned<String>>;

#[derive(Deserialize)]
#[serde(deny_unknown_fields)]
struct File {
    limit: Whole,
    spt: Text,
    log: Text,
    table: Whole,
    vrf: Text,
    socket: Option<Spanned<PathBuf>>,
    socket_group: Option<String>,
    socket_mode: Text,
    pack: Option<bool>,
    guard: Option<bool>,
    #[serde(default)]
    metrics: MetricsTable,
    #[serde(default)]
    restart: RestartTable,
    #[serde(default)]
    recorder: RecorderTable,
    #[serde(default)]
    igmp: IgmpTable,
    #[serde(default)]
    policy: PolicyTable,
    #[serde(default)]
    routes: RoutesTable,
    #[serde(default)]
    interface: Vec<InterfaceTable>,
    #[serde(default)]
    rp: Vec<RpTable>,
    #[serde(default)]
    anycast: Vec<AnycastTable>,
    #[serde(default)]
    msdp: Vec<MsdpTable>,
    #[serde(default)]
    bsr: BsrTable,
    rp_candidate: Option<RpCandidateTable>,
}

#[derive(Deserialize, Default)]
#[serde(deny_unknown_fields)]
struct BsrTable {
    listen: Option<bool>,
    limit: Whole,
    from: Option<Vec<Spanned<String>>>,
    choice: Text,
    candidate: Option<BsrCandidateTable>,
}

#[derive(Deserialize)]
#[serde(deny_unknown_fields)]
struct BsrCandidateTable {
    address: Spanned<String>,
    priority: Whole,
    hash_length: Whole,
    limit: Whole,
}

#[derive(Deserialize)]
#[serde(deny_unknown_fields)]
struct RpCandidateTable {
    address: Spanned<String>,
    priority: Whole,
    ranges: Vec<Spanned<String>>,
}

#[derive(Deserialize, Default)]
#[serde(deny_unknown_fields)]
struct MetricsTable {
    listen: Text,
}

#[derive(Deserialize, Default)]
#[serde(deny_unknown_fields)]
struct RestartTable {
    save: Option<bool>,
    save_every: Option<Spanned<f64>>,
    fresh: Option<Spanned<f64>>,
}

#[derive(Deserialize, Default)]
#[serde(deny_unknown_fields)]
struct RecorderTable {
    folder: Option<PathBuf>,
    size: Whole,
}

#[derive(Deserialize, Default)]
#[serde(deny_unknown_fields)]
struct IgmpTable {
    robustness: Whole,
    query_interval: Whole,
    query_response: Option<Spanned<f64>>,
    last_member_query: Option<Spanned<f64>>,
    older_hosts: Text,
}

/// A rule of a list.
#[derive(Deserialize, Clone)]
#[serde(deny_unknown_fields)]
struct RuleTable {
    groups: Text,
    sources: Text,
    permit: Option<bool>,
}

/// What is usual on the interfaces, and what is of none.
#[derive(Deserialize, Default)]
#[serde(deny_unknown_fields)]
struct PolicyTable {
    join: Option<Vec<RuleTable>>,
    send: Option<Vec<RuleTable>>,
    register: Option<Vec<RuleTable>>,
    max_neighbors: Whole,
    max_groups: Whole,
    max_host_groups: Whole,
    max_sources: Whole,
    max_joins: Whole,
    max_streams: Whole,
    max_registered: Whole,
}

#[derive(Deserialize, Default)]
#[serde(deny_unknown_fields)]
struct RoutesTable {
    table: Option<u32>,
    preference: Whole,
    #[serde(default)]
    preferences: BTreeMap<Spanned<String>, Spanned<u32>>,
}

#[derive(Deserialize)]
#[serde(deny_unknown_fields)]
struct InterfaceTable {
    name: Spanned<String>,
    address: Text,
    priority: Option<u32>,
    propagation: Whole,
    #[serde(rename = "override")]
    override_interval: Whole,
    override_twice: Option<bool>,
    hello_interval: Option<Spanned<f64>>,
    hello_holdtime: Whole,
    bfd: Option<bool>,
    bfd_interval: Whole,
    bfd_multiplier: Whole,
    older_hosts: Text,
    version: Whole,
    passive: Option<bool>,
    unnumbered: Option<bool>,
    neighbors: Option<Vec<Spanned<String>>>,
    bsr_border: Option<bool>,
    join: Option<Vec<RuleTable>>,
    send: Option<Vec<RuleTable>>,
    max_neighbors: Whole,
    max_groups: Whole,
    max_host_groups: Whole,
    max_sources: Whole,
    max_joins: Whole,
    max_streams: Whole,
}

#[derive(Deserialize)]
#[serde(deny_unknown_fields)]
struct RpTable {
    groups: Spanned<String>,
    address: Spanned<String>,
}

/// A set of RPs that share an address.
#[derive(Deserialize)]
#[serde(deny_unknown_fields)]
struct AnycastTable {
    shared: Spanned<String>,
    own: Spanned<String>,
    others: Vec<Spanned<String>>,
}

#[derive(Deserialize)]
#[serde(deny_unknown_fields)]
struct MsdpTable {
    peer: Spanned<String>,
    address: Spanned<String>,
    mesh: Text,
    #[serde(default)]
    rpf: Vec<Spanned<String>>,
    max_kept: Whole,
    accept: Option<Vec<RuleTable>>,
    tell: Option<Vec<RuleTable>>,
}

// ---- checked

/// Collects what is wrong, by the place in the file's text.
struct Check<'a> {
    text: &'a str,
    problems: Vec<Problem>,
}

impl Check<'_> {
    fn line(&self, at: usize) -> usize {
        1 + self.text.as_bytes()[..at.min(self.text.len())].iter().filter(|byte| **byte == b'\n').count()
    }

    fn wrong(&mut self, at: usize, reason: String) {
        let line = self.line(at);
        self.problems.push(Problem { line, reason });
    }

    fn within(&mut self, name: &str, given: &Whole, usual: u32, least: u32, most: u32) -> u32 {
        match given {
            None => usual,
            Some(value) => {
                let number = *value.get_ref();
                if number < least || number > most {
                    self.wrong(value.start(), format!("{name} is {number}; it is to be {least} to {most}"));
                }
                number
            }
        }
    }

    /// Seconds, as tenths.
    fn tenths(&mut self, name: &str, given: &Option<Spanned<f64>>, usual: u32, most: u32) -> u32 {
        let value = match given {
            None => return usual,
            Some(value) => value,
        };
        let tenths = (value.get_ref() * 10.0).round();
        if !(1.0..=f64::from(most)).contains(&tenths) {
            let (number, most) = (value.get_ref(), f64::from(most) / 10.0);
            self.wrong(value.start(), format!("{name} is {number} s; it is to be 0.1 to {most}"));
            return usual;
        }
        tenths as u32
    }

    fn one_of<T: Copy>(&mut self, name: &str, given: &Text, choices: &[(&str, T)]) -> T {
        let value = match given {
            None => return choices[0].1,
            Some(value) => value,
        };
        match choices.iter().find(|(word, _)| *word == value.get_ref()) {
            Some((_, choice)) => *choice,
            None => {
                let words: Vec<_> = choices.iter().map(|(word, _)| format!("\"{word}\"")).collect();
                self.wrong(
                    value.start(),
                    format!("{name} is \"{}\"; it is to be {}", value.get_ref(), words.join(" or ")),
                );
                choices[0].1
            }
        }
    }

    fn subnet(&mut self, given: &Spanned<String>, what: &str) -> Option<Subnet> {
        let parts = given.get_ref().split_once('/');
        let read = parts.and_then(|(address, length)| Some((address.parse().ok()?, length.parse().ok()?)));
        match read {
            Some((address, length)) if length <= 32 => Some(Subnet { address, length }),
            _ => {
                self.wrong(
                    given.start(),
                    format!(
                        "{what} \"{}\" isn't an IPv4 address with a prefix length, as 10.0.0.1/24",
                        given.get_ref()
                    ),
                );
                None
            }
        }
    }

    fn host(&mut self, given: &Spanned<String>, what: &str) -> Option<Ipv4Addr> {
        let read = given.get_ref().parse().ok();
        if read.is_none() {
            self.wrong(given.start(), format!("{what} \"{}\" isn't an IPv4 address", given.get_ref()));
        }
        read
    }

    fn rule(&mut self, table: &RuleTable) -> Option<Rule> {
        let all = Subnet { address: ALL_GROUPS, length: 4 };
        let groups = match &table.groups {
            Some(given) => self.subnet(given, "the groups").filter(|groups| self.are_groups(given, *groups))?,
            None => all,
        };
        let sources = match &table.sources {
            Some(given) => Some(self.subnet(given, "the sources")?),
            None => None,
        };
        Some(Rule { permits: table.permit.unwrap_or(true), groups, sources })
    }

    /// The interface's own list, or the one of all.
    fn list(&mut self, own: &Option<Vec<RuleTable>>, usual: &Option<Vec<RuleTable>>) -> List {
        let given = own.as_ref().or(usual.as_ref());
        List(given.map(|tables| tables.iter().filter_map(|table| self.rule(table)).collect()))
    }

    fn quota(&mut self, name: &str, own: &Whole, of_all: &Whole, usual: u32, most: u32) -> u32 {
        let of_all = self.within(name, of_all, usual, 0, most);
        self.within(name, own, of_all, 0, most)
    }

    fn policy(&mut self, own: &InterfaceTable, of_all: &PolicyTable, usual: &UsualQuotas) -> InterfacePolicy {
        let neighbours = own.neighbors.as_ref().map(|list| {
            let subnets = list.iter().map(|given| match given.get_ref().contains('/') {
                true => self.subnet(given, "the neighbors"),
                false => self.host(given, "the neighbor").map(|address| Subnet { address, length: 32 }),
            });
            subnets.flatten().collect()
        });
        const MOST: u32 = 1_000_000;
        let max_groups = self.quota("max_groups", &own.max_groups, &of_all.max_groups, usual.max_groups, MOST);
        let of_host = share_of_host(max_groups);
        InterfacePolicy {
            is_passive: own.passive.unwrap_or(false),
            is_unnumbered: own.unnumbered.unwrap_or(false),
            neighbours,
            join: self.list(&own.join, &of_all.join),
            send: self.list(&own.send, &of_all.send),
            max_neighbours: self.max_neighbours(own, of_all),
            max_groups,
            max_host_groups: self.quota(
                "max_host_groups",
                &own.max_host_groups,
                &of_all.max_host_groups,
                of_host,
                MOST,
            ),
            max_sources: self.quota("max_sources", &own.max_sources, &of_all.max_sources, USUAL_SOURCES, MOST),
            max_joins: self.quota("max_joins", &own.max_joins, &of_all.max_joins, usual.max_joins, MOST),
            max_streams: self.quota("max_streams", &own.max_streams, &of_all.max_streams, usual.max_streams, MOST),
        }
    }

    fn max_neighbours(&mut self, own: &InterfaceTable, of_all: &PolicyTable) -> u32 {
        self.quota("max_neighbors", &own.max_neighbors, &of_all.max_neighbors, USUAL_NEIGHBOURS, MOST_NEIGHBOURS)
    }

    /// What the quotas are where the file has none: of the limit, the room for neighbours, and how many interfaces
    /// there are.
    fn usual_quotas(&mut self, limit: u32, file: &File) -> UsualQuotas {
        let mut quiet = Check { text: self.text, problems: Vec::new() };
        let policies: Vec<_> = file
            .interface
            .iter()
            .map(|table| InterfacePolicy {
                is_passive: table.passive.unwrap_or(false),
                max_neighbours: quiet.max_neighbours(table, &file.policy),
                ..InterfacePolicy::default()
            })
            .collect();
        UsualQuotas::of(limit, reserve(limit as usize, policies.iter()) as u32, policies.len() as u32)
    }

    fn policy_of_none(&mut self, table: &PolicyTable, usual: &UsualQuotas) -> PolicySettings {
        PolicySettings {
            register: self.list(&table.register, &None),
            max_registered: self.within("max_registered", &table.max_registered, usual.max_registered, 0, 1_000_000),
        }
    }

    fn hello(&mut self, table: &InterfaceTable) -> HelloSettings {
        let interval = self.tenths("hello_interval", &table.hello_interval, HELLO_PERIOD, HELLO_PERIOD);
        // 3.5 times the interval, as the RFC has it, and longer than the interval at least.
        let (usual, least) = ((interval * 7 + 19) / 20, interval / 10 + 1);
        let holdtime = self.within("hello_holdtime", &table.hello_holdtime, usual, least, u32::from(u16::MAX));
        HelloSettings { interval, holdtime: holdtime as u16 }
    }

    fn bfd(&mut self, table: &InterfaceTable) -> Option<Times> {
        // Detection takes some tens of ms of a process at least, and of a machine that is busy.
        const LEAST: u32 = 50;
        let interval = self.within("bfd_interval", &table.bfd_interval, 300, LEAST, 60_000);
        let multiplier = self.within("bfd_multiplier", &table.bfd_multiplier, 3, 2, 255);
        table.bfd.unwrap_or(false).then_some(Times { interval, multiplier: multiplier as u8 })
    }

    /// By the older hosts that all interfaces hear.
    fn speech(&mut self, table: &InterfaceTable, of_all: OlderHosts) -> Speech {
        let older_hosts = match &table.older_hosts {
            None => of_all,
            given => self.one_of("older_hosts", given, &OLDER_HOSTS),
        };
        let queries = match self.within("version", &table.version, 3, 2, 3) {
            2 => QueryVersion::Two,
            _ => QueryVersion::Three,
        };
        let speech = Speech { older_hosts, queries };
        if let (QueryVersion::Two, OlderHosts::Nobody, Some(version)) = (queries, older_hosts, &table.version) {
            let reason = "version is 2, so hosts answer by IGMPv2, and older_hosts is \"none\": it hears none of them";
            self.wrong(version.start(), reason.to_string());
        }
        speech
    }

    fn interface(
        &mut self,
        table: &InterfaceTable,
        of_all: &PolicyTable,
        usual: &UsualQuotas,
        older_hosts: OlderHosts,
    ) -> InterfaceSettings {
        let name = table.name.get_ref().clone();
        if let Some(reason) = not_a_name(&name) {
            self.wrong(table.name.start(), format!("the name {name:?} {reason}"));
        }
        let settings = InterfaceSettings {
            address: self.address(&table.address, &name),
            name,
            priority: table.priority.unwrap_or(1),
            propagation: self.within("propagation", &table.propagation, 500, 0, 32767),
            override_interval: self.within("override", &table.override_interval, OVERRIDE, 0, 65535),
            overrides_twice: table.override_twice.unwrap_or(false),
            hello: self.hello(table),
            bfd: self.bfd(table),
            speech: self.speech(table, older_hosts),
            policy: self.policy(table, of_all, usual),
            is_bsr_border: table.bsr_border.unwrap_or(false),
            line: self.line(table.name.start()),
        };
        let stranger = settings.address.and_then(|subnet| settings.strangers(&[subnet]).next());
        if let (Some(stranger), Some(first)) = (stranger, table.neighbors.as_ref().and_then(|list| list.first())) {
            let reason = format!("the neighbor {stranger} isn't in the subnet of {}; see `unnumbered`", settings.name);
            self.wrong(first.start(), reason);
        }
        settings
    }

    fn address(&mut self, given: &Text, name: &str) -> Option<Subnet> {
        let given = given.as_ref()?;
        let subnet = self.subnet(given, "the address")?;
        let is_elsewhere = subnet.address.is_loopback() && name != LOOPBACK;
        let reason =
            not_a_host(subnet).or_else(|| of_all_hosts(subnet)).or(is_elsewhere.then_some("it is of lo alone"));
        if let Some(reason) = reason {
            self.wrong(given.start(), format!("the address {subnet}: {reason}"));
        }
        Some(subnet)
    }

    fn interfaces(&mut self, file: &File, usual: &UsualQuotas) -> Vec<InterfaceSettings> {
        let tables = &file.interface;
        let heard = self.one_of("older_hosts", &file.igmp.older_hosts, &OLDER_HOSTS);
        let found: Vec<_> = tables.iter().map(|table| self.interface(table, &file.policy, usual, heard)).collect();
        if found.is_empty() {
            self.problems.push(Problem { line: 0, reason: "there is no [[interface]]".to_string() });
        }
        if let Some(past) = found.iter().filter(|it| !it.may_be_apart()).nth(MOST_INTERFACES) {
            let reason = format!(
                "at most {MOST_INTERFACES}: Linux has 32 virtual interfaces, of which the register tunnel is one"
            );
            self.problems.push(Problem { line: past.line, reason });
        }
        let mut names = HashSet::new();
        for table in tables.iter().filter(|table| !names.insert(table.name.get_ref())) {
            self.wrong(table.name.start(), format!("the interface {} is given twice", table.name.get_ref()));
        }
        self.overlaps(&found);
        found
    }

    fn overlaps(&mut self, found: &[InterfaceSettings]) {
        for (number, one) in found.iter().enumerate() {
            let other = found[..number].iter().find(|other| match (one.address, other.address) {
                (Some(mine), Some(theirs)) => mine.overlaps(theirs),
                _ => false,
            });
            if let Some(other) = other {
                let reason = format!("the subnets of {} and {} overlap", other.name, one.name);
                self.problems.push(Problem { line: one.line, reason });
            }
        }
    }

    fn rp(&mut self, table: &RpTable) -> Option<RpSettings> {
        let groups = self.groups_of_rp(&table.groups);
        let address = self.reached(&table.address, "the RP");
        Some(RpSettings { groups: groups?, address: address? })
    }

    /// Groups that may have an RP.
    fn groups_of_rp(&mut self, given: &Spanned<String>) -> Option<Subnet> {
        let groups = self.subnet(given, "the groups")?;
        if self.are_groups(given, groups) {
            if let Some(reason) = without_rp(groups) {
                self.wrong(given.start(), format!("the groups {groups} {reason}"));
            }
        }
        Some(groups)
    }

    /// An address of an RP, which other routers reach.
    fn reached(&mut self, given: &Spanned<String>, what: &str) -> Option<Ipv4Addr> {
        let address = self.host(given, what)?;
        let of_loopback = address.is_loopback().then_some("no other router reaches it");
        if let Some(reason) = not_a_host(Subnet { address, length: 32 }).or(of_loopback) {
            self.wrong(given.start(), format!("{what} {address}: {reason}"));
        }
        Some(address)
    }

    fn rp_set(&mut self, table: &AnycastTable) -> Option<RpSet> {
        let shared = self.reached(&table.shared, "the shared address");
        let own = self.reached(&table.own, "the own address");
        let mut others: Vec<Ipv4Addr> = Vec::new();
        for given in &table.others {
            if let Some(other) = self.reached(given, "the address of another RP") {
                if others.contains(&other) {
                    self.wrong(given.start(), format!("the address of another RP {other} is given twice"));
                }
                if [shared, own].contains(&Some(other)) {
                    self.wrong(given.start(), format!("the address of another RP {other} is this router's own"));
                }
                others.push(other);
            }
        }
        if let Some(past) = table.others.get(MOST_OTHERS) {
            self.wrong(past.start(), format!("at most {MOST_OTHERS} others share an address with a router"));
        }
        Some(RpSet { shared: shared?, own: own?, others })
    }

    fn rp_sets(&mut self, tables: &[AnycastTable]) -> Vec<RpSet> {
        let read: Vec<_> = tables.iter().map(|table| (table, self.rp_set(table))).collect();
        let is_shared = |address: Ipv4Addr| read.iter().flat_map(|(_, set)| set).any(|set| set.shared == address);
        for (number, (table, set)) in read.iter().enumerate() {
            let (shared, own) = match set {
                Some(set) => (set.shared, set.own),
                None => continue,
            };
            if read[..number].iter().flat_map(|(_, set)| set).any(|other| other.shared == shared) {
                self.wrong(table.shared.start(), format!("the shared address {shared} is given twice"));
            }
            if is_shared(own) {
                self.wrong(table.own.start(), format!("the own address {own} is one that routers share"));
            }
        }
        read.into_iter().filter_map(|(_, set)| set).collect()
    }

    fn msdp_peer(&mut self, table: &MsdpTable) -> Option<MsdpPeer> {
        let peer = self.reached(&table.peer, "the peer");
        let address = self.reached(&table.address, "the own address");
        if peer.is_some() && peer == address {
            self.wrong(table.peer.start(), "the peer is this router itself".to_string());
        }
        let rpf = table.rpf.iter().filter_map(|given| self.subnet(given, "the RPs")).collect();
        let max_kept = self.within("max_kept", &table.max_kept, USUAL_SOURCE_ACTIVES, 1, MOST_SOURCE_ACTIVES);
        let (accept, tell) = (self.list(&table.accept, &None), self.list(&table.tell, &None));
        let mesh = table.mesh.as_ref().map(|name| name.get_ref().clone());
        Some(MsdpPeer { peer: peer?, address: address?, mesh, rpf, max_kept, accept, tell })
    }

    fn msdp(&mut self, tables: &[MsdpTable]) -> Vec<MsdpPeer> {
        if let Some(past) = tables.get(MOST_PEERS) {
            self.wrong(past.peer.start(), format!("at most {MOST_PEERS} peers have a session"));
        }
        let mut peers: Vec<MsdpPeer> = Vec::new();
        for table in tables {
            if let Some(peer) = self.msdp_peer(table) {
                if peers.iter().any(|other| other.peer == peer.peer) {
                    self.wrong(table.peer.start(), format!("the peer {} is given twice", peer.peer));
                }
                peers.push(peer);
            }
        }
        peers
    }

    fn are_groups(&mut self, given: &Spanned<String>, groups: Subnet) -> bool {
        let reason = match groups {
            it if !it.address.is_multicast() || it.length < 4 => "aren't within 224.0.0.0/4",
            it if u32::from(it.address) != it.prefix() => "have bits behind their prefix",
            _ => return true,
        };
        self.wrong(given.start(), format!("the groups {groups} {reason}"));
        false
    }

    fn rps(&mut self, tables: &[RpTable]) -> Vec<RpSettings> {
        let mut found: Vec<RpSettings> = Vec::new();
        for table in tables {
            if let Some(rp) = self.rp(table) {
                if found.iter().any(|other| other.groups == rp.groups) {
                    self.wrong(table.groups.start(), format!("the groups {} are given twice", rp.groups));
                }
                found.push(rp);
            }
        }
        if let Some(past) = tables.get(MOST_RANGES) {
            self.wrong(past.groups.start(), format!("at most {MOST_RANGES} RP ranges can be given"));
        }
        found
    }

    fn bsr(&mut self, table: &BsrTable) -> Option<BsrSettings> {
        let limit = self.within("limit", &table.limit, MOST_RANGES as u32, 1, MOST_RANGES as u32);
        let of =
            |check: &mut Self, given: &Vec<_>| given.iter().filter_map(|it| check.reached(it, "the BSR")).collect();
        let from = table.from.as_ref().map(|given| of(self, given));
        let choice = self.one_of("choice", &table.choice, &CHOICES);
        table.listen.unwrap_or(false).then_some(BsrSettings { limit, from, choice })
    }

    /// An address of a role in which the router stands: one of its own, which other routers reach.
    fn stands_at(&mut self, given: &Spanned<String>, what: &str, file: &File) -> Option<Ipv4Addr> {
        if !file.bsr.listen.unwrap_or(false) {
            self.wrong(given.start(), format!("{what} hears Bootstraps: `listen` of [bsr] is to be true"));
        }
        let address = self.reached(given, what)?;
        let of =
            |table: &InterfaceTable| table.address.as_ref().and_then(|it| it.get_ref().split('/').next()?.parse().ok());
        let of_all: Vec<Option<Ipv4Addr>> = file.interface.iter().map(of).collect();
        // The kernel may have it on an interface of which the file says no address.
        if of_all.iter().all(Option::is_some) && !of_all.contains(&Some(address)) {
            self.wrong(given.start(), format!("{what} {address}: no [[interface]] has this address"));
        }
        Some(address)
    }

    fn candidate_bsr(&mut self, file: &File) -> Option<CandidateBsr> {
        let table = file.bsr.candidate.as_ref()?;
        let address = self.stands_at(&table.address, "a candidate BSR", file);
        let usual = CandidateBsr::new(Ipv4Addr::UNSPECIFIED);
        let priority = self.within("priority", &table.priority, usual.priority, 0, 255);
        let hash_length = self.within("hash_length", &table.hash_length, usual.hash_length, 0, 32);
        let limit = self.within("limit", &table.limit, usual.limit, 1, MOST_HELD);
        address.map(|address| CandidateBsr { address, priority, hash_length, limit })
    }

    fn candidate_rp(&mut self, file: &File) -> Option<CandidateRp> {
        let table = file.rp_candidate.as_ref()?;
        let address = self.stands_at(&table.address, "a candidate RP", file);
        let mut ranges: Vec<Prefix> = Vec::new();
        for given in &table.ranges {
            if let Some(groups) = self.groups_of_rp(given) {
                let range = Prefix { address: groups.address, length: groups.length.into() };
                if ranges.contains(&range) {
                    self.wrong(given.start(), format!("the groups {groups} are given twice"));
                }
                ranges.push(range);
            }
        }
        if table.ranges.is_empty() || table.ranges.len() > MOST_ADVERTISED {
            let reason = format!("a candidate RP has {} ranges; it has 1 to {MOST_ADVERTISED}", table.ranges.len());
            self.wrong(table.address.start(), reason);
        }
        let usual = CandidateRp::new(Ipv4Addr::UNSPECIFIED, &[]).priority;
        let priority = self.within("priority", &table.priority, usual, 0, 255);
        address.map(|address| CandidateRp { address, priority, ranges })
    }

    fn candidacy(&mut self, file: &File) -> CandidacySettings {
        CandidacySettings { bsr: self.candidate_bsr(file), rp: self.candidate_rp(file) }
    }

    fn routes(&mut self, table: &RoutesTable) -> RouteSettings {
        const MOST: u32 = 0x7fff_fffe;
        let preference = self.within("preference", &table.preference, 110, 0, MOST);
        let mut of_protocol = BTreeMap::new();
        for (name, value) in &table.preferences {
            let given = self.within("a preference", &Some(value.clone()), 0, 0, MOST);
            match PROTOCOLS.iter().find(|(word, _)| word == name.get_ref()) {
                Some((_, numbers)) => of_protocol.extend(numbers.iter().map(|number| (*number, given))),
                None => {
                    let words: Vec<_> = PROTOCOLS.iter().map(|(word, _)| *word).collect();
                    self.wrong(
                        value.start(),
                        format!("no protocol is named {}; there are {}", name.get_ref(), words.join(", ")),
                    );
                }
            }
        }
        RouteSettings { table: table.table, preference, of_protocol }
    }

    fn domain(&mut self, file: &File) -> Domain {
        // As the register tunnel of a table is named by it; those above are the kernel's own.
        const MOST: u32 = 999_999_999;
        const OF_THE_KERNEL: std::ops::RangeInclusive<u32> = 253..=255;
        const LONGEST_NAME: usize = 15;
        match (&file.table, &file.vrf) {
            (None, None) => Domain::Usual,
            (Some(table), None) => {
                let number = self.within("table", &file.table, 0, 1, MOST);
                if OF_THE_KERNEL.contains(&number) {
                    self.wrong(table.start(), format!("table is {number}, which is the kernel's own"));
                }
                Domain::Table(number)
            }
            (_, Some(vrf)) => {
                let name = vrf.get_ref();
                if file.table.is_some() {
                    self.wrong(vrf.start(), "table and vrf can't both be given".to_string());
                } else if name.is_empty() || name.len() > LONGEST_NAME || name.contains('/') {
                    self.wrong(vrf.start(), format!("vrf \"{name}\" can't be the name of an interface"));
                }
                Domain::Vrf(name.clone())
            }
        }
    }

    fn control(&mut self, file: &File, domain: &Domain) -> Place {
        let group = file.socket_group.clone();
        let usual = if group.is_some() { 0o660 } else { 0o600 };
        let read = |text: &String| u32::from_str_radix(text, 8).ok().filter(|mode| *mode <= 0o777);
        let mode = match &file.socket_mode {
            None => usual,
            Some(given) => read(given.get_ref()).unwrap_or_else(|| {
                let given_mode = given.get_ref();
                self.wrong(
                    given.start(),
                    format!("socket_mode is \"{given_mode}\"; it is to be permissions in octal, for example \"0660\""),
                );
                usual
            }),
        };
        let given = file.socket.as_ref();
        let path = given.map_or_else(|| usual_socket(domain.name().as_deref()), |path| path.get_ref().clone());
        let length = path.as_os_str().len();
        if let Some(given) = given.filter(|_| !(1..=LONGEST_SOCKET).contains(&length)) {
            let reason = format!("socket has {length} bytes; a socket's path has 1 to {LONGEST_SOCKET}");
            self.wrong(given.start(), reason);
        }
        Place { path, group, mode }
    }

    fn restart(&mut self, table: &RestartTable) -> RestartSettings {
        const MOST: u32 = 6_000;
        let ms = |tenths: u32| u64::from(tenths) * 100;
        RestartSettings {
            saves: table.save.unwrap_or(true),
            save_every: ms(self.tenths("save_every", &table.save_every, 20, MOST)),
            fresh: ms(self.tenths("fresh", &table.fresh, 100, MOST)),
        }
    }

    fn recorder(&mut self, table: &RecorderTable, domain: &Domain) -> Option<recorder::Place> {
        const MEGABYTE: u64 = 1_000_000;
        let size = u64::from(self.within("size", &table.size, 64, 1, 1_000_000)) * MEGABYTE;
        let name = domain.name().unwrap_or_else(|| "router".to_string());
        table.folder.clone().map(|folder| recorder::Place { folder, name, size })
    }

    fn listen(&mut self, given: &Text) -> Option<SocketAddr> {
        let given = given.as_ref()?;
        let read = given.get_ref().parse().ok().filter(|at: &SocketAddr| at.port() != 0);
        if read.is_none() {
            let text = given.get_ref();
            self.wrong(
                given.start(),
                format!("listen \"{text}\" isn't an address with a port, for example 127.0.0.1:9791"),
            );
        }
        read
    }

    fn all(&mut self, file: &File) -> Settings {
        let igmp = &file.igmp;
        let query_interval = self.within("query_interval", &igmp.query_interval, 125, 1, 31744);
        let query_response = self.tenths("query_response", &igmp.query_response, 100, 31744);
        if query_response >= query_interval.saturating_mul(10) {
            let at = igmp.query_response.as_ref().map(Spanned::start);
            let at = at.or_else(|| igmp.query_interval.as_ref().map(Spanned::start)).unwrap_or(0);
            self.wrong(at, "query_response is to be below query_interval".to_string());
        }
        let by_two = |version: &&Spanned<u32>| *version.get_ref() == 2;
        let found = file.interface.iter().filter_map(|table| table.version.as_ref()).find(by_two);
        if let Some(version) = found.filter(|_| query_response > MOST_RESPONSE) {
            self.wrong(version.start(), "with version 2 query_response is to be at most 25.5".to_string());
        }
        let limit = self.within("limit", &file.limit, 65536, LEAST_LIMIT, 1_000_000);
        let (usual, domain) = (self.usual_quotas(limit, file), self.domain(file));
        Settings {
            limit,
            stays_on_shared_tree: self.one_of("spt", &file.spt, &[("always", false), ("never", true)]),
            robustness: self.within("robustness", &igmp.robustness, 2, 2, 7),
            query_interval,
            query_response,
            last_member_query: self.tenths("last_member_query", &igmp.last_member_query, 10, 255),
            interfaces: self.interfaces(file, &usual),
            rps: self.rps(&file.rp),
            rp_sets: self.rp_sets(&file.anycast),
            msdp: self.msdp(&file.msdp),
            bsr: self.bsr(&file.bsr),
            candidacy: self.candidacy(file),
            policy: self.policy_of_none(&file.policy, &usual),
            routes: self.routes(&file.routes),
            level: self.one_of("log", &file.log, &LEVELS),
            control: self.control(file, &domain),
            metrics: self.listen(&file.metrics.listen),
            packs: file.pack.unwrap_or(true),
            guard: file.guard.unwrap_or(true),
            restart: self.restart(&file.restart),
            recorder: self.recorder(&file.recorder, &domain),
            domain,
        }
    }
}

/// The control socket of a router that has a table or a VRF of its own, or of the usual one.
pub fn usual_socket(instance: Option<&str>) -> PathBuf {
    let of = |name: &str| format!("/run/viqeshord-{name}/control");
    instance.map_or_else(|| USUAL_SOCKET.to_string(), of).into()
}

/// Why an interface can't have the name (dev_valid_name of the kernel).
fn not_a_name(name: &str) -> Option<&'static str> {
    const LONGEST: usize = 15;
    let is_odd = |letter: char| letter == '/' || letter == ':' || letter.is_whitespace();
    match name {
        "" => Some("is empty"),
        _ if name.len() > LONGEST => Some("is longer than 15 bytes, which no interface's is"),
        "." | ".." => Some("is no interface's"),
        _ => name.contains(is_odd).then_some("has a character that no interface's has"),
    }
}

/// Why an address of a subnet is no single host's.
fn of_all_hosts(subnet: Subnet) -> Option<&'static str> {
    let host = u32::from(subnet.address) & !mask(subnet.length);
    match subnet.length {
        31 | 32 => None,
        _ if host == 0 => Some("it is the network's own"),
        length => (host == !mask(length)).then_some("it is the broadcast address of its subnet"),
    }
}

/// Why groups have no RP.
pub fn without_rp(groups: Subnet) -> Option<&'static str> {
    let within = |address: [u8; 4], length: u8| {
        groups.length >= length && Subnet { address: address.into(), length }.contains(groups.prefix())
    };
    match groups {
        _ if within([232, 0, 0, 0], 8) => Some("are of SSM, and have no RP"),
        _ => within([224, 0, 0, 0], 24).then_some("never leave their link"),
    }
}

/// Why an interface of the router can't have the address.
pub fn not_a_host(subnet: Subnet) -> Option<&'static str> {
    let address = u32::from(subnet.address);
    if address == 0 || address >= 0xe000_0000 {
        return Some("it is no address of a host");
    }
    (subnet.length == 0).then_some("its subnet is everything")
}

/// What TOML's reader says. Of a key that it doesn't know it tells the line of the table, so the key is looked for
/// from there on.
fn not_read(text: &str, error: &toml::de::Error) -> Problem {
    let reason = error.to_string();
    let reason = reason.split(" at line ").next().unwrap_or(&reason).to_string();
    let line = error.line_col().map_or(0, |(line, _)| line + 1);
    let unknown = reason.strip_prefix("unknown field `").and_then(|rest| rest.split('`').next());
    let is_key = |given: &str, key: &str| given.split('=').next().map_or(false, |left| left.trim() == key);
    let found = unknown.and_then(|key| text.lines().skip(line.saturating_sub(1)).position(|given| is_key(given, key)));
    Problem { line: found.map_or(line, |after| line.max(1) + after), reason }
}

/// The settings of a file's text, or all that is wrong with it, by lines.
pub fn read(text: &str) -> Result<Settings, Vec<Problem>> {
    let file: File = toml::from_str(text).map_err(|error| vec![not_read(text, &error)])?;
    let mut check = Check { text, problems: Vec::new() };
    let settings = check.all(&file);
    if check.problems.is_empty() {
        return Ok(settings);
    }
    check.problems.sort_by_key(|problem| problem.line);
    Err(check.problems)
}

impl InterfaceSettings {
    /// Those of an interface of which a file says nothing but its name.
    pub fn usual(name: &str) -> InterfaceSettings {
        let (text, mut name) = ("[[interface]]\nname = \"any\"\n", name.to_string());
        let mut found = read(text).map(|settings| settings.interfaces).unwrap_or_default();
        let mut usual = found.remove(0);
        std::mem::swap(&mut usual.name, &mut name);
        usual
    }
}

impl Settings {
    /// Where the state is kept for a router that begins after this one died: beside the control socket.
    pub fn state_file(&self) -> PathBuf {
        let mut path = self.control.path.clone().into_os_string();
        path.push(".state");
        path.into()
    }

    /// What is of the library's router, which goes on with another configuration where it differs: all but the RP ranges,
    /// the sets of RPs, the lists, the quotas and the lines.
    pub fn differs_in_router(&self, other: &Settings) -> bool {
        let own = |it: &Settings| {
            let interface = |one: &InterfaceSettings| {
                (one.name.clone(), one.address, one.priority, one.propagation, one.override_interval)
            };
            (
                (it.limit, it.stays_on_shared_tree, it.robustness),
                (it.query_interval, it.query_response, it.last_member_query),
                it.interfaces.iter().map(interface).collect::<Vec<_>>(),
            )
        };
        own(self) != own(other)
    }

    /// What hosts may take of the limit together, and what is kept for neighbours.
    pub fn shares(&self) -> (u64, u64) {
        let policies = || self.interfaces.iter().map(|interface| &interface.policy);
        let hosts = policies().map(|policy| u64::from(policy.max_groups) + u64::from(policy.max_streams)).sum();
        (hosts, reserve(self.limit as usize, policies()) as u64)
    }
}

#[cfg(test)]
mod tests {
    use super::*;

    const SMALL: &str = "[[interface]]\nname = \"eth0\"\n";

    fn problems(text: &str) -> Vec<(usize, String)> {
        read(text).unwrap_err().into_iter().map(|it| (it.line, it.reason)).collect()
    }

    fn only(text: &str) -> (usize, String) {
        let mut found = problems(text);
        assert_eq!(found.len(), 1, "{found:?}");
        found.remove(0)
    }

    #[test]
    fn the_file_of_the_package_is_read() {
        assert!(read(include_str!("../viqeshord.toml")).is_ok());
    }

    #[test]
    fn what_is_left_out_is_usual() {
        let it = read(SMALL).unwrap();
        assert_eq!(
            (it.limit, it.robustness, it.query_interval, it.query_response, it.last_member_query),
            (65536, 2, 125, 100, 10)
        );
        assert!(!it.stays_on_shared_tree && it.packs && it.guard);
        let eth0 = &it.interfaces[0];
        assert_eq!(
            (eth0.priority, eth0.propagation, eth0.override_interval, eth0.address, eth0.line),
            (1, 500, 2500, None, 2)
        );
        assert_eq!((it.routes.table, it.routes.preference_of(188)), (None, 110));
        assert_eq!((eth0.hello, eth0.bfd), (HelloSettings { interval: 300, holdtime: 105 }, None));
        assert_eq!(eth0.speech, Speech { older_hosts: OlderHosts::All, queries: QueryVersion::Three });
        assert_eq!((it.control.path, it.control.group, it.control.mode), (USUAL_SOCKET.into(), None, 0o600));
        assert_eq!(it.metrics, None);
        assert!(it.bsr.is_none() && !eth0.is_bsr_border);
    }

    #[test]
    fn a_router_stands_as_bsr_and_as_rp() {
        let own = "address = \"10.0.0.1/24\"\n[bsr]\nlisten = true\n";
        let rp = |more: &str| format!("[rp_candidate]\naddress = \"10.0.0.1\"\n{more}");
        let of =
            |bsr: &str, rp: &str| read(&format!("{SMALL}{own}candidate = {{ {bsr} }}\n{rp}")).map(|it| it.candidacy);
        let address = Ipv4Addr::new(10, 0, 0, 1);
        let range = |text: &str| text.parse::<Prefix>().expect("a prefix");
        let usual = of("address = \"10.0.0.1\"", &rp("ranges = [\"239.0.0.0/8\", \"224.0.0.0/4\"]\n")).unwrap();
        assert_eq!(usual.bsr, Some(CandidateBsr { address, priority: 64, hash_length: 30, limit: 255 }));
        let ranges = vec![range("239.0.0.0/8"), range("224.0.0.0/4")];
        assert_eq!(usual.rp, Some(CandidateRp { address, priority: 192, ranges }));
        let all = "address = \"10.0.0.1\", priority = 255, hash_length = 0, limit = 1";
        let rp_of_all = of(all, &rp("priority = 0\nranges = [\"239.0.0.0/8\"]\n")).unwrap();
        assert_eq!(rp_of_all.bsr, Some(CandidateBsr { address, priority: 255, hash_length: 0, limit: 1 }));
        assert_eq!(rp_of_all.rp.map(|it| it.priority), Some(0));
        assert_eq!(read(SMALL).unwrap().candidacy, CandidacySettings::default());
        let wrong = |bsr: &str, rp: &str| only(&format!("{SMALL}{own}candidate = {{ {bsr} }}\n{rp}")).1;
        let good = "address = \"10.0.0.1\"";
        assert_eq!(wrong("address = \"10.0.0.1\", priority = 256", ""), "priority is 256; it is to be 0 to 255");
        assert_eq!(wrong("address = \"10.0.0.1\", hash_length = 33", ""), "hash_length is 33; it is to be 0 to 32");
        assert_eq!(wrong("address = \"10.0.0.1\", limit = 0", ""), "limit is 0; it is to be 1 to 255");
        assert_eq!(wrong("address = \"10.0.0.2\"", ""), "a candidate BSR 10.0.0.2: no [[interface]] has this address");
        assert_eq!(wrong(good, &rp("ranges = []\n")), "a candidate RP has 0 ranges; it has 1 to 183");
        let twice = "ranges = [\"239.0.0.0/8\", \"239.0.0.0/8\"]\n";
        assert_eq!(wrong(good, &rp(twice)), "the groups 239.0.0.0/8 are given twice");
        let ssm = "the groups 232.1.0.0/16 are of SSM, and have no RP";
        assert_eq!(wrong(good, &rp("ranges = [\"232.1.0.0/16\"]\n")), ssm);
        let deaf = format!("{SMALL}[bsr]\ncandidate = {{ {good} }}\n");
        assert_eq!(only(&deaf), (4, "a candidate BSR hears Bootstraps: `listen` of [bsr] is to be true".to_string()));
    }

    #[test]
    fn what_an_rp_no_longer_says_is_less() {
        let rp = |address: u8, ranges: &[&str]| CandidacySettings {
            bsr: None,
            rp: Some(CandidateRp::new(
                [10, 0, 0, address].into(),
                &ranges.iter().map(|it| it.parse().expect("a prefix")).collect::<Vec<_>>(),
            )),
        };
        let both = rp(1, &["239.0.0.0/8", "238.0.0.0/8"]);
        let mut other = both.clone();
        other.rp.iter_mut().for_each(|it| it.priority = 7);
        assert!(!both.says_less(Some(&both)) && !both.says_less(Some(&other)));
        assert!(both.says_less(None) && both.says_less(Some(&rp(1, &["239.0.0.0/8"]))));
        assert!(both.says_less(Some(&rp(2, &["239.0.0.0/8", "238.0.0.0/8"]))));
        assert!(!rp(1, &["239.0.0.0/8"]).says_less(Some(&both)) && !CandidacySettings::default().says_less(None));
        let is_first = |address: Ipv4Addr| address == Ipv4Addr::new(10, 0, 0, 1);
        assert_eq!((both.of_own(is_first), rp(2, &["239.0.0.0/8"]).of_own(is_first)), (Some(both.clone()), None));
    }

    #[test]
    fn bootstraps_are_heard() {
        let of = |bsr: &str| read(&format!("{SMALL}bsr_border = true\n[bsr]\n{bsr}"));
        let usual = of("listen = true\n").unwrap();
        let choice = Choice::Range;
        assert_eq!(usual.bsr, Some(BsrSettings { limit: 256, from: None, choice }));
        assert!(usual.interfaces[0].is_bsr_border);
        assert_eq!(of("listen = false\nlimit = 7\n").unwrap().bsr, None);
        let named = of("listen = true\nlimit = 7\nfrom = [\"10.0.0.9\"]\n").unwrap();
        assert_eq!(named.bsr, Some(BsrSettings { limit: 7, from: Some(vec![[10, 0, 0, 9].into()]), choice }));
        let choice = |word: &str| of(&format!("listen = true\nchoice = \"{word}\"\n")).map(|it| it.bsr.unwrap().choice);
        assert_eq!([choice("range").unwrap(), choice("group").unwrap()], [Choice::Range, Choice::Group]);
        let wrong = |bsr: &str| only(&format!("{SMALL}[bsr]\n{bsr}"));
        assert_eq!(wrong("limit = 0\n"), (4, "limit is 0; it is to be 1 to 256".to_string()));
        assert_eq!(wrong("from = [\"224.0.0.1\"]\n"), (4, "the BSR 224.0.0.1: it is no address of a host".to_string()));
        let reason = "choice is \"hash\"; it is to be \"range\" or \"group\"".to_string();
        assert_eq!(wrong("listen = true\nchoice = \"hash\"\n"), (5, reason));
    }

    #[test]
    fn rps_tell_each_other_of_sources() {
        let of = |tables: &str| format!("{SMALL}{tables}");
        let peer = |more: &str| format!("[[msdp]]\npeer = \"10.0.0.9\"\naddress = \"10.0.0.2\"\n{more}");
        let (at, own) = (Ipv4Addr::new(10, 0, 0, 9), Ipv4Addr::new(10, 0, 0, 2));
        let usual = MsdpPeer {
            peer: at,
            address: own,
            mesh: None,
            rpf: Vec::new(),
            max_kept: 8_192,
            accept: List(None),
            tell: List(None),
        };
        assert_eq!(read(&of(&peer(""))).unwrap().msdp, std::slice::from_ref(&usual));
        assert!(!usual.listens() && MsdpPeer { peer: own, address: at, ..usual.clone() }.listens());
        let more =
            "mesh = \"a\"\nrpf = [\"10.8.0.0/16\"]\nmax_kept = 7\naccept = []\ntell = [{ groups = \"239.0.0.0/8\" }]\n";
        let all = read(&of(&peer(more))).unwrap().msdp.remove(0);
        assert_eq!(
            (all.mesh.as_deref(), all.max_kept, all.rpf[0].to_string()),
            (Some("a"), 7, "10.8.0.0/16".to_string())
        );
        let group = |last: u8| Ipv4Addr::new(last, 1, 1, 1);
        assert!(all.tell.permits(Some(at), group(239)) && !all.tell.permits(Some(at), group(238)));
        assert!(!all.accept.permits(Some(at), group(239)));
        let wrong = |tables: &str| only(&of(tables));
        let twice = [peer(""), peer("")].concat();
        assert_eq!(wrong(&twice), (7, "the peer 10.0.0.9 is given twice".to_string()));
        let itself = peer("").replace("10.0.0.9", "10.0.0.2");
        assert_eq!(wrong(&itself), (4, "the peer is this router itself".to_string()));
        assert_eq!(wrong(&peer("max_kept = 0\n")), (6, "max_kept is 0; it is to be 1 to 1000000".to_string()));
        assert_eq!(wrong(&peer("").replace("10.0.0.9", "224.0.0.9")).0, 4);
        let many: String = (1..=65).map(|last| peer("").replace("10.0.0.9", &format!("10.0.1.{last}"))).collect();
        assert_eq!(wrong(&many).1, "at most 64 peers have a session");
    }

    #[test]
    fn rps_share_an_address() {
        let of = |tables: &str| format!("{SMALL}{tables}");
        let set = |shared: &str, own: &str, others: &str| {
            format!("[[anycast]]\nshared = \"{shared}\"\nown = \"{own}\"\nothers = [{others}]\n")
        };
        let (shared, own, other) = ([10, 9, 9, 9].into(), [10, 0, 0, 2].into(), [10, 0, 0, 3].into());
        let read_sets = read(&of(&set("10.9.9.9", "10.0.0.2", "\"10.0.0.3\""))).unwrap().rp_sets;
        assert_eq!(read_sets, [RpSet { shared, own, others: vec![other] }]);
        let told = |tables: &str| only(&of(tables));
        let wrong = told(&set("10.9.9.x", "10.0.0.2", ""));
        assert_eq!(wrong, (4, "the shared address \"10.9.9.x\" isn't an IPv4 address".to_string()));
        let wrong = told(&set("127.0.0.9", "10.0.0.2", ""));
        assert_eq!(wrong, (4, "the shared address 127.0.0.9: no other router reaches it".to_string()));
        let wrong = told(&set("10.9.9.9", "224.0.0.9", ""));
        assert_eq!(wrong, (5, "the own address 224.0.0.9: it is no address of a host".to_string()));
        let wrong = told(&set("10.9.9.9", "10.9.9.9", ""));
        assert_eq!(wrong, (5, "the own address 10.9.9.9 is one that routers share".to_string()));
        let wrong = told(&set("10.9.9.9", "10.0.0.2", "\"10.0.0.3\", \"10.0.0.3\""));
        assert_eq!(wrong, (6, "the address of another RP 10.0.0.3 is given twice".to_string()));
        let wrong = told(&set("10.9.9.9", "10.0.0.2", "\"10.0.0.2\""));
        assert_eq!(wrong, (6, "the address of another RP 10.0.0.2 is this router's own".to_string()));
        let many = (1..=17).map(|last| format!("\"10.0.1.{last}\"")).collect::<Vec<_>>().join(", ");
        assert_eq!(told(&set("10.9.9.9", "10.0.0.2", &many)).1, "at most 16 others share an address with a router");
        let twice = [set("10.9.9.9", "10.0.0.2", ""), set("10.9.9.9", "10.0.0.2", "")].concat();
        assert_eq!(told(&twice), (8, "the shared address 10.9.9.9 is given twice".to_string()));
        let of_another = [set("10.9.9.9", "10.8.8.8", ""), set("10.8.8.8", "10.0.0.2", "")].concat();
        assert_eq!(told(&of_another), (5, "the own address 10.8.8.8 is one that routers share".to_string()));
    }

    #[test]
    fn a_table_or_a_vrf_has_a_socket_of_its_own() {
        let of = |line: &str| read(&format!("{line}\n{SMALL}")).map(|it| (it.domain, it.control.path));
        assert_eq!(of("").unwrap(), (Domain::Usual, "/run/viqeshord/control".into()));
        assert_eq!(of("table = 100").unwrap(), (Domain::Table(100), "/run/viqeshord-100/control".into()));
        let red = (Domain::Vrf("red".to_string()), "/run/viqeshord-red/control".into());
        assert_eq!(of("vrf = \"red\"").unwrap(), red);
        for wrong in ["table = 0", "table = 254", "table = 1000000000", "vrf = \"a/b\"", "table = 7\nvrf = \"red\""] {
            assert_eq!(of(wrong).unwrap_err().len(), 1, "{wrong}");
        }
    }

    #[test]
    fn a_hello_holds_three_and_a_half_times_its_interval() {
        let holdtime = |interval: &str| {
            read(&format!("{SMALL}hello_interval = {interval}\n")).unwrap().interfaces[0].hello.holdtime
        };
        assert_eq!(["0.1", "0.3", "1", "5", "30"].map(holdtime), [1, 2, 4, 18, 105]);
    }

    #[test]
    fn all_that_can_be_said_is_taken() {
        let text = "limit = 9\nspt = \"never\"\nlog = \"debug\"\nsocket = \"/run/x\"\nsocket_group = \"adm\"\npack = false\nguard = false\n[metrics]\nlisten = \"[::1]:9791\"\n[igmp]\nrobustness = 3\n\
            query_interval = 20\nquery_response = 1.5\nlast_member_query = 2\nolder_hosts = \"none\"\n\
            [routes]\ntable = 7\npreference = 5\n[routes.preferences]\nstatic = 1\n\
            [[interface]]\nname = \"a\"\naddress = \"10.0.0.1/24\"\npriority = 7\npropagation = 1\noverride = 2\noverride_twice = true\nhello_interval = 0.3\nhello_holdtime = 1\nbfd = true\nbfd_interval = 100\n\
            [[rp]]\ngroups = \"239.0.0.0/8\"\naddress = \"10.0.0.1\"\n";
        let it = read(text).unwrap();
        assert_eq!((it.limit, it.stays_on_shared_tree, it.level), (9, true, LevelFilter::Debug));
        assert!(!it.packs && !it.guard);
        let control = Place { path: "/run/x".into(), group: Some("adm".to_string()), mode: 0o660 };
        assert_eq!((it.control, it.metrics.map(|at| at.to_string())), (control, Some("[::1]:9791".to_string())));
        assert_eq!((it.robustness, it.query_interval, it.query_response, it.last_member_query), (3, 20, 15, 20));
        let subnet = Subnet { address: Ipv4Addr::new(10, 0, 0, 1), length: 24 };
        let a = InterfaceSettings {
            name: "a".to_string(),
            address: Some(subnet),
            priority: 7,
            propagation: 1,
            override_interval: 2,
            overrides_twice: true,
            hello: HelloSettings { interval: 3, holdtime: 1 },
            bfd: Some(Times { interval: 100, multiplier: 3 }),
            speech: Speech { older_hosts: OlderHosts::Nobody, queries: QueryVersion::Three },
            policy: it.interfaces[0].policy.clone(),
            is_bsr_border: false,
            line: 22,
        };
        assert_eq!(it.interfaces, [a]);
        assert_eq!((it.routes.table, it.routes.preference_of(196), it.routes.preference_of(188)), (Some(7), 1, 5));
        assert_eq!(
            (it.rps[0].groups.to_string(), it.rps[0].address),
            ("239.0.0.0/8".to_string(), Ipv4Addr::new(10, 0, 0, 1))
        );
    }

    #[test]
    fn an_interface_has_its_own_older_hosts_and_version() {
        let text = "[igmp]\nolder_hosts = \"v2\"\n[[interface]]\nname = \"a\"\n\
            [[interface]]\nname = \"b\"\nolder_hosts = \"all\"\nversion = 2\n\
            [[interface]]\nname = \"c\"\nolder_hosts = \"none\"\nversion = 3\n";
        let spoken: Vec<_> = read(text).unwrap().interfaces.iter().map(|it| it.speech).collect();
        let speech = |older_hosts, queries| Speech { older_hosts, queries };
        let wanted = [
            speech(OlderHosts::VersionTwo, QueryVersion::Three),
            speech(OlderHosts::All, QueryVersion::Two),
            speech(OlderHosts::Nobody, QueryVersion::Three),
        ];
        assert_eq!(spoken, wanted);
        let told = |lines: &str| only(&format!("{SMALL}{lines}"));
        assert_eq!(
            told("older_hosts = \"v1\"\n"),
            (3, "older_hosts is \"v1\"; it is to be \"all\" or \"v2\" or \"none\"".to_string())
        );
        assert_eq!(told("version = 1\n"), (3, "version is 1; it is to be 2 to 3".to_string()));
        assert_eq!(told("older_hosts = \"none\"\nversion = 2\n").0, 4);
        let slow = |version: u32| format!("[igmp]\nquery_response = 25.6\n{SMALL}version = {version}\n");
        assert_eq!(only(&slow(2)), (5, "with version 2 query_response is to be at most 25.5".to_string()));
        assert!(read(&slow(3)).is_ok());
        // What is of all interfaces is said once.
        let two = format!("[igmp]\nolder_hosts = \"some\"\n{SMALL}[[interface]]\nname = \"eth1\"\n");
        assert_eq!(only(&two).0, 2);
    }

    #[test]
    fn a_problem_has_its_line() {
        assert_eq!(
            only(&format!("# none\nlimit = 0\n{SMALL}")),
            (2, "limit is 0; it is to be 4 to 1000000".to_string())
        );
        assert_eq!(only(&format!("{SMALL}address = \"10.0.0.1\"\n")).0, 3);
        assert_eq!(only(&format!("{SMALL}propagation = 32768\n")).0, 3);
        assert_eq!(only(&format!("{SMALL}hello_interval = 31\n")).0, 3);
        assert_eq!(only(&format!("{SMALL}bfd = true\nbfd_interval = 49\n")).0, 4);
        assert_eq!(only(&format!("{SMALL}bfd_multiplier = 1\n")).0, 3);
        assert_eq!(
            only(&format!("{SMALL}hello_interval = 2\nhello_holdtime = 2\n")),
            (4, "hello_holdtime is 2; it is to be 3 to 65535".to_string())
        );
        assert_eq!(only(&format!("{SMALL}[[rp]]\ngroups = \"239.0.0.1/8\"\naddress = \"10.0.0.1\"\n")).0, 4);
        assert_eq!(only(&format!("{SMALL}[[rp]]\ngroups = \"239.0.0.0/8\"\naddress = \"rp\"\n")).0, 5);
        assert_eq!(only(&format!("{SMALL}[[rp]]\ngroups = \"239.0.0.0/8\"\naddress = \"224.0.0.1\"\n")).0, 5);
        assert_eq!(only(&format!("{SMALL}[routes.preferences]\nospf = 1\nospv = 2\n")).0, 5);
        assert_eq!(only(&format!("socket_mode = \"0668\"\n{SMALL}")).0, 1);
        assert_eq!(only(&format!("{SMALL}[metrics]\nlisten = \"9791\"\n")).0, 4);
    }

    #[test]
    fn odd_files_are_wrong() {
        let rp =
            |groups: &str, address: &str| format!("{SMALL}[[rp]]\ngroups = \"{groups}\"\naddress = \"{address}\"\n");
        for groups in ["232.0.0.0/8", "232.1.0.0/16", "224.0.0.0/24", "224.0.0.13/32"] {
            assert_eq!(only(&rp(groups, "10.0.0.1")).0, 4, "{groups}");
        }
        assert!(read(&rp("224.0.0.0/4", "10.0.0.1")).is_ok());
        assert_eq!(only(&rp("239.0.0.0/8", "127.0.0.1")).0, 5);
        let long = "x".repeat(16);
        for name in ["", "a/b", "a\\nb", "a b", "a:b", ".", "..", &long] {
            assert_eq!(only(&format!("[[interface]]\nname = \"{name}\"\n")).0, 2, "{name}");
        }
        assert!(read(&format!("[[interface]]\nname = \"{}\"\n", &long[1..])).is_ok());
        for address in ["10.0.0.0/24", "10.0.0.255/24", "10.0.0.4/30", "127.0.0.1/8", "255.255.255.255/32"] {
            assert_eq!(only(&format!("{SMALL}address = \"{address}\"\n")).0, 3, "{address}");
        }
        for address in ["10.0.0.0/31", "10.0.0.255/32", "10.0.0.255/23"] {
            assert!(read(&format!("{SMALL}address = \"{address}\"\n")).is_ok(), "{address}");
        }
        assert_eq!(only(&format!("limit = 3\n{SMALL}")).0, 1);
        assert_eq!(only(&format!("socket = \"/{}\"\n{SMALL}", "x".repeat(199))).0, 1);
        assert!(read(&format!("socket = \"/{}\"\n{SMALL}", "x".repeat(106))).is_ok());
        assert_eq!(only(&format!("{SMALL}[metrics]\nlisten = \"127.0.0.1:0\"\n")).0, 4);
    }

    #[test]
    fn neighbours_are_within_the_subnet_or_the_link_is_unnumbered() {
        let with = |lines: &str| format!("{SMALL}address = \"10.0.0.1/24\"\n{lines}");
        assert!(read(&with("neighbors = [\"10.0.0.2\", \"10.0.0.8/29\", \"10.0.0.0/16\"]\n")).is_ok());
        assert_eq!(only(&with("neighbors = [\"10.0.0.2\", \"10.0.1.2\"]\n")).0, 4);
        assert!(read(&with("unnumbered = true\nneighbors = [\"10.0.1.2\"]\n")).is_ok());
    }

    #[test]
    fn what_is_no_toml_or_has_an_unknown_key_has_its_line() {
        assert_eq!(only("limit = \n").0, 1);
        let (line, reason) = only(&format!("{SMALL}adress = \"10.0.0.1/24\"\n"));
        assert!(reason.contains("adress"), "{reason}");
        assert_eq!(line, 3);
        assert_eq!(only(&format!("{SMALL}\nlimitt = 7\n")).0, 4);
        assert_eq!(only(&format!("{SMALL}priority = \"high\"\n")).0, 3);
        assert_eq!(only("[[interface]]\npriority = 7\n").0, 1);
    }

    #[test]
    fn all_problems_are_told() {
        let text = "limit = 0\n[igmp]\nrobustness = 9\nquery_interval = 5\n";
        let lines: Vec<_> = problems(text).into_iter().map(|(line, _)| line).collect();
        assert_eq!(lines, [0, 1, 3, 4]);
    }

    #[test]
    fn overlaps_twice_and_too_many_are_said() {
        let one = |number: usize| format!("[[interface]]\nname = \"eth{number}\"\naddress = \"10.0.{number}.1/24\"\n");
        assert_eq!(only(&format!("{}{}", one(1), one(1).replace("eth1", "eth2"))).0, 5);
        assert_eq!(only(&format!("{SMALL}{SMALL}")).0, 4);
        let many: String = (0..32).map(one).collect();
        assert_eq!(only(&many).0, 31 * 3 + 2);
        let some: String = (0..31).map(one).collect();
        assert!(read(&some).is_ok());
        let apart = |more: &str| format!("{some}[[interface]]\nname = \"dummy0\"\naddress = \"10.255.0.1/32\"\n{more}");
        assert!(read(&format!("{}[[interface]]\nname = \"lo\"\n", apart(""))).is_ok());
        assert_eq!(only(&apart("unnumbered = true\n")).0, 31 * 3 + 2);
    }

    #[test]
    fn what_is_of_the_router_is_told_apart() {
        let old = read(SMALL).unwrap();
        let differs = |text: &str| old.differs_in_router(&read(text).unwrap());
        assert!(!differs(&format!("# a line\n{SMALL}")));
        assert!(!differs(&format!(
            "log = \"debug\"\n{SMALL}passive = true\nversion = 2\nolder_hosts = \"v2\"\n[[rp]]\ngroups = \"239.0.0.0/8\"\naddress = \"10.0.0.1\"\n"
        )));
        assert!(differs(&format!("limit = 7\n{SMALL}")) && differs(&format!("{SMALL}priority = 2\n")));
        assert!(differs(&format!("{SMALL}[[interface]]\nname = \"eth1\"\n")));
    }

    #[test]
    fn lists_and_quotas_are_read() {
        let text = "[policy]\nmax_groups = 9\njoin = [{ groups = \"239.1.0.0/16\", permit = false }, {}]\n\
            register = [{ sources = \"10.1.0.0/16\" }]\nmax_registered = 5\n\
            [[interface]]\nname = \"a\"\npassive = true\n\
            [[interface]]\nname = \"b\"\nneighbors = [\"10.0.0.2\", \"10.0.0.8/29\"]\n\
            max_groups = 3\njoin = []\nsend = [{ sources = \"10.2.0.0/16\", groups = \"239.2.0.0/16\" }]\n";
        let it = read(text).unwrap();
        let (a, b) = (&it.interfaces[0].policy, &it.interfaces[1].policy);
        let permits = |list: &List, group: [u8; 4]| list.permits(Some([10, 2, 0, 1].into()), group.into());
        assert_eq!(
            (a.is_passive, a.max_groups, b.max_groups, b.max_neighbours, it.policy.max_registered),
            (true, 9, 3, 32, 5)
        );
        assert_eq!((a.max_host_groups, b.max_host_groups), (9, 3));
        let of_host = |lines: &str| read(&format!("{SMALL}{lines}")).unwrap().interfaces[0].policy.max_host_groups;
        assert_eq!([of_host("max_groups = 1000\n"), of_host("max_groups = 100\n")], [250, 64]);
        assert_eq!(of_host("max_groups = 1000\nmax_host_groups = 900\n"), 900);
        assert!(
            !permits(&a.join, [239, 1, 0, 1]) && permits(&a.join, [239, 2, 0, 1]) && !permits(&b.join, [239, 2, 0, 1])
        );
        assert!(
            permits(&b.send, [239, 2, 0, 1]) && !permits(&b.send, [239, 3, 0, 1]) && permits(&a.send, [239, 3, 0, 1])
        );
        assert!(!permits(&it.policy.register, [239, 2, 0, 1]));
        let believed: Vec<_> = b.neighbours.iter().flatten().map(Subnet::to_string).collect();
        assert_eq!(believed, ["10.0.0.2/32", "10.0.0.8/29"]);
        assert_eq!(only(&format!("{SMALL}join = [{{ groups = \"10.0.0.0/8\" }}]\n")).0, 3);
        assert_eq!(only(&format!("{SMALL}max_neighbors = 65\n")).0, 3);
        assert_eq!(only(&format!("{SMALL}neighbors = [\"10.0.0\"]\n")).0, 3);
    }

    #[test]
    fn usual_quotas_keep_room_for_neighbours() {
        let text: String = (0..4).map(|number| format!("[[interface]]\nname = \"eth{number}\"\n")).collect();
        let (hosts, kept) = read(&text).unwrap().shares();
        assert_eq!((hosts, kept), (65_408, 128));
        let (hosts, kept) = read(&format!("{text}max_groups = 70000\n")).unwrap().shares();
        assert!(hosts + kept > 65_536);
    }
}
