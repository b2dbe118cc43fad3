//! What the router says of itself over the control socket, as tables of text and as JSON.
mod forwarded;
pub mod joins;
mod sheet;
mod why;

use crate::counters::by_reason;
use crate::daemon::{Chosen, Daemon, Peer, Rp};
use crate::error::Fatal;
use crate::metrics::{families, Family};
use crate::older::Version;
use crate::ports::{Port, Standing};
use crate::routes::{longest, Counts};
use crate::settings::RpSettings;
use clap::ValueEnum;
use serde_json::{json, Value};
use sheet::Sheet;
use std::collections::{BTreeMap, BTreeSet, HashMap};
use std::io::{self, Write};
use std::net::Ipv4Addr;
use viqeshor::{GroupRow, NeighbourRow, OlderRow, Range, Role, SourceRow, UpstreamRow};

/// What can be shown.
#[derive(Clone, Copy, Debug, PartialEq, Eq, ValueEnum)]
pub enum Topic {
    /// The kernel's forwarding cache, and who asks for what
    Mroute,
    /// Why an interface is in a tree's list of outgoing interfaces, or isn't: of all groups, a group or a source of one
    Why,
    /// PIM neighbours
    Neighbors,
    /// Groups and sources that hosts asked for
    Igmp,
    /// RPs, and the routes to them
    Rp,
    /// The bootstrap router, the RPs that are learned of it, and what the router does as a candidate
    Bsr,
    /// Peers of MSDP, and the sources that they said and that are told to them
    Msdp,
    /// Interfaces, and why one is down
    Interfaces,
    /// What neighbours have joined
    Joins,
    /// What the router has joined, and where it sends Joins
    Upstream,
    /// Asserts, and who won
    Asserts,
    /// The routes to RPs and sources, or to one address
    Rpf,
    /// How often each counted thing happened
    Counters,
}

impl Topic {
    pub fn name(self) -> &'static str {
        match self {
            Topic::Mroute => "mroute",
            Topic::Why => "why",
            Topic::Neighbors => "neighbors",
            Topic::Igmp => "igmp",
            Topic::Rp => "rp",
            Topic::Bsr => "bsr",
            Topic::Msdp => "msdp",
            Topic::Interfaces => "interfaces",
            Topic::Joins => "joins",
            Topic::Upstream => "upstream",
            Topic::Asserts => "asserts",
            Topic::Rpf => "rpf",
            Topic::Counters => "counters",
        }
    }

    fn of(name: &str) -> Option<Topic> {
        Topic::value_variants().iter().find(|topic| topic.name() == name).copied()
    }
}

/// Named values, in the order in which a table of text has them.
type Cells = Vec<(&'static str, Value)>;
type Rows = Vec<Cells>;

/// Of which groups and sources rows are wanted: of all, of a group, or of a source of it.
#[derive(Clone, Copy, Default)]
pub struct About {
    group: Option<Ipv4Addr>,
    source: Option<Ipv4Addr>,
}

impl About {
    pub fn has_group(&self, group: Ipv4Addr) -> bool {
        self.group.map_or(true, |wanted| wanted == group)
    }

    /// Whether rows of a group, or of a source of it, are wanted.
    fn has(&self, group: Ipv4Addr, source: Option<Ipv4Addr>) -> bool {
        self.has_group(group) && (self.source.is_none() || self.source == source)
    }
}

/// What a line of a client asks for.
struct Asked {
    topic: Topic,
    /// The addresses behind it.
    addresses: Vec<Ipv4Addr>,
    is_json: bool,
}

impl Asked {
    fn read(line: &str) -> Result<Asked, String> {
        let mut words: Vec<_> = line.split_whitespace().collect();
        let is_json = words.last() == Some(&"json");
        words.truncate(words.len() - usize::from(is_json));
        let (name, about) = match words[..] {
            ["show", name, ref about @ ..] if about.len() <= most_about(name) => (name, about),
            _ => return Err(format!("\"{line}\" is nothing that can be asked")),
        };
        let names = || Topic::value_variants().iter().map(|topic| topic.name()).collect::<Vec<_>>().join(", ");
        let topic = Topic::of(name).ok_or_else(|| format!("there is no \"{name}\" to show, but {}", names()))?;
        let addresses = about.iter().map(address_in).collect::<Result<Vec<_>, _>>()?;
        match addresses.first() {
            Some(group) if topic != Topic::Rpf && !group.is_multicast() => Err(format!("{group} isn't a group")),
            _ => Ok(Asked { topic, addresses, is_json }),
        }
    }

    fn about(&self) -> About {
        About { group: self.addresses.first().copied(), source: self.addresses.get(1).copied() }
    }
}

/// Writes the answer to a line of a client, row by row.
pub fn answer(daemon: &mut Daemon, line: &str, to: &mut dyn Write) -> io::Result<()> {
    let asked = match Asked::read(line) {
        Ok(asked) => asked,
        Err(error) => return writeln!(to, "error: {error}"),
    };
    let mut sheet = Sheet::new(to, asked.topic.name(), asked.is_json);
    match rows(daemon, &asked, &mut sheet) {
        Ok(()) => sheet.end(),
        Err(error) if sheet.is_blank() => writeln!(to, "error: {error}"),
        Err(error) => Err(error),
    }
}

/// How many addresses may stand after the name of a topic.
fn most_about(name: &str) -> usize {
    match Topic::of(name) {
        Some(Topic::Rp | Topic::Rpf) => 1,
        Some(Topic::Mroute | Topic::Why | Topic::Igmp | Topic::Joins | Topic::Upstream | Topic::Asserts) => 2,
        _ => 0,
    }
}

/// An address that stands after a topic.
fn address_in(text: &&str) -> Result<Ipv4Addr, String> {
    text.parse().map_err(|_| format!("\"{text}\" isn't an IPv4 address"))
}

fn rows(daemon: &mut Daemon, asked: &Asked, sheet: &mut Sheet) -> io::Result<()> {
    let about = asked.about();
    let few = match asked.topic {
        Topic::Mroute => return forwarded::mroute(daemon, about, sheet),
        Topic::Why => return why::why(daemon, about, sheet),
        Topic::Igmp => return igmp(daemon, about, sheet),
        Topic::Joins => return joins::joins(daemon, about, sheet),
        Topic::Upstream => return joins::upstream(daemon, about, sheet),
        Topic::Asserts => return joins::asserts(daemon, about, sheet),
        Topic::Neighbors => neighbours(daemon)?,
        Topic::Rp => rp(daemon, asked.addresses.first().copied())?,
        Topic::Bsr => bsr(daemon),
        Topic::Msdp => msdp(daemon),
        Topic::Interfaces => interfaces(daemon)?,
        Topic::Rpf => joins::rpf(daemon, asked.addresses.first().copied())?,
        Topic::Counters => counters(daemon)?,
    };
    few.into_iter().try_for_each(|row| sheet.row(row))
}

fn seconds(milliseconds: u64) -> Value {
    json!((milliseconds / 100) as f64 / 10.0)
}

/// The seconds until a moment; null where none comes.
fn until(end: Option<u64>, now: u64) -> Value {
    end.map_or(Value::Null, |end| seconds(end.saturating_sub(now)))
}

fn address(number: u32) -> Value {
    json!(Ipv4Addr::from(number).to_string())
}

/// Whether an address is the router's.
fn is_here(daemon: &Daemon, address: Ipv4Addr) -> bool {
    daemon.ports.iter().any(|port| port.address() == Some(address))
}

// ---- RPs and ways

/// RP(G).
pub fn rp_of(daemon: &Daemon, group: u32) -> Option<Ipv4Addr> {
    daemon.core.tree(group.into())?.rp
}

/// The interface towards an address, and the next hop, or the address itself on a link of the router.
fn way(daemon: &Daemon, to: Ipv4Addr) -> Option<(u32, Ipv4Addr)> {
    let number = u32::from(to);
    let is_there = |port: &&Port| port.standing.is_up() && port.covered().contains(number);
    let own = daemon.ports.iter().find(is_there);
    if let Some(port) = own {
        return Some((port.number, to));
    }
    longest(&daemon.routing.told, number).map(|(next_hop, iface)| (iface, next_hop.into()))
}

/// The one by which a group has its RP.
fn of_group(daemon: &Daemon, rps: Vec<Rp>, group: Ipv4Addr) -> Vec<Rp> {
    let number = u32::from(group);
    let rp = rp_of(daemon, number);
    let has =
        |it: &Rp| it.chosen != Chosen::Nothing && Some(it.range.address) == rp && it.range.groups.contains(number);
    rps.into_iter().filter(has).max_by_key(|it| it.range.groups.length).into_iter().collect()
}

/// All RPs of ranges, or that of a group.
fn rp(daemon: &mut Daemon, of: Option<Ipv4Addr>) -> Result<Rows, Fatal> {
    let joined = daemon.core.rows_of::<UpstreamRow>()?;
    let mut groups: BTreeSet<u32> = joined.iter().map(|row| u32::from(row.group)).collect();
    groups.extend(daemon.core.rows_of::<GroupRow>()?.iter().map(|row| u32::from(row.group)));
    let groups: Vec<_> = groups.into_iter().map(|group| (group, rp_of(daemon, group))).collect();
    let (all, now) = (daemon.rps(), daemon.now());
    let ranges = match of {
        Some(group) => of_group(daemon, all, group),
        None => all,
    };
    let others = |rp: Ipv4Addr| {
        let set = daemon.core.rp_sets().iter().find(|set| set.shared == rp);
        set.iter().flat_map(|set| &set.others).map(Ipv4Addr::to_string).collect::<Vec<_>>()
    };
    let row = |rp: &Rp| {
        let range = &rp.range;
        let is_here = is_here(daemon, range.address);
        let way = way(daemon, range.address).filter(|_| !is_here);
        let is_used = |(group, of_group): &&(u32, Option<Ipv4Addr>)| {
            rp.chosen != Chosen::Nothing && *of_group == Some(range.address) && range.groups.contains(*group)
        };
        vec![
            ("groups", json!(range.groups.to_string())),
            ("rp", json!(range.address.to_string())),
            ("is_here", json!(is_here)),
            ("shared_with", json!(others(range.address))),
            ("interface", way.map_or(Value::Null, |(iface, _)| json!(daemon.name(iface)))),
            ("next_hop", way.map_or(Value::Null, |(_, hop)| json!(hop.to_string()))),
            ("used_by", json!(groups.iter().filter(is_used).count())),
            ("from", json!(if rp.learned.is_some() { "bsr" } else { "file" })),
            ("chosen_for", json!(rp.chosen.name())),
            ("priority", rp.learned.map_or(Value::Null, |learned| json!(learned.priority))),
            ("hash_length", rp.learned.map_or(Value::Null, |learned| json!(learned.hash_length))),
            ("expires_seconds", until(rp.learned.map(|learned| learned.end), now)),
        ]
    };
    Ok(ranges.iter().map(row).collect())
}

/// A row of what is known of Bootstraps: of the BSR, of an RP, or of a role of the router.
struct OfBsr {
    what: &'static str,
    groups: Option<String>,
    address: Ipv4Addr,
    priority: u32,
    in_use: Option<bool>,
    /// As candidate BSR.
    role: Option<&'static str>,
    /// The BSR that is told of the RP.
    tells: Option<Ipv4Addr>,
    end: Option<u64>,
}

impl OfBsr {
    fn new(what: &'static str, address: Ipv4Addr, priority: u32, end: Option<u64>) -> OfBsr {
        OfBsr { what, groups: None, address, priority, in_use: None, role: None, tells: None, end }
    }

    fn of_range(what: &'static str, range: &Range, priority: u32, end: Option<u64>) -> OfBsr {
        OfBsr { groups: Some(RpSettings::of(range).groups.to_string()), ..OfBsr::new(what, range.rp, priority, end) }
    }

    fn cells(&self, daemon: &Daemon) -> Cells {
        let now = daemon.now();
        let since =
            daemon.bsr_since.filter(|_| self.what == "BSR").map(|(_, since)| seconds(now.saturating_sub(since)));
        vec![
            ("what", json!(self.what)),
            ("groups", json!(self.groups)),
            ("address", json!(self.address.to_string())),
            ("priority", json!(self.priority)),
            ("in_use", json!(self.in_use)),
            ("role", json!(self.role)),
            ("tells", json!(self.tells.map(|bsr| bsr.to_string()))),
            ("up_seconds", json!(since)),
            ("expires_seconds", until(self.end, now)),
        ]
    }
}

/// The elected BSR, the RPs that are learned, those that wait for other fragments of their message, and what the router
/// does as a candidate.
fn bsr(daemon: &mut Daemon) -> Rows {
    let core = &daemon.core;
    let mut rows: Vec<_> =
        core.elected().map(|it| OfBsr::new("BSR", it.bsr, it.priority, Some(it.end))).into_iter().collect();
    rows.extend(
        core.learned().iter().map(|it| OfBsr {
            in_use: Some(it.is_given),
            ..OfBsr::of_range("RP", &it.range, it.priority, Some(it.end))
        }),
    );
    rows.extend(
        core.learned_parts()
            .iter()
            .map(|it| OfBsr { in_use: Some(false), ..OfBsr::of_range("waits", &it.range, it.priority, Some(it.end)) }),
    );
    rows.extend(of_candidacy(daemon));
    rows.iter().map(|row| row.cells(daemon)).collect()
}

/// As what the router stands, whom it tells of its RP, and which RPs advertised themselves to it.
fn of_candidacy(daemon: &Daemon) -> Vec<OfBsr> {
    let (stands, standing) = match (daemon.core.stands_as(), daemon.core.standing()) {
        (Some(stands), Some(standing)) => (stands, standing),
        _ => return Vec::new(),
    };
    let role = standing.role.map(|role| match role {
        Role::Candidate => "candidate",
        Role::Pending => "pending",
        Role::Elected => "elected",
    });
    let as_bsr =
        stands.bsr.map(|it| OfBsr { role, ..OfBsr::new("candidate BSR", it.address, it.priority, standing.end) });
    let mut rows: Vec<_> = as_bsr.into_iter().collect();
    let held = daemon.core.held();
    rows.extend(held.iter().map(|it| OfBsr::of_range("advertised RP", &it.range, it.priority, Some(it.end))));
    if let Some(rp) = &stands.rp {
        rows.extend(rp.ranges.iter().map(|range| OfBsr {
            tells: standing.told,
            ..OfBsr::of_range("candidate RP", &Range::of(*range, rp.address), rp.priority, standing.told_end)
        }));
    }
    rows
}

/// The columns of peers and sources; those of the other are null.
fn msdp_row(what: &str, told: &[(&'static str, Value)]) -> Cells {
    const NAMES: [&str; 15] = [
        "peer",
        "address",
        "mesh",
        "state",
        "group",
        "source",
        "rp",
        "up_seconds",
        "expires_seconds",
        "heard",
        "sent",
        "kept",
        "resets",
        "not_taken",
        "why",
    ];
    let of = |name| told.iter().find(|(its, _)| *its == name).map_or(Value::Null, |(_, value)| value.clone());
    std::iter::once(("what", json!(what))).chain(NAMES.into_iter().map(|name| (name, of(name)))).collect()
}

/// The peers of MSDP, the sources that they said, and those of which the router tells.
fn msdp(daemon: &Daemon) -> Rows {
    let now = daemon.now();
    let peer = |it: &Peer| {
        let tally = it.tally;
        let told = [
            ("peer", json!(it.peer.to_string())),
            ("address", json!(it.address.to_string())),
            ("mesh", json!(it.mesh)),
            ("state", json!(it.state)),
            ("up_seconds", it.since.map_or(Value::Null, |since| seconds(now.saturating_sub(since)))),
            ("heard", json!(it.heard)),
            ("sent", json!(it.sent)),
            ("kept", json!(it.kept)),
            ("resets", json!(tally.resets)),
            ("not_taken", json!(tally.not_rpf + tally.not_permitted + tally.no_room)),
            ("why", json!(it.why)),
        ];
        msdp_row("peer", &told)
    };
    let heard = daemon.msdp.cache.entries().map(|(key, rp, entry)| {
        let told = [
            ("peer", json!(entry.from.to_string())),
            ("group", json!(key.group.to_string())),
            ("source", json!(key.source.to_string())),
            ("rp", json!(rp.to_string())),
            ("up_seconds", seconds(now.saturating_sub(entry.since))),
            ("expires_seconds", until(Some(entry.end), now)),
        ];
        msdp_row("heard", &told)
    });
    let own = daemon.msdp.own().map(|key| {
        msdp_row("told", &[("group", json!(key.group.to_string())), ("source", json!(key.source.to_string()))])
    });
    daemon.msdp_peers().iter().map(peer).chain(heard).chain(own).collect()
}

// ---- neighbours, interfaces, IGMP

fn neighbours(daemon: &mut Daemon) -> Result<Rows, Fatal> {
    let rows = daemon.core.rows_of()?;
    let now = daemon.now();
    let row = |row: &NeighbourRow| {
        let known = daemon.neighbours.known.get(&(row.iface, row.address));
        vec![
            ("interface", json!(daemon.name(row.iface))),
            ("address", address(u32::from(row.address))),
            ("up_seconds", known.map_or(Value::Null, |known| seconds(now.saturating_sub(known.since)))),
            ("expires_seconds", until(row.end, now)),
            ("priority", known.map_or(Value::Null, |known| json!(known.priority))),
            ("bfd", daemon.bfd_state(&(row.iface, row.address)).map_or(Value::Null, |state| json!(state.name()))),
            ("hello", known.map_or(Value::Null, |known| json!(known.said.split(": ").nth(1)))),
        ]
    };
    Ok(rows.iter().map(row).collect())
}

/// DR(I) of an interface that is up.
pub fn designated(daemon: &Daemon, port: &Port) -> Option<Ipv4Addr> {
    daemon.core.link(port.number)?.dr
}

fn interfaces(daemon: &mut Daemon) -> Result<Rows, Fatal> {
    let row = |port: &Port| {
        let (is_up, why) = match &port.standing {
            Standing::Up => (true, Value::Null),
            Standing::Down(why) => (false, json!(why)),
        };
        let neighbours = daemon.neighbours.known.keys().filter(|(iface, _)| *iface == port.number).count();
        vec![
            ("interface", json!(port.settings.name)),
            ("address", port.own.subnet.map_or(Value::Null, |subnet| json!(subnet.to_string()))),
            ("vif", json!(port.vif)),
            ("is_up", json!(is_up)),
            ("up_seconds", if is_up { seconds(daemon.now().saturating_sub(port.since)) } else { Value::Null }),
            ("dr", designated(daemon, port).map_or(Value::Null, |dr| json!(dr.to_string()))),
            ("neighbors", json!(neighbours)),
            ("heard", json!(port.passed.heard)),
            ("refused", json!(port.passed.refused)),
            ("sent", json!(port.passed.sent)),
            ("copies", json!(port.passed.copies)),
            ("not_sent", json!(port.passed.not_sent)),
            ("why_down", why),
        ]
    };
    Ok(daemon.ports.iter().filter(|port| !port.is_removed).map(row).collect())
}

/// The compatibility mode of a group, and when its older hosts of that version expire (RFC 3376, 7.3.2).
fn compatibility(older: Option<&OlderRow>) -> (Value, Option<u64>) {
    let row = match older {
        Some(row) => row,
        None => return (json!("IGMPv3"), None),
    };
    let version = Version::of_mode(row.mode);
    let end = match version {
        Version::One => row.one_end,
        Version::Two => row.two_end,
    };
    (json!(version.to_string()), end)
}

fn igmp_group(daemon: &Daemon, row: &GroupRow, older: Option<&OlderRow>) -> Cells {
    let now = daemon.now();
    let (version, older_end) = compatibility(older);
    vec![
        ("interface", json!(daemon.name(row.iface))),
        ("group", address(u32::from(row.group))),
        ("source", json!("*")),
        ("mode", json!(if row.is_exclude { "exclude" } else { "include" })),
        ("expires_seconds", until(row.end, now)),
        ("version", version),
        ("older_expires_seconds", until(older_end, now)),
    ]
}

fn igmp_source(daemon: &Daemon, row: &SourceRow) -> Cells {
    vec![
        ("interface", json!(daemon.name(row.iface))),
        ("group", address(u32::from(row.group))),
        ("source", address(u32::from(row.source))),
        ("mode", json!(if row.end.is_none() { "excluded" } else { "included" })),
        ("expires_seconds", until(row.end, daemon.now())),
        ("version", Value::Null),
        ("older_expires_seconds", Value::Null),
    ]
}

/// Each group of an interface, and then its sources.
fn igmp(daemon: &mut Daemon, about: About, sheet: &mut Sheet) -> io::Result<()> {
    let older = daemon.core.older_rows()?;
    let older: HashMap<_, _> = older.iter().map(|row| ((row.iface, row.group), row)).collect();
    let mut groups = daemon.core.rows_of::<GroupRow>()?;
    let mut sources = daemon.core.rows_of::<SourceRow>()?;
    groups.retain(|row| about.has(row.group, None));
    sources.retain(|row| about.has(row.group, Some(row.source)));
    let of_groups = groups.iter().enumerate().map(|(at, row)| ((row.iface, row.group, None), at));
    let of_sources = sources.iter().enumerate().map(|(at, row)| ((row.iface, row.group, Some(row.source)), at));
    let all: BTreeMap<_, _> = of_groups.chain(of_sources).collect();
    for ((iface, group, source), at) in all {
        sheet.row(match source {
            None => igmp_group(daemon, &groups[at], older.get(&(iface, group)).copied()),
            Some(_) => igmp_source(daemon, &sources[at]),
        })?;
    }
    Ok(())
}

// ---- counters

/// A count of the router.
pub struct Count {
    pub family: &'static Family,
    pub value: u64,
}

/// All of them but those of interfaces and of reasons.
pub fn counts(daemon: &Daemon) -> Vec<Count> {
    let (it, routes) = (&daemon.counters, &daemon.routing.counts);
    let count = |family, value| Count { family, value };
    vec![
        count(&families::MROUTE_ENTRIES, daemon.plane.len() as u64),
        count(&families::EVENTS_TOTAL, it.events),
        count(&families::EVENTS_IGNORED_TOTAL, it.ignored),
        count(&families::EVENTS_ALL_REFUSED_TOTAL, it.refused.values().sum()),
        count(&families::MESSAGES_SPLIT_TOTAL, it.split),
        count(&families::PARTS_OFFERED_TOTAL, it.parts),
        count(&families::PARTS_TAKEN_TOTAL, it.parts_taken),
        count(&families::LIBRARY_MEMORY_REFUSALS_TOTAL, daemon.core.refused_memory),
        count(&families::SOURCES_KEPT_TOTAL, it.kept),
        count(&families::PACKETS_SEEN_TOTAL, it.seen),
        count(&families::ROUTER_MADE_ANEW_TOTAL, it.made_anew),
        count(&families::ROUTER_RELOADED_TOTAL, it.reloaded),
        count(&families::BOOTSTRAPS_TAKEN_TOTAL, it.bootstraps_taken),
        count(&families::BOOTSTRAPS_LEFT_OUT_TOTAL, it.bootstraps_left_out.values().sum()),
        count(&families::BOOTSTRAP_MOVES_TOTAL, it.bootstrap_moves),
        count(&families::BOOTSTRAP_RPS, daemon.core.learned().len() as u64),
        count(&families::BOOTSTRAP_RANGES, daemon.learned_ranges() as u64),
        count(&families::BOOTSTRAP_CANDIDATES, daemon.core.candidates().len() as u64),
        count(&families::ADVERTISED_RPS, daemon.core.held().len() as u64),
        count(&families::ADVERTISEMENTS_TAKEN_TOTAL, it.advertisements_taken),
        count(&families::ADVERTISEMENTS_LEFT_OUT_TOTAL, it.advertisements_left_out.values().sum()),
        count(&families::MSDP_OWN_SOURCES, daemon.msdp.own().count() as u64),
        count(&families::MSDP_STRANGERS_TOTAL, it.msdp_strangers),
        count(&families::OWN_REPORTS_TOTAL, it.own_reports),
        count(&families::UNICASTS_RECEIVED_TOTAL, it.unicasts_heard),
        count(&families::UNICASTS_SENT_TOTAL, it.unicasts_sent),
        count(&families::UNICASTS_NOT_SENT_TOTAL, it.unicasts_not_sent),
        count(&families::LONG_PACKETS_TOTAL, it.stood_in),
        count(&families::CHECKSUMS_FILLED_TOTAL, it.checksums_filled),
        count(&families::JOIN_PRUNES_PACKED_TOTAL, it.packed),
        count(&families::KERNEL_NO_CACHE_TOTAL, it.no_cache),
        count(&families::KERNEL_STRAYS_TOTAL, it.strays),
        count(&families::KERNEL_WHOLE_PACKETS_TOTAL, it.whole),
        count(&families::KERNEL_ENTRIES_WRITTEN_TOTAL, it.entries_written),
        count(&families::KERNEL_ENTRIES_REMOVED_TOTAL, it.entries_removed),
        count(&families::KERNEL_ENTRIES_REFUSED_TOTAL, it.entries_refused),
        count(&families::ROUTES, daemon.routing.told.len() as u64),
        count(&families::KERNEL_ROUTES_TAKEN, routes.by_next_hop as u64),
        count(&families::KERNEL_ROUTES_MULTIPATH, routes.multipath as u64),
        count(&families::KERNEL_ROUTES_HIGHER_METRIC, routes.higher_metric as u64),
        count(&families::KERNEL_ROUTES_REFUSING, routes.refusing as u64),
        count(&families::KERNEL_ROUTES_ELSEWHERE, routes.elsewhere as u64),
    ]
}

fn counters(daemon: &mut Daemon) -> Result<Rows, Fatal> {
    let began = [("seconds since the router began".to_string(), daemon.now() / 1000)].into_iter();
    let counts = counts(daemon).into_iter().map(|it| (it.family.counts().to_string(), it.value));
    let refused = daemon.counters.refused.iter();
    let reasons = refused.map(|(number, count)| (format!("refused: {}", viqeshor::answer_text(*number)), *count));
    let left_out = by_reason(&daemon.counters.bootstraps_left_out)
        .map(|(reason, count)| (format!("Bootstraps that didn't count: {reason}"), count));
    let untaken = by_reason(&daemon.counters.advertisements_left_out)
        .map(|(reason, count)| (format!("advertisements of RPs that the router didn't take: {reason}"), count));
    let left_out = left_out.chain(untaken);
    let all = began.chain(counts).chain(reasons).chain(left_out).chain(daemon.policy.refusals.counts());
    Ok(all.map(|(name, count)| vec![("counter", json!(name)), ("count", json!(count))]).collect())
}

/// What was taken of the kernel's routes, in words.
pub fn routes_said(counts: &Counts, told: usize) -> String {
    let Counts { by_next_hop, multipath, higher_metric, dead, refusing, elsewhere, .. } = counts;
    format!(
        "the kernel's routes: {by_next_hop} are taken by their next hop ({multipath} of several, the highest on an \
         interface of the router); {higher_metric} are left out for another one of their prefix with a lower metric, \
         and {dead} since their links are down; {refusing} that refuse (blackhole, unreachable, prohibit, throw) and \
         {elsewhere} that lead elsewhere (another interface, another subnet, IPv6) are holes; told to the router are \
         {told}"
    )
}

#[cfg(test)]
mod tests {
    use super::*;

    #[test]
    fn a_moment_is_told_in_tenths_of_a_second() {
        assert_eq!(until(Some(12_345), 10_000), json!(2.3));
        assert_eq!(until(None, 10_000), Value::Null);
    }
}
