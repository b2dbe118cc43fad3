//! The router's counts for Prometheus, in its text format (0.0.4), by HTTP.
pub mod families;

use crate::bfd::State;
use crate::counters::{by_reason, Message, Passing};
use crate::daemon::Daemon;
use crate::error::Fatal;
use crate::older::Version;
use crate::ports::Port;
use crate::server::{Answers, Protocol, Server};
use crate::show;
use socket2::{Domain, SockAddr, Socket, Type};
use std::collections::BTreeMap;
use std::fmt::{Display, Write};
use std::io;
use std::net::SocketAddr;
use viqeshor::{ActiveRow, AssertRow, DownstreamRow, DownstreamState, GroupRow, NeighbourRow, SourceRow, UpstreamRow};

/// The length in an answer's head says where it ends.
const HEAD: Protocol = Protocol { whole: first_line, longest: 8_192, end: "" };

/// Of the head of a request the first line, once an empty line ends it.
fn first_line(written: &[u8]) -> Option<String> {
    let is_whole = written.windows(4).any(|four| four == b"\r\n\r\n") || written.windows(2).any(|two| two == b"\n\n");
    let line = String::from_utf8_lossy(written).lines().next().unwrap_or_default().to_string();
    is_whole.then_some(line)
}

/// Goes on with the listener of the router before this one, where that listened there.
pub fn resume(at: SocketAddr, listener: Socket) -> io::Result<Server> {
    match listener.local_addr()?.as_socket() == Some(at) {
        true => Server::new(listener, HEAD),
        false => Err(io::ErrorKind::AddrNotAvailable.into()),
    }
}

/// Listens where the settings say.
pub fn listen(at: SocketAddr) -> io::Result<Server> {
    let socket = Socket::new(Domain::for_address(at), Type::STREAM, None)?;
    socket.set_reuse_address(true)?;
    socket.bind(&SockAddr::from(at))?;
    Server::new(socket, HEAD)
}

/// Answers requests of HTTP.
pub struct Http<'a>(pub &'a mut Daemon);

impl Answers for Http<'_> {
    fn act(&mut self, _: &str, _: Option<u32>) -> Option<String> {
        None
    }

    fn tell(&mut self, line: &str, to: &mut dyn io::Write) -> io::Result<()> {
        let words: Vec<_> = line.split_whitespace().collect();
        let path = words.get(1).map_or("", |target| target.split('?').next().unwrap_or(""));
        let answer = match (words.first(), path) {
            (Some(&"GET" | &"HEAD"), "/metrics") => match text(self.0) {
                Ok(text) => response("200 OK", if words[0] == "GET" { &text } else { "" }, text.len()),
                Err(error) => failed("500 Internal Server Error", &format!("{error}\n")),
            },
            (Some(&"GET" | &"HEAD"), _) => failed("404 Not Found", "there is /metrics\n"),
            _ => failed("405 Method Not Allowed", "GET is answered\n"),
        };
        to.write_all(answer.as_bytes())
    }
}

fn failed(status: &str, why: &str) -> String {
    response(status, why, why.len())
}

fn response(status: &str, body: &str, length: usize) -> String {
    format!(
        "HTTP/1.1 {status}\r\nContent-Type: text/plain; version=0.0.4; charset=utf-8\r\nContent-Length: {length}\r\n\
         Connection: close\r\n\r\n{body}"
    )
}

/// What kind of metric a family has.
#[derive(Clone, Copy, Debug, PartialEq, Eq)]
pub enum Kind {
    Counter,
    Gauge,
    Histogram,
}

/// A metric, as it is told before its samples.
pub struct Family {
    pub name: &'static str,
    pub kind: Kind,
    pub help: &'static str,
}

impl Family {
    /// What a count is the number of.
    pub fn counts(&self) -> &'static str {
        self.help.trim_start_matches("The number of ").trim_end_matches('.')
    }
}

/// The text as it grows.
#[derive(Default)]
struct Text(String);

impl Text {
    fn family(&mut self, family: &Family) {
        let (name, help) = (family.name, family.help.replace('\\', "\\\\"));
        let kind = match family.kind {
            Kind::Counter => "counter",
            Kind::Gauge => "gauge",
            Kind::Histogram => "histogram",
        };
        let _ = writeln!(self.0, "# HELP viqeshor_{name} {help}");
        let _ = writeln!(self.0, "# TYPE viqeshor_{name} {kind}");
    }

    fn sample(&mut self, name: &str, labels: &[(&str, &str)], value: impl Display) {
        let escaped = |text: &str| text.replace('\\', "\\\\").replace('"', "\\\"").replace('\n', "\\n");
        let labels: Vec<_> = labels.iter().map(|(label, text)| format!("{label}=\"{}\"", escaped(text))).collect();
        let labels = if labels.is_empty() { String::new() } else { format!("{{{}}}", labels.join(",")) };
        let _ = writeln!(self.0, "viqeshor_{name}{labels} {value}");
    }

    fn one(&mut self, family: &Family, value: impl Display) {
        self.family(family);
        self.sample(family.name, &[], value);
    }
}

/// All of it.
pub fn text(daemon: &mut Daemon) -> Result<String, Fatal> {
    let mut text = Text::default();
    text.family(&families::BUILD_INFO);
    let versions = [("version", env!("CARGO_PKG_VERSION")), ("library", viqeshor::version())];
    text.sample(families::BUILD_INFO.name, &versions, 1);
    process(daemon, &mut text);
    counts(daemon, &mut text);
    text.one(&families::BSR_ELECTED, u64::from(daemon.is_bsr()));
    refusals(daemon, &mut text);
    took(daemon, &mut text);
    interfaces(daemon, &mut text);
    messages(daemon, &mut text);
    neighbours(daemon, &mut text);
    msdp(daemon, &mut text);
    facts(daemon, &mut text)?;
    Ok(text.0)
}

/// What the kernel says of the process.
fn process(daemon: &Daemon, text: &mut Text) {
    text.one(&families::UPTIME_SECONDS, daemon.now() as f64 / 1e3);
    let status = std::fs::read_to_string(format!("/proc/{}/status", daemon.process)).unwrap_or_default();
    let kibibytes = status.lines().find_map(|line| line.strip_prefix("VmRSS:")?.trim().split(' ').next()?.parse().ok());
    if let Some(resident) = kibibytes.map(|kibibytes: u64| kibibytes << 10) {
        text.one(&families::RESIDENT_MEMORY_BYTES, resident);
    }
}

fn counts(daemon: &Daemon, text: &mut Text) {
    for count in show::counts(daemon) {
        text.one(count.family, count.value);
    }
}

fn refusals(daemon: &Daemon, text: &mut Text) {
    text.family(&families::EVENTS_REFUSED_TOTAL);
    for (number, count) in &daemon.counters.refused {
        text.sample(families::EVENTS_REFUSED_TOTAL.name, &[("reason", viqeshor::answer_text(*number))], count);
    }
    let left_out = [
        (&families::BOOTSTRAPS_LEFT_OUT_BY_REASON_TOTAL, &daemon.counters.bootstraps_left_out),
        (&families::ADVERTISEMENTS_LEFT_OUT_BY_REASON_TOTAL, &daemon.counters.advertisements_left_out),
    ];
    for (family, counts) in left_out {
        text.family(family);
        by_reason(counts).for_each(|(reason, count)| text.sample(family.name, &[("reason", reason)], count));
    }
    text.family(&families::POLICY_REFUSED_TOTAL);
    for (cause, place, count) in daemon.policy.refusals.by_cause() {
        text.sample(families::POLICY_REFUSED_TOTAL.name, &[("interface", place), ("setting", cause.name())], count);
    }
}

fn took(daemon: &Daemon, text: &mut Text) {
    const NAME: &str = families::EVENT_DURATION_SECONDS.name;
    let took = &daemon.counters.took;
    text.family(&families::EVENT_DURATION_SECONDS);
    for (bound, count) in took.within() {
        text.sample(&format!("{NAME}_bucket"), &[("le", &bound.to_string())], count);
    }
    text.sample(&format!("{NAME}_bucket"), &[("le", "+Inf")], took.count);
    text.sample(&format!("{NAME}_sum"), &[], took.sum.as_secs_f64());
    text.sample(&format!("{NAME}_count"), &[], took.count);
}

/// A metric of each interface.
type OfPort = (&'static Family, fn(&Daemon, &Port) -> u64);

const OF_PORTS: [OfPort; 7] = [
    (&families::INTERFACE_UP, |_, port| u64::from(port.standing.is_up())),
    (&families::INTERFACE_DR, |daemon, port| {
        let is_dr = port.standing.is_up() && daemon.core.link(port.number).map_or(false, |link| link.is_dr);
        u64::from(is_dr)
    }),
    (&families::PIM_NEIGHBORS, |daemon, port| {
        daemon.neighbours.known.keys().filter(|(iface, _)| *iface == port.number).count() as u64
    }),
    (&families::INTERFACE_REFUSED_MESSAGES_TOTAL, |_, port| port.passed.refused),
    (&families::INTERFACE_ROUTER_COPIES_TOTAL, |_, port| port.passed.copies),
    (&families::INTERFACE_NOT_SENT_TOTAL, |_, port| port.passed.not_sent),
    (&families::INTERFACE_MESSAGES_TOTAL, |_, port| port.passed.heard),
];

fn interfaces(daemon: &Daemon, text: &mut Text) {
    let ports = || daemon.ports.iter().filter(|port| !port.is_removed);
    for (family, value) in OF_PORTS {
        text.family(family);
        ports().for_each(|port| {
            text.sample(family.name, &[("interface", &port.settings.name)], value(daemon, port));
        });
    }
    let carried = |port: &Port| daemon.kernel.carried(port.vif?).ok();
    let carried: Vec<_> = ports().filter_map(|port| Some((port.settings.name.as_str(), carried(port)?))).collect();
    text.family(&families::FORWARDED_PACKETS_TOTAL);
    for (name, it) in &carried {
        for (direction, count) in [("received", it.packets_in), ("sent", it.packets_out)] {
            text.sample(
                families::FORWARDED_PACKETS_TOTAL.name,
                &[("interface", name), ("direction", direction)],
                count,
            );
        }
    }
    text.family(&families::FORWARDED_BYTES_TOTAL);
    for (name, it) in &carried {
        for (direction, count) in [("received", it.bytes_in), ("sent", it.bytes_out)] {
            text.sample(families::FORWARDED_BYTES_TOTAL.name, &[("interface", name), ("direction", direction)], count);
        }
    }
}

fn messages(daemon: &Daemon, text: &mut Text) {
    let ports = daemon.ports.iter().filter(|port| !port.is_removed);
    let mut passing: Vec<_> = ports.map(|port| (port.settings.name.as_str(), port.passed.messages)).collect();
    // Registers, Register-Stops and advertisements of RPs, by whichever interface.
    passing.push(("", daemon.counters.unicasts));
    for (family, is_pim) in [(&families::PIM_MESSAGES_TOTAL, true), (&families::IGMP_MESSAGES_TOTAL, false)] {
        text.family(family);
        for (interface, passing) in &passing {
            of_interface(text, family.name, interface, passing, is_pim);
        }
    }
}

fn of_interface(text: &mut Text, name: &str, interface: &str, passing: &Passing, is_pim: bool) {
    let is_unicast = |message: Message| {
        use Message::{Advertisement, NullRegister, OtherPim, Register, RegisterStop};
        matches!(message, Register | NullRegister | RegisterStop | Advertisement | OtherPim)
    };
    let wanted = |message: &Message| message.is_pim() == is_pim && (!interface.is_empty() || is_unicast(*message));
    for message in Message::ALL.into_iter().filter(wanted) {
        for (direction, tally) in [("received", &passing.received), ("sent", &passing.sent)] {
            let labels = [("interface", interface), ("type", message.name()), ("direction", direction)];
            text.sample(name, &labels, tally.of(message));
        }
    }
}

fn neighbours(daemon: &Daemon, text: &mut Text) {
    text.family(&families::PIM_NEIGHBOR_UPTIME_SECONDS);
    for ((iface, address), known) in &daemon.neighbours.known {
        let up = daemon.now().saturating_sub(known.since) as f64 / 1e3;
        let labels = [("interface", daemon.name(*iface)), ("neighbor", &address.to_string())];
        text.sample(families::PIM_NEIGHBOR_UPTIME_SECONDS.name, &labels, up);
    }
    text.family(&families::BFD_SESSION_UP);
    for (iface, address) in daemon.neighbours.known.keys() {
        if let Some(state) = daemon.bfd_state(&(*iface, *address)) {
            let labels = [("interface", daemon.name(*iface)), ("neighbor", &address.to_string())];
            text.sample(families::BFD_SESSION_UP.name, &labels, u8::from(state == State::Up));
        }
    }
}

/// Sessions of MSDP, by their peers.
fn msdp(daemon: &Daemon, text: &mut Text) {
    let peers = daemon.msdp_peers();
    text.family(&families::MSDP_SESSION_UP);
    for peer in &peers {
        let is_up = u8::from(peer.since.is_some());
        text.sample(families::MSDP_SESSION_UP.name, &[("peer", &peer.peer.to_string())], is_up);
    }
    text.family(&families::MSDP_RESETS_TOTAL);
    for peer in &peers {
        text.sample(families::MSDP_RESETS_TOTAL.name, &[("peer", &peer.peer.to_string())], peer.tally.resets);
    }
    text.family(&families::MSDP_SOURCES);
    for peer in &peers {
        text.sample(families::MSDP_SOURCES.name, &[("peer", &peer.peer.to_string())], peer.kept);
    }
    text.family(&families::MSDP_NOT_TAKEN_TOTAL);
    for peer in &peers {
        let tally = peer.tally;
        let reasons = [("rpf", tally.not_rpf), ("settings", tally.not_permitted), ("room", tally.no_room)];
        for (reason, count) in reasons {
            let labels = [("peer", &peer.peer.to_string()[..]), ("reason", reason)];
            text.sample(families::MSDP_NOT_TAKEN_TOTAL.name, &labels, count);
        }
    }
}

/// What the library holds, by its tables.
fn facts(daemon: &mut Daemon, text: &mut Text) -> Result<(), Fatal> {
    let neighbours = daemon.core.rows_of::<NeighbourRow>()?.len();
    let groups: Vec<_> = daemon.core.rows_of::<GroupRow>()?.iter().map(|row| row.iface).collect();
    let sources: Vec<_> = daemon.core.rows_of::<SourceRow>()?.iter().map(|row| row.iface).collect();
    let downstream = daemon.core.rows_of::<DownstreamRow>()?;
    let active = daemon.core.rows_of::<ActiveRow>()?.len();
    of_interfaces(daemon, text, &families::IGMP_GROUPS, &groups);
    of_interfaces(daemon, text, &families::IGMP_SOURCES, &sources);
    older_groups(daemon, text)?;
    joins(daemon, text, &downstream);
    let lost_and_won = daemon.core.rows_of::<AssertRow>()?;
    asserts(daemon, text, &lost_and_won);
    let joined = daemon.core.rows_of::<UpstreamRow>()?.len();
    text.one(&families::PIM_UPSTREAM_JOINS, joined);
    text.one(&families::ACTIVE_SOURCES, active);
    let facts = neighbours + groups.len() + sources.len() + downstream.len() + active;
    text.one(&families::FACTS, facts);
    text.one(&families::FACTS_LIMIT, daemon.settings.limit);
    Ok(())
}

/// By the interface of each row.
fn of_interfaces(daemon: &Daemon, text: &mut Text, family: &Family, ifaces: &[u32]) {
    text.family(family);
    for port in daemon.ports.iter().filter(|port| !port.is_removed) {
        let count = ifaces.iter().filter(|iface| **iface == port.number).count();
        text.sample(family.name, &[("interface", &port.settings.name)], count);
    }
}

/// By their interface and a label of each row.
fn by_label(
    daemon: &Daemon,
    text: &mut Text,
    family: &Family,
    label: &str,
    rows: impl Iterator<Item = (u32, &'static str)>,
) {
    text.family(family);
    let mut counts: BTreeMap<_, u64> = BTreeMap::new();
    rows.for_each(|row| *counts.entry(row).or_default() += 1);
    for ((iface, value), count) in counts {
        text.sample(family.name, &[("interface", daemon.name(iface)), (label, value)], count);
    }
}

fn older_groups(daemon: &mut Daemon, text: &mut Text) -> Result<(), Fatal> {
    let rows = daemon.core.older_rows()?;
    let version = |mode: u32| match Version::of_mode(mode) {
        Version::One => "1",
        Version::Two => "2",
    };
    by_label(
        daemon,
        text,
        &families::IGMP_OLDER_GROUPS,
        "version",
        rows.iter().map(|row| (row.iface, version(row.mode))),
    );
    Ok(())
}

fn joins(daemon: &Daemon, text: &mut Text, rows: &[DownstreamRow]) {
    let is_counted = |row: &&DownstreamRow| row.is_rpt == (row.state == DownstreamState::Pruned);
    let kinds = rows.iter().filter(is_counted).map(|row| (row.iface, show::joins::kind(row)));
    by_label(daemon, text, &families::PIM_JOINS, "type", kinds);
}

fn asserts(daemon: &Daemon, text: &mut Text, rows: &[AssertRow]) {
    let states = rows.iter().map(|row| (row.iface, show::joins::assert_state(row)));
    by_label(daemon, text, &families::PIM_ASSERTS, "state", states);
}

#[cfg(test)]
mod tests {
    use super::*;

    #[test]
    fn a_request_is_whole_with_its_empty_line() {
        assert_eq!(first_line(b"GET /metrics HTTP/1.1\r\nHost: x\r\n"), None);
        let whole = b"GET /metrics HTTP/1.1\r\nHost: x\r\n\r\n";
        assert_eq!(first_line(whole).as_deref(), Some("GET /metrics HTTP/1.1"));
    }

    #[test]
    fn labels_are_escaped() {
        let mut text = Text::default();
        text.one(&Family { name: "a", kind: Kind::Gauge, help: "A \\ sign." }, 1.5);
        text.sample("a", &[("b", "x\"y\\z\n")], 2);
        let wanted = "# HELP viqeshor_a A \\\\ sign.\n# TYPE viqeshor_a gauge\nviqeshor_a 1.5\n\
            viqeshor_a{b=\"x\\\"y\\\\z\\n\"} 2\n";
        assert_eq!(text.0, wanted);
    }
}
