//! What is said of what others do: neighbours and older hosts that come, who forwards where.
use super::{Daemon, Fatal, Neighbour};
use crate::check::is_open;
use crate::mroute::Key;
use crate::older::{self, Older, Version};
use crate::packet::{address, is_pim, Packet};
use crate::split;
use log::{info, warn};
use std::collections::HashSet;
use std::net::Ipv4Addr;
use viqeshor::QueryVersion;

/// What lines are of.
#[derive(Clone, Copy, Debug, PartialEq, Eq, PartialOrd, Ord)]
pub(super) enum Kind {
    Neighbours,
    Sessions,
    Designated,
    Forwarders,
    OlderQueries,
    Entries,
    Taken,
    Sockets,
    Msdp,
}

impl Kind {
    /// So many in a time: those of which each is about another router may be some.
    fn most(self) -> u32 {
        match self {
            Kind::Neighbours | Kind::Sessions | Kind::Msdp => 20,
            Kind::Designated | Kind::Forwarders => 5,
            Kind::OlderQueries | Kind::Entries | Kind::Taken | Kind::Sockets => 1,
        }
    }

    fn name(self) -> &'static str {
        match self {
            Kind::Neighbours => "neighbours that come and go",
            Kind::Sessions => "sessions of BFD",
            Kind::Designated => "designated routers",
            Kind::Forwarders => "Asserts that this router lost",
            Kind::OlderQueries => "queries of an older version",
            Kind::Entries => "entries that the kernel refuses",
            Kind::Taken => "entries that the kernel took",
            Kind::Sockets => "sockets that can't be read",
            Kind::Msdp => "sessions of MSDP",
        }
    }
}

/// An Assert where a host wants its group: the tree's group and source, and whether the router had lost it before.
pub(super) struct Asserted {
    group: Ipv4Addr,
    source: Option<Ipv4Addr>,
    was_lost: bool,
}

impl Daemon {
    /// Whether a line of a kind may be said, of an interface or of none.
    pub(super) fn may_say(&mut self, kind: Kind, iface: Option<u32>) -> bool {
        let now = self.now();
        self.said.may(now, (kind, iface), kind.most())
    }

    /// Says how many lines were left out.
    pub(super) fn say_what_was_left_out(&mut self) {
        let now = self.now();
        for ((kind, iface), count) in self.said.left_out(now) {
            let place = iface.map_or(String::new(), |iface| format!(" on {}", self.name(iface)));
            warn!("{count} more lines of {}{place} are left out", kind.name());
        }
        self.policy.say_what_was_left_out(now);
    }

    // ---- IGMP

    /// Says where hosts are that may speak PIM too. Routers report groups of the link (224.0.0.0/24) as well.
    pub(super) fn watch_hosts(&mut self, number: u32, bytes: &[u8]) {
        if self.open.contains(&number) || !is_open(&self.ports[number as usize].settings) {
            return;
        }
        let asks = |packet: Packet| match Older::read(packet) {
            Some(older) => !older.is_leave && !older.is_of_link(),
            None => split::records(packet).map_or(false, |all| all.iter().any(|record| !record.asks_for_nothing())),
        };
        let is_host = |packet: Packet| !packet.source().is_unspecified() && asks(packet);
        if Packet::read(bytes).map_or(false, is_host) {
            self.open.insert(number);
            warn!(
                "hosts are on {}, which has neither `passive` nor `neighbors`: one that sends PIM may stop the streams \
                 of the link",
                self.name(number)
            );
        }
    }

    /// Says where the first host of an older version is heard: it takes something from others that want its groups.
    pub(super) fn watch_older(&mut self, number: u32, bytes: &[u8]) {
        let heard = Packet::read(bytes).and_then(|packet| Some((packet.source(), Older::read(packet)?)));
        let (host, version) = match heard {
            Some((host, older)) if !older.is_leave => (host, older.version),
            _ => return,
        };
        if !self.older_heard.insert((number, version)) {
            return;
        }
        let who = if host.is_unspecified() { "a program on the router".to_string() } else { host.to_string() };
        let name = self.name(number);
        match version {
            Version::One => warn!(
                "{who} is the first on {name} to speak IGMPv1: while such a host wants a group, nobody there can leave \
                 it (older_hosts = \"v2\" doesn't hear IGMPv1)"
            ),
            Version::Two => info!(
                "{who} is the first on {name} to speak IGMPv2: while such a host wants a group, nobody there can \
                 exclude its sources"
            ),
        }
    }

    /// Says at a bounded rate that another router asks by an older version than this one (RFC 3376, 7.3.1).
    pub(super) fn watch_querier(&mut self, number: u32, bytes: &[u8]) {
        let asks_by_three = self.ports[number as usize].settings.speech.queries == QueryVersion::Three;
        let query = Packet::read(bytes).filter(|packet| asks_by_three && older::is_query(*packet));
        if let Some(packet) = query.filter(|_| self.may_say(Kind::OlderQueries, Some(number))) {
            warn!(
                "{} on {} asks hosts by an older version of IGMP: all routers of a link are to ask by the same one \
                 (`version` of the interface)",
                packet.source(),
                self.name(number)
            );
        }
    }

    // ---- PIM

    /// Says which neighbours came and went, and who serves the hosts since.
    pub(super) fn watch_neighbours(&mut self) -> Result<(), Fatal> {
        self.neighbours.are_stale = false;
        let now = self.now();
        let there: HashSet<_> = self.core.neighbours()?.into_iter().collect();
        let gone: Vec<_> = self.neighbours.known.keys().filter(|key| !there.contains(key)).copied().collect();
        for key in gone {
            self.neighbours.known.remove(&key);
            self.keeping.changed();
            self.routes_may_move();
            if self.may_say(Kind::Neighbours, Some(key.0)) {
                info!("the neighbour {} on {} is gone", key.1, self.name(key.0));
            }
        }
        let hellos = std::mem::take(&mut self.neighbours.hellos);
        for (key, hello) in hellos.into_iter().filter(|(key, _)| there.contains(key)) {
            if !self.neighbours.known.contains_key(&key) {
                self.keeping.changed();
                self.routes_may_move();
                if self.may_say(Kind::Neighbours, Some(key.0)) {
                    info!("a neighbour on {}: {}", self.name(key.0), hello.said);
                }
            }
            let since = self.neighbours.known.get(&key).map_or(now, |known| known.since);
            self.neighbours.known.insert(key, Neighbour { since, ..hello });
        }
        self.watch_designated();
        Ok(())
    }

    /// Says where another router serves the hosts of a link.
    fn watch_designated(&mut self) {
        for number in 0..self.ports.len() as u32 {
            let dr = self.core.link(number).and_then(|link| link.dr);
            let before = match dr {
                Some(dr) => self.designated.insert(number, dr),
                None => self.designated.remove(&number),
            };
            let (dr, before) = match dr.zip(before) {
                Some((dr, before)) if dr != before && self.policy.has_hosts(number) => (dr, before),
                _ => continue,
            };
            if self.may_say(Kind::Designated, Some(number)) {
                let name = self.name(number);
                match self.is_own(dr) {
                    true => info!("this router is the designated router of {name}, where {before} was"),
                    false => warn!("{dr} is the designated router of {name}, where {before} was: hosts depend on it"),
                }
            }
        }
    }

    fn is_lost(&self, number: u32, group: Ipv4Addr, source: Option<Ipv4Addr>) -> bool {
        let lost = match source {
            None => self.core.tree(group).map(|tree| tree.lost_assert),
            Some(source) => self.core.source_tree(Key { source, group }).map(|tree| tree.lost_assert),
        };
        lost.map_or(false, |lost| lost.contains(number))
    }

    /// An Assert that is about to be taken.
    pub(super) fn asserted(&self, number: u32, bytes: &[u8]) -> Option<Asserted> {
        const ASSERT: u8 = 5;
        const LEAST: usize = 18;
        const GROUP_AT: usize = 8;
        const SOURCE_AT: usize = 14;
        let content = Packet::read(bytes).filter(|packet| is_pim(*packet, ASSERT))?.content();
        let content = Some(content).filter(|content| content.len() >= LEAST)?;
        let (group, source) = (address(content, GROUP_AT), address(content, SOURCE_AT));
        let source = Some(source).filter(|source| !source.is_unspecified());
        let is_wanted = self.policy.has_group(number, group);
        is_wanted.then(|| Asserted { group, source, was_lost: self.is_lost(number, group, source) })
    }

    /// Says where another router forwards what hosts want, since it won an Assert.
    pub(super) fn watch_forwarder(&mut self, number: u32, bytes: &[u8], asserted: &Asserted) {
        let Asserted { group, source, was_lost } = *asserted;
        let from = Packet::read(bytes).map_or(Ipv4Addr::UNSPECIFIED, Packet::source);
        if !was_lost && self.is_lost(number, group, source) && self.may_say(Kind::Forwarders, Some(number)) {
            let source = source.map_or_else(|| "*".to_string(), |source| source.to_string());
            warn!(
                "{from} forwards ({source}, {group}) on {}, where hosts want it: it won an Assert",
                self.name(number)
            );
        }
    }
}
