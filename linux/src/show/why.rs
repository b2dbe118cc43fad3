//! Why an interface is in a tree's list of outgoing interfaces, or isn't.
use super::sheet::Sheet;
use super::{address, designated, is_here, About, Cells, Rows};
use crate::daemon::Daemon;
use crate::error::Fatal;
use crate::mroute::Key;
use crate::ports::Port;
use serde_json::json;
use std::collections::{BTreeMap, BTreeSet, HashMap};
use std::io;
use std::net::Ipv4Addr;
use viqeshor::{ActiveRow, AssertRow, DownstreamRow, GroupRow, Interfaces, SourceTree, Tree, UpstreamRow};

/// Who asks for the packets of a tree, and where an assert of it was lost.
struct Asked {
    /// (\*,G) or (S,G), as in the documents.
    tree: &'static str,
    /// Of the tree's asserts.
    source: Option<Ipv4Addr>,
    joins: Interfaces,
    hosts: Interfaces,
    served: Interfaces,
    lost: Vec<Interfaces>,
}

impl Asked {
    fn shared(tree: &Tree) -> Asked {
        Asked {
            tree: "(*,G)",
            source: None,
            joins: tree.joins,
            hosts: tree.local_receiver_include,
            served: tree.pim_include,
            lost: vec![tree.lost_assert],
        }
    }

    fn own(source: Ipv4Addr, tree: &SourceTree) -> Asked {
        Asked {
            tree: "(S,G)",
            source: Some(source),
            joins: tree.joins,
            hosts: tree.local_receiver_include,
            served: tree.pim_include,
            lost: vec![tree.lost_assert, tree.lost_assert_rpt],
        }
    }

    fn is_lost(&self, iface: u32) -> bool {
        self.lost.iter().any(|set| set.contains(iface))
    }

    fn reasons(&self, iface: u32) -> Vec<String> {
        let kinds = [("joined", self.joins), ("local member", self.hosts)];
        let there = kinds.into_iter().filter(|(_, set)| set.contains(iface));
        there.map(|(kind, _)| format!("{kind} {}", self.tree)).collect()
    }
}

/// A tree at the router: the lists that it has its packets by, its own first, and where these come from and leave.
struct Sight {
    group: Ipv4Addr,
    source: Option<Ipv4Addr>,
    asked: Vec<Asked>,
    /// Where (S,G,rpt) is pruned off (\*,G), and where hosts exclude the source.
    pruned: BTreeSet<u32>,
    excluded: Interfaces,
    incoming: Option<u32>,
    outgoing: Interfaces,
    has_tunnel: bool,
}

/// (\*,G).
fn shared_sight(group: Ipv4Addr, tree: &Tree) -> Sight {
    Sight {
        group,
        source: None,
        asked: vec![Asked::shared(tree)],
        pruned: BTreeSet::new(),
        excluded: Interfaces::default(),
        incoming: tree.path.map(|path| path.iface),
        outgoing: tree.immediate_olist,
        has_tunnel: false,
    }
}

/// (S,G).
fn own_sight(key: Key, shared: &Tree, own: &SourceTree) -> Sight {
    // Until the SPTbit is set they come by the RP's tree, if the group has one and the source isn't on a link here.
    let is_own = own.spt_bit || shared.rp.is_none() || own.path.map_or(false, |path| path.is_connected);
    let path = if is_own { own.path } else { shared.path };
    Sight {
        group: key.group,
        source: Some(key.source),
        asked: vec![Asked::own(key.source, own), Asked::shared(shared)],
        pruned: own.prunes.iter().filter(|iface| shared.joins.contains(*iface)).collect(),
        excluded: own.pim_exclude,
        incoming: path.map(|path| path.iface),
        outgoing: own.inherited_olist,
        has_tunnel: own.has_tunnel,
    }
}

impl Sight {
    fn reasons(&self, iface: u32) -> Vec<String> {
        self.asked.iter().flat_map(|asked| asked.reasons(iface)).collect()
    }

    fn lost(&self, iface: u32, winners: &Winners) -> Vec<String> {
        let of = |asked: &Asked| {
            let winner = winners.get(&(iface, self.group, asked.source)).filter(|_| asked.is_lost(iface))?;
            Some(format!("lost assert {} to {winner}", asked.tree))
        };
        self.asked.iter().filter_map(of).collect()
    }

    /// What keeps the packets off an interface.
    fn against(&self, daemon: &Daemon, port: &Port, winners: &Winners) -> Vec<String> {
        let iface = port.number;
        let mut found = self.lost(iface, winners);
        if self.pruned.contains(&iface) {
            found.push("pruned (S,G,rpt)".to_string());
        }
        if self.excluded.contains(iface) {
            found.push("local members exclude the source".to_string());
        }
        let is_unserved = self.asked.iter().any(|it| it.hosts.contains(iface) && !it.served.contains(iface));
        if let Some(dr) = designated(daemon, port).filter(|dr| is_unserved && !is_here(daemon, *dr)) {
            found.push(format!("the DR is {dr}"));
        }
        if self.incoming == Some(iface) {
            found.push("packets come from there".to_string());
        }
        found
    }

    fn cells(&self, interface: &str, is_outgoing: bool, reasons: Vec<String>, against: Vec<String>) -> Cells {
        let source = self.source.map_or(json!("*"), |source| address(source.into()));
        vec![
            ("source", source),
            ("group", address(self.group.into())),
            ("interface", json!(interface)),
            ("is_outgoing", json!(is_outgoing)),
            ("reasons", json!(reasons)),
            ("kept_off", json!(against)),
        ]
    }

    /// The interfaces on which somebody asks for the packets or an assert was lost, and the register tunnel.
    fn rows(&self, daemon: &Daemon, winners: &Winners) -> Rows {
        let row = |port: &Port| {
            let (reasons, lost) = (self.reasons(port.number), self.lost(port.number, winners));
            if reasons.is_empty() && lost.is_empty() {
                return None;
            }
            let is_outgoing = self.outgoing.contains(port.number) && self.incoming != Some(port.number);
            let against = if is_outgoing { Vec::new() } else { self.against(daemon, port, winners) };
            Some(self.cells(&port.settings.name, is_outgoing, reasons, against))
        };
        let mut rows: Rows = daemon.ports.iter().filter_map(row).collect();
        if self.has_tunnel {
            rows.push(self.cells("register", true, vec!["registering".to_string()], Vec::new()));
        }
        rows
    }
}

/// The winner of each assert that the router lost, by the interface, the group and the source.
type Winners = HashMap<(u32, Ipv4Addr, Option<Ipv4Addr>), Ipv4Addr>;

/// What the router knows of groups, each table read once.
struct Known {
    /// The groups that somebody asks for, or of which there is an assert or an entry, and the sources of each that the
    /// router has a fact or an entry of.
    groups: BTreeMap<Ipv4Addr, BTreeSet<Ipv4Addr>>,
    winners: Winners,
}

impl Known {
    fn read(daemon: &mut Daemon, about: About) -> Result<Known, Fatal> {
        let asserts = daemon.core.rows_of::<AssertRow>()?;
        let reported = daemon.core.rows_of::<GroupRow>()?;
        let joined = daemon.core.rows_of::<DownstreamRow>()?;
        let joins = daemon.core.rows_of::<UpstreamRow>()?;
        let active = daemon.core.rows_of::<ActiveRow>()?;
        let of_hosts = reported.iter().map(|row| (row.group, None));
        let of_routers = joined.iter().map(|row| (row.group, row.source));
        let of_entries = daemon.plane.entries().map(|(key, _)| (key.group, Some(key.source)));
        let listed = of_hosts.chain(of_routers).chain(asserts.iter().map(|row| (row.group, None))).chain(of_entries);
        let own = joins.iter().map(|row| (row.group, row.source));
        let sources_alone = own.chain(active.iter().map(|row| (row.group, Some(row.source))));
        let mut groups: BTreeMap<Ipv4Addr, BTreeSet<Ipv4Addr>> =
            about.group.map(|it| (it, BTreeSet::new())).into_iter().collect();
        listed.filter(|(group, _)| about.has_group(*group)).for_each(|(group, source)| {
            groups.entry(group).or_default().extend(source);
        });
        sources_alone.for_each(|(group, source)| groups.get_mut(&group).into_iter().for_each(|it| it.extend(source)));
        let lost = asserts.iter().filter(|row| row.is_loser);
        Ok(Known { groups, winners: lost.map(|row| ((row.iface, row.group, row.source), row.winner)).collect() })
    }
}

/// A group's (\*,G) and each (S,G), or one of them alone.
fn sights(daemon: &Daemon, group: Ipv4Addr, sources: &BTreeSet<Ipv4Addr>, of: Option<Ipv4Addr>) -> Vec<Sight> {
    let shared = match daemon.core.tree(group) {
        Some(shared) => shared,
        None => return Vec::new(),
    };
    let own = |source: Ipv4Addr| {
        let key = Key { source, group };
        Some(own_sight(key, &shared, &daemon.core.source_tree(key)?))
    };
    match of {
        Some(source) => own(source).into_iter().collect(),
        None => std::iter::once(shared_sight(group, &shared)).chain(sources.iter().copied().filter_map(own)).collect(),
    }
}

/// Of all groups, of one, or of one of its sources.
pub fn why(daemon: &mut Daemon, about: About, sheet: &mut Sheet) -> io::Result<()> {
    let Known { groups, winners } = Known::read(daemon, about)?;
    for (group, sources) in groups {
        let sights = sights(daemon, group, &sources, about.source);
        sights.iter().flat_map(|sight| sight.rows(daemon, &winners)).try_for_each(|row| sheet.row(row))?;
    }
    Ok(())
}
