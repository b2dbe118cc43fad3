//! Joins and asserts, and the ways to RPs and sources.
use super::sheet::Sheet;
use super::{address, is_here, seconds, until, way, About, Cells, Rows};
use crate::daemon::{Chosen, Daemon};
use crate::error::Fatal;
use crate::mroute::Key;
use crate::routes::longest_route;
use serde_json::{json, Value};
use std::collections::{BTreeMap, BTreeSet};
use std::io;
use std::net::Ipv4Addr;
use viqeshor::{
    ActiveRow, AssertRow, DownstreamRow, DownstreamState, Hop, Path, Rpf, RptRow, SourceTree, Tree, UpstreamRow,
};

/// What a state is of.
fn kind_of(source: Option<Ipv4Addr>, is_rpt: bool) -> &'static str {
    match (source, is_rpt) {
        (None, _) => "*,G",
        (Some(_), true) => "S,G,rpt",
        (Some(_), false) => "S,G",
    }
}

/// Of a row of Joins.
pub fn kind(row: &DownstreamRow) -> &'static str {
    kind_of(row.source, row.is_rpt)
}

pub fn assert_state(row: &AssertRow) -> &'static str {
    if row.is_loser {
        "loser"
    } else {
        "winner"
    }
}

fn source_cell(source: Option<Ipv4Addr>) -> Value {
    source.map_or(json!("*"), |source| address(source.into()))
}

/// What neighbours have joined.
pub fn joins(daemon: &mut Daemon, about: About, sheet: &mut Sheet) -> io::Result<()> {
    let now = daemon.now();
    let state = |row: &DownstreamRow| match row.state {
        DownstreamState::Joined => "joined",
        DownstreamState::PrunePending => "prune pending",
        DownstreamState::Pruned => "pruned",
        _ => "none",
    };
    let rows = daemon.core.rows_of::<DownstreamRow>()?;
    let cells = |row: &DownstreamRow| {
        vec![
            ("interface", json!(daemon.name(row.iface))),
            ("source", source_cell(row.source)),
            ("group", address(row.group.into())),
            ("type", json!(kind(row))),
            ("state", json!(state(row))),
            ("expires_seconds", until(row.end, now)),
            ("prune_seconds", until(row.pending, now)),
        ]
    };
    rows.iter().filter(|row| about.has(row.group, row.source)).try_for_each(|row| sheet.row(cells(row)))
}

pub fn asserts(daemon: &mut Daemon, about: About, sheet: &mut Sheet) -> io::Result<()> {
    let now = daemon.now();
    let rows = daemon.core.rows_of::<AssertRow>()?;
    let cells = |row: &AssertRow| {
        vec![
            ("interface", json!(daemon.name(row.iface))),
            ("source", source_cell(row.source)),
            ("group", address(row.group.into())),
            ("state", json!(assert_state(row))),
            ("winner", address(row.winner.into())),
            ("expires_seconds", until(Some(row.end), now)),
        ]
    };
    rows.iter().filter(|row| about.has(row.group, row.source)).try_for_each(|row| sheet.row(cells(row)))
}

// ---- upstream

/// Where Joins of a tree go: RPF', whether it is the winner of an assert, and RPF_interface.
#[derive(Clone, Copy, Default)]
struct Upstream {
    iface: Option<u32>,
    neighbour: Option<Ipv4Addr>,
    is_by_assert: bool,
}

impl Upstream {
    fn of(path: Option<Path>, neighbour: Option<Hop>, is_by_assert: bool) -> Upstream {
        Upstream { iface: path.map(|path| path.iface), neighbour: neighbour.map(|hop| hop.address), is_by_assert }
    }

    /// RPF'(*,G).
    fn of_group(tree: &Tree) -> Upstream {
        Upstream::of(tree.path, tree.rpf.neighbour(), matches!(tree.rpf, Rpf::Winner(_)))
    }

    /// RPF'(S,G).
    fn of_source(tree: &SourceTree) -> Upstream {
        Upstream::of(tree.path, tree.rpf.neighbour(), matches!(tree.rpf, Rpf::Winner(_)))
    }

    /// RPF'(S,G,rpt): RPF'(*,G), unless an assert of (S,G) was lost on its interface.
    fn of_pruned(shared: &Tree, tree: &SourceTree) -> Upstream {
        let is_own = tree.rpf_rpt != shared.rpf.neighbour();
        Upstream {
            is_by_assert: is_own || matches!(shared.rpf, Rpf::Winner(_)),
            ..Upstream::of(shared.path, tree.rpf_rpt, false)
        }
    }
}

/// A tree that the router has joined, or a source of a shared one.
#[derive(Clone, Copy, PartialEq, Eq, PartialOrd, Ord)]
struct Name {
    group: Ipv4Addr,
    source: Option<Ipv4Addr>,
    is_rpt: bool,
}

fn upstream_cells(daemon: &Daemon, name: Name, state: &str, upstream: Option<Upstream>, next_join: Value) -> Cells {
    let it = upstream.unwrap_or_default();
    vec![
        ("source", source_cell(name.source)),
        ("group", address(name.group.into())),
        ("type", json!(kind_of(name.source, name.is_rpt))),
        ("state", json!(state)),
        ("rpf_interface", it.iface.map_or(Value::Null, |iface| json!(daemon.name(iface)))),
        ("rpf_neighbor", it.neighbour.map_or(Value::Null, |neighbour| json!(neighbour.to_string()))),
        ("by_assert", json!(it.is_by_assert)),
        ("next_join_seconds", next_join),
    ]
}

/// RPF' of a tree that the router has joined.
fn of_joined(daemon: &Daemon, name: Name) -> Option<Upstream> {
    let tree = |source| daemon.core.source_tree(Key { source, group: name.group });
    match name.source {
        None => daemon.core.tree(name.group).map(|tree| Upstream::of_group(&tree)),
        Some(source) => tree(source).map(|tree| Upstream::of_source(&tree)),
    }
}

/// RPF' of a source of a shared tree.
fn of_rpt(daemon: &Daemon, row: &RptRow) -> Option<Upstream> {
    let own = daemon.core.source_tree(Key { source: row.source, group: row.group })?;
    Some(Upstream::of_pruned(&daemon.core.tree(row.group)?, &own))
}

/// The trees that the router has joined, and the sources of shared ones, each with RPF'.
pub fn upstream(daemon: &mut Daemon, about: About, sheet: &mut Sheet) -> io::Result<()> {
    let now = daemon.now();
    let mut joined = daemon.core.rows_of::<UpstreamRow>()?;
    let mut trees = daemon.core.rows_of::<RptRow>()?;
    joined.retain(|row| about.has(row.group, row.source));
    trees.retain(|row| about.has(row.group, Some(row.source)));
    let of_joined_trees =
        joined.iter().enumerate().map(|(at, row)| (Name { group: row.group, source: row.source, is_rpt: false }, at));
    let of_trees = trees
        .iter()
        .enumerate()
        .map(|(at, row)| (Name { group: row.group, source: Some(row.source), is_rpt: true }, at));
    let all: BTreeMap<_, _> = of_joined_trees.chain(of_trees).collect();
    for (name, at) in all {
        sheet.row(match name.is_rpt {
            false => {
                let next_join = until(Some(joined[at].next_join), now);
                upstream_cells(daemon, name, "joined", of_joined(daemon, name), next_join)
            }
            true => {
                let state = if trees[at].is_pruned { "pruned" } else { "not pruned" };
                upstream_cells(daemon, name, state, of_rpt(daemon, &trees[at]), Value::Null)
            }
        })?;
    }
    Ok(())
}

// ---- ways

/// The ways to an address, or to all RPs and sources that the router has something to do with.
pub fn rpf(daemon: &mut Daemon, to: Option<Ipv4Addr>) -> Result<Rows, Fatal> {
    let mut asked: BTreeMap<Ipv4Addr, BTreeSet<&'static str>> = BTreeMap::new();
    for rp in daemon.rps().iter().filter(|rp| rp.chosen != Chosen::Nothing) {
        asked.entry(rp.range.address).or_default().insert("RP");
    }
    let mut sources: Vec<_> = daemon.core.rows_of::<ActiveRow>()?.iter().map(|row| row.source).collect();
    sources.extend(daemon.core.rows_of::<UpstreamRow>()?.iter().filter_map(|row| row.source));
    for source in sources {
        asked.entry(source).or_default().insert("source");
    }
    let asked = match to {
        Some(one) => BTreeMap::from([(one, asked.remove(&one).unwrap_or_default())]),
        None => asked,
    };
    Ok(asked.into_iter().map(|(address, of)| rpf_cells(daemon, address, of)).collect())
}

fn rpf_cells(daemon: &Daemon, to: Ipv4Addr, used_as: BTreeSet<&'static str>) -> Cells {
    let is_here = is_here(daemon, to);
    let way = way(daemon, to).filter(|_| !is_here);
    // A link of the router has no route.
    let route = longest_route(&daemon.routing.told, to.into()).filter(|_| way.map_or(false, |(_, hop)| hop != to));
    let neighbour = way.and_then(|(iface, hop)| daemon.neighbours.known.get(&(iface, hop)));
    let up = neighbour.map(|known| daemon.now().saturating_sub(known.since));
    vec![
        ("address", json!(to.to_string())),
        ("used_as", json!(used_as)),
        ("is_here", json!(is_here)),
        ("interface", way.map_or(Value::Null, |(iface, _)| json!(daemon.name(iface)))),
        ("next_hop", way.map_or(Value::Null, |(_, hop)| json!(hop.to_string()))),
        ("neighbor_up_seconds", up.map_or(Value::Null, seconds)),
        ("prefix", route.map_or(Value::Null, |route| json!(format!("{}/{}", route.prefix, route.length)))),
        ("preference", route.map_or(Value::Null, |route| json!(route.preference))),
        ("metric", route.map_or(Value::Null, |route| json!(route.metric))),
    ]
}
