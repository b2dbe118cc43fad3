//! The kernel's forwarding cache, and who asks for what is in it.
use super::sheet::Sheet;
use super::{address, seconds, About, Cells};
use crate::daemon::Daemon;
use crate::error::Fatal;
use crate::mroute::{Key, REGISTER_VIF};
use crate::netlink::{Netlink, Used};
use crate::plane::Entry;
use serde_json::{json, Value};
use std::collections::{BTreeMap, BTreeSet, HashMap, HashSet};
use std::io;
use viqeshor::{ActiveRow, DownstreamRow, GroupRow, Interfaces, RegisterState, Rpf, RptRow, SourceRow};

/// Where packets of an entry leave.
fn leaving(daemon: &Daemon, entry: &Entry) -> Vec<String> {
    let accepted = entry.way.accepted;
    let outgoing = entry.row.filter(|_| accepted.is_some()).map(|row| row.outgoing);
    let leaves = outgoing.iter().flat_map(|set: &Interfaces| set.iter()).filter(|iface| Some(*iface) != accepted);
    leaves.map(|iface| daemon.name(iface).to_string()).collect()
}

/// The interfaces where somebody asks for a group's sources, or for one of them: by group and source, 0 for all.
type Asking = BTreeMap<(u32, u32), BTreeSet<u32>>;

/// Hosts that the router serves: pim_include(*,G) and pim_include(S,G).
fn asking_hosts(daemon: &mut Daemon, about: About) -> Result<Asking, Fatal> {
    let groups = daemon.core.rows_of::<GroupRow>()?;
    let sources = daemon.core.rows_of::<SourceRow>()?;
    let mut asking = Asking::new();
    for row in groups.iter().filter(|row| about.has_group(row.group)) {
        let served = daemon.core.tree(row.group).map(|tree| tree.pim_include);
        asking.insert((row.group.into(), 0), served.iter().flat_map(|set| set.iter()).collect());
    }
    for row in sources.iter().filter(|row| about.has_group(row.group)) {
        let key = Key { source: row.source, group: row.group };
        let served = daemon.core.source_tree(key).map(|tree| tree.pim_include);
        asking.insert((row.group.into(), row.source.into()), served.iter().flat_map(|set| set.iter()).collect());
    }
    asking.retain(|_, ifaces| !ifaces.is_empty());
    Ok(asking)
}

/// Routers that joined.
fn asking_routers(daemon: &mut Daemon, about: About) -> Result<Asking, Fatal> {
    let mut asking = Asking::new();
    for row in daemon.core.rows_of::<DownstreamRow>()?.iter().filter(|row| !row.is_rpt && about.has_group(row.group)) {
        let source = row.source.map_or(0, u32::from);
        asking.entry((u32::from(row.group), source)).or_default().insert(row.iface);
    }
    Ok(asking)
}

/// Who asks for which groups and sources.
struct Askers {
    hosts: Asking,
    routers: Asking,
}

impl Askers {
    fn read(daemon: &mut Daemon, about: About) -> Result<Askers, Fatal> {
        Ok(Askers { hosts: asking_hosts(daemon, about)?, routers: asking_routers(daemon, about)? })
    }

    /// The groups that a host or a router asked for, with all sources.
    fn groups(&self) -> impl Iterator<Item = u32> + '_ {
        let asked = self.hosts.keys().chain(self.routers.keys());
        asked.filter(|(_, source)| *source == 0).map(|(group, _)| *group)
    }

    /// A source is also asked for by those who ask for all of its group.
    fn is_asked(asking: &Asking, (group, source): (u32, u32)) -> bool {
        asking.contains_key(&(group, 0)) || asking.contains_key(&(group, source))
    }

    fn in_words(&self, place: (u32, u32)) -> Vec<&'static str> {
        let kinds = [("hosts", &self.hosts), ("routers", &self.routers)];
        kinds.into_iter().filter(|(_, asking)| Askers::is_asked(asking, place)).map(|(name, _)| name).collect()
    }
}

/// What the flags of `show mroute` say, in the order of their letters.
#[derive(Clone, Copy, Default)]
struct Flags {
    /// Hosts that the router serves ask for it.
    has_hosts: bool,
    /// It goes to an interface, or to the RP in Registers.
    is_sent: bool,
    /// The source is pruned off the shared tree.
    is_pruned: bool,
    is_registering: bool,
    has_spt_bit: bool,
}

impl Flags {
    fn letters(self) -> String {
        let Flags { has_hosts, is_sent, is_pruned, is_registering, has_spt_bit } = self;
        let flags = [
            ('S', true),
            ('C', has_hosts),
            ('P', !is_sent),
            ('R', is_pruned),
            ('F', is_registering),
            ('T', has_spt_bit),
        ];
        flags.into_iter().filter(|(_, is_set)| *is_set).map(|(letter, _)| letter).collect()
    }
}

/// A shared tree. Its packets leave on immediate_olist(*,G).
fn shared_tree(daemon: &Daemon, askers: &Askers, group: u32) -> Option<Cells> {
    let tree = daemon.core.tree(group.into())?;
    let way = tree.path.map(|path| path.iface);
    let leaves: BTreeSet<_> = tree.immediate_olist.iter().filter(|iface| Some(*iface) != way).collect();
    let place = (group, 0);
    let has_hosts = Askers::is_asked(&askers.hosts, place);
    let flags = Flags { has_hosts, is_sent: !leaves.is_empty(), ..Flags::default() };
    Some(vec![
        ("source", json!("*")),
        ("group", address(group)),
        ("flags", json!(flags.letters())),
        ("asked_by", json!(askers.in_words(place))),
        ("incoming", way.map_or(Value::Null, |iface| json!(daemon.name(iface)))),
        ("outgoing", json!(leaves.iter().map(|iface| daemon.name(*iface)).collect::<BTreeSet<_>>())),
        ("forwarding", json!(if tree.rpf == Rpf::Own { "this is the RP" } else { "by each source's entry" })),
        ("up_seconds", Value::Null),
        ("packets", Value::Null),
        ("bytes", Value::Null),
        ("stray", Value::Null),
    ])
}

/// Who forwards packets of an entry.
fn forwarding(entry: &Entry) -> &'static str {
    match (entry.row, entry.way.forwarded.outgoing) {
        _ if entry.is_unset => "nobody: the kernel refused the entry, which is tried again",
        _ if entry.is_kept => "kernel, as before the router was made anew",
        _ if entry.way.is_refused => "nobody: the settings refuse it",
        (None, _) => "nobody: the router is full, refuses it, or is the source",
        (Some(_), outgoing) if outgoing == 1 << REGISTER_VIF => "router",
        (Some(_), 0) if entry.way.accepted.is_none() => "nobody: it has no incoming interface",
        (Some(_), 0) => "nobody asks",
        (Some(_), _) => "kernel",
    }
}

/// What the kernel counts now; where it can't be asked, what it counted last.
fn used(daemon: &Daemon) -> HashMap<Key, Used> {
    let before = || daemon.plane.entries().filter_map(|(key, entry)| Some((*key, entry.used?))).collect();
    // A socket of its own, since the router goes on to ask by the other one.
    let table = daemon.kernel.multicast_table();
    let read = Netlink::open().and_then(|mut netlink| netlink.used(table));
    read.map_or_else(|_| before(), |used| used.into_iter().map(|it| (it.key, it)).collect())
}

/// What is known of all entries, each table read once.
struct Known {
    used: HashMap<Key, Used>,
    /// By group and source.
    states: HashMap<(u32, u32), ActiveRow>,
    pruned: HashSet<(u32, u32)>,
    askers: Askers,
}

impl Known {
    fn read(daemon: &mut Daemon, about: About) -> Result<Known, Fatal> {
        let used = used(daemon);
        let active = daemon.core.rows_of::<ActiveRow>()?.into_iter();
        let trees = daemon.core.rows_of::<RptRow>()?;
        let pruned = trees.iter().filter(|row| row.is_pruned);
        Ok(Known {
            used,
            states: active.map(|row| ((u32::from(row.group), u32::from(row.source)), row)).collect(),
            pruned: pruned.map(|row| (u32::from(row.group), u32::from(row.source))).collect(),
            askers: Askers::read(daemon, about)?,
        })
    }

    fn entry(&self, daemon: &Daemon, place: (u32, u32), entry: &Entry) -> Cells {
        let state = self.states.get(&place);
        let outgoing = leaving(daemon, entry);
        let is_registering = state.map_or(false, |row| row.register == Some(RegisterState::Joined));
        let flags = Flags {
            has_hosts: Askers::is_asked(&self.askers.hosts, place),
            is_sent: is_registering || !outgoing.is_empty(),
            is_pruned: self.pruned.contains(&place),
            is_registering,
            has_spt_bit: state.map_or(false, |row| row.spt_bit),
        };
        let used = self.used.get(&Key { source: place.1.into(), group: place.0.into() });
        vec![
            ("source", address(place.1)),
            ("group", address(place.0)),
            ("flags", json!(flags.letters())),
            ("asked_by", json!(self.askers.in_words(place))),
            ("incoming", entry.way.accepted.map_or(Value::Null, |iface| json!(daemon.name(iface)))),
            ("outgoing", json!(outgoing)),
            ("forwarding", json!(forwarding(entry))),
            ("up_seconds", seconds(daemon.now().saturating_sub(entry.since))),
            ("packets", used.map_or(Value::Null, |used| json!(used.packets))),
            ("bytes", used.map_or(Value::Null, |used| json!(used.bytes))),
            ("stray", used.map_or(Value::Null, |used| json!(used.stray))),
        ]
    }
}

/// Each shared tree that is asked for, and each entry of the kernel, by groups.
pub fn mroute(daemon: &mut Daemon, about: About, sheet: &mut Sheet) -> io::Result<()> {
    let known = Known::read(daemon, about)?;
    let shared = known.askers.groups().filter(|group| about.has((*group).into(), None)).map(|group| ((group, 0), None));
    let entries = daemon.plane.entries().filter(|(key, _)| about.has(key.group, Some(key.source)));
    let entries = entries.map(|(key, entry)| ((u32::from(key.group), u32::from(key.source)), Some(entry)));
    let all: BTreeMap<_, _> = shared.chain(entries).collect();
    for (place, entry) in all {
        let cells = match entry {
            Some(entry) => Some(known.entry(daemon, place, entry)),
            None => shared_tree(daemon, &known.askers, place.0),
        };
        cells.map_or(Ok(()), |cells| sheet.row(cells))?;
    }
    Ok(())
}

#[cfg(test)]
mod tests {
    use super::*;

    #[test]
    fn a_flag_has_one_letter_for_a_group_and_for_a_source() {
        let told = Flags { has_hosts: true, is_sent: true, is_pruned: true, is_registering: true, has_spt_bit: true };
        assert_eq!(told.letters(), "SCRFT");
        assert_eq!(Flags::default().letters(), "SP");
        assert_eq!(Flags { is_sent: true, ..Flags::default() }.letters(), "S");
        assert_eq!(Flags { is_registering: true, is_sent: true, ..Flags::default() }.letters(), "SF");
    }

    #[test]
    fn a_source_is_asked_for_by_those_who_ask_for_its_group() {
        let asking = |places: &[(u32, u32)]| places.iter().map(|place| (*place, BTreeSet::from([3]))).collect();
        let askers = Askers { hosts: asking(&[(1, 0), (2, 9)]), routers: asking(&[(2, 0)]) };
        assert_eq!(askers.in_words((1, 0)), ["hosts"]);
        assert_eq!(askers.in_words((1, 9)), ["hosts"]);
        assert_eq!(askers.in_words((2, 0)), ["routers"]);
        assert_eq!(askers.in_words((2, 9)), ["hosts", "routers"]);
        assert_eq!(askers.in_words((2, 8)), ["routers"]);
        assert!(askers.in_words((3, 9)).is_empty());
    }
}
