//! What the router holds of an interface, for the quotas.
use super::{rows_of, Books};
use crate::split;
use std::collections::{BTreeMap, HashMap, HashSet};
use std::net::Ipv4Addr;
use viqeshor::{AssertRow, DownstreamRow, GroupRow, NeighbourRow, SourceRow};

/// A group, or a source of one, that hosts ask for.
type Wanted = (Ipv4Addr, Option<Ipv4Addr>);

/// What the router holds of an interface, or would hold after what was let through. What has ended may still stand
/// here.
#[derive(Clone, Debug, Default)]
pub struct Held {
    pub neighbours: HashSet<Ipv4Addr>,
    /// The sources that hosts named, by their groups, and how many these are together.
    pub groups: HashMap<Ipv4Addr, HashSet<Ipv4Addr>>,
    sources: usize,
    /// The host that was the first to ask for each, as far as it is known, and for how many each host was.
    payers: HashMap<Wanted, Ipv4Addr>,
    paid: HashMap<Ipv4Addr, usize>,
    pub joins: HashSet<split::JoinKey>,
    /// Groups and sources of asserts, 0.0.0.0 for all.
    pub asserts: HashSet<(Ipv4Addr, Ipv4Addr)>,
}

/// What the router holds, by interfaces.
pub fn read(books: &mut dyn Books) -> BTreeMap<u32, Held> {
    let mut held: BTreeMap<u32, Held> = BTreeMap::new();
    for row in rows_of::<NeighbourRow>(books) {
        held.entry(row.iface).or_default().neighbours.insert(row.address);
    }
    for row in rows_of::<GroupRow>(books) {
        held.entry(row.iface).or_default().groups.entry(row.group).or_default();
    }
    for row in rows_of::<SourceRow>(books) {
        held.entry(row.iface).or_default().add_source(row.group, row.source);
    }
    for row in rows_of::<DownstreamRow>(books) {
        held.entry(row.iface).or_default().joins.insert(split::JoinKey::of_row(&row));
    }
    for row in rows_of::<AssertRow>(books) {
        let source = row.source.unwrap_or(Ipv4Addr::UNSPECIFIED);
        held.entry(row.iface).or_default().asserts.insert((row.group, source));
    }
    held
}

impl Held {
    pub fn of_hosts(&self) -> usize {
        self.groups.len() + self.sources
    }

    pub fn of_neighbours(&self) -> usize {
        self.joins.len() + self.asserts.len()
    }

    pub fn facts(&self) -> usize {
        self.neighbours.len() + self.of_hosts() + self.of_neighbours()
    }

    /// How much of it a host was the first to ask for.
    pub fn paid(&self, host: Ipv4Addr) -> usize {
        self.paid.get(&host).copied().unwrap_or(0)
    }

    fn add_source(&mut self, group: Ipv4Addr, source: Ipv4Addr) -> bool {
        let is_new = self.groups.entry(group).or_default().insert(source);
        self.sources += usize::from(is_new);
        is_new
    }

    fn pay(&mut self, wanted: Wanted, host: Ipv4Addr) {
        self.payers.insert(wanted, host);
        *self.paid.entry(host).or_default() += 1;
    }

    fn has(&self, (group, source): Wanted) -> bool {
        self.groups.get(&group).map_or(false, |known| source.map_or(true, |source| known.contains(&source)))
    }

    /// Of what was held before the payers of what is held still are the same.
    pub fn keep_payers(&mut self, before: Held) {
        for (wanted, host) in before.payers {
            if self.has(wanted) {
                self.pay(wanted, host);
            }
        }
    }

    /// How many facts a record needs that aren't held.
    pub fn needed(&self, record: &split::Record) -> usize {
        let known = self.groups.get(&record.group);
        let is_new = |source: &&Ipv4Addr| known.map_or(true, |known| !known.contains(source));
        match record.asks_for_nothing() {
            true => 0,
            false => record.sources.iter().filter(is_new).count() + usize::from(known.is_none()),
        }
    }

    /// Adds what a record of a host asks for.
    pub fn add(&mut self, record: &split::Record, host: Ipv4Addr) {
        if !self.has((record.group, None)) {
            self.groups.insert(record.group, HashSet::new());
            self.pay((record.group, None), host);
        }
        for source in &record.sources {
            if self.add_source(record.group, *source) {
                self.pay((record.group, Some(*source)), host);
            }
        }
    }
}
