//! What is let through to the router: lists of groups, sources and neighbours, and quotas of what an interface may
//! bring.
//!
//! It stands in front of the library: what it refuses never gets there. What is known is never refused by a quota, so a
//! refresh goes through. Each refusal is counted, and said at a bounded rate.
use crate::mroute::Key;
use crate::older::{Older, Speech};
use crate::packet::{address, is_pim, Packet, IGMP};
use crate::said::Said;
use crate::settings::Subnet;
use crate::split;
use log::warn;
use std::borrow::Cow;
use std::collections::{BTreeMap, HashMap, HashSet};
use std::fmt;
use std::net::Ipv4Addr;
use viqeshor::{Row, Table, TableRow};

mod held;
pub mod lists;
mod refusals;
pub use refusals::{Cause, Refusals};

use held::Held;
use lists::{InterfacePolicy, PolicySettings};

/// What the router holds is read anew at most so often, in ms; where reading takes long, for a part of the time.
const READ_EVERY: u64 = 1_000;
const PART_OF_TIME: u64 = 10;
const HELLO: u8 = 0;
const JOIN_PRUNE: u8 = 3;
const ASSERT: u8 = 5;
/// Where the group and the source of an Assert stand, and how long one is.
const ASSERTED_GROUP_AT: usize = 8;
const ASSERTED_SOURCE_AT: usize = 14;
const ASSERT_LENGTH: usize = 26;
const REPORT: u8 = 0x22;
/// So many older hosts that aren't served are told apart, and told of in a time.
const MOST_OLDER_HOSTS: usize = 1_024;
const MOST_LINES: u32 = 5;

/// Where the policy reads what the router holds.
pub trait Books {
    fn rows(&mut self, table: Table) -> Vec<Row>;
    /// In ms.
    fn now(&self) -> u64;
    /// Whether an address is of a subnet of the interface's link.
    fn is_of_link(&self, iface: u32, address: Ipv4Addr) -> bool;
}

/// Who pays for what a report asks for: its host; those without an address of the link do so together.
fn payer(books: &dyn Books, iface: u32, report: Packet) -> Ipv4Addr {
    let host = report.source();
    if books.is_of_link(iface, host) {
        host
    } else {
        Ipv4Addr::UNSPECIFIED
    }
}

/// The rows of the table of one kind of row.
fn rows_of<R: TableRow>(books: &mut dyn Books) -> Vec<R> {
    books.rows(R::TABLE).into_iter().filter_map(R::of).collect()
}

/// An interface, for the policy.
#[derive(Clone, Debug)]
pub struct Gate {
    pub name: String,
    pub address: Ipv4Addr,
    pub speech: Speech,
    pub policy: InterfacePolicy,
}

#[derive(Debug, Default)]
pub struct Policy {
    settings: PolicySettings,
    limit: usize,
    gates: BTreeMap<u32, Gate>,
    held: BTreeMap<u32, Held>,
    /// The sources of groups that the router knows, with the interface on which they came first; none of a Register.
    streams: HashMap<Key, Option<u32>>,
    stream_counts: HashMap<Option<u32>, usize>,
    /// Those of IGMPv1 and IGMPv2 of which a line said that they aren't served, and why.
    older_hosts: HashSet<(u32, Ipv4Addr, Cause)>,
    said: Said<(Cause, u32)>,
    read_due: u64,
    pub refusals: Refusals,
}

impl Policy {
    /// Takes settings. What is held stays.
    pub fn set(&mut self, settings: PolicySettings, limit: u32, gates: BTreeMap<u32, Gate>) {
        self.settings = settings;
        self.limit = limit as usize;
        self.gates = gates;
    }

    /// The router was made anew, and holds nothing.
    pub fn forget(&mut self) {
        self.held.clear();
        self.streams.clear();
        self.stream_counts.clear();
    }

    /// The router goes on with what another one held: it is read anew.
    pub fn resume(&mut self, books: &mut dyn Books) {
        self.read_due = 0;
        self.read(books);
    }

    /// Interfaces have other numbers; what was held of one that has none is forgotten. The gates are set anew.
    pub fn renumber(&mut self, there: impl Fn(u32) -> Option<u32>) {
        let held = std::mem::take(&mut self.held);
        self.held = held.into_iter().filter_map(|(iface, held)| Some((there(iface)?, held))).collect();
        self.stream_counts.clear();
        for iface in self.streams.values_mut() {
            *iface = iface.and_then(&there);
            *self.stream_counts.entry(*iface).or_default() += 1;
        }
        let older = std::mem::take(&mut self.older_hosts).into_iter();
        self.older_hosts = older.filter_map(|(iface, host, cause)| Some((there(iface)?, host, cause))).collect();
        self.said.renumber(|(cause, iface)| Some((cause, there(iface)?)));
    }

    pub fn is_passive(&self, iface: u32) -> bool {
        self.gates.get(&iface).map_or(false, |gate| gate.policy.is_passive)
    }

    fn name(&self, iface: u32) -> String {
        self.gates.get(&iface).map_or_else(|| "?".to_string(), |gate| gate.name.clone())
    }

    fn refuse(&mut self, now: u64, cause: Cause, iface: u32, what: &dyn fmt::Display) {
        let name = self.name(iface);
        self.refusals.note(now, cause, &name, what);
    }

    /// Says how many lines were left out.
    pub fn say_what_was_left_out(&mut self, now: u64) {
        for ((cause, iface), count) in self.said.left_out(now) {
            warn!("{count} more hosts on {} are left out: {cause}", self.name(iface));
        }
        self.refusals.say_rest(now);
    }

    // ---- what is held

    /// Whether hosts of an interface want a group, as far as is known.
    pub fn has_hosts(&self, iface: u32) -> bool {
        self.held.get(&iface).map_or(false, |held| !held.groups.is_empty())
    }

    /// Whether they want this one.
    pub fn has_group(&self, iface: u32, group: Ipv4Addr) -> bool {
        self.held.get(&iface).map_or(false, |held| held.groups.contains_key(&group))
    }

    fn held(&mut self, iface: u32) -> &mut Held {
        self.held.entry(iface).or_default()
    }

    /// Reads what the router holds, where that was long enough ago.
    fn read(&mut self, books: &mut dyn Books) {
        let began = books.now();
        if began < self.read_due {
            return;
        }
        let before = std::mem::replace(&mut self.held, held::read(books));
        for (iface, before) in before {
            self.held(iface).keep_payers(before);
        }
        self.read_due = books.now() + READ_EVERY.max(PART_OF_TIME * books.now().saturating_sub(began));
    }

    /// How many facts may come without those that are kept for neighbours.
    fn room(&self) -> usize {
        let reserve = lists::reserve(self.limit, self.gates.values().map(|gate| &gate.policy));
        let neighbours: usize = self.held.values().map(|held| held.neighbours.len()).sum();
        let facts: usize = self.held.values().map(Held::facts).sum();
        self.limit.saturating_sub(reserve.saturating_sub(neighbours) + facts + self.streams.len())
    }

    // ---- PIM and IGMP of a link

    /// What of a packet to a group goes to the router: all of it, a part, or `None`.
    pub fn let_in<'a>(&mut self, books: &mut dyn Books, iface: u32, bytes: &'a [u8]) -> Option<Cow<'a, [u8]>> {
        let packet = match Packet::read(bytes) {
            Some(packet) => packet,
            // The library says what is wrong with it.
            None => return Some(bytes.into()),
        };
        if packet.is_pim_of_link() {
            self.believed(books, iface, packet)?;
        }
        if is_pim(packet, HELLO) {
            self.hello(books, iface, packet)?;
        }
        if is_pim(packet, JOIN_PRUNE) {
            return self.join_prune(books, iface, packet);
        }
        if is_pim(packet, ASSERT) {
            self.assert(books, iface, packet)?;
        }
        match (Older::read(packet), packet.content().first()) {
            (Some(older), _) => self.older(books, iface, packet, older),
            (None, Some(&REPORT)) if packet.protocol() == IGMP => self.report(books, iface, packet),
            _ => Some(bytes.into()),
        }
    }

    /// PIM between the routers of a link has a TTL of 1 (RFC 7761, 4.9), and an address of the link.
    fn believed(&mut self, books: &mut dyn Books, iface: u32, packet: Packet) -> Option<()> {
        let policy = &self.gates.get(&iface)?.policy;
        let source = packet.source();
        let is_named = |list: &Vec<Subnet>| list.iter().any(|subnet| subnet.contains(source.into()));
        let cause = match &policy.neighbours {
            _ if policy.is_passive => Cause::Passive,
            _ if packet.ttl() != 1 => Cause::FarTtl,
            _ if !policy.is_unnumbered && !books.is_of_link(iface, source) => Cause::OtherSubnet,
            Some(list) if !is_named(list) => Cause::NotBelieved,
            _ => return Some(()),
        };
        self.refuse(books.now(), cause, iface, &source);
        None
    }

    fn hello(&mut self, books: &mut dyn Books, iface: u32, packet: Packet) -> Option<()> {
        let (source, most) = (packet.source(), self.gates.get(&iface)?.policy.max_neighbours as usize);
        let passes = |held: &Held| held.neighbours.contains(&source) || held.neighbours.len() < most;
        if !passes(self.held(iface)) {
            self.read(books);
        }
        if !passes(self.held(iface)) {
            self.refuse(books.now(), Cause::Neighbours, iface, &source);
            return None;
        }
        self.held(iface).neighbours.insert(source);
        Some(())
    }

    /// A report or a Leave of an older host passes as the record does that it becomes.
    fn older<'a>(
        &mut self,
        books: &mut dyn Books,
        iface: u32,
        packet: Packet<'a>,
        older: Older,
    ) -> Option<Cow<'a, [u8]>> {
        // Of these groups nothing is kept, as of records of them.
        if older.is_of_link() {
            return None;
        }
        let cause = match self.gates.get(&iface) {
            Some(gate) if !gate.speech.hears(older) => Some(Cause::OlderHost),
            // RFC 4604, 3: such a host names no source.
            _ if older.is_source_specific() => Some(Cause::SourceSpecific),
            _ => None,
        };
        if let Some(cause) = cause {
            self.is_not_served(books.now(), (cause, iface), packet.source(), older);
            return None;
        }
        let record = split::Record::of_older(older);
        let payer = payer(books, iface, packet);
        self.read_for_report(books, (iface, payer), std::slice::from_ref(&record));
        self.passes(books, (iface, payer), packet, &record).then(|| packet.bytes().into())
    }

    /// Counts it, and says it once of a host.
    fn is_not_served(&mut self, now: u64, (cause, iface): (Cause, u32), host: Ipv4Addr, older: Older) {
        let name = self.name(iface);
        self.refusals.count(cause, &name);
        let is_new = self.older_hosts.len() < MOST_OLDER_HOSTS && self.older_hosts.insert((iface, host, cause));
        if !is_new || !self.said.may(now, (cause, iface), MOST_LINES) {
            return;
        }
        let (version, group) = (older.version, older.group);
        match cause {
            Cause::SourceSpecific => warn!(
                "the host {host} on {name} speaks {version} of the SSM group {group}, and so names no source: of such \
                 groups it gets nothing"
            ),
            _ => warn!("the host {host} on {name} speaks {version}, which `older_hosts` doesn't hear: it gets nothing"),
        }
    }

    fn report<'a>(&mut self, books: &mut dyn Books, iface: u32, packet: Packet<'a>) -> Option<Cow<'a, [u8]>> {
        let records = match split::records(packet) {
            Some(records) => records,
            None => return Some(packet.bytes().into()),
        };
        let payer = payer(books, iface, packet);
        self.read_for_report(books, (iface, payer), &records);
        let count = records.len();
        let mut kept = Vec::new();
        for record in records {
            if self.passes(books, (iface, payer), packet, &record) {
                kept.push(record);
            }
        }
        match kept.len() {
            left if left == count => Some(packet.bytes().into()),
            0 => None,
            _ => Some(split::with_records(packet, &kept).into()),
        }
    }

    /// Whether a record of a packet passes; one that doesn't is counted, and said.
    fn passes(&mut self, books: &dyn Books, of: (u32, Ipv4Addr), packet: Packet, record: &split::Record) -> bool {
        let passes = self.record(of, record);
        if let Err(cause) = passes {
            self.refuse(books.now(), cause, of.0, &format_args!("{} of {}", record.group, packet.source()));
        }
        passes.is_ok()
    }

    /// Has what is held read anew, where not each of the records may pass by what the books say.
    fn read_for_report(&mut self, books: &mut dyn Books, (iface, payer): (u32, Ipv4Addr), records: &[split::Record]) {
        let policy = match self.gates.get(&iface) {
            Some(gate) => &gate.policy,
            None => return,
        };
        let (max_groups, of_host) = (policy.max_groups as usize, policy.max_host_groups as usize);
        let max_sources = policy.max_sources as usize;
        let held = self.held(iface);
        let needed: usize = records.iter().map(|record| held.needed(record)).sum();
        let are_many = |record: &split::Record| {
            held.groups.get(&record.group).map_or(0, HashSet::len) + record.sources.len() > max_sources
        };
        if needed == 0 {
            return;
        }
        let is_above = held.of_hosts() + needed > max_groups || held.paid(payer) + needed > of_host;
        let is_tight = is_above || records.iter().any(are_many);
        if is_tight || needed > self.room() {
            self.read(books);
        }
    }

    /// A record of a host on an interface.
    fn record(&mut self, (iface, payer): (u32, Ipv4Addr), record: &split::Record) -> Result<(), Cause> {
        let policy = match self.gates.get(&iface) {
            Some(gate) if !record.asks_for_nothing() => &gate.policy,
            _ => return Ok(()),
        };
        let (max_sources, max_groups) = (policy.max_sources as usize, policy.max_groups as usize);
        let of_host = policy.max_host_groups as usize;
        let is_permitted = match record.included() {
            Some(sources) => sources.iter().all(|source| policy.join.permits(Some(*source), record.group)),
            None => policy.join.permits(None, record.group),
        };
        if !is_permitted {
            return Err(Cause::JoinList);
        }
        let held = self.held(iface);
        let known = held.groups.get(&record.group);
        let sources = held.needed(record) - usize::from(known.is_none());
        let more = sources + usize::from(known.is_none());
        match more {
            0 => return Ok(()),
            _ if sources > 0 && known.map_or(0, HashSet::len) + sources > max_sources => return Err(Cause::Sources),
            _ if held.of_hosts() + more > max_groups => return Err(Cause::Groups),
            _ if held.paid(payer) + more > of_host => return Err(Cause::HostGroups),
            _ => {}
        }
        if more > self.room() {
            return Err(Cause::Reserve);
        }
        self.held(iface).add(record, payer);
        Ok(())
    }

    fn join_prune<'a>(&mut self, books: &mut dyn Books, iface: u32, packet: Packet<'a>) -> Option<Cow<'a, [u8]>> {
        let own = self.gates.get(&iface).map(|gate| gate.address);
        let message = match split::join_prune(packet) {
            // What goes to another router, or ends at once, makes nothing here.
            Some(message) if Some(message.to) == own && message.holdtime > 0 => message,
            _ => return Some(packet.bytes().into()),
        };
        if self.is_known(iface, &message.entries) {
            return Some(packet.bytes().into());
        }
        self.read_for_joins(books, iface, &message.entries);
        let count = message.entries.len();
        let mut kept = Vec::new();
        for entry in message.entries {
            match self.join(iface, &entry) {
                Ok(()) => kept.push(entry),
                Err(cause) => {
                    self.refuse(books.now(), cause, iface, &format_args!("{} of {}", entry.key, packet.source()))
                }
            }
        }
        match kept.len() {
            left if left == count => Some(packet.bytes().into()),
            0 => None,
            _ => Some(split::with_entries(packet, &kept).into()),
        }
    }

    /// Whether no list is to be asked, and all that makes state is held: a refresh.
    fn is_known(&self, iface: u32, entries: &[split::Entry]) -> bool {
        let has_list = self.gates.get(&iface).map_or(true, |gate| gate.policy.join.0.is_some());
        let joins = self.held.get(&iface).map(|held| &held.joins);
        let is_held = |entry: &split::Entry| joins.map_or(false, |joins| joins.contains(&entry.key));
        !has_list && entries.iter().all(|entry| !entry.makes_state() || is_held(entry))
    }

    fn read_for_joins(&mut self, books: &mut dyn Books, iface: u32, entries: &[split::Entry]) {
        let max_joins = self.gates.get(&iface).map_or(usize::MAX, |gate| gate.policy.max_joins as usize);
        let held = self.held(iface);
        let is_new = |entry: &&split::Entry| entry.makes_state() && !held.joins.contains(&entry.key);
        let needed = entries.iter().filter(is_new).count();
        if needed > 0 && (held.of_neighbours() + needed > max_joins || needed > self.room()) {
            self.read(books);
        }
    }

    fn join(&mut self, iface: u32, entry: &split::Entry) -> Result<(), Cause> {
        let policy = match self.gates.get(&iface) {
            Some(gate) => &gate.policy,
            None => return Ok(()),
        };
        if entry.is_join && !policy.join.permits(entry.key.source, entry.key.group) {
            return Err(Cause::JoinList);
        }
        let max_joins = policy.max_joins as usize;
        let held = self.held(iface);
        match held.of_neighbours() {
            _ if !entry.makes_state() || held.joins.contains(&entry.key) => return Ok(()),
            count if count >= max_joins => return Err(Cause::Joins),
            _ => {}
        }
        if self.room() == 0 {
            return Err(Cause::Reserve);
        }
        self.held(iface).joins.insert(entry.key);
        Ok(())
    }

    fn assert(&mut self, books: &mut dyn Books, iface: u32, packet: Packet) -> Option<()> {
        let content = packet.content();
        if content.len() < ASSERT_LENGTH {
            return Some(());
        }
        let key = (address(content, ASSERTED_GROUP_AT), address(content, ASSERTED_SOURCE_AT));
        let max_joins = self.gates.get(&iface)?.policy.max_joins as usize;
        let passes = |held: &Held, room: usize| match held.of_neighbours() {
            _ if held.asserts.contains(&key) => Ok(()),
            count if count >= max_joins => Err(Cause::Joins),
            _ if room == 0 => Err(Cause::Reserve),
            _ => Ok(()),
        };
        let mut room = self.room();
        if passes(self.held(iface), room).is_err() {
            self.read(books);
            room = self.room();
        }
        if let Err(cause) = passes(self.held(iface), room) {
            let what = format!("the Assert of ({}, {}) of {}", key.1, key.0, packet.source());
            self.refuse(books.now(), cause, iface, &what);
            return None;
        }
        self.held(iface).asserts.insert(key);
        Some(())
    }

    // ---- data

    /// Whether the list of an interface permits a source of a group.
    pub fn may_send(&self, iface: u32, key: Key) -> bool {
        self.gates.get(&iface).map_or(true, |gate| gate.policy.send.permits(Some(key.source), key.group))
    }

    /// Whether packets of a source that come on an interface go to the router.
    pub fn stream(&mut self, books: &mut dyn Books, iface: u32, key: Key) -> bool {
        let most = self.gates.get(&iface).map_or(u32::MAX, |gate| gate.policy.max_streams);
        let passes = match self.may_send(iface, key) {
            true => self.has_room(books, Some(iface), most, Cause::Streams, key),
            false => Err(Cause::SendList),
        };
        if let Err(cause) = passes {
            self.refuse(books.now(), cause, iface, &key);
        }
        passes.is_ok()
    }

    /// Whether a packet to an address of the router goes to it: a Register may be one too many.
    pub fn unicast(&mut self, books: &mut dyn Books, bytes: &[u8]) -> bool {
        let key = match registered(bytes) {
            Some(key) => key,
            None => return true,
        };
        let passes = match self.settings.register.permits(Some(key.source), key.group) {
            true => self.has_room(books, None, self.settings.max_registered, Cause::Registered, key),
            false => Err(Cause::RegisterList),
        };
        if let Err(cause) = passes {
            self.refusals.note(books.now(), cause, "Registers", &format_args!("{key} of {}", address(bytes, 12)));
        }
        passes.is_ok()
    }

    fn has_room(
        &mut self,
        books: &mut dyn Books,
        from: Option<u32>,
        most: u32,
        over: Cause,
        key: Key,
    ) -> Result<(), Cause> {
        if self.streams.contains_key(&key) {
            return Ok(());
        }
        if self.stream_counts.get(&from).copied().unwrap_or(0) >= most as usize {
            return Err(over);
        }
        if self.room() == 0 {
            self.read(books);
        }
        match self.room() {
            0 => Err(Cause::Reserve),
            _ => Ok(()),
        }
    }

    /// The router has a fact of a source.
    pub fn began(&mut self, key: Key, from: Option<u32>) {
        if let std::collections::hash_map::Entry::Vacant(place) = self.streams.entry(key) {
            place.insert(from);
            *self.stream_counts.entry(from).or_default() += 1;
        }
    }

    /// The router has none of it any more.
    pub fn ended(&mut self, key: Key) {
        if let Some(count) = self.streams.remove(&key).and_then(|from| self.stream_counts.get_mut(&from)) {
            *count -= 1;
        }
    }
}

/// The source and the group of the packet in a Register.
pub fn registered(bytes: &[u8]) -> Option<Key> {
    const REGISTER: u8 = 1;
    const INNER: usize = 8;
    let packet = Packet::read(bytes).filter(|packet| is_pim(*packet, REGISTER))?;
    let inner = packet.content().get(INNER..).filter(|inner| inner.len() >= 20)?;
    Some(Key { source: address(inner, 12), group: address(inner, 16) })
}

#[cfg(test)]
mod tests;
