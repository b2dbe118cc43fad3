//! The router on the machine: events of its sockets and clocks go to the library one by one, and what it answers goes
//! out.
mod anew;
mod bfd;
mod bootstraps;
mod candidacy;
mod cleared;
mod forwarding;
mod heard;
mod machine;
mod msdp;
mod newcomers;
mod overridden;
mod reconfigured;
mod renumbered;
mod resumed;
mod turns;
mod upgrade;
mod watched;

use crate::bfd::Session;
use crate::core::{Answer, Core, Event, Given};
use crate::counters::Counters;
use crate::error::Fatal;
use crate::kernel::Kernel;
use crate::mroute::Key;
use crate::older::Version;
use crate::overrides::Overrides;
use crate::packed::Packing;
use crate::packet::{is_pim, message_of, says_goodbye, with_holdtime, Packet, BOOTSTRAP, HELLO};
use crate::plane::{Placed, Plane, Row, Ways};
use crate::policy::{Books, Cause, Gate, Policy};
use crate::ports::{self, Machine, Port};
use crate::routes::Counts;
use crate::said::Said;
use crate::settings::{Settings, Subnet};
use crate::waiting::Waiting;
use crate::{stand_in, words};
use log::{debug, warn};
use std::collections::{BTreeMap, BTreeSet};
use std::net::Ipv4Addr;
use std::path::{Path, PathBuf};
use std::time::{Duration, Instant};
use viqeshor::{Route, Table, Target};
use watched::Kind;

/// The most bytes of Join/Prunes that leave together: the library of another router reads no more.
const MOST_PACKED: usize = 1_500;
/// Time passes for the library for a part of the time, and not with each packet: it may be behind by so many ms, but
/// by no more than these.
const PART_OF_TIME: u64 = 10;
const BEHIND: u64 = 10;
const MOST_BEHIND: u64 = 50;

/// A neighbour as its last Hello has it.
#[derive(Clone, Debug)]
pub struct Neighbour {
    /// In ms.
    pub since: u64,
    /// Of the last Hello, in words.
    pub said: String,
    pub priority: Option<u32>,
    pub generation: Option<u32>,
}

/// An interface and an address on its link.
type Place = (u32, Ipv4Addr);

/// The neighbours that the router has, for people.
#[derive(Default)]
pub struct Neighbours {
    pub known: BTreeMap<Place, Neighbour>,
    /// The last Hello of each, until the router has it as a neighbour.
    hellos: BTreeMap<Place, Neighbour>,
    are_stale: bool,
}

/// The routes as they were told to the router last.
pub struct Routing {
    pub told: Vec<Route>,
    pub counts: Counts,
    waiting: Waiting,
    /// When they are read again, in ms.
    due: Option<u64>,
    /// They are read at once, before that too.
    is_urgent: bool,
    /// How long after a change they are read, in ms.
    settle: u64,
}

impl Routing {
    fn new() -> Routing {
        Routing {
            told: Vec::new(),
            counts: Counts::default(),
            waiting: Waiting::default(),
            due: None,
            is_urgent: false,
            settle: machine::ROUTES_SETTLE,
        }
    }

    /// They are to be read at a moment, if not before.
    fn is_due_at(&mut self, moment: u64) {
        self.due = Some(self.due.map_or(moment, |due| due.min(moment)));
    }
}

/// What is to be done at a moment, in ms.
#[derive(Default)]
struct Due {
    look: u64,
    /// Links and addresses are read again.
    machine: Option<u64>,
    /// What the kernel refused is tried again.
    unset: Option<u64>,
    /// The library's router takes other addresses.
    addresses: Option<u64>,
    /// One that was made anew may have learned what it needs.
    learned: Option<u64>,
    /// What it hasn't learned by then it won't.
    unlearned: u64,
    /// RPs go that the router before this one had learned of Bootstraps.
    unheard: Option<u64>,
}

/// Sources without a fact that are to be asked for anew after the turn.
#[derive(Default)]
struct Stale {
    groups: BTreeSet<Ipv4Addr>,
    keys: BTreeSet<Key>,
}

/// When time may pass for the library though no timer ends, in ms: the more groups older hosts have, the longer it
/// takes, and packets may come faster than that.
#[derive(Clone, Copy, Debug, Default, PartialEq, Eq)]
struct Pace(u64);

impl Pace {
    fn is_early(self, now: u64) -> bool {
        now < self.0
    }

    /// After it took so long.
    fn after(now: u64, took: Duration) -> Pace {
        Pace(now + (took.as_micros() as u64 * PART_OF_TIME / 1_000).clamp(BEHIND, MOST_BEHIND))
    }
}

pub use bootstraps::{Chosen, Rp};
pub use msdp::{Msdp, Shown as Peer};
pub use resumed::Way;

pub struct Daemon {
    /// The process of the router; what answers clients is another one.
    pub process: u32,
    pub settings: Settings,
    file: PathBuf,
    pub kernel: Box<dyn Kernel>,
    pub core: Core,
    pub policy: Policy,
    pub ports: Vec<Port>,
    machine: Machine,
    pub plane: Plane,
    pub routing: Routing,
    pub neighbours: Neighbours,
    pub counters: Counters,
    /// Which older versions were heard on which interfaces, for lines.
    older_heard: BTreeSet<(u32, Version)>,
    /// Of BFD, with neighbours.
    sessions: BTreeMap<Place, Session>,
    overrides: Overrides,
    /// Of MSDP, with other RPs.
    pub msdp: Msdp,
    due: Due,
    stale: Stale,
    /// How many lines were said lately, by their kinds and interfaces.
    said: Said<(Kind, Option<u32>)>,
    /// Interfaces with hosts of which a line said that these may speak PIM.
    open: BTreeSet<u32>,
    /// The elected BSR, and since when.
    pub bsr_since: Option<(Ipv4Addr, u64)>,
    /// The designated router of each link.
    designated: BTreeMap<u32, Ipv4Addr>,
    pace: Pace,
    /// The source of the data packet that the router has in hand, and where it came.
    in_hand: Option<(Key, Option<u32>)>,
    /// What leaves to it by unicast for the event in hand isn't sent.
    silent_to: Option<Ipv4Addr>,
    /// What is kept for a router that begins after this one ended.
    keeping: upgrade::Keeping,
    successor: upgrade::Successor,
}

/// The policy's view of the router.
struct Ledger<'a> {
    core: &'a mut Core,
    kernel: &'a dyn Kernel,
    machine: &'a Machine,
    ports: &'a [Port],
}

impl Books for Ledger<'_> {
    fn rows(&mut self, table: Table) -> Vec<viqeshor::Row> {
        // A router that failed says so at its next event.
        self.core.rows(table).unwrap_or_default()
    }

    fn now(&self) -> u64 {
        self.kernel.now()
    }

    fn is_of_link(&self, iface: u32, address: Ipv4Addr) -> bool {
        let port = match self.ports.get(iface as usize) {
            Some(port) => port,
            None => return false,
        };
        let is_within = |subnet: &Subnet| subnet.contains(address.into());
        let others = || port.index.map_or(&[][..], |index| self.machine.addresses(index));
        port.own.subnet.iter().any(is_within) || others().iter().any(is_within)
    }
}

impl Daemon {
    /// Makes the router, with every interface down.
    pub fn new(file: &Path, settings: Settings, mut kernel: Box<dyn Kernel>) -> Result<Daemon, Fatal> {
        let links = kernel.links().map_err(Fatal::Netlink)?;
        let machine = Machine::new(links, kernel.addresses().map_err(Fatal::Netlink)?);
        let mut ports = Vec::new();
        ports::take_settings(&mut ports, &settings.interfaces);
        let (addresses, said) = ports::addresses(&ports, &machine);
        said.iter().for_each(|line| warn!("{line}"));
        ports.iter_mut().zip(addresses).for_each(|(port, own)| port.own = own);
        let core = Core::new(&settings, &Given::of(&ports))?;
        let mut daemon = Daemon::of(file, settings, (kernel, machine), ports, core);
        daemon.set_policy();
        daemon.speak()?;
        Ok(daemon)
    }

    fn of(
        file: &Path,
        settings: Settings,
        (kernel, machine): (Box<dyn Kernel>, Machine),
        ports: Vec<Port>,
        core: Core,
    ) -> Daemon {
        Daemon {
            process: std::process::id(),
            file: file.to_path_buf(),
            core,
            kernel,
            policy: Policy::default(),
            ports,
            machine,
            plane: Plane::default(),
            routing: Routing::new(),
            neighbours: Neighbours::default(),
            counters: Counters::default(),
            older_heard: BTreeSet::new(),
            sessions: BTreeMap::new(),
            overrides: Overrides::default(),
            msdp: Msdp::default(),
            due: Due::default(),
            stale: Stale::default(),
            said: Said::default(),
            open: BTreeSet::new(),
            bsr_since: None,
            designated: BTreeMap::new(),
            pace: Pace::default(),
            in_hand: None,
            silent_to: None,
            keeping: upgrade::Keeping::default(),
            successor: upgrade::Successor::default(),
            settings,
        }
    }

    /// The library's router has a guard, shares addresses and speaks IGMP as the settings say.
    fn speak(&mut self) -> Result<(), Fatal> {
        self.core.set_guard(self.settings.guard)?;
        let unfit = self.core.set_rp_sets(&self.settings.rp_sets)?;
        unfit.iter().for_each(|line| warn!("{line}"));
        self.stand()?;
        self.listen()?;
        self.ports.iter().try_for_each(|port| self.core.speak(port.number, port.settings.speech))
    }

    /// The policy goes by the settings and the addresses.
    fn set_policy(&mut self) {
        let gate = |port: &Port| Gate {
            name: port.settings.name.clone(),
            address: port.told_subnet().address,
            speech: port.settings.speech,
            policy: port.settings.policy.clone(),
        };
        let gates = self.ports.iter().map(|port| (port.number, gate(port))).collect();
        self.policy.set(self.settings.policy.clone(), self.settings.limit, gates);
    }

    /// In ms, since the router began.
    pub fn now(&self) -> u64 {
        self.kernel.now()
    }

    /// Events are recorded, where the settings say so.
    fn record(&mut self) {
        let now = self.now();
        self.core.record(self.settings.recorder.as_ref(), now);
    }

    pub fn port_of_index(&self, index: u32) -> Option<&Port> {
        self.ports.iter().find(|port| port.index == Some(index))
    }

    fn iface_of_vif(&self, vif: u16) -> Option<u32> {
        self.ports.iter().find(|port| port.vif == Some(vif)).map(|port| port.number)
    }

    pub fn name(&self, number: u32) -> &str {
        self.ports.get(number as usize).map_or("?", |port| &port.settings.name)
    }

    fn is_own(&self, address: Ipv4Addr) -> bool {
        self.ports.iter().any(|port| port.address() == Some(address))
    }

    // ---- events

    /// One event, and all that follows of it.
    fn take(&mut self, event: Event) -> Result<Answer, Fatal> {
        self.take_for(event, None)
    }

    /// The same; where the event has a stand-in for a packet, that leaves itself.
    fn take_for(&mut self, event: Event, packet: Option<&[u8]>) -> Result<Answer, Fatal> {
        let began = Instant::now();
        let answer = self.core.take(event)?;
        self.was_answered(event, answer, packet);
        self.counters.took.note(began.elapsed());
        Ok(answer)
    }

    /// An event that follows of the one before, and all that follows of it.
    fn take_also(&mut self, event: Event) -> Result<Answer, Fatal> {
        let began = Instant::now();
        let answer = self.core.take_also(event)?;
        self.was_answered(event, answer, None);
        self.counters.took.note(began.elapsed());
        Ok(answer)
    }

    fn was_answered(&mut self, event: Event, answer: Answer, packet: Option<&[u8]>) {
        self.counters.events += 1;
        match answer {
            Answer::Done => {
                match packet {
                    Some(packet) => self.leave_as(packet),
                    None => self.leave(),
                }
                self.follow();
            }
            Answer::Ignored | Answer::OtherType | Answer::NotForMe => self.counters.ignored += 1,
            Answer::Guarded => self.note_guarded(event),
            Answer::Refused(refusal) => *self.counters.refused.entry(refusal as u32).or_default() += 1,
        }
    }

    /// The guard stopped a packet.
    fn note_guarded(&mut self, event: Event) {
        let (place, bytes) = match event {
            Event::Frame(iface, bytes) => (self.name(iface).to_string(), bytes),
            Event::Unicast(bytes) => ("Registers".to_string(), bytes),
            _ => return,
        };
        self.counters.ignored += 1;
        self.policy.refusals.note(self.now(), Cause::Guard, &place, &words::of(bytes));
    }

    /// Before a packet time passes, unless it did just now: what is due is seen to after the turn.
    fn catch_up(&mut self) -> Result<(), Fatal> {
        match self.pace.is_early(self.now()) {
            true => Ok(()),
            false => self.advance(),
        }
    }

    /// Time passes up to the present, or where no timer ends until then, to a little before it.
    fn advance(&mut self) -> Result<(), Fatal> {
        let now = self.now();
        let is_due = self.core.next_moment().map_or(false, |moment| moment <= now);
        if !is_due && self.pace.is_early(now) {
            return Ok(());
        }
        if is_due && self.plane.is_overdue(now) {
            self.look()?;
        }
        let began = Instant::now();
        self.pass_to(now)?;
        self.pace = Pace::after(now, began.elapsed());
        // Where no timer ends nothing differs but the moment.
        if is_due {
            self.neighbours.are_stale = true;
            self.all_unknown_may_differ();
        }
        Ok(())
    }

    // ---- what leaves

    /// Sends what is to leave, Join/Prunes to a neighbour together.
    fn leave(&mut self) {
        if self.core.sends_nothing() {
            return;
        }
        self.watch_overrides();
        let Daemon { core, kernel, ports, policy, counters, settings, machine, silent_to, .. } = self;
        let mut packing = Packing::default();
        core.each_packet(|target, bytes| {
            let to = match target.iface() {
                Some(to) => to,
                None if silent_to.map(Target::Unicast) == Some(target) => return,
                None => return send_unicast(kernel.as_mut(), counters, bytes),
            };
            let index = ports.get(to as usize).and_then(|port| port.index).filter(|_| settings.packs);
            let most = index.map_or(0, |index| machine.mtu(index).min(MOST_PACKED));
            for left in packing.take(to, bytes, most) {
                counters.packed += left.others;
                send_on(kernel.as_mut(), ports.get_mut(to as usize), policy.is_passive(to), &left.bytes);
            }
        });
        for (to, left) in packing.rest() {
            counters.packed += left.others;
            send_on(kernel.as_mut(), ports.get_mut(to as usize), policy.is_passive(to), &left.bytes);
        }
    }

    /// Sends it with a packet itself in place of its stand-in.
    fn leave_as(&mut self, itself: &[u8]) {
        self.watch_overrides();
        let Daemon { core, kernel, ports, policy, counters, .. } = self;
        counters.stood_in += 1;
        let mut send = |to: u32, bytes: &[u8], kernel: &mut dyn Kernel| {
            send_on(kernel, ports.get_mut(to as usize), policy.is_passive(to), bytes)
        };
        core.each_packet(|target, bytes| match target {
            Target::Unicast(_) => {
                let whole = stand_in::register(itself, bytes);
                send_unicast(kernel.as_mut(), counters, whole.as_deref().unwrap_or(bytes));
            }
            Target::Copy(to) => send(to, &stand_in::copy(itself, bytes), kernel.as_mut()),
            Target::Frame(to) => send(to, bytes, kernel.as_mut()),
        });
    }

    // ---- the kernel's forwarding cache

    /// Keeps the kernel to the rows that the last event changed.
    fn follow(&mut self) {
        for key in self.core.changed() {
            self.watch_own(key);
            let from = self.in_hand.filter(|(its, _)| *its == key).and_then(|(_, iface)| iface);
            match self.offload(key) {
                Some(row) if row.is_known => {
                    self.policy.began(key, from);
                    self.place(key, Some(row), from);
                }
                _ => {
                    self.policy.ended(key);
                    self.withdraw(key);
                }
            }
        }
    }

    /// `None` also for a source that is the router: it ignores what comes from itself.
    fn offload(&mut self, key: Key) -> Option<Row> {
        if self.is_own(key.source) {
            return None;
        }
        self.core.offload(key)
    }

    fn place(&mut self, key: Key, row: Option<Row>, came_on: Option<u32>) {
        let now = self.now();
        let Daemon { plane, kernel, ports, policy, counters, .. } = self;
        counters.entries_written += 1;
        let placed =
            with_ways(ports, policy, |ways| plane.place(kernel.as_ref(), Placed { key, row, came_on, now }, ways));
        if let Err(error) = placed {
            self.is_unset(&error);
        }
    }

    fn place_all(&mut self) {
        let Daemon { plane, kernel, ports, policy, .. } = self;
        if let Err(error) = with_ways(ports, policy, |ways| plane.place_all(kernel.as_ref(), ways)) {
            self.is_unset(&error);
        }
    }

    /// The kernel refused an entry: it is tried again, and said at a bounded rate.
    fn is_unset(&mut self, error: &std::io::Error) {
        let now = self.now();
        self.counters.entries_refused += 1;
        self.due.unset.get_or_insert(now + forwarding::TRY_AGAIN);
        if self.may_say(Kind::Entries, None) {
            warn!("the kernel refuses an entry of its forwarding cache: {error}; it is tried again until it takes it");
        }
    }

    fn withdraw(&mut self, key: Key) {
        self.counters.entries_removed += 1;
        // Where its interface is gone the kernel may have let it go.
        if let Err(error) = self.plane.remove(self.kernel.as_ref(), key) {
            debug!("the entry of {key} was gone: {error}");
        }
    }
}

fn with_ways<T>(ports: &[Port], policy: &Policy, act: impl FnOnce(&Ways) -> T) -> T {
    let vif = |iface: u32| ports.get(iface as usize).and_then(|port| port.vif);
    let permits = |iface: u32, key: Key| policy.may_send(iface, key);
    act(&Ways { vif: &vif, permits: &permits })
}

fn send_unicast(kernel: &mut dyn Kernel, counters: &mut Counters, bytes: &[u8]) {
    debug!("sends {}", words::of(bytes));
    match kernel.send_unicast(bytes) {
        Ok(()) => {
            counters.unicasts_sent += 1;
            counters.unicasts.sent.count(Packet::read(bytes).and_then(message_of));
        }
        Err(error) => {
            counters.unicasts_not_sent += 1;
            debug!("it can't be sent: {error}");
        }
    }
}

fn send_on(kernel: &mut dyn Kernel, port: Option<&mut Port>, is_passive: bool, bytes: &[u8]) {
    let (port, index) = match port.and_then(|port| port.index.map(|index| (port, index))) {
        Some((port, index)) if !port.own.is_apart => (port, index),
        _ => return,
    };
    let packet = Packet::read(bytes);
    if is_passive && packet.map_or(false, Packet::is_pim_of_link) {
        return;
    }
    if port.settings.is_bsr_border && packet.map_or(false, |packet| is_pim(packet, BOOTSTRAP)) {
        return;
    }
    let hello = packet
        .filter(|packet| is_pim(*packet, HELLO) && !says_goodbye(*packet))
        .and_then(|_| with_holdtime(bytes, port.settings.hello.holdtime));
    let bytes = hello.as_deref().unwrap_or(bytes);
    debug!("sends on {}: {}", port.settings.name, words::of(bytes));
    if hello.is_some() {
        port.hello_due = port.settings.hello.repeated().map(|interval| kernel.now() + interval);
        port.hello = hello.clone();
        port.newcomers.greet();
    }
    match kernel.send_on(index, bytes) {
        Ok(()) if packet.map_or(false, Packet::is_data) => port.passed.copies += 1,
        Ok(()) => {
            port.passed.sent += 1;
            port.passed.messages.sent.count(packet.and_then(message_of));
        }
        Err(error) => {
            port.passed.not_sent += 1;
            debug!("it can't be sent on {}: {error}", port.settings.name);
        }
    }
}

#[cfg(test)]
mod tests;
