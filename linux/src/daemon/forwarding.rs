//! The kernel's forwarding cache, what it counts, and what the kernel hands up.
use super::watched::Kind;
use super::{Answer, Daemon, Event, Fatal, Ledger};
use crate::mroute::{Key, Upcall, REGISTER_VIF};
use crate::packet::fill_checksum;
use crate::stand_in;
use log::{debug, info, warn};
use std::net::Ipv4Addr;

/// So many sources without a fact have an entry at most.
const MOST_UNKNOWN: usize = 10_000;
/// What the kernel refused is tried again so often, in ms.
pub(super) const TRY_AGAIN: u64 = 500;

impl Daemon {
    // ---- sources without a fact

    /// An event was about a group: what was told of its sources may differ.
    pub(super) fn unknown_of_may_differ(&mut self, group: Ipv4Addr) {
        self.stale.groups.insert(group);
    }

    /// An event was about no group: the library tells of which sources what was told may differ.
    pub(super) fn all_unknown_may_differ(&mut self) {
        for key in self.plane.unknown() {
            if self.core.may_differ(key) {
                self.stale.keys.insert(key);
            }
        }
    }

    /// Asks anew for the sources without a fact that may differ.
    pub(super) fn refresh_unknown(&mut self) {
        let stale = std::mem::take(&mut self.stale);
        let of_groups: Vec<_> = stale.groups.iter().flat_map(|group| self.plane.unknown_of(*group)).collect();
        for key in stale.keys.into_iter().chain(of_groups) {
            let before = match self.plane.get(key) {
                Some(entry) if !entry.is_known() => entry.row,
                _ => continue,
            };
            match self.offload(key) {
                row if row == before => {}
                Some(row) if row.is_known => self.place(key, Some(row), None),
                // The next packet asks again.
                _ => self.withdraw(key),
            }
        }
    }

    // ---- what the kernel counts

    /// Tells the router which sources the kernel has forwarded packets of.
    pub fn look(&mut self) -> Result<(), Fatal> {
        let used = match self.kernel.used() {
            Ok(used) => used,
            Err(error) => {
                warn!("the counts of the kernel's forwarding cache can't be read: {error}");
                return Ok(());
            }
        };
        let now = self.now();
        for notice in self.plane.looked(&used, now) {
            self.counters.kept += 1;
            let runs = !notice.is_core && self.core.keep(notice.key, notice.moment)?;
            if !runs && self.lets_in(notice.iface, notice.key) {
                self.see(notice.iface, notice.key)?;
            }
            self.plane.told(notice.key, notice.moment);
        }
        Ok(())
    }

    /// Tries again what the kernel refused.
    pub(super) fn set_again(&mut self) {
        self.due.unset = None;
        match self.plane.set_again(self.kernel.as_ref()) {
            0 if self.may_say(Kind::Taken, None) => info!("the kernel has taken each entry of its forwarding cache"),
            0 => {}
            left => {
                self.due.unset = Some(self.now() + TRY_AGAIN);
                if self.may_say(Kind::Entries, None) {
                    warn!("the kernel still refuses {left} entries of its forwarding cache");
                }
            }
        }
    }

    // ---- what the kernel hands up

    /// Whether the settings let packets of a source on an interface to the router.
    fn lets_in(&mut self, iface: u32, key: Key) -> bool {
        let Daemon { policy, core, kernel, machine, ports, .. } = self;
        policy.stream(&mut Ledger { core, kernel: kernel.as_ref(), machine, ports }, iface, key)
    }

    /// The router hears of a packet that it isn't given.
    pub(super) fn see(&mut self, iface: u32, key: Key) -> Result<Answer, Fatal> {
        self.counters.seen += 1;
        self.in_hand = Some((key, Some(iface)));
        let answer = self.take(Event::Seen(iface, key));
        self.in_hand = None;
        self.unknown_of_may_differ(key.group);
        answer
    }

    /// The kernel has no entry for a packet. It keeps the packet until there is one.
    fn meet(&mut self, key: Key, iface: Option<u32>) -> Result<(), Fatal> {
        self.advance()?;
        let row = self.offload(key);
        let concerns = |iface: u32| row.map_or(true, |row| row.to_core.contains(iface) || row.alive.contains(iface));
        if let Some(iface) = iface.filter(|iface| concerns(*iface) && !self.is_own(key.source)) {
            if !self.lets_in(iface, key) {
                self.drop_unseen(key, iface);
                return Ok(());
            }
            self.see(iface, key)?;
        }
        let row = self.offload(key);
        self.make_room();
        self.place(key, row, iface);
        Ok(())
    }

    /// A source that isn't let in has an entry by which the kernel drops its packets, and doesn't tell of each.
    fn drop_unseen(&mut self, key: Key, iface: u32) {
        self.make_room();
        self.place(key, None, Some(iface));
    }

    /// What strangers send is kept to a number of entries: one goes for a new one.
    fn make_room(&mut self) {
        let most = self.settings.limit as usize + MOST_UNKNOWN;
        if self.plane.len() >= most {
            if let Some(key) = self.plane.an_unknown() {
                self.withdraw(key);
            }
        }
    }

    /// A packet came where the kernel's entry doesn't accept it.
    fn stray(&mut self, key: Key, iface: u32, packet: &[u8]) -> Result<(), Fatal> {
        if self.is_own(key.source) || !self.policy.may_send(iface, key) {
            return Ok(());
        }
        self.advance()?;
        self.plane.strayed(key, iface);
        let row = self.offload(key);
        if row.map_or(true, |row| row.to_core.contains(iface)) {
            return self.whole(key, iface, packet);
        }
        if row.map_or(false, |row| row.alive.contains(iface)) {
            let now = self.now();
            self.see(iface, key)?;
            self.plane.told(key, now);
        }
        Ok(())
    }

    /// A packet of data is the router's. One that the library doesn't read has a stand-in.
    fn whole(&mut self, key: Key, iface: u32, packet: &[u8]) -> Result<(), Fatal> {
        if !self.lets_in(iface, key) {
            return Ok(());
        }
        let mut packet = packet.to_vec();
        self.counters.checksums_filled += u64::from(fill_checksum(&mut packet));
        let is_alive = self.offload(key).map_or(false, |row| row.alive.contains(iface));
        let now = self.now();
        let stand_in = stand_in::of(&packet);
        self.in_hand = Some((key, Some(iface)));
        let answer = match &stand_in {
            Some(given) => self.take_for(Event::Frame(iface, given), Some(&packet)),
            None => self.take(Event::Frame(iface, &packet)),
        };
        self.in_hand = None;
        self.unknown_of_may_differ(key.group);
        match answer? {
            Answer::Refused(refusal) => debug!("a packet of {key} is refused: {refusal:?}"),
            Answer::Done if is_alive => self.plane.told(key, now),
            _ => {}
        }
        Ok(())
    }

    pub(super) fn upcall(&mut self, upcall: Upcall) -> Result<(), Fatal> {
        let iface_of = |vif: u16| if vif == REGISTER_VIF { None } else { self.iface_of_vif(vif) };
        match upcall {
            Upcall::NoCache { vif, key } => {
                let iface = iface_of(vif);
                self.counters.no_cache += 1;
                debug!("the kernel has no entry for {key}");
                self.meet(key, iface)
            }
            Upcall::Stray { vif, key, packet } => {
                let iface = iface_of(vif);
                self.counters.strays += 1;
                iface.map_or(Ok(()), |iface| self.stray(key, iface, &packet))
            }
            Upcall::Whole { key, packet } => {
                self.counters.whole += 1;
                let accepted = self.plane.get(key).and_then(|entry| entry.way.accepted);
                self.plane.came_whole(key);
                self.advance()?;
                accepted.map_or(Ok(()), |iface| self.whole(key, iface, &packet))
            }
        }
    }
}
