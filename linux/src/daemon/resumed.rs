//! A router that takes the place of another one, and goes on where that one was.
//!
//! The library's router is restored, and sends nothing by that. The kernel's virtual interfaces and entries are taken
//! as they are where the kernel has them still, and kept to the restored router's rows. What differs on the machine is
//! an event like another, and other settings are taken as while the router runs. Where the router can't be restored it
//! is made anew: it learns again, and the kernel forwards as before meanwhile.
use super::{Core, Daemon, Event, Fatal, Machine, Neighbour};
use crate::core::{told_of, Given};
use crate::kernel::Kernel;
use crate::left::{boot, Left, LeftEntry, LeftNeighbour, LeftSession};
use crate::ports::{self, Port, Standing};
use crate::settings::Settings;
use log::{debug, info, warn};
use std::path::Path;

/// How a router came into the place of another one.
#[derive(Clone, Copy, Debug, PartialEq, Eq)]
pub enum Way {
    /// That one became this one, or ended in order with its sockets kept: it left what it had at that moment.
    Whole,
    /// It died, and what it had saved before is left.
    Death,
}

impl Daemon {
    // ---- left

    /// What another daemon needs beside the library's state to go on.
    pub(super) fn left(&self) -> Left {
        let neighbour = |(place, it): (&super::Place, &Neighbour)| LeftNeighbour {
            iface: place.0,
            address: place.1,
            since: it.since,
            said: it.said.clone(),
            priority: it.priority,
            generation: it.generation,
        };
        let session = |(place, session): (&super::Place, &super::Session)| LeftSession {
            iface: place.0,
            address: place.1,
            session: session.clone(),
        };
        Left {
            boot: boot(),
            began: self.kernel.began(),
            moment: self.now(),
            domain: self.settings.domain.name(),
            told: self.core.told.clone(),
            ports: self.ports.iter().map(Port::left).collect(),
            neighbours: self.neighbours.known.iter().map(neighbour).collect(),
            sessions: self.sessions.iter().map(session).collect(),
            entries: self.plane.entries().map(|(key, entry)| LeftEntry::of(*key, entry)).collect(),
            learned: self.due.learned,
            unlearned: self.due.unlearned,
            ranges: self.left_ranges(),
            listener: self.core.saved_listener(),
            answers: Vec::new(),
            is_in_order: false,
        }
    }

    // ---- taken

    /// Goes on with what another daemon left, as far as it can be.
    pub fn resume(
        file: &Path,
        settings: Settings,
        mut kernel: Box<dyn Kernel>,
        (left, saved): (Left, &[u8]),
        way: Way,
    ) -> Result<Daemon, Fatal> {
        let links = kernel.links().map_err(Fatal::Netlink)?;
        let machine = Machine::new(links, kernel.addresses().map_err(Fatal::Netlink)?);
        let numbered = (0..).zip(left.ports.iter().cloned());
        let mut ports: Vec<_> = numbered.map(|(number, port)| Port::resumed(number, port)).collect();
        ports::take_settings(&mut ports, &settings.interfaces);
        let told = Given::of(&ports);
        let (core, why) = match Core::restore(saved, left.told.clone()) {
            Ok(core) => (core, None),
            Err(Fatal::Settings(error)) => {
                (Core::new(&settings, &told)?, Some(format!("its state can't be restored: {error}")))
            }
            Err(fatal) => return Err(fatal),
        };
        let is_other = core.told != told_of(&settings, &told);
        let mut daemon = Daemon::of(file, settings, (kernel, machine), ports, core);
        daemon.set_policy();
        let knows = why.is_none() && daemon.resume_listener(&left);
        daemon.speak()?;
        daemon.take_up(&left, way);
        let failed = daemon.resume_vifs();
        match why {
            Some(why) => daemon.begin_from(way, &why)?,
            None => daemon.go_on(left, way, knows)?,
        }
        for (number, why) in failed {
            daemon.goes_down(number, why)?;
        }
        match is_other {
            true => daemon.reconfigure("the settings differ")?,
            false => daemon.forget_removed()?,
        }
        Ok(daemon)
    }

    /// What the kernel had is had again. It answers which interfaces the kernel refused, and why.
    fn resume_vifs(&mut self) -> Vec<(usize, String)> {
        let mut failed = Vec::new();
        for port in self.ports.iter_mut() {
            if let (Some(vif), Some(index)) = (port.vif, port.index) {
                if let Err(error) = self.kernel.resume_vif(vif, index) {
                    port.vif = None;
                    failed.push((port.number as usize, format!("the kernel doesn't take it: {error}")));
                }
            }
        }
        failed
    }

    /// Entries as they were left. After a death some may have changed since, so each is to be set again.
    fn take_up(&mut self, left: &Left, way: Way) {
        for it in &left.entries {
            let mut entry = it.entry();
            entry.is_unset |= way == Way::Death;
            self.plane.take_up(it.key(), entry);
        }
    }

    /// The restored router goes on, and the kernel follows it. It may know what was learned of Bootstraps.
    fn go_on(&mut self, left: Left, way: Way, knows: bool) -> Result<(), Fatal> {
        let known = left.neighbours.into_iter().map(|it| {
            let LeftNeighbour { iface, address, since, said, priority, generation } = it;
            ((iface, address), Neighbour { since, said, priority, generation })
        });
        self.neighbours.known = known.collect();
        self.neighbours.are_stale = true;
        // The other side of one that died has noticed it, or soon will: sessions begin anew then.
        if way == Way::Whole {
            self.sessions = left.sessions.into_iter().map(|it| ((it.iface, it.address), it.session)).collect();
        }
        (self.due.learned, self.due.unlearned) = (left.learned, left.unlearned);
        self.follow_all();
        let Daemon { policy, core, kernel, machine, ports, .. } = self;
        policy.resume(&mut super::Ledger { core, kernel: kernel.as_ref(), machine, ports });
        self.advance()?;
        if knows || !self.keeps_learned(left.ranges.as_deref()) {
            self.set_ranges()?;
            // One that heard Bootstraps may have chosen for each group.
            if left.ranges.is_some() && !knows {
                self.take_also(Event::Candidates(&[]))?;
            }
        }
        self.choose()?;
        self.all_unknown_may_differ();
        info!(
            "the router goes on where the one before it was: {} neighbours, {} entries, {} ms later",
            self.neighbours.known.len(),
            self.plane.len(),
            self.now() - left.moment
        );
        Ok(())
    }

    /// Has each entry follow the restored router's row, and takes those away of which nobody knows.
    fn follow_all(&mut self) {
        let entries: Vec<_> = self.plane.entries().map(|(key, entry)| (*key, entry.came_on)).collect();
        for (key, came_on) in entries {
            let row = self.offload(key);
            if row.map_or(false, |row| row.is_known) {
                self.policy.began(key, came_on);
            }
            self.place(key, row, None);
        }
        self.remove_strangers();
    }

    /// What the kernel has and the router doesn't know goes: its next packet asks.
    fn remove_strangers(&mut self) {
        let found = match self.kernel.used() {
            Ok(found) => found,
            Err(error) => return warn!("the kernel's entries can't be read: {error}"),
        };
        let keys = found.iter().map(|used| used.key);
        let strangers: Vec<_> = keys.filter(|key| self.plane.get(*key).is_none()).collect();
        for key in strangers {
            match self.core.offload(key).filter(|row| row.is_known) {
                Some(row) => {
                    self.policy.began(key, None);
                    self.place(key, Some(row), None);
                }
                None => {
                    let _ = self.kernel.remove(key);
                }
            }
        }
    }

    /// The router can't go on where the other one was, and is made anew over the entries that there are.
    fn begin_from(&mut self, way: Way, why: &str) -> Result<(), Fatal> {
        if way == Way::Death && self.plane.set_again(self.kernel.as_ref()) > 0 {
            debug!("the kernel refuses entries of the router before this one");
        }
        let Daemon { ports, machine, kernel, .. } = self;
        for port in ports.iter_mut() {
            let is_same = machine.link(&port.settings.name).map(|link| link.index) == port.index;
            if let Some(vif) = port.vif.filter(|_| !is_same) {
                let _ = kernel.remove_vif(vif);
                port.vif = None;
            }
            port.standing = Standing::Down("the router is made anew".to_string());
            port.hello_due = None;
        }
        self.remove_strangers();
        self.make_anew(why)
    }
}
