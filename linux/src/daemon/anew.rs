//! The library's router made anew, where the state of the one before it can't be restored.
//!
//! The new router learns again from Hellos, Joins and reports, which it asks for at once. Meanwhile the kernel forwards as
//! it did: its entries stay until the new router has had the time to learn.
use super::{Core, Daemon, Event, Fatal};
use crate::core::Given;
use crate::ports::Standing;
use crate::show::rp_of;
use log::{error, info, warn};
use std::net::Ipv4Addr;

/// After its first Hello each neighbour says what it wants, in ms: 5 s for the Hello and 3 s for the Join (RFC 7761,
/// 4.11).
const NEIGHBOURS_SPEAK: u64 = 10_000;
/// After the first query each host says what it wants; so much longer it may take, in ms.
const HOSTS_SLACK: u64 = 2_000;
const MS_PER_TENTH: u64 = 100;
/// An RP knows a source again once its DR registers it, in ms: after 1.5 times 60 s, and the 5 s of a probe (RFC 7761,
/// 4.4.1 and 4.11).
const REGISTERS_COME: u64 = 100_000;
/// What isn't learned yet is looked at so often, in ms.
const LOOK_AGAIN: u64 = 5_000;
/// A source whose last packet is older is no running stream, in ms.
const RUNNING: u64 = 3_000;

impl Daemon {
    /// Makes the library's router anew by the settings and the machine as they are.
    pub(super) fn make_anew(&mut self, why: &str) -> Result<(), Fatal> {
        let (addresses, said) = self.addresses();
        said.iter().for_each(|line| warn!("{line}"));
        let before: Vec<_> = self.ports.iter().map(|port| port.own).collect();
        self.set_addresses(addresses);
        let mut core = match Core::new(&self.settings, &Given::of(&self.ports)) {
            Ok(core) => core,
            Err(Fatal::Settings(refusal)) => {
                error!("the router can't be made anew, and stays as it was: {refusal}");
                self.set_addresses(before);
                return Ok(());
            }
            Err(fatal) => return Err(fatal),
        };
        core.take(Event::Advance(self.now()))?;
        info!("the router is made anew ({why}): it learns again, and the kernel forwards as before meanwhile");
        self.counters.made_anew += 1;
        self.core = core;
        self.speak()?;
        self.record();
        self.keeping.changed();
        self.forget();
        self.begin_again()
    }

    /// What was known of the router before is known no more; the kernel's entries by which packets flow stay.
    fn forget(&mut self) {
        self.set_policy();
        self.policy.forget();
        self.neighbours.known.clear();
        self.neighbours.hellos.clear();
        self.routing.told.clear();
        for port in self.ports.iter_mut().filter(|port| port.standing.is_up()) {
            port.standing = Standing::Down("the router is made anew".to_string());
            // Its generation is over.
            port.hello_due = None;
        }
        let flows: Vec<_> = self.plane.entries().map(|(key, entry)| (*key, entry.flows())).collect();
        flows.iter().filter(|(_, flows)| !flows).for_each(|(key, _)| self.withdraw(*key));
        self.plane.keep_all();
    }

    fn begin_again(&mut self) -> Result<(), Fatal> {
        self.settle_ports()?;
        self.read_routes()?;
        self.see_kept()?;
        let hosts = u64::from(self.settings.query_response) * MS_PER_TENTH + HOSTS_SLACK;
        self.due.learned = Some(self.now() + hosts.max(NEIGHBOURS_SPEAK));
        self.due.unlearned = self.now() + REGISTERS_COME;
        Ok(())
    }

    /// The router hears of the sources of which packets flow.
    fn see_kept(&mut self) -> Result<(), Fatal> {
        for (key, entry) in self.plane.kept() {
            if let Some(iface) = entry.way.accepted {
                self.see(iface, key)?;
            }
        }
        Ok(())
    }

    /// The new router has had its time: the kernel's entries go by its rows. A running stream of which it is the RP waits
    /// for its next Register.
    pub(super) fn has_learned(&mut self) -> Result<(), Fatal> {
        self.look()?;
        let now = self.now();
        let mut wait = false;
        for (key, entry) in self.plane.kept() {
            let is_running = entry.used.map_or(false, |used| used.idle <= RUNNING);
            if let Some(iface) = entry.way.accepted.filter(|_| is_running) {
                self.see(iface, key)?;
            }
            let row = self.offload(key).filter(|row| row.is_known);
            if row.is_none() && is_running && now < self.due.unlearned && self.is_rp_of(key.group) {
                wait = true;
                continue;
            }
            self.plane.let_go(key);
            match row {
                Some(_) => self.place(key, row, entry.way.accepted),
                None => self.withdraw(key),
            }
        }
        self.due.learned = wait.then_some(now + LOOK_AGAIN);
        if !wait {
            info!("the router that was made anew has learned what it needs");
        }
        Ok(())
    }

    fn is_rp_of(&self, group: Ipv4Addr) -> bool {
        rp_of(self, group.into()).map_or(false, |rp| self.is_own(rp))
    }
}
