//! Interfaces that the file hasn't any more are forgotten. Those that stay get the numbers without gaps, and keep what they
//! have: the library's router by a map of places, and all that the daemon has by numbers likewise. Their virtual interfaces
//! in the kernel stay, and so do its entries.
use super::{Answer, Daemon, Fatal};
use crate::core::Given;
use crate::overrides::Overrides;
use crate::ports::Places;
use log::error;
use std::collections::BTreeMap;

impl Daemon {
    /// They are down by now.
    pub(super) fn forget_removed(&mut self) -> Result<(), Fatal> {
        let places = Places::of(&self.ports);
        if places.is_same() {
            return Ok(());
        }
        // What waits leaves by the numbers until now.
        self.leave();
        self.watch_neighbours()?;
        let stay = places.ports(&self.ports);
        let routes: Vec<_> = self.routing.told.iter().filter_map(|route| places.route(route)).collect();
        let answer = self.core.reload(&self.settings, &Given::of(&stay), &routes, Some(&places))?;
        if let Answer::Refused(refusal) = answer {
            error!(
                "the router refuses to forget interfaces that the file hasn't any more, and keeps them: {}",
                viqeshor::Error::Refused(refusal)
            );
            return Ok(());
        }
        self.let_go_of_removed(&places);
        self.ports = stay;
        self.routing.told = routes;
        self.renumber(&places);
        self.set_policy();
        self.leave();
        self.follow();
        self.all_unknown_may_differ();
        self.keeping.changed();
        Ok(())
    }

    /// What the kernel still has of them.
    fn let_go_of_removed(&mut self, places: &Places) {
        let sessions: Vec<_> = self.sessions.keys().filter(|place| places.get(place.0).is_none()).copied().collect();
        sessions.into_iter().for_each(|place| self.end_session(place));
        for port in self.ports.iter_mut().filter(|port| port.is_removed) {
            if let Some(index) = port.bfd_index.take() {
                self.kernel.hear_bfd_no_more(index);
            }
            if let Some(vif) = port.vif.take() {
                // The kernel has let it go by itself where the link is gone.
                let _ = self.kernel.remove_vif(vif);
            }
        }
    }

    /// All that is known by the numbers of interfaces.
    fn renumber(&mut self, places: &Places) {
        let there = |number: u32| places.get(number);
        renumber_keys(&mut self.neighbours.known, |(number, address)| Some((there(number)?, address)));
        renumber_keys(&mut self.neighbours.hellos, |(number, address)| Some((there(number)?, address)));
        renumber_keys(&mut self.sessions, |(number, address)| Some((there(number)?, address)));
        renumber_keys(&mut self.designated, there);
        self.open = self.open.iter().filter_map(|number| there(*number)).collect();
        let heard = self.older_heard.iter().filter_map(|(number, version)| Some((there(*number)?, *version)));
        self.older_heard = heard.collect();
        self.said.renumber(|(kind, number)| match number {
            Some(number) => Some((kind, Some(there(number)?))),
            None => Some((kind, None)),
        });
        self.overrides = Overrides::default();
        self.policy.renumber(there);
        self.plane.renumber(there);
        self.neighbours.are_stale = true;
    }
}

/// Those whose keys have no other are dropped.
fn renumber_keys<K: Ord, T>(map: &mut BTreeMap<K, T>, there: impl Fn(K) -> Option<K>) {
    *map = std::mem::take(map).into_iter().filter_map(|(key, it)| Some((there(key)?, it))).collect();
}
