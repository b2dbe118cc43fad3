//! Another configuration in the library's router, where its interfaces, their addresses or its settings change. The router
//! goes on with what it knows, and so do the streams: the library does what follows of the change.
use super::{Answer, Daemon, Fatal};
use crate::core::Given;
use crate::packet::with_holdtime;
use crate::ports::{self, Own, Port};
use log::{debug, error, info, warn};
use viqeshor::Refusal;

/// Addresses that change together are taken together, in ms.
const SETTLE: u64 = 1_000;

impl Daemon {
    pub(super) fn addresses(&self) -> (Vec<Own>, Vec<String>) {
        ports::addresses(&self.ports, &self.machine)
    }

    /// The addresses of the interfaces aren't those of the router any more.
    fn are_addresses_old(&self) -> bool {
        self.addresses().0.iter().zip(&self.ports).any(|(wanted, port)| *wanted != port.own)
    }

    /// Has the router take them soon, where an interface has another address.
    pub(super) fn watch_addresses(&mut self) {
        if self.are_addresses_old() {
            let due = self.now() + SETTLE;
            self.due.addresses.get_or_insert(due);
        }
    }

    pub(super) fn take_addresses(&mut self) -> Result<(), Fatal> {
        self.due.addresses = None;
        if self.are_addresses_old() {
            self.reconfigure("an interface has another address")?;
        }
        Ok(())
    }

    pub(super) fn set_addresses(&mut self, addresses: Vec<Own>) {
        self.ports.iter_mut().zip(addresses).for_each(|(port, own)| port.own = own);
    }

    /// Has the library's router go on with the settings and the machine as they are. One that the file hasn't any more
    /// goes down, is told to the router without an address, and is then forgotten.
    pub(super) fn reconfigure(&mut self, why: &str) -> Result<(), Fatal> {
        self.end_removed()?;
        // What the kernel has forwarded until now goes by the rows until now.
        self.look()?;
        self.advance()?;
        let (addresses, said) = self.addresses();
        said.iter().for_each(|line| warn!("{line}"));
        self.end_turned(&addresses)?;
        let moved = self.moved(&addresses);
        self.leave_sessions(&moved);
        self.neighbours.are_stale = true;
        let before = self.ports.iter().map(|port| port.own).collect();
        self.set_addresses(addresses);
        if let Answer::Refused(refusal) = self.tell_configuration()? {
            error!("the router refuses the settings, and stays as it was: {}", viqeshor::Error::Refused(refusal));
            self.set_addresses(before);
            return Ok(());
        }
        info!("the router goes on with other settings ({why})");
        self.counters.reloaded += 1;
        self.set_policy();
        self.leave();
        self.follow();
        self.all_unknown_may_differ();
        self.keeping.changed();
        self.speak()?;
        self.settle_ports()?;
        self.forget_removed()?;
        self.read_routes()
    }

    /// Interfaces that the file hasn't any more go down, while the router still knows their addresses.
    fn end_removed(&mut self) -> Result<(), Fatal> {
        let is_removed = |port: &&Port| port.is_removed && port.standing.is_up();
        let removed: Vec<_> = self.ports.iter().filter(is_removed).map(|port| port.number).collect();
        for number in removed {
            self.say_goodbye_on(number);
            self.goes_down(number as usize, "the file hasn't it any more".to_string())?;
        }
        Ok(())
    }

    /// Interfaces that were on a link and are to be on none, or the other way, go down as what they were.
    fn end_turned(&mut self, addresses: &[Own]) -> Result<(), Fatal> {
        let turns = |(port, own): &(&Port, &Own)| port.standing.is_up() && port.own.is_apart != own.is_apart;
        let turned: Vec<_> = self.ports.iter().zip(addresses).filter(turns).map(|(port, _)| port.number).collect();
        for number in turned {
            self.say_goodbye_on(number);
            self.goes_down(number as usize, "its address is of another kind now".to_string())?;
        }
        Ok(())
    }

    /// The interfaces that are up and go on with another address.
    fn moved(&self, addresses: &[Own]) -> Vec<u32> {
        let moves = |(port, wanted): &(&Port, &Own)| port.standing.is_up() && port.own != **wanted;
        self.ports.iter().zip(addresses).filter(moves).map(|(port, _)| port.number).collect()
    }

    /// A session of BFD is of an address of the router.
    fn leave_sessions(&mut self, moved: &[u32]) {
        let places: Vec<_> = self.sessions.keys().filter(|place| moved.contains(&place.0)).copied().collect();
        places.into_iter().for_each(|place| self.end_session(place));
    }

    /// Neighbours on an interface are told that the router goes, from the address of its last Hello there.
    pub(super) fn say_goodbye_on(&mut self, number: u32) {
        let Daemon { kernel, ports, .. } = self;
        let port = match ports.get(number as usize) {
            Some(port) if port.standing.is_up() => port,
            _ => return,
        };
        if let (Some(said), Some(index)) = (port.hello.as_deref().and_then(|hello| with_holdtime(hello, 0)), port.index)
        {
            debug!("sends on {}: {}", port.settings.name, crate::words::of(&said));
            let _ = kernel.send_on(index, &said);
        }
    }

    /// Tells the library the configuration, with the routes of the moment; where these are refused, with those that it has.
    fn tell_configuration(&mut self) -> Result<Answer, Fatal> {
        let told = Given::of(&self.ports);
        if let Some((routes, _)) = self.routes_of_kernel() {
            let answer = self.core.reload(&self.settings, &told, &routes, None)?;
            match answer {
                Answer::Refused(Refusal::ConfiguredRoutes) => {}
                Answer::Refused(_) => return Ok(answer),
                _ => {
                    self.routing.told = routes;
                    return Ok(answer);
                }
            }
        }
        self.core.reload(&self.settings, &told, &self.routing.told, None)
    }
}
