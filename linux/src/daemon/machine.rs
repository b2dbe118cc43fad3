//! Links, addresses and routes of the machine.
use super::{Answer, Daemon, Event, Fatal};
use crate::mroute::REGISTER_VIF;
use crate::netlink::Change;
use crate::ports::{Machine, Port, Standing};
use crate::routes::{self, Counts, Ours, MOST_ROUTES};
use crate::show;
use log::{debug, error, info, log, warn, Level};
use std::collections::HashSet;
use std::net::Ipv4Addr;
use viqeshor::Route;

/// Routes that change together are read together, in ms. Where reading them takes long they are read less often.
pub(super) const ROUTES_SETTLE: u64 = 50;
const PART_OF_TIME: u64 = 10;
/// What the kernel didn't tell is asked for again, in ms.
const ASK_AGAIN: u64 = 1_000;

impl Daemon {
    /// Brings each interface to where the kernel has it.
    pub(super) fn settle_ports(&mut self) -> Result<(), Fatal> {
        for number in 0..self.ports.len() {
            let (index, standing) = self.ports[number].standing_in(&self.machine);
            let port = &self.ports[number];
            // A link that is another one by now was gone in between.
            if port.standing.is_up() && index != port.index {
                self.goes_down(number, "it is another link now".to_string())?;
            }
            self.ports[number].index = index;
            match standing {
                Standing::Up if !self.ports[number].standing.is_up() => self.goes_up(number)?,
                Standing::Down(why) if self.ports[number].standing != Standing::Down(why.clone()) => {
                    self.goes_down(number, why)?
                }
                _ => {}
            }
        }
        self.stand()
    }

    /// Gives an interface a virtual one, where it has none and is to have one.
    fn add_vif(&mut self, number: usize) -> Result<(), String> {
        let taken: Vec<_> = self.ports.iter().filter_map(|port| port.vif).collect();
        let port = &mut self.ports[number];
        if port.own.is_apart {
            // One that the router before this one had.
            if let Some(vif) = port.vif.take() {
                let _ = self.kernel.remove_vif(vif);
            }
            return Ok(());
        }
        if port.vif.is_some() {
            return Ok(());
        }
        let free = (0..REGISTER_VIF).find(|vif| !taken.contains(vif));
        let vif = free.ok_or_else(|| "all virtual interfaces of the kernel are taken".to_string())?;
        match self.kernel.add_vif(vif, port.index.unwrap_or(0)) {
            Ok(()) => port.vif = Some(vif),
            Err(error) => return Err(format!("the kernel doesn't take it as a virtual interface: {error}")),
        }
        Ok(())
    }

    fn goes_up(&mut self, number: usize) -> Result<(), Fatal> {
        if let Err(why) = self.add_vif(number) {
            return match self.ports[number].standing == Standing::Down(why.clone()) {
                true => Ok(()),
                false => self.goes_down(number, why),
            };
        }
        let name = self.ports[number].settings.name.clone();
        self.ports[number].standing = Standing::Up;
        self.ports[number].since = self.now();
        self.keeping.changed();
        if let Some(address) = self.ports[number].apart() {
            info!("{name} goes up: {address} is the router's, on no link");
            return Ok(());
        }
        info!("{name} goes up, with {}", self.ports[number].told_subnet());
        if self.kernel.is_filter_strict(&name) {
            warn!(
                "rp_filter is strict on {name}, so what comes on the shared tree may be dropped: \
                 0 or 2 is wanted there, and of all"
            );
        }
        self.place_all();
        self.advance()?;
        self.take(Event::Up(number as u32))?;
        self.all_unknown_may_differ();
        Ok(())
    }

    pub(super) fn goes_down(&mut self, number: usize, why: String) -> Result<(), Fatal> {
        let was_up = self.ports[number].standing.is_up();
        warn!("{} is down: {why}", self.ports[number].settings.name);
        self.ports[number].standing = Standing::Down(why);
        self.ports[number].hello_due = None;
        self.neighbours.are_stale = true;
        self.keeping.changed();
        if let Some(vif) = self.ports[number].vif.take() {
            // The kernel has let it go by itself where the link is gone.
            let _ = self.kernel.remove_vif(vif);
        }
        if was_up && !self.ports[number].own.is_apart {
            self.place_all();
            self.advance()?;
            self.neighbours.are_stale = true;
            self.take(Event::Down(number as u32))?;
            self.all_unknown_may_differ();
            // Its routes lead nowhere, whenever the kernel takes them back.
            self.routing.is_urgent = true;
        }
        Ok(())
    }

    /// Reads links and addresses anew.
    pub(super) fn read_machine(&mut self) -> Result<(), Fatal> {
        self.due.machine = None;
        let read = self.kernel.links().and_then(|links| Ok((links, self.kernel.addresses()?)));
        match read {
            Ok((links, addresses)) => self.machine = Machine::new(links, addresses),
            Err(error) => {
                warn!("the kernel's links and addresses can't be read: {error}; they are asked for again");
                self.due.machine = Some(self.now() + ASK_AGAIN);
                return Ok(());
            }
        }
        self.settle_ports()?;
        self.watch_addresses();
        Ok(())
    }

    /// The kernel's routes as the router is told, for the interfaces as they are. Where they can't be read they are asked
    /// for again.
    pub(super) fn routes_of_kernel(&mut self) -> Option<(Vec<Route>, Counts)> {
        let kernel = match self.kernel.routes(self.settings.routes.table) {
            Ok(kernel) => kernel,
            Err(error) => {
                warn!("the kernel's routes can't be read: {error}; they are asked for again");
                self.routing.due = Some(self.now() + ASK_AGAIN);
                return None;
            }
        };
        let linked = self.ports.iter().filter(|port| !port.own.is_apart);
        let there = linked.filter_map(|port| Some((port.index?, port)));
        let (up, down): (Vec<_>, Vec<_>) = there.partition(|(_, port)| port.standing.is_up());
        let numbers = up.iter().map(|(index, port)| (*index, port.number)).collect();
        let down = down.iter().map(|(index, _)| *index).collect();
        let subnets = self.ports.iter().map(Port::covered).collect();
        Some(routes::taken(&kernel, &Ours { numbers, down, subnets }, &self.settings.routes))
    }

    pub(super) fn read_routes(&mut self) -> Result<(), Fatal> {
        self.routing.due = None;
        self.take_routes()
    }

    /// Tells the router the kernel's routes, where they differ.
    pub(super) fn take_routes(&mut self) -> Result<(), Fatal> {
        self.routing.is_urgent = false;
        let began = self.now();
        let (told, counts) = match self.routes_of_kernel() {
            Some(found) => found,
            None => return Ok(()),
        };
        if counts != self.routing.counts {
            let is_first = self.routing.counts == Counts::default();
            log!(if is_first { Level::Info } else { Level::Debug }, "{}", show::routes_said(&counts, told.len()));
            self.routing.counts = counts;
        }
        self.routing.settle = ROUTES_SETTLE.max(PART_OF_TIME * (self.now() - began));
        self.advance()?;
        let told = self.held(told)?;
        if told == self.routing.told {
            return Ok(());
        }
        match self.take(Event::Routes(&told))? {
            Answer::Refused(refusal) => {
                error!("{} routes are refused ({refusal:?}; at most {MOST_ROUTES}): the old ones stay", told.len())
            }
            _ => {
                self.routing.told = told;
                self.all_unknown_may_differ();
            }
        }
        Ok(())
    }

    /// The routes that are told in place of the kernel's, where some wait for a neighbour.
    fn held(&mut self, routes: Vec<Route>) -> Result<Vec<Route>, Fatal> {
        let there: HashSet<_> = self.core.neighbours()?.into_iter().collect();
        let is_neighbour = |route: &Route| there.contains(&(route.iface, Ipv4Addr::from(u32::from(route.next_hop))));
        let now = self.now();
        let routing = &mut self.routing;
        let held = routing.waiting.held(&routing.told, &routes, now, is_neighbour);
        if let Some(moment) = routing.waiting.due() {
            routing.is_due_at(moment);
        }
        Ok(held)
    }

    /// Neighbours came or went, for which routes may wait.
    pub(super) fn routes_may_move(&mut self) {
        self.routing.is_urgent |= self.routing.waiting.due().is_some();
    }

    pub(super) fn changed(&mut self, changes: Vec<Change>) -> Result<(), Fatal> {
        for change in changes {
            debug!("the kernel tells {change:?}");
            // What goes down takes routes with it of which the kernel says nothing.
            let due = self.now() + self.routing.settle;
            self.routing.is_due_at(due);
            match change {
                Change::Routes => {}
                Change::Lost => self.read_machine()?,
                other => {
                    self.machine.take(&other);
                    self.settle_ports()?;
                    self.watch_addresses();
                }
            }
        }
        Ok(())
    }
}
