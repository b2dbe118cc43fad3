//! Which of the kernel's tables the router goes by. With a table, or a VRF, of its own a router has nothing to do with
//! others on the machine.
//!
//! A VRF has its table, and the kernel's own rules lead what comes on its interfaces there; the router's sockets are
//! bound to it. For a table without a VRF the router adds rules: of multicast, that what comes on its interfaces goes by
//! the table; of unicast, that what bears the table's number as its mark does, which the router's own packets do.
use crate::netlink::{Netlink, Rule};
use crate::wire::Scope;
use log::{debug, warn};
use std::collections::HashMap;
use std::fmt;
use std::io;

/// Of linux/rtnetlink.h: where multicast goes without a rule, and unicast.
const TABLE_DEFAULT: u32 = 253;
pub const TABLE_MAIN: u32 = 254;

/// The part of the machine whose router this is.
#[derive(Clone, Debug, PartialEq, Eq)]
pub enum Domain {
    /// What no rule leads elsewhere.
    Usual,
    Table(u32),
    Vrf(String),
}

impl Domain {
    /// By which instances are told apart.
    pub fn name(&self) -> Option<String> {
        match self {
            Domain::Usual => None,
            Domain::Table(number) => Some(number.to_string()),
            Domain::Vrf(name) => Some(name.clone()),
        }
    }
}

impl fmt::Display for Domain {
    fn fmt(&self, to: &mut fmt::Formatter) -> fmt::Result {
        match self {
            Domain::Usual => write!(to, "the usual tables"),
            Domain::Table(number) => write!(to, "the tables {number}"),
            Domain::Vrf(name) => write!(to, "the VRF {name}"),
        }
    }
}

/// The tables of a domain, with the rules that the router added for it.
pub struct Tables {
    domain: Domain,
    pub multicast: u32,
    pub unicast: u32,
    /// By the virtual interface.
    rules: HashMap<u16, Rule>,
}

impl Tables {
    pub fn of(domain: &Domain, netlink: &mut Netlink) -> io::Result<Tables> {
        let (multicast, unicast) = match domain {
            Domain::Usual => (TABLE_DEFAULT, TABLE_MAIN),
            Domain::Table(number) => (*number, *number),
            Domain::Vrf(name) => {
                let link = netlink.links()?.into_iter().find(|link| link.name == *name);
                let none = || io::Error::new(io::ErrorKind::NotFound, format!("the machine has no VRF {name}"));
                let table = link.and_then(|link| link.vrf_table).ok_or_else(none)?;
                (table, table)
            }
        };
        Ok(Tables { domain: domain.clone(), multicast, unicast, rules: HashMap::new() })
    }

    /// What the router itself sends goes by its table.
    pub fn begin(&self, netlink: &mut Netlink) -> io::Result<()> {
        match self.domain {
            Domain::Table(number) => netlink.add_rule(&Rule::of_mark(number)),
            Domain::Usual | Domain::Vrf(_) => Ok(()),
        }
    }

    /// What the router's sockets are limited to.
    pub fn scope(&self) -> Scope {
        match &self.domain {
            Domain::Usual => Scope::All,
            Domain::Table(number) => Scope::Mark(*number),
            Domain::Vrf(name) => Scope::Device(name.clone()),
        }
    }

    /// The table of multicast where it is to be asked for: the usual one is there always.
    pub fn asked(&self) -> Option<u32> {
        (self.domain != Domain::Usual).then_some(self.multicast)
    }

    /// What comes on an interface goes by the table.
    pub fn lead(&mut self, netlink: &mut Netlink, vif: u16, name: &str) -> io::Result<()> {
        if let Domain::Table(number) = self.domain {
            let rule = Rule::of_interface(number, name);
            netlink.add_rule(&rule)?;
            self.rules.insert(vif, rule);
        }
        Ok(())
    }

    pub fn lead_no_more(&mut self, netlink: &mut Netlink, vif: u16) {
        if let Some(rule) = self.rules.remove(&vif) {
            // Somebody else may have taken it away.
            if let Err(error) = netlink.remove_rule(&rule) {
                debug!("{rule} was gone: {error}");
            }
        }
    }

    /// Takes all rules away.
    pub fn clear(&mut self, netlink: &mut Netlink) {
        let vifs: Vec<_> = self.rules.keys().copied().collect();
        vifs.into_iter().for_each(|vif| self.lead_no_more(netlink, vif));
        if let Domain::Table(number) = self.domain {
            if let Err(error) = netlink.remove_rule(&Rule::of_mark(number)) {
                warn!("the rule of the mark {number} stays: {error}");
            }
        }
    }
}
