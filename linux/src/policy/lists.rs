//! What the settings say of who may join, send and register, and of how much.
use crate::settings::Subnet;
use std::net::Ipv4Addr;

/// A rule of a list: what it fits is permitted, or refused.
#[derive(Clone, Debug, PartialEq, Eq)]
pub struct Rule {
    pub permits: bool,
    pub groups: Subnet,
    /// Where there are some, the rule fits these sources alone, and no join of all sources.
    pub sources: Option<Subnet>,
}

impl Rule {
    fn fits(&self, source: Option<Ipv4Addr>, group: Ipv4Addr) -> bool {
        let fits_source = |subnet: Subnet| source.map_or(false, |source| subnet.contains(source.into()));
        self.groups.contains(group.into()) && self.sources.map_or(true, fits_source)
    }
}

/// Rules, of which the first that fits decides. Without a list all is permitted; with one, what no rule fits is
/// refused.
#[derive(Clone, Debug, Default, PartialEq, Eq)]
pub struct List(pub Option<Vec<Rule>>);

impl List {
    /// Whether a source of a group, or a group with all sources, is permitted.
    pub fn permits(&self, source: Option<Ipv4Addr>, group: Ipv4Addr) -> bool {
        match &self.0 {
            Some(rules) => rules.iter().find(|rule| rule.fits(source, group)).map_or(false, |rule| rule.permits),
            None => true,
        }
    }
}

/// What an interface may bring.
#[derive(Clone, Debug, PartialEq, Eq)]
pub struct InterfacePolicy {
    /// Only hosts are there: PIM is neither heard nor sent.
    pub is_passive: bool,
    /// PIM of addresses that aren't of the link's subnets is believed too.
    pub is_unnumbered: bool,
    /// Whose PIM is believed; `None` is everybody.
    pub neighbours: Option<Vec<Subnet>>,
    pub join: List,
    pub send: List,
    pub max_neighbours: u32,
    /// Groups of hosts, and the sources that hosts name, together.
    pub max_groups: u32,
    /// Of these what one host was the first to ask for.
    pub max_host_groups: u32,
    /// Sources that hosts name for one group.
    pub max_sources: u32,
    /// What neighbours join, (*,G), (S,G) and prunes of (S,G,rpt), and what their Asserts name.
    pub max_joins: u32,
    /// Sources of groups that come there first.
    pub max_streams: u32,
}

impl Default for InterfacePolicy {
    fn default() -> InterfacePolicy {
        InterfacePolicy {
            is_passive: false,
            is_unnumbered: false,
            neighbours: None,
            join: List::default(),
            send: List::default(),
            max_neighbours: USUAL_NEIGHBOURS,
            max_groups: u32::MAX,
            max_host_groups: u32::MAX,
            max_sources: USUAL_SOURCES,
            max_joins: u32::MAX,
            max_streams: u32::MAX,
        }
    }
}

/// What isn't of an interface.
#[derive(Clone, Debug, PartialEq, Eq)]
pub struct PolicySettings {
    pub register: List,
    /// Sources of groups that come in Registers.
    pub max_registered: u32,
}

impl Default for PolicySettings {
    fn default() -> PolicySettings {
        PolicySettings { register: List::default(), max_registered: u32::MAX }
    }
}

pub const USUAL_NEIGHBOURS: u32 = 32;
/// The library takes no more on an interface.
pub const MOST_NEIGHBOURS: u32 = 64;
pub const USUAL_SOURCES: u32 = 256;
/// Of the limit at most such a part is kept for neighbours.
const RESERVED_PART: usize = 8;

/// How much of the limit is kept for neighbours: as many as may come, and at most an eighth.
pub fn reserve<'a>(limit: usize, policies: impl Iterator<Item = &'a InterfacePolicy>) -> usize {
    let hoped_for = policies.filter(|policy| !policy.is_passive).map(|policy| policy.max_neighbours as usize).sum();
    (limit / RESERVED_PART).min(hoped_for)
}

/// What one host may take of an interface's groups where the file doesn't say: a quarter, but where that is next to
/// nothing some.
pub fn share_of_host(max_groups: u32) -> u32 {
    const SOME: u32 = 64;
    (max_groups / 4).max(SOME.min(max_groups))
}

/// Quotas where the file has none.
#[derive(Clone, Copy, Debug, PartialEq, Eq)]
pub struct UsualQuotas {
    pub max_groups: u32,
    pub max_joins: u32,
    pub max_streams: u32,
    pub max_registered: u32,
}

impl UsualQuotas {
    /// The hosts of all interfaces together may take what isn't kept for neighbours, half of it by groups and half by
    /// sources; those of one interface at most a quarter of the limit by each. The neighbours of an interface may
    /// take half of it.
    pub fn of(limit: u32, reserve: u32, interfaces: u32) -> UsualQuotas {
        let free = limit.saturating_sub(reserve);
        let share = (free / (2 * interfaces.max(1))).min(limit / 4).max(1);
        UsualQuotas {
            max_groups: share,
            max_joins: (free / 2).max(1),
            max_streams: share,
            max_registered: (free / 4).max(1),
        }
    }
}

#[cfg(test)]
mod tests {
    use super::*;

    fn subnet(text: &str) -> Subnet {
        let (address, length) = text.split_once('/').expect("it has a length");
        Subnet { address: address.parse().expect("an address"), length: length.parse().expect("a length") }
    }

    fn rule(permits: bool, groups: &str, sources: Option<&str>) -> Rule {
        Rule { permits, groups: subnet(groups), sources: sources.map(subnet) }
    }

    #[test]
    fn the_first_rule_that_fits_decides() {
        let list = List(Some(vec![
            rule(false, "239.1.0.0/16", None),
            rule(true, "239.0.0.0/8", None),
            rule(true, "232.0.0.0/8", Some("10.1.0.0/16")),
        ]));
        let permits = |source: Option<[u8; 4]>, group: [u8; 4]| list.permits(source.map(Ipv4Addr::from), group.into());
        assert!(!permits(None, [239, 1, 1, 1]));
        assert!(permits(None, [239, 2, 1, 1]) && permits(Some([10, 9, 0, 1]), [239, 2, 1, 1]));
        assert!(permits(Some([10, 1, 7, 7]), [232, 1, 1, 1]));
        assert!(!permits(Some([10, 2, 7, 7]), [232, 1, 1, 1]) && !permits(None, [232, 1, 1, 1]));
        assert!(!permits(None, [225, 1, 1, 1]));
        assert!(List::default().permits(None, [225, 1, 1, 1].into()));
    }

    #[test]
    fn hosts_together_leave_the_reserve() {
        for (limit, interfaces) in [(65_536u32, 1u32), (65_536, 4), (65_536, 31), (1_000, 3)] {
            let policies = vec![InterfacePolicy::default(); interfaces as usize];
            let reserve = reserve(limit as usize, policies.iter()) as u32;
            let usual = UsualQuotas::of(limit, reserve, interfaces);
            assert!(interfaces * (usual.max_groups + usual.max_streams) + reserve <= limit, "{limit} {interfaces}");
        }
    }
}
