//! The macros of RFC 7761 of a group or of a source, and what is known of an interface and of a neighbour.
use crate::{ends, Interfaces};
use std::net::Ipv4Addr;

/// A neighbour on an interface.
#[derive(Clone, Copy, Debug, PartialEq, Eq, Hash)]
pub struct Hop {
    /// Where it is.
    pub iface: u32,
    /// Its own.
    pub address: Ipv4Addr,
}

/// A unicast route to an address.
#[derive(Clone, Copy, Debug, PartialEq, Eq)]
#[non_exhaustive]
pub struct Path {
    /// RPF_interface.
    pub iface: u32,
    /// Of the route.
    pub next_hop: Ipv4Addr,
    /// The lower is better.
    pub preference: u32,
    /// As an Assert tells it.
    pub metric: u32,
    /// It leads to a link of the router: the next hop is the address itself.
    pub is_connected: bool,
}

/// Where an upstream neighbour comes from, RPF'(\*,G) or RPF'(S,G), or why there is none. The root is RP(G), or S.
#[derive(Clone, Copy, Debug, PartialEq, Eq)]
#[non_exhaustive]
pub enum Rpf {
    /// The winner of an assert that the router lost on the RPF interface.
    Winner(Hop),
    /// The next hop of the route to the root.
    NextHop(Hop),
    /// None: the root is on a link of the router, and is no neighbour.
    Connected,
    /// None: the next hop is no neighbour.
    NoNeighbour,
    /// None: there is no route to the root over an interface that is up.
    NoRoute,
    /// None: the root is the router itself.
    Own,
    /// None: the group has no RP.
    NoRp,
}

impl Rpf {
    /// The neighbour, if there is one.
    pub fn neighbour(&self) -> Option<Hop> {
        match self {
            Rpf::Winner(hop) | Rpf::NextHop(hop) => Some(*hop),
            _ => None,
        }
    }
}

/// The macros of (\*,G).
#[derive(Clone, Copy, Debug, PartialEq, Eq)]
#[non_exhaustive]
pub struct Tree {
    /// RP(G).
    pub rp: Option<Ipv4Addr>,
    /// The route to RP(G).
    pub path: Option<Path>,
    /// RPF'(\*,G).
    pub rpf: Rpf,
    /// JoinDesired(\*,G).
    pub join_desired: bool,
    /// joins(\*,G).
    pub joins: Interfaces,
    /// local_receiver_include(\*,G): where hosts want the group.
    pub local_receiver_include: Interfaces,
    /// pim_include(\*,G): where the router serves them.
    pub pim_include: Interfaces,
    /// lost_assert(\*,G).
    pub lost_assert: Interfaces,
    /// Where AssertWinner(\*,G,I) is the router.
    pub won_assert: Interfaces,
    /// immediate_olist(\*,G).
    pub immediate_olist: Interfaces,
}

/// The upstream state of (S,G,rpt).
#[derive(Clone, Copy, Debug, PartialEq, Eq, Hash)]
pub enum RptState {
    /// The shared tree isn't joined.
    NotJoined,
    /// The source is pruned off it.
    Pruned,
    /// The source comes by it.
    NotPruned,
}

/// The macros of (S,G) and of (S,G,rpt).
#[derive(Clone, Copy, Debug, PartialEq, Eq)]
#[non_exhaustive]
pub struct SourceTree {
    /// The route to S.
    pub path: Option<Path>,
    /// RPF'(S,G).
    pub rpf: Rpf,
    /// RPF'(S,G,rpt).
    pub rpf_rpt: Option<Hop>,
    /// The upstream state of (S,G,rpt).
    pub rpt_state: RptState,
    /// SPTbit(S,G).
    pub spt_bit: bool,
    /// KeepaliveTimer(S,G) is running.
    pub is_kept_alive: bool,
    /// JoinDesired(S,G).
    pub join_desired: bool,
    /// PruneDesired(S,G,rpt).
    pub prune_desired: bool,
    /// CouldRegister(S,G).
    pub could_register: bool,
    /// The register tunnel is in `joins`, `immediate_olist` and `inherited_olist`.
    pub has_tunnel: bool,
    /// joins(S,G).
    pub joins: Interfaces,
    /// prunes(S,G,rpt).
    pub prunes: Interfaces,
    /// local_receiver_include(S,G).
    pub local_receiver_include: Interfaces,
    /// local_receiver_exclude(S,G).
    pub local_receiver_exclude: Interfaces,
    /// pim_include(S,G).
    pub pim_include: Interfaces,
    /// pim_exclude(S,G).
    pub pim_exclude: Interfaces,
    /// lost_assert(S,G).
    pub lost_assert: Interfaces,
    /// lost_assert(S,G,rpt).
    pub lost_assert_rpt: Interfaces,
    /// Where AssertWinner(S,G,I) is the router.
    pub won_assert: Interfaces,
    /// immediate_olist(S,G).
    pub immediate_olist: Interfaces,
    /// inherited_olist(S,G).
    pub inherited_olist: Interfaces,
    /// inherited_olist(S,G,rpt).
    pub inherited_olist_rpt: Interfaces,
}

/// Who queries on an interface that is up.
#[derive(Clone, Copy, Debug, PartialEq, Eq)]
pub enum Querier {
    /// The router itself: when its next general query leaves, in ms, and how many of the startup queries are still to
    /// leave with it.
    Own {
        /// In ms, when the next general query leaves.
        next_query: u64,
        /// How many startup queries are left.
        startup_left: u32,
    },
    /// Another router. The router takes over at this timestamp, in ms, unless it hears a query before.
    Other {
        /// In ms, when it is given up.
        end: u64,
    },
}

/// Who queries on an interface, with the values in force.
#[derive(Clone, Copy, Debug, PartialEq, Eq)]
#[non_exhaustive]
pub struct Querying {
    /// Which router it is.
    pub querier: Querier,
    /// The value in force.
    pub robustness: u32,
    /// In seconds.
    pub query_interval: u32,
}

/// An interface that is configured.
#[derive(Clone, Copy, Debug, PartialEq, Eq)]
#[non_exhaustive]
pub struct Link {
    /// The interface is up.
    pub is_up: bool,
    /// I_am_DR(I): the interface is up, and the router itself is the DR.
    pub is_dr: bool,
    /// DR(I); `None` where the interface is down.
    pub dr: Option<Ipv4Addr>,
    /// `None` where the interface is down.
    pub querying: Option<Querying>,
}

/// The LAN Prune Delay option of a Hello.
#[derive(Clone, Copy, Debug, PartialEq, Eq)]
#[non_exhaustive]
pub struct LanDelay {
    /// The T bit: the neighbour can turn Join suppression off.
    pub can_track: bool,
    /// In ms.
    pub propagation_delay: u32,
    /// In ms.
    pub override_interval: u32,
}

/// A neighbour with the options of its last Hello.
#[derive(Clone, Copy, Debug, PartialEq, Eq)]
#[non_exhaustive]
pub struct Neighbour {
    /// When its holdtime expires, in ms; `None` never expires.
    pub end: Option<u64>,
    /// DR Priority.
    pub priority: Option<u32>,
    /// Generation ID.
    pub generation: Option<u32>,
    /// The option LAN Prune Delay, if its last Hello had it.
    pub lan_delay: Option<LanDelay>,
}

/// The values of C.
pub(crate) mod raw {
    use crate::Interfaces;

    #[repr(C)]
    #[derive(Clone, Copy, Default)]
    pub struct Number {
        pub is_there: bool,
        pub value: u32,
    }

    #[repr(C)]
    #[derive(Clone, Copy, Default)]
    pub struct Hop {
        pub is_there: bool,
        pub iface: u32,
        pub address: u32,
    }

    #[repr(C)]
    #[derive(Clone, Copy, Default)]
    pub struct Path {
        pub is_there: bool,
        pub is_connected: bool,
        pub iface: u32,
        pub next_hop: u32,
        pub preference: u32,
        pub metric: u32,
    }

    #[repr(C)]
    #[derive(Clone, Copy, Default)]
    pub struct Tree {
        pub rp: Number,
        pub path: Path,
        pub rpf_neighbour: Hop,
        pub rpf_cause: u32,
        pub join_desired: bool,
        pub joins: Interfaces,
        pub local_receiver_include: Interfaces,
        pub pim_include: Interfaces,
        pub lost_assert: Interfaces,
        pub won_assert: Interfaces,
        pub immediate_olist: Interfaces,
    }

    #[repr(C)]
    #[derive(Clone, Copy, Default)]
    pub struct SourceTree {
        pub path: Path,
        pub rpf_neighbour: Hop,
        pub rpf_cause: u32,
        pub rpf_neighbour_rpt: Hop,
        pub rpt_state: u32,
        pub spt_bit: bool,
        pub is_kept_alive: bool,
        pub join_desired: bool,
        pub prune_desired: bool,
        pub could_register: bool,
        pub has_tunnel: bool,
        pub joins: Interfaces,
        pub prunes: Interfaces,
        pub local_receiver_include: Interfaces,
        pub local_receiver_exclude: Interfaces,
        pub pim_include: Interfaces,
        pub pim_exclude: Interfaces,
        pub lost_assert: Interfaces,
        pub lost_assert_rpt: Interfaces,
        pub won_assert: Interfaces,
        pub immediate_olist: Interfaces,
        pub inherited_olist: Interfaces,
        pub inherited_olist_rpt: Interfaces,
    }

    #[repr(C)]
    #[derive(Clone, Copy, Default)]
    pub struct Querier {
        pub role: u32,
        pub end: u64,
        pub startup_left: u32,
        pub robustness: u32,
        pub query_interval: u32,
    }

    #[repr(C)]
    #[derive(Clone, Copy, Default)]
    pub struct Link {
        pub is_up: bool,
        pub is_dr: bool,
        pub dr: u32,
        pub querier: Querier,
    }

    #[repr(C)]
    #[derive(Clone, Copy, Default)]
    pub struct LanDelay {
        pub is_there: bool,
        pub can_track: bool,
        pub propagation_delay: u32,
        pub override_interval: u32,
    }

    #[repr(C)]
    #[derive(Clone, Copy, Default)]
    pub struct Neighbour {
        pub end: u64,
        pub priority: Number,
        pub generation: Number,
        pub lan_delay: LanDelay,
    }
}

fn number(of: raw::Number) -> Option<u32> {
    of.is_there.then_some(of.value)
}

fn hop(of: raw::Hop) -> Option<Hop> {
    of.is_there.then(|| Hop { iface: of.iface, address: of.address.into() })
}

fn path(of: raw::Path) -> Option<Path> {
    of.is_there.then(|| Path {
        iface: of.iface,
        next_hop: of.next_hop.into(),
        preference: of.preference,
        metric: of.metric,
        is_connected: of.is_connected,
    })
}

/// By the numbers of `VIQ_RPF_..`; a neighbour is there exactly for the first two.
fn rpf(cause: u32, neighbour: raw::Hop) -> Rpf {
    match (cause, hop(neighbour)) {
        (1, Some(hop)) => Rpf::Winner(hop),
        (_, Some(hop)) => Rpf::NextHop(hop),
        (3, None) => Rpf::Connected,
        (4, None) => Rpf::NoNeighbour,
        (6, None) => Rpf::Own,
        (7, None) => Rpf::NoRp,
        (_, None) => Rpf::NoRoute,
    }
}

impl Tree {
    pub(crate) fn from_c(of: raw::Tree) -> Tree {
        Tree {
            rp: number(of.rp).map(Ipv4Addr::from),
            path: path(of.path),
            rpf: rpf(of.rpf_cause, of.rpf_neighbour),
            join_desired: of.join_desired,
            joins: of.joins,
            local_receiver_include: of.local_receiver_include,
            pim_include: of.pim_include,
            lost_assert: of.lost_assert,
            won_assert: of.won_assert,
            immediate_olist: of.immediate_olist,
        }
    }
}

impl SourceTree {
    pub(crate) fn from_c(of: raw::SourceTree) -> SourceTree {
        SourceTree {
            path: path(of.path),
            rpf: rpf(of.rpf_cause, of.rpf_neighbour),
            rpf_rpt: hop(of.rpf_neighbour_rpt),
            rpt_state: match of.rpt_state {
                0 => RptState::NotJoined,
                1 => RptState::Pruned,
                _ => RptState::NotPruned,
            },
            spt_bit: of.spt_bit,
            is_kept_alive: of.is_kept_alive,
            join_desired: of.join_desired,
            prune_desired: of.prune_desired,
            could_register: of.could_register,
            has_tunnel: of.has_tunnel,
            joins: of.joins,
            prunes: of.prunes,
            local_receiver_include: of.local_receiver_include,
            local_receiver_exclude: of.local_receiver_exclude,
            pim_include: of.pim_include,
            pim_exclude: of.pim_exclude,
            lost_assert: of.lost_assert,
            lost_assert_rpt: of.lost_assert_rpt,
            won_assert: of.won_assert,
            immediate_olist: of.immediate_olist,
            inherited_olist: of.inherited_olist,
            inherited_olist_rpt: of.inherited_olist_rpt,
        }
    }
}

/// By the numbers of `VIQ_QUERIER_..`.
fn querying(of: raw::Querier) -> Option<Querying> {
    let querier = match of.role {
        1 => Querier::Own { next_query: of.end, startup_left: of.startup_left },
        2 => Querier::Other { end: of.end },
        _ => return None,
    };
    Some(Querying { querier, robustness: of.robustness, query_interval: of.query_interval })
}

impl Link {
    pub(crate) fn from_c(of: raw::Link) -> Link {
        let dr = of.is_up.then(|| of.dr.into());
        Link { is_up: of.is_up, is_dr: of.is_dr, dr, querying: querying(of.querier) }
    }
}

impl Neighbour {
    pub(crate) fn from_c(of: raw::Neighbour) -> Neighbour {
        let delay = of.lan_delay;
        Neighbour {
            end: ends(of.end),
            priority: number(of.priority),
            generation: number(of.generation),
            lan_delay: delay.is_there.then_some(LanDelay {
                can_track: delay.can_track,
                propagation_delay: delay.propagation_delay,
                override_interval: delay.override_interval,
            }),
        }
    }
}
