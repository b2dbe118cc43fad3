"""The macros of RFC 7761 of a group or of a source, and what is known of an interface and of a neighbour."""
from ctypes import Structure, c_bool, c_uint32, c_uint64
from enum import StrEnum
from ipaddress import IPv4Address
from typing import NamedTuple

NEVER = 2**64 - 1
RPT_STATES = ["notjoined", "pruned", "notpruned"]
QUERIERS = ["none", "own", "other"]


class Cause(StrEnum):
    """Where RPF' comes from, or why there is none. The root is RP(G), or S. It equals its text."""
    WINNER = "winner"  # of an assert
    NEXT_HOP = "next hop"  # of the route to the root
    CONNECTED = "connected"  # the root is on a link of the router, and is no neighbour
    NO_NEIGHBOUR = "no neighbour"  # the next hop is none
    NO_ROUTE = "no route"
    OWN = "own"  # the root is the router itself
    NO_RP = "no rp"  # the group has none


# By their numbers in C.
CAUSES = dict(enumerate(Cause, 1))


# ---- the values of C


class Words(Structure):
    _fields_ = [("low", c_uint64), ("high", c_uint64)]

    def interfaces(self) -> frozenset[int]:
        bits, found = self.high << 64 | self.low, []
        while bits:
            found.append((bits & -bits).bit_length() - 1)
            bits &= bits - 1
        return frozenset(found)


class CNumber(Structure):
    _fields_ = [("is_there", c_bool), ("value", c_uint32)]

    def number(self) -> int | None:
        return self.value if self.is_there else None


class CHop(Structure):
    _fields_ = [("is_there", c_bool), ("iface", c_uint32), ("address", c_uint32)]

    def hop(self) -> "Hop | None":
        return Hop(self.iface, dotted(self.address)) if self.is_there else None


class CPath(Structure):
    _fields_ = [
        ("is_there", c_bool),
        ("is_connected", c_bool),
        ("iface", c_uint32),
        ("next_hop", c_uint32),
        ("preference", c_uint32),
        ("metric", c_uint32),
    ]

    def path(self) -> "Path | None":
        if not self.is_there:
            return None
        return Path(self.iface, dotted(self.next_hop), self.preference, self.metric, self.is_connected)


class CTree(Structure):
    _fields_ = [
        ("rp", CNumber),
        ("path", CPath),
        ("rpf_neighbour", CHop),
        ("rpf_cause", c_uint32),
        ("join_desired", c_bool),
        ("joins", Words),
        ("local_receiver_include", Words),
        ("pim_include", Words),
        ("lost_assert", Words),
        ("won_assert", Words),
        ("immediate_olist", Words),
    ]


class CSourceTree(Structure):
    _fields_ = [
        ("path", CPath),
        ("rpf_neighbour", CHop),
        ("rpf_cause", c_uint32),
        ("rpf_neighbour_rpt", CHop),
        ("rpt_state", c_uint32),
        ("spt_bit", c_bool),
        ("is_kept_alive", c_bool),
        ("join_desired", c_bool),
        ("prune_desired", c_bool),
        ("could_register", c_bool),
        ("has_tunnel", c_bool),
        ("joins", Words),
        ("prunes", Words),
        ("local_receiver_include", Words),
        ("local_receiver_exclude", Words),
        ("pim_include", Words),
        ("pim_exclude", Words),
        ("lost_assert", Words),
        ("lost_assert_rpt", Words),
        ("won_assert", Words),
        ("immediate_olist", Words),
        ("inherited_olist", Words),
        ("inherited_olist_rpt", Words),
    ]


class CQuerier(Structure):
    _fields_ = [
        ("role", c_uint32),
        ("end", c_uint64),
        ("startup_left", c_uint32),
        ("robustness", c_uint32),
        ("query_interval", c_uint32),
    ]


class CLink(Structure):
    _fields_ = [("is_up", c_bool), ("is_dr", c_bool), ("dr", c_uint32), ("querier", CQuerier)]


class CLanDelay(Structure):
    _fields_ = [
        ("is_there", c_bool),
        ("can_track", c_bool),
        ("propagation_delay", c_uint32),
        ("override_interval", c_uint32),
    ]


class CNeighbour(Structure):
    _fields_ = [
        ("end", c_uint64),
        ("priority", CNumber),
        ("generation", CNumber),
        ("lan_delay", CLanDelay),
    ]


def dotted(bits: int) -> str:
    return str(IPv4Address(bits))


# ---- what is told


class Hop(NamedTuple):
    """A neighbour on an interface."""
    iface: int
    address: str


class Path(NamedTuple):
    """A unicast route: RPF_interface, the next hop, its preference and metric, and whether it leads to a link of the
    router, where the next hop is the address itself."""
    iface: int
    next_hop: str
    preference: int
    metric: int
    is_connected: bool


class Tree(NamedTuple):
    """The macros of (*,G): RP(G), the route to it, RPF'(*,G) and where it comes from or why there is none (`CAUSES`),
    JoinDesired(*,G), joins(*,G), local_receiver_include(*,G), pim_include(*,G), lost_assert(*,G), where
    AssertWinner(*,G,I) is the router, and immediate_olist(*,G)."""
    rp: str | None
    path: Path | None
    rpf_neighbour: Hop | None
    rpf_cause: Cause
    join_desired: bool
    joins: frozenset[int]
    local_receiver_include: frozenset[int]
    pim_include: frozenset[int]
    lost_assert: frozenset[int]
    won_assert: frozenset[int]
    immediate_olist: frozenset[int]


class SourceTree(NamedTuple):
    """The macros of (S,G) and of (S,G,rpt): the route to S, RPF'(S,G) and where it comes from or why there is none
    (`CAUSES`), RPF'(S,G,rpt), the upstream state of (S,G,rpt) (`RPT_STATES`), SPTbit(S,G), whether KeepaliveTimer(S,G)
    runs, JoinDesired(S,G), PruneDesired(S,G,rpt), CouldRegister(S,G), whether the register tunnel is in joins(S,G) and
    in the first two lists, joins(S,G), prunes(S,G,rpt), local_receiver_include(S,G), local_receiver_exclude(S,G),
    pim_include(S,G), pim_exclude(S,G), lost_assert(S,G), lost_assert(S,G,rpt), where AssertWinner(S,G,I) is the router,
    immediate_olist(S,G), inherited_olist(S,G) and inherited_olist(S,G,rpt)."""
    path: Path | None
    rpf_neighbour: Hop | None
    rpf_cause: Cause
    rpf_neighbour_rpt: Hop | None
    rpt_state: str
    spt_bit: bool
    is_kept_alive: bool
    join_desired: bool
    prune_desired: bool
    could_register: bool
    has_tunnel: bool
    joins: frozenset[int]
    prunes: frozenset[int]
    local_receiver_include: frozenset[int]
    local_receiver_exclude: frozenset[int]
    pim_include: frozenset[int]
    pim_exclude: frozenset[int]
    lost_assert: frozenset[int]
    lost_assert_rpt: frozenset[int]
    won_assert: frozenset[int]
    immediate_olist: frozenset[int]
    inherited_olist: frozenset[int]
    inherited_olist_rpt: frozenset[int]


class Querier(NamedTuple):
    """Who queries on an interface (`QUERIERS`): the router itself or another one; when the next general query leaves,
    or when the router takes over from the other, in ms; how many startup queries are still to leave; the robustness
    variable and the query interval in force, in seconds."""
    role: str
    end: int | None
    startup_left: int
    robustness: int
    query_interval: int


class Link(NamedTuple):
    """An interface that is configured: whether it is up, I_am_DR(I), DR(I) if it is up, and who queries."""
    is_up: bool
    is_dr: bool
    dr: str | None
    querier: Querier


class LanDelay(NamedTuple):
    """The LAN Prune Delay option: the T bit, and both delays in ms."""
    can_track: bool
    propagation_delay: int
    override_interval: int


class Neighbour(NamedTuple):
    """A neighbour with the options of its last Hello: when its holdtime expires, in ms, None for never; DR Priority,
    Generation ID and LAN Prune Delay."""
    end: int | None
    priority: int | None
    generation: int | None
    lan_delay: LanDelay | None


def sets_of(told: Structure) -> list[frozenset[int]]:
    """The sets of interfaces of a value, in their order."""
    fields = [getattr(told, name) for name, kind in told._fields_ if kind is Words]
    return [words.interfaces() for words in fields]


def tree_of(told: CTree) -> Tree:
    rp = told.rp.number()
    return Tree(None if rp is None else dotted(rp), told.path.path(), told.rpf_neighbour.hop(), CAUSES[told.rpf_cause],
                told.join_desired, *sets_of(told))


def source_tree_of(told: CSourceTree) -> SourceTree:
    flags = [getattr(told, name) for name, kind in told._fields_ if kind is c_bool]
    return SourceTree(told.path.path(), told.rpf_neighbour.hop(), CAUSES[told.rpf_cause], told.rpf_neighbour_rpt.hop(),
                      RPT_STATES[told.rpt_state], *flags, *sets_of(told))


def link_of(told: CLink) -> Link:
    it = told.querier
    end = None if it.end == NEVER else it.end
    querier = Querier(QUERIERS[it.role], end, it.startup_left, it.robustness, it.query_interval)
    return Link(told.is_up, told.is_dr, dotted(told.dr) if told.is_up else None, querier)


def neighbour_of(told: CNeighbour) -> Neighbour:
    it = told.lan_delay
    delay = LanDelay(it.can_track, it.propagation_delay, it.override_interval) if it.is_there else None
    end = None if told.end == NEVER else told.end
    return Neighbour(end, told.priority.number(), told.generation.number(), delay)
