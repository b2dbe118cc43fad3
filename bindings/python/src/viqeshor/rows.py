"""The rows of tables: a value of its own for each kind of row. Times are in ms, and None where no timer runs."""
import ctypes
from collections.abc import Callable
from ctypes import Structure, c_bool, c_uint32, c_uint64
from dataclasses import dataclass
from functools import lru_cache
from typing import Any, ClassVar, TypeAlias

from viqeshor.trees import NEVER, dotted

DOWNSTREAM_STATES = ["", "join", "pending", "prune"]
REGISTER_STATES = [None, "join", "pending", "prune"]


def numbers(*names: str) -> list[tuple[str, Any]]:
    return [(name, c_uint32) for name in names]


# ---- the values of C


class CNeighbour(Structure):
    _fields_ = [("iface", c_uint32), ("address", c_uint32), ("end", c_uint64)]


class CGroup(Structure):
    _fields_ = [("iface", c_uint32), ("group", c_uint32), ("is_exclude", c_bool), ("end", c_uint64)]


class CSource(Structure):
    _fields_ = [("iface", c_uint32), ("group", c_uint32), ("source", c_uint32), ("end", c_uint64)]


class CDownstream(Structure):
    _fields_ = [("iface", c_uint32), ("group", c_uint32), ("source", c_uint32), ("is_rpt", c_bool), ("state", c_uint32),
                ("end", c_uint64), ("pending", c_uint64)]


class CAssert(Structure):
    _fields_ = [("iface", c_uint32), ("group", c_uint32), ("source", c_uint32), ("is_loser", c_bool),
                ("winner", c_uint32), ("end", c_uint64)]


class CUpstream(Structure):
    _fields_ = [("group", c_uint32), ("source", c_uint32), ("next_join", c_uint64)]


class CRpt(Structure):
    _fields_ = [("group", c_uint32), ("source", c_uint32), ("is_pruned", c_bool)]


class CActive(Structure):
    _fields_ = [("group", c_uint32), ("source", c_uint32), ("keepalive", c_uint64), ("spt_bit", c_bool),
                ("register_state", c_uint32)]


class CColumns(ctypes.Union):
    _fields_ = [
        ("neighbour", CNeighbour),
        ("group", CGroup),
        ("source", CSource),
        ("downstream", CDownstream),
        ("asserted", CAssert),
        ("upstream", CUpstream),
        ("rpt", CRpt),
        ("active", CActive),
    ]


class CRow(Structure):
    _fields_ = [("table", c_uint32), ("of", CColumns)]


# ---- what is told


def ends(moment: int | None, without: str) -> str:
    return without if moment is None else str(moment)


def line(*words: object) -> str:
    return " ".join(map(str, words))


@dataclass(frozen=True)
class NeighbourRow:
    """A PIM neighbour."""
    table: ClassVar[str] = "N"
    iface: int  # the interface
    address: str  # the neighbour's
    end: int | None  # when its holdtime expires, or None

    def __str__(self) -> str:
        return line("N", self.iface, self.address, ends(self.end, "never"))


@dataclass(frozen=True)
class GroupRow:
    """What hosts want of a group."""
    table: ClassVar[str] = "G"
    iface: int  # the interface
    group: str  # G
    is_exclude: bool  # every source but those that they exclude; else only the sources of the rows of S
    end: int | None  # when EXCLUDE mode ends; None in INCLUDE mode

    def __str__(self) -> str:
        return line("G", self.iface, self.group, "exclude" if self.is_exclude else "include", ends(self.end, "never"))


@dataclass(frozen=True)
class SourceRow:
    """A source that hosts want or exclude."""
    table: ClassVar[str] = "S"
    iface: int  # the interface
    group: str  # G
    source: str  # S
    end: int | None  # until when they want it; None where they exclude it

    def __str__(self) -> str:
        return line("S", self.iface, self.group, self.source, ends(self.end, "-"))


@dataclass(frozen=True)
class DownstreamRow:
    """What other routers joined or pruned."""
    table: ClassVar[str] = "D"
    iface: int  # the interface
    group: str  # G
    source: str | None  # None for (*,G)
    is_rpt: bool  # of (S,G,rpt); else of (*,G) or (S,G)
    state: str  # of the machine
    end: int | None  # when the Expiry Timer expires, or None
    pending: int | None  # when the Prune-Pending Timer expires; None in another state

    def kind(self) -> str:
        """`g` for (*,G), `sg` for (S,G) and `rpt` for (S,G,rpt)."""
        return "g" if self.source is None else "rpt" if self.is_rpt else "sg"

    def __str__(self) -> str:
        return line("D", self.iface, self.group, self.source or "*", self.kind(), self.state, ends(self.end, "never"),
                    ends(self.pending, "-"))


@dataclass(frozen=True)
class AssertRow:
    """An assert."""
    table: ClassVar[str] = "A"
    iface: int  # the interface
    group: str  # G
    source: str | None  # None for (*,G)
    is_loser: bool  # the router lost it; else it won
    winner: str  # the winner's address: the router's own where it won
    end: int  # when the Assert Timer expires

    def __str__(self) -> str:
        return line("A", self.iface, self.group, self.source or "*", "loser" if self.is_loser else "winner",
                    self.winner, self.end)


@dataclass(frozen=True)
class UpstreamRow:
    """A tree that the router has joined upstream."""
    table: ClassVar[str] = "U"
    group: str  # G
    source: str | None  # None for (*,G)
    next_join: int  # when the next Join leaves

    def __str__(self) -> str:
        return line("U", self.group, self.source or "*", self.next_join)


@dataclass(frozen=True)
class RptRow:
    """A source of a shared tree that the router has joined."""
    table: ClassVar[str] = "R"
    group: str  # G
    source: str  # S
    is_pruned: bool  # the router pruned it off the shared tree

    def __str__(self) -> str:
        return line("R", self.group, self.source, "pruned" if self.is_pruned else "notpruned")


@dataclass(frozen=True)
class ActiveRow:
    """An active source."""
    table: ClassVar[str] = "F"
    group: str  # G
    source: str  # S
    keepalive: int | None  # when the keepalive timer expires; None where it doesn't run
    spt_bit: bool  # SPTbit(S,G)
    register_state: str | None  # None elsewhere than at the source's DR

    def __str__(self) -> str:
        return line("F", self.group, self.source, ends(self.keepalive, "-"), "spt" if self.spt_bit else "-",
                    self.register_state or "-")


# A row of any table, which as text is its line, as docs/SCENARIOS.md describes it ("Tables").
Row: TypeAlias = NeighbourRow | GroupRow | SourceRow | DownstreamRow | AssertRow | UpstreamRow | RptRow | ActiveRow


# ---- of C's values


def source_of(bits: int) -> str | None:
    return dotted(bits) if bits else None


def there(moment: int) -> int | None:
    return None if moment == NEVER else moment


def neighbour_row(of: CNeighbour) -> NeighbourRow:
    return NeighbourRow(of.iface, dotted(of.address), there(of.end))


def group_row(of: CGroup) -> GroupRow:
    return GroupRow(of.iface, dotted(of.group), of.is_exclude, there(of.end))


def source_row(of: CSource) -> SourceRow:
    return SourceRow(of.iface, dotted(of.group), dotted(of.source), there(of.end))


def downstream_row(of: CDownstream) -> DownstreamRow:
    return DownstreamRow(of.iface, dotted(of.group), source_of(of.source), of.is_rpt, DOWNSTREAM_STATES[of.state],
                         there(of.end), there(of.pending))


def assert_row(of: CAssert) -> AssertRow:
    return AssertRow(of.iface, dotted(of.group), source_of(of.source), of.is_loser, dotted(of.winner), of.end)


def upstream_row(of: CUpstream) -> UpstreamRow:
    return UpstreamRow(dotted(of.group), source_of(of.source), of.next_join)


def rpt_row(of: CRpt) -> RptRow:
    return RptRow(dotted(of.group), dotted(of.source), of.is_pruned)


def active_row(of: CActive) -> ActiveRow:
    return ActiveRow(dotted(of.group), dotted(of.source), there(of.keepalive), of.spt_bit,
                     REGISTER_STATES[of.register_state])


# The member of each table, and the row that it is.
KINDS: dict[str, tuple[str, Callable[[Any], Row]]] = {
    "N": ("neighbour", neighbour_row),
    "G": ("group", group_row),
    "S": ("source", source_row),
    "D": ("downstream", downstream_row),
    "A": ("asserted", assert_row),
    "U": ("upstream", upstream_row),
    "R": ("rpt", rpt_row),
    "F": ("active", active_row),
}


@lru_cache(maxsize=65536)
def row_of(told: bytes) -> Row:
    """The row that the bytes of a `CRow` say. Most rows are read again and again."""
    value = CRow.from_buffer_copy(told)
    member, row = KINDS[chr(value.table)]
    return row(getattr(value.of, member))
