"""The lines that `pimlab run` prints, as objects."""
from __future__ import annotations

import math
from collections.abc import Iterable
from typing import TYPE_CHECKING, NamedTuple, TypeAlias, TypeVar

if TYPE_CHECKING:
    R = TypeVar("R")
    Row: TypeAlias = (
        "Neighbour | GroupRecord | SourceRecord | Downstream | AssertState | Upstream | SharedTree | Active | "
        "OlderHosts | ElectedBsr | LearnedRp"
    )

NEVER = math.inf
ANY = "*"


class Answer(NamedTuple):
    """What a router answered to a move or to a delivery of a settle: `done`, `ignored REASON` or `refused NUMBER`."""
    move: int
    router: str
    verdict: str
    cause: str | None

    def __str__(self) -> str:
        return self.verdict if self.cause is None else f"{self.verdict} {self.cause}"


class Emission(NamedTuple):
    """A packet that left: `where` is a link, or for a unicast its destination."""
    kind: str
    number: int
    where: str
    data: bytes


class Heading(NamedTuple):
    """The tables of this router follow."""
    router: str


# Rows of the tables. Ends are in ms; `never` is infinite, and an end that isn't there is None.


class Neighbour(NamedTuple):
    """A PIM neighbour."""
    iface: int
    address: str
    end: float | None


class GroupRecord(NamedTuple):
    """What hosts want of a group."""
    iface: int
    group: str
    mode: str
    end: float | None


class SourceRecord(NamedTuple):
    """A source that hosts want or exclude."""
    iface: int
    group: str
    source: str
    end: float | None


class Downstream(NamedTuple):
    """What other routers joined or pruned."""
    iface: int
    group: str
    source: str
    kind: str
    state: str
    end: float | None
    pending: float | None


class AssertState(NamedTuple):
    """An assert."""
    iface: int
    group: str
    source: str
    role: str
    winner: str
    end: float | None


class Upstream(NamedTuple):
    """A tree that the router has joined upstream."""
    group: str
    source: str
    end: float | None


class SharedTree(NamedTuple):
    """A source of a shared tree that the router has joined."""
    group: str
    source: str
    state: str


class Active(NamedTuple):
    """An active source."""
    group: str
    source: str
    end: float | None
    spt: str
    register: str


class OlderHosts(NamedTuple):
    """A group in an older mode on an interface."""
    iface: int
    group: str
    mode: str
    one_end: float | None
    two_end: float | None


class ElectedBsr(NamedTuple):
    """The elected BSR."""
    bsr: str
    priority: int
    end: float | None


class LearnedRp(NamedTuple):
    """An RP of a learned range."""
    groups: str
    rp: str
    priority: int
    end: float | None
    state: str


class StandingBsr(NamedTuple):
    """What a candidate BSR is."""
    state: str
    end: float | None


class HeldRp(NamedTuple):
    """An RP of a range that an elected BSR holds."""
    groups: str
    rp: str
    priority: int
    holdtime: int
    end: float | None


class GoneRange(NamedTuple):
    """A range whose last RP went."""
    groups: str
    end: float | None


class ToldBsr(NamedTuple):
    """The BSR that a candidate RP tells of itself."""
    bsr: str
    end: float | None


ROWS = {
    "N": Neighbour, "G": GroupRecord, "S": SourceRecord, "D": Downstream, "A": AssertState, "U": Upstream,
    "R": SharedTree, "F": Active, "O": OlderHosts, "B": ElectedBsr, "L": LearnedRp, "E": StandingBsr, "H": HeldRp,
    "W": GoneRange, "T": ToldBsr,
}
# The columns that are moments.
ENDS = ("end", "pending", "one_end", "two_end")
# The columns that are numbers.
NUMBERS = ("iface", "priority", "holdtime")
PACKETS = ("frame", "copy", "unicast")


def end_of(text: str) -> float | None:
    return {"-": None, "never": NEVER}.get(text) if not text.isdigit() else int(text)


def value_of(column: str, text: str) -> str | float | None:
    if column in NUMBERS:
        return int(text)
    return end_of(text) if column in ENDS else text


def row_of(letter: str, texts: list[str]) -> Row:
    kind = ROWS[letter]
    if len(texts) != len(kind._fields):
        raise ValueError(f"a row {letter} of {len(texts)} columns")
    return kind(*map(value_of, kind._fields, texts))


def rows_of(rows: Iterable[Row], table: type[R], /, **values: object) -> list[R]:
    """The rows of a table that have these values in these columns."""
    found = (row for row in rows if isinstance(row, table))
    return [row for row in found if all(getattr(row, column) == value for column, value in values.items())]


def by_table(rows: Iterable[Row]) -> dict[type[Row], list[Row]]:
    """The rows of each table."""
    found = {}
    for row in rows:
        found.setdefault(type(row), []).append(row)
    return found


def parsed(line: str) -> Answer | Emission | Heading | Row:
    """What a line says: an Answer, an Emission, a Heading or a row. Raises ValueError for any other line."""
    first, _, rest = line.partition(" ")
    if first == "move":
        return answer_of(rest)
    if first in PACKETS:
        number, rest = rest.split(" ", 1)
        where, data = rest.rsplit(" ", 1)
        return Emission(first, int(number), where, bytes.fromhex(data))
    if first == "router":
        return Heading(rest)
    if first in ROWS:
        return row_of(first, rest.split(" "))
    raise ValueError(f"no line of pimlab run: {line[:80]!r}")


def answer_of(text: str) -> Answer:
    """A router's name may have blanks, so what is known is taken off both ends."""
    number, rest = text.split(" ", 1)
    name, _, last = rest.rpartition(" ")
    if last == "done":
        return Answer(int(number), name, "done", None)
    name, _, verdict = name.rpartition(" ")
    if verdict not in ("ignored", "refused"):
        raise ValueError(f"no answer: {text[:80]!r}")
    return Answer(int(number), name, verdict, last)
