"""The bytes of a saved state, read by docs/SAVED.md alone: its configuration, its time, and its tables."""
from __future__ import annotations

import zlib
from collections.abc import Callable, Iterator
from dataclasses import dataclass
from typing import Any, NamedTuple

from viqeshor.lab.addresses import dotted

MAGIC, VERSION, WITH_ADDRESSES, WITH_CANDIDATES = b"VQST", 2, 3, 4
# In front of them, where groups of older hosts are saved too.
HOSTS = b"VIQF"
# In front of both in a file of pimlab, where the router has a listener for Bootstraps; and the bytes of that.
KEPT, LISTENER, CHOICES = b"VIQL", b"VIQB", {1: "range", 2: "group"}


class Unreadable(ValueError):
    """Bytes that are no saved state, with the number of docs/SAVED.md."""

    def __init__(self, number: int, text: str) -> None:
        super().__init__(f"{text} ({number})")
        self.number = number


class Key(NamedTuple):
    """Whose a row is; in the order in which the keys of a table rise."""
    iface: int
    group: int
    source: int | None
    is_rpt: bool

    def order(self) -> tuple[int, int, int, bool]:
        """No source is before every source."""
        return self.iface, self.group, -1 if self.source is None else self.source, self.is_rpt


Row = tuple[Any, ...]
Table = list[tuple[Key, Row]]


@dataclass
class Listener:
    """What a listener for Bootstraps knows."""
    chooses_for: str
    configured: list[Row]
    limit: int
    elected: Row | None
    heard: bool
    refresh_end: int
    rps: list[Row]
    parts: list[Row]
    last: bytes
    last_end: int


@dataclass
class Saved:
    settings: dict[str, int]
    addresses: list[str]
    candidates: list[tuple[str, int, str, int, int]]
    interfaces: list[tuple[str, int, int, int, int]]
    present: int
    routes: list[tuple[str, int, str, int, int, int]]
    ranges: list[tuple[str, int, str]]
    tables: dict[str, Table]
    hosts: Table
    listener: Listener | None = None


class Reader:
    """Reads from the left; the first fault is that of docs/SAVED.md."""

    def __init__(self, data: bytes) -> None:
        self.data, self.at = data, 0

    def number(self, count: int) -> int:
        if self.at + count > len(self.data):
            raise Unreadable(62, "a field passes the end")
        self.at += count
        return int.from_bytes(self.data[self.at - count:self.at], "big")

    def byte(self) -> int:
        return self.number(1)

    def half(self) -> int:
        return self.number(2)

    def word(self) -> int:
        return self.number(4)

    def time(self) -> int:
        return self.number(8)

    def address(self) -> str:
        return dotted(self.word())

    def tag(self, most: int) -> int:
        found = self.byte()
        if found > most:
            raise Unreadable(63, "a flag or a tag is none of its field's")
        return found

    def flag(self) -> bool:
        return bool(self.tag(1))

    def option(self, read: Callable[[], Any]) -> Any:
        return read() if self.flag() else None

    def list(self, read: Callable[[], Any]) -> list[Any]:
        return [read() for _ in range(self.time())]

    def in_turn(self, *reads: Callable[[], Any]) -> tuple[Any, ...]:
        return tuple(read() for read in reads)

    def key(self) -> Key:
        return Key(self.word(), self.word(), self.option(self.word), self.flag())

    def table(self, row: Callable[[], Row]) -> Table:
        rows = self.list(lambda: (self.key(), row()))
        orders = [key.order() for key, _ in rows]
        if any(one >= other for one, other in zip(orders, orders[1:])):
            raise Unreadable(64, "the keys of a table don't rise")
        return rows


def row_readers(r: Reader) -> dict[str, Callable[[], Row]]:
    """How the rows of each table are read, in the order of the tables."""

    def ends() -> int | None:
        return r.option(r.time)

    def querier() -> Row:
        is_other = r.tag(1)
        next_query, startup = r.time(), None if is_other else r.byte()
        return bool(is_other), next_query, startup, r.byte(), r.half()

    def register() -> Row:
        state = r.tag(2)
        return state, r.time() if state else None

    return {
        "up": lambda: r.in_turn(r.word, r.time, r.flag),
        "neighbour": lambda: r.in_turn(
            ends,
            lambda: r.option(lambda: r.in_turn(r.flag, r.half, r.half)),
            lambda: r.option(r.word),
            lambda: r.option(r.word),
        ),
        "querier": querier,
        "group-record": lambda: r.in_turn(ends),
        "source-record": lambda: r.in_turn(ends),
        "group-queries": lambda: r.in_turn(r.time, r.word),
        "source-queries": lambda: r.in_turn(r.time),
        "queried-source": lambda: r.in_turn(r.word),
        "downstream": lambda: r.in_turn(ends, ends),
        "assert": lambda: r.in_turn(lambda: bool(r.tag(1)), r.flag, r.word, r.word, r.address, r.time),
        "join-timer": lambda: r.in_turn(r.time),
        "override-timer": lambda: r.in_turn(r.time),
        "source": lambda: r.in_turn(ends, r.flag),
        "register": register,
    }


def opened(data: bytes) -> tuple[Table, bytes]:
    """The groups of older hosts, and the router's bytes behind them; raises Unreadable where they are none."""
    if data[:4] != HOSTS:
        return [], data
    try:
        if int.from_bytes(data[-4:], "big") != zlib.crc32(data[:-4]):
            raise Unreadable(69, "the sum isn't that of the bytes")
        r = Reader(data[4:-4])
        hosts = r.table(lambda: r.in_turn(lambda: r.option(r.time), lambda: r.option(r.time)))
        if not hosts:
            raise Unreadable(63, "no group of older hosts")
        return hosts, r.data[r.at:]
    except Unreadable as unreadable:
        raise Unreadable(71, f"the groups of older hosts aren't read: {unreadable}") from None


def listener_in(data: bytes) -> Listener:
    """What bytes of a listener say; raises Unreadable where they say nothing."""
    r = Reader(data)
    if r.word() != int.from_bytes(LISTENER, "big"):
        raise Unreadable(60, "the first four bytes of the listener aren't VIQB")
    version = r.half()
    if version not in CHOICES:
        raise Unreadable(61, "another version of the listener")
    if int.from_bytes(data[-4:], "big") != zlib.crc32(data[:-4]):
        raise Unreadable(69, "the sum isn't that of the listener's bytes")
    found = Listener(
        CHOICES[version], r.list(lambda: r.in_turn(r.address, r.word, r.address)), r.time(),
        r.option(lambda: r.in_turn(r.address, r.byte, r.time)), r.flag(), r.time(),
        r.list(lambda: r.in_turn(r.address, r.word, r.byte, r.address, r.byte, r.time)),
        r.list(lambda: r.in_turn(r.address, r.word, r.address, r.half, r.byte, r.address, r.half, r.time)),
        bytes(r.list(r.byte)), r.time())
    r.word()
    if r.at != len(data):
        raise Unreadable(65, "bytes follow the sum of the listener")
    return found


def behind_listener(data: bytes) -> tuple[Listener | None, bytes]:
    """The listener that stands in front, and the bytes behind it."""
    if data[:4] != KEPT:
        return None, data
    r = Reader(data[4:])
    known = bytes(r.list(r.byte))
    return listener_in(known), r.data[r.at:]


def candidates_in(r: Reader) -> list[Any]:
    """The candidate RPs of version 4, of which there is one at least."""
    found = r.list(lambda: r.in_turn(r.address, r.word, r.address, r.word, r.word))
    if not found:
        raise Unreadable(63, "version 4 without a candidate RP")
    return found


def read(data: bytes) -> Saved:
    """The state that saved bytes say; raises Unreadable where they say none."""
    listener, data = behind_listener(data)
    hosts, data = opened(data)
    r = Reader(data)
    if r.word() != int.from_bytes(MAGIC, "big"):
        raise Unreadable(60, "the first four bytes aren't VQST")
    version = r.half()
    if version not in (VERSION, WITH_ADDRESSES, WITH_CANDIDATES):
        raise Unreadable(61, "another version")
    if int.from_bytes(data[-4:], "big") != zlib.crc32(data[:-4]):
        raise Unreadable(69, "the sum isn't that of the bytes")
    addresses = r.list(r.address) if version != VERSION else []
    if version == WITH_ADDRESSES and not addresses:
        raise Unreadable(63, "version 3 without an own address of no interface")
    candidates = candidates_in(r) if version == WITH_CANDIDATES else []
    settings = {"limit": r.word(), "stays_on_shared_tree": r.tag(1)}
    names = ("robustness", "query_interval", "query_response_interval", "last_member_query_interval")
    settings |= {name: r.word() for name in names}
    interfaces = r.list(lambda: r.in_turn(r.address, r.word, r.word, r.word, r.word))
    present = r.time()
    routes = r.list(lambda: r.in_turn(r.address, r.word, r.address, r.word, r.word, r.word))
    ranges = r.list(lambda: r.in_turn(r.address, r.word, r.address))
    tables = {name: r.table(row) for name, row in row_readers(r).items()}
    r.word()
    if r.at != len(data):
        raise Unreadable(65, "bytes follow the sum")
    return Saved(settings, addresses, candidates, interfaces, present, routes, ranges, tables, hosts, listener)


def summed(front: bytes) -> bytes:
    """These bytes, with their sum behind them."""
    return front + zlib.crc32(front).to_bytes(4, "big")


# ---- as lines


def shown(value: Any) -> str:
    if value is None:
        return "-"
    if isinstance(value, tuple):
        return "/".join(map(shown, value))
    return str(int(value)) if isinstance(value, bool) else str(value)


def key_words(key: Key) -> list[str]:
    source = "*" if key.source is None else dotted(key.source)
    return [str(key.iface), dotted(key.group), source, *(["rpt"] if key.is_rpt else [])]


def lines(saved: Saved) -> Iterator[str]:
    """A line for each setting, and for each row its table, its key and its fields in the order of docs/SAVED.md."""
    yield f"present {saved.present}"
    yield from (f"{name} {value}" for name, value in saved.settings.items())
    yield from (f"address {each}" for each in saved.addresses)
    yield from (" ".join(["interface", str(number), *map(str, row)]) for number, row in enumerate(saved.interfaces))
    yield from (" ".join(["route", *map(str, row)]) for row in saved.routes)
    yield from (" ".join(["range", *map(str, row)]) for row in saved.ranges)
    yield from (" ".join(["candidate", *map(str, row)]) for row in saved.candidates)
    for name, rows in [*saved.tables.items(), ("older-hosts", saved.hosts)]:
        yield from (" ".join([name, *key_words(key), *map(shown, row)]) for key, row in rows)
    if saved.listener:
        yield from listener_lines(saved.listener)


def listener_lines(listener: Listener) -> Iterator[str]:
    """The same of what a listener knows."""
    yield f"listener {listener.chooses_for} {listener.limit}"
    yield from (" ".join(["listener-range", *map(str, row)]) for row in listener.configured)
    if listener.elected:
        yield " ".join(["listener-elected", *map(str, listener.elected)])
    yield f"listener-heard {int(listener.heard)} {listener.refresh_end}"
    yield from (" ".join(["listener-rp", *map(str, row)]) for row in listener.rps)
    yield from (" ".join(["listener-part", *map(str, row)]) for row in listener.parts)
    yield f"listener-last {listener.last.hex() or '-'} {listener.last_end}"


# ---- as the printed tables


def without(ends: int | None, word: str) -> str:
    return word if ends is None else str(ends)


def downstream_words(key: Key, ends: int | None, pending: int | None) -> list[str]:
    kind = "rpt" if key.is_rpt else "g" if key.source is None else "sg"
    state = "pending" if pending is not None else "prune" if key.is_rpt else "join"
    return [kind, state, without(ends, "never"), without(pending, "-")]


def printed(saved: Saved) -> Iterator[str]:
    """The lines of all printed tables but R, whose states aren't in the bytes, and O (docs/SCENARIOS.md)."""
    tables, registers = saved.tables, dict(saved.tables["register"])
    for key, (ends, *_) in tables["neighbour"]:
        yield f"N {key.iface} {dotted(key.source or 0)} {without(ends, 'never')}"
    for key, (ends,) in tables["group-record"]:
        yield f"G {key.iface} {dotted(key.group)} {'include never' if ends is None else f'exclude {ends}'}"
    for key, (ends,) in tables["source-record"]:
        yield " ".join(["S", *key_words(key), without(ends, "-")])
    for key, row in tables["downstream"]:
        yield " ".join(["D", *key_words(key)[:3], *downstream_words(key, *row)])
    for key, (is_loser, _, _, _, winner, ends) in tables["assert"]:
        yield " ".join(["A", *key_words(key), "loser" if is_loser else "winner", winner, str(ends)])
    for key, (next_join,) in tables["join-timer"]:
        yield " ".join(["U", *key_words(key)[1:], str(next_join)])
    for key, (ends, has_spt_bit) in tables["source"]:
        register = ("join", "pending", "prune")[registers[key][0]] if key in registers else "-"
        words = [without(ends, "-"), "spt" if has_spt_bit else "-", register]
        yield " ".join(["F", *key_words(key)[1:], *words])
