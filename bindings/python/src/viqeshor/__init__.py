"""A multicast router: PIM Sparse Mode (RFC 7761) and IGMPv3 (RFC 3376). It is what `include/viqeshor/viqeshor.h`
describes, by ctypes.

    from viqeshor import Router

    with Router([("10.0.0.2", 24), ("10.0.1.1", 24)], ranges=[("224.0.0.0/4", "10.9.9.9")]) as router:
        router.up(0)
        router.up(1)
        while True:
            send(router.run_to(now()))                          # time passes, and packets leave
            for iface, packet in received(router.next_moment()):    # until the next timer expires
                router.frame(iface, packet)
                send(router.packets())                          # each a kind, an interface or an address, and bytes

A packet that is to be sent is kept until `packets` or `run_to` returns it, whatever events come between.

A moment is a timestamp, in milliseconds from any beginning, at most 2**62. The shared library is the one that `library`
names, or VIQESHOR_LIBRARY in the environment, or the one in the package's folder, or the one that the system loads as
`libviqeshor.so.0.9`. `viqeshor.hosts` writes packets of hosts, `viqeshor.bsr` learns RPs of Bootstraps,
`viqeshor.candidacy` stands as BSR and as RP, and `viqeshor.lab` plays whole networks.
"""
import ctypes
import enum
import operator
import os
import random
import struct
import threading
import weakref
from collections.abc import Callable, Iterable, Iterator, Sequence
from ctypes import POINTER, Structure, byref, c_bool, c_char_p, c_size_t, c_uint8, c_uint32, c_uint64, c_void_p
from functools import cache, lru_cache
from ipaddress import IPv4Address, IPv4Interface
from itertools import accumulate
from pathlib import Path
from typing import Any, Literal, NamedTuple, Self, SupportsIndex, TypeAlias, overload

from viqeshor import trees
from viqeshor.rows import (
    ActiveRow,
    AssertRow,
    DownstreamRow,
    GroupRow,
    NeighbourRow,
    Row,
    RptRow,
    SourceRow,
    CRow,
    UpstreamRow,
    numbers,
    row_of,
)
from viqeshor.trees import Cause, Link, Neighbour, SourceTree, Tree, Words, dotted

__all__ = [
    "ActiveRow",
    "Answer",
    "AssertRow",
    "Candidate",
    "Cause",
    "Closed",
    "DownstreamRow",
    "Error",
    "Forwarding",
    "GroupRow",
    "Link",
    "Lost",
    "Neighbour",
    "NeighbourRow",
    "NoMemory",
    "OLDER_HOSTS",
    "OlderRow",
    "OtherVersion",
    "PlaneRow",
    "Refused",
    "Router",
    "Row",
    "RpSet",
    "RptRow",
    "Sent",
    "SourceRow",
    "SourceTree",
    "TABLES",
    "Tree",
    "UpstreamRow",
    "__version__",
    "answer_text",
    "version",
]

__version__ = "0.9.0"
# The library's name for the system, as the linker has it (its soname).
SHARED = "libviqeshor.so.0.9"

# What a packet may be given as.
Buffer: TypeAlias = bytes | bytearray | memoryview
# What an interface may be given as.
Interface: TypeAlias = str | IPv4Interface | tuple[Any, ...]

# What this package and the library have to agree on: VIQ_ABI of viqeshor.h.
ABI = 13
NEVER, NO_INTERFACE, NO_PLACE, MOST_BYTES = 2**64 - 1, 2**32 - 1, 2**32 - 1, 1528
# The letters of the tables.
TABLES = "NGSDAURF"
# What an interface hears of hosts of older versions of IGMP.
OLDER_HOSTS = {"none": 0, "v2": 1, "all": 2}


class Answer(enum.IntEnum):
    """What became of an event. `docs/SCENARIOS.md` has the refusals, and the reasons to ignore, from 101. Answers that
    are neither of these nor DONE or NO_TIMER are raised as an `Error`, and so are the refusals of saved bytes, which
    `docs/SAVED.md` has."""
    DONE = 0
    SHORT = 1
    BAD_VERSION = 2
    BAD_CHECKSUM = 3
    BAD_LENGTH = 4
    BAD_ADDRESS = 5
    NOT_MULTICAST = 6
    OLD_VERSION = 7
    UNKNOWN_TYPE = 8
    FRAGMENT = 9
    MOMENT_BACK = 20
    MOMENT_FAR = 21
    BAD_INTERFACE = 22
    INTERFACE_DOWN = 23
    FULL = 24
    BAD_ROUTES = 25
    BAD_RANGES = 26
    INTERFACE_COUNT = 30
    INTERFACE_ADDRESS = 31
    INTERFACE_LENGTH = 32
    OVERLAP = 33
    BAD_LIMIT = 34
    BAD_QUERIER = 35
    BAD_DELAY = 36
    CONFIGURED_ROUTES = 37
    CONFIGURED_RANGES = 38
    OWN_ADDRESSES = 70
    PLACES_DONT_FIT = 73
    BAD_CANDIDATES = 76
    BAD_RP_SET = 74
    MEMORY = 40
    FAILED = 41
    LOST = 43
    NO_ROUTER = 50
    NO_TABLE = 51
    NO_TIMER = 52
    OTHER_ABI = 53
    NO_SETTING = 54
    UNTAKEN = 55
    NO_LISTENER = 56
    NO_CANDIDACY = 57
    NOT_OURS = 60
    OTHER_VERSION = 61
    CUT_SHORT = 62
    OUT_OF_RANGE = 63
    KEYS_DONT_RISE = 64
    LEFT_OVER = 65
    NOT_HELD = 66
    NOT_SETTLED = 67
    NOT_QUIET = 68
    DAMAGED = 69
    NOT_NEAR = 72
    HOSTS_NOT_HELD = 71
    RPS_NOT_HELD = 75
    OWN = 101
    NOT_FOR_ME = 102
    OTHER_TYPE = 103
    MASK = 104
    LINK_LOCAL = 105
    NO_NEIGHBOUR = 106
    NOT_RP = 107
    ALREADY = 108
    GUARDED = 109
    OWN_BSR = 110
    SCOPED = 111
    LATE_REFRESH = 112
    NOT_FROM_RPF = 113
    NOT_PREFERRED = 114
    NOT_ELECTED = 115

    @classmethod
    def _missing_(cls, value: object) -> Self | None:
        """An answer of a later library: it has no name, and is no reason to fail once the router has taken an event."""
        if not isinstance(value, int):
            return None
        answer = int.__new__(cls, value)
        answer._name_, answer._value_ = f"UNKNOWN_{value}", value
        return answer

    @property
    def is_ignored(self) -> bool:
        return self >= Answer.OWN

    @property
    def is_refused(self) -> bool:
        return Answer.DONE < self < Answer.MEMORY or self in (
            Answer.OWN_ADDRESSES, Answer.PLACES_DONT_FIT, Answer.BAD_CANDIDATES, Answer.BAD_RP_SET)


class Error(Exception):
    """Why a call did nothing."""

    def __init__(self, answer: Answer, text: str) -> None:
        super().__init__(f"{text} ({answer.value})")
        self.answer = answer


class Refused(Error):
    """A configuration, a table or a saved state that was refused."""


class NoMemory(Error, MemoryError):
    """Memory was refused, and nothing has changed: the call may be made again."""


class Lost(Error):
    """The router is lost: memory was refused to it amid a change, at this call (`Answer.LOST`) or at an earlier one
    (`Answer.FAILED`)."""


class Closed(Error, ValueError):
    """The router was ended before."""


class OtherVersion(Error, ImportError):
    """The library isn't of the version that this package is for."""


RAISED: dict[Answer, type[Error]] = {
    Answer.MEMORY: NoMemory,
    Answer.LOST: Lost,
    Answer.FAILED: Lost,
    Answer.NO_ROUTER: Closed,
    Answer.NO_LISTENER: Closed,
    Answer.NO_CANDIDACY: Closed,
    Answer.OTHER_ABI: OtherVersion,
}


# ---- what C gives and takes


class Draw(Structure):
    _fields_ = numbers("bits")


class CInterface(Structure):
    _fields_ = numbers("address", "length", "priority", "propagation_delay", "override_interval")


class CRoute(Structure):
    _fields_ = numbers("prefix", "length", "next_hop", "iface", "preference", "metric")


class CRange(Structure):
    _fields_ = numbers("prefix", "length", "rp")


class CCandidate(Structure):
    _fields_ = numbers("prefix", "length", "rp", "priority", "hash_length")


class CRpSet(Structure):
    _fields_ = [*numbers("shared", "own"), ("others", POINTER(c_uint32)), ("other_count", c_size_t)]


class Settings(Structure):
    _fields_ = [
        *numbers("limit", "robustness", "query_interval", "query_response_interval", "last_member_query_interval"),
        ("stays_on_shared_tree", c_bool),
        ("addresses", POINTER(c_uint32)),
        ("address_count", c_size_t),
    ]


class CPacket(Structure):
    _fields_ = [*numbers("kind", "iface", "destination"), ("length", c_size_t)]


class COlderRow(Structure):
    _fields_ = [*numbers("iface", "group", "mode"), ("one_end", c_uint64), ("two_end", c_uint64)]


class CForwarding(Structure):
    _fields_ = [
        ("rpf", c_uint32),
        ("shared_rpf", c_uint32),
        ("has_spt_bit", c_bool),
        ("has_tunnel", c_bool),
        ("immediate", Words),
        ("inherited", Words),
        ("shared_tree", Words),
    ]


class CPlaneRow(Structure):
    _fields_ = [("is_known", c_bool), ("incoming", c_uint32), ("outgoing", Words), ("alive", Words), ("to_core", Words)]


# A packet that came, struct viq_received: its interface, its bytes and their number, and its draw.
RECEIVED = struct.Struct("@IPNI0P")


class GivenCall(Structure):
    """A call that is recorded (`viqeshor.recording`)."""
    _fields_ = [
        ("moment", c_uint64),
        *numbers("letter", "draw", "iface", "source", "group", "value", "answer", "sum"),
    ]


class CName(Structure):
    _fields_ = numbers("source", "group")


class CSourceActive(Structure):
    _fields_ = [*numbers("peer", "rp", "source", "group"), ("packet", c_char_p), ("length", c_size_t)]


class RefusedAt(Structure):
    _fields_ = [("index", c_size_t), ("reason", c_uint32)]


# ---- what the router answers

KINDS = {1: "frame", 2: "copy", 3: "unicast"}


class Candidate(NamedTuple):
    """An RP of a range of groups, which may have several: its priority, at most 255, of which the lower is preferred,
    and the bits of the hash function's mask, at most 32, of which 30 are usual."""
    groups: str
    rp: str
    priority: int
    hash_length: int = 30


class RpSet(NamedTuple):
    """A set of routers that share an address, the RP of their groups, as one of them knows it (RFC 4610): the shared
    address and the router's own by which the others know it, and the own addresses of at most 16 others."""
    shared: str
    own: str
    others: tuple[str, ...]


class Sent(NamedTuple):
    """A packet that is to be sent: a `frame` on an interface, a `copy` of data on one, or a `unicast` to an address."""
    kind: str
    where: int | str
    packet: bytes


class OlderRow(NamedTuple):
    """A group in an older mode on an interface: a host of IGMPv1 or IGMPv2 reported it. The mode is the version, 1 or
    2; behind it stand the times in ms at which the IGMPv1 and the IGMPv2 Host Present timer expire, or None."""
    iface: int
    group: str
    mode: int
    one_end: int | None
    two_end: int | None


class Forwarding(NamedTuple):
    """How data of a source to a group is forwarded: RPF_interface(S), RPF_interface(RP(G)), SPTbit(S,G), whether the
    register tunnel is in the first two lists, and immediate_olist(S,G), inherited_olist(S,G) and
    inherited_olist(S,G,rpt)."""
    rpf: int | None
    shared_rpf: int | None
    has_spt_bit: bool
    has_tunnel: bool
    immediate: frozenset[int]
    inherited: frozenset[int]
    shared_tree: frozenset[int]


class PlaneRow(NamedTuple):
    """What a data plane may do with the packets of a source to a group: whether the source has a fact, the interface on
    which packets are accepted, where copies of these leave, where a packet shows the source alive, and where it is the
    router's."""
    is_known: bool
    incoming: int | None
    outgoing: frozenset[int]
    alive: frozenset[int]
    to_core: frozenset[int]


def there(number: int, none: int) -> int | None:
    return None if number == none else number


# ---- the library


def found() -> str:
    """The library that is meant where none is named. One that is neither named nor in the package's folder is for the
    system's loader to look for."""
    beside = Path(__file__).with_name(SHARED)
    return os.environ.get("VIQESHOR_LIBRARY") or (str(beside) if beside.exists() else SHARED)


LIST: list[Any] = [c_void_p, c_size_t]
SOURCE: list[Any] = [c_uint32, c_uint32]
# What each call takes behind the router, and what it answers.
CALLS: dict[str, tuple[list[Any], Any]] = {
    "end": ([], None),
    "reload": ([POINTER(Settings), *LIST, *LIST, *LIST, Draw], c_uint32),
    "reload_places": ([POINTER(Settings), *LIST, *LIST, *LIST, *LIST, Draw], c_uint32),
    "save": ([POINTER(c_uint8), c_size_t, POINTER(c_size_t)], c_uint32),
    "advance": ([c_uint64, Draw], c_uint32),
    "frame": ([c_uint32, c_char_p, c_size_t, Draw], c_uint32),
    "frames": ([c_void_p, c_size_t, c_void_p], c_size_t),
    "unicast": ([c_char_p, c_size_t, Draw], c_uint32),
    "up": ([c_uint32, Draw], c_uint32),
    "down": ([c_uint32, Draw], c_uint32),
    "routes": ([*LIST, Draw], c_uint32),
    "ranges": ([*LIST, Draw], c_uint32),
    "candidates": ([*LIST, Draw], c_uint32),
    "take": ([POINTER(CPacket), POINTER(c_uint8), c_size_t], c_bool),
    "clear": ([], None),
    "copies": ([], c_uint32),
    "next_moment": ([], c_uint64),
    "read": ([c_uint8], c_uint32),
    "rows": ([], c_size_t),
    "row": ([c_size_t, POINTER(CRow)], c_bool),
    "older": ([c_uint32, c_uint32], c_uint32),
    "query_version": ([c_uint32, c_uint32], c_uint32),
    "guard": ([c_uint32], c_uint32),
    "anycast": (LIST, c_uint32),
    "older_read": ([], c_uint32),
    "older_rows": ([], c_size_t),
    "older_row": ([c_size_t, POINTER(COlderRow)], c_bool),
    "cached": ([*SOURCE, POINTER(CForwarding)], c_bool),
    "tree": ([c_uint32, POINTER(trees.CTree)], c_bool),
    "source_tree": ([*SOURCE, POINTER(trees.CSourceTree)], c_bool),
    "link": ([c_uint32, POINTER(trees.CLink)], c_bool),
    "neighbour": ([c_uint32, c_uint32, POINTER(trees.CNeighbour)], c_bool),
    "offload": ([*SOURCE, POINTER(CPlaneRow)], c_bool),
    "changed": ([], c_size_t),
    "changed_source": ([c_size_t, POINTER(CName)], c_bool),
    "may_differ": (SOURCE, c_bool),
    "seen": ([c_uint32, *SOURCE, Draw], c_uint32),
    "keep": ([*SOURCE, c_uint64], c_uint32),
    "source_active": ([POINTER(CSourceActive), Draw], c_uint32),
    "source_active_packet": ([POINTER(CSourceActive), POINTER(c_uint8), c_size_t, POINTER(c_size_t)], c_uint32),
    "registered": ([c_char_p, c_size_t, POINTER(CName)], c_bool),
    "own_source": (SOURCE, c_bool),
    "sum": ([], c_uint32),
    "probes": ([], c_uint64),
    "touched": ([], c_uint64),
}
# What each call that writes a record takes between the recorded call and the room for its bytes.
RECORDS: dict[str, list[Any]] = {
    "record": [c_char_p, c_size_t],
    "record_routes": LIST,
    "record_ranges": LIST,
    "record_candidates": LIST,
    "record_anycast": LIST,
    "record_reload": [POINTER(Settings), *LIST, *LIST, *LIST],
    "record_reload_places": [POINTER(Settings), *LIST, *LIST, *LIST, *LIST],
}


def declare(library: ctypes.CDLL, begins: str, calls: dict[str, tuple[list[Any], Any]]) -> None:
    """Tells the library what calls take behind what they are of, and what they answer."""
    for name, (takes, answers) in calls.items():
        call = getattr(library, begins + name)
        call.argtypes, call.restype = [c_void_p, *takes], answers


def declare_making(library: ctypes.CDLL, name: str, takes: list[Any]) -> None:
    """Tells it what a call takes that makes something, behind where that is to lie and the library's number."""
    call = getattr(library, name)
    call.argtypes, call.restype = [POINTER(c_void_p), c_uint32, *takes], c_uint32


@cache
def load(path: str) -> ctypes.CDLL:
    """The library, with what its calls take and answer. Others of the program's threads go on while it works."""
    library = ctypes.CDLL(path)
    check_version(library, path)
    declare(library, "viq_", CALLS)
    for name, takes in RECORDS.items():
        call = getattr(library, f"viq_{name}")
        call.argtypes = [POINTER(GivenCall), *takes, c_char_p, c_size_t, POINTER(c_size_t)]
        call.restype = c_uint32
    declare_making(library, "viq_new", [POINTER(Settings), *LIST, *LIST, *LIST])
    declare_making(library, "viq_restore", [c_char_p, c_size_t])
    library.viq_routes_refused_at.argtypes = [*LIST, *LIST, *LIST, POINTER(RefusedAt)]
    library.viq_ranges_refused_at.argtypes = [*LIST, POINTER(RefusedAt)]
    for name in ("routes_refused_at", "ranges_refused_at"):
        getattr(library, f"viq_{name}").restype = c_bool
    for name in ("answer_text", "refused_text"):
        call = getattr(library, f"viq_{name}")
        call.argtypes, call.restype = [c_uint32], c_char_p
    return library


def check_version(library: ctypes.CDLL, path: str) -> None:
    """Asks the library what it is, before any other of its calls is looked for: an older one may lack those."""
    try:
        library.viq_abi.restype, library.viq_version.restype = c_uint32, c_char_p
    except AttributeError:
        raise OtherVersion(Answer.OTHER_ABI, f"{path} doesn't say which version of the library it is") from None
    if (abi := library.viq_abi()) != ABI:
        said = f"{path} is {library.viq_version().decode()}, of ABI {abi}, and this package is for ABI {ABI}"
        raise OtherVersion(Answer.OTHER_ABI, said)


def version(library: str | os.PathLike[str] | None = None) -> str:
    """The library's version, and how it was built: `proved` or `not proved`."""
    return load(os.fspath(library or found())).viq_version().decode()


def answer_text(answer: int, library: str | os.PathLike[str] | None = None) -> str:
    """What an answer says, in a few words."""
    return load(os.fspath(library or found())).viq_answer_text(number(answer, 32, "an answer")).decode()


# ---- what is given


def number(value: SupportsIndex, bits: int, what: str) -> int:
    """A number that C takes whole; a ValueError where it doesn't."""
    whole = operator.index(value)
    if not 0 <= whole < 1 << bits:
        raise ValueError(f"{what} isn't from 0 to 2**{bits} - 1: {whole}")
    return whole


def numbers_of(values: Iterable[SupportsIndex], what: str) -> list[int]:
    """Many numbers of 32 bits, each as `number` has it."""
    whole = list(map(operator.index, values))
    for extreme in (min(whole, default=0), max(whole, default=0)):
        number(extreme, 32, what)
    return whole


def draws_of(draws: Iterable[int] | None, count: int) -> Sequence[int]:
    """So many draws: random ones where none are given."""
    if draws is None:
        return struct.unpack(f"={count}I", random.randbytes(4 * count))
    given = numbers_of(draws, "a draw")
    if len(given) != count:
        raise ValueError(f"{len(given)} draws of {count} packets")
    return given


def all_numbers(kind: Any, values: Iterable[SupportsIndex]) -> Any:
    """A value of C of these numbers, one for each field."""
    names, given = [name for name, *_ in kind._fields_], list(values)
    if len(given) != len(names):
        raise ValueError(f"{len(given)} values in place of {len(names)}: {', '.join(names)}")
    return kind(*(number(value, 32, name) for name, value in zip(names, given)))


@lru_cache(maxsize=65536)
def address(text: str) -> int:
    return int(IPv4Address(text))


@lru_cache(maxsize=65536)
def prefix(text: str) -> tuple[int, int]:
    """Its address and length; host bits are left as they are, for the router to refuse."""
    net, _, length = str(text).partition("/")
    if not length.isdecimal():
        raise ValueError(f"no address and length, as in 10.0.0.0/24: {text}")
    return address(net), int(length)


def array(kind: Any, items: list[Any]) -> tuple[Any, int]:
    """An array and its length, as two arguments."""
    return (kind * len(items))(*items) if items else None, len(items)


def interface_of(row: Interface) -> CInterface:
    first, *rest = row if isinstance(row, tuple | list) else [row]
    own, length, *more = [*prefix(first), *rest] if "/" in str(first) else [address(first), *rest]
    return all_numbers(CInterface, [own, length, *(more or (1, 500, 2500))])


def routes_of(routes: Iterable[tuple[Any, ...]]) -> tuple[Any, int]:
    return array(CRoute, [all_numbers(CRoute, [*prefix(net), address(hop), *rest]) for net, hop, *rest in routes])


def ranges_of(ranges: Iterable[tuple[str, str]]) -> tuple[Any, int]:
    return array(CRange, [all_numbers(CRange, [*prefix(net), address(rp)]) for net, rp in ranges])


def candidates_of(candidates: Iterable[tuple[Any, ...]]) -> tuple[Any, int]:
    given = (Candidate(*each) for each in candidates)
    return array(CCandidate, [all_numbers(CCandidate, [*prefix(net), address(rp), *rest]) for net, rp, *rest in given])


def rp_set_of(shared: str, own: str, others: Iterable[str]) -> CRpSet:
    return CRpSet(address(shared), address(own), *array(c_uint32, [address(text) for text in others]))


def rp_sets_of(sets: Iterable[tuple[str, str, Iterable[str]]]) -> tuple[Any, int]:
    return array(CRpSet, [rp_set_of(*each) for each in sets])


def configuration(
    interfaces: Iterable[Interface],
    ranges: Iterable[tuple[str, str]] = (),
    routes: Iterable[tuple[Any, ...]] = (),
    *,
    limit: int = 65536,
    robustness: int = 2,
    query_interval: int = 125,
    query_response_interval: int = 100,
    last_member_query_interval: int = 10,
    stays_on_shared_tree: bool = False,
    addresses: Iterable[str] = (),
) -> tuple[Any, ...]:
    """A configuration as C takes it: the settings, and then three lists, each with its length. `addresses` are the
    router's own that are of no interface."""
    times = (query_interval, query_response_interval, last_member_query_interval)
    whole = [number(value, 32, name) for value, (name, _) in zip((limit, robustness, *times), Settings._fields_)]
    given = array(CInterface, [interface_of(row) for row in interfaces])
    own = array(c_uint32, [address(text) for text in addresses])
    return Settings(*whole, bool(stays_on_shared_tree), *own), *given, *routes_of(routes), *ranges_of(ranges)


def place_of(place: int | None) -> int:
    """A place as C takes it."""
    return NO_PLACE if place is None else min(number(place, 32, "a place"), NO_PLACE - 1)


def bytes_of(packet: Buffer) -> bytes:
    return packet if isinstance(packet, bytes) else memoryview(packet).tobytes()


def place_in(data: bytes) -> int:
    """Where the bytes lie, as long as they are there."""
    return ctypes.cast(c_char_p(data), c_void_p).value or 0


def draw_of(draw: int | None) -> int:
    return random.getrandbits(32) if draw is None else number(draw, 32, "a draw")


class Held:
    """What the library makes and frees: a router, or what stands beside one."""
    # How the names of its calls begin, what has them declared, and what is raised once it is ended.
    _begins = "viq_"
    _load = staticmethod(load)
    _ended = Answer.NO_ROUTER

    def _begin(self, library: str | os.PathLike[str] | None) -> None:
        self.lock = threading.RLock()
        self._library = self._load(os.fspath(library or found()))

    def _make(self, name: str, *values: Any, given: Sequence[Any] = ()) -> None:
        made = c_void_p()
        self._must(getattr(self._library, self._begins + name)(byref(made), ABI, *values), given)
        self._at: c_void_p | None = made
        self._finalizer = weakref.finalize(self, getattr(self._library, f"{self._begins}end"), made)

    def __enter__(self) -> Self:
        return self

    def __exit__(self, *_: object) -> None:
        self.end()

    def _raise(self, answer: Answer, given: Sequence[Any] = ()) -> None:
        text = self._library.viq_answer_text(answer).decode()
        raise RAISED.get(answer, Refused)(answer, text + self._item(answer, given))

    def _item(self, answer: Answer, given: Sequence[Any]) -> str:
        return ""

    def _must(self, answer: int, given: Sequence[Any] = ()) -> None:
        if answer:
            self._raise(Answer(answer), given)

    def _call(self, name: str, *values: Any) -> Any:
        with self.lock:
            if self._at is None:
                self._raise(self._ended)
            return getattr(self._library, self._begins + name)(self._at, *values)

    def _rows(self, count: str, name: str, told: Structure) -> Iterator[Any]:
        """So many rows, each of which a call writes in the place of the one before."""
        for index in range(self._call(count)):
            self._call(name, index, byref(told))
            yield told

    def _saved(self) -> bytes:
        size = c_size_t()
        with self.lock:
            self._must(self._call("save", None, 0, byref(size)))
            room = (c_uint8 * size.value)()
            self._must(self._call("save", room, size, byref(size)))
        return bytes(room)

    def _pass(self, moment: int, next_moment: Callable[[], int | None], advance: Callable[[int], Answer]) -> None:
        """Time passes up to a timestamp, timer by timer."""
        while True:
            ends_next = next_moment()
            now = moment if ends_next is None else min(moment, ends_next)
            self._must(advance(now))
            ends_next = next_moment()
            if now == moment and (ends_next is None or ends_next > moment):
                return

    def end(self) -> None:
        """Frees it and its memory. From then on each call but this one raises `Closed`."""
        with self.lock:
            self._at = None
            self._finalizer()


class Router(Held):
    """A router. Addresses are texts. An interface is `"10.0.0.1/24"` or `("10.0.0.1", 24)`, or has a priority and two
    delays besides, as `("10.0.0.1/24", 1, 500, 2500)`. A route is `("10.1.0.0/24", next hop, interface, preference,
    metric)`, a range `("239.0.0.0/8", RP)`. A call that takes an event returns its answer; its draw is random unless
    one is given.

    Threads may share a router: each call waits for the others. A thread that wants what its own event sent holds `lock`
    before it, and takes what is there: `with router.lock: before, answer, sent = router.packets(), router.frame(0,
    packet), router.packets()`. A router is freed by `end`, or with its last reference."""

    def __init__(
        self,
        interfaces: Iterable[Interface],
        ranges: Iterable[tuple[str, str]] = (),
        routes: Iterable[tuple[Any, ...]] = (),
        *,
        library: str | os.PathLike[str] | None = None,
        **settings: Any,
    ) -> None:
        """The settings, each by its name, are those of `configuration`, with their usual values."""
        self._begin(library)
        values = configuration(interfaces, ranges, routes, **settings)
        self._make("new", byref(values[0]), *values[1:], given=values)

    def reload(
        self,
        interfaces: Iterable[Interface],
        ranges: Iterable[tuple[str, str]] = (),
        routes: Iterable[tuple[Any, ...]] = (),
        *,
        places: Iterable[int | None] | None = None,
        draw: int | None = None,
        **settings: Any,
    ) -> None:
        """Puts the router under another configuration, which is given whole, as to a new router. Interfaces keep their
        numbers: those past the last one go down and are removed, those that are added are down. What leaves, a Hello
        where the address, the priority or the delays of an interface differ among others, is for `packets`. Rows
        that were read are dropped, and a data plane reads all its rows again. It is no event. Raises `Refused`, and
        changes nothing, where a new router would be refused.

        With `places` interfaces keep what they have at other numbers: of each interface of the router, in the order of
        its configuration, the number of the one that has its link, or None where it is left out, and goes down. One to
        which none goes is new. What leaves then has the numbers of before. Such a map is refused (`PLACES_DONT_FIT`)
        where it has more items or fewer, or a number twice or past the last interface."""
        bits, values = draw_of(draw), configuration(interfaces, ranges, routes, **settings)
        if places is None:
            self._must(self._recorded("reload", bits, values, Draw(bits)), values)
        else:
            placed = *values, *array(c_uint32, list(map(place_of, places)))
            self._must(self._recorded("reload_places", bits, placed, Draw(bits)), values)

    @classmethod
    def restore(cls, saved: Buffer, *, library: str | os.PathLike[str] | None = None) -> Self:
        """A router that goes on from the state that `save` returned: the same events and draws bring the same answers
        and packets, once `set_rp_sets`, `set_older_hosts` and `set_query_version` have set what they had. It has
        nothing to send, and its guard is on. Raises `Refused` where the bytes are no saved state of a router, whatever
        they are."""
        router, data = cls.__new__(cls), bytes_of(saved)
        router._begin(library)
        router._make("restore", data, len(data))
        return router

    def _make(self, name: str, *values: Any, given: Sequence[Any] = ()) -> None:
        super()._make(name, *values, given=given)
        self.has_guard = True
        self.rp_sets: list[RpSet] = []
        self._sent: list[Sent] = []
        self._room = (c_uint8 * MOST_BYTES)()
        self._took: Callable[[str, int, tuple[Any, ...], Answer], None] | None = None

    def _item(self, answer: Answer, given: Sequence[Any]) -> str:
        """Which route or range of a configuration is refused, and why, as more of a text."""
        told, library = RefusedAt(), self._library

        def is_route_found() -> bool:
            settings, *lists = given
            own = (settings.addresses, settings.address_count)
            return library.viq_routes_refused_at(*lists[:2], *own, *lists[2:4], byref(told))

        is_found = {
            Answer.CONFIGURED_ROUTES: is_route_found,
            Answer.CONFIGURED_RANGES: lambda: library.viq_ranges_refused_at(*given[5:], byref(told)),
        }.get(answer, lambda: False)
        return f": number {told.index}, {library.viq_refused_text(told.reason).decode()}" if is_found() else ""

    def _event(self, name: str, draw: int | None, *values: Any) -> Answer:
        bits = draw_of(draw)
        return self._recorded(name, bits, values, Draw(bits))

    def _recorded(self, name: str, draw: int, values: tuple[Any, ...], *more: Any) -> Answer:
        """What a call answers, which a recorder is told, if there is one (`viqeshor.recording`). What it sends is kept.
        """
        with self.lock:
            answer = Answer(self._call(name, *values, *more))
            if self._took is not None:
                self._took(name, draw, values, answer)
            if answer == Answer.DONE:
                self._take()
        if answer in RAISED:
            self._raise(answer)
        return answer

    def _take(self) -> None:
        """Keeps what the router has to send, which takes no other event before."""
        told, room = CPacket(), self._room
        while self._call("take", byref(told), room, MOST_BYTES):
            kind = KINDS[told.kind]
            where = dotted(told.destination) if kind == "unicast" else told.iface
            self._sent.append(Sent(kind, where, bytes(room[: told.length])))

    def save(self) -> bytes:
        """The state of the router as bytes, of which `restore` makes a router that goes on from it. What isn't in them:
        what the clock showed at timestamp 0, packets that `packets` didn't return, and what `set_guard`, `set_rp_sets`,
        `set_older_hosts` and `set_query_version` set."""
        return self._saved()

    # ---- events

    def advance(self, moment: int, draw: int | None = None) -> Answer:
        """Time passes up to the timestamp `moment`, in ms."""
        return self._event("advance", draw, number(moment, 64, "a moment"))

    def run_to(self, moment: int) -> list[Sent]:
        """Time passes up to the timestamp `moment`, timer by timer, each with a draw of its own. Returns what is to be
        sent, in its order, as `packets` does. Raises `Refused` where `moment` is before the present."""
        with self.lock:
            self._pass(moment, self.next_moment, self.advance)
            return self.packets()

    def frame(self, iface: int, packet: Buffer, draw: int | None = None) -> Answer:
        """A packet came on an interface, to a group."""
        data = bytes_of(packet)
        return self._event("frame", draw, number(iface, 32, "an interface"), data, len(data))

    def frames(self, received: Iterable[tuple[int, Buffer]], draws: Iterable[int] | None = None) -> list[Answer]:
        """Packets came on interfaces, to groups, one after the other: each an interface and a packet, which is an event
        as by `frame`, in its turn. Returns an answer for each. A call of the library takes all up to one behind which
        something is to be sent or a row has changed. What is told of the last event is of the last packet alone, so a
        data plane gives packets by `frame`. Draws are random, or one is given for each packet."""
        ifaces, packets = tuple(zip(*received)) or ((), ())
        numbers, data = numbers_of(ifaces, "an interface"), list(map(bytes_of, packets))
        bits = draws_of(draws, len(data))
        with self.lock:
            if self._took is not None:  # Each is recorded with what it sent.
                return list(map(self.frame, numbers, data, bits))
            answers = self._give(numbers, data, bits)
        meanings = {answer: Answer(answer) for answer in set(answers)}
        return list(map(meanings.__getitem__, answers))

    def _give(self, ifaces: Sequence[int], data: Sequence[bytes], draws: Sequence[int]) -> list[int]:
        """Gives the packets to the library, and keeps what is to be sent."""
        whole, lengths, answers = b"".join(data), list(map(len, data)), (c_uint32 * len(data))()
        places = accumulate(lengths, initial=place_in(whole))
        frames = b"".join(map(RECEIVED.pack, ifaces, places, lengths, draws))
        given = 0
        while given < len(data):
            at, left = place_in(frames) + given * RECEIVED.size, len(data) - given
            given += self._call("frames", at, left, byref(answers, given * ctypes.sizeof(c_uint32)))
            self._take()
            if (last := Answer(answers[given - 1])) in RAISED:
                self._raise(last)
        return list(answers)

    def unicast(self, packet: Buffer, draw: int | None = None) -> Answer:
        """A PIM packet came for an address of the router."""
        data = bytes_of(packet)
        return self._event("unicast", draw, data, len(data))

    def up(self, iface: int, draw: int | None = None) -> Answer:
        return self._event("up", draw, number(iface, 32, "an interface"))

    def down(self, iface: int, draw: int | None = None) -> Answer:
        return self._event("down", draw, number(iface, 32, "an interface"))

    def set_routes(self, routes: Iterable[tuple[Any, ...]], draw: int | None = None) -> Answer:
        return self._event("routes", draw, *routes_of(routes))

    def set_ranges(self, ranges: Iterable[tuple[str, str]], draw: int | None = None) -> Answer:
        return self._event("ranges", draw, *ranges_of(ranges))

    def set_candidates(self, candidates: Iterable[tuple[Any, ...]], draw: int | None = None) -> Answer:
        """All candidate RPs are replaced, each as a `Candidate` has it, at most 256; a new router has none. The ranges
        stay, as the candidates do with `set_ranges` and `reload`. Of a group the candidate is chosen that has the
        longest prefix, of these the lowest number as its priority, then the greatest value of the hash function (RFC
        7761, 4.7.2), then the highest address. Where a range contains the group too, the longer prefix of the two
        decides, and of one prefix the range has the RP; `tree` tells the RP of a group."""
        return self._event("candidates", draw, *candidates_of(candidates))

    # ---- what is read

    def packets(self) -> list[Sent]:
        """What all events sent since this was called last, in the order in which it is to leave. None is returned
        twice."""
        with self.lock:
            if self._at is None:
                self._raise(self._ended)
            sent, self._sent = self._sent, []
        return sent

    def next_moment(self) -> int | None:
        """The timestamp at which the next timer expires, in ms."""
        return there(self._call("next_moment"), NEVER)

    @overload
    def rows(self, letter: Literal["N"]) -> list[NeighbourRow]: ...

    @overload
    def rows(self, letter: Literal["G"]) -> list[GroupRow]: ...

    @overload
    def rows(self, letter: Literal["S"]) -> list[SourceRow]: ...

    @overload
    def rows(self, letter: Literal["D"]) -> list[DownstreamRow]: ...

    @overload
    def rows(self, letter: Literal["A"]) -> list[AssertRow]: ...

    @overload
    def rows(self, letter: Literal["U"]) -> list[UpstreamRow]: ...

    @overload
    def rows(self, letter: Literal["R"]) -> list[RptRow]: ...

    @overload
    def rows(self, letter: Literal["F"]) -> list[ActiveRow]: ...

    @overload
    def rows(self, letter: str) -> list[Row]: ...

    def rows(self, letter: str) -> list[Any]:
        """The rows of a table, ascending by their keys: `NeighbourRow` of N, `GroupRow` of G, `SourceRow` of S,
        `DownstreamRow` of D, `AssertRow` of A, `UpstreamRow` of U, `RptRow` of R, `ActiveRow` of F."""
        with self.lock:
            self._must(self._call("read", number(ord(letter), 8, "a letter")))
            return [row_of(bytes(told)) for told in self._rows("rows", "row", CRow())]

    def tables(self) -> Iterator[str]:
        """All tables as they are printed."""
        return (str(row) for letter in TABLES for row in self.rows(letter))

    def cached(self, source: str, group: str) -> Forwarding | None:
        """How data of a source to a group is forwarded; None where there is no fact of the source."""
        told = CForwarding()
        if not self._call("cached", address(source), address(group), byref(told)):
            return None
        ways = (there(way, NO_INTERFACE) for way in (told.rpf, told.shared_rpf))
        lists = (each.interfaces() for each in (told.immediate, told.inherited, told.shared_tree))
        return Forwarding(*ways, told.has_spt_bit, told.has_tunnel, *lists)

    # ---- trees and links: each macro of RFC 7761, evaluated anew; all are None for a lost router

    def tree(self, group: str) -> Tree | None:
        """The macros of (*,G) of any group."""
        told = trees.CTree()
        return trees.tree_of(told) if self._call("tree", address(group), byref(told)) else None

    def source_tree(self, source: str, group: str) -> SourceTree | None:
        """The macros of (S,G) and of (S,G,rpt) of any source of any group, whether it has a fact or not."""
        told = trees.CSourceTree()
        is_there = self._call("source_tree", address(source), address(group), byref(told))
        return trees.source_tree_of(told) if is_there else None

    def link(self, iface: int) -> Link | None:
        """An interface with its DR and its querier; None also where it isn't configured."""
        told = trees.CLink()
        is_there = self._call("link", number(iface, 32, "an interface"), byref(told))
        return trees.link_of(told) if is_there else None

    def neighbour(self, iface: int, at: str) -> Neighbour | None:
        """A neighbour with the options of its last Hello; None also where there is none of this address. The table N
        lists them."""
        told = trees.CNeighbour()
        is_there = self._call("neighbour", number(iface, 32, "an interface"), address(at), byref(told))
        return trees.neighbour_of(told) if is_there else None

    def set_guard(self, is_on: bool) -> None:
        """Sets whether the guard is on, as it is in a new router. It stops by GUARDED what would be forwarded as data
        though hosts and routers read it as IGMP or PIM: a Register whose packet inside is of these, or is for
        224.0.0.0/24, and on a link PIM to a group outside 224.0.0.0/24. It is no event."""
        with self.lock:
            self._must(self._recorded("guard", 0, (int(is_on),)))
            self.has_guard = is_on

    def set_rp_sets(self, sets: Iterable[tuple[str, str, Iterable[str]]]) -> None:
        """Sets the sets of RPs that share an address, each as an `RpSet` has it, in place of those before: none in a
        new router, and in a restored one. A Register to a set's shared address is then sent on to the others, and
        sources on the router's own links are announced to them: at once, and at each timestamp that is a multiple of
        60,000 ms. It is no event. Raises `Refused`, and leaves those before, where the router can't have them
        (`BAD_RP_SET`). `reload` keeps the sets, and refuses a configuration so to whose addresses they don't fit."""
        told = [RpSet(shared, own, tuple(others)) for shared, own, others in sets]
        with self.lock:
            self._must(self._recorded("anycast", 0, rp_sets_of(told)))
            self.rp_sets = told

    # ---- sources of other RPs (MSDP, RFC 3618)

    def source_active_packet(self, peer: str, rp: str, source: str, group: str, packet: Buffer = b"") -> bytes | None:
        """The packet in which the router is to be given a Source-Active message (SA) of a peer, by `unicast`, as if a
        DR had sent it: of a source to a group of which `rp`, an address of the router, is the RP, with the packet that
        it encapsulates, if it has one. None of a source on a link of the router's, where it hears the source itself.
        Of what the router sends then a Register-Stop to the peer isn't to be sent: the peer registers nothing."""
        data, size, room = bytes_of(packet), c_size_t(), (c_uint8 * MOST_BYTES)()
        addresses = (address(at) for at in (peer, rp, source, group))
        told = CSourceActive(*addresses, data, len(data))
        with self.lock:
            self._must(self._call("source_active_packet", byref(told), room, MOST_BYTES, byref(size)))
        return bytes(room[: size.value]) if size.value else None

    def source_active(self, peer: str, rp: str, source: str, group: str, packet: Buffer = b"",
                      draw: int | None = None) -> Answer:
        """An SA as an event: `unicast` of `source_active_packet`; NOT_FOR_ME, where nothing has changed, where that is
        None."""
        given = self.source_active_packet(peer, rp, source, group, packet)
        return Answer.NOT_FOR_ME if given is None else self.unicast(given, draw)

    def registered(self, packet: Buffer) -> tuple[str, str] | None:
        """The source that a packet of `unicast` registers, with its group, if it is a DR's Register to the RP of that,
        an address of the router. An RP tells its peers of the source for as long as Registers come, at least one every
        90 s."""
        data, told = bytes_of(packet), CName()
        is_there = self._call("registered", data, len(data), byref(told))
        return (dotted(told.source), dotted(told.group)) if is_there else None

    def is_own_source(self, source: str, group: str) -> bool:
        """Whether a source is on a link of which the router is the DR, sends, and has the router as the RP of its
        group: an RP tells its peers of it. The table F lists the sources with a fact."""
        return bool(self._call("own_source", address(source), address(group)))

    # ---- older versions of IGMP

    def set_older_hosts(self, iface: int, hosts: str) -> None:
        """Sets which hosts of older versions an interface hears from then on, a key of `OLDER_HOSTS`, and forgets what
        it heard before; where it heard none it keeps what was restored of those that it is to hear. A new router hears
        none of them, and refuses their messages by OLD_VERSION. It is no event."""
        if hosts not in OLDER_HOSTS:
            raise ValueError(f"none of {', '.join(OLDER_HOSTS)}: {hosts}")
        self._must(self._recorded("older", 0, (number(iface, 32, "an interface"), OLDER_HOSTS[hosts])))

    def set_query_version(self, iface: int, version: int) -> None:
        """Sets the version in which an interface queries, 2 or 3. It is no event. All routers of a link have to query
        in one version."""
        values = number(iface, 32, "an interface"), number(version, 32, "a version")
        self._must(self._recorded("query_version", 0, values))

    def older_rows(self) -> list[OlderRow]:
        """The groups that are in an older mode, ascending by interface and then by group."""
        with self.lock:
            self._must(self._call("older_read"))
            return [
                OlderRow(row.iface, dotted(row.group), row.mode, there(row.one_end, NEVER), there(row.two_end, NEVER))
                for row in self._rows("older_rows", "older_row", COlderRow())
            ]

    # ---- a data plane; include/viqeshor/plane.h says what one owes

    def offload(self, source: str, group: str) -> PlaneRow | None:
        """What a data plane may do with the packets of a source to a group; None where all are the router's."""
        told = CPlaneRow()
        if not self._call("offload", address(source), address(group), byref(told)):
            return None
        sets = (each.interfaces() for each in (told.outgoing, told.alive, told.to_core))
        return PlaneRow(told.is_known, there(told.incoming, NO_INTERFACE), *sets)

    def changed(self) -> list[tuple[str, str]]:
        """The sources whose rows may have changed at the last event, each with its group. Each is listed once,
        ascending by group and then by source."""
        with self.lock:
            return [(dotted(told.source), dotted(told.group))
                    for told in self._rows("changed", "changed_source", CName())]

    def may_differ(self, source: str, group: str) -> bool:
        """Whether what `offload` returns for a source, with a fact or without one, may have changed at the last
        event."""
        return self._call("may_differ", address(source), address(group))

    def seen(self, iface: int, source: str, group: str, draw: int | None = None) -> Answer:
        """An event: a data plane saw a packet of a source to a group on an interface. No copy and no Register of the
        packet leaves."""
        return self._event("seen", draw, number(iface, 32, "an interface"), address(source), address(group))

    def keep(self, source: str, group: str, moment: int) -> Answer:
        """A data plane forwarded a packet of a source to a group at the timestamp `moment`. Where the source's
        keepalive timer runs, its expiry moves to 210 s after that, unless it is later already. The answer is NO_TIMER
        where no such timer runs: only `seen` starts one."""
        return self._recorded("keep", 0, (address(source), address(group), number(moment, 64, "a moment")))

    # ---- costs

    def probes(self) -> int:
        """The trie nodes that the last event visited."""
        return self._call("probes")

    def touched(self) -> int:
        """The rows of the forwarding cache that the last event evaluated, put in and took out."""
        return self._call("touched")
