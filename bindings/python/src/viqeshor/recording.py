"""Recordings: a saved state of a router, what the router took from then on, and a sum of what it answered and sent.

    from viqeshor.recording import Recorder

    with Recorder(router, "/var/log/router"):
        ...                                 # the router is used as before

A router that is restored of the state and takes the same does the same, so a recording plays what happened once more
(`tools/recorded`). It is kept in two files, of which each begins with a state: where one is full, the other one is
written anew. `docs/LIBRARY.md` has what is in a file ("A recording").
"""
import os
import struct
import zlib
from contextlib import suppress
from ctypes import CDLL, Structure, byref, c_size_t, c_uint32, create_string_buffer
from io import FileIO
from itertools import accumulate, islice
from operator import mul
from pathlib import Path
from typing import Any, BinaryIO, NamedTuple, Self

from . import (
    NO_PLACE, Answer, Draw, Error, GivenCall, Router, RpSet, Settings, CCandidate, CInterface, CRange, CRoute, address,
    array, dotted, rp_sets_of,
)

MAGIC, VERSION = b"VQRC", 7
# Of each kind of record: its letter, and the numbers that it has behind its draw. Bytes and lists follow these.
KINDS: dict[str, tuple[str, tuple[str, ...]]] = {
    "advance": ("a", ("moment",)),
    "frame": ("f", ("iface",)),
    "unicast": ("u", ()),
    "up": ("+", ("iface",)),
    "down": ("-", ("iface",)),
    "routes": ("r", ()),
    "ranges": ("g", ()),
    "candidates": ("h", ()),
    "reload": ("c", ()),
    "reload_places": ("m", ()),
    "seen": ("s", ("iface", "source", "group")),
    "keep": ("k", ("source", "group", "moment")),
    "older": ("o", ("iface", "value")),
    "query_version": ("q", ("iface", "value")),
    "guard": ("d", ("value",)),
    "anycast": ("y", ()),
}
NAMES = {letter: name for name, (letter, _) in KINDS.items()}
# These are no events: they have no draw, and send nothing.
QUIET = ("keep", "older", "query_version", "guard", "anycast")
LISTS: dict[str, Any] = {"routes": CRoute, "ranges": CRange, "candidates": CCandidate}
# These are given a configuration, the second one where the interfaces go too.
RELOADS = ("reload", "reload_places")
# Each of these has a call of its own that writes its record.
WITH_LISTS = (*LISTS, *RELOADS, "anycast")
# The versions from which on these are recorded.
SINCE = {"reload_places": 5, "anycast": 6, "candidates": 7}


class CAddress(Structure):
    _fields_ = [("bits", c_uint32)]


class CPlace(Structure):
    _fields_ = [("number", c_uint32)]


# The settings of a reload in their order, and what follows them: so many of each as its numbers say.
SETTINGS = [name for name, *_ in Settings._fields_ if name not in ("addresses", "address_count")]
PARTS: tuple[Any, ...] = (CInterface, CAddress, CRoute, CRange)
PLACED_PARTS: tuple[Any, ...] = (*PARTS, CPlace)
# Before version 4 there were no addresses of no interface.
OLDER_PARTS: tuple[Any, ...] = (CInterface, CRoute, CRange)
KIND_BYTES = {"frame": b"f", "copy": b"c", "unicast": b"u"}


class Unreadable(ValueError):
    """The file is no recording, or a record of it is none."""


class Record(NamedTuple):
    """What a router took: the name of its call, the draw, the numbers, and the packet or the lists as bytes; then the
    number that it answered, and the sum of what it sent. A reload, which is no event, has the lengths of its lists as
    numbers, and the settings before them. Sets of RPs have as numbers how many others each has, and the addresses of
    all."""
    name: str
    draw: int
    numbers: tuple[int, ...]
    data: bytes
    answer: int
    total: int


class Recording(NamedTuple):
    """The state and the older groups at its beginning, and what came then; the version of its format, and how many
    bytes at its end are no whole record."""
    state: bytes
    older_groups: int
    records: list[Record]
    version: int = VERSION
    rest: int = 0


def sum_of(router: Router, version: int = VERSION) -> int:
    """The CRC-32 of what is to be sent."""
    return router._call("sum") if version > 1 else sum_of_version_1(router)


def sum_of_version_1(router: Router) -> int:
    """The same in version 1: of each packet a letter, where it goes as a text, its length and its bytes. It takes
    them."""
    total = 0
    router._take()
    for kind, where, packet in router.packets():
        place = str(where).encode()
        total = zlib.crc32(KIND_BYTES[kind] + struct.pack(">BI", len(place), len(packet)) + place + packet, total)
    return total


# ---- written


def summed(data: bytes) -> bytes:
    """Bytes, and their CRC-32 behind them."""
    return data + struct.pack(">I", zlib.crc32(data))


def head_of(older_groups: int, state: bytes) -> bytes:
    """What a recording begins with, before its state."""
    return summed(MAGIC + struct.pack(">HIQ", VERSION, older_groups, len(state)))


def record_of(library: CDLL, name: str, draw: int, values: tuple[Any, ...], answer: int, total: int) -> bytes:
    """The record of a call with these values, as the library writes it."""
    letter, numbers = KINDS[name]
    fields = {} if name in WITH_LISTS else dict(zip(numbers, values))
    call = GivenCall(letter=ord(letter), draw=draw, answer=answer, sum=total, **fields)
    if name in WITH_LISTS:
        return written(getattr(library, f"viq_record_{name}"), call, values)
    return written(library.viq_record, call, values[len(numbers):] or (None, 0))


def written(write: Any, call: GivenCall, given: tuple[Any, ...]) -> bytes:
    """The bytes of a record, of which the library is first asked how many there are."""
    size = c_size_t()
    for count in (0, None):
        room = create_string_buffer(size.value if count is None else count)
        answer = write(byref(call), *given, room, len(room), byref(size))
        if answer:
            raise Error(Answer(answer), "there is no memory for a record")
    return room.raw


def bytes_of(library: CDLL, record: Record) -> bytes:
    return record_of(library, record.name, record.draw, values_of(record), record.answer, record.total)


class Recorder:
    """Records what a router takes, from now on until `end`, into two files in turn: PATH.0 and PATH.1. Where one has
    `most` bytes, the other one is written anew, with the state that the router has then.

    Once it has begun, it harms no call of the router: where it can't write it ends, and `error` is why. What was
    written until then is whole."""

    def __init__(self, router: Router, path: str | os.PathLike[str], most: int = 1 << 26) -> None:
        self.router, self.path, self.most = router, os.fspath(path), most
        self.error: Exception | None = None
        self._number, self._size = 1, 0
        self._file: FileIO | None = None
        self._settings: dict[tuple[str, int], int] = {}
        with router.lock:
            self._has_guard, self._rp_sets = router.has_guard, rp_sets_of(router.rp_sets)
            self._next_file()
            router._took = self.took

    def __enter__(self) -> Self:
        return self

    def __exit__(self, *_: object) -> None:
        self.end()

    def end(self) -> None:
        """Ends the recording; its files stay."""
        with self.router.lock:
            self.router._took = None
            file, self._file = self._file, None
            try:
                if file:
                    file.close()
            except OSError as error:
                self.error = self.error or error

    def _next_file(self) -> None:
        """Begins the other file, under another name until its state is whole. The one before stays open until then."""
        number = self._number ^ 1
        made, path = f"{self.path}.new", f"{self.path}.{number}"
        head = self._head()
        file = open(made, "wb", buffering=0)
        try:
            write_all(file, head)
            os.replace(made, path)
        except BaseException:
            with suppress(OSError):
                file.close()
            with suppress(OSError):
                os.unlink(made)
            raise
        before, self._file, self._number, self._size = self._file, file, number, len(head)
        if before:
            before.close()

    def _head(self) -> bytes:
        """What a file begins with: the state that the router has, the settings of older versions, the guard's, and the
        sets of RPs."""
        state, older = self.router.save(), len(self.router.older_rows())
        library, kept = self.router._library, self._settings.items()
        settings = [record_of(library, name, 0, (iface, value), 0, 0) for (name, iface), value in kept]
        if not self._has_guard:
            settings.append(record_of(library, "guard", 0, (0,), 0, 0))
        if self._rp_sets[1]:
            settings.append(record_of(library, "anycast", 0, self._rp_sets, 0, 0))
        return head_of(older, state) + state + b"".join(settings)

    def took(self, name: str, draw: int, values: tuple[Any, ...], answer: int) -> None:
        """Is called after each call that changes the router, and after each event."""
        try:
            self._keep(name, draw, values, answer)
        except Exception as error:  # The event has happened: whatever fails here is none of its caller's.
            self.error = error
            self._cut()
            self.end()

    def _keep(self, name: str, draw: int, values: tuple[Any, ...], answer: int) -> None:
        if name in ("older", "query_version") and answer == Answer.DONE:
            self._settings[name, values[0]] = values[1]
        if name == "guard" and answer == Answer.DONE:
            self._has_guard = values[0] == 1
        if name == "anycast" and answer == Answer.DONE:
            self._rp_sets = values
        if name == "reload" and answer == Answer.DONE:
            count = values[2]
            self._settings = {key: value for key, value in self._settings.items() if key[1] < count}
        if name == "reload_places" and answer == Answer.DONE:
            places = list(values[7])[:values[8]]
            there = {(kind, places[iface]): value for (kind, iface), value in self._settings.items()}
            self._settings = {key: value for key, value in there.items() if key[1] != NO_PLACE}
        total = sum_of(self.router) if answer == Answer.DONE and name not in QUIET else 0
        record = record_of(self.router._library, name, draw, values, answer, total)
        write_all(self._file, record)
        self._size += len(record)
        if answer in (Answer.LOST, Answer.FAILED):
            self.end()
        elif self._size >= self.most:
            self._next_file()

    def _cut(self) -> None:
        """Leaves no part of a record behind the last whole one."""
        with suppress(OSError):
            if self._file:
                self._file.truncate(self._size)


def write_all(file: Any, data: bytes) -> None:
    """Writes all of it, though a write may take a part."""
    left = memoryview(data)
    while left:
        count = file.write(left)
        if not count:
            raise OSError("nothing more is written")
        left = left[count:]


# ---- read


class _Reader:
    """Reads a file from its beginning; `sum` is the CRC-32 of what was read since it was set to 0."""
    version = VERSION

    def __init__(self, file: BinaryIO) -> None:
        self.file, self.size, self.sum = file, file.seek(0, os.SEEK_END), 0
        file.seek(0)

    def bytes(self, count: int) -> bytes:
        if count > self.size - self.file.tell():
            raise Unreadable("the recording is cut short")
        data = self.file.read(count)
        self.sum = zlib.crc32(data, self.sum)
        return data

    def numbers(self, form: str) -> tuple[int, ...]:
        return struct.unpack(f">{form}", self.bytes(struct.calcsize(f">{form}")))

    def check(self) -> None:
        """What was read is followed by its sum, from version 3 on."""
        wanted = self.sum
        if self.version > 2 and self.numbers("I") != (wanted,):
            raise Unreadable("the recording is damaged")

    def records(self) -> tuple[list[Record], int]:
        """The records, and how many bytes behind them are no whole record: the last one was cut off as it was written,
        or a byte isn't as it was written."""
        records = []
        while (begun := self.file.tell()) < self.size:
            try:
                records.append(self.record())
            except Unreadable:
                return records, self.size - begun
        return records, 0

    def record(self) -> Record:
        self.sum = 0
        letter = self.bytes(1)
        name = NAMES.get(letter.decode("latin1"))
        if name is None or self.version < SINCE.get(name, 0):
            raise Unreadable(f"no kind of record has the letter {letter!r}")
        draw, *rest = self.given(name) if self.version > 1 else self.given_version_1(name)
        record = Record(name, draw, *rest, *self.numbers("II"))
        self.check()
        return record

    def given(self, name: str) -> tuple[int, tuple[int, ...], bytes]:
        draw = 0 if name in QUIET else self.numbers("I")[0]
        numbers = self.numbers(form_of(name))
        if name in ("frame", "unicast"):
            return draw, numbers, self.bytes(*self.numbers("Q"))
        if name in LISTS:
            return draw, numbers, self.list(LISTS[name])[1]
        if name == "anycast":
            return draw, *self.rp_sets()
        if name in RELOADS:
            limit, stays, *times = self.numbers("IBIIII")
            if stays > 1:
                raise Unreadable(f"no setting of the shared tree is {stays}")
            counts, lists = zip(*map(self.list_before if self.version < 4 else self.list, kinds_of(name)))
            return draw, counts, struct.pack(">6I", limit, *times, stays) + b"".join(lists)
        return draw, numbers, b""

    def list(self, kind: Any) -> tuple[int, bytes]:
        """How many there are, and the fields of each."""
        count, = self.numbers("Q")
        return count, self.bytes(count * 4 * len(kind._fields_))

    def rp_sets(self) -> tuple[tuple[int, ...], bytes]:
        """Of each set how many others it has; and all addresses, of each set the shared one and the own one first."""
        sets = [(self.bytes(8), *self.list(CAddress)) for _ in range(*self.numbers("Q"))]
        return tuple(count for _, count, _ in sets), b"".join(first + others for first, _, others in sets)

    def list_before(self, kind: Any) -> tuple[int, bytes]:
        """The same before version 4, which has no addresses of no interface."""
        return self.list(kind) if kind in OLDER_PARTS else (0, b"")

    def given_version_1(self, name: str) -> tuple[int, tuple[int, ...], bytes]:
        draw, *numbers, length = self.numbers(f"I{'III' if name == 'reload' else form_of(name)}I")
        widths = [4 * len(kind._fields_) for kind in OLDER_PARTS]
        if name in LISTS and length % (4 * len(LISTS[name]._fields_)):
            raise Unreadable("a list isn't whole")
        if name == "reload":
            if length != 4 * len(SETTINGS) + sum(map(mul, numbers, widths)):
                raise Unreadable("a configuration isn't whole")
            numbers[1:1] = [0]
        return draw, tuple(numbers), self.bytes(length)


def kinds_of(name: str) -> tuple[Any, ...]:
    """What the lists of a reload have."""
    return PLACED_PARTS if name == "reload_places" else PARTS


def form_of(name: str) -> str:
    return "".join("Q" if number == "moment" else "I" for number in KINDS[name][1])


def read(path: str | os.PathLike[str]) -> Recording:
    """A recording's file; raises `Unreadable` where it is none. From the first record on that isn't whole all is left
    out, and counted."""
    with open(path, "rb") as file:
        return read_of(file)


def read_of(file: BinaryIO) -> Recording:
    reader = _Reader(file)
    if reader.bytes(4) != MAGIC:
        raise Unreadable("no recording")
    reader.version, older, length = reader.numbers("HIQ")
    if not 1 <= reader.version <= VERSION:
        raise Unreadable(f"a recording of version {reader.version}, where this library reads 1 to {VERSION}")
    reader.check()
    state = reader.bytes(length)
    records, rest = reader.records()
    return Recording(state, older, records, reader.version, rest)


def newest(path: str | os.PathLike[str]) -> list[Path]:
    """The files of a recorder, the older one first."""
    found = [Path(f"{os.fspath(path)}.{number}") for number in (0, 1)]
    return sorted((each for each in found if each.exists()), key=lambda each: each.stat().st_mtime_ns)


# ---- played


def list_of(kind: Any, data: bytes) -> tuple[Any, int]:
    """A list as C takes it."""
    width = 4 * len(kind._fields_)
    count, left = divmod(len(data), width)
    if left:
        raise Unreadable("a list isn't whole")
    rows = [kind(*row) for row in struct.iter_unpack(f">{len(kind._fields_)}I", data)]
    return (kind * count)(*rows) if rows else None, count


def parts_of(record: Record) -> tuple[bytes, ...]:
    """The settings of a reload, and its lists, as bytes."""
    kinds = kinds_of(record.name)
    widths = [4 * len(SETTINGS), *(count * 4 * len(kind._fields_) for count, kind in zip(record.numbers, kinds))]
    if len(record.data) != sum(widths):
        raise Unreadable("a configuration isn't whole")
    ends = list(accumulate(widths))
    return tuple(record.data[end - width:end] for width, end in zip(widths, ends))


def configuration_of(record: Record) -> tuple[Any, ...]:
    """The configuration of a reload as C takes it, without places."""
    first, interfaces, addresses, *lists = parts_of(record)[:1 + len(PARTS)]
    settings = struct.unpack(f">{len(SETTINGS)}I", first)
    own = struct.unpack(f">{len(addresses) // 4}I", addresses)
    given = (list_of(kind, data) for kind, data in zip(OLDER_PARTS, (interfaces, *lists)))
    return Settings(*settings, *array(c_uint32, list(own))), *(value for pair in given for value in pair)


def places_of(record: Record) -> list[int | None]:
    """Where the old interfaces go by a reload by places."""
    numbers = struct.unpack(f">{record.numbers[-1]}I", parts_of(record)[-1])
    return [None if number == NO_PLACE else number for number in numbers]


def values_of(record: Record) -> tuple[Any, ...]:
    """What the call of a record is given, without its draw."""
    if record.name in LISTS:
        return list_of(LISTS[record.name], record.data)
    if record.name == "reload":
        return configuration_of(record)
    if record.name == "reload_places":
        return *configuration_of(record), *array(c_uint32, [NO_PLACE if it is None else it for it in places_of(record)])
    if record.name == "anycast":
        return rp_sets_of(rp_sets_in(record))
    if record.name in ("frame", "unicast"):
        return (*record.numbers, record.data, len(record.data))
    return record.numbers


def rp_sets_in(record: Record) -> list[RpSet]:
    """The sets of RPs that were given."""
    addresses = (dotted(bits) for bits, in struct.iter_unpack(">I", record.data))
    return [RpSet(next(addresses), next(addresses), tuple(islice(addresses, count))) for count in record.numbers]


def rp_sets_set(sets: list[RpSet]) -> Record:
    """The record of these sets of RPs, which were taken."""
    data = (struct.pack(f">{2 + len(others)}I", *map(address, (shared, own, *others))) for shared, own, others in sets)
    return Record("anycast", 0, tuple(len(each.others) for each in sets), b"".join(data), Answer.DONE, 0)


def restored(told: Recording, library: str | os.PathLike[str] | None = None) -> Router:
    """A router as it was at a recording's beginning. Before version 4 no router had a guard."""
    router = Router.restore(told.state, library=library)
    if told.version < 4:
        router.set_guard(False)
    return router


def take(router: Router, record: Record, version: int = VERSION) -> tuple[int, int]:
    """Gives a router what was recorded; what it answers, and the sum of what it sends, as the version has it. The
    packets are cleared."""
    draw = [] if record.name in QUIET else [Draw(record.draw)]
    answer, total = Answer(router._call(record.name, *values_of(record), *draw)), 0
    if record.name == "guard" and answer == Answer.DONE:
        router.has_guard = record.numbers[0] == 1
    if record.name == "anycast" and answer == Answer.DONE:
        router.rp_sets = rp_sets_in(record)
    if draw and answer == Answer.DONE:
        total = sum_of(router, version)
        router._call("clear")
    return answer.value, total
