"""RPs that are learned of Bootstraps (RFC 5059), which a listener hears before a router.

    from viqeshor import Router
    from viqeshor.bsr import Bsr

    ranges = [("239.1.0.0/16", "10.9.9.9")]
    with Router(["10.0.0.2/24"], ranges) as router, Bsr(ranges, refresh_end=60_000) as bsr:
        router.up(0)
        while True:
            send(bsr.run_to(router, now()))                             # in place of router.run_to
            for iface, packet in received(bsr.next_moment(router)):
                bsr.frame(router, iface, packet)                        # in place of router.frame
                send(router.packets())
"""
import ctypes
import os
from collections.abc import Iterable
from ctypes import POINTER, Structure, byref, c_bool, c_char_p, c_size_t, c_uint8, c_uint32, c_uint64, c_void_p
from enum import IntEnum
from functools import cache
from typing import Any, NamedTuple, Self

from viqeshor import (
    LIST,
    NEVER,
    RAISED,
    Answer,
    Buffer,
    CRange,
    Draw,
    Held,
    Router,
    Sent,
    bytes_of,
    candidates_of,
    declare,
    declare_making,
    draw_of,
    load,
    number,
    ranges_of,
    there,
)
from viqeshor.rows import numbers
from viqeshor.trees import dotted

__all__ = ["Bsr", "Choice", "Elected", "Heard", "LearnedPart", "LearnedRp"]

LAST_MOMENT = 2**62


class Choice(IntEnum):
    """What an RP is chosen for, of several that a learned range has: for the range, by the hash of its prefix, as with
    FRR; or for each group, by the hash of the group (RFC 7761, section 4.7.2)."""
    RANGE = 0
    GROUP = 1


class CElected(Structure):
    _fields_ = [*numbers("bsr", "priority"), ("end", c_uint64)]


class CRp(Structure):
    _fields_ = [
        *numbers("prefix", "length", "rp", "priority", "hash_length"),
        ("is_given", c_bool),
        ("end", c_uint64),
    ]


class CPart(Structure):
    _fields_ = [*numbers("prefix", "length", "rp", "priority", "holdtime", "bsr", "tag"), ("end", c_uint64)]


# What each call takes behind the listener, and what it answers.
CALLS: dict[str, tuple[list[Any], Any]] = {
    "end": ([], None),
    "hear": ([c_void_p, c_uint32, c_char_p, c_size_t, POINTER(c_bool)], c_uint32),
    "give": ([c_void_p, Draw], c_uint32),
    "next": ([], c_uint64),
    "pass": ([c_uint64, POINTER(c_bool)], c_uint32),
    "ranges": ([c_void_p, c_uint32, *LIST, Draw], c_uint32),
    "save": ([POINTER(c_uint8), c_size_t, POINTER(c_size_t)], c_uint32),
    "choose": ([c_uint32], c_uint32),
    "choice": ([], c_uint32),
    "configured": ([], c_size_t),
    "range": ([c_size_t, POINTER(CRange)], c_bool),
    "elected": ([POINTER(CElected)], c_bool),
    "rps": ([], c_size_t),
    "rp": ([c_size_t, POINTER(CRp)], c_bool),
    "parts": ([], c_size_t),
    "part": ([c_size_t, POINTER(CPart)], c_bool),
}


@cache
def declared(path: str) -> ctypes.CDLL:
    """The library, with what the calls of a listener take and answer."""
    library = load(path)
    declare(library, "viq_bsr_", CALLS)
    declare_making(library, "viq_bsr_new", [c_uint32, *LIST, c_uint64])
    declare_making(library, "viq_bsr_restore", [c_char_p, c_size_t])
    return library


class Elected(NamedTuple):
    """The elected bootstrap router: its address and its priority, of which the higher is preferred, and when its timer
    expires, in ms: 130 s after its last message."""
    bsr: str
    priority: int
    end: int


class LearnedRp(NamedTuple):
    """An RP of a learned range, in force: its priority, of which the lower is preferred, the bits of the hash
    function's mask, whether the router is given it, and when its holdtime is over, in ms. It is given where its range
    isn't configured and it is chosen of its range, or as a candidate."""
    groups: str
    rp: str
    priority: int
    hash_length: int
    is_given: bool
    end: int


class LearnedPart(NamedTuple):
    """An RP of a range, of a message of which other fragments are missing: its priority and its holdtime, in seconds,
    the message's BSR and fragment tag, and when it is forgotten, in ms. It isn't in force."""
    groups: str
    rp: str
    priority: int
    holdtime: int
    bsr: str
    tag: int
    end: int


class Heard(NamedTuple):
    """What became of a packet: DONE where it is a Bootstrap that counts; and whether the router is to be given other
    RPs."""
    answer: Answer
    moved: bool


def groups_of(row: CRange | CRp | CPart) -> str:
    return f"{dotted(row.prefix)}/{row.length}"


class Bsr(Held):
    """A listener, which hears Bootstraps before a router and says which RPs this is to have: those of the configured
    ranges, and of each learned range the one that a hash of the range's prefix chooses, or all as candidates, of which
    it chooses for each group (`choose`).

    With a listener a program calls `frame`, `run_to`, `set_ranges` and `next_moment` of it in the place of those of the
    router; `hear`, `give` and `pass_to` are their steps. A reload gives the router the ranges that it has (`given`),
    and then `set_ranges` sets the new configured ones. `save` is called beside that of the router. A listener is freed
    by `end`, or with its last reference."""
    _begins, _load, _ended = "viq_bsr_", staticmethod(declared), Answer.NO_LISTENER

    def __init__(
        self,
        ranges: Iterable[tuple[str, str]] = (),
        *,
        limit: int = 256,
        refresh_end: int = 0,
        library: str | os.PathLike[str] | None = None,
    ) -> None:
        """The ranges are those that the router has. At most `limit` RPs are kept, 1 to 256, with those of messages of
        which fragments are missing. Until the timestamp `refresh_end` one message may come that a neighbour sends to a
        router which has just started: 60,000 ms after the router started, or 0 for none."""
        self._begin(library)
        self.configured = list(ranges)
        given = number(limit, 32, "a limit"), *ranges_of(self.configured), number(refresh_end, 64, "a moment")
        self._make("new", *given)

    @classmethod
    def restore(cls, saved: Buffer, *, library: str | os.PathLike[str] | None = None) -> Self:
        """A listener that knows what the one knew of which `save` returned the bytes, its configured ranges too. It is
        for the router that is restored of what was saved at the same moment. Raises `Refused` where the bytes are none
        of a listener, whatever they are."""
        bsr, data = cls.__new__(cls), bytes_of(saved)
        bsr._begin(library)
        bsr._make("restore", data, len(data))
        rows = bsr._rows("configured", "range", CRange())
        bsr.configured = [(groups_of(told), dotted(told.rp)) for told in rows]
        return bsr

    def save(self) -> bytes:
        """All that the listener knows as bytes, of which `restore` makes one. A router's `save` doesn't have it."""
        return self._saved()

    # ---- whole steps

    def frame(self, router: Router, iface: int, packet: Buffer, draw: int | None = None) -> Answer:
        """A packet came on an interface, to a group, as by `Router.frame`. Where the router ignores it for its type the
        listener hears it, and where the RPs moved the router is given them. Returns what the router made of the
        packet, or else the listener."""
        bits = draw_of(draw)
        with self.lock, router.lock:
            answer = router.frame(iface, packet, bits)
            if answer != Answer.OTHER_TYPE:
                return answer
            answer, moved = self.hear(router, iface, packet)
            if moved:
                self._give(router, bits)
            return answer

    def advance(self, router: Router, moment: int, draw: int | None = None) -> Answer:
        """Time passes up to a timestamp, as by `Router.advance`, and on the way to the end of each RP, where the router
        is given other RPs."""
        bits = draw_of(draw)
        with self.lock, router.lock:
            while (end := self.next_end()) is not None and end <= moment <= LAST_MOMENT:
                self._step(router, end, bits)
            return self._step(router, moment, bits)

    def run_to(self, router: Router, moment: int) -> list[Sent]:
        """Time passes up to the timestamp `moment`, timer by timer, as by `Router.run_to`."""
        with self.lock, router.lock:
            self._pass(moment, lambda: self.next_moment(router), lambda now: self.advance(router, now))
            return router.packets()

    def next_moment(self, router: Router) -> int | None:
        """The timestamp at which time is to pass: the next timer of the router expires, or an RP of the listener."""
        ends = [end for end in (router.next_moment(), self.next_end()) if end is not None]
        return min(ends, default=None)

    def _step(self, router: Router, moment: int, bits: int) -> Answer:
        answer = router.advance(moment, bits)
        if answer == Answer.DONE and self.pass_to(moment):
            self._give(router, bits)
        return answer

    def choose(self, router: Router, choice: Choice, draw: int | None = None) -> Answer:
        """Has an RP chosen for something else: the router is given the RPs so, and what the former choice gave it
        goes."""
        bits = draw_of(draw)
        with self.lock, router.lock:
            self._must(self._call("choose", number(choice, 32, "a choice")))
            self._give(router, bits)
            if choice == Choice.GROUP:
                return router.set_ranges(self.configured, bits)
            return router.set_candidates([], bits)

    # ---- the steps one by one

    def hear(self, router: Router, iface: int, packet: Buffer) -> Heard:
        """Hears a packet that came on an interface, and that the router ignored by OTHER_TYPE. The answer is DONE where
        it counts, and is then sent on; OTHER_TYPE where it is no Bootstrap; a reason why it doesn't count; FULL where
        there is no room for its RPs; or another refusal where it can't be read."""
        data, moved = bytes_of(packet), c_bool()
        with self.lock, router.lock:
            place = number(iface, 32, "an interface")
            answer = Answer(self._call("hear", router._at, place, data, len(data), byref(moved)))
            if answer == Answer.DONE:
                router._take()
        if answer in RAISED:
            self._raise(answer)
        return Heard(answer, moved.value)

    def give(self, router: Router, draw: int | None = None) -> Answer:
        """An event of the router: its ranges are replaced by those that the listener has for it, or its candidates
        where an RP is chosen for each group."""
        return self._give(router, draw_of(draw))

    def _give(self, router: Router, bits: int) -> Answer:
        with self.lock, router.lock:
            answer = self._call("give", router._at, Draw(bits))
            if self.choice() == Choice.GROUP:
                return self._told(router, bits, answer, "candidates", candidates_of(self.candidates()))
            return self._told(router, bits, answer, "ranges", ranges_of(self.given()))

    def next_end(self) -> int | None:
        """When the first of the RPs in force expires, in ms."""
        return there(self._call("next"), NEVER)

    def pass_to(self, moment: int) -> bool:
        """Time passed to a timestamp: what has expired is forgotten. Returns whether the router is to be given other
        RPs."""
        moved = c_bool()
        self._must(self._call("pass", number(moment, 64, "a moment"), byref(moved)))
        return moved.value

    def set_ranges(
        self, router: Router, ranges: Iterable[tuple[str, str]], *, limit: int = 256, draw: int | None = None
    ) -> Answer:
        """Other configured ranges, and the limit: an event of the router, whose ranges are replaced by these and the
        learned ones beside them. Where it isn't done the listener stays as it is. Where an RP is chosen for each group
        the ranges are these alone, and then the router is given the candidates for which there is room."""
        static, bits, most = list(ranges), draw_of(draw), number(limit, 32, "a limit")
        with self.lock, router.lock:
            answer = self._call("ranges", router._at, most, *ranges_of(static), Draw(bits))
            if answer == Answer.NO_SETTING:
                self._raise(Answer.NO_SETTING)
            before, self.configured = self.configured, static
            if answer != Answer.DONE:
                self.configured = before
            given = ranges_of(self.given() if answer == Answer.DONE else static)
            told = self._told(router, bits, answer, "ranges", given)
            if told == Answer.DONE and self.choice() == Choice.GROUP:
                self._give(router, bits)
            return told

    def _told(self, router: Router, bits: int, answered: int, name: str, given: tuple[Any, int]) -> Answer:
        """What the router answered to ranges or candidates, which a recorder is told, if there is one."""
        answer = Answer(answered)
        if router._took is not None:
            router._took(name, bits, given, answer)
        if answer == Answer.DONE:
            router._take()
        if answer in RAISED:
            self._raise(answer)
        return answer

    # ---- what was learned

    def elected(self) -> Elected | None:
        """The elected BSR."""
        told = CElected()
        return Elected(dotted(told.bsr), told.priority, told.end) if self._call("elected", byref(told)) else None

    def rps(self) -> list[LearnedRp]:
        """The RPs in force, in the order in which they were learned."""
        with self.lock:
            return [LearnedRp(groups_of(row), dotted(row.rp), row.priority, row.hash_length, row.is_given, row.end)
                    for row in self._rows("rps", "rp", CRp())]

    def parts(self) -> list[LearnedPart]:
        """The RPs of messages of which fragments are missing."""
        with self.lock:
            return [
                LearnedPart(groups_of(row), dotted(row.rp), row.priority, row.holdtime, dotted(row.bsr), row.tag,
                            row.end)
                for row in self._rows("parts", "part", CPart())
            ]

    def choice(self) -> Choice:
        """What an RP is chosen for; of a new listener a range."""
        return Choice(self._call("choice"))

    def given(self) -> list[tuple[str, str]]:
        """The ranges that the router is given: the configured ones, and where an RP is chosen for a range those of the
        RPs that it is given."""
        with self.lock:
            learned = self.rps() if self.choice() == Choice.RANGE else []
            return self.configured + [(row.groups, row.rp) for row in learned if row.is_given]

    def candidates(self) -> list[tuple[str, str, int, int]]:
        """The candidates that the router is given: all RPs in force where one is chosen for each group, else none."""
        with self.lock:
            offered = self.rps() if self.choice() == Choice.GROUP else []
            return [(row.groups, row.rp, row.priority, row.hash_length) for row in offered]
