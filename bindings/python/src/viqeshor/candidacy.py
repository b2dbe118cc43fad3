"""Candidate bootstrap routers and candidate RPs (RFC 5059): a candidacy stands beside a listener.

    from viqeshor import Router
    from viqeshor.bsr import Bsr
    from viqeshor.candidacy import Candidacy, CandidateBsr, CandidateRp

    as_bsr, as_rp = CandidateBsr("10.0.0.2"), CandidateRp("10.0.0.2", ["239.0.0.0/8"])
    with Router(["10.0.0.2/24"]) as router, Bsr() as bsr, Candidacy(as_bsr, as_rp) as candidacy:
        router.up(0)
        while True:
            send(candidacy.run_to(bsr, router, now()))                  # in place of bsr.run_to
            for iface, packet in received(candidacy.next_moment(bsr, router)):
                if iface is None:
                    candidacy.unicast(router, packet)                   # in place of router.unicast
                else:
                    candidacy.frame(bsr, router, iface, packet)         # in place of bsr.frame
                send(router.packets())
"""
import ctypes
import os
from collections.abc import Sequence
from ctypes import POINTER, Structure, byref, c_bool, c_char_p, c_size_t, c_uint32, c_uint64, c_void_p
from enum import IntEnum
from functools import cache
from typing import Any, NamedTuple

from viqeshor import (
    NEVER,
    RAISED,
    Answer,
    Buffer,
    Draw,
    Held,
    Router,
    Sent,
    address,
    all_numbers,
    array,
    bytes_of,
    declare,
    declare_making,
    draw_of,
    load,
    number,
    prefix,
    there,
)
from viqeshor.bsr import LAST_MOMENT, Bsr, Heard, groups_of
from viqeshor.rows import numbers
from viqeshor.trees import dotted

__all__ = ["Candidacy", "CandidateBsr", "CandidateRp", "HeldRp", "Role", "Standing"]


class Role(IntEnum):
    """What a router is as candidate BSR: nothing; a candidate beside another one that is the BSR; pending, where none
    is and it may become the BSR; or elected."""
    NONE = 0
    CANDIDATE = 1
    PENDING = 2
    ELECTED = 3


class CandidateBsr(NamedTuple):
    """As what BSR a router stands: one of its own addresses, to which all routers of the domain have a route; its
    priority, at most 255, of which the higher is preferred, and 64 is usual (RFC 5059, 4.1); the bits of the hash
    function's mask that it says, at most 32; and the most RPs of ranges that it holds, 1 to 255, at most 143 where all
    may be of one range."""
    address: str
    priority: int = 64
    hash_length: int = 30
    limit: int = 255


class CandidateRp(NamedTuple):
    """As RP of what a router stands: one of its own addresses, to which all routers of the domain have a route; 1 to
    183 prefixes of groups, without host bits; and its priority, at most 255, of which the lower is preferred."""
    address: str
    ranges: Sequence[str]
    priority: int = 192


class CSettings(Structure):
    _fields_ = [("is_bsr", c_bool), *numbers("bsr", "bsr_priority", "hash_length", "limit"),
                ("is_rp", c_bool), *numbers("rp", "rp_priority")]


class CPrefix(Structure):
    _fields_ = numbers("prefix", "length")


class CState(Structure):
    _fields_ = [("role", c_uint32), ("end", c_uint64), ("told", c_uint32), ("told_end", c_uint64)]


class CHeld(Structure):
    _fields_ = [*numbers("prefix", "length", "rp", "priority", "holdtime"), ("end", c_uint64)]


# What each call takes behind the candidacy, and what it answers.
CALLS: dict[str, tuple[list[Any], Any]] = {
    "end": ([], None),
    "hear": ([c_void_p, c_void_p, c_uint32, c_char_p, c_size_t, Draw, POINTER(c_bool)], c_uint32),
    "unicast": ([c_void_p, c_char_p, c_size_t], c_uint32),
    "next": ([], c_uint64),
    "pass": ([c_void_p, c_void_p, c_uint64, Draw, POINTER(c_bool)], c_uint32),
    "leave": ([c_void_p, c_void_p], c_uint32),
    "state": ([POINTER(CState)], c_bool),
    "rps": ([], c_size_t),
    "rp": ([c_size_t, POINTER(CHeld)], c_bool),
}


@cache
def declared(path: str) -> ctypes.CDLL:
    """The library, with what the calls of a candidacy take and answer."""
    library = load(path)
    declare(library, "viq_candidacy_", CALLS)
    declare_making(library, "viq_candidacy_new", [POINTER(CSettings), POINTER(CPrefix), c_size_t, c_uint64])
    return library


class Standing(NamedTuple):
    """How a candidacy stands: its role as candidate BSR; when its Bootstrap Timer expires, in ms; the BSR that is told
    of its RP, and when that is told next, in ms."""
    role: Role
    end: int | None
    told: str | None
    told_end: int | None


class HeldRp(NamedTuple):
    """An RP of a range that advertised itself to a candidate BSR: its priority, of which the lower is preferred, its
    holdtime, in seconds, and when that is over, in ms."""
    groups: str
    rp: str
    priority: int
    holdtime: int
    end: int


def settings_of(as_bsr: CandidateBsr | None, as_rp: CandidateRp | None) -> CSettings:
    """What is of a role in which the router doesn't stand isn't read."""
    told = CSettings(is_bsr=as_bsr is not None, is_rp=as_rp is not None)
    given: dict[str, int] = {}
    if as_bsr is not None:
        given |= {"bsr": address(as_bsr.address), "bsr_priority": as_bsr.priority, "hash_length": as_bsr.hash_length,
                  "limit": as_bsr.limit}
    if as_rp is not None:
        given |= {"rp": address(as_rp.address), "rp_priority": as_rp.priority}
    for name, value in given.items():
        setattr(told, name, number(value, 32, f"{name} of a candidate"))
    return told


class Candidacy(Held):
    """By a candidacy a router with a listener stands as bootstrap router (BSR), as RP, or as both. A candidate BSR
    yields to one of more weight. Elected it says in Bootstraps which RPs advertised themselves to it, and the listener
    learns them as all others do. A candidate RP advertises itself to the elected BSR.

    With a candidacy a program calls `frame`, `run_to` and `next_moment` of it in the place of those of the listener,
    and `unicast` in the place of that of the router; `hear`, `hear_unicast` and `pass_to` are their steps. The other
    calls of the listener stay as they are. A candidacy isn't saved: beside a restored router it is made anew. Before
    one goes, `leave` says that its RP goes. It is freed by `end`, or with its last reference."""
    _begins, _load, _ended = "viq_candidacy_", staticmethod(declared), Answer.NO_CANDIDACY

    def __init__(
        self,
        as_bsr: CandidateBsr | None = None,
        as_rp: CandidateRp | None = None,
        *,
        now: int = 0,
        library: str | os.PathLike[str] | None = None,
    ) -> None:
        """It is made at the router's present, a timestamp in ms, to which time is to pass once more: a candidate RP
        then follows a BSR that is elected already. Raises `Refused` where a value is out of its range, an address is no
        host's, or a range is no prefix of groups."""
        self._begin(library)
        given = [] if as_rp is None else list(as_rp.ranges)
        ranges = array(CPrefix, [all_numbers(CPrefix, [*prefix(net)]) for net in given])
        settings = settings_of(as_bsr, as_rp)
        self._make("new", byref(settings), *ranges, number(now, 64, "a moment"))

    # ---- whole steps

    def frame(self, bsr: Bsr, router: Router, iface: int, packet: Buffer, draw: int | None = None) -> Answer:
        """A packet came on an interface, to a group, as by `Bsr.frame`. Where the router ignores it for its type the
        candidacy hears it, and where the RPs moved the router is given them. Returns what the router made of the
        packet, or else the candidacy."""
        bits = draw_of(draw)
        with self.lock, bsr.lock, router.lock:
            answer = router.frame(iface, packet, bits)
            if answer != Answer.OTHER_TYPE:
                return answer
            answer, moved = self.hear(bsr, router, iface, packet, bits)
            if moved:
                bsr.give(router, bits)
            return answer

    def unicast(self, router: Router, packet: Buffer, draw: int | None = None) -> Answer:
        """A packet to one of the router's addresses came, as by `Router.unicast`. Where the router ignores it as not
        for it the candidacy hears it: an elected BSR takes the advertisements of candidate RPs. Returns what the
        candidacy made of an advertisement to it, and else what the router made of the packet."""
        with self.lock, router.lock:
            answer = router.unicast(packet, draw_of(draw))
            if answer != Answer.NOT_FOR_ME:
                return answer
            heard = self.hear_unicast(router, packet)
            return answer if heard == Answer.OTHER_TYPE else heard

    def advance(self, bsr: Bsr, router: Router, moment: int, draw: int | None = None) -> Answer:
        """Time passes up to a timestamp, as by `Bsr.advance`, and on the way to the end of each timer of the listener
        and of the candidacy."""
        bits = draw_of(draw)
        with self.lock, bsr.lock, router.lock:
            while (end := self._first_end(bsr)) is not None and end <= moment <= LAST_MOMENT:
                self._must(self._step(bsr, router, end, bits))
            return self._step(bsr, router, moment, bits)

    def run_to(self, bsr: Bsr, router: Router, moment: int) -> list[Sent]:
        """Time passes up to the timestamp `moment`, timer by timer, as by `Router.run_to`."""
        with self.lock, bsr.lock, router.lock:
            self._pass(moment, lambda: self.next_moment(bsr, router), lambda now: self.advance(bsr, router, now))
            return router.packets()

    def next_moment(self, bsr: Bsr, router: Router) -> int | None:
        """The timestamp at which time is to pass: the next timer of the router expires, or one of the listener or of
        the candidacy."""
        ends = [end for end in (router.next_moment(), self._first_end(bsr)) if end is not None]
        return min(ends, default=None)

    def _first_end(self, bsr: Bsr) -> int | None:
        return min((end for end in (bsr.next_end(), self.next_end()) if end is not None), default=None)

    def _step(self, bsr: Bsr, router: Router, moment: int, bits: int) -> Answer:
        answer = router.advance(moment, bits)
        if answer == Answer.DONE and self.pass_to(bsr, router, moment, bits):
            bsr.give(router, bits)
        return answer

    # ---- the steps one by one

    def hear(self, bsr: Bsr, router: Router, iface: int, packet: Buffer, draw: int | None = None) -> Heard:
        """Hears a packet that came on an interface, and that the router ignored by OTHER_TYPE, in the place of
        `Bsr.hear`. The answer is DONE also where a candidate BSR sends a message on without taking what it says, or
        answers it by its own."""
        data, moved = bytes_of(packet), c_bool()
        with self.lock, bsr.lock, router.lock:
            place, bits = number(iface, 32, "an interface"), Draw(draw_of(draw))
            given = place, data, len(data), bits, byref(moved)
            answer = Answer(self._call("hear", bsr._at, router._at, *given))
            if answer == Answer.DONE:
                router._take()
        if answer in RAISED:
            self._raise(answer)
        return Heard(answer, moved.value)

    def hear_unicast(self, router: Router, packet: Buffer) -> Answer:
        """Hears a packet to one of the router's addresses, which the router ignored by NOT_FOR_ME. The answer is DONE
        where an advertisement was taken; OTHER_TYPE where it is none to the candidate BSR's address; NOT_ELECTED where
        the router isn't the BSR; or a refusal where it can't be read."""
        data = bytes_of(packet)
        with self.lock, router.lock:
            answer = Answer(self._call("unicast", router._at, data, len(data)))
        if answer in RAISED:
            self._raise(answer)
        return answer

    def next_end(self) -> int | None:
        """When the first of its timers expires, in ms."""
        return there(self._call("next"), NEVER)

    def pass_to(self, bsr: Bsr, router: Router, moment: int, draw: int | None = None) -> bool:
        """Time passed to a timestamp, the router's present, for the listener too, in the place of `Bsr.pass_to`: of
        each timer that is due one step is taken. Returns whether the router is to be given other RPs."""
        moved = c_bool()
        with self.lock, bsr.lock, router.lock:
            now, bits = number(moment, 64, "a moment"), Draw(draw_of(draw))
            self._must(self._call("pass", bsr._at, router._at, now, bits, byref(moved)))
            router._take()
        return moved.value

    def leave(self, bsr: Bsr, router: Router) -> list[Sent]:
        """Says that the RP goes: the packets that are to be sent, with an advertisement that takes it away. Where the
        router stands as no RP, or where no BSR is elected, there is none."""
        with self.lock, bsr.lock, router.lock:
            self._must(self._call("leave", bsr._at, router._at))
            router._take()
            return router.packets()

    # ---- what it knows

    def standing(self) -> Standing:
        """How it stands."""
        told = CState()
        self._call("state", byref(told))
        is_told = told.told != 0
        return Standing(Role(told.role), there(told.end, NEVER), dotted(told.told) if is_told else None,
                        there(told.told_end, NEVER) if is_told else None)

    def rps(self) -> list[HeldRp]:
        """The RPs that advertised themselves to it, in the order in which they came."""
        with self.lock:
            return [HeldRp(groups_of(told), dotted(told.rp), told.priority, told.holdtime, told.end)
                    for told in self._rows("rps", "rp", CHeld())]
