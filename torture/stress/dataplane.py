"""A router behind a data plane, which forwards by itself what the router's rows decide, as include/viqeshor/plane.h
says. Each duty of a plane has a name, and may be forgotten."""
from __future__ import annotations

from collections.abc import Iterable, Iterator
from dataclasses import dataclass
from typing import TYPE_CHECKING, Any

import viqeshor
from viqeshor import Answer
from viqeshor.lab import packets

if TYPE_CHECKING:
    from stress.happenings import Event

KEEPALIVE_PERIOD = 210_000
LAST_MOMENT = 2**62

# What is looked at of a packet before a row is asked.
LOOKS = {
    "up": "the interface is up",
    "length": "the packet has at most 1500 bytes",
    "whole": "the version and the lengths are right",
    "checksum": "the header's checksum is right",
    "fragment": "it is no fragment",
    "source": "the source is a host's address",
    "own": "the source is no address of the router",
    "group": "the destination is a group",
    "local": "the group isn't in 224.0.0.0/24",
    "igmp": "the protocol isn't IGMP's",
}
DUTIES = LOOKS | {
    "to_core": "a packet on an interface of to_core is the router's",
    "nothing": "where the router offers no row a packet is the router's",
    "incoming": "no copy leaves on the interface on which the packet came",
    "strays": "a packet that isn't accepted is dropped",
    "ttl": "no copy leaves of a TTL of 1 or 0",
    "aged": "a copy's TTL is lower by one",
    "padding": "a copy has no bytes past the total length",
    "changed": "the rows of changed sources are asked anew",
    "order": "before the next packet",
    "unknown": "rows of sources without a fact go after an event by which they may differ",
    "alive": "what shows its source alive is noted, accepted or not",
    "last": "of a source the last note counts",
    "notes": "the router is told of all notes before an event of its own",
    "moments": "each with its moment",
    "seen": "as seen, where no timer runs",
    "present": "and has the present then",
    "next": "it has its own moments",
    "fault": "after a fault no row stays",
}


class CaughtUp(Exception):
    """The router sent packets, or refused, where it only caught up."""


@dataclass(frozen=True)
class Outcome:
    """What came of an event: the answer's number, and what was sent."""
    answer: Answer
    sent: tuple

    def lines(self) -> Iterator[str]:
        yield f"answer {self.answer.value} ({self.answer.name})"
        for kind, where, data in self.sent:
            yield f"{kind} {where} {data.hex()}"


def outcome(router: viqeshor.Router, call: str, *values: Any, **draw: int) -> Outcome:
    """What comes of a call of the router; an answer that the package raises is one too."""
    try:
        answer = getattr(router, call)(*values, **draw)
    except viqeshor.Error as error:
        answer = error.answer
    return Outcome(answer, tuple(router.packets()) if answer == Answer.DONE else ())


def is_right(look: str, data: bytes) -> bool:
    """Whether a look that concerns the bytes alone finds nothing wrong; the others before it found nothing either."""
    header = 4 * (data[0] & 15) if data else 0
    return {
        "length": lambda: len(data) <= packets.MOST_IN_A_FRAME,
        "whole": lambda: len(data) >= 20 and data[0] >> 4 == 4 and 20 <= header <= packets.word(data, 2) <= len(data),
        "checksum": lambda: packets.sum16(data[:header]) == 0,
        "fragment": lambda: packets.word(data, 6) & 0x3FFF == 0,
        "source": lambda: packets.is_host(data[12:16]),
        "group": lambda: packets.is_multicast(data[16:20]),
        "local": lambda: data[16:19] != b"\xe0\0\0",
        "igmp": lambda: data[9] != packets.IGMP,
    }[look]()


class Plane:
    """A router, and the plane before it. `tells` is how it tells of its notes: by `keep`, or by `seen` alone."""

    def __init__(
        self, router: viqeshor.Router, own: Iterable[str], tells: str = "keep", forgets: Iterable[str] = ()
    ) -> None:
        self.router, self.own, self.tells, self.forgets = router, frozenset(own), tells, frozenset(forgets)
        self.rows, self.noted, self.behind = {}, {}, []
        self.now, self.up, self.has_failed, self.by_itself = 0, set(), False, 0

    def minds(self, duty: str) -> bool:
        return duty not in self.forgets

    # ---- packets

    def is_for_a_row(self, iface: int, data: bytes) -> bool:
        """Whether a row is to be asked; it reads no more than what is there."""
        if len(data) < 20:
            return False
        looks = {"up": lambda: iface in self.up, "own": lambda: packets.dotted(data[12:16]) not in self.own}
        return all(not self.minds(look) or looks.get(look, lambda: is_right(look, data))() for look in LOOKS)

    def row(self, name: tuple[str, str]) -> viqeshor.PlaneRow | None:
        """The row of a source and a group; None where all its packets are the router's."""
        if name not in self.rows:
            self.ask(name)
        return self.rows.get(name)

    def ask(self, name: tuple[str, str]) -> None:
        row = self.router.offload(*name)
        if row is None and not self.minds("nothing"):
            row = viqeshor.PlaneRow(False, None, frozenset(), frozenset(), frozenset())
        if row is None:
            self.rows.pop(name, None)
        else:
            self.rows[name] = row

    def by_row(self, iface: int, data: bytes) -> Outcome | None:
        """What the plane does of a packet; None where it is the router's."""
        name = packets.dotted(data[12:16]), packets.dotted(data[16:20])
        row = self.row(name)
        if row is None or (iface in row.to_core and self.minds("to_core")):
            return None
        is_accepted = iface == row.incoming
        if iface in row.alive and (is_accepted or self.minds("alive")):
            self.note(name, iface)
        self.by_itself += 1
        if not is_accepted and self.minds("strays"):
            return Outcome(Answer.DONE, ())
        return Outcome(Answer.DONE, tuple(self.copies(row, iface, data)))

    def copies(self, row: viqeshor.PlaneRow, iface: int, data: bytes) -> Iterator[viqeshor.Sent]:
        if data[8] <= 1 and self.minds("ttl"):
            return
        whole = data[:packets.word(data, 2)] if self.minds("padding") else data
        copy = packets.aged(whole) if self.minds("aged") and whole[8] else whole
        for to in sorted(row.outgoing):
            if to != iface or not self.minds("incoming"):
                yield viqeshor.Sent("copy", to, copy)

    def note(self, name: tuple[str, str], iface: int) -> None:
        if self.minds("last"):
            self.noted.pop(name, None)
        self.noted.setdefault(name, (self.now, iface))

    # ---- the router

    def catch_up(self) -> None:
        """Tells the router of what is noted, and what moment it is. It sends nothing of it."""
        if self.minds("notes"):
            self.tell_notes()
        self.noted.clear()
        if self.minds("present"):
            self.quiet("advance", self.now)

    def tell_notes(self) -> None:
        late = []
        for name, (moment, iface) in self.noted.items():
            moment = moment if self.minds("moments") else self.now
            answer = outcome(self.router, "keep", *name, moment).answer if self.tells == "keep" else Answer.NO_TIMER
            if answer == Answer.NO_TIMER:
                late.append((moment, iface, *name))
        for moment, *seen in sorted(late, key=lambda told: told[0]):
            self.quiet("advance", moment)
            if self.minds("seen"):
                self.quiet("seen", *seen)

    def quiet(self, call: str, *values: Any) -> None:
        got = self.given(call, values, 0)
        if got.sent or got.answer not in (Answer.DONE, Answer.FAILED):
            raise CaughtUp(f"{call} {values}: {' '.join(got.lines())}")

    def given(self, call: str, values: tuple[Any, ...], draw: int) -> Outcome:
        """Hands an event to the router, and asks the rows anew that it changed."""
        got = outcome(self.router, call, *values, draw=draw)
        self.has_failed = got.answer in (Answer.LOST, Answer.FAILED)
        if self.has_failed:
            if self.minds("fault"):
                self.rows.clear()
            return got
        if self.minds("unknown"):
            self.rows = {
                name: row for name, row in self.rows.items() if row.is_known or not self.router.may_differ(*name)
            }
        told, self.behind = (self.router.changed(), []) if self.minds("order") else (self.behind, self.router.changed())
        if self.minds("changed"):
            for name in dict.fromkeys(told):
                self.ask(name)
        return got

    def by_core(self, event: Event) -> Outcome:
        self.catch_up()
        got = self.given(event.call, event.values, event.draw)
        if got.answer == Answer.DONE:
            if event.call in ("up", "down"):
                (self.up.add if event.call == "up" else self.up.discard)(event.values[0])
            elif event.call == "advance":
                self.now = event.values[0]
        return got

    def passes_quietly(self, moment: int) -> bool:
        """Whether nothing ends by then: no timer of the router, nor one that a note will have started."""
        ends = self.router.next_moment() if self.minds("next") else None
        by_notes = all(moment < noted + KEEPALIVE_PERIOD for noted, _ in self.noted.values())
        return (
            not self.has_failed and self.now <= moment <= LAST_MOMENT and (ends is None or moment < ends) and by_notes
        )

    def take(self, event: Event) -> Outcome:
        """What comes of an event."""
        if event.call == "advance" and self.passes_quietly(*event.values):
            self.now, = event.values
            return Outcome(Answer.DONE, ())
        if event.call == "frame" and self.is_for_a_row(*event.values):
            got = self.by_row(*event.values)
            if got is not None:
                return got
        return self.by_core(event)
