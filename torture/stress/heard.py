"""A router that listens for Bootstraps, and beside it what RFC 5059 says that it has to know."""
from __future__ import annotations

from collections.abc import Callable, Iterable
from pathlib import Path
from typing import Any, TypeVar

import viqeshor
from stress.rfc5059 import Around, Learned, Listener, Part, network, packet
from viqeshor import Answer
from viqeshor.bsr import Bsr, Choice
from viqeshor.lab import packets
from viqeshor.lab.packets import Bootstrap, CandidateRp, Hello, bootstrap_message

INTERFACES = [("10.0.0.2", 24), ("10.0.1.1", 24), ("10.0.2.1", 24)]
LOOPBACK = "10.255.0.1"
# Neighbours, by their interfaces; the last one's link has no other router.
ABOVE, BESIDE, BELOW, STRANGER = (0, "10.0.0.1"), (0, "10.0.0.3"), (1, "10.0.1.2"), (0, "10.0.0.77")
# A BSR behind each neighbour, another one there, one behind a stranger, and one to which no route leads.
BSR, OTHER_BSR, BSR_BESIDE, BSR_BELOW = "10.9.9.9", "10.9.9.10", "10.6.6.6", "10.8.8.8"
BSR_OF_STRANGER, BSR_NOWHERE = "10.7.7.7", "10.5.5.5"
ROUTES = [("10.9.0.0/16", ABOVE[1], 0), ("10.6.0.0/16", BESIDE[1], 0), ("10.8.0.0/16", BELOW[1], 1),
          ("10.7.0.0/16", STRANGER[1], 0)]
OTHER_ROUTES = [("10.9.0.0/16", BELOW[1], 1), ("10.8.0.0/16", ABOVE[1], 0)]
STATIC = [("239.1.0.0/16", "10.0.0.99")]
PROBED = ("225.1.1.1", "232.1.1.1", "239.1.1.1", "239.2.1.1", "239.9.9.9", "239.0.0.1", "239.0.0.5", "239.0.0.21")
Came = TypeVar("Came")


class Diverged(Exception):
    """What differs after an event, as lines."""


class Heard:
    """A router and its listener, and the reading beside them."""

    def __init__(self, library: Path, forgets: Iterable[str] = (), *, limit: int = 256, refresh_end: int = 0,
                 static: Iterable[tuple[str, str]] = tuple(STATIC), choice: str = "range") -> None:
        self.library, self.static, self.words = library, list(static), []
        self.bsr = Bsr(self.static, limit=limit, refresh_end=refresh_end, library=library)
        around = Around(INTERFACES, [LOOPBACK])
        self.wanted = Listener(around, self.static, limit=limit, refresh_end=refresh_end, forgets=forgets)
        self.router = self.made()
        for iface in range(len(INTERFACES)):
            self.up(iface)
        for neighbour in (ABOVE, BESIDE, BELOW):
            self.hello(*neighbour)
        self.set_routes(ROUTES)
        if choice != self.wanted.choice:
            self.choose(choice)

    def made(self) -> viqeshor.Router:
        return viqeshor.Router(INTERFACES, self.static, library=self.library, addresses=[LOOPBACK])

    def __enter__(self) -> "Heard":
        return self

    def __exit__(self, *_: object) -> None:
        self.bsr.end()
        self.router.end()

    # ---- events

    def up(self, iface: int) -> None:
        self.words.append(f"up {iface}")
        self.must(self.router.up(iface, 7))
        self.wanted.around.up.add(iface)

    def down(self, iface: int) -> None:
        self.words.append(f"down {iface}")
        self.must(self.router.down(iface, 7))
        self.wanted.around.down(iface)

    def hello(self, iface: int, whom: str, holdtime: int = 0xFFFF) -> None:
        self.words.append(f"Hello of {whom} on {iface}, {holdtime} s")
        is_gone = holdtime == 0 and (iface, whom) not in self.wanted.around.neighbours
        answer = self.router.frame(iface, packets.write_hello(whom, Hello(holdtime, generation=1)), 7)
        self.same("the answer", answer, Answer.NO_NEIGHBOUR if is_gone else Answer.DONE)
        self.wanted.around.hello(iface, whom, holdtime)

    def set_routes(self, routes: list[tuple[str, str, int]]) -> None:
        self.words.append(f"routes {routes}")
        self.must(self.router.set_routes([(net, hop, at, 110, 20) for net, hop, at in routes], 7))
        self.wanted.around.routes = routes

    def pass_to(self, moment: int) -> None:
        self.words.append(f"time passes to {moment}")
        while (end := self.bsr.next_end()) is not None and end <= moment:
            self.step_to(end)
        self.step_to(moment)
        self.compare()

    def step_to(self, moment: int) -> None:
        """Up to the end of an RP, or until one is nearest."""
        self.router.run_to(moment)
        moved, before = self.called(lambda: self.bsr.pass_to(moment)), self.wanted.given()
        self.wanted.pass_to(moment)
        self.same("whether the ranges moved", moved, before != self.wanted.given())
        if moved:
            self.give()

    def wait(self, ms: int) -> None:
        self.pass_to(self.wanted.around.now + ms)

    def configure(self, static: list[tuple[str, str]], limit: int = 256) -> None:
        self.words.append(f"ranges {static}, limit {limit}")
        self.router.packets()
        # Where each group has its own RP candidates follow, by a second event.
        called = self.called if self.wanted.choice == "range" else lambda call: call()
        self.must(called(lambda: self.bsr.set_ranges(self.router, static, limit=limit, draw=7)))
        self.wanted.configure(static, limit)
        self.compare()

    def choose(self, choice: str) -> None:
        self.words.append(f"an RP is chosen for a {choice}")
        self.router.packets()
        self.must(self.bsr.choose(self.router, Choice[choice.upper()], 7))
        self.wanted.choose(choice)
        self.compare()

    def tell(self, told: Bootstrap, by: tuple[int, str] = ABOVE, **how: Any) -> Answer:
        """A Bootstrap comes from a neighbour, or somebody else."""
        return self.frame(by[0], packet(by[1], bootstrap_message(told), **how))

    def frame(self, iface: int, data: bytes) -> Answer:
        """A packet comes on an interface. Answers what became of it."""
        self.words.append(f"on {iface} {data.hex()}")
        answer, wanted = self.router.frame(iface, data, 7), self.before_the_listener(iface, data)
        self.same("the router's answer", answer, answer if wanted is None else wanted)
        if answer == Answer.OTHER_TYPE:
            answer = self.hear(iface, data)
        self.compare()
        return answer

    def before_the_listener(self, iface: int, data: bytes) -> Answer | None:
        """What the router answers to a packet; None where it isn't said here."""
        try:
            read = packets.read_on_link(data)
        except packets.Refused as refused:
            return Answer(refused.args[0])
        if self.wanted.around.is_own(read.source):
            return Answer.OWN
        if isinstance(read.body, Hello):
            self.wanted.around.hello(iface, read.source, 105 if read.body.holdtime is None else read.body.holdtime)
        return Answer.OTHER_TYPE if isinstance(read.body, packets.OtherPim) else None

    def hear(self, iface: int, data: bytes) -> Answer:
        self.router.packets()
        heard = self.called(lambda: self.bsr.hear(self.router, iface, data))
        wanted = self.wanted.hear(iface, data)
        self.same("the answer", heard.answer, wanted.answer)
        self.same("whether the ranges moved", heard.moved, wanted.moved)
        self.same("what is sent on", tuple(map(tuple, self.router.packets())), wanted.sent)
        if heard.moved:
            self.give()
        return heard.answer

    def give(self) -> None:
        self.router.packets()
        self.must(self.called(lambda: self.bsr.give(self.router, 7)))

    def called(self, call: Callable[[], Came]) -> Came:
        """What comes of a call of the listener."""
        return call()

    # ---- what has to be

    def must(self, answer: Answer) -> None:
        self.same("what the router answers to what it is given", answer, Answer.DONE)

    def same(self, what: str, got: object, wanted: object) -> None:
        if got != wanted:
            raise Diverged(f"{what}:", f"  is        {got}", f"  has to be {wanted}")

    def compare(self) -> None:
        """All that is known, and what the router has of it."""
        self.compare_known()
        self.same("the router's RPs", {group: self.router.tree(group).rp for group in PROBED},
                  {group: self.wanted.rp(group) for group in PROBED})

    def compare_known(self) -> None:
        wanted, kept = self.wanted, self.wanted.kept
        rows = self.bsr.rps()
        told = [Learned(network(row.groups), row.rp, row.priority, row.end) for row in rows]
        self.same("the RPs", told, list(kept.rps))
        self.same("the hash masks", {row.hash_length for row in rows}, {kept.hash_length} if rows else set())
        parts = [Part(network(row.groups), CandidateRp(row.rp, row.holdtime, row.priority), row.bsr, row.tag, row.end)
                 for row in self.bsr.parts()]
        self.same("those that wait", parts, list(kept.parts))
        elected = self.bsr.elected()
        self.same("the elected BSR", elected and tuple(elected), wanted.elected)
        self.same("the next end", self.bsr.next_end(), wanted.next_end())
        self.same("the chosen RPs", {(network(row.groups), row.rp) for row in rows if row.is_given},
                  {(it.prefix, it.rp) for it in (*wanted.chosen().values(), *wanted.candidates())})
