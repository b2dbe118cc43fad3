"""A router of the library that may stand as BSR or as RP, with the reading beside it."""
from __future__ import annotations

import math
import random
from collections.abc import Callable, Iterable
from pathlib import Path
from typing import TypeVar

import viqeshor
from stress.advertised import AsBsr, AsRp, Differs, Sent
from stress.domains import Plan
from stress.rfc5059 import Around, Learned, Listener, network
from stress.standing import Standing
from viqeshor import Answer
from viqeshor.bsr import Bsr, Choice
from viqeshor.candidacy import Candidacy, CandidateBsr, CandidateRp

# How long a router that has just started takes a message with the No-Forward bit, in ms.
REFRESH = 60_000
PROBED = ("225.1.1.1", "239.1.1.1", "239.2.1.1", "239.9.9.9")
Came = TypeVar("Came")


def drawn(draws: random.Random) -> int:
    """A draw of a call, none by which a random delay is 0."""
    return draws.randrange(2**32 // 3001) * 3001 + draws.randint(1, 3000)


class Node:
    """A router, what hears Bootstraps before it, its candidacy, and the reading of these."""

    def __init__(self, library: Path, plan: Plan, number: int, moment: int, forgets: Iterable[str]) -> None:
        """A router that begins at a moment."""
        self.library, self.plan, self.number, self.forgets = library, plan, number, frozenset(forgets)
        self.name, self.sent = f"router {number}", []
        self.interfaces, own = plan.interfaces(number), [plan.loopback(number)]
        self.router = viqeshor.Router(self.interfaces, library=library, addresses=own)
        self.bsr = Bsr(limit=plan.limit, refresh_end=moment + REFRESH, library=library)
        around = Around(self.interfaces, own, plan.routes(number))
        self.reading = Standing(Listener(around, limit=plan.limit, refresh_end=moment + REFRESH))
        self.stands: Candidacy | None = None
        self.router.run_to(moment)
        around.now = moment
        for iface in range(len(self.interfaces)):
            self.must(self.router.up(iface, 7))
            around.up.add(iface)
        self.must(self.router.set_routes([(net, hop, at, 110, 20) for net, hop, at in around.routes], 7))
        self.must(self.bsr.choose(self.router, Choice[plan.choice.upper()], 7))
        self.reading.listener.choose(plan.choice)
        self.collect()

    def end(self) -> None:
        self.router.end()
        self.bsr.end()
        if self.stands:
            self.stands.end()

    def now(self) -> int:
        return self.reading.now()

    def stand(self, bsr: AsBsr | None, rp: AsRp | None, says_so: bool) -> None:
        """It stands as something else, or as nothing; the RP that was may say that it goes."""
        if self.stands and says_so:
            sent = self.called(lambda: self.stands.leave(self.bsr, self.router))
            self.sent += sent
            self.reading.leave(Sent(sent))
        if self.stands:
            self.stands.end()
        self.stands = self.candidacy(bsr, rp) if bsr or rp else None
        self.reading = Standing(self.reading.listener, bsr, rp, self.forgets)
        self.compare()
        if self.stands:
            self.pass_to(self.now(), 7)

    def candidacy(self, bsr: AsBsr | None, rp: AsRp | None) -> Candidacy:
        as_bsr = CandidateBsr(bsr.address, bsr.priority, bsr.hash_length, bsr.limit) if bsr else None
        as_rp = CandidateRp(rp.address, rp.ranges, rp.priority) if rp else None
        return Candidacy(as_bsr, as_rp, now=self.now(), library=self.library)

    # ---- events

    def look_around(self) -> None:
        """Who its neighbours are the router says itself."""
        self.reading.listener.around.neighbours = {
            (row.iface, row.address): math.inf for row in self.router.rows("N")}

    def collect(self) -> list[viqeshor.Sent]:
        sent = self.router.packets()
        self.sent += sent
        return sent

    def next_end(self) -> int | None:
        ends = self.router.next_moment(), self.bsr.next_end(), self.stands and self.stands.next_end()
        return min((end for end in ends if end is not None), default=None)

    def run_to(self, moment: int, draws: random.Random) -> None:
        while (end := self.next_end()) is not None and end <= moment:
            self.step_to(max(end, self.now()), drawn(draws))
        self.step_to(moment, drawn(draws))

    def step_to(self, moment: int, draw: int) -> None:
        self.must(self.router.advance(moment, draw))
        self.collect()
        self.reading.listener.around.now = moment
        self.pass_to(moment, draw)

    def pass_to(self, moment: int, draw: int) -> None:
        self.look_around()
        if self.stands:
            moved = self.called(lambda: self.stands.pass_to(self.bsr, self.router, moment, draw))
        else:
            moved = self.bsr.pass_to(moment)
        self.same("whether the RPs moved as time passed", moved, self.reading.pass_to(moment, Sent(self.collect())))
        self.give(moved, draw)
        self.compare()

    def give(self, moved: bool, draw: int) -> None:
        if moved:
            self.must(self.bsr.give(self.router, draw))
            self.collect()

    def frame(self, iface: int, data: bytes, draw: int) -> None:
        answer = self.router.frame(iface, data, draw)
        self.collect()
        if answer == Answer.OTHER_TYPE:
            self.hear(iface, data, draw)

    def hear(self, iface: int, data: bytes, draw: int) -> None:
        self.look_around()
        if self.stands:
            answer, moved = self.called(lambda: self.stands.hear(self.bsr, self.router, iface, data, draw))
        else:
            answer, moved = self.bsr.hear(self.router, iface, data)
        wanted = self.reading.hear(iface, data, Sent(self.collect()))
        self.same("the answer, and whether the RPs moved", (answer, moved), wanted)
        self.give(moved, draw)
        self.compare()

    def unicast(self, data: bytes, draw: int) -> int:
        answer = self.router.unicast(data, draw)
        self.collect()
        if answer != Answer.NOT_FOR_ME or not self.stands:
            return answer
        answer = self.called(lambda: self.stands.hear_unicast(self.router, data))
        self.same("the answer to an advertisement", answer, self.reading.hear_unicast(data))
        self.compare()
        return answer

    def called(self, call: Callable[[], Came]) -> Came:
        """What comes of a call of the candidacy."""
        return call()

    # ---- what has to be

    def must(self, answer: int) -> None:
        self.same("an answer", answer, Answer.DONE)

    def same(self, what: str, got: object, wanted: object) -> None:
        if got != wanted:
            raise Differs(f"{self.name}: {what} is {got}, and has to be {wanted}")

    def compare(self) -> None:
        listener = self.reading.listener
        if self.stands:
            self.compare_standing()
        known = {Learned(network(row.groups), row.rp, row.priority, row.end) for row in self.bsr.rps()}
        self.same("what is known", known, set(listener.kept.rps))
        elected = self.bsr.elected()
        self.same("the elected BSR", elected and tuple(elected), listener.elected)
        self.same("the router's RPs", {group: self.router.tree(group).rp for group in PROBED},
                  {group: listener.rp(group) for group in PROBED})

    def compare_standing(self) -> None:
        state, reading = self.stands.standing(), self.reading
        self.same("what it is, and whom it tells", (state.role.name.lower(), state.told), (reading.role, reading.told))
        reading.adopt(state.end, state.told_end)
        self.same("the RPs that it holds", {(network(row.groups), *row[1:]) for row in self.stands.rps()},
                  {(net, rp, *row) for (net, rp), row in reading.held.items()})
        self.same("the candidacy's next end", self.stands.next_end(), reading.next_end())
