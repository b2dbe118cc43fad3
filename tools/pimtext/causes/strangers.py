"""PIM messages that moves gave to routers: of neighbours that no router of the file is, and in the name of those that
are.

Which message made a stranger the DR, a next hop or the winner of an assert, and when, is told as the cause of what
follows. """
from __future__ import annotations

from collections.abc import Callable, Iterator
from dataclasses import dataclass
from typing import TYPE_CHECKING

from pimtext.ways import reasons, served
from viqeshor.lab import asked, packets, printed, words
from pimtext.causes.cause import Cause, Symptom
from viqeshor.lab.facts import DELAYS, USUAL
from pimtext.causes.run import gathered, some, times

if TYPE_CHECKING:
    from viqeshor.lab.known import Known
    from pimtext.causes.run import Run
    from viqeshor.lab.story import Step

# The holdtime of a Hello that never ends, in seconds.
FOR_EVER = 0xFFFF
# How often a neighbour's generation ID has to change for it to be told.
RESTARTS = 3
# The override interval and the propagation delay of a link where a neighbour says none, in ms (RFC 7761, 4.3.3).
USUAL_DELAY = sum(USUAL[key] for key in DELAYS)
SPOOFED = (packets.Hello, packets.JoinPrune, packets.Assert)


@dataclass(frozen=True)
class Heard:
    """A PIM message that a move gave to a router on a link."""
    at: int
    step: Step
    source: str
    body: object

    @property
    def router(self) -> str:
        return self.step.router

    @property
    def link(self) -> str | None:
        return self.step.link


def heard(run: Run) -> Iterator[Heard]:
    """All PIM messages of moves `frame` that a router took or ignored."""
    for at, step in enumerate(run.steps):
        data = step.taken() if step.did["do"] == "frame" and step.verdict != "refused" else None
        if data and len(data) >= 20 and data[9] == packets.PIM:
            packet = packets.read_on_link(data)
            yield Heard(at, step, packet.source, packet.body)


def hello_words(body: packets.Hello) -> str:
    said = "without a DR priority" if body.priority is None else f"DR priority {body.priority}"
    if body.holdtime == FOR_EVER:
        return f"{said}, and it holds for ever"
    return f"{said}, and it holds for {105 if body.holdtime is None else body.holdtime} s"


class Strangers:
    def __init__(self, run: Run) -> None:
        self.run, self.known, self.world = run, run.known, run.world
        self.heard = list(heard(run))
        self.sent = {sent.data for step in run.steps for sent in step.sent}
        hellos = [each for each in self.heard if isinstance(each.body, packets.Hello) and each.step.verdict == "done"]
        # Of neighbours that nobody here is, by link and address.
        self.hellos = gathered(((each.link, each.source), each) for each in hellos if not self.owner(each.source))

    def owner(self, address: str) -> Known | None:
        return self.world.owner(address)

    def when(self, each: Heard) -> str:
        return f"of {words.seconds(each.step.moment)} (move {each.step.move})"

    def line(self, each: Heard) -> object:
        return self.run.lines.move(each.step.move)

    # ---- neighbours that nobody here is

    def neighbours(self) -> Iterator[Cause]:
        """A Hello made somebody a neighbour, and so the DR, or a next hop to whom Joins go."""
        for (link, address), hellos in self.hellos.items():
            first, takers = hellos[0], some(dict.fromkeys(each.router for each in hellos))
            told = f"{address} on {link}, which no router here has, is a neighbour of {takers} by its Hello"
            told = f"{told} {self.when(first)}: {hello_words(first.body)}{self.uncounted(link, hellos)}"
            covers = lambda each, link=link, address=address: each.kind in ("dead dr", "no owner") and (
                each.link, each.address) == (link, address)
            yield Cause(self.line(first), told, covers, is_hint=True)

    def uncounted(self, link: str, hellos: list[Heard]) -> str:
        """Where a neighbour says no DR priority, and another priority than the usual one is configured: what follows
        (RFC 7761, 4.3.2)."""
        without = hellos[-1].body.priority is None
        own = [(name, each) for name, each in self.run.ports().get(link, []) if each.priority != 1]
        if not without or not own:
            return ""
        name, interface = own[0]
        own = f"that of {name} ({interface.priority})"
        return f"; so no priority counts on {link}, not {own}, and the highest address is the DR"

    def undelayed(self) -> Iterator[Cause]:
        """A neighbour without the LAN delay: its link has the usual intervals, whatever is configured (RFC 7761,
        4.3.3)."""
        for (link, address), hellos in self.hellos.items():
            last = hellos[-1]
            own = [each for _, each in self.run.ports().get(link, [])]
            tables = [self.known[name].router.table["iface"][each.number]
                      for name, each in self.run.ports().get(link, [])]
            delays = [sum(each.get(key, USUAL[key]) for key in DELAYS) for each in tables]
            if own and last.body.override is None and any(delay != USUAL_DELAY for delay in delays):
                told = f"the Hello of {address} on {link} {self.when(last)} says no LAN delay, so all routers there use"
                told = f"{told} {USUAL_DELAY / 1000:g} s and not the {max(delays) / 1000:g} s that are configured: so"
                yield Cause(self.line(last), f"{told} long a Prune there waits for a Join that overrides it")

    def restarts(self) -> Iterator[Cause]:
        """A neighbour has one generation ID until it starts again."""
        for (link, address), hellos in self.hellos.items():
            for name, mine in gathered((each.router, each) for each in hellos).items():
                changed = [other for one, other in zip(mine, mine[1:]) if one.body.generation != other.body.generation]
                if len(changed) >= RESTARTS:
                    first, last = changed[0], changed[-1]
                    often = times(len(changed), "time")
                    told = f"{address} on {link} came to {name} with another generation ID {often}"
                    told = f"{told}, from {words.seconds(first.step.moment)} to {words.seconds(last.step.moment)}: each"
                    told = f"{told} time {name} takes it to have started again, and sends it a Hello and its Joins"
                    yield Cause(self.line(first), told)
                    break

    # ---- in another's name

    def spoofed(self) -> Iterator[Cause]:
        """What comes in a router's name is sent by it."""
        odd = [each for each in self.heard if isinstance(each.body, SPOOFED) and each.step.taken() not in self.sent]
        others = [each for each in odd if (owner := self.owner(each.source)) and owner.router.name != each.router]
        pairs = (((each.link, each.source, self.kind(each)), each) for each in others)
        for (_, source, _), found in gathered(pairs).items():
            changed = {each.body.generation for each in found if isinstance(each.body, packets.Hello)}
            if len(changed) > 1:
                yield self.restarted(self.owner(source), found)
            else:
                yield from (self.in_name(each, self.owner(source)) for each in found)

    def restarted(self, owner: Known, found: list[Heard]) -> Cause:
        """Hellos in a router's name that each have another generation ID."""
        first, last, name = found[0], found[-1], owner.router.name
        takers = some(dict.fromkeys(each.router for each in found))
        told = f"{len(found)} Hellos in the name of {name} ({first.source}) came on {first.link} to {takers}, from"
        told = f"{told} {words.seconds(first.step.moment)} (move {first.step.move}) to"
        told = f"{told} {words.seconds(last.step.moment)} (move {last.step.move}), which {name} didn't send, each with"
        told = f"{told} another generation ID: each time {takers} takes {name} to have started again, and sends it a"
        return Cause(self.line(first), f"{told} Hello and its Joins")

    def in_name(self, each: Heard, owner: Known) -> Cause:
        name, link = owner.router.name, each.link
        told = f"move {each.step.move} (frame), router {each.router}: {self.kind(each)} in the name of {name}"
        told = f"{told} ({each.source}) came on {link} at {words.seconds(each.step.moment)}, which {name} didn't send"
        told += "" if each.step.verdict == "done" else f"; it was {words.answer(each.step.verdict, each.step.cause)}"
        end = len(self.run.steps)
        if isinstance(each.body, packets.Hello) and each.body.holdtime == 0 and each.step.verdict == "done":
            again = self.next_hello(each)
            told = f"{told}: {each.router} takes {name} to be gone, {self.until(again)}"
            end = again[0] if again else end

        def covers(symptom: Symptom) -> bool:
            is_then = symptom.at is None or each.at <= symptom.at <= end
            is_gone = symptom.kind == "no neighbour" and (symptom.router, symptom.address) == (each.router, each.source)
            is_odd = symptom.kind == "odd" and symptom.cause == "NoNeighbour" and symptom.host == each.source
            is_itself = symptom.kind == "odd" and symptom.at == each.at
            is_twice = symptom.kind == "twice" and symptom.link == link
            return is_itself or is_then and (is_gone or is_twice or (is_odd and symptom.router == each.router))

        return Cause(self.line(each), told, covers)

    @staticmethod
    def kind(each: Heard) -> str:
        if isinstance(each.body, packets.Hello):
            return "a farewell (a Hello with holdtime 0)" if each.body.holdtime == 0 else "a Hello"
        return "an Assert" if isinstance(each.body, packets.Assert) else "a Join/Prune"

    def next_hello(self, each: Heard) -> tuple[int, Step] | None:
        """The next Hello of an address that a router took after a message."""
        later = list(enumerate(self.run.steps))[each.at + 1:]
        return next(((at, step) for at, step in later if (step.router, step.link) == (each.router, each.link)
                     and step.verdict == "done" and is_hello_of(step, each.source)), None)

    @staticmethod
    def until(again: tuple[int, Step] | None) -> str:
        return f"until its Hello of {words.seconds(again[1].moment)}" if again else "and no Hello of it came since"

    # ---- Asserts

    def asserts(self) -> Iterator[Cause]:
        """An Assert of somebody else made it the one who forwards on a link."""
        told = [each for each in self.heard if isinstance(each.body, packets.Assert) and each.step.verdict == "done"]
        for key, found in gathered(((each.link, each.source, each.body.group), each) for each in told
                                   if not self.owner(each.source)).items():
            yield self.won(*key, found)

    def won(self, link: str, address: str, group: str, found: list[Heard]) -> Cause:
        first = found[0]
        takers = some(dict.fromkeys(each.router for each in found))
        told = f"an Assert of {address} on {link}, which no router here has, came to {takers} at"
        told = f"{told} {words.seconds(first.step.moment)} by move {first.step.move}, with preference"
        told = f"{told} {first.body.preference} and metric {first.body.metric}: who has the least forwards {group}"
        told = f"{told} there, and to that one Joins are sent"

        def covers(each: Symptom) -> bool:
            is_won = each.kind in ("no owner", "assert") and (each.link, each.address) == (link, address)
            is_after = each.at is None or each.at >= first.at
            return is_after and each.group == group and (is_won or (each.kind == "twice" and each.link == link))

        return Cause(self.line(first), told, covers)

    # ---- who lives by another's Joins

    def carried(self) -> Iterator[Cause]:
        """A router whose Joins reach nobody here, and whose packets come since another one on the link asks for them.
        """
        for name, state in self.known.items():
            for row in state.of(printed.Upstream):
                yield from self.carried_by(name, state, row)

    def carried_by(self, name: str, state: Known, row: printed.Upstream) -> Iterator[Cause]:
        if reasons.is_root(state, row.group, row.source):
            return
        above, end = served.next_up(self.world, state, row.group, row.source)
        came = [each for verdict in self.run.verdicts if verdict.stream.group == row.group and verdict.is_served
                for each in verdict.stream.first_arrivals() if each.copy and self.is_by(each.copy, name)]
        if above is not None or end.kind != "no owner" or end.link is None or not came:
            return
        others = [other for other, _ in self.run.ports()[end.link] if other != name
                  and any(asked.upstream_interface(self.known[other], row.group, row.source) is not None
                          for _ in self.run.wire.joins(other, end.link)[:1])]
        if others:
            tree = words.tree(row.group, row.source)
            told = f"{name} sends its Joins of {tree} to {end.address} on {end.link}, which no router here has, and"
            told = f"{told} which sends nothing: what comes to {name} comes by the Joins of {some(others)} there alone"
            hello = self.hellos.get((end.link, end.address))
            line = self.line(hello[0]) if hello else self.run.on_link(name, end.link)
            yield Cause(line, told)

    @staticmethod
    def is_by(copy: object, name: str) -> bool:
        return any(taken.router == name for taken in copy.by.way())

    def causes(self) -> Iterator[Cause]:
        parts: tuple[Callable[[], Iterator[Cause]], ...] = (self.asserts, self.neighbours, self.spoofed, self.undelayed,
                                                            self.restarts, self.carried)
        for told in parts:
            yield from told()


def is_hello_of(step: Step, address: str) -> bool:
    data = step.taken()
    return bool(data) and len(data) >= 20 and packets.dotted(data[12:16]) == address and packets.is_pim(
        data, packets.HELLO)
