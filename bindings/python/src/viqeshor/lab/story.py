"""The printed lines beside their scenario: what each move was, and which packet a delivery brought."""
from __future__ import annotations

from collections.abc import Iterable, Iterator
from dataclasses import dataclass, field
from itertools import chain
from typing import TYPE_CHECKING, Any, NamedTuple, TypeVar

from viqeshor.lab import packets, printed
from viqeshor.lab.older import read_heard

if TYPE_CHECKING:
    from viqeshor.lab.scenario import Router, Scenario
    from viqeshor.lab.twin import Twin

    R = TypeVar("R")

# How many deliveries one settle makes at most.
SETTLE_LIMIT = 10_000


@dataclass(frozen=True)
class Sent:
    """A packet that a router sent: `where` is a link, or for a unicast its destination; `moment` is the router's, in
    ms; `iface` is the interface that it left on, None for a unicast.
    """
    kind: str
    number: int
    where: str
    data: bytes
    router: str
    move: int
    moment: int
    iface: int | None = None

    def is_unicast(self) -> bool:
        return self.kind == "unicast"

    def packet(self) -> packets.Packet:
        """The packet read; raises packets.Refused where it is malformed."""
        if self.kind == "copy":
            return packets.read_data(self.data)
        return packets.read(self.data) if self.is_unicast() else read_heard(self.data)


@dataclass
class Step:
    """A move, or a delivery of a settle: who took what, and what left. `did` is the move's table, None where it isn't
    known. `link` is that of the interface `iface` at the time, None where the router had no such interface.
    """
    move: int
    router: str
    verdict: str
    cause: str | None
    moment: int
    did: dict | None = None
    brought: Sent | None = None
    iface: int | None = None
    link: str | None = None
    sent: list = field(default_factory=list)

    def answer(self) -> str:
        return self.verdict if self.cause is None else f"{self.verdict} {self.cause}"

    def lines(self) -> list[str]:
        """The lines that `pimlab run` prints of it."""
        sent = (f"{each.kind} {each.number} {each.where} {each.data.hex()}" for each in self.sent)
        return [f"move {self.move} {self.router} {self.answer()}", *sent]

    def is_settle(self) -> bool:
        return self.did is not None and self.did["do"] == "settle"

    def taken(self) -> bytes | None:
        """The bytes of the packet that came, None where none did."""
        if self.brought is not None:
            return self.brought.data
        return bytes.fromhex(self.did["hex"]) if self.did is not None and "hex" in self.did else None


@dataclass
class Tables:
    """What a router knows at last: rows as viqeshor.lab.printed has them."""
    router: str
    moment: int
    rows: list = field(default_factory=list)

    def of(self, table: type[R], /, **values: object) -> list[R]:
        return printed.rows_of(self.rows, table, **values)


# The only option of a goodbye: a holdtime of 0 s.
GOODBYE = bytes.fromhex("000100020000")


class Untold(Exception):
    """The lines aren't those of the scenario."""


def left_on(step: Step, emission: printed.Emission, before: Router, after: Router) -> int | None:
    """The interface that a packet left on. `before` is the router with the links that it had, on which it left, `after`
    with the addresses that it has since; what a `reload` removes, and its goodbyes, have those that it had. Where
    several of its interfaces are on the link, a router's own packet has the address of its interface, and of a copy the
    lines don't say it: the answer is the first one that the packet didn't come on."""
    if emission.kind == "unicast":
        return None
    here = [each.number for each in before.on(emission.where)]
    if emission.kind == "frame":
        source = packets.dotted(emission.data[12:16])
        now = before if emission.data.endswith(GOODBYE) else after
        own = [number for number in here if (now.address(number) or before.address(number)) == source]
        return next(iter(own or here), None)
    return next((number for number in here if number != step.iface), next(iter(here), None))


def doubled(scenario: Scenario) -> set[str]:
    """The routers that at some time have several interfaces on one link."""
    tables = [(router.name, router.table) for router in scenario.routers]
    tables += [(did["router"], did["config"]) for did in scenario.moves if did["do"] == "reload"]
    links = [(name, [row["link"] for row in table["iface"]]) for name, table in tables]
    return {name for name, here in links if len(set(here)) < len(here)}


def receivers(scenario: Scenario, sent: Sent) -> list[tuple[str, int | None]]:
    """Whom a settle brings a packet to where the routers have these interfaces: pairs of a router's name and an
    interface, None for a unicast. A packet is on the link on which its interface is by then."""
    if sent.is_unicast():
        return [(scenario.owners[sent.where], None)] if sent.where in scenario.owners else []
    link = scenario.router(sent.router).link(sent.iface)
    return [port for port in scenario.ports.get(link, ()) if port != (sent.router, sent.iface)]


class Teller:
    """Follows the lines, one after the other. Without a scenario it knows what the lines say alone. `present` has the
    interfaces that the routers have at the moment, `before` those that they had before the move."""

    def __init__(self, scenario: Scenario | None = None) -> None:
        self.scenario = scenario
        self.present = self.before = None if scenario is None else scenario.begun()
        self.moments = {}
        self.sent = []
        self.taken = 0
        self.begun = 0
        self.settling = iter(())
        # Of routers with several interfaces on a link, a router of the library that takes the same.
        self.twins = {}
        self.doubled = doubled(scenario) if scenario else set()

    def after(self, scenario: Scenario) -> Teller:
        """Another one that goes on where this one is, in a scenario that has more moves."""
        other = Teller(scenario)
        other.present, other.before, other.doubled = self.present, self.present, set()
        other.moments, other.sent, other.taken, other.begun = dict(self.moments), list(
            self.sent), self.taken, self.begun
        return other

    def follow(self, steps: Iterable[Step], begun: int) -> None:
        """Goes on past the steps of whole moves, up to the move of this number."""
        self.begun, made = begun, 0
        for step in steps:
            self.sent += step.sent
            if step.is_settle():
                made += 1
                self.taken = step.brought.number if made == SETTLE_LIMIT else len(self.sent)
            else:
                self.go_on(step)

    def go_on(self, step: Step) -> None:
        """Keeps what a move of a router's own changes for what comes after it."""
        if step.did["do"] == "advance" and step.verdict == "done":
            self.moments[step.router] = step.moment
        if step.did["do"] == "reload" and step.verdict == "done":
            self.present = self.present.reloaded(step.router, step.did["config"])

    def moment(self, router: str) -> int:
        return self.moments.get(router, 0)

    def deliveries(self) -> Iterator[tuple[Sent, str, int | None]]:
        """What the settle that has begun delivers. What is sent meanwhile follows: it is asked after each delivery."""
        made = 0
        while self.taken < len(self.sent) and made < SETTLE_LIMIT:
            sent = self.sent[self.taken]
            self.taken += 1
            for receiver in receivers(self.present, sent):
                if made == SETTLE_LIMIT:
                    break
                made += 1
                yield sent, *receiver

    def begin(self, number: int) -> None:
        """Goes on to a move. Settles in between had nothing to deliver."""
        while self.begun < number:
            self.end_settle()
            self.begun += 1
            if self.move(self.begun)["do"] == "settle":
                self.settling = self.deliveries()

    def end_settle(self) -> None:
        if next(self.settling, None) is not None:
            raise Untold(f"move {self.begun}: not all deliveries are answered")

    def move(self, number: int) -> dict[str, Any]:
        if number > len(self.scenario.moves):
            raise Untold(f"the scenario has no move {number}")
        return self.scenario.moves[number - 1]

    def step(self, answer: printed.Answer) -> Step:
        """The step that an answer begins."""
        step = Step(answer.move, answer.router, answer.verdict, answer.cause, self.moment(answer.router))
        if self.scenario is None:
            return step
        self.begin(answer.move)
        step.did, self.before = self.move(answer.move), self.present
        if step.is_settle():
            self.deliver(step)
        else:
            self.make(step)
        step.link = self.before.router(step.router).link(step.iface)
        if step.router in self.doubled:
            self.twin(step.router).take_note(step)
        return step

    def deliver(self, step: Step) -> None:
        step.brought, router, step.iface = next(self.settling, (None, None, None))
        if router != step.router:
            raise Untold(f"move {step.move}: {step.router} answers where {router} takes a packet")

    def make(self, step: Step) -> None:
        """A move of its own."""
        did = step.did
        if did["router"] != step.router:
            raise Untold(f"move {step.move} is one of {did['router']}")
        step.iface = did.get("iface")
        if did["do"] == "advance" and step.verdict == "done":
            step.moment = did["moment"]
        self.go_on(step)
        if did["do"] in ("deliver", "carry") and 1 <= did["frame"] <= len(self.sent):
            step.brought = self.sent[did["frame"] - 1]

    def sending(self, step: Step, emission: printed.Emission) -> None:
        sent = Sent(*emission, step.router, step.move, step.moment, self.left_on(step, emission))
        self.sent.append(sent)
        step.sent.append(sent)

    def left_on(self, step: Step, emission: printed.Emission) -> int | None:
        if self.scenario is None:
            return None
        if emission.kind == "copy" and step.router in self.doubled:
            return self.twin(step.router).last()[len(step.sent)].where
        return left_on(step, emission, self.before.router(step.router), self.present.router(step.router))

    def twin(self, name: str) -> Twin:
        if name not in self.twins:
            from viqeshor.lab.twin import Twin
            self.twins[name] = Twin(self.scenario.router(name).table)
        return self.twins[name]

    def tell(self, lines: Iterable[str]) -> Iterator[Step | Tables]:
        """Steps and then tables, each as soon as it is whole."""
        whole = None
        for said in chain(map(printed.parsed, lines), [None]):
            if isinstance(said, printed.Emission):
                self.sending(self.whole(whole, Step, said), said)
            elif said is None or isinstance(said, (printed.Answer, printed.Heading)):
                if whole is not None:
                    yield whole
                whole = self.begun_by(said)
            else:
                self.whole(whole, Tables, said).rows.append(said)

    @staticmethod
    def whole(begun: Step | Tables | None, wanted: type[R], said: printed.Emission | printed.Row) -> R:
        """What a line belongs to: a packet to the step of its answer, a row to the tables of its router."""
        if isinstance(begun, wanted):
            return begun
        if wanted is Step:
            raise Untold(f"packet {said.number} stands under no answer of a router")
        raise Untold(f"a row of the table {type(said).__name__} stands under no line `router NAME`")

    def begun_by(self, said: printed.Answer | printed.Heading | None) -> Step | Tables | None:
        if isinstance(said, printed.Answer):
            return self.step(said)
        return None if said is None else Tables(said.router, self.moment(said.router))

    def told(self, lines: Iterable[str]) -> tuple[list[Step], dict[str, Tables]]:
        """All steps, and the tables by routers' names."""
        parts = list(self.tell(lines))
        steps = [part for part in parts if isinstance(part, Step)]
        return steps, {part.router: part for part in parts if isinstance(part, Tables)}


class Story(NamedTuple):
    """The steps of a run, and the tables at its end where they were printed: else routers are asked for them."""
    steps: list[Step]
    tables: dict[str, Tables]


def played(scenario: Scenario, lines: Iterable[str] | Story) -> Story:
    """The same of a scenario, of which the lines may have been read already."""
    return lines if isinstance(lines, Story) else Story(*Teller(scenario).told(lines))
