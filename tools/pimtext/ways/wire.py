"""What was lost between routers in a run: of each packet that one sent, which others on its link, or at its
destination, it never came to though their interface was up."""
from __future__ import annotations

from collections import defaultdict
from collections.abc import Collection
from dataclasses import dataclass, field
from typing import TYPE_CHECKING

from viqeshor.lab import packets, story
from viqeshor.lab.scenario import numbers_after

if TYPE_CHECKING:
    from viqeshor.lab.scenario import Scenario

HELLO, JOIN, ASSERT = "Hello", "Join/Prune", "Assert"
DATA, REGISTER, OTHER = "data", "Register", "other"
KINDS = {packets.HELLO: HELLO, packets.JOIN_PRUNE: JOIN, packets.ASSERT: ASSERT}
PLURALS = {
    HELLO: "Hellos", JOIN: "Joins and Prunes", ASSERT: "Asserts", DATA: "packets of data", REGISTER: "Registers",
    OTHER: "other packets",
}
SINGULARS = {
    HELLO: "Hello", JOIN: "Join or Prune", ASSERT: "Assert", DATA: "packet of data", REGISTER: "Register",
    OTHER: "other packet",
}
# So many losses one after the other are a stretch, and so many stretches at most aren't chance.
LEAST, MOST = 2, 4


@dataclass(eq=False)
class Stretch:
    """Packets of one kind that were lost one after the other, and the next one that came, None where none did."""
    kind: str
    lost: list
    until: story.Sent | None

    @property
    def began(self) -> story.Sent:
        return self.lost[0]

    def is_with(self, other: Stretch) -> bool:
        """Whether two are at one time."""
        ends = [each.until.move if each.until else each.lost[-1].move for each in (self, other)]
        is_open = self.until is None and other.until is None
        return is_open or (self.began.move <= ends[1] and other.began.move <= ends[0])


@dataclass(eq=False)
class Way:
    """What one router sent to another on a link, None where it was unicasts: by kind, all and what was lost."""
    sender: str
    receiver: str
    link: str | None
    sent: dict = field(default_factory=lambda: defaultdict(list))
    lost: dict = field(default_factory=lambda: defaultdict(list))

    def all_lost(self) -> list[str]:
        """The kinds of which nothing came."""
        return [kind for kind, sent in self.sent.items() if len(self.lost[kind]) == len(sent)]

    def stretches(self) -> list[Stretch]:
        """Where packets of a kind were lost for a while, of kinds of which others came before or after, and none was
        lost but so."""
        found = []
        for kind, lost in self.lost.items():
            here = self.runs(kind) if lost and len(lost) < len(self.sent[kind]) else []
            if len(here) <= MOST and all(len(each.lost) >= LEAST or each.until is None for each in here):
                found += here
        return found

    def runs(self, kind: str) -> list[Stretch]:
        lost, found, is_open = set(map(id, self.lost[kind])), [], False
        for sent in self.sent[kind]:
            if id(sent) not in lost:
                if is_open:
                    found[-1].until = sent
                is_open = False
            elif is_open:
                found[-1].lost.append(sent)
            else:
                found.append(Stretch(kind, [sent], None))
                is_open = True
        return found

    def is_dead(self) -> bool:
        return bool(self.sent) and len(self.all_lost()) == len(self.sent)

    def words(self, kinds: Collection[str] | None = None) -> str:
        """How many were lost, of these kinds or of all."""
        chosen = [kind for kind in PLURALS if self.lost[kind] and (kinds is None or kind in kinds)]
        return ", ".join(f"{len(self.lost[kind])} of {len(self.sent[kind])} {PLURALS[kind]}" for kind in chosen)


def kind_of(sent: story.Sent) -> str:
    if sent.kind == "copy":
        return DATA
    if sent.is_unicast():
        return REGISTER if sent.data[20] & 15 == packets.REGISTER else OTHER
    return next((name for kind, name in KINDS.items() if packets.is_pim(sent.data, kind)), OTHER)


class Wire:
    """All that was sent in a run: `came` has the steps that brought each packet, by its number."""

    def __init__(self, played: Scenario, steps: list[story.Step]) -> None:
        self.present, self.steps, self.ways = played.begun(), steps, {}
        self.came, self.up = defaultdict(list), set()
        for step in steps:
            if step.brought is not None and step.cause != "27":
                self.came[step.brought.number].append(step)
        kinds = ("settle", "deliver", "carry")
        self.last = max((at for at, did in enumerate(played.moves, 1) if did["do"] in kinds), default=0)
        for step in steps:
            self.follow(step)

    def follow(self, step: story.Step) -> None:
        if step.did["do"] == "up" and step.verdict == "done":
            self.up.add((step.router, step.iface))
        if step.did["do"] == "down":
            self.up.discard((step.router, step.iface))
        for sent in step.sent:
            # What is sent after the last delivery is still on its way at the end.
            if sent.move <= self.last:
                self.count(sent)
        if step.did["do"] == "reload" and step.verdict == "done":
            there = numbers_after(step.did)
            own = {(name, iface) for name, iface in self.up if name == step.router}
            self.up = self.up - own | {(name, there[iface]) for name, iface in own if iface in there}
            self.present = self.present.reloaded(step.router, step.did["config"])

    def count(self, sent: story.Sent) -> None:
        kind, came = kind_of(sent), {(step.router, step.iface) for step in self.came[sent.number]}
        for router, iface in story.receivers(self.present, sent):
            if iface is not None and (router, iface) not in self.up:
                continue
            link = None if iface is None else sent.where
            way = self.ways.setdefault((sent.router, router, link), Way(sent.router, router, link))
            way.sent[kind].append(sent)
            if (router, iface) not in came:
                way.lost[kind].append(sent)

    def way(self, sender: str, receiver: str, link: str | None) -> Way:
        return self.ways.get((sender, receiver, link)) or Way(sender, receiver, link)

    # ---- Joins

    def joins(self, router: str, link: str) -> list[tuple[story.Sent, packets.JoinPrune]]:
        """The Joins and Prunes that a router sent on a link, with what they say."""
        found = [sent for step in self.steps for sent in step.sent if (sent.router, sent.where) == (router, link)]
        return [(sent, sent.packet().body) for sent in found if kind_of(sent) == JOIN]

    def answer(self, sent: story.Sent, router: str) -> story.Step | None:
        """The first step at which a packet came to a router, None where it never did."""
        return next((step for step in self.came[sent.number] if step.router == router), None)


def names_group(body: packets.JoinPrune, group: str, is_join: bool) -> bool:
    """Whether a Join/Prune joins, or prunes, anything of a group."""
    return any(each.group == group and (each.joins if is_join else each.prunes) for each in body.groups)
