"""A run traced: each packet of data from its source on, with every router that took it and every copy that was made of
it.

It follows what the run really did, as the printed lines and their scenario say it; no macro is evaluated here. """
from __future__ import annotations

from collections import defaultdict
from dataclasses import dataclass, field
from typing import TYPE_CHECKING

from pimtext.ways import streams
from viqeshor.lab import packets, story

if TYPE_CHECKING:
    from viqeshor.lab.scenario import Scenario

# A packet comes to the routers of its link by such moves, one directly after the other.
AT_ONCE = ("frame", "unicast")


@dataclass(eq=False)
class Taken:
    """A packet came to a router, which may have refused or ignored it: `at` is the number of the step among all steps.
    `iface` is None where it came in a Register; `before` is the copy that came, None where the source's own packet
    did."""
    at: int
    step: story.Step
    before: "Copy | None" = None
    copies: list = field(default_factory=list)

    @property
    def router(self) -> str:
        return self.step.router

    @property
    def iface(self) -> int | None:
        return self.step.iface

    @property
    def moment(self) -> int:
        return self.step.moment

    def is_done(self) -> bool:
        return self.step.verdict == "done"

    def words(self) -> str:
        return self.router if self.before is None or self.iface is not None else f"a Register to {self.router}"

    def way(self) -> list[Taken]:
        """The routers that the packet came by, as what they took of it, up to this one."""
        return [*(self.before.by.way() if self.before else []), self]


@dataclass(eq=False)
class Copy:
    """A copy on a link, or a Register with the packet in it; `taken` is by whom, empty where it came to nobody."""
    sent: story.Sent
    by: Taken
    taken: list = field(default_factory=list)

    def is_register(self) -> bool:
        return self.sent.is_unicast()

    def words(self) -> str:
        """The routers that it came by."""
        return f"by {', '.join(taken.words() for taken in self.by.way())}"


@dataclass(eq=False)
class Packet:
    """A packet of data as its source sent it. `link` is None where it came in a Register from outside the scenario;
    `number` counts those of its source and group from 1; `ttl` is the TTL that it began with."""
    source: str
    group: str
    link: str | None
    content: bytes
    number: int
    began: list = field(default_factory=list)

    @property
    def ttl(self) -> int:
        return self.content[8]

    @property
    def at(self) -> int:
        """The number of the step with which it came to the first router."""
        return self.began[0].at

    @property
    def moment(self) -> int:
        return self.began[0].moment

    def taken(self) -> list[Taken]:
        """By whom it was taken, in the order of the run, the packet itself and all its copies."""
        found, waiting = [], list(self.began)
        while waiting:
            taken = waiting.pop(0)
            found.append(taken)
            waiting += [other for copy in taken.copies for other in copy.taken]
        return sorted(found, key=lambda taken: taken.at)

    def copies(self) -> list[Copy]:
        return [copy for taken in self.taken() for copy in taken.copies]

    def on(self, link: str) -> list[Copy]:
        """The copies that were sent on a link."""
        return [copy for copy in self.copies() if not copy.is_register() and copy.sent.where == link]

    def ends(self) -> tuple[list[Taken], list[Copy]]:
        """Where it went no further: what a router took and sent nowhere, and copies that came to nobody."""
        silent = [taken for taken in self.taken() if not taken.copies]
        return silent, [copy for copy in self.copies() if not copy.taken]


# ---- which packets are data


def names(data: bytes) -> tuple[str, str] | None:
    """The source and group of a packet that claims to be data, though a router may refuse it; None of any other."""
    if len(data) < 20 or data[0] >> 4 != 4 or data[9] == packets.IGMP or not packets.is_multicast(data[16:20]):
        return None
    is_routers = data[9] == packets.PIM and data[16:20] == packets.ALL_PIM_ROUTERS
    return None if is_routers else (packets.dotted(data[12:16]), packets.dotted(data[16:20]))


def registered(data: bytes) -> bytes | None:
    """The packet of data in a Register, None in anything else."""
    header = 4 * (data[0] & 15) if data else 0
    if len(data) < header + 28 or data[9] != packets.PIM or data[header] != 0x20 | packets.REGISTER:
        return None
    return None if data[header + 4] & 0x40 else data[header + 8:]


def content_of(sent: story.Sent) -> bytes | None:
    """The packet of data that a router sent on, as a copy or in a Register; None where it sent anything else."""
    if sent.kind == "copy":
        return sent.data
    return registered(sent.data) if sent.is_unicast() else None


# ---- the run


class Tracer:
    """Follows the steps of a run, one after the other."""

    def __init__(self, played: Scenario) -> None:
        self.played, self.packets = played, []
        self.copies, self.counts = {}, defaultdict(int)

    def follow(self, at: int, step: story.Step) -> None:
        kind = step.did["do"]
        if kind in AT_ONCE:
            self.give(at, step, step.taken(), kind == "unicast")
        elif step.brought is not None and step.cause != "27" and step.brought.number in self.copies:
            copy = self.copies[step.brought.number]
            self.take(Taken(at, step, copy), copy.taken)

    def give(self, at: int, step: story.Step, data: bytes | None, is_unicast: bool) -> None:
        """A source's packet came to a router; all moves that bring the same bytes to routers of one link bring one
        packet."""
        data = registered(data) if is_unicast else data
        named = names(data) if data else None
        if named is None:
            return
        link = None if is_unicast else step.link
        alike = [each for each in self.packets if (each.link, each.content) == (link, data)]
        same = [each for each in alike if self.is_at_once(each, step)]
        self.take(Taken(at, step), (same[0] if same else self.packet(*named, link, data)).began)

    def is_at_once(self, packet: Packet, step: story.Step) -> bool:
        """Whether a packet comes to another router of its link with this step, and nothing happened since it came to
        the last one."""
        between = self.played.moves[packet.began[-1].step.move:step.move - 1]
        is_other = all((taken.router, taken.iface) != (step.router, step.iface) for taken in packet.began)
        return is_other and all(move["do"] in AT_ONCE for move in between)

    def packet(self, source: str, group: str, link: str | None, data: bytes) -> Packet:
        self.counts[source, group] += 1
        packet = Packet(source, group, link, data, self.counts[source, group])
        self.packets.append(packet)
        return packet

    def take(self, taken: Taken, among: list[Taken]) -> None:
        among.append(taken)
        for sent in taken.step.sent:
            content = content_of(sent)
            if content is not None and names(content) is not None:
                taken.copies.append(Copy(sent, taken))
                self.copies[sent.number] = taken.copies[-1]


def traced(played: Scenario, steps: list[story.Step]) -> list[Packet]:
    """All packets of data of a run, in the order in which their sources sent them."""
    tracer = Tracer(played)
    for at, step in enumerate(steps):
        if step.did is not None:
            tracer.follow(at, step)
    renumber(tracer.packets)
    return tracer.packets


def renumber(found: list[Packet]) -> None:
    """Numbers the packets of each sender by themselves where several senders have one address."""
    counts = defaultdict(int)
    for source, group in {(packet.source, packet.group) for packet in found}:
        if len(streams.origins(found, group, source)) > 1:
            for packet in found:
                if (packet.source, packet.group) == (source, group):
                    counts[source, group, packet.link] += 1
                    packet.number = counts[source, group, packet.link]
