"""Links, interfaces and routers that were down for a while in a run, as the cause of what was missed until their
neighbours knew one another again."""
from __future__ import annotations

from collections.abc import Iterator
from dataclasses import dataclass
from typing import TYPE_CHECKING

from viqeshor.lab import printed, words
from pimtext.causes.cause import Cause
from pimtext.causes.run import gathered, some
from pimtext.ways.wire import names_group

if TYPE_CHECKING:
    from pimtext.causes.cause import Symptom
    from pimtext.causes.interfaces import Interfaces
    from pimtext.causes.run import Run

Port = tuple[str, int]


@dataclass(frozen=True)
class Gap:
    """Interfaces that were down at once: the steps with which the first went down and the last up again."""
    ports: frozenset[Port]
    began: int
    ended: int

    def is_with(self, other: Gap) -> bool:
        return self.began <= other.ended and other.began <= self.ended

    def merged(self, other: Gap) -> Gap:
        return Gap(self.ports | other.ports, min(self.began, other.began), max(self.ended, other.ended))


def merged(gaps: list[Gap]) -> list[Gap]:
    """Gaps that overlap as one."""
    found = []
    for gap in sorted(gaps, key=lambda each: each.began):
        if found and found[-1].is_with(gap):
            found[-1] = found[-1].merged(gap)
        else:
            found.append(gap)
    return found


class Gaps:
    def __init__(self, run: Run, interfaces: Interfaces) -> None:
        self.run, self.known, self.interfaces = run, run.known, interfaces

    def single(self) -> Iterator[Gap]:
        for key, turns in self.interfaces.turns.items():
            for (began, step), (ended, _) in zip(turns, turns[1:]):
                if step.did["do"] == "down":
                    yield Gap(frozenset([key]), began, ended)

    def causes(self) -> Iterator[Cause]:
        """What was down at once is one cause, and so is what was down several times."""
        for ports, gaps in gathered((gap.ports, gap) for gap in merged(list(self.single()))).items():
            yield self.cause(ports, gaps)

    def cause(self, ports: frozenset[Port], gaps: list[Gap]) -> Cause:
        steps = self.run.steps
        spans = [f"from {words.seconds(steps[each.began].moment)} to {words.seconds(steps[each.ended].moment)}"
                 for each in gaps]
        shown = ", ".join(spans[:6]) + (" .." if len(spans) > 6 else "")
        often = f" {len(spans)} times:" if len(spans) > 1 else ""
        first = steps[gaps[0].began]
        told = f"{self.what(ports)} down{often} {shown}, first by move {first.move}"
        covers = lambda each: each.at is not None and any(self.follows(each, gap) for gap in gaps)
        return Cause(self.run.lines.move(first.move), told, covers, is_hint=True)

    def what(self, ports: frozenset[Port]) -> str:
        """Whole routers, whole links and single interfaces, in words."""
        names = [name for name in dict.fromkeys(name for name, _ in sorted(ports)) if self.is_whole(name, ports)]
        left = sorted(port for port in ports if port[0] not in names)
        links = [link for link in dict.fromkeys(self.link(port) for port in left) if self.is_link(link, ports)]
        single = [f"interface {number} of {name} (link {self.link((name, number))})" for name, number in left
                  if self.link((name, number)) not in links]
        parts = [self.named("router", names), self.named("link", links), some(single, 4)]
        count = len(names) + len(links) + len(single)
        return f"{' and '.join(part for part in parts if part)} {'was' if count == 1 else 'were'}"

    @staticmethod
    def named(what: str, names: list[str]) -> str:
        return f"the {what}{'s' * (len(names) > 1)} {' and '.join(names)}" if names else ""

    def is_whole(self, name: str, ports: frozenset[Port]) -> bool:
        every = {(name, each.number) for each in self.known[name].configured()}
        return len(every) > 1 and every <= ports

    def is_link(self, link: str, ports: frozenset[Port]) -> bool:
        return all((name, each.number) in ports for name, each in self.interfaces.ports.get(link, []))

    def link(self, port: Port) -> str:
        return self.known[port[0]].link(port[1])

    # ---- what follows

    def follows(self, each: Symptom, gap: Gap) -> bool:
        """Whether a symptom follows from a gap, in it or until what was known before it is known again."""
        if each.at < gap.began:
            return False
        links = {self.link(port) for port in gap.ports}
        if each.kind == "no neighbour":
            return self.is_port(each, gap, links) and (
                each.at <= gap.ended or self.is_unmet(each, gap, each.address))
        if each.kind == "no join":
            return self.interfaces.is_used(each, links, gap.began) and self.is_unjoined(each, gap)
        if each.kind == "odd" and each.cause == "NoNeighbour":
            return each.link in links and self.is_unmet(each, gap, each.host)
        if each.at > gap.ended:
            return False
        if each.kind == "no route":
            return self.interfaces.is_cut_off(each, gap.ports)
        if each.kind == "lost" and each.link is None:
            return self.interfaces.led_over(each.router, each.address, links)
        if each.kind in ("odd", "refused"):
            return each.cause == "23" and self.is_port(each, gap, links)
        return each.kind in ("interface down", "down", "dead dr", "not the source's dr", "lost") and each.link in links

    def is_port(self, each: Symptom, gap: Gap, links: set[str]) -> bool:
        return each.link in links and (each.router in {name for name, _ in gap.ports} or self.is_beside(each, gap))

    def is_beside(self, each: Symptom, gap: Gap) -> bool:
        """Whether the address of a symptom is that of an interface that was down."""
        return any(self.known[name].router.address(number) == each.address for name, number in gap.ports)

    def is_unmet(self, each: Symptom, gap: Gap, address: str | None) -> bool:
        """Whether a neighbour that was known before a gap isn't known since."""
        def knows(at: int) -> bool:
            state = self.run.past.known(at)[each.router]
            return any(state.link(row.iface) == each.link for row in state.of(printed.Neighbour, address=address))
        return knows(gap.began) and not knows(each.at)

    def is_unjoined(self, each: Symptom, gap: Gap) -> bool:
        """Whether no Join of the router below came between the end of a gap and a symptom."""
        said = self.run.wire.joins(each.address, each.link)
        joins = [sent for sent, body in said if names_group(body, each.group, True)]
        came = [self.run.wire.answer(sent, each.router) for sent in joins]
        later = {id(step) for step in self.run.steps[gap.ended:each.at]}
        return not any(step is not None and id(step) in later and step.verdict == "done" for step in came)
