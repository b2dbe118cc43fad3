"""What the routers of a run were told, and when: interfaces, routes, RP ranges and candidate RPs, with the move that
set each last."""
from __future__ import annotations

from collections.abc import Callable, Iterable
from dataclasses import dataclass, replace
from typing import TYPE_CHECKING, Any

from viqeshor.lab import words
from viqeshor.lab.addresses import ip_address, longest, ranges_of, routes_of
from viqeshor.lab.known import given_of
from viqeshor.lab.learner import hears
from viqeshor.lab.rps import Candidate, candidates_of, rp_among
from viqeshor.lab.scenario import router_of
from viqeshor.lab.twin import Twin

if TYPE_CHECKING:
    from ipaddress import IPv4Network
    from viqeshor.lab.lines import Line, Lines as LabLines
    from viqeshor.lab.addresses import Route
    from pimtext.causes.notes import Lines
    from viqeshor.lab.scenario import Router, Scenario
    from viqeshor.lab.story import Step

KINDS = ("routes", "rps", "candidates", "reload")


@dataclass(frozen=True)
class Told:
    """What holds at a router from a step on; `step` is None for what the file itself says."""
    at: int
    step: Step | None
    router: Router
    routes: list[Route]
    ranges: list[tuple[IPv4Network, str]]
    candidates: list[Candidate]

    def rp(self, group: str) -> str | None:
        found = rp_among(self.ranges, self.candidates, group)
        return found and found[1]

    def route(self, address: str) -> Route | None:
        return longest([(each.prefix, each) for each in self.routes], ip_address(address))

    def interface(self, number: int) -> str | None:
        """An interface's address and link; None where the router has none of this number."""
        if number >= len(self.router.interfaces):
            return None
        each = self.router.interfaces[number]
        return f"{each.own} on {each.link}"

    def way(self, address: str) -> tuple[str, str | None] | None:
        """Where the route to an address leads: the next hop and the link."""
        found = self.route(address)
        return None if found is None else (found.next_hop, self.router.link(found.iface))


@dataclass(frozen=True)
class Since:
    """A fact with the steps between which it held: from the beginning where `began` is None, to the end where `ended`
    is. `before` is what it was before, `after` what it was after."""
    now: Any
    began: Step | None
    before: Any
    ended: Step | None
    after: Any


class Settings:
    """`lines` says where moves and routers stand."""

    def __init__(self, played: Scenario, steps: list[Step], lines: Lines | LabLines) -> None:
        self.lines = lines
        self.told = {each.name: [Told(-1, None, router_of(each.table), each.routes, each.rps, [])]
                     for each in played.routers}
        twins = {each.name: Twin(each.table) for each in played.routers}
        for at, step in enumerate(steps):
            twins[step.router].take_note(step)
            if step.did["do"] in KINDS and step.verdict == "done":
                self.told[step.router].append(self.after(self.told[step.router][-1], at, step))
            self.learn(twins[step.router], at, step)

    def learn(self, twin: Twin, at: int, step: Step) -> None:
        """What a router has of its listener after a step, where these are other ranges."""
        was = self.told[step.router][-1]
        if step.verdict != "done" or not hears(was.router.table):
            return
        ranges = given_of(twin, len(twin.events))
        if ranges == was.ranges:
            return
        if was.at == at:
            self.told[step.router].pop()
        self.told[step.router].append(replace(was, at=at, step=step, ranges=ranges))

    @staticmethod
    def after(was: Told, at: int, step: Step) -> Told:
        did, now = step.did, replace(was, at=at, step=step)
        match did["do"]:
            case "routes":
                return replace(now, routes=routes_of(did["list"]))
            case "rps":
                return replace(now, ranges=ranges_of(did["list"]))
            case "candidates":
                return replace(now, candidates=candidates_of(did["list"]))
        router = router_of({**did["config"], "name": step.router})
        return replace(now, router=router, routes=router.routes, ranges=router.rps)

    def at(self, name: str, at: int | None = None) -> Told:
        """What held at a router before a step, at the end without one."""
        told = self.told[name]
        return next(each for each in reversed(told) if at is None or each.at < at or each.step is None)

    def since(self, name: str, value: Callable[[Told], Any], at: int | None = None) -> Since:
        """When and by which steps a fact came to be what it is before a step, and ended."""
        told, here = self.told[name], self.told[name].index(self.at(name, at))
        now = value(told[here])
        first = next((place for place in range(here, -1, -1) if value(told[place]) != now), None)
        last = next((place for place in range(here, len(told)) if value(told[place]) != now), None)
        began = (None, None) if first is None else (told[first + 1].step, value(told[first]))
        ended = (None, None) if last is None else (told[last].step, value(told[last]))
        return Since(now, *began, *ended)

    def had(self, address: str) -> tuple[str, str, Step] | None:
        """The router that had an address until a `reload`, where, and the move; the last one."""
        pairs = ((name, one, other) for name, told in self.told.items() for one, other in zip(told, told[1:]))
        lost = [(name, one.router.where(address), other.step) for name, one, other in pairs
                if one.router.has(address) and not other.router.has(address)]
        return max(lost, key=lambda found: found[2].move, default=None)

    # ---- in words

    def move(self, step: Step) -> str:
        line = self.lines.words(self.lines.move(step.move))
        return f"by move {step.move} ({step.did['do']}), {line}"

    def words(self, since: Since, told: Callable[[Any], str] = str) -> str:
        """Since when a fact holds, by which move, and what was before; "" where it holds from the beginning."""
        if since.began is None:
            return ""
        until = f" until {words.seconds(since.ended.moment)}, {self.move(since.ended)}" if since.ended else ""
        began = f"since {words.seconds(since.began.moment)}, {self.move(since.began)}{until}"
        return f"{began}; before {'there was none' if since.before is None else f'it was {told(since.before)}'}"

    def line(self, name: str, since: Since) -> int | Line:
        """Where a fact of a router stands: in the move that set it, else in the router."""
        return self.lines.router(name) if since.began is None else self.lines.move(since.began.move)

    def place(self, name: str, since: Since, told: Callable[[Any], str] = str) -> str:
        """The same in words, with the router."""
        return f"router {name} ({self.words(since, told) or self.lines.words(self.lines.router(name))})"


def way_words(way: tuple[str, str | None] | None) -> str:
    return "none" if way is None else f"{way[0]} on {way[1]}"


def spans(found: Iterable[Since]) -> list[Since]:
    """Each span once, in its order."""
    by_move = {each.began.move if each.began else 0: each for each in found}
    return [by_move[move] for move in sorted(by_move)]
