"""Interfaces, links and routers that are down in a run, or were for a while, and clocks that stand still."""
from __future__ import annotations

from collections.abc import Callable, Iterable, Iterator
from typing import TYPE_CHECKING

from pimtext.ways import served
from viqeshor.lab import packets, words
from viqeshor.lab.addresses import ip_address, longest
from pimtext.causes.cause import Cause
from pimtext.causes.run import gathered, some

if TYPE_CHECKING:
    from pimtext.causes.cause import Symptom
    from viqeshor.lab.known import Known
    from pimtext.causes.run import Run
    from viqeshor.lab.scenario import Interface
    from viqeshor.lab.story import Step

# No Hello waits longer after `up`, in ms.
HELLO_DELAY = 5_000


def is_turn(step: Step, do: str | None = None) -> bool:
    """Whether an interface went up or down with a step."""
    return step.verdict == "done" and step.did["do"] in ((do,) if do else ("up", "down"))


class Interfaces:
    def __init__(self, run: Run) -> None:
        self.run, self.known, self.ports = run, run.known, run.ports()
        turns = [(at, step) for at, step in enumerate(run.steps) if is_turn(step)]
        # By router and interface, the steps with which it went up and down, and their places.
        self.turns = gathered(((step.router, step.iface), (at, step)) for at, step in turns)
        self.advanced = {did["router"] for did in run.played.moves if did["do"] == "advance"}

    def last(self, name: str, number: int) -> tuple[int, Step | None]:
        """The place of the step with which an interface last went up or down, and the step; the end where it never
        did."""
        return self.turns.get((name, number), [(len(self.run.steps), None)])[-1]

    def went_down(self) -> dict[tuple[str, int], Step]:
        """The interfaces that are down and were up, with the step with which they went down."""
        last = {key: turns[-1][1] for key, turns in self.turns.items()}
        return {key: step for key, step in last.items() if is_turn(step, "down")}

    # ---- what is down

    def causes(self) -> Iterator[Cause]:
        """Routers whose interfaces are all down, links that are, single interfaces, and those that never go up."""
        down = self.went_down()
        by_router = gathered((name, step) for (name, _), step in down.items())
        whole = [name for name in by_router if not self.known[name].up]
        yield from (self.router_down(name, by_router[name]) for name in whole)
        single = {key: step for key, step in down.items() if key[0] not in whole}
        links = self.whole_links(single)
        yield from (self.link_down(link, {key: single[key] for key in keys}) for link, keys in links.items())
        told = {key for keys in links.values() for key in keys}
        yield from (self.interface_down(*key, step) for key, step in single.items() if key not in told)
        yield from self.never_up()
        yield from self.clocks()

    def whole_links(self, down: dict[tuple[str, int], Step]) -> dict[str, list[tuple[str, int]]]:
        """The links of several interfaces that are all down, with these."""
        keys = {link: [(name, each.number) for name, each in ports] for link, ports in self.ports.items()}
        return {link: each for link, each in keys.items() if len(each) > 1 and all(key in down for key in each)}

    def router_down(self, name: str, steps: list[Step]) -> Cause:
        router = self.known[name].router
        since, first = words.seconds(max(step.moment for step in steps)), min(steps, key=lambda step: step.move)
        own, links = {each.address for each in router.interfaces}, {each.link for each in router.interfaces}
        at = min(self.last(name, each.number)[0] for each in router.interfaces)
        kinds = ("dead dr", "no neighbour", "no route", "no owner", "lost", "down")

        def covers(each: Symptom) -> bool:
            if each.kind == "odd":
                return each.router == name and each.cause == "23"
            if each.kind == "no join":
                return self.is_used(each, links, at)
            is_lost_way = each.kind == "no route" and self.led_over(each.router, each.address, links)
            return is_lost_way or (each.kind in kinds and (each.address in own or each.router == name))

        told = f"router {name} is down since {since}, by move {first.move}, with all its interfaces"
        return Cause(self.run.lines.move(first.move), told, covers)

    def link_down(self, link: str, steps: dict[tuple[str, int], Step]) -> Cause:
        names, first = some((name for name, _ in steps), 6), min(steps.values(), key=lambda step: step.move)
        since = words.seconds(max(step.moment for step in steps.values()))
        told = f"the link {link} is down since {since}, by move {first.move}, at {names}"
        parts = [self.of_interface(name, self.known[name].router.interfaces[number]) for name, number in steps]

        def covers(each: Symptom) -> bool:
            return any(part(each) for part in parts) or (each.kind == "no route" and self.is_cut_off(each, steps))

        return Cause(self.run.lines.move(first.move), told, covers)

    def interface_down(self, name: str, number: int, step: Step) -> Cause:
        interface = self.known[name].router.interfaces[number]
        told = f"router {name}: interface {number} (link {interface.link}) is down since {words.seconds(step.moment)}"
        told = f"{told}, by move {step.move}{self.rp_there(interface.address)}"
        return Cause(self.run.lines.move(step.move), told, self.of_interface(name, interface))

    def rp_there(self, address: str) -> str:
        """Of which groups an interface's address is the RP's, in words."""
        groups = [group for group in self.run.groups() if address in self.run.rps_of(group)]
        if not groups:
            return ""
        return f"; its address {address} is that of the RP of {some(groups)}, which stays the RP while it is down"

    def never_up(self) -> Iterator[Cause]:
        every = [(name, interface) for ports in self.ports.values() for name, interface in ports]
        for name, interface in every:
            if (name, interface.number) not in self.turns:
                told = f": interface {interface.number} (link {interface.link}) never goes up: it needs a move `up`"
                value = lambda each, number=interface.number: each.interface(number)
                yield Cause(*self.run.at_setting(name, told, value), self.of_interface(name, interface))

    # ---- what follows where an interface is down

    def of_interface(self, name: str, interface: Interface) -> Callable[[Symptom], bool]:
        link, at = interface.link, self.last(name, interface.number)[0]

        def covers(each: Symptom) -> bool:
            if each.kind in ("odd", "refused"):
                return each.cause == "23" and each.router == name and each.link == link
            if each.kind == "no route":
                is_own = each.router == name and ip_address(each.address) in interface.own.network
                is_over = is_own or self.led_over(each.router, each.address, {link})
                return is_over or self.is_cut_off(each, {(name, interface.number)})
            if each.kind == "no join":
                return self.is_used(each, {link}, at)
            if each.kind == "lost" and each.link is None:
                return self.led_over(each.router, each.address, {link})
            return names_interface(each, name, interface)

        return covers

    def is_used(self, symptom: Symptom, links: set[str], at: int) -> bool:
        """Whether the packets that a host missed after step `at` would have come over one of these links before it."""
        if symptom.at is None or symptom.host is None or not at < symptom.at:
            return False
        world, place = served.World(self.run.past.known(at)), symptom.place
        state, _ = served.serving(world, symptom.group, symptom.source, place)
        rungs = [] if state is None else served.climb(world, symptom.group, symptom.source, state, place)[0]
        return any(rung.link in links for rung in rungs[1:])

    def led_over(self, name: str | None, address: str | None, links: set[str]) -> bool:
        """Whether a router had a route to an address over one of these links in its configuration."""
        state = self.known.get(name)
        if state is None or address is None:
            return False
        found = longest([(each.prefix, each) for each in state.router.routes], ip_address(address))
        return found is not None and state.link(found.iface) in links

    def is_cut_off(self, symptom: Symptom, keys: Iterable[tuple[str, int]]) -> bool:
        """Whether a router that has no route to an address would reach it over links where these interfaces are up
        too."""
        at = len(self.run.steps) if symptom.at is None else symptom.at
        known = self.known if at >= len(self.run.steps) else self.run.past.known(at)
        up = {(name, number) for name, state in known.items() for number in state.up}
        name, address = symptom.router, symptom.address
        return not self.reaches(name, address, up) and self.reaches(name, address, up | set(keys))

    def reaches(self, name: str | None, address: str | None, up: set[tuple[str, int]]) -> bool:
        """Whether links lead from a router to the link of an address, over interfaces that are up."""
        found, waiting = set(), [name]
        while waiting:
            router = waiting.pop()
            if router not in found:
                found.add(router)
                waiting += self.beside(router, up)
        own = [each for router in found for each in self.known[router].router.interfaces if (router, each.number) in up]
        return any(ip_address(address) in each.own.network for each in own)

    def beside(self, router: str, up: set[tuple[str, int]]) -> list[str]:
        """The routers that share a link with one."""
        here = {each.link for each in self.known[router].router.interfaces if (router, each.number) in up}
        return [name for link in here for name, each in self.ports[link] if (name, each.number) in up]

    # ---- clocks

    def clocks(self) -> Iterator[Cause]:
        """Time passes for each router, and its Hellos leave."""
        for name, state in self.known.items():
            if name not in self.advanced:
                told = " is never advanced: its clock stands at 0, so no timer of it ends, and no Hello leaves it of"
                own = {each.address for each in state.router.interfaces}
                yield Cause(*self.run.at_router(name, f"{told} itself"), of_addresses(own))
            else:
                ungreeted = sorted(state.up - self.greeted(name))
                silent = [number for number in ungreeted if state.moment < self.greets_by(name, number)]
                yield from (self.silent(state, number) for number in silent)

    def greeted(self, name: str) -> set[int]:
        """The interfaces of a router that a Hello has left."""
        mine = [sent for step in self.run.steps for sent in step.sent if sent.router == name and sent.kind == "frame"]
        hellos = [sent for sent in mine if packets.is_pim(sent.data, packets.HELLO)]
        return {sent.iface for sent in hellos}

    def greets_by(self, name: str, number: int) -> int:
        """The moment by which the first Hello of an interface leaves."""
        return self.last(name, number)[1].moment + HELLO_DELAY

    def silent(self, state: Known, number: int) -> Cause:
        name, until = state.router.name, self.greets_by(state.router.name, number)
        told = f": no Hello has left interface {number}: it leaves by moment {until}, and the router was advanced to"
        covers = of_addresses({state.router.interfaces[number].address})
        return Cause(*self.run.at_router(name, f"{told} {state.moment}"), covers)


def of_addresses(own: set[str]) -> Callable[[Symptom], bool]:
    return lambda each: each.kind == "no neighbour" and each.address in own


def names_interface(symptom: Symptom, name: str, interface: Interface) -> bool:
    """Whether a symptom names an interface, or its address, as what it lacks."""
    is_here = symptom.router == name and symptom.link == interface.link
    is_address, is_link = symptom.address == interface.address, symptom.link == interface.link
    return {
        "interface down": is_here, "no neighbour": is_here or is_address, "dead dr": is_address,
        "down": is_link, "not the source's dr": is_link,
    }.get(symptom.kind, False)
