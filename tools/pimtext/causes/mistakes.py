"""What is often got wrong in a network's settings, so that a stream doesn't come though nothing is refused.

Each is a cause, told at a router or an interface: RPs, addresses, links and routes. What routers know is that of the
end. """
from __future__ import annotations

from collections import Counter
from collections.abc import Callable, Iterable, Iterator
from difflib import SequenceMatcher
from typing import TYPE_CHECKING, TypeVar

from viqeshor.lab import asked, printed, words
from viqeshor.lab.addresses import ip_address
from viqeshor.lab.learner import hears
from pimtext.causes.cause import Cause
from viqeshor.lab.printed import ANY
from pimtext.causes.run import gathered, some
from pimtext.ways.namings import differences, has_candidates, namings_of

if TYPE_CHECKING:
    from ipaddress import IPv4Network
    from viqeshor.lab.lines import Line
    from pimtext.causes.cause import Symptom
    from viqeshor.lab.known import Known
    from pimtext.causes.run import Run
    from viqeshor.lab.scenario import Interface
    from viqeshor.trees import Path

    T = TypeVar("T")

# How like one another two names of links are for one to be a slip for the other.
ALIKE = 0.8
# How a stream ends where an address is nobody's.
NOBODY = ("no owner", "no route", "lost", "interface down", "no neighbour")


def most(values: Iterable[T], is_better: Callable[[T], bool] = lambda value: False) -> T | None:
    """The one that comes most often, of equal ones a better one, else the first; None of none."""
    counts = Counter(values)
    return max(counts, key=lambda value: (counts[value], is_better(value)), default=None)


class Mistakes:
    def __init__(self, run: Run) -> None:
        self.run, self.world, self.known = run, run.world, run.known
        self.ports = run.ports()

    # ---- RPs

    def rps(self) -> Iterator[Cause]:
        """Routers of one network have one RP for a group."""
        odd = gathered(pair for group in self.run.groups() for pair in self.other_rps(group))
        for (is_owner, name, rp, usual), groups in odd.items():
            yield self.unaware(name, rp, usual, groups) if is_owner else self.other_rp(name, rp, usual, groups)

    def other_rps(self, group: str) -> Iterator[tuple[tuple[bool, str, str | None, str | None], str]]:
        """The routers with another RP for a group than most have: whether one is that RP, its name, its RP and the
        usual."""
        by_name = {name: asked.rp_of(state, group) for name, state in self.known.items()}
        usual = most([rp for rp in by_name.values() if rp], lambda rp: self.world.owner(rp) is not None)
        for name, rp in by_name.items():
            is_owner = usual is not None and self.known[name].router.has(usual)
            if rp != usual and (rp or is_owner):
                yield (is_owner, name, rp, usual), group

    def other_rp(self, name: str, rp: str | None, usual: str, groups: list[str]) -> Cause:
        peer = next(each for each, state in self.known.items() if asked.rp_of(state, groups[0]) == usual)
        settings, one = self.run.settings, lambda each: each.rp(groups[0])
        theirs = f"{usual} at {settings.place(peer, settings.since(peer, one))}"
        told = f": the RP of {some(groups)} is {rp} here, and {theirs}{self.candidates_differ(name, peer, groups[0])}"
        kinds = ("rp disagrees", "no owner", "registers stopped")

        def covers(each: Symptom) -> bool:
            return each.kind in kinds and each.group in groups and (each.router == name or each.address == rp)

        return Cause(*self.run.at_setting(name, told, one), covers)

    def candidates_differ(self, name: str, peer: str, group: str) -> str:
        """In what two routers differ, where there are candidates of a group."""
        both = namings_of(self.known[name], group), namings_of(self.known[peer], group)
        differ = list(differences((name, peer), both)) if has_candidates(*both) else []
        return f"; {'; '.join(differ)}" if differ else ""

    def unaware(self, name: str, rp: str | None, usual: str, groups: list[str]) -> Cause:
        own = f"takes {rp} for it" if rp else "has no RP for it itself"
        told = f" is the RP of {some(groups)} to other routers, by its address {usual}, and {own}"

        def covers(each: Symptom) -> bool:
            is_here = each.router == name and each.kind in ("rp disagrees", "no rp")
            return is_here or (each.kind == "registers stopped" and each.group in groups)

        told = f"{told}: it drops their Joins and stops their Registers"
        return Cause(*self.run.at_setting(name, told, lambda each: each.rp(groups[0])), covers)

    def without_rp(self) -> Iterator[Cause]:
        """A group that is asked for has an RP, at its hosts' routers, at its sources' and between."""
        nowhere = [group for group in self.run.groups() if not self.run.rps_of(group) and self.is_used(group)]
        if nowhere:
            told = f"no router has an RP for {some(nowhere)}"
            covers = lambda each: each.kind == "no rp" and each.group in nowhere
            yield Cause(*self.since_none(nowhere[0], told), covers)
        for name, state in self.known.items():
            missing = [group for group in self.run.groups() if asked.rp_of(state, group) is None]
            groups = [group for group in missing if group not in nowhere]
            if groups:
                told = f" has no RP for {some(groups)}, which other routers have{self.learned_elsewhere(groups[0])}"
                one = lambda each, group=groups[0]: each.rp(group)
                yield Cause(*self.run.at_setting(name, told, one), self.of_router(name, groups), is_hint=True)

    def learned_elsewhere(self, group: str) -> str:
        """Which router learned the RP of a group, by which message, and until when."""
        settings, value = self.run.settings, lambda each: each.rp(group)
        for name, state in self.known.items():
            since = settings.since(name, value)
            if since.now is None or since.began is None or not hears(state.router.table):
                continue
            row = next((row for row in state.of(printed.LearnedRp, state="given", rp=since.now)), None)
            until = f", until {words.seconds(row.end)}" if row else ""
            return f": {name} learned {since.now} {settings.move(since.began)}{until}"
        return ""

    def since_none(self, group: str, told: str) -> tuple[int | Line, str]:
        """Where and since when the last router has no RP for a group."""
        settings, value = self.run.settings, lambda each: each.rp(group)
        began = [(name, since) for name in self.known if (since := settings.since(name, value)).began]
        if not began:
            return self.run.lines.router(next(iter(self.known))), told
        name, since = max(began, key=lambda pair: pair[1].began.move)
        return settings.line(name, since), f"{told}; router {name} has none {settings.words(since)}"

    def is_used(self, group: str) -> bool:
        return any(asked == group and source == ANY for asked, source in self.run.wished())

    @staticmethod
    def of_router(name: str, groups: list[str]) -> Callable[[Symptom], bool]:
        return lambda each: each.kind in ("no rp", "rp disagrees") and each.router == name and each.group in groups

    def nobody(self) -> Iterator[Cause]:
        """An RP's address is that of a router."""
        pairs = ((rp, group) for group in self.run.groups() for rp in sorted(self.run.rps_of(group)))
        for rp, groups in gathered(pair for pair in pairs if self.world.owner(pair[0]) is None).items():
            name = next(name for name, state in self.known.items() if asked.rp_of(state, groups[0]) == rp)
            told, one = f": no router has the address {rp}, the RP of {some(groups)}", groups[0]
            told = f"{told}{self.elsewhere(rp)}"
            where = self.run.at_setting(name, told, lambda each, group=one: each.rp(group))
            yield Cause(*where, self.of_address(rp), is_hint=True)

    @staticmethod
    def of_address(address: str) -> Callable[[Symptom], bool]:
        return lambda each: each.kind in NOBODY and each.address == address

    # ---- addresses

    def addresses(self) -> Iterator[Cause]:
        """Each router's address is its alone."""
        every = [(name, interface) for ports in self.ports.values() for name, interface in ports]
        for address, ports in gathered((interface.address, (name, interface)) for name, interface in every).items():
            if len(ports) > 1:
                yield self.address_twice(address, ports)
        apart = {each for state in self.known.values() for each in state.router.addresses}
        for address in sorted(apart, key=ip_address):
            names = [name for name, state in self.known.items() if state.router.has(address)]
            if len(names) > 1:
                yield self.address_of_several(address, names)

    def address_of_several(self, address: str, names: list[str]) -> Cause:
        """One that is of no link at a router at least."""
        groups = [group for group in self.run.groups() if address in self.run.rps_of(group)]

        def covers(each: Symptom) -> bool:
            is_rp = each.group in groups and each.kind in ("registers stopped", "no join")
            return is_rp and (each.router in names or each.address == address)

        where = " and ".join(f"{name} ({self.known[name].router.where(address)})" for name in names)
        text = f": {address} is an address of several routers, {where}: what is sent to it comes to one of them alone"
        return Cause(*self.run.at_setting(names[-1], text, lambda each: each.router.where(address)), covers)

    def address_twice(self, address: str, ports: list[tuple[str, Interface]]) -> Cause:
        names, links = [name for name, _ in ports], {interface.link for _, interface in ports}
        where = " and ".join(f"{name} (on {interface.link})" for name, interface in ports)
        is_one, groups = len(links) == 1, [group for group in self.run.groups() if address in self.run.rps_of(group)]
        what = "each takes what the other sends for its own, and ignores it" if is_one else \
            "what is sent to it comes to one of them alone"

        def covers(each: Symptom) -> bool:
            is_own = each.cause == "Own" and each.router in names and each.host == address
            is_there = is_one and each.link in links and each.router in names and each.kind in ("twice", "no neighbour")
            is_rp = each.group in groups and each.kind in ("registers stopped", "no join")
            return is_own or is_there or (is_rp and (each.router in names or each.address == address))

        text = f": {address} is the address of two interfaces, {where}: {what}"
        value = lambda each: each.interface(ports[-1][1].number)
        return Cause(*self.run.at_setting(names[-1], text, value), covers)

    def host_addresses(self) -> Iterator[Cause]:
        """A host's address is no router's."""
        sources = {packet.source: packet.link for packet in self.run.packets if packet.link}
        asking = {host: links[0] for host, links in self.run.hosts.links.items()}
        for host, link in {**sources, **asking}.items():
            owner = self.world.owner(host)
            if owner is not None:
                name = owner.router.name
                told = f": {host} is also the address of a host on {link}, and {name} takes what that sends for its own"
                yield Cause(*self.run.at_router(name, told), self.of_host(host))

    @staticmethod
    def of_host(host: str) -> Callable[[Symptom], bool]:
        return lambda each: each.host == host and (each.cause == "Own" or each.kind == "unwanted")

    # ---- links

    def subnets(self) -> Iterator[Cause]:
        """The routers of a link have one subnet there."""
        usual = {link: self.usual(ports) for link, ports in self.ports.items()}
        every = [(link, name, each) for link, ports in self.ports.items() for name, each in ports]
        for link, name, interface in every:
            if interface.own.network != usual[link]:
                there = next(port for port in self.ports[link] if port[1].own.network == usual[link])
                yield self.other_subnet(link, name, interface, *there)

    def usual(self, ports: list[tuple[str, Interface]]) -> IPv4Network:
        """The subnet that most interfaces of a link have, of equal ones one that no move set."""
        since = lambda name, each: self.run.settings.since(name, lambda told: told.interface(each.number)).began
        first = {each.own.network for name, each in ports if since(name, each) is None}
        return most([each.own.network for _, each in ports], lambda network: network in first)

    def other_subnet(self, link: str, other: str, interface: Interface, router: str, there: Interface) -> Cause:
        line = self.run.lines.words(self.run.lines.interface(router, there.number))
        both = f"it has {interface.own} on the link {link}, and router {router} has {there.own} ({line})"
        what = "masks" if there.own.network.overlaps(interface.own.network) else "subnets"
        covers = lambda each: each.link == link and each.kind in ("stranger", "no neighbour")
        return Cause(*self.run.at_interface(other, interface.number, f"{both}: two {what} on one link"), covers)

    def links_of_subnets(self) -> Iterator[Cause]:
        """A subnet is that of one link. An address that both have is told elsewhere."""
        every = [(link, name, each) for link, ports in self.ports.items() for name, each in ports]
        for network, ports in gathered((each.own.network, (link, name, each)) for link, name, each in every).items():
            (first, peer, _), *others = ports
            link, name, interface = next((port for port in others if port[0] != first), (first, None, None))
            if link != first and len({each.address for *_, each in ports}) == len(ports):
                told = f"{network} is the subnet of {link} here, and of {first} at router {peer}"
                yield Cause(*self.run.at_interface(name, interface.number, told))

    def link_names(self) -> Iterator[Cause]:
        """A link that one interface has, and whose name is almost that of another link; where both are so, each is
        told."""
        for link, ((router, interface), *others) in self.ports.items():
            alike = [name for name in self.ports if name != link and not others and self.is_near(name, link)]
            near = next(iter(alike), None)
            if near is not None:
                told = f"no other interface is on the link {link}; is {near} meant?"
                yield Cause(*self.run.at_interface(router, interface.number, told), self.of_lonely(link))

    @staticmethod
    def of_lonely(link: str) -> Callable[[Symptom], bool]:
        return lambda each: each.kind == "no neighbour" and each.link == link

    def is_near(self, name: str, link: str) -> bool:
        """Alike, but not told apart by their digits; or of one subnet. An address that both have is told elsewhere."""
        own = self.ports[link][0][1].own
        if any(each.own.network == own.network for _, each in self.ports[name]):
            return all(each.own != own for _, each in self.ports[name])
        digits = [[char for char in text if char.isdigit()] for text in (name, link)]
        ratio = SequenceMatcher(None, name.casefold(), link.casefold()).ratio()
        return digits[0] == digits[1] and ratio >= ALIKE

    # ---- routes

    def loops(self) -> list[Cause]:
        """A route leads to where its address is."""
        circles, addresses = {}, {}
        for address, name in ((address, name) for address in self.wanted_addresses() for name in self.known):
            circle = self.circle(name, address)
            if circle:
                circles.setdefault(frozenset(circle), circle)
                addresses.setdefault(frozenset(circle), {})[address] = None
        return [self.loop(list(addresses[key]), circle) for key, circle in circles.items()]

    def loop(self, addresses: list[str], circle: list[str]) -> Cause:
        settings, way = self.run.settings, lambda each: each.way(addresses[0])
        told = f": the routes to {some(addresses)} run in a circle, from {' to '.join([*circle, circle[0]])}"
        covers = lambda each: each.kind == "circle" and each.address in addresses
        changed = next((name for name in circle if settings.since(name, way).began), circle[0])
        return Cause(*self.run.at_setting(changed, told, way), covers)

    def wanted_addresses(self) -> list[str]:
        """The sources and RPs that are in use."""
        found = {packet.source for packet in self.run.packets}
        found |= {source for _, source in self.run.wished() if source != ANY}
        return sorted(found.union(*(self.run.rps_of(group) for group in self.run.groups())), key=ip_address)

    def circle(self, name: str, address: str) -> list[str]:
        """The routers of a circle that the routes from one to an address run in; empty where they don't."""
        seen = []
        while name not in seen:
            seen.append(name)
            path = asked.route(self.known[name], address)
            above = None if path is None or path.is_connected else self.world.owner(path.next_hop)
            if above is None:
                return []
            name = above.router.name
        return seen[seen.index(name):]

    def next_hops(self) -> Iterator[Cause]:
        """A next hop is a router's address on the link of the route's interface."""
        joined = [(name, row) for name, state in self.known.items() for row in state.of(printed.Upstream)]
        roots = [(name, asked.root_of(self.known[name], row.group, row.source)) for name, row in joined]
        paths = [(name, root, asked.route(self.known[name], root)) for name, root in dict.fromkeys(roots)]
        wrong = [((name, path.next_hop, path.iface), root) for name, root, path in paths
                 if path is not None and not path.is_connected and not self.is_there(self.known[name], path)]
        for (name, hop, iface), found in gathered(wrong).items():
            yield self.absent_hop(name, hop, iface, found)

    def absent_hop(self, name: str, hop: str, iface: int, roots: list[str]) -> Cause:
        leads = f"its route to {roots[0]} leads" if len(roots) == 1 else f"its routes to {some(roots)} lead"
        link = self.known[name].link(iface)
        told = f": {leads} to {hop} on {link}, and no router there has that address{self.elsewhere(hop)}"
        value = lambda each: each.way(roots[0])
        return Cause(*self.run.at_setting(name, told, value), self.of_next_hop(name, hop))

    def elsewhere(self, address: str) -> str:
        """Who has an address on another link, or had it until a `reload`."""
        ports = [(name, each.link) for each_link in self.ports.values() for name, each in each_link
                 if each.address == address]
        if ports:
            return f" (it is that of {ports[0][0]} on {ports[0][1]})"
        had = self.run.settings.had(address)
        if had is None:
            return ""
        name, where, step = had
        return f": {name} had it {where} until {words.seconds(step.moment)}, {self.run.settings.move(step)}"

    @staticmethod
    def of_next_hop(name: str, hop: str) -> Callable[[Symptom], bool]:
        return lambda each: each.router == name and each.kind == "no neighbour" and each.address == hop

    def is_there(self, state: Known, path: Path) -> bool:
        """A router of the scenario, or from outside, has the address of a next hop."""
        own = any(interface.address == path.next_hop for _, interface in self.ports[state.link(path.iface)])
        return own or bool(state.of(printed.Neighbour, iface=path.iface, address=path.next_hop))

    def causes(self) -> Iterator[Cause]:
        """Those that explain others come first."""
        parts = (self.addresses, self.host_addresses, self.rps, self.nobody, self.without_rp, self.loops)
        for told in (*parts, self.next_hops, self.subnets, self.links_of_subnets, self.link_names):
            yield from once(told())


def once(causes: Iterable[Cause]) -> Iterable[Cause]:
    """Causes of one text once."""
    return {(cause.line, cause.text): cause for cause in causes}.values()
