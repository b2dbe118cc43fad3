"""A network for tools/lab out of the configurations of FRR routers: the text of a Python file, and the trees that
FRR told."""
from __future__ import annotations

from collections.abc import Iterator, Sequence
from dataclasses import dataclass, field
from ipaddress import IPv4Network, ip_address
from pathlib import Path
from typing import TYPE_CHECKING, Any

from viqeshor.lab.faults import MOST_ADDRESSES
from pimtext.files import frr
from pimtext.files.frr import IGMP_TIMES

if TYPE_CHECKING:
    from viqeshor.lab.network import Network

KEYS = {"query_interval": "qi", "query_response": "qri", "last_member_query": "lmqi"}
FIRST, THEN, STREAM = 10, 5, 20


@dataclass
class Link:
    """Interfaces of one subnet, with their routers."""
    subnet: IPv4Network
    ports: list = field(default_factory=list)
    name: str = ""

    def addresses(self) -> list[str]:
        return [str(port.own.ip) for _, port in self.ports]


@dataclass(frozen=True)
class Member:
    """A host for what an interface joins itself: its name, its link, its address, and groups with their sources or
    None."""
    name: str
    link: str
    address: str
    joins: tuple


@dataclass(frozen=True)
class Source:
    name: str
    link: str
    address: str
    groups: tuple


class Plan:
    """What is carried over: links, and by router its addresses of no link. The rest is in each router's `left`."""

    def __init__(self, routers: list[frr.Router], sends: Sequence[tuple[str, str]] = ()) -> None:
        self.routers, self.links, self.taken = routers, {}, {address for address, _ in sends}
        self.ranges = {router.name: router.ranges for router in routers}
        self.own = {router.name: [] for router in routers}
        self.roots = {address for ranges in self.ranges.values() for _, address in ranges}
        for router in routers:
            for port in router.interfaces.values():
                if is_carried(router, port, self.roots, self.taken):
                    (self.keep if port.is_apart() else self.plug)(router, port)
        self.name_links()
        self.members = [member for router in routers for member in self.members_of(router)]
        self.sources = [self.source(number, *each) for number, each in enumerate(groups_of(sends).items(), 1)]
        self.routes = {router.name: self.routes_of(router) for router in routers}
        self.options = {router.name: self.options_of(router) for router in routers}
        for router in routers:
            self.judge(router)

    # ---- links

    def plug(self, router: frr.Router, port: frr.Interface) -> None:
        self.taken.add(str(port.own.ip))
        self.links.setdefault(port.own.network, Link(port.own.network)).ports.append((router, port))

    def keep(self, router: frr.Router, port: frr.Interface) -> None:
        """The addresses of an interface without a link are the router's."""
        own = self.own[router.name]
        for address, place in port.addresses:
            if len(own) == MOST_ADDRESSES:
                router.leave(place, f"a router has at most {MOST_ADDRESSES} addresses of no link here")
            elif address.network.prefixlen == 32 and str(address.ip) not in self.taken:
                own.append(str(address.ip))
                self.taken.add(str(address.ip))
        for *_, place in port.joins:
            router.leave(place, "a host joins on a link, and the interface has none here")

    def name_links(self) -> None:
        names = set()
        for link in self.links.values():
            router, port = link.ports[0]
            shared = "-".join(each.name for each, _ in link.ports)
            link.name = shared if len(link.ports) > 1 else f"{router.name}-{port.name}"
            link.name += f" {link.subnet}" * (link.name in names)
            names.add(link.name)

    def ports_of(self, router: frr.Router) -> list[tuple[frr.Interface, Link]]:
        """The interfaces of a router by their numbers, each with its link."""
        return [(port, link) for link in self.links.values() for owner, port in link.ports if owner is router]

    def link_of(self, router: frr.Router, port_name: str) -> str | None:
        """The name of the link of an interface, None where it isn't carried over."""
        return next((link.name for port, link in self.ports_of(router) if port.name == port_name), None)

    def link_at(self, address: str) -> Link | None:
        return next((link for link in self.links.values() if ip_address(address) in link.subnet), None)

    # ---- hosts

    def members_of(self, router: frr.Router) -> Iterator[Member]:
        """A host for each interface that joins groups itself."""
        for port, link in self.ports_of(router):
            joins = tuple((group, source) for group, source, _ in port.joins)
            if joins:
                address = self.free(link)
                if address is None:
                    router.leave(port.joins[0][2], f"{link.subnet} has no address left for a host")
                else:
                    yield Member(f"{router.name}-{port.name}", link.name, address, joins)

    def free(self, link: Link) -> str | None:
        """The highest address of a link that nobody has, and takes it."""
        last = int(link.subnet.broadcast_address) - 1
        for number in range(last, max(int(link.subnet.network_address), last - 300), -1):
            address = str(ip_address(number))
            if address not in self.taken:
                self.taken.add(address)
                return address
        return None

    def source(self, number: int, address: str, groups: list[str]) -> Source:
        link = self.link_at(address)
        if link is None:
            raise frr.Unreadable(f"the source {address} is in the subnet of no interface that is carried over")
        return Source(f"source{number}", link.name, address, tuple(groups))

    # ---- routes and options

    def routes_of(self, router: frr.Router) -> list[str]:
        """Its routes as a scenario has them, those of configured static routes first where nothing else is told."""
        numbers = {port.name: number for number, (port, _) in enumerate(self.ports_of(router))}
        if router.routes is not None:
            return [text for route in router.routes for text in found_route(router, route, numbers)]
        return [text for row in router.statics for text in self.static_route(router, *row)]

    def static_routes(self, router: frr.Router) -> list[str]:
        """Those of its routes that stay where it runs a routing protocol."""
        static = {str(IPv4Network(prefix, strict=False)) for prefix, *_ in router.statics}
        return [text for text in self.routes[router.name] if text.split()[0] in static]

    def static_route(self, router: frr.Router, prefix: str, hop: str, distance: int, place: frr.Place) -> list[str]:
        if is_unused(router, prefix, place):
            return []
        for number, (port, _) in enumerate(self.ports_of(router)):
            if ip_address(hop) in port.own.network:
                return [f"{prefix} {hop} {number} {distance} 0"]
        router.leave(place, "its next hop is on no link of the router that is carried over")
        return []

    def options_of(self, router: frr.Router) -> dict[str, int | str]:
        options = igmp_times(router)
        if router.spt_never:
            options["spt"] = "never"
        return options

    def judge(self, router: frr.Router) -> None:
        """Tells what is carried over, but not as it stands."""
        for port, link in self.ports_of(router):
            is_stub = len(link.ports) == 1 and not port.is_loopback()
            if is_stub and not port.is_igmp:
                router.leave(port.place, "it has no `ip igmp`; our router serves hosts on each interface")
            if not port.is_pim:
                router.leave(port.place, "it has no `ip pim`; our router speaks PIM on each interface")
        if router.spt_never and any(router.has(root) for root in self.roots):
            router.leave(router.spt_never, "as RP ours doesn't join the sources' trees then either")
        judge_statics(router)

    def is_alone(self, router: frr.Router) -> bool:
        """Whether it has no other routes than those: it runs no routing protocol."""
        return not router.has_protocol


def is_carried(router: frr.Router, port: frr.Interface, roots: set[str], taken: set[str]) -> bool:
    """Whether an interface is carried over; it is told why not."""
    if port.is_shut:
        reason = "it is shut down"
    elif port.own is None:
        reason = "it has no address"
    elif str(port.own.ip) in taken:
        reason = f"another router has its address {port.own.ip}: tools/lab can have one twice, by `link.configure`"
    elif port.is_pim or (port.is_igmp and str(port.own.ip) not in roots):
        return True
    elif str(port.own.ip) in roots:
        reason = "it has an RP's address, but no `ip pim`: then FRR isn't the RP either"
    else:
        reason = "it has neither `ip pim` nor `ip igmp`, and our router would speak both there"
    router.leave(port.place, reason)
    return False


def is_unused(router: frr.Router, prefix: str, place: frr.Place) -> bool:
    """Whether it is a default route, which FRR's PIM doesn't use unless it is told to."""
    if prefix != "0.0.0.0/0" or router.resolves_by_default:
        return False
    router.leave(place, "FRR's PIM doesn't use a default route without `ip nht resolve-via-default`")
    return True


def found_route(router: frr.Router, route: frr.Route, numbers: dict[str, int]) -> list[str]:
    if is_unused(router, route.prefix, route.place):
        return []
    if route.port not in numbers:
        router.leave(route.place, f"it leads over {route.port or 'no interface'}, which isn't carried over")
        return []
    return [f"{route.prefix} {route.hop} {numbers[route.port]} {route.distance} {route.metric}"]


def igmp_times(router: frr.Router) -> dict[str, int | str]:
    """IGMP's times, which are one for all interfaces: those of the first interface with IGMP. Another one's are
    left."""
    ports, options = [port for port in router.interfaces.values() if port.is_igmp], {}
    for key, usual in IGMP_TIMES.items():
        values = [port.times.get(key, (usual, port.place)) for port in ports]
        for value, place in values[1:]:
            if value != values[0][0]:
                router.leave(place, f"{key} is one for all interfaces of a router, here {values[0][0]}")
        if values and values[0][0] != usual:
            options[KEYS[key]] = values[0][0]
    return options


def judge_statics(router: frr.Router) -> None:
    """Tells which static routes FRR doesn't use."""
    known = {route.prefix for route in router.routes or ()}
    for prefix, _, _, place in router.statics:
        if router.routes is not None and str(IPv4Network(prefix, strict=False)) not in known:
            router.leave(place, "it isn't among the routes that `show ip route json` tells")


def groups_of(sends: Sequence[tuple[str, str]]) -> dict[str, list[str]]:
    """The groups of each source."""
    found = {}
    for address, group in sends:
        found.setdefault(address, []).append(group)
    return found


# ---- the file


def call(name: str, /, *words: object, **named: object) -> str:
    said = [repr(word) for word in words] + [f"{key}={value!r}" for key, value in named.items()]
    return f"{name}({', '.join(said)})".replace("'", '"')


def text_of(plan: Plan, origin: str | Path) -> str:
    """The text of the file."""
    parts = [[f'"""The network of the FRR configurations in {origin}, as tools/from_frr carries it over."""',
              "from lab import Network", "", "net = Network()"]]
    parts += [[line for router in plan.routers for line in router_lines(plan, router)],
              [line for link in plan.links.values() for line in link_lines(link)],
              [line for router in plan.routers for line in route_lines(plan, router) if plan.ports_of(router)],
              host_lines(plan), run_lines(plan)]
    return "\n\n".join("\n".join(lines) for lines in parts if lines) + "\n"


def router_lines(plan: Plan, router: frr.Router) -> Iterator[str]:
    options = dict(plan.options[router.name])
    options["addresses"] = plan.own[router.name]
    options["rps"] = [f"{prefix} {address}" for prefix, address in plan.ranges[router.name]]
    if router.routes is not None and not plan.is_alone(router):
        options["routes"] = plan.routes[router.name]
    if plan.ports_of(router):
        yield call("net.router", router.name, **{key: value for key, value in options.items() if value != []})


def link_lines(link: Link) -> Iterator[str]:
    names = [router.name for router, _ in link.ports]
    yield call("net.link", *names, name=link.name, subnet=str(link.subnet), addresses=link.addresses())
    for router, port in link.ports:
        if port.priority != 1:
            yield call(f'net.links["{link.name}"].configure', router.name, priority=port.priority)


def route_lines(plan: Plan, router: frr.Router) -> Iterator[str]:
    """Static routes stay; where a routing protocol runs, the lab's shortest paths take over once something fails."""
    if plan.is_alone(router):
        yield call("net.routes", router.name, *plan.routes[router.name], alone=True)
    elif texts := plan.static_routes(router):
        yield call("net.routes", router.name, *texts)


def host_lines(plan: Plan) -> list[str]:
    return [call("net.host", host.name, host.link, address=host.address) for host in (*plan.members, *plan.sources)]


def run_lines(plan: Plan) -> list[str]:
    joins = [call(f'net.hosts["{member.name}"].join', group, *([source] if source else []))
             for member in plan.members for group, source in member.joins]
    streams = [call(f'net.hosts["{each.name}"].stream', group, every=1, times=STREAM)
               for each in plan.sources for group in each.groups]
    lines = [f"net.run({FIRST})", *joins, f"net.run({THEN})", *streams]
    lines += [f"net.run({STREAM})"] if streams else []
    groups = sorted({group for member in plan.members for group, source in member.joins if source is None})
    shown = [call("net.tree", group) for group in groups]
    shown += [call("net.tree", group, source) for group, source in sources_shown(plan)]
    return lines + [f"print({tree})" for tree in shown]


def sources_shown(plan: Plan) -> list[tuple[str, str]]:
    """Sources of groups whose trees are shown: those that somebody asks for, and those that send."""
    asked = {(group, source) for member in plan.members for group, source in member.joins if source}
    return sorted(asked | {(group, each.address) for each in plan.sources for group in each.groups})


# ---- what FRR told of its trees


@dataclass(frozen=True)
class Branch:
    """A tree at a router: the link on which packets come, None where it is the root, and those on which they leave."""
    router: str
    source: str
    group: str
    incoming: str | None
    outgoing: frozenset

    def key(self) -> tuple[str, str, str]:
        return self.group, self.source, self.router

    def way(self) -> str:
        return f"from {self.incoming or 'itself'} to {', '.join(sorted(self.outgoing)) or 'none'}"


def told_branches(plan: Plan, folder: Path) -> dict[tuple[str, str, str], Branch]:
    """What `show ip mroute json` says of each router, where it is there. The register tunnel is none of the links."""
    paths = frr.configurations(folder)
    found = []
    for router in plan.routers:
        said = frr.beside(paths[router.name], router.name, "mroute")
        rows = [entry for sources in (said[2] if said else {}).values() for entry in sources.values()]
        found += [branch_told(plan, router, entry) for entry in rows]
    return {branch.key(): branch for branch in found if branch.outgoing}


def branch_told(plan: Plan, router: frr.Router, entry: dict[str, Any]) -> Branch:
    port = router.interfaces.get(entry["iif"])
    is_root = entry["iif"] == "pimreg" or (port is not None and port.is_loopback())
    incoming = None if is_root else plan.link_of(router, entry["iif"]) or entry["iif"]
    ports = set(entry.get("oil", ())) - {"pimreg", entry["iif"]}
    outgoing = frozenset(plan.link_of(router, name) or name for name in ports)
    return Branch(router.name, entry["source"], entry["group"], incoming, outgoing)


def lab_branches(net: Network) -> dict[tuple[str, str, str], Branch]:
    """The same of a network of tools/lab."""
    from viqeshor.lab import asked
    found = []
    for name, state in net.known().items():
        for branch in asked.branches(state):
            incoming = None if branch.incoming is None else state.link(branch.incoming)
            outgoing = frozenset(map(state.link, branch.outgoing))
            found.append(Branch(name, branch.source, branch.group, incoming, outgoing))
    return {branch.key(): branch for branch in found if branch.outgoing}


def senders_told(plan: Plan, folder: Path) -> list[tuple[str, str]]:
    """The sources of FRR's trees that are on a link of the network, with their groups."""
    told = told_branches(plan, folder).values()
    found = {(branch.source, branch.group) for branch in told if branch.source != "*"}
    return sorted(pair for pair in found if plan.link_at(pair[0]) is not None)
