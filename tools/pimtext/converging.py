"""Within which time after the last change a network has converged, term by term, and what its links don't give.

Times are in ms; `d` is how long a frame is under way at most, `e` how late a timer fires at most. The laws have one
bound for both, `bound`.
"""
from __future__ import annotations

import functools
from collections.abc import Callable, Iterable, Iterator
from dataclasses import dataclass, field
from itertools import pairwise
from typing import TYPE_CHECKING, Any

from viqeshor.lab import packets, words
from viqeshor.lab.addresses import ip_address
from viqeshor.lab.facts import USUAL
from viqeshor.lab.older import read_heard
from viqeshor.lab.rps import Candidate, candidates_of
from viqeshor.lab.scenario import router_of

if TYPE_CHECKING:
    from viqeshor.lab.network import Network
    from viqeshor.lab.scenario import Interface, Router, Scenario

HELLO_PERIOD, HELLO_HOLDTIME = 30_000, 105_000
# The longest that a Join is held back for those of others, and how long it is held above.
SUPPRESSED, JOIN_HOLDTIME = 84_000, 210_000
ASSERT_TIME, ASSERT_OVERRIDE = 180_000, 3_000
# How long a source may be silent, below its keepalive time of 210 s.
SILENT = 200_000
# Each term with what is proved of it, by the names of docs/PROVED.md: `yes`, `no`, or `in part`.
PROVED = {
    "neighbours known": ("yes", "NeighboursComeToBeKnown, NeighboursStay, HellosStayNear"),
    "neighbours gone": ("no", ""),
    "one DR": ("in part", "2d after each one's next Hello, once each forgot who left: ExactlyOneDr"),
    "one querier": ("in part", "2d after the lowest takes others for gone: ExactlyOneQuerier; that it is 255 s isn't"),
    "members known": ("in part", "2(qri + d) after the next query: MemberComesToBeKnown; that it is sooner isn't"),
    "members gone": ("in part", "of groups, from the end of their timer on: LeftGroupEnds; that it is 260 s isn't"),
    "Joins held": ("in part", "2d after the Join timer: JoinsComeToBeHeld, AllComeToBeHeld; that it is 84 s isn't"),
    "Joins gone": ("no", ""),
    "one sender": ("in part", "of a winner and its loser: AtMostOneComesToSend, OneWinnerIsLeft; the time isn't"),
    "a tree joined": ("in part", "84 s + 2d + 3e a hop, e the routers' lag: WayComesToBeJoined; the time here isn't"),
    "all": ("in part", "all but what is gone at once: NetworkSettles, CarriedNetworkSettles; the time isn't"),
}


def seconds(ms: float) -> str:
    return f"{ms / 1000:.10g} s"


@dataclass(frozen=True, eq=False)
class Port:
    """An interface that is up; `rows` are the router's table and the interface's."""
    router: Router
    own: Interface
    rows: tuple[dict[str, Any], dict[str, Any]]

    def value(self, key: str) -> int:
        """What is configured, in ms; robustness is a number."""
        unit = {"qi": 1000, "qri": 100}.get(key, 1)
        return {**USUAL, **self.rows[0], **self.rows[1]}[key] * unit


@dataclass(frozen=True)
class Term:
    """A part of convergence on a link: within which time, as which sum, and which routers' timer gives it."""
    part: str
    within: int
    sum: str
    routers: str
    link: str


@dataclass(frozen=True)
class Hop:
    """A step of a tree to the next router towards its root."""
    lower: str
    link: str
    upper: str


@dataclass
class Heard:
    """What a scenario's moves say: the tables, candidate RPs and interfaces that it leaves, the tables before each
    reload, which hosts ask on which links, when each source sends, and which frames come out of order."""
    tables: dict[str, dict[str, Any]]
    candidates: dict[str, list[Candidate]] = field(default_factory=dict)
    former: list[dict[str, Any]] = field(default_factory=list)
    up: dict[tuple[str, str], bool] = field(default_factory=dict)
    asked: set[str] = field(default_factory=set)
    sent: dict[tuple[str, str], list[int]] = field(default_factory=dict)
    now: dict[str, int] = field(default_factory=dict)
    latest: dict[tuple[str, int], int] = field(default_factory=dict)
    overtaken: dict[str, str] = field(default_factory=dict)

    def hear(self, did: dict[str, Any]) -> None:
        do, name = did["do"], did.get("router")
        if do in ("routes", "rps"):
            self.replace(name, {**self.tables[name], do: did["list"]})
        elif do == "candidates":
            self.name_candidates(name, did["list"])
        elif do == "reload":
            self.former.append(self.tables[name])
            self.replace(name, {**did["config"], "name": name})
        elif do == "advance":
            self.now[name] = did["moment"]
        elif do in ("up", "down", "frame", "deliver") and did["iface"] < len(self.tables[name]["iface"]):
            link = self.tables[name]["iface"][did["iface"]]["link"]
            if do == "frame":
                self.hear_frame(name, link, bytes.fromhex(did["hex"]))
            elif do == "deliver":
                self.hear_delivery(name, link, did)
            else:
                self.up[name, link] = do == "up"

    def replace(self, name: str, table: dict[str, Any]) -> None:
        """Another configuration of a router, unless it is refused for a prefix or an address."""
        try:
            list(router_of(table).routes)
        except ValueError:
            return
        self.tables[name] = table

    def name_candidates(self, name: str, texts: list[str]) -> None:
        """Other candidate RPs of a router, unless they are refused for a prefix or an address."""
        try:
            self.candidates[name] = candidates_of(texts)
        except ValueError:
            return

    def hear_frame(self, name: str, link: str, data: bytes) -> None:
        try:
            packet = read_heard(data)
        except packets.Refused:
            return
        if isinstance(packet.body, packets.Report):
            self.asked.add(link)
        elif isinstance(packet.body, packets.Data):
            self.sent.setdefault((packet.source, packet.destination), []).append(self.now.get(name, 0))

    def hear_delivery(self, name: str, link: str, did: dict[str, Any]) -> None:
        way, frame = (name, did["iface"]), did["frame"]
        if frame < self.latest.get(way, 0):
            self.overtaken.setdefault(link, f"frame {frame} comes to {name} after frame {self.latest[way]}")
        self.latest[way] = max(frame, self.latest.get(way, 0))


class Plan:
    """The network as a scenario leaves it. Of one of tools/lab `net` says besides what its links and its hosts do."""

    def __init__(self, played: Scenario, d: int, e: int, net: Network | None = None) -> None:
        self.d, self.e, self.bound, self.net = d, e, max(d, e), net
        self.heard = Heard({router.name: router.table for router in played.routers})
        for did in played.moves:
            self.heard.hear(did)
        self.routers = {name: router_of(table) for name, table in self.heard.tables.items()}
        up = self.heard.up
        self.ports = ports_of(self.routers.values(), lambda name, link: not up or up.get((name, link), False))
        # Those too that were up before, and that had other values: what was set by these may last.
        every = [*self.routers.values(), *map(router_of, self.heard.former)]
        self.known = ports_of(every, lambda name, link: not up or (name, link) in up)
        self.asked = [link for link in self.ports if link in self.heard.asked] or list(self.ports)
        self.lans = {link: ports for link, ports in self.ports.items() if len(ports) > 1}
        self.sources = list(dict.fromkeys(source for source, _ in self.heard.sent))

    # ---- ways

    @functools.cache
    def hop(self, name: str, address: str) -> Hop | None:
        """The next hop towards an address that isn't the router's own; None where it is on a link of its own and no
        router's. Raises a LookupError where there is no way."""
        router, at = self.routers[name], ip_address(address)
        ports = {port.own.number: port for each in self.ports.values() for port in each if port.router is router}
        near = next((port for port in ports.values() if at in port.own.own.network), None)
        found = [each for each in router.routes if at in each.prefix and each.iface in ports]
        if near is None and not found:
            raise LookupError(f"{name} has no route to {address}")
        best = min(found, key=lambda each: (-each.prefix.prefixlen, each.preference, each.metric), default=None)
        port, above = (near, address) if near else (ports[best.iface], best.next_hop)
        upper = next((each.router.name for each in self.ports[port.own.link] if each.own.address == above), None)
        if upper is None and near is None:
            raise LookupError(f"no router has {above}, the next hop of {name} to {address}")
        return Hop(name, port.own.link, upper) if upper else None

    def way(self, name: str, address: str) -> list[Hop]:
        """The hops from a router to the one that has an address, or is on its link. Raises a LookupError where there
        are none."""
        hops: list[Hop] = []
        while not self.routers[name].has(address) and (hop := self.hop(name, address)):
            if hop in hops:
                raise LookupError(f"the routes to {address} lead in a circle by {name}")
            hops.append(hop)
            name = hop.upper
        return hops

    def roots(self, name: str) -> list[str]:
        candidates = (each.rp for each in self.heard.candidates.get(name, ()))
        return list(dict.fromkeys([*(rp for _, rp in self.routers[name].rps), *candidates]))

    def ways(self) -> Iterator[list[Hop]]:
        """The ways of trees from each router on a link that is asked for something: to each RP, from there to each
        source, and to each source."""
        for name in dict.fromkeys(port.router.name for link in self.asked for port in self.ports[link]):
            for root in (*self.roots(name), *self.sources):
                try:
                    hops = self.way(name, root)
                    yield hops
                    yield from (hops + self.way(hops[-1].upper if hops else name, each) for each in self.sources)
                except LookupError:
                    continue

    # ---- terms

    def is_shared(self, link: str) -> bool:
        """Whether more than one router is on a link, or was."""
        return len({port.router.name for port in self.known[link]}) > 1

    def most(self, link: str, key: str) -> tuple[int, str]:
        """The greatest configured value on a link, and whose it is."""
        ports = self.ports[link]
        most = max(port.value(key) for port in ports)
        return most, whose(ports, [port for port in ports if port.value(key) == most])

    def override(self, link: str) -> int:
        """How long a Prune waits for a Join that overrides it (RFC 7761, 4.3.3)."""
        return self.most(link, "propagation")[0] + self.most(link, "override")[0]

    def queried(self, link: str) -> tuple[Port, int, int, str, str]:
        """Whose robustness times query interval is greatest, this time, the longest query response interval, the former
        in words, and all who have it. Whoever is or was the querier, the others take its values over, but for the
        last."""
        ports = self.known[link]
        times = {each: each.value("rv") * each.value("qi") for each in ports}
        port = max(ports, key=times.__getitem__)
        who = whose(ports, [each for each in ports if times[each] == times[port]])
        told = f"rv {port.value('rv')} x qi {seconds(port.value('qi'))}"
        return port, times[port], max(each.value("qri") for each in ports), told, who

    def terms(self) -> list[Term]:
        return [each for link in self.ports for each in (*self.lan_terms(link), *self.member_terms(link))]

    def lan_terms(self, link: str) -> Iterator[Term]:
        """What a link has that routers share, or did. What was sent before the last change comes within d of it."""
        if not self.is_shared(link):
            return
        d, e, bound, every = self.d, self.e, self.bound, "each"
        if link in self.lans:
            yield Term("neighbours known", HELLO_PERIOD + 2 * bound, "Hello_Period 30 s + 2max(d,e)", every, link)
            yield Term("Joins held", SUPPRESSED + 2 * bound, "Join timer 84 s + 2max(d,e)", every, link)
        gone = HELLO_HOLDTIME + d + e
        yield Term("neighbours gone", gone, "Hello_Holdtime 105 s + d + e", every, link)
        yield Term("one DR", gone, "as neighbours gone", every, link)
        _, times, reply, told, who = self.queried(link)
        told = f"{told} + qri {seconds(reply)} / 2 + d + 2max(d,e)"
        yield Term("one querier", times + reply // 2 + d + 2 * bound, told, who, link)
        yield Term("Joins gone", JOIN_HOLDTIME + d + e, "holdtime 210 s + d + e", every, link)
        yield Term("one sender", ASSERT_TIME + 2 * d + e, "Assert_Time 180 s + 2d + e", every, link)

    def member_terms(self, link: str) -> Iterator[Term]:
        """What a link with hosts has: they are known once the querier has asked, at first one that was there before."""
        if link not in self.asked:
            return
        port, times, reply, told, who = self.queried(link)
        first, how = times + reply // 2 + self.d, f"{told} + qri {seconds(reply)} x 3/2 + 3d + e"
        if not self.is_shared(link):
            first, how = port.value("qi"), f"qi {seconds(port.value('qi'))} + qri {seconds(reply)} + 2d + e"
        yield Term("members known", first + reply + 2 * self.d + self.e, how, who, link)
        told = f"{told} + qri {seconds(reply)} + d + e"
        yield Term("members gone", times + reply + self.d + self.e, told, who, link)

    def sums(self, terms: list[Term]) -> Iterator[Term]:
        """A whole tree, and all: the longest term, and the longest way that Prunes have from there."""
        hops = max(self.ways(), key=lambda each: sum(self.override(hop.link) + 2 * self.d for hop in each), default=[])
        links = " > ".join([*(hop.lower for hop in hops), *(hop.upper for hop in hops[-1:])]) or "no hop"
        if hops:
            yield Term("a tree joined", SUPPRESSED + 2 * self.bound * len(hops),
                       f"Join timer 84 s + {len(hops)} x 2max(d,e)", "each", links)
        longest = max(terms, key=lambda each: each.within)
        waits = [self.override(hop.link) for hop in hops]
        told = "".join(f" + {waits.count(wait)} x ({seconds(wait)} + 2d)" for wait in dict.fromkeys(waits))
        yield Term("all", longest.within + sum(waits) + 2 * self.d * len(hops), f"{longest.part}{told}",
                   longest.routers, links)

    # ---- premises

    def unmet(self) -> dict[str, list[str]]:
        """What the network doesn't give, in words, and on which links."""
        found: dict[str, list[str]] = {}
        for link, ports in self.lans.items():
            for told in self.unmet_times(link, ports):
                found.setdefault(told, []).append(link)
        for told, link in self.unmet_chances():
            found.setdefault(told, []).append(link)
        for stream, moments in self.heard.sent.items():
            silent = max((later - one for one, later in pairwise(moments)), default=0)
            if silent > SILENT:
                found[f"{words.tree(stream[1], stream[0])} is silent for {seconds(silent)}, which is above 200 s"] = []
        return found | dict.fromkeys(self.unmet_routes(), [])

    def unmet_times(self, link: str, ports: list[Port]) -> Iterator[str]:
        bound, waits = self.bound, 2 * self.d + self.e
        if 2 * bound >= HELLO_HOLDTIME - HELLO_PERIOD:
            yield "d and e aren't below 37.5 s: neighbours are lost"
        if len(ports) > 2 and 3 * bound >= JOIN_HOLDTIME - SUPPRESSED:
            yield "d and e aren't below 42 s: Joins that others hold back are lost"
        querier = min(ports, key=lambda each: int(ip_address(each.own.address)))
        reply = min(each.value("qri") for each in ports if each is not querier)
        if 2 * bound >= (querier.value("rv") - 1) * querier.value("qi") + reply // 2:
            yield f"qi of {querier.router.name} + 2max(d,e) isn't below the time for which others take it as querier"
        if 2 * bound >= ASSERT_OVERRIDE:
            yield "d and e aren't below 1.5 s: an assert's loser forgets it before the winner speaks again"
        delay, who = self.most(link, "propagation")
        if len(ports) > 2 and waits >= delay:
            yield (f"2d + e = {seconds(waits)} isn't below the propagation delay, {seconds(delay)} of {who}: a Join "
                   "that overrides a Prune comes too late")

    def unmet_routes(self) -> Iterator[str]:
        """Routes that don't lead to the RP or a source, and routers with other RP ranges or candidate RPs."""
        told: dict[str, None] = {}
        for name in self.routers:
            sources = () if self.routers[name].table.get("spt") == "never" else self.sources
            for root in (*self.roots(name), *sources):
                try:
                    self.way(name, root)
                except LookupError as reason:
                    told[str(reason)] = None
        yield from told
        ranges = {name: frozenset(map(str, router.rps)) for name, router in self.routers.items()}
        candidates = {name: frozenset(self.heard.candidates.get(name, ())) for name in self.routers}
        for what, found in (("RP ranges", ranges), ("candidate RPs", candidates)):
            first = next(iter(found), None)
            others = [name for name in found if found[name] != found[first]]
            if others:
                yield f"{', '.join(others)}: other {what} than {first} has"

    def unmet_chances(self) -> Iterator[tuple[str, str]]:
        """What comes out of order, and in a network of tools/lab what may, what is lost, and who doesn't answer."""
        if self.net is None:
            yield from ((f"frames don't come in order: {told}", link) for link, told in self.heard.overtaken.items())
            return
        chances = self.net.traffic.chances
        for link in self.lans:
            if chances.reorder or len(self.lans[link]) > 2 and len(set(chances.delay)) > 1:
                yield "frames need not come in order: their delays vary, or some are overtaken", link
        for link in self.net.links.values():
            if link.loss or link.losses:
                yield "packets are lost", link.name
        for host in self.net.hosts.values():
            if not host.answers:
                yield f"{host.name} doesn't answer queries", host.link.name


def ports_of(routers: Iterable[Router], is_taken: Callable[[str, str], bool]) -> dict[str, list[Port]]:
    """The interfaces of routers that are taken, by a router's name and a link's, on each link."""
    found: dict[str, list[Port]] = {}
    for router in routers:
        for own, row in zip(router.interfaces, router.table["iface"]):
            if is_taken(router.name, own.link):
                found.setdefault(own.link, []).append(Port(router, own, (router.table, row)))
    return found


def whose(ports: Iterable[Port], some: Iterable[Port]) -> str:
    """The names of some routers of a link, `each` where these are all."""
    names = dict.fromkeys(port.router.name for port in some)
    return ", ".join(names) if len(names) < len({port.router.name for port in ports}) else "each"
