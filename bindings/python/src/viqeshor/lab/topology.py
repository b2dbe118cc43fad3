"""Routers and links, and the routes between them by shortest path."""
from __future__ import annotations

import heapq
from collections.abc import Iterator
from dataclasses import dataclass, field
from functools import cached_property
from ipaddress import IPv4Network
from itertools import count
from typing import TYPE_CHECKING, Any, TypeVar

from viqeshor.lab.lines import Line, calling
from viqeshor.lab.mistakes import Mistake, host_given, is_known_key, kind_given, length_given, share_given, table_given
from viqeshor.lab.printed import Neighbour

if TYPE_CHECKING:
    from viqeshor.lab.hosts import Host
    from viqeshor.lab.network import Network
    from viqeshor.lab.packets import Packet
    from viqeshor.lab.story import Sent

    R = TypeVar("R")

# Routes have OSPF's preference.
PREFERENCE = 110
# The keys of an interface that a link leaves to whoever makes it.
IFACE_OPTIONS = ["priority", "propagation", "override"]


@dataclass(eq=False)
class Router:
    """`options` are keys of the scenario file's router, as `spt` or `limit`."""
    name: str
    options: dict[str, Any]
    net: Network = field(repr=False)
    ports: list[Port] = field(default_factory=list, repr=False)
    is_up: bool = True
    made: Line = field(default_factory=calling, repr=False)

    def stop(self) -> None:
        """It falls silent at the present: all its interfaces go down, and other routers' routes go round it."""
        self.net.change_router(self, False)

    def start(self) -> None:
        """It comes again, with new generation IDs."""
        self.net.change_router(self, True)

    def port(self, link: Link) -> Port:
        """Its first interface on a link."""
        found = next((port for port in self.ports if port.link is link), None)
        if found is None:
            raise Mistake(f"{self.name} is not on the link {link.name}")
        return found

    def has(self, address: str) -> bool:
        return address in self.options.get("addresses", ()) or any(port.address == address for port in self.ports)

    def rows(self, kind: type[R] | str, **values: object) -> list[R]:
        """The rows of a table, as of the end of the last `run`, that have these values: a class as `Neighbour`, or its
        letter, as "N"."""
        kind = table_given(kind, values)
        return self.net.table_of(self.name).of(kind, **values)

    def neighbours(self) -> set[str]:
        """The names of the routers that it has as PIM neighbours."""
        return {self.net.owner(row.address).name for row in self.rows(Neighbour)}


@dataclass(eq=False)
class Port:
    """An interface of a router; `options` are keys of the scenario file's interface, as `priority`."""
    router: Router
    number: int
    link: "Link"
    address: str
    options: dict[str, Any] = field(default_factory=dict)
    is_working: bool = True
    length: int | None = None

    def is_up(self) -> bool:
        return self.router.is_up and self.link.is_up and self.is_working

    def down(self) -> None:
        """It fails at the present, alone; before the first `run`, it never comes up."""
        self.link.net.change_port(self, False)

    def up(self) -> None:
        self.link.net.change_port(self, True)

    def table(self) -> dict[str, Any]:
        length = self.length or self.link.subnet.prefixlen
        return {"link": self.link.name, "address": f"{self.address}/{length}", **self.options}


@dataclass(frozen=True)
class Loss:
    """A share of the packets of one kind that are lost on a link, None for all kinds, from one router to another; None
    for any."""
    share: float
    kind: type | None
    sender: str | None
    receiver: str | None

    def is_of(self, packet: Packet, sender: str, receiver: str) -> bool:
        of_kind = self.kind is None or isinstance(packet.body, self.kind)
        return of_kind and self.sender in (None, sender) and self.receiver in (None, receiver)


@dataclass(eq=False)
class Link:
    """`loss` is the share of packets that are lost on it, for each receiver by itself; `losses` are those of one kind
    or way."""
    name: str
    subnet: IPv4Network
    cost: int
    loss: float
    net: Network = field(repr=False)
    ports: list[Port] = field(default_factory=list, repr=False)
    hosts: list[Host] = field(default_factory=list, repr=False)
    is_up: bool = True
    losses: list[Loss] = field(default_factory=list, repr=False)

    @cached_property
    def prefix(self) -> str:
        return str(self.subnet)

    @cached_property
    def order(self) -> tuple[int, int]:
        """Where its subnet stands among others."""
        return int(self.subnet.network_address), self.subnet.prefixlen

    def lose(
        self,
        share: float,
        kind: type | None = None,
        sender: Router | str | None = None,
        receiver: Router | str | None = None,
    ) -> None:
        """From the present on it loses this share of the packets between routers, Registers and Register-Stops that
        pass it too: of one kind, a class of `viqeshor.lab.packets`, as `Hello`, `JoinPrune` or `Data`, and from one
        router of it or to one, by their names. Another call of the same kind and way replaces it."""
        kind_given(kind)
        names = [router and self.net.known_router(router).name for router in (sender, receiver)]
        for router in (sender, receiver):
            if router is not None:
                self.net.known_router(router).port(self)
        loss = Loss(share_given(share, "are lost"), kind, *names)
        same = (loss.kind, loss.sender, loss.receiver)
        self.losses = [each for each in self.losses if (each.kind, each.sender, each.receiver) != same]
        self.losses += [loss] if share else []
        self.net.settles = self.net.settles and not share

    def share_lost(self, packet: Packet, sender: str, receiver: str) -> float:
        """The share of packets like this one that are lost from a router to another."""
        kept = 1 - self.loss
        for loss in self.losses:
            if loss.is_of(packet, sender, receiver):
                kept *= 1 - loss.share
        return 1 - kept

    def down(self) -> None:
        """It fails at the present: its routers' interfaces go down, and the routes go round it."""
        self.net.change_link(self, False)

    def up(self) -> None:
        self.net.change_link(self, True)

    def configure(self, router: Router | str, **options: Any) -> None:
        """Sets keys of a router's interface on this link, as `priority`, before the first `run`; `address` is another
        address than the network would give it, as one that is there already, and `length` another length of its subnet:
        a wrong mask."""
        for key in options:
            is_known_key(key, [*IFACE_OPTIONS, "address", "length"], "an interface")
        port = self.net.known_router(router).port(self)
        if "address" in options:
            port.address = host_given(options.pop("address"))
        if "length" in options:
            port.length = length_given(options.pop("length"))
        port.options.update(options)

    def port(self, router: Router | str) -> Port:
        """The interface of a router on it, which can go `down()` and `up()` alone."""
        return self.net.known_router(router).port(self)

    def packets(self, kind: type | None = None) -> list[Sent]:
        """What routers sent on it, all or of one kind: a class of viqeshor.lab.packets."""
        return [sent for sent in self.net.packets(kind) if sent.where == self.name and not sent.is_unicast()]


@dataclass(frozen=True)
class Way:
    """How a router comes to another one: the distance, the links on the way with the routers behind them, and the first
    hop with the port to it."""
    distance: int
    links: tuple
    routers: tuple
    hop: str | None = None
    port: Port | None = None


def ways(origin: Router) -> dict[Router, Way]:
    """The shortest way to each router that can be reached; of equal ones the one found first, by ports in their
    order."""
    found, order = {}, count()
    waiting = [(0, next(order), origin, Way(0, (), ()))]
    while waiting:
        _, _, router, way = heapq.heappop(waiting)
        if router in found:
            continue
        found[router] = way
        for onward, longer in onwards(router, way):
            heapq.heappush(waiting, (longer.distance, next(order), onward, longer))
    return found


def onwards(router: Router, way: Way) -> Iterator[tuple[Router, Way]]:
    """The routers next to one, with the ways to them."""
    for port in router.ports:
        for other in port.link.ports:
            if other is not port and port.is_up() and other.is_up():
                hop, first = (way.hop, way.port) if way.links else (other.address, port)
                links, routers = (*way.links, port.link), (*way.routers, other.router)
                yield other.router, Way(way.distance + port.link.cost, links, routers, hop, first)


def routes(origin: Router) -> list[str]:
    """A router's routes as the scenario file has them: to each link that isn't its own, and to each address of another
    router that is on no link. None leads to an address of itself."""
    best, apart = {}, []
    for router, way in ways(origin).items():
        if way.links:
            apart += [(f"{address}/32", way, way.distance) for address in router.options.get("addresses", ())]
        for port in router.ports:
            metric = way.distance + port.link.cost
            if way.links and port.is_up() and metric < best.get(port.link, (way, metric + 1))[1]:
                best[port.link] = way, metric
    own, addresses = {port.link for port in origin.ports}, {port.address for port in origin.ports}
    links = sorted(best.items(), key=lambda pair: pair[0].order)
    rows = [(link.prefix, *found) for link, found in links if link not in own]
    rows += sorted(apart, key=lambda row: row[0])
    return [
        f"{prefix} {way.hop} {way.port.number} {PREFERENCE} {metric}"
        for prefix, way, metric in rows
        if way.hop not in addresses
    ]
