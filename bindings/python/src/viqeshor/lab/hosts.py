"""Hosts: what they want by IGMPv3, what they send, and what they received."""
from __future__ import annotations

from collections.abc import Iterable
from dataclasses import dataclass, field
from typing import TYPE_CHECKING, Any

from viqeshor.lab import packets
from viqeshor.lab.lines import calling
from viqeshor.lab.mistakes import Mistake, group_given, ms_given, number_given, payload_given, source_given
from viqeshor.lab.playing import Action
from viqeshor.lab.wishes import NOTHING, Wish

if TYPE_CHECKING:
    from viqeshor.lab.network import Network
    from viqeshor.lab.topology import Link

# How often a host tells a change on a link that loses packets, and the ms between (RFC 3376, 8.1 and 8.11).
ROBUSTNESS, UNSOLICITED_INTERVAL = 2, 1000
IS_IN, IS_EX, TO_IN, TO_EX, ALLOW, BLOCK = packets.RECORD_KINDS


@dataclass(frozen=True)
class Received:
    """A packet of data that a host received: `path` are the names of the routers that it came by, from the first hop
    on."""
    moment: int
    group: str
    source: str
    payload: bytes
    ttl: int
    path: tuple[str, ...]


def change(old: Wish, new: Wish) -> list[tuple[int, frozenset[str]]]:
    """The record kinds and sources that tell a change of a wish (RFC 3376, 5.1)."""
    if old.is_exclude != new.is_exclude:
        return [(TO_EX if new.is_exclude else TO_IN, new.sources)]
    more, fewer = new.sources - old.sources, old.sources - new.sources
    pairs = [(ALLOW, fewer), (BLOCK, more)] if new.is_exclude else [(ALLOW, more), (BLOCK, fewer)]
    return [(kind, sources) for kind, sources in pairs if sources]


def answer(wish: Wish, query: packets.Query) -> tuple[int, frozenset[str]] | None:
    """The record kind and sources that answer a query, or None (RFC 3376, 5.2)."""
    asked = frozenset(query.sources)
    if not asked:
        return (IS_EX if wish.is_exclude else IS_IN), wish.sources
    wanted = asked - wish.sources if wish.is_exclude else asked & wish.sources
    return (IS_IN, wanted) if wanted else None


def record(kind: int, group: str, sources: Iterable[str]) -> packets.Record:
    return packets.Record(kind, group, tuple(sorted(sources, key=packets.octets)))


@dataclass(eq=False)
class Host:
    """`igmp` is the version that it speaks, 3, 2 or 1; `answers` whether it answers queries."""
    name: str
    link: Link
    address: str
    net: Network = field(repr=False)
    wishes: dict[str, Wish] = field(default_factory=dict, repr=False)
    received: list[Received] = field(default_factory=list, repr=False)
    igmp: int = 3
    answers: bool = True

    def join(self, group: str, source: Host | str | None = None) -> None:
        """Wants a group, of every source or of one, a host or an address, from the present on."""
        old, source = self.wish(group_given(group)), source and source_given(source)
        if source is not None and self.igmp < 3:
            raise Mistake(f"{self.name} speaks IGMPv{self.igmp}, by which no source can be named")
        if source is None:
            self.turn(group, Wish(True, frozenset()))
        else:
            self.turn(group, Wish(old.is_exclude, old.sources - {source} if old.is_exclude else old.sources | {source}))

    def leave(self, group: str, source: Host | str | None = None) -> None:
        """Wants it no more, or not of this source."""
        old, source = self.wish(group_given(group)), source and source_given(source)
        if source is None:
            self.turn(group, NOTHING)
        else:
            self.turn(group, Wish(old.is_exclude, old.sources | {source} if old.is_exclude else old.sources - {source}))

    def wish(self, group: str) -> Wish:
        return self.wishes.get(group, NOTHING)

    def wants(self, group: str, source: str) -> bool:
        return self.wish(group).has(source)

    def turn(self, group: str, new: Wish) -> None:
        """Another wish: it is told to the routers."""
        self.net.act()
        records = [record(kind, group, sources) for kind, sources in change(self.wish(group), new)]
        self.wishes[group] = new
        if new == NOTHING:
            del self.wishes[group]
        for data in self.told(records):
            for again in range(ROBUSTNESS if self.link.loss else 1):
                self.net.schedule(Speech(self, data), self.net.now + again * UNSOLICITED_INTERVAL)

    def told(self, records: list[packets.Record]) -> list[bytes]:
        """The packets that tell some records: a report, or by an older version one of each record, which either wants
        its group or leaves it. By IGMPv1 no group is left."""
        if self.igmp == 3:
            return [packets.write_report(self.address, records)] if records else []
        spoken = [(each.group, each.kind in (TO_IN, IS_IN)) for each in records]
        heard = [(group, is_leave) for group, is_leave in spoken if self.igmp == 2 or not is_leave]
        return [packets.write_older(self.address, group, self.igmp, is_leave) for group, is_leave in heard]

    def hear(self, query: packets.Query) -> None:
        """Answers a query; the answer is what it wants by then."""
        if self.wishes and self.answers:
            self.net.schedule(Reply(self, query), self.net.present + self.net.chance.randint(0, 100 * query.response))

    def records(self, query: packets.Query) -> list[packets.Record]:
        """What it says to a query at the present."""
        asked = [group for group in self.wishes if query.group in ("0.0.0.0", group)]
        groups = sorted(asked, key=packets.octets)
        answers = [(group, answer(self.wishes[group], query)) for group in groups]
        return [record(told[0], group, told[1]) for group, told in answers if told]

    def send(self, group: str, payload: bytes = b"", ttl: int = 16, after: float = 0.0) -> None:
        """Sends a packet of data to a group, at the present or so many seconds later."""
        self.net.act()
        ttl = number_given(ttl, "TTL", 0, 255, is_whole=True)
        data = packets.write_data(self.address, group_given(group), payload_given(payload), ttl)
        self.net.schedule(Speech(self, data), self.net.now + ms_given(after, "number of seconds"))

    def stream(self, group: str, every: float = 1.0, times: int = 10) -> None:
        """Sends packets one after the other from the present on; the first says `1`, the next `2`, and so on."""
        number_given(every, "number of seconds")
        for number in range(number_given(times, "number of packets", is_whole=True)):
            self.send(group, str(number + 1).encode(), after=number * every)

    def take(self, moment: int, packet: packets.Packet, path: tuple[str, ...]) -> None:
        """A packet of data that came."""
        if self.wants(packet.destination, packet.source):
            self.received.append(
                Received(moment, packet.destination, packet.source, packet.body.payload, packet.ttl, path))
            self.received.sort(key=lambda each: each.moment)

    def payloads(self, group: str | None = None) -> list[bytes]:
        """What the packets said that came, of all groups or of one, in their order."""
        return [each.payload for each in self.received if group in (None, each.group)]


class Speech(Action):
    """A host's packet comes to all routers on its link, but for those to which it is lost; so do its data to other
    hosts."""

    def __init__(self, host: Host, data: bytes) -> None:
        super().__init__()
        self.host, self.data = host, data
        host.net.spoken.setdefault(data.hex(), calling())
        chance = host.net.chance
        self.ports = [(port, chance.getrandbits(32)) for port in host.link.ports if chance.random() >= host.link.loss]

    def moves(self) -> list[dict[str, Any]]:
        return self.given(self.data)

    def given(self, data: bytes) -> list[dict[str, Any]]:
        return [
            {"do": "frame", "router": port.router.name, "iface": port.number, "hex": data.hex(), "draw": draw}
            for port, draw in self.ports if port.is_up()
        ]

    def done(self, moment: int) -> None:
        if self.data[9] != packets.IGMP:
            packet = packets.read(self.data)
            for other in self.host.link.hosts:
                if other is self.host:
                    continue
                if self.host.net.chance.random() >= self.host.link.loss:
                    other.take(moment, packet, ())
                else:
                    self.host.net.unheard.add((other.address, self.data, moment))


class Reply(Speech):
    """A host's answer to a query."""

    def __init__(self, host: Host, query: packets.Query) -> None:
        super().__init__(host, b"")
        self.query = query

    def moves(self) -> list[dict[str, Any]]:
        told = self.host.told(self.host.records(self.query))
        return [move for data in told for move in self.given(data)]

    def done(self, moment: int) -> None:
        pass
