"""What came to each host of each source of a group: sent, came, twice, gaps, and how long after the Join."""
from __future__ import annotations

from collections import Counter
from collections.abc import Iterable, Iterator
from dataclasses import dataclass, field
from itertools import groupby
from typing import TYPE_CHECKING

from viqeshor.lab.printed import ANY

if TYPE_CHECKING:
    from viqeshor.lab.story import Step
    from pimtext.ways.trace import Copy, Packet
    from viqeshor.lab.wishes import Hosts, Key


@dataclass(frozen=True)
class Arrival:
    """A packet came to a host: by the copy, None where the source is on the host's link; `moment` is the clock of who
    sent it."""
    packet: Packet
    copy: Copy | None
    moment: int


@dataclass(eq=False)
class Stream:
    """The packets of a source to a group that were sent while the host wanted them. `asked` is the step of its first
    Join, None where it never asked, and `clock` gives the moment of a router at a step."""
    host: str
    link: str | None
    group: str
    source: str
    asked: int | None
    clock: Clocks
    # The link that it comes from where others send by the same address; else None.
    origin: str | None = None
    packets: list = field(default_factory=list)
    arrivals: dict = field(default_factory=dict)

    @property
    def sent(self) -> int:
        return len(self.packets)

    @property
    def came(self) -> int:
        return sum(1 for packet in self.packets if self.arrivals[packet])

    @property
    def twice(self) -> int:
        """How many packets came more than once."""
        return sum(1 for packet in self.packets if len(self.arrivals[packet]) > 1)

    def first_arrivals(self) -> list[Arrival]:
        """The first arrival of each packet that came, in the order of the packets."""
        came = [self.arrivals[packet] for packet in self.packets if self.arrivals[packet]]
        return [min(arrivals, key=lambda each: each.moment) for arrivals in came]

    @property
    def longest_gap(self) -> float | None:
        """The most seconds between two packets that came one after the other, without what the source was silent itself
        more than it mostly is; None where fewer than two came."""
        came = sorted(self.first_arrivals(), key=lambda each: each.moment)
        sent = [packet.moment for packet in self.packets]
        own = sorted(later - one for one, later in zip(sent, sent[1:]))
        usual = own[len(own) // 2] if own else 0
        gaps = [(later.moment - one.moment, self.silence(one.packet, later.packet, usual))
                for one, later in zip(came, came[1:])]
        return max(((gap - silence) / 1000 for gap, silence in gaps), default=None)

    def silence(self, one: Packet, later: Packet, usual: int) -> int:
        """How much longer than usual the source itself was silent between two packets."""
        sent = [packet.moment for packet in self.packets if one.at <= packet.at <= later.at]
        return sum(max(0, following - before - usual) for before, following in zip(sent, sent[1:]))

    @property
    def first_after(self) -> float | None:
        """The seconds from the host's first Join to the first packet that came; None where none came."""
        first = min(self.first_arrivals(), key=lambda each: each.moment, default=None)
        if first is None or self.asked is None:
            return None
        sender = first.copy.sent.router if first.copy else first.packet.began[0].router
        return (first.moment - self.clock(sender, self.asked)) / 1000

    def missing(self) -> list[list[Packet]]:
        """The packets that didn't come, in runs of which each is a list."""
        runs = groupby(self.packets, key=lambda packet: bool(self.arrivals[packet]))
        return [list(run) for is_there, run in runs if not is_there]

    def how_often(self) -> str:
        """How often a packet came that came more than once, in words."""
        most = max((len(arrivals) for arrivals in self.arrivals.values()), default=0)
        return "twice" if most <= 2 else "more than once"

    def senders(self) -> list[str]:
        """The routers that sent the host packets which came more than once."""
        return list(dict.fromkeys(each.copy.sent.router for each in self.repeated() if each.copy))

    def repeated(self) -> list[Arrival]:
        """How the packets came that came more than once."""
        return [each for packet in self.packets if len(self.arrivals[packet]) > 1 for each in self.arrivals[packet]]

    def doubled(self) -> list[str]:
        """Who sent what came more than once, and where it had come from, in words; each way once with how often it
        was."""
        here = "by its source, on the same link"
        ways = Counter(each.copy.words() if each.copy else here for each in self.repeated())
        return [f"{way} ({count})" if count > 1 else way for way, count in ways.items()]


class Clocks:
    """The moments of routers at steps."""

    def __init__(self, steps: Iterable[Step]) -> None:
        self.ticks = [(at, step.router, step.moment) for at, step in enumerate(steps)
                      if step.did is not None and step.did["do"] == "advance" and step.verdict == "done"]

    def __call__(self, router: str, at: int) -> int:
        """The router's present before step `at`."""
        return max((moment for before, whose, moment in self.ticks if whose == router and before < at), default=0)


@dataclass(frozen=True)
class Ran:
    """What streams are made of. `unheard` has what a link lost on the way to a host: the host's address with the number
    of a copy, or with the bytes and the moment of a source's own packet."""
    hosts: Hosts
    packets: list[Packet]
    clock: Clocks
    unheard: frozenset[tuple[str, int] | tuple[str, bytes, int]] = frozenset()


def streams(ran: Ran) -> Iterator[Stream]:
    """The streams of each host, group and source, in the order of the hosts."""
    for key in ran.hosts.told:
        for source in sources_of(ran.hosts, ran.packets, key):
            yield from of_source(ran, key, source)


def sources_of(hosts: Hosts, packets: list[Packet], key: Key) -> list[str]:
    """Who sent to a group while the host wanted it, and whom it named."""
    host, group, _ = key
    sent = [each.source for each in packets if each.group == group and each.source != host]
    return [source for source in dict.fromkeys([*sent, *hosts.named(key)])
            if hosts.joined(key, source) is not None and source != ANY]


def origins(packets: list[Packet], group: str, source: str) -> list[str | None]:
    """The links of several senders that have one address, else None alone; a host that moved is one sender."""
    links = [packet.link for packet in packets if (packet.source, packet.group) == (source, group)]
    runs = [link for link, _ in groupby(links)]
    return sorted(set(runs), key=runs.index) if len(set(runs)) < len(runs) and None not in runs else [None]


def of_source(ran: Ran, key: Key, source: str) -> Iterator[Stream]:
    """The streams of a source's address to a host that asks for a group on a link: one, but where several senders have
    the address."""
    host, group, link = key
    for origin in origins(ran.packets, group, source):
        made = Stream(host, link, group, source, ran.hosts.joined(key, source), ran.clock, origin)
        for packet in ran.packets:
            is_its = (packet.source, packet.group) == (source, group) and origin in (None, packet.link)
            if is_its and ran.hosts.wish(key, packet.at).has(source):
                made.packets.append(packet)
                made.arrivals[packet] = arrivals(packet, host, link, ran.unheard)
        yield made


def arrivals(
    packet: Packet, host: str, link: str | None, unheard: frozenset[tuple[str, int] | tuple[str, bytes, int]]
) -> list[Arrival]:
    """How a packet came to a host."""
    is_here = packet.link == link and (host, packet.content, packet.moment) not in unheard
    own = [Arrival(packet, None, packet.moment)] if is_here else []
    copies = [copy for copy in packet.on(link) if (host, copy.sent.number) not in unheard]
    return own + [Arrival(packet, copy, copy.sent.moment) for copy in copies]
