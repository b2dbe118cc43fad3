"""Packets that came to a host more than once: where a second copy came from, why, for how long, and what ended it."""
from __future__ import annotations

from collections.abc import Iterator
from typing import TYPE_CHECKING

from viqeshor.lab import asked, packets, words

if TYPE_CHECKING:
    from pimtext.causes.run import Run
    from viqeshor.lab.story import Sent
    from pimtext.ways.streams import Stream
    from pimtext.ways.trace import Packet

# A link with the two routers that both sent a packet there; the link is None where one router took it twice.
Pair = tuple[str | None, str, str]


class Doubles:
    def __init__(self, run: Run) -> None:
        self.run = run

    def packets(self, stream: Stream) -> list[Packet]:
        return [packet for packet in stream.packets if len(stream.arrivals[packet]) > 1]

    def pairs(self, stream: Stream) -> list[Pair]:
        """Where second copies came from, each place once."""
        found = (self.pair(stream, packet) for packet in self.packets(stream))
        return list(dict.fromkeys(pair for pair in found if pair))

    def pair(self, stream: Stream, packet: Packet) -> Pair | None:
        """The first link on the way on which two routers sent a packet, else who took it in a Register as well."""
        ways = [[taken for taken in each.copy.by.way()] for each in stream.arrivals[packet] if each.copy]
        links = {}
        for way in ways:
            for taken, copy in zip(way, [*(other.before for other in way[1:]), None]):
                link = stream.link if copy is None else None if copy.is_register() else copy.sent.where
                links.setdefault(link, {})[taken.router] = None
        for link, routers in links.items():
            if link is not None and len(routers) > 1:
                one, other, *_ = routers
                return link, one, other
        twice = [taken.router for way in ways for taken in way if taken.iface is None]
        return (None, twice[0], twice[0]) if twice else None

    # ---- in words

    def words(self, stream: Stream) -> str:
        """Why packets came twice, for how long, and what ended it."""
        told = [self.pair_words(stream, pair) for pair in self.pairs(stream)]
        return "; ".join([*told, self.how_long(stream)])

    def how_long(self, stream: Stream) -> str:
        moments = [packet.moment for packet in self.packets(stream)]
        if len(moments) == 1:
            return f"this was at {words.seconds(moments[0])} alone"
        return f"this was from {words.seconds(moments[0])} to {words.seconds(moments[-1])}"

    def pair_words(self, stream: Stream, pair: Pair) -> str:
        link, one, other = pair
        if link is None:
            return f"{one} took it in a Register and from the source's tree, as long as its Register-Stop is on its way"
        told = f"{one} and {other} both sent it on {link}{self.why(stream, pair)}"
        ended = self.ended(stream, pair)
        if ended is None:
            return f"{told}, and no Assert of one that came to the other ended it"
        return f"{told}, until the Assert of {ended.router} at {words.seconds(ended.moment)}"

    def why(self, stream: Stream, pair: Pair) -> str:
        """A route to the source that leads over the link itself."""
        link, *routers = pair
        known = self.run.past.known(self.packets(stream)[0].at)
        for name in routers:
            path = asked.route(known[name], stream.source)
            if path is not None and not path.is_connected and known[name].link(path.iface) == link:
                return f", since the route of {name} to {stream.source} leads to {path.next_hop} on {link} itself"
        return ""

    def ended(self, stream: Stream, pair: Pair) -> Sent | None:
        """The Assert that ended it: the last one of the two that came to the other before the stream came once."""
        link, one, other = pair
        double = self.packets(stream)
        last = double[-1]
        later = [packet for packet in stream.packets if packet.at > last.at and len(stream.arrivals[packet]) == 1]
        if not later:
            return None
        said = [(sent, to) for sent, to in self.asserts(link, one, other, stream) if sent.move >= self.move(double[0])]
        came = [sent for sent, to in said if self.run.wire.answer(sent, to) and sent.move <= self.move(later[0])]
        return came[-1] if came else None

    def move(self, packet: Packet) -> int:
        return self.run.steps[packet.at].move

    def asserts(self, link: str, one: str, other: str, stream: Stream) -> Iterator[tuple[Sent, str]]:
        for step in self.run.steps:
            for sent in step.sent:
                if sent.where == link and sent.router in (one, other) and packets.is_pim(sent.data, packets.ASSERT):
                    if sent.packet().body.group == stream.group:
                        yield sent, other if sent.router == one else one
