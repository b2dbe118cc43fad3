"""Whether hosts are served, by the packets that were really sent; where nobody sent, by what the routers know."""
from __future__ import annotations

from collections.abc import Iterator
from dataclasses import dataclass
from typing import TYPE_CHECKING

from pimtext.ways import died, served, streams, trace
from viqeshor.lab import wishes, words
from pimtext.ways.ends import End
from viqeshor.lab.known import known_after
from pimtext.ways.past import Past

if TYPE_CHECKING:
    from viqeshor.lab.scenario import Scenario
    from viqeshor.lab.story import Step, Tables
    from pimtext.ways.streams import Stream
    from viqeshor.lab.wishes import Key


# Reasons that a packet didn't come for which are none of what the routers know.
BY_THE_WAY = ("lost", "refused", "ttl")


@dataclass(frozen=True)
class Loss:
    """Packets one after the other that didn't come to a host, all for one reason; `waiting` are the rungs that waited
    for them."""
    packets: list
    end: End
    waiting: list

    def key(self) -> tuple[str | None, ...]:
        end = self.end
        return end.kind, end.router, end.link, end.address, end.cause

    def words(self) -> str:
        first, last = self.packets[0].number, self.packets[-1].number
        return f"packet {first}" if first == last else f"packets {first} to {last} ({len(self.packets)})"


@dataclass(frozen=True)
class Verdict:
    """Whether the host of a stream is served at the end, why not, and the lines that say so."""
    stream: streams.Stream
    losses: list
    is_served: bool
    end: End | None
    lines: list


class Watch:
    """A run, with what came to its hosts."""

    def __init__(
        self,
        played: Scenario,
        steps: list[Step],
        tables: dict[str, Tables],
        unheard: frozenset[tuple[str, int] | tuple[str, bytes, int]] = frozenset(),
    ) -> None:
        self.played, self.steps = played, steps
        self.known = known_after(played, steps, tables)
        self.packets, self.hosts = trace.traced(played, steps), wishes.Hosts(played, steps)
        self.past, self.now = Past(played, steps), served.World(self.known)
        self.ran = streams.Ran(self.hosts, self.packets, streams.Clocks(steps), unheard)

    def streams(self) -> list[Stream]:
        return list(streams.streams(self.ran))

    def stream(self, host: str, group: str, source: str, link: str | None = None) -> Stream:
        """The stream of a host, on the first link on which it asked where none is given."""
        keys = [key for key in self.hosts.keys(host, group) if link in (None, key[2])]
        place = link or next(iter(self.hosts.links.get(host, [])), None)
        return next(self.of_source(keys[0] if keys else (host, group, place), source))

    # ---- why packets didn't come

    def losses(self, stream: Stream) -> list[Loss]:
        return [loss for run in stream.missing() for loss in self.split(stream, run)]

    def split(self, stream: Stream, run: list[trace.Packet]) -> list[Loss]:
        """A run of packets that didn't come as losses of one reason each; what is between two of one reason has it
        too."""
        one, other = self.loss(stream, run[:1]), self.loss(stream, run[-1:])
        if one.key() == other.key():
            return [Loss(run, other.end, other.waiting)]
        if len(run) == 2:
            return [one, other]
        middle = len(run) // 2
        return self.joined(self.split(stream, run[:middle]) + self.split(stream, run[middle:]))

    @staticmethod
    def joined(losses: list[Loss]) -> list[Loss]:
        """Neighbouring losses of one reason as one."""
        made = losses[:1]
        for loss in losses[1:]:
            if loss.key() == made[-1].key():
                made[-1] = Loss(made[-1].packets + loss.packets, loss.end, loss.waiting)
            else:
                made.append(loss)
        return made

    def loss(self, stream: Stream, packets: list[trace.Packet]) -> Loss:
        (packet,) = packets
        if packet.on(stream.link):
            told = f"the copy on {stream.link} was lost before {stream.host}"
            return Loss(packets, End("lost", told, packet.on(stream.link)[0].by.router, stream.link), [])
        return Loss(packets, *died.Death(self.past, packet, stream.link).end())

    # ---- at the end

    def origin(self, stream: Stream) -> str | None:
        """The link of a source: where its last packet came from, else that of its subnet."""
        if stream.origin:
            return stream.origin
        sent = [packet.link for packet in self.packets if packet.source == stream.source and packet.link]
        return sent[-1] if sent else self.now.link_of(stream.source)

    def whence(self, stream: Stream) -> str | None:
        """The same in words: all links one after the other of a source that moved."""
        links = list(dict.fromkeys(packet.link for packet in stream.packets if packet.link))
        return ", then ".join(links) if len(links) > 1 else self.origin(stream)

    def numbers(self, stream: Stream, wish: wishes.Wish) -> list[str]:
        """What came; where a host excludes the source, what it sent meanwhile."""
        key = self.key(stream)
        kept = [packet for packet in self.packets if (packet.source, packet.group) == (stream.source, stream.group)
                and stream.source in excluded(self.hosts.wish(key, packet.at))]
        told = list(numbers(stream)) if stream.packets or not kept else []
        return [*told, f"  {len(kept)} sent while it asked for all sources but this one"] if kept else told

    def expected(self, world: served.World, stream: Stream) -> tuple[list[str], End | None]:
        """By what the routers know: the lines of the way, and the end where packets wouldn't come."""
        origin = self.origin(stream)
        if origin is None:
            told = f"{stream.source} is in the subnet of no link that is up"
            return [], End("stranger", told, None, None, stream.source)
        if origin == stream.link:
            return [], None
        return served.expected(world, stream.group, stream.source, origin, stream.link)

    def is_as_then(self, stream: Stream, end: End | None) -> bool:
        """Whether the routers know of a stream what they knew before its last packet: whether it would come."""
        last = stream.packets[-1]
        if last.link is None:
            return True
        _, then = self.expected(served.World(self.past.known(last.at)), stream)
        return (then is None) == (end is None)

    def verdict(self, stream: Stream) -> Verdict:
        losses = self.losses(stream)
        wish = self.hosts.wish(self.key(stream), len(self.steps))
        lines = [head(stream, self.whence(stream)), *self.numbers(stream, wish), *(loss_line(loss) for loss in losses)]
        if not wish.has(stream.source):
            return Verdict(stream, losses, False, None, [*lines, unwanted_line(stream, wish, self.who(stream))])
        others = self.other_senders(stream)
        if others:
            end = End("silent", f"{stream.source} has sent nothing in this run, and {others} sent to {stream.group}")
            return Verdict(stream, losses, False, end, [*lines, f"{self.who(stream)} isn't served: {end.text}"])
        way, end = self.expected(self.now, stream)
        if not stream.packets or not self.is_as_then(stream, end):
            return Verdict(stream, losses, end is None, end, lines + expected_lines(stream, way, end))
        last = stream.packets[-1]
        lost = losses[-1] if losses and not stream.arrivals[last] else None
        if lost and end is None and last.link is not None and lost.end.kind not in BY_THE_WAY:
            # What kept this packet off is over: the packet itself changed what the routers know.
            return Verdict(stream, losses, True, None, lines + expected_lines(stream, way, end))
        lines += self.last_lines(stream, last, lost)
        return Verdict(stream, losses, lost is None, lost and lost.end, lines)

    def last_lines(self, stream: Stream, last: trace.Packet, lost: Loss | None) -> list[str]:
        """The way of the last packet, and what came of it."""
        lines = [f"  the last one, packet {last.number}:"] if last.number > 1 else []
        if last.link == stream.link:
            return ["  they are on one link, and no router is between", f"{self.who(stream)} is served"]
        lines += died.way_lines(served.World(self.past.known(last.at)), last, stream.link)
        if lost is None:
            return [*lines, f"{self.who(stream)} is served"]
        waiting = [served.waiting_line(rung, stream.group) for rung in lost.waiting]
        return [*lines, *waiting, f"{self.who(stream)} isn't served: {lost.end.text}{self.elsewhere(stream)}"]

    @staticmethod
    def key(stream: Stream) -> Key:
        return stream.host, stream.group, stream.link

    def who(self, stream: Stream) -> str:
        """The host, with its link where it asks on several."""
        is_alone = len(self.hosts.keys(stream.host, stream.group)) < 2
        return stream.host if is_alone else f"{stream.host} on {stream.link}"

    def elsewhere(self, stream: Stream) -> str:
        """Where a host asks since it asked on a link for the last time."""
        moved = self.hosts.moved(self.key(stream)) if stream.asked is not None else None
        if moved is None:
            return ""
        return f"; since {words.seconds(self.steps[moved[1]].moment)} it asks on {moved[0]}, and here no more"

    def other_senders(self, stream: Stream) -> str:
        """Who sends to a group of which a source that a host named has sent nothing; "" where it has."""
        sent = {packet.source for packet in self.packets if packet.group == stream.group}
        return "" if stream.source in sent else ", ".join(sorted(sent))

    # ---- what is asked

    def asked(
        self, host: str, group: str | None = None, source: str | None = None
    ) -> Iterator[tuple[str, list[Stream]]]:
        """The streams of a host: all that it asked for, or those of a group or a source, by group and link."""
        keys = self.hosts.keys(host, group)
        for key in keys or ([(host, group, next(iter(self.hosts.links.get(host, [])), None))] if group else []):
            found = [source] if source else streams.sources_of(self.hosts, self.packets, key)
            yield key[1], [each for whom in found for each in self.of_source(key, whom)]

    def of_source(self, key: Key, source: str) -> Iterator[Stream]:
        return streams.of_source(self.ran, key, source)

    def answers(
        self, host: str, group: str | None = None, source: str | None = None
    ) -> Iterator[tuple[Verdict | None, list[str]]]:
        """Whether a host is served of what it asked for, or of a group or a source of one: the verdict of each stream,
        or lines."""
        asked = list(self.asked(host, group, source))
        if not asked:
            yield None, [f"{host} has asked for no group in this run"]
        for each, found in asked:
            if not found:
                yield None, [self.sourceless(host, each)]
            for stream in found:
                verdict = self.verdict(stream)
                yield verdict, verdict.lines

    def sourceless(self, host: str, group: str) -> str:
        """Why there is no stream of a group to a host."""
        keys = self.hosts.keys(host, group)
        if not keys:
            return f"{host} has not asked for {group} in this run"
        sent = sorted({packet.source for packet in self.packets if packet.group == group})
        kept = sorted({source for key in keys for source in excluded(self.hosts.wish(key, len(self.steps)))} & {*sent})
        if kept:
            return f"{host} asks for all sources of {group} but {', '.join(kept)}, and nobody else has sent to it"
        if sent:
            return f"{host} has not asked for {group} of {', '.join(sent)}, and nobody else has sent to it in this run"
        return f"nobody has sent to {group} in this run: name a source"


# ---- in words


def head(stream: Stream, origin: str | None) -> str:
    where = f"from {origin or 'nowhere'} to {stream.host} on {stream.link or 'no link'}"
    return f"({stream.source}, {stream.group}) {where}"


def seconds(number: float) -> str:
    return f"{number:.3f}".rstrip("0").rstrip(".") + " s"


def numbers(stream: Stream) -> Iterator[str]:
    """Sent, came, twice, the longest gap and the first after the Join."""
    if stream.asked is None:
        return
    if not stream.packets:
        yield "  nobody has sent since it asked"
        return
    told = f"  {stream.sent} sent since it asked, {stream.came} came"
    if stream.came:
        told += f", {stream.twice or 'none'} of them {stream.how_often()}"
    if stream.longest_gap is not None:
        told += f"; the longest gap {seconds(stream.longest_gap)}"
    if stream.first_after is not None:
        told += f"; the first came {seconds(stream.first_after)} after the Join"
    yield told
    if stream.twice:
        yield f"  {stream.how_often()}: {'; '.join(stream.doubled())}"


def loss_line(loss: Loss) -> str:
    return f"  {loss.words()} didn't come: {loss.end.text}"


def excluded(wish: wishes.Wish) -> frozenset[str]:
    return wish.sources if wish.is_exclude else frozenset()


def unwanted_line(stream: Stream, wish: wishes.Wish, who: str) -> str:
    if stream.source in excluded(wish):
        return f"{who} isn't served: it asks for all sources of {stream.group} but {stream.source}"
    if stream.asked is None:
        return f"{who} isn't served: it has not asked for {stream.group} of {stream.source} in this run"
    return f"{who} isn't served: it asks for {stream.group} of {stream.source} no more"


def expected_lines(stream: Stream, way: list[str], end: End | None) -> list[str]:
    since = "since the network changed; by what the routers know now" if stream.packets else "yet; by what routers know"
    lines = [f"  nobody has sent {since}:", *way]
    return [*lines, f"{stream.host} would be served" if end is None else f"{stream.host} isn't served: {end.text}"]
