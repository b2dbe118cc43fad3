"""What those ask who change channels: how long the first packet took after each Join, how long the stream went on after
each Leave and why, and sources whose packets go in Registers for good."""
from __future__ import annotations

from collections.abc import Iterator
from dataclasses import dataclass
from statistics import median
from typing import TYPE_CHECKING

from pimtext.ways import served
from viqeshor.lab import packets, words
from viqeshor.lab.facts import USUAL
from pimtext.causes.cause import Cause
from pimtext.causes.run import gathered, times
from pimtext.ways.watched import seconds

if TYPE_CHECKING:
    from pimtext.causes.cause import Symptom
    from pimtext.causes.run import Run
    from pimtext.ways.streams import Arrival, Stream
    from pimtext.ways.trace import Packet
    from pimtext.ways.watched import Verdict

# A stream that goes on for longer on a host's link after a Leave is told, in ms.
LONG = 3000
# So many packets in Registers, one after the other and up to the last one, are for good.
FOR_GOOD = 3


@dataclass(frozen=True)
class Phase:
    """A host asked for a stream from one step on, and up to another one, None where it still asks. `joined` and `left`
    are the moments; `first` is that of the first packet that came, `last` that of the last one on the host's link after
    it had left, None where none came or others on the link ask for it."""
    stream: Stream
    began: int
    ended: int | None
    joined: int
    left: int | None
    first: int | None
    last: int | None

    @property
    def join_latency(self) -> float | None:
        return None if self.first is None else (self.first - self.joined) / 1000

    @property
    def waited(self) -> float | None:
        """The same without the time in which the source itself was silent."""
        sent = [packet.moment for packet in self.stream.packets if self.began <= packet.at]
        return None if self.first is None or not sent else max(0, self.first - max(self.joined, sent[0])) / 1000

    @property
    def leave_latency(self) -> float | None:
        if self.left is None:
            return None
        return 0.0 if self.last is None else (self.last - self.left) / 1000


class Latencies:
    def __init__(self, run: Run) -> None:
        self.run, self.hosts, self.steps = run, run.hosts, run.steps
        self.by_group = gathered(((packet.source, packet.group), packet) for packet in run.packets)

    # ---- Joins and Leaves

    def phases(self, stream: Stream) -> list[Phase]:
        """Each time that a host asked for a stream."""
        key = stream.host, stream.group, stream.link
        turns, wants = [], False
        for at, wish in self.hosts.told.get(key, []):
            if wish.has(stream.source) != wants:
                wants = not wants
                turns.append(at)
        ends = [*turns[1::2], None]
        return [self.phase(stream, began, ended, later) for began, ended, later in
                zip(turns[::2], ends, [*turns[2::2], None])]

    def phase(self, stream: Stream, began: int, ended: int | None, later: int | None) -> Phase:
        joined, left = self.steps[began].moment, None if ended is None else self.steps[ended].moment
        came = [self.first(stream.arrivals[packet]) for packet in stream.packets
                if stream.arrivals[packet] and began <= packet.at and (ended is None or packet.at <= ended)]
        first = min((each for each in came if each >= joined), default=None)
        last = None if ended is None else self.last_after(stream, ended, later)
        return Phase(stream, began, ended, joined, left, first, last)

    @staticmethod
    def first(arrivals: list[Arrival]) -> int:
        return min(each.moment for each in arrivals)

    def last_after(self, stream: Stream, ended: int, later: int | None) -> int | None:
        """The moment of the last copy on a host's link after it left, and before it or another one asks there again."""
        until = min([len(self.steps) if later is None else later, *self.asked_again(stream, ended)])
        copies = [copy for packet in self.by_group.get((stream.source, stream.group), []) if packet.link != stream.link
                  for copy in packet.on(stream.link) if ended < copy.by.at < until]
        return max((copy.sent.moment for copy in copies), default=None)

    def asked_again(self, stream: Stream, ended: int) -> Iterator[int]:
        """When others on the link ask for the stream, from a step on: that step itself where they do already."""
        for key, told in self.hosts.told.items():
            if key[0] != stream.host and key[1:] == (stream.group, stream.link):
                if self.hosts.wish(key, ended + 1).has(stream.source):
                    yield ended
                yield from (at for at, wish in told if at > ended and wish.has(stream.source))

    def wants(self, stream: Stream) -> bool:
        """Whether a host asks for a stream at the end."""
        key = stream.host, stream.group, stream.link
        return self.hosts.wish(key, len(self.steps)).has(stream.source)

    # ---- in words

    def lines(self, verdict: Verdict) -> list[str]:
        """A stream's Joins after the first one, and its Leaves."""
        found = []
        for number, phase in enumerate(self.phases(verdict.stream)):
            if number:
                took = "nothing came" if phase.first is None else \
                    f"the first came {seconds(phase.join_latency)} after the Join"
                found.append(f"  it asked again at {words.seconds(phase.joined)}: {took}")
            if phase.left is not None:
                found.append(f"  it left at {words.seconds(phase.left)}: {self.went_on(phase)}")
        return found

    def went_on(self, phase: Phase) -> str:
        """How long a stream went on after a Leave, on the host's link and above it, and by which interval."""
        if phase.last is None:
            return "nothing came to its link after that, or others there ask for it"
        told = f"the stream went on for {seconds(phase.leave_latency)} on {phase.stream.link}"
        return f"{told}{self.by_interval(phase)}{self.above(phase)}"

    def by_interval(self, phase: Phase) -> str:
        """The routers of the link ask `rv` times, each `lmqi` apart, before they take it that nobody answers."""
        names = dict.fromkeys(name for name, _ in self.run.ports().get(phase.stream.link, []))
        tables = [(name, USUAL | self.run.settings.at(name, phase.ended).router.table) for name in names]
        waits = [(100 * table["lmqi"] * table["rv"], name) for name, table in tables]
        most, name = max(waits, default=(0, ""))
        if not most:
            return ""
        return f": `lmqi` and `rv` of {name} let it wait {seconds(most / 1000)} for an answer to its queries"

    def above(self, phase: Phase) -> str:
        """The links above on which it went on for longer."""
        key = phase.stream.source, phase.stream.group
        if any(each.has(phase.stream.source) for each in self.wishes(phase)):
            return ""
        copies = [copy for packet in self.by_group.get(key, []) for copy in packet.copies()
                  if not copy.is_register() and copy.sent.where != phase.stream.link and copy.by.at > phase.ended]
        lasts = {}
        for copy in copies:
            lasts[copy.sent.where] = max(lasts.get(copy.sent.where, 0), copy.sent.moment)
        longer = {link: (last - phase.left) / 1000 for link, last in lasts.items() if last > phase.last}
        if not longer:
            return ""
        link = max(longer, key=longer.get)
        return f"; on {link} for {seconds(longer[link])}, where a Prune waits for a Join that overrides it"

    def wishes(self, phase: Phase) -> Iterator[object]:
        for key in self.hosts.told:
            if key[1] == phase.stream.group and (key[0], key[2]) != (phase.stream.host, phase.stream.link):
                yield self.hosts.wish(key, phase.ended + 1)

    # ---- causes

    def leaves(self) -> Iterator[Cause]:
        """A stream goes on for long after a host left."""
        for verdict in self.run.verdicts:
            for phase in self.phases(verdict.stream):
                if phase.last is not None and phase.last - phase.left > LONG:
                    tree = words.tree(verdict.stream.group, verdict.stream.source)
                    told = f"{verdict.stream.host} left {tree} at {words.seconds(phase.left)}, and"
                    told = f"{told} {self.went_on(phase)}"
                    yield Cause(*self.run.at_move(self.steps[phase.ended], told))

    def registered(self) -> Iterator[Cause]:
        """A source whose packets go on to come to the RP in Registers."""
        for (source, group), found in self.by_group.items():
            late = self.in_registers(found)
            if len(late) >= FOR_GOOD and not self.is_meant(late[-1]):
                yield self.for_good(source, group, found, late)

    @staticmethod
    def in_registers(found: list[Packet]) -> list[Packet]:
        """The last packets of a source that all came in Registers to an RP."""
        late = []
        for packet in reversed(found):
            if not any(copy.is_register() and any(taken.is_done() for taken in copy.taken) for copy in packet.copies()):
                break
            late.append(packet)
        return late[::-1]

    def is_meant(self, packet: Packet) -> bool:
        """Whether the RP joins no source's tree, by its `spt`."""
        copy = next(copy for copy in packet.copies() if copy.is_register() and copy.taken)
        return self.run.settings.at(copy.taken[-1].router, packet.at).router.table.get("spt") == "never"

    def for_good(self, source: str, group: str, found: list[Packet], late: list[Packet]) -> Cause:
        copy = next(copy for copy in late[-1].copies() if copy.is_register() and copy.taken)
        name, rp = copy.by.router, copy.taken[-1].router
        told = f": it registers {words.tree(group, source)} with {rp} for good: the last {len(late)} of"
        told = f"{told} {times(len(found), 'packet')} came in Registers{self.why(name, rp, group, source, late[-1])}"

        def covers(each: Symptom) -> bool:
            is_stop = each.kind == "odd" and each.router == name and each.cause == "NotRp"
            is_twice = each.kind == "twice" and (each.group, each.source) == (group, source)
            return is_stop or (is_twice and (None, rp, rp) in each.pairs)

        return Cause(*self.run.at_router(name, told), covers)

    def why(self, name: str, rp: str, group: str, source: str, last: Packet) -> str:
        """Why no Register-Stop ends it."""
        stops = [step for step in self.steps if step.router == name and is_stop(step, group)]
        ignored = [step for step in stops if step.verdict != "done"]
        if ignored:
            stop = ignored[-1]
            whose = packets.dotted(stop.taken()[12:16])
            return f"; the Register-Stop of {whose} in move {stop.move} was {words.answer(stop.verdict, stop.cause)}"
        known = self.run.past.known(last.at)
        _, end = served.next_up(served.World(known), known[rp], group, source)
        if hasattr(end, "kind"):
            return f"; {rp} doesn't get it by the source's tree: {end.text}"
        return "" if stops else f"; no Register-Stop came to {name}"

    def causes(self) -> Iterator[Cause]:
        yield from self.registered()
        yield from self.leaves()


def is_stop(step: object, group: str) -> bool:
    """Whether a Register-Stop of a group came with a step."""
    data = step.taken()
    if step.iface is not None or not data or len(data) < 24 or data[9] != packets.PIM:
        return False
    try:
        body = packets.read(data).body
    except packets.Refused:
        return False
    return isinstance(body, packets.RegisterStop) and body.group == group


def middle(values: list[float]) -> float | None:
    return median(values) if values else None
