"""What came to each host of a run as a page shows it: event by event, from the streams that pimtext.ways.watched has
followed."""
from __future__ import annotations

from bisect import bisect_right
from dataclasses import dataclass, field
from typing import TYPE_CHECKING, Any

from viqeshor.lab import packets
from viqeshor.lab.printed import ANY

if TYPE_CHECKING:
    from pimtext.causes.diagnosis import Diagnosis
    from pimtext.shown.recorded import Recording
    from pimtext.ways.streams import Arrival
    from pimtext.ways.trace import Packet
    from pimtext.ways.watched import Verdict
    from viqeshor.lab.wishes import Key, Wish

# What an event says of a stream: no longer wanted, waited for, came, came more than once, didn't come.
LEFT, WAITS, CAME, TWICE, MISSED = range(5)
# A packet that hasn't come so many ms after it was sent isn't waited for any more, nor once a settle is over.
PATIENCE = 2000


@dataclass(eq=False)
class Told:
    """A host or a source; `events` are the number of answers up to which something happened, a stream, a state and a
    text."""
    address: str
    name: str
    link: str
    events: list = field(default_factory=list)


class Arrivals:
    """The hosts of a recording, with the diagnosis of its run."""

    def __init__(self, recording: Recording, diagnosis: Diagnosis) -> None:
        self.recording, self.watch = recording, diagnosis.run.watch
        self.steps, self.hosts, self.streams, self.senders = diagnosis.run.steps, {}, [], {}
        self.numbers, self.moments = {}, []
        for step in self.steps:
            self.moments.append(max(step.moment, self.moments[-1] if self.moments else 0))
        self.find_hosts()
        for verdict in diagnosis.run.verdicts:
            self.follow(verdict)
        self.follow_wishes()
        for host in self.hosts.values():
            host.events.sort(key=lambda event: event[0])
        events = (event for host in self.hosts.values() for event in host.events)
        self.missed = sorted(at for at, _, state, _ in events if state == MISSED)

    # ---- who is there

    def find_hosts(self) -> None:
        """Whoever gave a report or data to a router, and in which answers."""
        for at, step in enumerate(self.steps):
            data = step.taken() if step.did["do"] == "frame" else None
            if data is None or len(data) < 20 or step.link is None:
                continue
            is_data = data[9] not in (packets.PIM, packets.IGMP) and packets.is_multicast(data[16:20])
            if is_data or data[9] == packets.IGMP and not self.is_router(packets.dotted(data[12:16])):
                self.senders[at] = self.host(packets.dotted(data[12:16]), step.link)

    def is_router(self, address: str) -> bool:
        return any(router.has(address) for router in self.recording.played.routers)

    def host(self, address: str, link: str) -> int:
        """A host's place in the list."""
        if address not in self.hosts:
            self.hosts[address] = Told(address, self.recording.hosts.get(address, address), link)
        return list(self.hosts).index(address)

    def stream(self, group: str, source: str) -> int:
        if (group, source) not in self.numbers:
            self.numbers[group, source] = len(self.streams)
            self.streams.append([group, source])
        return self.numbers[group, source]

    def tell(self, address: str, at: int, stream: int, state: int, text: str) -> None:
        self.hosts[address].events.append([at + 1, stream, state, text])

    # ---- wishes

    def follow_wishes(self) -> None:
        """What hosts wait for, and what they no longer want."""
        for key, changes in self.watch.hosts.told.items():
            host, group, _ = key
            if host not in self.hosts:
                continue
            for at, wish in changes:
                self.waits(key, at, wish)
                for number, (other, source) in enumerate(self.streams):
                    if other == group and source != ANY and not wish.has(source):
                        self.tell(host, at, number, LEFT, "")

    def waits(self, key: Key, at: int, wish: Wish) -> None:
        host, group, _ = key
        was = self.watch.hosts.wish(key, at)
        if wish == was:
            return
        if wish.is_exclude != was.is_exclude:
            self.tell(host, at, self.stream(group, ANY), WAITS if wish.is_exclude else LEFT, "waits for packets"
                      if wish.is_exclude else "")
        for source in [] if wish.is_exclude else sorted(wish.sources - was.sources):
            self.tell(host, at, self.stream(group, source), WAITS, "waits for packets")

    # ---- packets

    def follow(self, verdict: Verdict) -> None:
        """The packets of a stream: how each came, or why it didn't."""
        stream = verdict.stream
        if stream.host not in self.hosts:
            return
        number = self.stream(stream.group, stream.source)
        why = {packet: loss.end.text for loss in verdict.losses for packet in loss.packets}
        for packet in stream.packets:
            came = sorted(stream.arrivals[packet], key=lambda each: each.copy.by.at if each.copy else packet.at)
            for place, arrival in enumerate(came):
                self.arrived(stream.host, number, packet, came[:place + 1], arrival)
            if not came:
                told = self.recording.named(why.get(packet, "it is on its way"))
                self.tell(stream.host, self.over(packet), number, MISSED, f"packet {packet.number} didn't come: {told}")

    def arrived(self, host: str, number: int, packet: Packet, came: list[Arrival], last: Arrival) -> None:
        """A packet came to a host, or came again."""
        ways = [" ".join(taken.router for taken in each.copy.by.way()) if each.copy else "its own link"
                for each in came]
        at = last.copy.by.at if last.copy else packet.at
        if len(came) == 1:
            self.tell(host, at, number, CAME, f"packet {packet.number} came by {ways[0]}")
        else:
            self.tell(host, at, number, TWICE, f"packet {packet.number} came {words_of(len(came))}: by "
                      + ", and by ".join(ways))

    def over(self, packet: Packet) -> int:
        """The answer after which a packet is waited for no more."""
        late = bisect_right(self.moments, packet.moment + PATIENCE, lo=packet.at)
        return min([late, len(self.steps) - 1, *(end - 1 for end in self.settled() if end > packet.at)][:3])

    def settled(self) -> list[int]:
        """The numbers of answers at which settles were over."""
        if not hasattr(self, "ends"):
            dids = self.recording.played.moves
            self.ends = [first + count for (first, count, _), did in zip(self.recording.moves, dids)
                         if did["do"] == "settle"]
        return self.ends

    # ---- what the page gets

    def told(self) -> list[dict[str, Any]]:
        text = self.recording.text
        return [{"name": host.name, "address": host.address, "link": host.link,
                 "events": [[at, number, state, text(told)] for at, number, state, told in host.events]}
                for host in self.hosts.values()]


def words_of(count: int) -> str:
    return "twice" if count == 2 else f"{count} times"
