"""What each single failure does to the hosts of a network of tools/lab: who loses what, for how long, and what comes
twice.

The network is taken as its file leaves it: hosts go on wanting what they want, sources go on sending. Each failure is
tried in a process of its own, which begins where the file ended.
"""
from __future__ import annotations

import json
import multiprocessing
import signal
from collections import Counter
from collections.abc import Callable, Iterable, Iterator
from dataclasses import dataclass, field
from multiprocessing.connection import Connection, wait
from multiprocessing.process import BaseProcess
from typing import TYPE_CHECKING, Any

from viqeshor.lab.topology import ways

if TYPE_CHECKING:
    from viqeshor.lab.network import Network
    from viqeshor.lab.topology import Link
    from pimtext.shown.playpage import Told

# Seconds of the stream before the failure; then packets a second apart at first, and later EVERY seconds apart.
BEFORE, CLOSE = 5, 10
EVERY = 5


@dataclass(frozen=True)
class Failure:
    """What fails: `kind` is link, router or interface; `what` says it in words."""
    kind: str
    name: str
    router: str = ""
    what: str = ""

    def happen(self, net: Network) -> None:
        if self.kind == "link":
            net.links[self.name].down()
        elif self.kind == "router":
            net.routers[self.name].stop()
        else:
            net.routers[self.router].port(net.links[self.name]).down()


def failures(net: Network) -> Iterator[Failure]:
    """Each link of two routers or more, each router, and each interface on such a link."""
    shared = [link for link in net.links.values() if len(link.ports) > 1 and link.is_up]
    for link in shared:
        yield Failure("link", link.name, what=f"link {link.name}")
    for router in net.routers.values():
        if router.is_up:
            ranges = [prefix for prefix, address in net.ranges if net.owner(address) is router]
            yield Failure("router", router.name, what=f"router {router.name}" + f" (RP of {', '.join(ranges)})"
                          * bool(ranges))
    for link in shared:
        for port in link.ports:
            if port.is_up():
                yield Failure("interface", link.name, port.router.name,
                              f"interface {port.number} ({link.name}) of {port.router.name}")


# ---- streams


@dataclass(frozen=True)
class Stream:
    """A source, a host by its name, that sends to a group."""
    source: str
    group: str

    def __str__(self) -> str:
        return f"({self.source}, {self.group})"


def streams(net: Network) -> list[Stream]:
    """What hosts have sent in the run so far, by the moves that gave it to routers."""
    from viqeshor.lab import spoken
    names = {host.address: host.name for host in net.hosts.values()}
    sent = [(each.packet.source, each.packet.destination) for each in spoken.said(net.running().steps)
            if each.is_data()]
    return [Stream(names[source], group) for source, group in dict.fromkeys(sent) if source in names]


def offsets(seconds: int) -> list[int]:
    """When packets are sent, in seconds from the failure on."""
    close = list(range(-BEFORE, min(CLOSE, seconds)))
    return close + list(range(CLOSE, seconds, EVERY))


def payload(number: int) -> bytes:
    return f"whatif {number}".encode()


# ---- what came


@dataclass
class Outage:
    """What a host got of a stream: `sent` are the times at which packets were, in seconds from the failure on, and
    `came` says how often each one came. It is cut off where no way of links and routers leads to it from the source any
    more."""
    host: str
    stream: Stream
    sent: list
    came: list
    is_cut_off: bool = False

    @property
    def lost(self) -> int:
        return self.came.count(0)

    @property
    def twice(self) -> int:
        return sum(max(0, times - 1) for times in self.came)

    def gaps(self) -> list[tuple[int, int | None]]:
        """Runs of lost packets: when the first was sent, and when the next one that came; None where none came any
        more."""
        found, first = [], None
        for at, times in zip(self.sent, self.came):
            if times == 0 and first is None:
                first = at
            elif times and first is not None:
                found.append((first, at))
                first = None
        return found + ([(first, None)] if first is not None else [])

    def longest(self) -> tuple[int, bool]:
        """The seconds of the longest run of lost packets, and whether nothing came after it."""
        gaps = [((end if end is not None else self.sent[-1] + EVERY) - first, end is None) for first,
                end in self.gaps()]
        return max(gaps, default=(0, False))

    def is_for_good(self) -> bool:
        return any(end is None for _, end in self.gaps())

    def served_again(self) -> int:
        """The seconds from the failure to the last packet that comes after lost ones, by when it was sent. Meant where
        it isn't for good."""
        return max((end for _, end in self.gaps()), default=0)


def is_joined(one: Link, other: Link) -> bool:
    """Whether links and routers that are up lead from one link to another."""
    reached = set().union(*(ways(port.router) for port in one.ports if port.is_up()))
    return one is other or any(port.is_up() and port.router in reached for port in other.ports)


def outages(net: Network, told: list[Stream], times: list[int]) -> list[Outage]:
    """What each host that wants a stream got of it."""
    found = []
    for stream in told:
        source = net.hosts[stream.source]
        for host in net.hosts.values():
            if host is source or not host.wants(stream.group, source.address):
                continue
            came = Counter(each.payload for each in host.received if each.group == stream.group
                           and each.source == source.address)
            times_came = [came[payload(number)] for number in range(len(times))]
            found.append(Outage(host.name, stream, times, times_came, not is_joined(source.link, host.link)))
    return found


def play(net: Network, failure: Failure | None, seconds: int) -> list[Outage]:
    """The network goes on, with the failure where there is one."""
    told, times = streams(net), offsets(seconds)
    for stream in told:
        for number, at in enumerate(times):
            net.hosts[stream.source].send(stream.group, payload(number), after=at + BEFORE + 0.5)
    net.run(BEFORE)
    if failure is not None:
        failure.happen(net)
    net.run(seconds)
    return outages(net, told, times)


# ---- all of them


@dataclass
class Effect:
    """What a failure did. Only streams that came before it are counted: what never came isn't its doing."""
    failure: Failure
    outages: list = field(default_factory=list)

    def cut_off(self) -> list[Outage]:
        """The streams to which no way is left: no multicast routing could bring them."""
        return [each for each in self.outages if each.is_cut_off]

    def hit(self) -> list[Outage]:
        """The streams that lose something though there is a way."""
        return [each for each in self.outages if each.lost and not each.is_cut_off]

    def served_again(self) -> int | None:
        """The seconds after which each stream that has a way comes again; None where one doesn't."""
        hit = self.hit()
        if any(each.is_for_good() for each in hit):
            return None
        return max((each.served_again() for each in hit), default=0)

    def worth(self) -> tuple[int, int, int, int]:
        """How bad it is: streams that don't come again though there is a way, then seconds without packets, packets
        that came twice, and streams that are cut off."""
        hit = self.hit()
        return (sum(each.is_for_good() for each in hit), sum(each.longest()[0] for each in hit),
                sum(each.twice for each in self.outages), len(self.cut_off()))


class Trial:
    """A network and how long each failure is looked at; its processes inherit it as it stands."""

    def __init__(self, net: Network, seconds: int) -> None:
        self.net, self.seconds = net, seconds

    def effect(self, failure: Failure | None) -> Effect:
        return Effect(failure, play(self.net, failure, self.seconds))

    def told(self, failure: Failure | None) -> Told:
        """The run of a failure, or of none, for a page."""
        from pimtext.files import labfile
        play(self.net, failure, self.seconds)
        return labfile.told(self.net, failure.what if failure else "no failure")


def each_alone(trial: Trial, method: str, chosen: Iterable[Failure | None], jobs: int) -> Iterator[tuple[int, Any]]:
    """What a method of a trial answers to each failure, with the failure's place, as soon as it is there: each in a
    process of its own, at most `jobs` at a time. Those that still run when nobody reads on are ended."""
    call, waiting = getattr(trial, method), list(enumerate(chosen))
    running: dict[Connection, tuple[int, BaseProcess]] = {}
    try:
        while waiting or running:
            while waiting and len(running) < jobs:
                place, failure = waiting.pop(0)
                answer, process = begun(call, failure)
                running[answer] = place, process
            for answer in wait(list(running)):
                place, process = running.pop(answer)
                yield place, result_of(answer)
                process.join()
    finally:
        for _, process in running.values():
            process.kill()
            process.join()


def begun(call: Callable[[Failure | None], Any], failure: Failure | None) -> tuple[Connection, BaseProcess]:
    """A process that calls, and where its answer comes. No two processes share a pipe or a lock, so that one that is
    ended never holds what another one waits for."""
    alone = multiprocessing.get_context("fork")
    answer, given = alone.Pipe(duplex=False)
    process = alone.Process(target=answered, args=(call, failure, given), daemon=True)
    process.start()
    given.close()
    return answer, process


def answered(call: Callable[[Failure | None], Any], failure: Failure | None, given: Connection) -> None:
    """Ctrl-c is for whoever handed out the work."""
    signal.signal(signal.SIGINT, signal.SIG_IGN)
    try:
        given.send(call(failure))
    except Exception as error:
        given.send(error)


def result_of(answer: Connection) -> Any:
    """What a process answered. Raises what it failed with, and EOFError where it was ended."""
    with answer:
        result = answer.recv()
    if isinstance(result, Exception):
        raise result
    return result


# ---- outages as text, for a run of a process elsewhere


def text_of(effect: Effect) -> str:
    return json.dumps([[each.host, each.stream.source, each.stream.group, each.sent, each.came, each.is_cut_off]
                       for each in effect.outages])


def effect_of(failure: Failure | None, text: str) -> Effect:
    return Effect(failure, [Outage(host, Stream(source, group), *rest) for host, source, group, *rest
                            in json.loads(text)])
