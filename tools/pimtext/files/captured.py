"""A capture as moves of one router: what it took and what it sent, and the run of our router on the same."""
from __future__ import annotations

import math
from collections import Counter
from dataclasses import dataclass, field, replace
from ipaddress import IPv4Address
from pathlib import Path
from typing import TYPE_CHECKING, Any

from pimtext.files import pimlab
from viqeshor.lab import packets, scenario, story, toml_lines
from viqeshor.lab.addresses import prefix_in
from viqeshor.lab.packets import dotted, is_multicast

if TYPE_CHECKING:
    from pimtext.files.capture import Capture, Frame

SENT, CAME, UNCLEAR = "sent", "came", "unclear"
# The longest time in ms between two advances of the run.
STEP = 100
# A copy of data leaves at most so many ms after it came.
FORWARDING = 1000
# For so many ms the run goes on after the capture's last packet: what is the router's by chance earlier than ours.
BEYOND = 5000
# What isn't looked at, in words.
OTHER_UNICAST = "unicast packets that are no PIM of this router"
NO_INTERFACE = "packets on links on which the router has no interface"
STAYS = "data to groups that stay on their link (224.0.0.0/24)"
AS_HOST = "IGMP reports of the router itself, of groups that stay on their link"
OWN_HOST = "IGMP reports of the router itself, as of a host beside it"
BEFORE = "packets that came before the router spoke on that interface"


class Unclear(Exception):
    """What the user gave isn't enough; the text is a sentence."""


@dataclass(frozen=True)
class Event:
    """A packet that the router sent, or that came to it; `iface` is None for a unicast. `moment` is in ms from the
    first packet."""
    number: int
    moment: int
    iface: int | None
    what: str
    data: bytes


def source_of(frame: Frame) -> str:
    return dotted(frame.data[12:16])


def destination_of(frame: Frame) -> str:
    return dotted(frame.data[16:20])


def speaks(frame: Frame) -> bool:
    """Whether it is PIM or IGMP."""
    return frame.data[9] in (packets.PIM, packets.IGMP)


def is_to_group(frame: Frame) -> bool:
    return is_multicast(frame.data[16:20])


def stays_on_link(group: str) -> bool:
    return group.startswith("224.0.0.")


# ---- the router's table


def table_of(addresses: list[str], ranges: list[str], routes: list[str], frames: list[Frame]) -> dict[str, Any]:
    """A router's table of addresses with their lengths. A link has the name of the capture's interface on which it
    speaks."""
    links = list(dict.fromkeys(frame.link for frame in frames))
    interfaces = []
    for number, text in enumerate(addresses):
        told = prefix_in(text)
        if told is None or not 1 <= told[1] <= 31:
            raise Unclear(f"{text} has no length from 1 to 31: it is to be as 10.0.1.1/24, or a router of --table")
        own = [frame for frame in frames if source_of(frame) == text.partition("/")[0]]
        heard = [frame.link for frame in own if speaks(frame) and is_to_group(frame)]
        link = heard[0] if heard else links[0] if len(links) == len(addresses) == 1 else f"link of {text}"
        interfaces.append({"link": link, "address": text})
    return {"name": "router", "iface": interfaces, "routes": list(routes), "rps": list(ranges)}


def table_in(path: str | Path, address: str, ranges: list[str], routes: list[str]) -> dict[str, Any]:
    """The table of the router of a scenario's file that has an address, with more ranges and routes."""
    played = pimlab.read(path)
    found = [router.table for router in played.routers if router.has(address)]
    if not found:
        raise Unclear(f"no router of {path} has the address {address}")
    table = toml_lines.plain(found[0]) if not isinstance(found[0], dict) else dict(found[0])
    return table | {"routes": [*table.get("routes", ()), *routes], "rps": [*table.get("rps", ()), *ranges]}


# ---- what each packet is to the router


@dataclass
class Sorter:
    """`ports` are interface numbers by the capture's links, `silent` the interfaces whose link is captured and on
    which the router never speaks, `hardware` the router's hardware addresses by link."""
    router: scenario.Router
    ports: dict
    silent: set
    hardware: dict
    is_here: bool
    left_out: Counter = field(default_factory=Counter)
    as_host: int = 0

    def sort(self, frame: Frame) -> tuple[int | None, str] | None:
        """The interface, and whether the router sent it, it came, or that is unclear; None where it is left out."""
        found = self.of_group(frame) if is_to_group(frame) else self.of_unicast(frame)
        if isinstance(found, tuple):
            return found
        self.left_out[found] += 1
        return None

    def of_unicast(self, frame: Frame) -> tuple[int | None, str] | str:
        if frame.data[9] == packets.PIM and self.router.has(source_of(frame)):
            return None, SENT
        is_own = frame.data[9] == packets.PIM and self.router.has(destination_of(frame))
        return (None, CAME) if is_own else OTHER_UNICAST

    def of_group(self, frame: Frame) -> tuple[int | None, str] | str:
        number = self.ports.get(frame.link)
        if number is None:
            return NO_INTERFACE
        if frame.data[9] == packets.IGMP or (speaks(frame) and frame.data[16:20] == packets.ALL_PIM_ROUTERS):
            return self.of_speech(frame, number)
        if stays_on_link(destination_of(frame)):
            return STAYS
        return number, self.way_of_data(frame)

    def of_speech(self, frame: Frame, number: int) -> tuple[int | None, str] | str:
        if not self.router.has(source_of(frame)):
            return number, CAME
        groups = groups_wanted(frame.data)
        if groups is None:
            return number, SENT
        return AS_HOST if all(map(stays_on_link, groups)) else (number, CAME)

    def way_of_data(self, frame: Frame) -> str:
        """By the direction that the frame tells, else by its sender's hardware address, else it is unclear as yet."""
        if self.is_here and frame.is_outgoing is not None:
            return SENT if frame.is_outgoing else CAME
        if self.hardware.get(frame.link):
            return SENT if frame.hardware in self.hardware[frame.link] else CAME
        return UNCLEAR


def groups_wanted(data: bytes) -> list[str] | None:
    """The groups of an IGMP report, None of any other packet."""
    try:
        body = packets.read(data).body
    except packets.Refused as refused:
        return [] if refused.args[0] == packets.OLD and data[9] == packets.IGMP else None
    return [record.group for record in body.records] if isinstance(body, packets.Report) else None


def sorter_of(router: scenario.Router, read: Capture) -> Sorter:
    """How the capture tells what the router sent."""
    own = [frame for frame in read.frames if router.has(source_of(frame)) and speaks(frame) and is_to_group(frame)]
    numbers = {interface.address: interface.number for interface in router.interfaces}
    ports = {interface.link: interface.number for interface in router.interfaces}
    ports |= {frame.link: numbers[source_of(frame)] for frame in own}
    captured = {each.number for each in router.interfaces if each.link in read.names}
    silent = captured - {ports[frame.link] for frame in own}
    hardware = {}
    for frame in own:
        if frame.hardware is not None:
            hardware.setdefault(frame.link, set()).add(frame.hardware)
    return Sorter(router, ports, silent, hardware, any(frame.is_outgoing for frame in own))


def events_of(sorter: Sorter, read: Capture) -> list[Event]:
    """What the router sent and took, in the capture's order."""
    begin, found = None, []
    for frame in read.frames:
        sorted_as = sorter.sort(frame)
        if sorted_as is not None:
            begin = frame.moment if begin is None else begin
            data = of_host(sorter, *sorted_as, frame.data)
            found.append(Event(frame.number, round(max(0, frame.moment - begin) * 1000), *sorted_as, data))
    return list(map(Origins().clear, found))


@dataclass
class Origin:
    """A packet of data that came, and the interfaces on which the router's copy of it was seen; `iface` is None in a
    Register."""
    moment: int
    iface: int | None
    copied: set = field(default_factory=set)


class Origins:
    """What a frame doesn't tell: a packet of data is the router's copy where one that came just before, elsewhere,
    is the same with a TTL higher by one; else it came."""

    def __init__(self) -> None:
        self.found = {}

    def clear(self, event: Event) -> Event:
        """The event with what was unclear made clear."""
        data = event.data if event.iface is not None else registered(event.data)
        if event.what == UNCLEAR:
            event = replace(event, what=SENT if self.is_copy(event) else CAME)
        if event.what == CAME and data is not None:
            self.found.setdefault((data[8], key_of(data)), []).append(Origin(event.moment, event.iface))
        return event

    def is_copy(self, event: Event) -> bool:
        for origin in self.found.get((event.data[8] + 1, key_of(event.data)), ()):
            is_near = event.moment - origin.moment <= FORWARDING
            if is_near and origin.iface != event.iface and event.iface not in origin.copied:
                origin.copied.add(event.iface)
                return True
        return False


def key_of(data: bytes) -> bytes:
    """A packet without its TTL and the checksum of its header."""
    return data[:8] + data[9:10] + data[12:]


def registered(data: bytes) -> bytes | None:
    """The packet in a Register, None of any other one."""
    start = 4 * (data[0] & 15)
    return data[start + 8:] if data[start:start + 1] == b"\x21" and len(data) >= start + 28 else None


def of_host(sorter: Sorter, iface: int | None, what: str, data: bytes) -> bytes:
    """What came. A router ignores what has its own address: a report of the router itself is given as that of a host
    on the link, with the highest address that isn't the router's."""
    if what != CAME or iface is None or not sorter.router.has(dotted(data[12:16])):
        return data
    sorter.as_host += 1
    last = int(sorter.router.interfaces[iface].own.network.broadcast_address) - 1
    host = next(text for text in map(str, map(IPv4Address, (last, last - 1))) if not sorter.router.has(text))
    return packets.with_header_sum(data[:12] + packets.octets(host) + data[16:])


# ---- moves


def ups(sorter: Sorter, events: list[Event], is_running: bool) -> dict[int, int]:
    """The packet with which each interface goes up: the first that the router sent on it, or the first of all that
    are looked at. One whose link isn't captured goes up with the first one that does; one on which nothing was sent
    stays down."""
    first = {}
    for event in events:
        if event.what == SENT:
            first.setdefault(event.iface, event.number)
    begin = events[0].number if is_running else min(first.values(), default=events[0].number)
    numbers = [each.number for each in sorter.router.interfaces if is_running or each.number not in sorter.silent]
    return {number: begin if is_running else first.get(number, begin) for number in numbers}


def generations(events: list[Event]) -> dict[int, int]:
    """The generation ID of each interface's first Hello, by its number."""
    found = {}
    for event in events:
        if event.what == SENT and event.iface is not None and packets.is_pim(event.data, packets.HELLO):
            found.setdefault(event.iface, hello_generation(event.data))
    return found


def hello_generation(data: bytes) -> int:
    try:
        return packets.read(data).body.generation or 0
    except packets.Refused:
        return 0


class Mover:
    """Writes the moves: time passes in steps of at most so many ms."""

    def __init__(self, name: str, step: int) -> None:
        self.name, self.step, self.now, self.moves = name, step or math.inf, 0, []

    def move(self, do: str, **more: Any) -> None:
        self.moves.append({"do": do, "router": self.name, **more})

    def pass_to(self, moment: int) -> None:
        while self.now < moment:
            self.now = min(moment, self.now + self.step)
            self.move("advance", moment=self.now)

    def bring_up(self, waiting: dict[int, int], number: int, draws: dict[int, int]) -> None:
        """The interfaces go up that wait for this packet; they wait no more."""
        for iface in [iface for iface, first in waiting.items() if first <= number]:
            del waiting[iface]
            self.move("up", iface=iface, draw=draws.get(iface, 0))

    def take(self, event: Event) -> None:
        where = {} if event.iface is None else {"iface": event.iface}
        self.move("frame" if where else "unicast", **where, hex=event.data.hex())


def moves_of(sorter: Sorter, events: list[Event], step: int, is_running: bool) -> tuple[list[dict[str, Any]], int]:
    """The moves of a capture. With them, how many packets came while the interface was down."""
    mover, draws, early = Mover(sorter.router.name, step), generations(events), 0
    waiting = ups(sorter, events, is_running)
    down = sorter.silent - set(waiting)
    for event in events:
        mover.pass_to(event.moment)
        mover.bring_up(waiting, event.number, draws)
        if event.what == CAME and (event.iface in waiting or event.iface in down):
            early += 1
        elif event.what == CAME:
            mover.take(event)
    if step:
        mover.pass_to(mover.now + BEYOND)
    return mover.moves, early


# ---- the run


@dataclass
class Run:
    """Our router's run: the moves, its packets with their moments and interfaces, and how many packets came too
    early; it is coarse where time passed from packet to packet alone."""
    moves: list
    sent: list
    steps: list
    early: int
    is_coarse: bool

    def troubles(self) -> Counter[str]:
        """How often it refused or ignored what came, by the answer."""
        return Counter(step.answer() for step in self.steps if step.verdict != "done")


def run_of(sorter: Sorter, events: list[Event], step: int = STEP, is_running: bool = False) -> Run:
    """Our router's run on what came to the router of the capture."""
    moves, early = moves_of(sorter, events, step, is_running)
    table = sorter.router.table
    played = scenario.scenario_of({"router": [table], "move": moves})
    steps, _ = story.played(played, pimlab.run_text(scenario.text_of([table], moves)))
    sent = [(each, each.iface) for step in steps for each in step.sent]
    return Run(moves, sent, steps, early, not step)
