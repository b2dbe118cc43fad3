"""The way of a group from a source to a host, router by router, with the state at each: of a scenario, and of live
routers by what `viqeshord show .. --json` prints."""
from __future__ import annotations

import json
import shlex
import subprocess
from collections.abc import Callable, Iterator
from dataclasses import dataclass
from ipaddress import IPv4Interface
from pathlib import Path
from typing import TYPE_CHECKING, Any

from pimtext.shown import views
from pimtext.ways import served
from viqeshor.lab.addresses import ip_address
from viqeshor.lab.printed import ANY

if TYPE_CHECKING:
    from pimtext.ways.served import World
    from viqeshor.lab.wishes import Key

HEADS = ["Hop", "Router", "From", "RPF'", "To", "Tree", "Flags", "Packets", "State"]
# No way is longer.
MOST_HOPS = 64


@dataclass(frozen=True)
class Hop:
    """A router on the way: the interface that packets come on and the neighbour there, the one that they leave on, the
    tree by which it has them, and what it says of it."""
    router: str
    came: str | None
    neighbour: str | None
    left: str | None
    tree: str
    flags: str
    packets: int | None
    state: str

    def cells(self, number: int) -> list[str]:
        cells = [self.router, self.came, self.neighbour, self.left, self.tree, self.flags, self.packets, self.state]
        return [str(number), *("-" if cell in (None, "") else str(cell) for cell in cells)]


def table(hops: list[Hop]) -> Iterator[str]:
    """The hops below one another, the first at the source."""
    cells = [HEADS, *(hop.cells(number) for number, hop in enumerate(hops, 1))]
    widths = [max(map(len, column)) for column in zip(*cells)]
    for row in cells:
        yield "  ".join(text.ljust(width) for text, width in zip(row, widths)).rstrip()


# ---- of a scenario


def of_scenario(
    world: World, key: Key, source: str, origin: str, packets: Callable[[str], int]
) -> tuple[list[Hop], str]:
    """The hops from the link of a source to a host's link, and where they end; "" where they reach it."""
    _, group, link = key
    state, end = served.serving(world, group, source, link)
    if state is None:
        return [], end.text
    rungs, broken = served.climb(world, group, source, state, link)
    hops = [hop_of(world, rung, group, source, packets(rung.state.router.name)) for rung in reversed(rungs)]
    if broken is not None:
        return hops, broken.text
    end = served.parted(group, source, rungs) or served.expected(world, group, source, origin, link)[1]
    return hops, "" if end is None else end.text


def hop_of(world: World, rung: served.Rung, group: str, source: str, packets: int) -> Hop:
    state, tree = rung.state, rung.source
    entry = views.mroute(state, group, tree)
    numbers = {each.number for each in state.router.on(rung.link)}
    is_out = any(each["interface"] in numbers for each in entry["outgoing"])
    kept = [each["kept_off"] for each in entry["kept_off"] if each["interface"] in numbers]
    told = "outgoing" if is_out else f"not: {'; '.join(kept[0])}" if kept else "not: nobody asks for it there"
    came = entry["incoming"] and entry["incoming"]["link"]
    if came is None and tree == ANY and entry["is_rp"]:
        came = "Registers"
    return Hop(state.router.name, came, entry["rpf_neighbour"] and world.named(entry["rpf_neighbour"]), rung.link,
               f"({tree}, {group})", entry["flags"], packets, told)


# ---- of live routers


class Live:
    """Routers that run: by name, the words of a shell that call `viqeshord` there, or the path of a control socket."""

    def __init__(self, calls: dict[str, str]) -> None:
        self.calls, self.kept = calls, {}

    def ask(self, name: str, *words: str) -> list[dict[str, Any]]:
        """What `show` prints of a topic; raises OSError where the router doesn't answer."""
        key = name, words
        if key not in self.kept:
            call = self.calls[name]
            given = ["viqeshord", "show", *words, "--socket", call] if call.startswith("/") and is_socket(call) else \
                [*shlex.split(call), "show", *words]
            ran = subprocess.run([*given, "--json"], capture_output=True, text=True, timeout=30)
            if ran.returncode:
                raise OSError(f"{name}: {ran.stderr.strip() or f'status {ran.returncode}'}")
            self.kept[key] = json.loads(ran.stdout)[words[0]]
        return self.kept[key]

    def ports(self, name: str) -> list[tuple[str, IPv4Interface]]:
        """The interfaces of a router that are up, with their addresses."""
        rows = self.ask(name, "interfaces")
        return [(row["interface"], IPv4Interface(row["address"])) for row in rows if row["is_up"] and row["address"]]

    def on(self, name: str, address: str) -> str | None:
        """A router's interface whose subnet has an address."""
        return next((port for port, own in self.ports(name) if ip_address(address) in own.network), None)

    def owner(self, address: str) -> str | None:
        return next((name for name in self.calls for _, own in self.ports(name) if str(own.ip) == address), None)

    def entry(self, name: str, group: str, source: str) -> dict[str, Any] | None:
        """The entry of a source, else that of all sources."""
        rows = [row for row in self.ask(name, "mroute", group) if row["group"] == group]
        by_source = {row["source"]: row for row in rows}
        return by_source.get(source) or by_source.get(ANY)

    def first(self, group: str, source: str, host: str) -> tuple[str, str] | None:
        """The router that forwards on the host's link, else one there that has an entry, else one there; and its
        interface."""
        here = [(name, port) for name in self.calls if (port := self.on(name, host))]
        entries = {name: self.entry(name, group, source) for name, _ in here}
        rank = lambda pair: (bool(entries[pair[0]]) + (pair[1] in out_of(entries[pair[0]])))
        return max(here, key=rank, default=None)

    def hops(self, group: str, source: str, host: str) -> tuple[list[Hop], str]:
        """The hops from the source to a host, and where they end; "" where they reach it."""
        start = self.first(group, source, host)
        if start is None:
            return [], f"no router that is asked has an interface on the link of {host}"
        found, (name, left), stops = [], start, []
        while len(found) < MOST_HOPS:
            entry = self.entry(name, group, source)
            hop, way = self.hop(name, left, group, source, entry)
            found.insert(0, hop)
            stops += [] if left in out_of(entry) else [f"{name}, on {left}: {hop.state}"]
            above = way["next_hop"] and self.owner(way["next_hop"])
            end = self.end(name, source, entry, way, above)
            if end is not None:
                return found, "; ".join([*stops, *([end] if end else [])])
            name, left = above, self.on(above, way["next_hop"])
        return found, "the way runs in a circle"

    def end(
        self, name: str, source: str, entry: dict[str, Any] | None, way: dict[str, Any], above: str | None
    ) -> str | None:
        """Why the way goes no further up than a router: "" at the source's, None where it goes on."""
        if entry is None:
            return f"{name} has no entry"
        if entry["incoming"] and self.on(name, source) == entry["incoming"]:
            return ""
        if way["is_here"]:
            return f"{name} is the RP, and gets packets of {source} in Registers alone"
        if above is None:
            return f"the next hop of {name} is {way['next_hop'] or 'none'}, which no router that is asked has"
        return None

    def hop(
        self, name: str, left: str | None, group: str, source: str, entry: dict[str, Any] | None
    ) -> tuple[Hop, dict[str, Any]]:
        """A router, and its way to the root of the tree: the source where it has an entry of it, else the RP."""
        is_own = entry is not None and entry["source"] == source
        rows = self.ask(name, "upstream", group)
        mine = next((row for row in rows if row["source"] == (source if is_own else ANY) and row["type"] != "S,G,rpt"),
                    None)
        root = source if is_own or not self.rp(name, group) else self.rp(name, group)
        way = dict(self.ask(name, "rpf", root)[0])
        if mine and mine["rpf_neighbor"]:
            way["next_hop"] = mine["rpf_neighbor"]
        told = "no entry" if entry is None else "outgoing" if left in out_of(entry) else f"not: {entry['forwarding']}"
        came = way["interface"] if entry is None else entry["incoming"]
        tree = f"({entry['source'] if entry else '-'}, {group})"
        hop = Hop(name, came, way["next_hop"], left, tree, entry["flags"] if entry else "",
                  entry["packets"] if entry else None, told)
        return hop, way

    def rp(self, name: str, group: str) -> str | None:
        """The RP that a router has for a group."""
        rows = self.ask(name, "rp", group)
        return rows[0]["rp"] if rows else None


def out_of(entry: dict[str, Any] | None) -> list[str]:
    """The interfaces on which an entry's packets leave."""
    return [] if entry is None else entry["outgoing"]


def is_socket(path: str) -> bool:
    return Path(path).is_socket()
