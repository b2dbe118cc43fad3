"""The scenario file as plain objects, read and written; docs/SCENARIOS.md says what its keys mean.

What the program would refuse isn't looked for here: `faults` does that.
"""
from __future__ import annotations

import functools
import json
import re
from collections.abc import Iterable
from dataclasses import dataclass, field
from ipaddress import IPv4Interface
from itertools import chain
from typing import TYPE_CHECKING, Any

from viqeshor.lab.addresses import ranges_of, routes_of
from viqeshor.lab.facts import USUAL

if TYPE_CHECKING:
    from ipaddress import IPv4Network


@dataclass
class Interface:
    number: int
    link: str
    own: IPv4Interface
    priority: int = 1

    @property
    def address(self) -> str:
        return str(self.own.ip)


@dataclass
class Router:
    """`table` is the router's table in the file. The interfaces are those of the table, by their numbers, and then
    those that moves `reload` add; so are `addresses`, its own of no interface."""
    name: str
    interfaces: list
    table: dict
    routes: list = field(default_factory=list)
    rps: list = field(default_factory=list)
    addresses: list = field(default_factory=list)

    def on(self, link: str) -> list[Interface]:
        """Its interfaces on a link."""
        return [interface for interface in self.interfaces if interface.link == link]

    def link(self, number: int | None) -> str | None:
        """The link of an interface, None where the router has no such interface."""
        return None if number is None or number >= len(self.interfaces) else self.interfaces[number].link

    def address(self, number: int) -> str | None:
        return None if number >= len(self.interfaces) else self.interfaces[number].address

    def where(self, address: str) -> str:
        """Where it has an address, in words."""
        return next((f"on {each.link}" for each in self.interfaces if each.address == address), "on no link")

    def has(self, address: str | None) -> bool:
        return address in self.addresses or any(interface.address == address for interface in self.interfaces)


@dataclass
class Scenario:
    routers: list
    moves: list

    def begun(self) -> Scenario:
        """The same with the interfaces alone that the routers have before the first move."""
        return Scenario([router_of(router.table) for router in self.routers], self.moves)

    def reloaded(self, name: str, config: dict[str, Any]) -> Scenario:
        """The same where a router has another configuration."""
        table = {**config, "name": name}
        return Scenario([router_of(table) if router.name == name else router for router in self.routers], self.moves)

    @functools.cached_property
    def places(self) -> dict[str, int]:
        """The routers' places in the file, by their names."""
        return {router.name: place for place, router in enumerate(self.routers)}

    @functools.cached_property
    def ports(self) -> dict[str, list[tuple[str, int]]]:
        """The interfaces of each link: pairs of a router's name and a number."""
        found = {}
        for router in self.routers:
            for interface in router.interfaces:
                found.setdefault(interface.link, []).append((router.name, interface.number))
        return found

    @functools.cached_property
    def owners(self) -> dict[str, str]:
        """The first router that has each address."""
        found = {}
        for router in self.routers:
            for address in (*(interface.address for interface in router.interfaces), *router.addresses):
                found.setdefault(address, router.name)
        return found

    def router(self, name: str) -> Router:
        if name not in self.places:
            raise LookupError(f"the scenario has no router {name!r}")
        return self.routers[self.places[name]]

    def links(self) -> dict[str, IPv4Network]:
        """The links with their subnets, those that moves `reload` name too, in the order in which they are named."""
        own = (each for router in self.routers for each in interfaces_of(router.table))
        later = (each for did in self.moves if did["do"] == "reload" for each in later_interfaces(did["config"]))
        found = {}
        for each in chain(own, later):
            found.setdefault(each.link, each.own.network)
        return found

    def text(self, moves: int | None = None) -> str:
        """The file again, with the first of its moves alone where a number is given."""
        return text_of([router.table for router in self.routers], self.moves[:moves])


def interface_of(number: int, table: dict[str, Any]) -> Interface:
    return Interface(number, table["link"], IPv4Interface(table["address"]), table.get("priority", USUAL["priority"]))


def interfaces_of(table: dict[str, Any]) -> list[Interface]:
    return [interface_of(number, row) for number, row in enumerate(table["iface"])]


def places_of(did: dict[str, Any]) -> list[int | None] | None:
    """Where the interfaces of a router go by a move `reload`, by their numbers before it; None where they keep them."""
    return [None if text == "none" else int(text) for text in did.get("places", [])] or None


def numbers_after(did: dict[str, Any]) -> dict[int, int]:
    """The numbers that interfaces have after a move `reload`, by those before it. Those that go have none."""
    places = places_of(did)
    if places is None:
        return {number: number for number, _ in enumerate(did["config"]["iface"])}
    return {number: place for number, place in enumerate(places) if place is not None}


def later_interfaces(config: dict[str, Any]) -> list[Interface]:
    """The interfaces of a move `reload`; none where the router refuses an address."""
    try:
        return interfaces_of(config)
    except ValueError:
        return []


def router_of(table: dict[str, Any]) -> Router:
    lists = routes_of(table.get("routes", [])), ranges_of(table.get("rps", []))
    return Router(table["name"], interfaces_of(table), table, *lists, list(table.get("addresses", [])))


def add_interfaces(router: Router, moves: list[dict[str, Any]]) -> None:
    """Gives a router the interfaces and addresses that moves add."""
    for did in moves:
        if did["do"] == "reload" and did["router"] == router.name:
            router.interfaces += later_interfaces(did["config"])[len(router.interfaces):]
            router.addresses += [each for each in did["config"].get("addresses", []) if each not in router.addresses]


def scenario_of(tables: dict[str, Any]) -> Scenario:
    """The scenario of a file's tables."""
    made = Scenario([router_of(table) for table in tables.get("router", [])], tables.get("move", []))
    for router in made.routers:
        add_interfaces(router, made.moves)
    return made


# ---- written


def value_text(value: object) -> str:
    """A value as TOML has it, tables in one line. JSON's texts and numbers are TOML's too."""
    if isinstance(value, dict):
        return "{ " + ", ".join(f"{key} = {value_text(item)}" for key, item in value.items()) + " }"
    if isinstance(value, list):
        return "[" + ", ".join(map(value_text, value)) + "]"
    return json.dumps(value, ensure_ascii=False)


def line_of(table: dict[str, Any]) -> str:
    """A router's or a move's line."""
    return f"  {value_text(table)},"


def rows_text(name: str, texts: Iterable[str]) -> str:
    return "\n".join([f"{name} = [", *texts, "]"])


def text_of_rows(routers: Iterable[dict[str, Any]], texts: Iterable[str]) -> str:
    """The text of routers, and of the lines of moves."""
    return rows_text("router", map(line_of, routers)) + "\n\n" + rows_text("move", texts) + "\n"


def text_of(routers: Iterable[dict[str, Any]], moves: Iterable[dict[str, Any]]) -> str:
    return text_of_rows(routers, map(line_of, moves))


# ---- names of hosts, in comments, since the format has no key for them

HOST = re.compile(r"^# host (\d+\.\d+\.\d+\.\d+) (\S.*?)\s*$", re.MULTILINE)


def hosts_in(text: str) -> dict[str, str]:
    """The names of hosts by address, of lines `# host ADDRESS NAME`."""
    return dict(HOST.findall(text))


def hosts_text(hosts: dict[str, str]) -> str:
    return "".join(f"# host {address} {name}\n" for address, name in hosts.items())
