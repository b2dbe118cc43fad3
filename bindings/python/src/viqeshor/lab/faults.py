"""What is wrong with a scenario file: every fault with its line, and the number with which `pimlab` refuses it.

The rules are those of docs/SCENARIOS.md. 39 is anything that keeps the file from being read as a scenario; 30 to 38 and
70 are the tests of a router's configuration, in this order, of one router after the other; 74 is then the test of all
routers' sets of RPs that share an address.
"""
import re
import sys
from collections.abc import Callable, Iterable, Iterator
from dataclasses import dataclass
from difflib import get_close_matches
from functools import cached_property
from typing import Any

from viqeshor.lab import toml_lines
from viqeshor.lab.addresses import BELOW, address_in, dotted, is_group, is_host, mask, number_in, prefix_in, words_in
from viqeshor.lab.facts import DELAYS, SETTINGS, USUAL

MOST_ROUTERS, MOST_IFACES, MOST_ROUTES, MOST_RPS, MOST_ADDRESSES, MOST_OTHERS = 64, 120, 100_000, 256, 16, 16
MOST_CANDIDATES = 256

CONFIG_KEYS = [
    "iface", "limit", "spt", "rv", "qi", "qri", "lmqi", "older_hosts", "query_version", "guard", "anycast", "bsr",
    "rp_limit", "choice", "candidate_bsr", "candidate_rp", "addresses", "routes", "rps",
]
BSR_KEYS = ["address", "priority", "hash_length", "limit"]
RP_KEYS = ["address", "priority", "ranges"]
# So many ranges are said in a packet of 1,500 bytes.
MOST_RANGES = 183
ROUTER_KEYS = ["name", *CONFIG_KEYS]
IFACE_KEYS = ["link", "address", "priority", "propagation", "override"]
MOVE_KEYS = {
    "up": ["router", "iface", "draw"],
    "down": ["router", "iface", "draw"],
    "advance": ["router", "moment", "draw"],
    "frame": ["router", "iface", "hex", "draw"],
    "unicast": ["router", "hex", "draw"],
    "routes": ["router", "list", "draw"],
    "rps": ["router", "list", "draw"],
    "candidates": ["router", "list", "draw"],
    "deliver": ["router", "iface", "frame", "draw"],
    "carry": ["router", "frame", "draw"],
    "settle": ["draw"],
    "restart": ["router"],
    "reload": ["router", "draw", "config", "places"],
}
ROUTE_FORM = '"PREFIX NEXTHOP IFACE PREFERENCE METRIC", as "10.1.0.0/24 10.0.0.1 0 110 20"'
RP_FORM = '"PREFIX RP", as "239.0.0.0/8 10.0.0.1"'
CANDIDATE_FORM = '"PREFIX RP PRIORITY MASK", as "239.0.0.0/8 10.0.0.1 192 30"'
SET_FORM = '"SHARED OWN OTHER ..", as "10.9.9.9 10.0.0.2 10.0.0.3"'
ADDRESS_FORM = '"ADDRESS", as "10.255.0.1"'
PLACE_FORM = 'the number of an interface of the configuration as a text, as "0", or "none"'
FORMS = {
    "name": 'a text, as name = "edge"',
    "iface of a router": 'a list of interfaces, as iface = [{ link = "lan", address = "10.0.0.1/24" }]',
    "link": 'a text, as link = "lan"',
    "address": 'the router\'s address with the length of its subnet, as "10.0.0.1/24"',
    "router": 'the name of a router, as router = "edge"',
    "do": "one of " + ", ".join(MOVE_KEYS),
    "moment": "a moment in ms, a whole number from 0, as moment = 5000",
    "iface": "the number of an interface, counted from 0",
    "frame": "the number of a packet as it is printed after `frame`, `copy` or `unicast`, counted from 1",
    "hex": "an IPv4 packet in hexadecimal, two digits a byte and no blanks",
    "draw": "a whole number from 0",
    "config": "a table with the keys of a router but its name",
    "list of places": f"a list with an item for each interface that the router has, each {PLACE_FORM}",
    "list of addresses": f"a list of the router's own addresses of no interface, each {ADDRESS_FORM}",
    "list of ranges": 'a list of texts, each a range of groups, as ranges = ["239.0.0.0/8"]',
    "list of anycast": f"a list of sets of RPs that share an address, each {SET_FORM}",
    "list of routes": f"a list of routes, each {ROUTE_FORM}",
    "list of rps": f"a list of RP ranges, each {RP_FORM}",
    "list of candidates": f"a list of candidate RPs, each {CANDIDATE_FORM}",
}


@dataclass(frozen=True)
class Fault:
    """A fault: its line, where in the file it is, what is wrong, and the number of the refusal."""

    line: int
    where: str
    what: str
    number: int = 39


@dataclass
class Iface:
    line: int
    link: str = ""
    address: int | None = None
    length: int | None = None
    # The propagation delay and the override interval, each with its line.
    delays: tuple = tuple((USUAL[key], 0) for key in DELAYS)


@dataclass
class Route:
    line: int
    text: str
    address: int
    length: int
    next_hop: int
    iface: int = 0
    preference: int = 0


@dataclass
class Candidate(Route):
    """A candidate RP, which has the place of a next hop."""
    priority: int = 0
    hash_length: int = 0


@dataclass(frozen=True)
class Own:
    """An own address of no interface."""
    line: int
    address: int


@dataclass(frozen=True, eq=False)
class RpSet:
    """A set of RPs that share an address."""
    line: int
    text: str
    shared: int
    own: int
    others: tuple[int, ...]


# ---- words


def found(value: toml_lines.Value) -> str:
    """What a value is, in words."""
    shown = value.held if value.kind in ("number", "decimal", "date or time") else None
    if value.kind == "text":
        shown = '"' + (value.held if len(value.held) <= 40 else value.held[:37] + "..") + '"'
    if value.kind == "truth value":
        shown = "true" if value.held else "false"
    return f"the {value.kind} {shown}" if shown is not None else f"a {value.kind}"


def nearest(word: str, words: list[str]) -> str:
    near = get_close_matches(word.lower(), words, 1, 0.6)
    return f"; is `{near[0]}` meant?" if near else ""


def count(words: list[str]) -> str:
    return f"{len(words)} word{'' if len(words) == 1 else 's'}"


def why_no_address(text: str) -> str:
    if not text:
        return "it is empty"
    if re.search(r"[^0-9.]", text):
        return f"it has the character {re.search(r'[^0-9.]', text)[0]!r}"
    parts = text.split(".")
    if len(parts) != 4 or "" in parts:
        return "an address has four numbers with dots between them"
    if any(len(part) > 1 and part[0] == "0" for part in parts):
        return "a number of it has a 0 in front"
    return "a number of it is above 255"


def why_no_prefix(text: str) -> str:
    head, slash, tail = text.partition("/")
    if address_in(head) is None:
        return f"`{head}` is no address: {why_no_address(head)}"
    return f"`{tail}` is no length" if slash else "the length of the subnet is missing, as /24"


def texts_in(value: toml_lines.Value | None) -> list[str]:
    """The texts of a list, if there is one."""
    held = value.held if value is not None and value.kind == "list" else []
    return [inner.held for inner in held if inner.kind == "text"]


def addresses_of(table: toml_lines.Value) -> list[str]:
    """The addresses of a router's interfaces, and its others, as they are written."""
    ifaces = table.get("iface")
    held = ifaces.held if ifaces is not None and ifaces.kind == "list" else []
    found_here = [inner.get("address") for inner in held if inner.kind == "table"]
    subnets = [each.held for each in found_here if each is not None and each.kind == "text"]
    return [subnet.partition("/")[0] for subnet in subnets] + texts_in(table.get("addresses"))


# ---- the file as it is read: refusal 39


class Judge:
    """Reads a document as a scenario, and gathers its faults."""

    def __init__(self, most_routers: int = MOST_ROUTERS) -> None:
        self.faults, self.routers, self.moves = [], [], []
        self.names, self.most_routers = {}, most_routers
        self.root = None

    def fault(self, line: int, where: str, what: str, number: int = 39) -> None:
        self.faults.append(Fault(line, where, what, number))

    def only(self, table: toml_lines.Value, known: list[str], where: str, of_what: str) -> None:
        for key in table.held:
            if key not in known:
                more = nearest(key, known) or f": its keys are {', '.join(known)}"
                self.fault(table.key_lines[key], where, f"`{key}` is no key of {of_what}{more}")

    def wanted(self, table: toml_lines.Value, key: str, kind: str, where: str, form: str | None = None) -> Any:
        """What stands at a key that must be there."""
        value = table.get(key)
        form = form or FORMS[key]
        if value is None:
            self.fault(table.line, where, f"`{key}` is missing: it is {form}")
        elif value.kind != kind:
            self.fault(value.line, where, f"`{key}` is {found(value)}, and wanted is {form}")
        return value.held if value is not None and value.kind == kind else None

    def number(
        self, table: toml_lines.Value, key: str, default: int | None, where: str, form: str | None = None
    ) -> int | None:
        """A number from 0 and below 2^32; None where it is missing, without a default, or is none."""
        value = table.get(key)
        form = form or FORMS.get(key, "a whole number")
        if value is None:
            if default is None:
                self.fault(table.line, where, f"`{key}` is missing: it is {form}")
            return default
        if value.kind != "number":
            self.fault(value.line, where, f"`{key}` is {found(value)}, and wanted is {form}" + self.quoted(value))
        elif not 0 <= value.held < BELOW:
            what = "below 0" if value.held < 0 else "too large: it has to be below 2^32 (4294967296)"
            self.fault(value.line, where, f"`{key}` is {value.held}, which is {what}")
        else:
            return value.held
        return None

    @staticmethod
    def quoted(value: toml_lines.Value) -> str:
        return ", without quotes" if value.kind == "text" and re.fullmatch(r"\s*[0-9]+\s*", value.held) else ""

    def tables(self, value: toml_lines.Value | None, what: str) -> list[toml_lines.Value]:
        """The tables of a list of them."""
        if value is None:
            return []
        if value.kind == "table":
            told = f"`{what}` is one table: a list of tables is wanted, whose headers have double brackets, [[{what}]]"
            return self.fault(value.line, "", told) or []
        if value.kind != "list":
            return (
                self.fault(value.line, "", f"`{what}` is {found(value)}, and a list of tables is wanted: [[{what}]]")
                or []
            )
        for at, inner in enumerate(value.held):
            if inner.kind != "table":
                self.fault(inner.line, f"{what} {at}", f"it is {found(inner)}, and a table is wanted")
        return [inner for inner in value.held if inner.kind == "table"]

    def document(self, root: toml_lines.Value) -> None:
        self.only(root, ["router", "move"], "", "a scenario")
        routers = self.tables(root.get("router"), "router")
        for at, table in enumerate(routers):
            self.routers.append(self.router(table, at))
        if len(routers) > self.most_routers:
            line = routers[self.most_routers].line
            self.fault(line, "", f"there are {len(routers)} routers, and at most {self.most_routers} are allowed")
        for at, table in enumerate(self.tables(root.get("move"), "move")):
            self.moves.append(table)
            self.move(table, f"move {at + 1}")

    # ---- routers

    def router(self, table: toml_lines.Value, at: int) -> dict[str, Any]:
        name = table.get("name")
        where = f'router "{name.held}"' if name is not None and name.kind == "text" else f"router {at + 1} of the file"
        self.only(table, ROUTER_KEYS, where, "a router")
        if self.wanted(table, "name", "text", where) is not None:
            if name.held in self.names:
                self.fault(name.line, where, f"another router has this name, in line {self.names[name.held]}")
            self.names.setdefault(name.held, name.line)
        return {"line": table.line, "where": where, "table": table, "later": [], **self.configuration(table, where)}

    def configuration(self, table: toml_lines.Value, where: str) -> dict[str, Any]:
        """What a router's table says but its name."""
        made = {"ifaces": self.ifaces(table, where)}
        for key in SETTINGS:
            made[key] = self.number(table, key, USUAL[key], where)
        self.word(table, "spt", ("always", "never"), where)
        self.word(table, "older_hosts", ("none", "v2", "all"), where)
        self.word(table, "guard", ("off", "on"), where)
        version = table.get("query_version")
        if version is not None and self.number(table, "query_version", 3, where) not in (2, 3, None):
            self.fault(version.line, where, f"`query_version` is {found(version)}, and wanted is 2 or 3")
        self.flag(table, "bsr", where)
        limit = table.get("rp_limit")
        if limit is not None and not 1 <= (self.number(table, "rp_limit", MOST_RPS, where) or 1) <= MOST_RPS:
            self.fault(limit.line, where, f"`rp_limit` is {found(limit)}, and wanted is 1 to {MOST_RPS}")
        self.word(table, "choice", ("range", "group"), where)
        self.candidates(table, where)
        made["sets"] = self.texts(table, "anycast", where, self.rp_set, FORMS["list of anycast"], False)
        made["addresses"] = self.texts(table, "addresses", where, self.own, FORMS["list of addresses"], False)
        made["routes"] = self.texts(table, "routes", where, self.route, FORMS["list of routes"], False)
        made["rps"] = self.texts(table, "rps", where, self.rp, FORMS["list of rps"], False)
        return made

    def candidates(self, table: toml_lines.Value, where: str) -> None:
        """As what a router stands in an election of RFC 5059."""
        for key, keys in (("candidate_bsr", BSR_KEYS), ("candidate_rp", RP_KEYS)):
            inner = table.get(key)
            if inner is None:
                continue
            if inner.kind != "table":
                self.fault(inner.line, where, f"`{key}` is {found(inner)}, and a table is wanted, with an `address`")
                continue
            here = f"{where}, `{key}`"
            self.only(inner, keys, here, "a candidate")
            self.own_address(table, inner, here)
            self.up_to(inner, "priority", 0, 255, here)
            if key == "candidate_bsr":
                self.up_to(inner, "hash_length", 0, 32, here)
                self.up_to(inner, "limit", 1, 255, here)
            else:
                self.ranges(inner, here)

    def own_address(self, table: toml_lines.Value, inner: toml_lines.Value, where: str) -> None:
        """The address of a candidate, one of the router's own, where the router hears Bootstraps."""
        bsr = table.get("bsr")
        if bsr is None or bsr.held is not True:
            self.fault(inner.line, where, "the router hears no Bootstraps: a candidate needs bsr = true beside it")
        text = self.wanted(inner, "address", "text", where, 'one of the router\'s addresses, as address = "10.0.0.1"')
        if text is not None and text not in addresses_of(table):
            self.fault(inner.get("address").line, where, f'`address` is "{text}", and none of the router\'s')

    def up_to(self, table: toml_lines.Value, key: str, least: int, most: int, where: str) -> None:
        """A number that may be missing, and else lies between two others."""
        value = table.get(key)
        number = None if value is None else self.number(table, key, least, where)
        if number is not None and not least <= number <= most:
            self.fault(value.line, where, f"`{key}` is {number}, and wanted is {least} to {most}")

    def ranges(self, table: toml_lines.Value, where: str) -> None:
        """The ranges of a candidate RP."""
        made = self.texts(table, "ranges", where, self.range, FORMS["list of ranges"], True)
        value = table.get("ranges")
        if value is not None and value.kind == "list" and not 1 <= len(value.held) <= MOST_RANGES:
            self.fault(value.line, where, f"there are {len(made)} ranges, and wanted are 1 to {MOST_RANGES}")

    def range(self, _: list[str], inner: toml_lines.Value, place: str) -> tuple[int, int] | None:
        prefix = prefix_in(inner.held)
        if prefix is None:
            return self.fault(inner.line, place, f'"{inner.held}": the prefix is wrong: {why_no_prefix(inner.held)}')
        if not (is_group(prefix[0]) and 4 <= prefix[1] <= 32):
            return self.fault(inner.line, place, f'"{inner.held}" is no range of groups: it is within 224.0.0.0/4')
        return prefix

    def flag(self, table: toml_lines.Value, key: str, where: str) -> None:
        """A truth value that may be missing."""
        value = table.get(key)
        if value is not None and value.kind != "truth value":
            self.fault(value.line, where, f"`{key}` is {found(value)}, and wanted is true or false")

    def word(self, table: toml_lines.Value, key: str, words: tuple[str, ...], where: str) -> None:
        """A text that may be missing, and else is one of these."""
        value = table.get(key)
        if value is not None and (value.kind != "text" or value.held not in words):
            wanted = ", ".join(f'"{word}"' for word in words[:-1]) + f' or "{words[-1]}"'
            self.fault(value.line, where, f"`{key}` is {found(value)}, and wanted is {wanted}")

    def ifaces(self, table: toml_lines.Value, where: str) -> list[Iface]:
        values = table.get("iface")
        if values is not None and values.kind == "table":
            what = "`iface` is one table: a list is wanted, as iface = [{ .. }], or headers [[router.iface]]"
            return self.fault(values.line, where, what) or []
        held = self.wanted(table, "iface", "list", where, FORMS["iface of a router"])
        return [self.iface(inner, f"{where}, interface {at}") for at, inner in enumerate(held or [])]

    def iface(self, table: toml_lines.Value, where: str) -> Iface:
        made = Iface(table.line)
        if table.kind != "table":
            what = f'it is {found(table)}, and a table is wanted, as {{ link = "lan", address = "10.0.0.1/24" }}'
            return self.fault(table.line, where, what) or made
        self.only(table, IFACE_KEYS, where, "an interface")
        made.link = self.wanted(table, "link", "text", where)
        text = self.wanted(table, "address", "text", where)
        if text is not None:
            made.line = table.get("address").line
            if prefix_in(text) is None:
                self.fault(
                    made.line, where, f'`address` is "{text}": {why_no_prefix(text)}; wanted is {FORMS["address"]}'
                )
            made.address, made.length = prefix_in(text) or (None, None)
        self.number(table, "priority", USUAL["priority"], where)
        made.delays = [(self.number(table, key, USUAL[key], where), table.key_lines.get(key)) for key in DELAYS]
        return made

    def texts(
        self,
        table: toml_lines.Value,
        key: str,
        where: str,
        read: Callable[[list[str], toml_lines.Value, str], Route | Own | RpSet | None],
        form: str,
        must: bool,
    ) -> list[Any]:
        """The texts of a list, each read by `read`."""
        value = table.get(key)
        if value is None and not must:
            return []
        made = []
        for at, inner in enumerate(self.wanted(table, key, "list", where, form) or []):
            place = f"{where}, `{key}` {at}"
            if inner.kind != "text":
                self.fault(
                    inner.line, place, f"it is {found(inner)}, and a text is wanted: {form.partition('each ')[2]}"
                )
                continue
            made += [route for route in [read(words_in(inner.held), inner, place)] if route]
        return made

    def numbers(self, words: list[str], names: Iterable[str], inner: toml_lines.Value, place: str) -> None:
        for word, name in zip(words, names):
            if number_in(word) is None:
                self.fault(inner.line, place, f'"{inner.held}": the {name} `{word}` is no whole number below 2^32')

    def own(self, _: list[str], inner: toml_lines.Value, place: str) -> Own | None:
        address = address_in(inner.held)
        if address is None:
            more = "write it without a length" if prefix_in(inner.held) is not None else why_no_address(inner.held)
            return self.fault(inner.line, place, f'"{inner.held}" is no address: {more}')
        return Own(inner.line, address)

    def place(self, _: list[str], inner: toml_lines.Value, place: str) -> None:
        if inner.held != "none" and number_in(inner.held) is None:
            self.fault(inner.line, place, f'"{inner.held}" is no place: wanted is {PLACE_FORM}')

    def route(self, words: list[str], inner: toml_lines.Value, place: str) -> Route | None:
        if len(words) != 5:
            what = f'"{inner.held}" has {count(words)}, and a route has five: {ROUTE_FORM}'
            return self.fault(inner.line, place, what)
        prefix, next_hop = prefix_in(words[0]), address_in(words[1])
        if prefix is None:
            self.fault(inner.line, place, f'"{inner.held}": the prefix is wrong: {why_no_prefix(words[0])}')
        if next_hop is None:
            self.fault(
                inner.line,
                place,
                f'"{inner.held}": the next hop `{words[1]}` is no address: {why_no_address(words[1])}',
            )
        self.numbers(words[2:], ("interface", "preference", "metric"), inner, place)
        iface, preference, metric = map(number_in, words[2:])
        if None in (prefix, next_hop, iface, preference, metric):
            return None
        return Route(inner.line, inner.held, *prefix, next_hop, iface, preference)

    def rp(self, words: list[str], inner: toml_lines.Value, place: str) -> Route | None:
        if len(words) != 2:
            return self.fault(
                inner.line, place, f'"{inner.held}" has {count(words)}, and an RP range has two: {RP_FORM}'
            )
        found_here = self.groups_and_rp(words, inner, place)
        return Route(inner.line, inner.held, *found_here) if found_here else None

    def candidate(self, words: list[str], inner: toml_lines.Value, place: str) -> Candidate | None:
        if len(words) != 4:
            what = f'"{inner.held}" has {count(words)}, and a candidate RP has four: {CANDIDATE_FORM}'
            return self.fault(inner.line, place, what)
        found_here = self.groups_and_rp(words, inner, place)
        self.numbers(words[2:], ("priority", "length of the mask"), inner, place)
        priority, length = map(number_in, words[2:])
        if found_here is None or priority is None or length is None:
            return None
        return Candidate(inner.line, inner.held, *found_here, priority=priority, hash_length=length)

    def groups_and_rp(self, words: list[str], inner: toml_lines.Value, place: str) -> tuple[int, int, int] | None:
        """The address and the length of a prefix, and the RP behind it."""
        prefix, rp = prefix_in(words[0]), address_in(words[1])
        if prefix is None:
            self.fault(inner.line, place, f'"{inner.held}": the prefix is wrong: {why_no_prefix(words[0])}')
        if rp is None:
            self.fault(
                inner.line, place, f'"{inner.held}": the RP `{words[1]}` is no address: {why_no_address(words[1])}'
            )
        return (*prefix, rp) if prefix and rp is not None else None

    def rp_set(self, words: list[str], inner: toml_lines.Value, place: str) -> RpSet | None:
        if len(words) < 2:
            what = f'"{inner.held}" has {count(words)}, and a set of RPs has at least two: {SET_FORM}'
            return self.fault(inner.line, place, what)
        found_here = [address_in(word) for word in words]
        for word, address in zip(words, found_here):
            if address is None:
                self.fault(inner.line, place, f'"{inner.held}": `{word}` is no address: {why_no_address(word)}')
        if None in found_here:
            return None
        shared, own, *others = found_here
        return RpSet(inner.line, inner.held, shared, own, tuple(others))

    # ---- moves

    def move(self, table: toml_lines.Value, where: str) -> None:
        kind = self.wanted(table, "do", "text", where)
        if kind is not None and kind not in MOVE_KEYS:
            more = nearest(kind, list(MOVE_KEYS)) or f": wanted is {FORMS['do']}"
            self.fault(table.get("do").line, where, f'`do` is "{kind}", which there isn\'t{more}')
        if kind not in MOVE_KEYS:
            return
        where, keys = f"{where} ({kind})", MOVE_KEYS[kind]
        self.only(table, ["do", *keys], where, f'"{kind}"')
        if "router" in keys:
            self.of_router(table, where)
        for key in ("iface", "frame"):
            if key in keys:
                self.number(table, key, None, where)
        self.number(table, "draw", 0, where)
        if kind == "advance":
            self.moment(table, where)
        if "hex" in keys:
            self.packet(table, where)
        if "list" in keys:
            self.entries(kind, table, where)
        if "config" in keys:
            self.config(table, where)
            self.texts(table, "places", where, self.place, FORMS["list of places"], False)

    def config(self, table: toml_lines.Value, where: str) -> None:
        """The configuration of a move `reload`. The interfaces that it adds are kept with its router."""
        if self.wanted(table, "config", "table", where) is None:
            return
        inner = table.get("config")
        self.only(inner, CONFIG_KEYS, where, "a configuration")
        ifaces, name = self.configuration(inner, where)["ifaces"], table.get("router")
        for router in self.routers:
            own = router["table"].get("name")
            if name is not None and own is not None and own.held == name.held:
                router["later"] += ifaces[len(router["ifaces"]) + len(router["later"]):]

    def entries(self, kind: str, table: toml_lines.Value, where: str = "") -> list[Route]:
        """The routes of a move `routes`, the ranges of a move `rps`, or the candidates of a move `candidates`."""
        read = {"routes": self.route, "rps": self.rp, "candidates": self.candidate}[kind]
        return self.texts(table, "list", where, read, FORMS[f"list of {kind}"], True)

    def of_router(self, table: toml_lines.Value, where: str) -> None:
        name = self.wanted(table, "router", "text", where)
        # Where a router's own name can't be read, that is told, and not each move of it.
        if name is not None and name not in self.names and len(self.names) == len(self.routers):
            more = nearest(name, list(self.names)) or f": its routers are {', '.join(self.names) or 'none'}"
            self.fault(table.get("router").line, where, f'there is no router "{name}" in the file{more}')

    def moment(self, table: toml_lines.Value, where: str) -> None:
        value = table.get("moment")
        if self.wanted(table, "moment", "number", where) is not None and value.held < 0:
            self.fault(value.line, where, f"`moment` is {value.held}, which is below 0")

    def packet(self, table: toml_lines.Value, where: str) -> None:
        text = self.wanted(table, "hex", "text", where)
        if text is None:
            return
        wrong = re.search(r"[^0-9A-Fa-f]", text)
        if wrong:
            what = f"`hex` has {wrong[0]!r} as its character {wrong.start() + 1}"
            self.fault(table.get("hex").line, where, f"{what}: wanted is {FORMS['hex']}")
        elif len(text) % 2:
            self.fault(table.get("hex").line, where, f"`hex` has {len(text)} digits, which is odd: each byte has two")


# ---- a router's sets of RPs: refusal 74


def set_fault(each: RpSet, sets: list[RpSet], ours: set[int | None]) -> str | None:
    """Why a set of RPs is refused among all sets of a router that has these addresses, or None."""
    shared, at = {one.shared for one in sets}, sets.index(each)
    for what, address in (("shared", each.shared), ("own", each.own)):
        if address not in ours:
            return f"the {what} address {dotted(address)} isn't the router's"
    if each.own in shared:
        return f"the own address {dotted(each.own)} is one that routers share"
    if len(each.others) > MOST_OTHERS:
        return f"there are {len(each.others)} others, and at most {MOST_OTHERS} are allowed"
    for place, other in enumerate(each.others):
        if not is_host(other):
            return f"{dotted(other)} is no host's address: 0.0.0.0, or 224.0.0.0 and above"
        if other in ours:
            return f"{dotted(other)} is the router's, and none of the others of the set"
        if other in each.others[:place]:
            return f"{dotted(other)} stands twice"
    earlier = next((one for one in sets[:at] if one.shared == each.shared), None)
    return None if earlier is None else f"{dotted(each.shared)} is shared in another set, in line {earlier.line}"


def sets_fit(table: dict[str, Any]) -> bool:
    """Whether a router of a scenario's configuration can have its sets of RPs."""
    sets = [RpSet(0, text, *map(address_in, words_in(text)[:2]), tuple(map(address_in, words_in(text)[2:])))
            for text in table.get("anycast", [])]
    ours = {prefix_in(iface["address"])[0] for iface in table["iface"]}
    ours |= set(map(address_in, table.get("addresses", [])))
    return not any(set_fault(each, sets, ours) for each in sets)


def set_faults(router: dict[str, Any]) -> Iterator[Fault]:
    """What is wrong with a router's sets of RPs."""
    where = f"{router['where']}, `anycast`"
    ours = {own.address for own in (*router["ifaces"], *router["addresses"])}
    for each in router["sets"]:
        what = set_fault(each, router["sets"], ours)
        if what:
            yield Fault(each.line, where, f'"{each.text}": {what}', 74)


# ---- a router's configuration: refusals 30 to 38, and 70


def route_fault(route: Route, router: dict[str, Any]) -> str | None:
    """Why a route is refused, or None."""
    ifaces, prefix = router["ifaces"], f"{dotted(route.address)}/{route.length}"
    if route.length > 32:
        return f"the prefix length of {prefix} is above 32"
    if route.address & ~mask(route.length) & (BELOW - 1):
        return f"{prefix} has host bits set: {dotted(route.address & mask(route.length))}/{route.length} is the prefix"
    if route.iface >= len(ifaces):
        return f"there is no interface {route.iface}: the router has {len(ifaces)}, counted from 0"
    if not is_host(route.next_hop):
        return f"the next hop {dotted(route.next_hop)} is no host's address"
    if route.next_hop in [own.address for own in (*ifaces, *router["addresses"])]:
        return f"the next hop {dotted(route.next_hop)} is an address of the router itself"
    return f"the preference {route.preference} is above 2147483646" if route.preference > 0x7FFF_FFFE else None


def rp_fault(route: Route) -> str | None:
    """Why an RP range is refused, or None."""
    prefix = f"{dotted(route.address)}/{route.length}"
    if route.length > 32:
        return f"the prefix length of {prefix} is above 32"
    if route.address & ~mask(route.length) & (BELOW - 1):
        return f"{prefix} has host bits set: {dotted(route.address & mask(route.length))}/{route.length} is the prefix"
    if not is_group(route.address) or route.length < 4:
        return f"{prefix} isn't inside 224.0.0.0/4"
    return None if is_host(route.next_hop) else f"the RP {dotted(route.next_hop)} is no host's address"


def candidate_fault(candidate: Candidate) -> str | None:
    """Why a candidate RP is refused, or None."""
    if (what := rp_fault(candidate)) is not None:
        return what
    if candidate.priority > 255:
        return f"the priority {candidate.priority} is above 255"
    length = candidate.hash_length
    return f"the hash mask has {length} bits, and at most 32 are allowed" if length > 32 else None


def list_faults(
    routes: list[Route], most: int, one: Callable[[Route], str | None], has_rps: bool = False
) -> Iterator[tuple[int, str]]:
    """What is wrong with a list of routes or RP ranges, as (line, text); or of candidates, of which a prefix may have
    several RPs."""
    if len(routes) > most:
        yield routes[most].line, f"there are {len(routes)}, and at most {most} are allowed"
    lines, what_twice = {}, "this RP stands twice for its prefix" if has_rps else "this prefix stands twice"
    for route in routes:
        key = (route.address, route.length, route.next_hop if has_rps else None)
        what = one(route) or (f"{what_twice}: in line {lines[key]} already" if key in lines else None)
        lines.setdefault(key, route.line)
        if what:
            yield route.line, f'"{route.text}": {what}'


def overlaps(one: Iface, other: Iface) -> bool:
    return any((a.address ^ b.address) & mask(a.length) == 0 for a, b in ((one, other), (other, one)))


def iface_faults(router: dict[str, Any]) -> Iterator[tuple[int, int, str, str]]:
    """Tests 30 to 33 and 36 of a router's interfaces, as (number, line, where, what)."""
    ifaces, where = router["ifaces"], router["where"]
    if not 1 <= len(ifaces) <= MOST_IFACES:
        yield 30, router["table"].get(
            "iface"
        ).line, where, f"it has {len(ifaces)} interfaces, and 1 to {MOST_IFACES} are allowed"
    for at, iface in enumerate(ifaces):
        place = f"{where}, interface {at}"
        shown = f"{dotted(iface.address)}/{iface.length}"
        if not is_host(iface.address):
            why = f"{dotted(iface.address)} is no host's address: 0.0.0.0, or 224.0.0.0 and above"
            yield 31, iface.line, place, why
        if not 1 <= iface.length <= 31:
            way = f"; an address alone, as a loopback's, is one of `addresses`: \"{dotted(iface.address)}\""
            way = way if iface.length == 32 else ""
            yield 32, iface.line, place, f"the prefix length of {shown} isn't supported: 1 to 31 are{way}"
        for before, other in enumerate(ifaces[:at]):
            if 1 <= iface.length <= 31 and 1 <= other.length <= 31 and overlaps(iface, other):
                theirs = f"interface {before}, {dotted(other.address)}/{other.length}, in line {other.line}"
                yield 33, iface.line, place, f"its subnet {shown} overlaps that of {theirs}"
        for key, (value, line), most in zip(DELAYS, iface.delays, (32767, 65535)):
            if value > most:
                yield 36, line, place, f"`{key}` is {value} ms, and at most {most} is allowed"


def own_faults(router: dict[str, Any]) -> Iterator[tuple[int, str]]:
    """What is wrong with own addresses of no interface, as (line, text)."""
    own, lines = router["addresses"], {}
    if len(own) > MOST_ADDRESSES:
        yield own[MOST_ADDRESSES].line, f"there are {len(own)}, and at most {MOST_ADDRESSES} are allowed"
    for each in own:
        shown, near = dotted(each.address), next((it for it in router["ifaces"] if is_in(each.address, it)), None)
        if not is_host(each.address):
            yield each.line, f"{shown} is no host's address: 0.0.0.0, or 224.0.0.0 and above"
        elif near is not None and near.address == each.address:
            yield each.line, f"{shown} is the address of an interface, in line {near.line}, and is the router's by that"
        elif near is not None:
            prefix = f"{dotted(near.address & mask(near.length))}/{near.length}"
            yield each.line, f"{shown} is in {prefix}, the subnet of an interface, in line {near.line}"
        if each.address in lines:
            yield each.line, f"{shown} stands twice: in line {lines[each.address]} already"
        lines.setdefault(each.address, each.line)


def is_in(address: int, iface: Iface) -> bool:
    """Whether an address is in the subnet of an interface; one of no supported length is told of by itself."""
    return 1 <= iface.length <= 31 and (address ^ iface.address) & mask(iface.length) == 0


def value_faults(router: dict[str, Any]) -> Iterator[tuple[int, int, str, str]]:
    """Tests 34 and 35, as (number, line, where, what)."""
    where, table = router["where"], router["table"]
    rows = [(34, "limit", 1, 1_000_000, ""), (35, "rv", 2, 7, ""), (35, "qi", 1, 31744, " seconds")]
    rows += [(35, "qri", 1, 31744, " tenths of a second"), (35, "lmqi", 1, 255, " tenths of a second")]
    for number, key, low, high, unit in rows:
        if not low <= router[key] <= high:
            yield number, table.key_lines[key], where, f"`{key}` is {router[key]}, and {low} to {high}{unit} is allowed"
    if router["qri"] >= 10 * router["qi"]:
        line = table.key_lines.get("qri") or table.key_lines.get("qi")
        what = f"`qri` is {router['qri']} tenths of a second, which isn't below `qi`, {router['qi']} seconds"
        yield 35, line, where, what


def configuration_faults(router: dict[str, Any]) -> Iterator[tuple[int, int, str, str]]:
    where = router["where"]
    yield from iface_faults(router)
    yield from value_faults(router)
    for line, what in list_faults(router["routes"], MOST_ROUTES, lambda route: route_fault(route, router)):
        yield 37, line, f"{where}, `routes`", what
    for line, what in list_faults(router["rps"], MOST_RPS, rp_fault):
        yield 38, line, f"{where}, `rps`", what
    for line, what in own_faults(router):
        yield 70, line, f"{where}, `addresses`", what


# ---- the whole


def faults_of(text: str, most_routers: int = MOST_ROUTERS) -> tuple[Judge, int]:
    """The judge of a scenario's text, with its faults by line, and the number that `pimlab` gives: 0 where it is
    accepted."""
    judge = Judge(most_routers)
    try:
        judge.root = toml_lines.read(text)
    except toml_lines.Unreadable as wrong:
        judge.fault(wrong.line, "", f"this is no TOML: {wrong.what}")
        return judge, 39
    judge.document(judge.root)
    number = 39 if judge.faults else 0
    if not number:
        for router in judge.routers:
            found_here = [Fault(line, where, what, test) for test, line, where, what in configuration_faults(router)]
            number = number or min((fault.number for fault in found_here), default=0)
            judge.faults += found_here
        unfit = [fault for router in judge.routers for fault in set_faults(router)]
        number = number or (74 if unfit else 0)
        judge.faults += unfit
    judge.faults.sort(key=lambda fault: fault.line)
    return judge, number


class LateJudge:
    """The judge of a text that is read only where something of it was refused."""

    def __init__(self, text: str) -> None:
        self.text = text

    @cached_property
    def judge(self) -> Judge:
        return faults_of(self.text, sys.maxsize)[0]

    @property
    def moves(self) -> list[toml_lines.Value]:
        return self.judge.moves

    @property
    def routers(self) -> list[dict[str, Any]]:
        return self.judge.routers
