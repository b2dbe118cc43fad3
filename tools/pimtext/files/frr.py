"""Configurations of FRR routers, as `viqeshord import --json` reads them, with what FRR printed beside them. What isn't
carried over is kept with its file, its line and the reason."""
import json
import os
import shutil
import subprocess
from dataclasses import dataclass, field
from ipaddress import IPv4Interface
from pathlib import Path
from typing import Any

from pimtext.build.kept import TOP, released

DEFAULT = "default"
# Where programs like viqeshord are installed, which not every user's PATH has.
SBIN = ["/usr/local/sbin", "/usr/sbin"]
# FRR's own values, which are those of RFC 3376 too: seconds, and tenths of a second.
IGMP_TIMES = {"query_interval": 125, "query_response": 100, "last_member_query": 10}
# What is read of an interface and isn't carried over.
UNLIKE = {
    "passive": "our router speaks PIM on each of its interfaces",
    "hello": "Hellos leave every 30 s, and hold for 105 s",
    "bfd": "there is no BFD",
    "boundary": "there are no boundaries",
    "neighbors": "there are no lists of what is accepted",
    "version_2": "our router speaks IGMPv3, and asks as version 3 does",
}


@dataclass(frozen=True)
class Place:
    """A line of a file."""
    file: str
    number: int
    text: str


@dataclass(frozen=True)
class Left:
    """A line that isn't carried over, or not as it stands, and why."""
    place: Place
    reason: str

    def __str__(self) -> str:
        return f"{self.place.file}:{self.place.number}: {self.place.text}: {self.reason}"


@dataclass
class Interface:
    """`times` are IGMP's by their keys, `joins` groups and sources (or None) that it joins itself."""
    name: str
    place: Place
    is_pim: bool
    is_igmp: bool
    is_shut: bool
    priority: int
    addresses: list = field(default_factory=list)
    times: dict = field(default_factory=dict)
    joins: list = field(default_factory=list)

    @property
    def own(self) -> IPv4Interface | None:
        return self.addresses[0][0] if self.addresses else None

    def is_apart(self) -> bool:
        """Whether its address has no link: no neighbour is in its subnet."""
        return self.own is not None and self.own.network.prefixlen == 32

    def is_loopback(self) -> bool:
        return self.name.startswith(("lo", "dummy")) or self.is_apart()


@dataclass
class Router:
    """`ranges` are groups and their RP, `statics` prefix, next hop, distance and line."""
    name: str
    file: str
    interfaces: dict = field(default_factory=dict)
    ranges: list = field(default_factory=list)
    spt_never: Place | None = None
    resolves_by_default: bool = False
    statics: list = field(default_factory=list)
    has_protocol: bool = False
    left: list = field(default_factory=list)
    routes: list | None = None

    def leave(self, place: Place, reason: str) -> None:
        self.left.append(Left(place, reason))

    def has(self, address: str) -> bool:
        return any(str(own.ip) == address for each in self.interfaces.values() for own, _ in each.addresses)

    # ---- what is read of its configuration

    def place(self, said: dict[str, Any]) -> Place:
        return Place(self.file, said["line"], said["text"])

    def take(self, said: dict[str, Any]) -> None:
        """Takes what is read, and leaves what a network hasn't."""
        self.interfaces = {row["name"]: self.interface(row) for row in said["interfaces"]}
        self.ranges = [(row["value"]["groups"], row["value"]["address"]) for row in said["rps"]]
        self.spt_never = self.place(said["spt_never"]) if said["spt_never"] else None
        self.resolves_by_default, self.has_protocol = said["uses_default_route"], bool(said["protocols"])
        for row in said["static_routes"]:
            route = row["value"]
            self.statics.append((route["prefix"], route["next_hop"], route["distance"], self.place(row)))
        for row in said["left"] + said["others"]:
            self.leave(self.place(row), row["reason"])
        for row in said["protocols"]:
            self.leave(self.place(row), "routing protocols don't run: routes are those that they found")
        if said["register"]:
            self.leave(self.place(said["register"]), "Registers of every source are accepted")

    def interface(self, row: dict[str, Any]) -> Interface:
        flags = row["has_pim"], row["has_igmp"], row["is_shut_down"]
        port = Interface(row["name"], self.place(row), *flags, 1 if row["priority"] is None else row["priority"])
        port.addresses = [(IPv4Interface(each["value"]), self.place(each)) for each in row["addresses"]]
        for own, place in port.addresses[1:]:
            if not (port.is_apart() and own.network.prefixlen == 32):
                self.leave(place, "an interface has one address here, the first")
        port.times = {key: (row[key]["value"], self.place(row[key])) for key in IGMP_TIMES if row[key]}
        port.joins = [(each["value"]["group"], each["value"]["source"], self.place(each)) for each in row["joins"]]
        for key, reason in UNLIKE.items():
            if row[key]:
                self.leave(self.place(row[key]), reason)
        return port


# ---- a folder of routers


class Unreadable(Exception):
    """A file can't be read, or isn't what it is to be; the text is a sentence."""


def configurations(folder: Path) -> dict[str, Path]:
    """The routers' names with their configurations: NAME.conf, or NAME/frr.conf."""
    found = {path.stem: path for path in folder.glob("*.conf")}
    found |= {path.parent.name: path for path in folder.glob("*/frr.conf")}
    if not found:
        raise Unreadable(f"{folder} has no NAME.conf and no NAME/frr.conf")
    return dict(sorted(found.items()))


def beside(path: Path, name: str, kind: str) -> tuple[str, str, Any] | None:
    """NAME.KIND.json beside a configuration, or KIND.json in its folder; its text and the file's name, or None."""
    own = f"{name}.{kind}.json"
    for each in (path.parent / own, path.parent.parent / own, path.parent / f"{kind}.json"):
        if each.exists() and (each.name != f"{kind}.json" or path.name == "frr.conf"):
            try:
                return each.name, each.read_text("utf-8"), json.loads(each.read_text("utf-8"))
            except ValueError as reason:
                raise Unreadable(f"{each} isn't JSON: {reason}") from None
    return None


def routers_of(folder: str | Path, vrf: str = DEFAULT, program: str | None = None) -> list[Router]:
    """The routers of a folder, with their routes where those are there; `program` is viqeshord, where it is named."""
    paths, found = configurations(Path(folder)), []
    reader = importer(program)
    for name, path in paths.items():
        router = Router(name, str(path.relative_to(folder)))
        router.take(read(reader, path, vrf))
        router.routes = routes_in(router, beside(path, name, "routes"))
        add_addresses(router, beside(path, name, "interfaces"))
        found.append(router)
    return found


def importer(named: str | None = None) -> str:
    """What reads configurations: the viqeshord that is named, here or by VIQESHORD in the environment, that of a
    release, or one that is installed."""
    own = str(TOP / "sbin" / "viqeshord") if released() else None
    path = os.pathsep.join([os.environ.get("PATH", os.defpath), *SBIN])
    found = named or os.environ.get("VIQESHORD") or own or shutil.which("viqeshord", path=path)
    if found is None:
        raise Unreadable("viqeshord isn't installed, which reads FRR's configurations: docs/LINUX.md says how it is "
                         "built; VIQESHORD in the environment may name one")
    return found


def read(program: str, path: Path, vrf: str) -> dict[str, Any]:
    """What `viqeshord import --json` reads of a configuration: docs/schemas/import.json."""
    words = [program, "import", path, "--json", *([] if vrf == DEFAULT else ["--vrf", vrf])]
    try:
        ran = subprocess.run(words, capture_output=True, text=True)
    except OSError as reason:
        raise Unreadable(f"{program} can't be run: {reason.strerror}") from None
    if ran.returncode:
        raise Unreadable(ran.stderr.partition("\n")[0] or f"{program} can't read {path}")
    return json.loads(ran.stdout)


def add_addresses(router: Router, said: tuple[str, str, Any] | None) -> None:
    """The addresses that `show interface json` tells of interfaces whose configuration has none."""
    rows = said[2] if said else {}
    for name, row in rows.items():
        texts = [each["address"] for each in row.get("ipAddresses", ()) if ":" not in each["address"]]
        if name in router.interfaces and not router.interfaces[name].addresses and texts:
            router.interfaces[name].addresses.append((IPv4Interface(texts[0]), Place(said[0], 1, name)))


@dataclass(frozen=True)
class Route:
    prefix: str
    hop: str
    port: str
    distance: int
    metric: int
    protocol: str
    place: Place


def routes_in(router: Router, said: tuple[str, str, Any] | None) -> list[Route] | None:
    """The routes that `show ip route json` tells, None where it isn't there."""
    if said is None:
        return None
    file, text, rows = said
    lines = {line.split('"')[1]: number for number, line in enumerate(text.splitlines(), 1) if '":[' in line}
    found = []
    for prefix, entries in rows.items():
        chosen = next((entry for entry in entries if entry.get("selected")), None)
        place = Place(file, lines.get(prefix, 1), prefix)
        if chosen is not None and chosen["protocol"] not in ("connected", "local"):
            found += route_of(router, prefix, chosen, place)
    return found


def route_of(router: Router, prefix: str, entry: dict[str, Any], place: Place) -> list[Route]:
    """A route as one of at most one, by its first next hop that is used."""
    told = [hop for hop in entry.get("nexthops", ()) if "ip" in hop]
    hops = [hop for hop in told if hop.get("active", True) and hop.get("fib", True)]
    if not hops:
        router.leave(place, "it has no next hop with an address")
        return []
    if len(hops) > 1:
        router.leave(place, f"of its {len(hops)} next hops the first alone is carried over, {hops[0]['ip']}")
    first = hops[0]
    numbers = entry.get("distance", 0), entry.get("metric", 0)
    return [Route(prefix, first["ip"], first.get("interfaceName", ""), *numbers, entry["protocol"], place)]
