"""What each router of a scenario is fed: its configuration, and the events that reach it."""
from __future__ import annotations

from collections.abc import Iterable, Iterator
from dataclasses import dataclass
from typing import TYPE_CHECKING, Any

from viqeshor.lab.addresses import candidate_words, dotted, prefix_in, range_words, route_words, words_in
from viqeshor.lab.facts import DELAYS, SETTINGS, USUAL

if TYPE_CHECKING:
    from viqeshor.lab.story import Step


@dataclass(frozen=True)
class Event:
    """`name` is the library's call without `pim_`; `values` what it takes after the draw: numbers, bytes, or a list's
    texts.
    """
    name: str
    draw: int
    values: tuple


def interfaces(table: dict[str, Any]) -> Iterator[tuple[str, int, int, int, int]]:
    """Each interface: its address, its prefix length, its DR priority and its two delays."""
    for row in table.get("iface", []):
        address, length = prefix_in(row["address"])
        usual = (row.get(key, USUAL[key]) for key in ("priority", *DELAYS))
        yield dotted(address), length, *usual


def settings(table: dict[str, Any]) -> dict[str, Any]:
    given = {name: table.get(key, USUAL[key]) for key, name in SETTINGS.items()}
    return given | {"stays_on_shared_tree": table.get("spt") == "never", "addresses": table.get("addresses", [])}


def has_guard(table: dict[str, Any]) -> bool:
    """Whether a guard stands before a router: in a scenario none does where none is said."""
    return table.get("guard") == "on"


def rp_sets(table: dict[str, Any]) -> list[tuple[str, str, list[str]]]:
    """The sets of RPs that share an address: the shared one, the own one, and those of the others."""
    return [(shared, own, others) for shared, own, *others in map(words_in, table.get("anycast", []))]


def routes(texts: Iterable[str]) -> Iterator[tuple[str | int, ...]]:
    """Each route: prefix, next hop, interface, preference, metric."""
    return map(route_words, texts)


def ranges(texts: Iterable[str]) -> Iterator[tuple[str, str]]:
    """Each RP range: prefix, RP."""
    return map(range_words, texts)


def candidates(texts: Iterable[str]) -> Iterator[tuple[str, str, int, int]]:
    """Each candidate RP: prefix, RP, priority, bits of the hash mask."""
    return map(candidate_words, texts)


def event(step: Step) -> Event | None:
    """The event that a step was to its router; None where the move itself was refused."""
    did = step.did
    draw, kind = did.get("draw", 0), did["do"]
    if (step.verdict, step.cause) == ("refused", "27"):
        return None
    if step.brought is not None:
        return arrival(draw, None if kind == "carry" else step.iface, step.brought.data)
    if kind in ("frame", "unicast"):
        return arrival(draw, did.get("iface"), bytes.fromhex(did["hex"]))
    if kind in ("up", "down"):
        return Event(kind, draw, (did["iface"],))
    if kind == "advance":
        return Event(kind, draw, (did["moment"],))
    if kind in ("routes", "rps", "candidates"):
        return Event({"rps": "ranges"}.get(kind, kind), draw, (did["list"],))
    return None


def arrival(draw: int, iface: int | None, packet: bytes) -> Event:
    return Event("unicast", draw, (packet,)) if iface is None else Event("frame", draw, (iface, packet))
