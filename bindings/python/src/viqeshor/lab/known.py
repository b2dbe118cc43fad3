"""What a router of a run knows: the rows that were printed, and what the router itself says of its trees.

The macros of RFC 7761 are asked of a router of the library, which takes what the router of the run took (`twin`).
"""
from __future__ import annotations

from collections.abc import Callable, Iterable
from dataclasses import dataclass, field, replace
from ipaddress import IPv4Network, ip_address
from typing import TYPE_CHECKING, Any, TypeVar

from viqeshor.lab import packets, printed, wishes
from viqeshor.lab.addresses import ranges_of, routes_of
from viqeshor.lab.scenario import numbers_after, places_of, router_of
from viqeshor.lab.learner import Learner, hears
from viqeshor.lab.rps import Candidate, candidates_of
from viqeshor.lab.twin import Twin, is_taken

if TYPE_CHECKING:
    from viqeshor.lab.addresses import Route
    from viqeshor.lab.scenario import Interface, Router, Scenario
    from viqeshor.lab.story import Step, Tables
    from viqeshor import Link, Neighbour, Router as Core, SourceTree, Tree
    from viqeshor.bsr import LearnedRp

    R = TypeVar("R")
    T = TypeVar("T")


@dataclass
class Known:
    """A router with what it knows after so many events: its routes, RP ranges and candidate RPs after all moves, and by
    interface the last other router that queried there from a lower address. Its rows are those that were `told`, else,
    as all else, they are asked of its twin; answers are kept until it takes another event."""
    router: Router
    twin: Twin
    routes: list[Route]
    rps: list[tuple[IPv4Network, str]]
    candidates: list[Candidate] = field(default_factory=list)
    told: list[printed.Row] | None = None
    queriers: dict[int, str] = field(default_factory=dict)
    taken: int = 0
    moment: int = 0
    kept: dict[tuple[Any, ...], Any] = field(default_factory=dict, repr=False)

    def once(self, key: tuple[Any, ...], find: Callable[[], T]) -> T:
        """What `find` answers, which is called once for a key."""
        if key not in self.kept:
            self.kept[key] = find()
        return self.kept[key]

    # ---- its rows

    @property
    def rows(self) -> list[printed.Row]:
        """The rows of its tables."""
        if self.told is None:
            self.told = self.twin.rows(self.taken)
        return self.told

    def of(self, table: type[R], /, **values: object) -> list[R]:
        """The rows of a table that have these values in these columns."""
        rows = self.once(("tables",), lambda: printed.by_table(self.rows)).get(table, [])
        return self.once((table, *values.items()), lambda: printed.rows_of(rows, table, **values)) if values else rows

    def print(self, tables: Tables) -> None:
        """The router knows what was printed."""
        self.told, self.moment, self.kept = tables.rows, tables.moment, {}

    def link(self, number: int) -> str:
        """The name of an interface's link."""
        return self.router.interfaces[number].link

    # ---- what the router says

    def core(self) -> Core:
        """The router of the library as it is now; nothing may change it."""
        return self.twin.after(self.taken)

    def copy_of_core(self) -> Core:
        """Another one, which may take events."""
        return self.twin.copy(self.taken)

    def asked(self, call: str, *key: int | str) -> Any:
        """What the router answers to a call, which is made once."""
        return self.once((call, *key), lambda: getattr(self.core(), call)(*key))

    def tree(self, group: str) -> Tree:
        """The macros of (*,G)."""
        return self.asked("tree", group)

    def source_tree(self, group: str, source: str) -> SourceTree:
        """The macros of (S,G) and of (S,G,rpt)."""
        return self.asked("source_tree", source, group)

    def facts(self, group: str, source: str) -> Tree | SourceTree:
        """The macros of a tree, (*,G) where the source is ANY."""
        return self.tree(group) if source == printed.ANY else self.source_tree(group, source)

    def learned(self) -> list[LearnedRp]:
        """The RPs that its listener learned of Bootstraps; none where it has no listener."""
        core = self.core()
        return self.once(("learned",), core.bsr.rps) if isinstance(core, Learner) else []

    def port(self, number: int) -> Link | None:
        """An interface with its DR and its querier; None where it isn't configured now."""
        return self.asked("link", number)

    def is_up(self, number: int) -> bool:
        port = self.port(number)
        return port is not None and port.is_up

    def neighbour(self, number: int, address: str) -> Neighbour | None:
        """A neighbour with what it said by its last Hello; None where it is none."""
        return self.asked("neighbour", number, address)

    @property
    def up(self) -> set[int]:
        """The interfaces that are up, by their numbers."""
        return {each.number for each in self.interfaces_up()}

    def own_ranges(self) -> list[IPv4Network]:
        """The ranges of which it is the RP, or one of several, by what it was told itself."""
        named = [*self.rps, *((each.prefix, each.rp) for each in self.candidates)]
        return list(dict.fromkeys(prefix for prefix, rp in named if self.router.has(rp)))

    def configured(self) -> list[Interface]:
        """The interfaces that it has; those that a `reload` removed can be looked up as well."""
        return self.router.interfaces[:len(self.router.table["iface"])]

    def interfaces_up(self) -> list[Interface]:
        return [each for each in self.router.interfaces if self.is_up(each.number)]


def begun(played: Scenario) -> dict[str, Known]:
    """What each router knows before the first event."""
    return {router.name: Known(router, Twin(router.table), router.routes, router.rps) for router in played.routers}


def known_after(played: Scenario, steps: Iterable[Step], tables: dict[str, Tables]) -> dict[str, Known]:
    """What each router knows after the steps of a run, by the tables at its end where they were printed."""
    found = begun(played)
    for step in steps:
        follow(found[step.router], step)
    for name, table in tables.items():
        found[name].print(table)
    return found


def copied(state: Known) -> Known:
    """What a router knows as it stands, whatever is followed later."""
    return replace(state, queriers=dict(state.queriers), kept={})


# ---- followed


def follow(state: Known, step: Step) -> None:
    """The router took an event."""
    if step.did is None or not is_taken(step, state.router.table):
        return
    state.twin.add(step)
    state.moment = max(state.moment, step.moment)
    state.taken, state.told, state.kept = len(state.twin.events), None, {}
    match step.did["do"]:
        case "routes":
            state.routes = routes_of(step.did["list"])
        case "rps":
            state.rps = ranges_of(step.did["list"])
        case "candidates":
            state.candidates = candidates_of(step.did["list"])
        case "reload":
            reload(state, step.did)
        case "frame" | "deliver" | "settle":
            hear_query(state, step)
    learn(state)


def learn(state: Known) -> None:
    """The ranges of a router that hears Bootstraps are those that its listener gives it."""
    if hears(state.router.table):
        state.rps = given_of(state.twin, state.taken)
    if state.router.table.get("choice") == "group":
        texts = (" ".join(map(str, row)) for row in state.twin.candidates(state.taken))
        state.candidates = candidates_of(texts)


def given_of(twin: Twin, count: int) -> list[tuple[IPv4Network, str]]:
    """The ranges that a router has of its listener after so many events."""
    return [(IPv4Network(prefix), rp) for prefix, rp in twin.given(count) or []]


def reload(state: Known, did: dict[str, Any]) -> None:
    """Another configuration. Interfaces that are removed stay to be looked up, where they keep their numbers."""
    made = router_of({**did["config"], "name": state.router.name})
    if places_of(did) is None:
        made.interfaces += state.router.interfaces[len(made.interfaces):]
    state.router, state.routes, state.rps = made, made.routes, made.rps
    there = numbers_after(did)
    state.queriers = {there[number]: sender for number, sender in state.queriers.items() if number in there}


def hear_query(state: Known, step: Step) -> None:
    """Keeps who queried an interface from a lower address: where the router says that another one is the querier, it
    is that one."""
    data = step.taken()
    message = wishes.igmp_of(data) if step.iface is not None else None
    if message and message[0] == wishes.QUERY:
        sender = packets.dotted(data[12:16])
        if 0 < int(ip_address(sender)) < int(state.router.interfaces[step.iface].own.ip):
            state.queriers[step.iface] = sender
