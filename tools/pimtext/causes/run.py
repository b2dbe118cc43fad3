"""A run with all that a diagnosis reads of it."""
from __future__ import annotations

from collections.abc import Callable, Iterable
from typing import TYPE_CHECKING, Any, TypeVar

from viqeshor.lab import asked, printed, spoken, story
from viqeshor.lab.addresses import ip_address, is_source_specific
from viqeshor.lab.printed import ANY
from pimtext.causes.settings import Settings
from pimtext.ways.watched import Watch
from pimtext.ways.wire import Wire

if TYPE_CHECKING:
    from viqeshor.lab.lines import Line, Lines as LabLines
    from pimtext.causes.notes import Lines
    from viqeshor.lab.scenario import Interface, Scenario
    from pimtext.causes.settings import Told

    K = TypeVar("K")
    V = TypeVar("V")


class Run:
    """`lines` says where moves, routers and interfaces stand; `known` and `world` have what the routers know at the
    end."""

    def __init__(
        self,
        played: Scenario,
        printed_lines: Iterable[str],
        lines: Lines | LabLines,
        unheard: frozenset[tuple[str, int] | tuple[str, bytes, int]] = frozenset(),
    ) -> None:
        self.played, self.lines = played, lines
        self.steps, self.tables = story.played(played, printed_lines)
        self.settings = Settings(played, self.steps, lines)
        self.watch, self.wire = Watch(played, self.steps, self.tables, unheard), Wire(played, self.steps)
        self.known, self.world, self.hosts = self.watch.known, self.watch.now, self.watch.hosts
        self.packets, self.past = self.watch.packets, self.watch.past
        self.said = list(spoken.said(self.steps))
        self.verdicts = [self.watch.verdict(stream) for stream in self.watch.streams()]

    # ---- where it is told

    def at_move(self, step: story.Step, text: str) -> tuple[int | Line, str]:
        return self.lines.move(step.move), f"move {step.move} ({step.did['do']}), router {step.router}: {text}"

    def at_router(self, name: str, text: str) -> tuple[int | Line, str]:
        return self.lines.router(name), f"router {name}{text}"

    def at_setting(self, name: str, text: str, value: Callable[[Told], Any]) -> tuple[int | Line, str]:
        """At the move or the router that set a fact last, with since when it is so."""
        since = self.settings.since(name, value)
        when = self.settings.words(since)
        return self.settings.line(name, since), f"router {name}{text}" + (f": {when}" if when else "")

    def at_interface(self, router: str, number: int, text: str) -> tuple[int | Line, str]:
        since = self.settings.since(router, lambda each: each.interface(number))
        when = self.settings.words(since)
        line = self.lines.interface(router, number) if since.began is None else self.settings.line(router, since)
        return line, f"router {router}, interface {number}: {text}" + (f": {when}" if when else "")

    def on_link(self, name: str, link: str | None) -> int | Line:
        """The line of a router's interface on a link, else of the router."""
        here = self.known[name].router.on(link) if link else []
        return self.lines.interface(name, here[0].number) if here else self.lines.router(name)

    # ---- what it has

    def ports(self) -> dict[str, list[tuple[str, Interface]]]:
        """The interfaces of each link at the end, with their routers' names."""
        interfaces = ((name, each) for name, state in self.known.items() for each in state.configured())
        return gathered((interface.link, (name, interface)) for name, interface in interfaces)

    def wished(self) -> set[tuple[str, str]]:
        """Pairs of a group and a source that somebody asked for, ANY where it asked for every source."""
        found = set(spoken.joined(self.steps))
        for key, wishes in self.hosts.told.items():
            if any(wish.is_exclude for _, wish in wishes):
                found.add((key[1], ANY))
            found |= {(key[1], source) for source in self.hosts.named(key)}
        return found

    def groups(self) -> list[str]:
        """The groups that somebody asks for, sends to or knows, and that need an RP."""
        found = {group for group, _ in self.wished()} | {packet.group for packet in self.packets}
        found |= {row.group for state in self.known.values() for row in state.rows if hasattr(row, "group")}
        return sorted((group for group in found if not is_ruled_out(group)), key=ip_address)

    def rps_of(self, group: str) -> set[str]:
        return {asked.rp_of(state, group) for state in self.known.values()} - {None}

    def held(self, at: int, name: str) -> dict[type, int]:
        """How many facts a router held before a step, by table, of those that its limit counts."""
        state = self.past.known(at)[name]
        return {table: len(state.of(table)) for table in COUNTED if state.of(table)}


COUNTED = {
    printed.Neighbour: "neighbour", printed.GroupRecord: "group record", printed.SourceRecord: "source record",
    printed.Downstream: "downstream state", printed.AssertState: "assert", printed.Active: "active source",
}


def is_ruled_out(group: str) -> bool:
    """Groups that have no RP: those of SSM, and those that never leave their link."""
    return is_source_specific(group) or is_local(group)


def is_local(group: str) -> bool:
    return group.startswith("224.0.0.")


def gathered(pairs: Iterable[tuple[K, V]]) -> dict[K, list[V]]:
    """The values of each key, in their order."""
    found = {}
    for key, value in pairs:
        found.setdefault(key, []).append(value)
    return found


def some(names: Iterable[str], count: int = 3) -> str:
    names = list(names)
    return ", ".join(names[:count]) + (" .." if len(names) > count else "")


def listed(names: Iterable[str]) -> str:
    """All of them, as one says them."""
    *first, last = names
    return f"{', '.join(first)} and {last}" if first else last


def times(count: int, word: str) -> str:
    return f"{count} {word}{'' if count == 1 else 's'}"
