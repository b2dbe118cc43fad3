"""A router of the library that takes what a router of a scenario took: its twin, which is asked what that one knows."""
from __future__ import annotations

import functools
from os import PathLike
from typing import TYPE_CHECKING, Any

import viqeshor
from viqeshor.lab import faults, fed, learner, printed
from viqeshor.lab.learner import Learner, hears, stands
from viqeshor.lab.scenario import places_of
from viqeshor.rows import ends

if TYPE_CHECKING:
    from collections.abc import Iterator
    from viqeshor.lab.story import Step

# The calls of the library whose names aren't those of the events, and what reads the texts that these take.
CALLS = {
    "routes": ("set_routes", fed.routes), "ranges": ("set_ranges", fed.ranges),
    "candidates": ("set_candidates", fed.candidates),
}
# How many events are taken at most from a state that was saved to another one.
APART = 256


def new_router(table: dict[str, Any], library: str | PathLike[str] | None = None) -> viqeshor.Router:
    """A router with the configuration of a scenario's, of the library that is named, else of the package's; behind a
    listener where it hears Bootstraps."""
    router = viqeshor.Router(
        fed.interfaces(table),
        fed.ranges(table.get("rps", [])),
        fed.routes(table.get("routes", [])),
        library=library,
        **fed.settings(table)
    )
    return listening(set_as(router, table), table, library)


def listening(
    router: viqeshor.Router, table: dict[str, Any], library: str | PathLike[str] | None = None, now: int = 0
) -> viqeshor.Router | Learner:
    """A router that has the ranges of a configuration, behind a new listener where that has one."""
    return Learner(router, table, now, library) if hears(table) else router


def restored(state: bytes, table: dict[str, Any]) -> viqeshor.Router:
    """A router of a state that was saved under a scenario's configuration."""
    return set_as(viqeshor.Router.restore(state), table)


def set_as(router: viqeshor.Router, table: dict[str, Any]) -> viqeshor.Router:
    """A router that is new or restored, with the guard, the sets of RPs and the older versions that a scenario's
    configuration says."""
    router.set_guard(fed.has_guard(table))
    if "anycast" in table:
        router.set_rp_sets(fed.rp_sets(table))
    for iface, _ in enumerate(table["iface"]):
        if "older_hosts" in table:
            router.set_older_hosts(iface, table["older_hosts"])
        if "query_version" in table:
            router.set_query_version(iface, table["query_version"])
    return router


def is_taken(step: Step, table: dict[str, Any]) -> bool:
    """Whether a step may have changed its router. A candidate BSR hastens by a message that it ignores."""
    return step.verdict == "done" or (stands(table) and step.verdict.startswith("ignored"))


def event_of(step: Step) -> fed.Event | None:
    """The event that a step was to its router, of which a `reload` is one too."""
    if step.did["do"] == "restart":
        return fed.Event("restart", 0, ())
    if step.did["do"] == "reload":
        return fed.Event("reload", step.did.get("draw", 0), (step.did["config"], places_of(step.did)))
    return fed.event(step)


def take(router: viqeshor.Router, event: fed.Event, table: dict[str, Any]) -> viqeshor.Answer:
    """What a router answers to an event. The table is its configuration until then."""
    if event.name == "reload":
        return reload(router, event, table)
    if event.name == "restart":
        return restart(router)
    if event.name == "advance" and "anycast" in table:
        stop_on_the_way(router, *event.values, event.draw)
    call, read = CALLS.get(event.name, (event.name, None))
    values = [list(read(value)) for value in event.values] if read else event.values
    return getattr(router, call)(*values, draw=event.draw)


def stop_on_the_way(router: viqeshor.Router, moment: int, draw: int) -> None:
    """Time passes at a router with sets of RPs up to its last timer before a moment, and stops at each, by which its
    sources are announced when that is due."""
    while (ends := router.next_moment()) is not None and ends < moment:
        router.advance(ends, draw=draw)


def restart(router: viqeshor.Router | Learner) -> viqeshor.Answer:
    """A router that is restarted is the one that it was, but for what it stands as."""
    if isinstance(router, Learner):
        router.stand()
    return viqeshor.Answer.DONE


def reload(router: viqeshor.Router | Learner, event: fed.Event, before: dict[str, Any]) -> viqeshor.Answer:
    """What a router answers to another configuration. Interfaces that are new, or where another setting is, hear older
    hosts as it says. Where it still hears Bootstraps it keeps its ranges, and then those that are configured are set
    beside what it learned."""
    config, places = event.values
    if not faults.sets_fit(config):
        return viqeshor.Answer.BAD_RP_SET
    ranges = list(fed.ranges(config.get("rps", [])))
    stays = isinstance(router, Learner) and hears(config)
    given = router.bsr.given() if stays else ranges
    lists = fed.interfaces(config), given, fed.routes(config.get("routes", []))
    if "anycast" in before:
        router.set_rp_sets([])
    try:
        router.reload(*lists, places=places, draw=event.draw, **fed.settings(config))
    except viqeshor.Refused as refused:
        if "anycast" in before:
            router.set_rp_sets(fed.rp_sets(before))
        return refused.answer
    if "anycast" in config:
        router.set_rp_sets(fed.rp_sets(config))
    router.set_guard(fed.has_guard(config))
    was, hosts = (table.get("older_hosts", "none") for table in (before, config))
    stay = range(len(before["iface"])) if places is None else places
    for iface, _ in enumerate(config["iface"]):
        if hosts != was or iface not in stay:
            router.set_older_hosts(iface, hosts)
    for iface, _ in enumerate(config["iface"]):
        router.set_query_version(iface, config.get("query_version", 3))
    if isinstance(router, Learner):
        router.leave(config)
    return router.reload_beside(config, ranges, event.draw) if stays else viqeshor.Answer.DONE


def lines_of(router: viqeshor.Router) -> list[str]:
    """The lines of a router's tables, those of older hosts too."""
    older = (f"O {row.iface} {row.group} v{row.mode} {ends(row.one_end, '-')} {ends(row.two_end, '-')}"
             for row in router.older_rows())
    learned = map(learner.words_of, learned_rows(router))
    return [*router.tables(), *older, *learned]


def with_listener(
    router: viqeshor.Router | Learner, before: dict[str, Any], table: dict[str, Any], now: int
) -> viqeshor.Router | Learner:
    """A router that got another configuration, behind a listener where that has one."""
    if hears(before) == hears(table):
        return router
    if not isinstance(router, Learner):
        return listening(router, table, now=now)
    if router.bsr.candidates():
        router.router.set_candidates([])
    return router.router


def learned_rows(router: viqeshor.Router | Learner) -> list[printed.Row]:
    """The rows of what its listener learned, if it has one."""
    return router.rows_learned() if isinstance(router, Learner) else []


def rows_of(router: viqeshor.Router) -> list[printed.Row]:
    """The rows of a router's tables as they are printed, those of older hosts too."""
    rows = [printed_row(row) for letter in viqeshor.TABLES for row in router.rows(letter)]
    rows += [printed.OlderHosts(row.iface, row.group, f"v{row.mode}", row.one_end, row.two_end)
             for row in router.older_rows()]
    return rows + learned_rows(router)


@functools.lru_cache(maxsize=65536)
def printed_row(row: viqeshor.Row) -> printed.Row:
    return printed.parsed(str(row))


class Twin:
    """What a router of a scenario took, and a router of the library that takes it too, as much of it as is asked for;
    `table` is the configuration that this one has. States that are saved stand with theirs; none is of a router that
    hears Bootstraps, since a saved state doesn't have what a listener learned."""

    def __init__(self, table: dict[str, Any]) -> None:
        self.first = self.table = table
        self.events, self.saved, self.now = [], {}, 0
        self.router, self.taken, self.sent = None, 0, []
        self.learns = hears(table)

    def take_note(self, step: Step) -> None:
        """The same of a step that the router may have refused or ignored."""
        if is_taken(step, self.first):
            self.add(step)

    def last(self) -> list[viqeshor.Sent]:
        """What left with the last event."""
        self.after(len(self.events))
        return self.sent

    def add(self, step: Step) -> None:
        """The router took one event more."""
        event = event_of(step)
        if event is not None:
            self.events.append(event)
            self.learns = self.learns or (event.name == "reload" and hears(event.values[0]))

    def after(self, count: int) -> viqeshor.Router:
        """The router of the library after so many events."""
        if self.router is None or count < self.taken:
            self.begin(count)
        for at in self.stops(count):
            for event in self.events[self.taken:at]:
                self.take(event)
            self.taken = at
            if at % APART == 0 and not self.learns:
                self.saved.setdefault(at, (self.router.save(), self.table))
        return self.router

    def take(self, event: fed.Event) -> None:
        answer, self.sent = take(self.router, event, self.table), self.router.packets()
        if event.name == "advance" and answer == viqeshor.Answer.DONE:
            self.now = event.values[0]
        if event.name == "reload" and answer == viqeshor.Answer.DONE:
            before, (self.table, _) = self.table, event.values
            self.router = with_listener(self.router, before, self.table, self.now)

    def begin(self, count: int) -> None:
        """Begins at the last state that was saved, up to so many events."""
        self.taken = max((at for at in self.saved if at <= count), default=0)
        if self.taken:
            state, self.table = self.saved[self.taken]
            self.router = restored(state, self.table)
        else:
            self.table, self.now = self.first, 0
            self.router = new_router(self.table)

    def stops(self, count: int) -> Iterator[int]:
        """Where the states on the way to an event are saved, and the event itself."""
        yield from range((self.taken // APART + 1) * APART, count, APART)
        yield count

    def rows(self, count: int) -> list[printed.Row]:
        """The rows of its tables after so many events."""
        return rows_of(self.after(count))

    def given(self, count: int) -> list[tuple[str, str]] | None:
        """The ranges that its listener gives it after so many events; none where it has no listener."""
        router = self.after(count)
        return router.bsr.given() if isinstance(router, Learner) else None

    def candidates(self, count: int) -> list[tuple[str, str, int, int]]:
        """The candidates that its listener gives it after so many events."""
        router = self.after(count)
        return router.bsr.candidates() if isinstance(router, Learner) else []

    def copy(self, count: int) -> viqeshor.Router:
        """Another router after so many events, which may take others from then on."""
        if self.learns:
            other = Twin(self.first)
            other.events = self.events[:count]
            return other.after(count)
        return restored(self.after(count).save(), self.table)
