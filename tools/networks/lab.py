"""The networks of `viqeshor.lab`, which also tell why a host gets nothing, as `tools/why` does: `host.served(group,
source)`, `host.watch(group)` and `net.notes()`.

`tools/lab FILE.py` runs a file that says `from lab import Network`; tools/networks/examples has some.
"""
from __future__ import annotations

from dataclasses import dataclass
from typing import TYPE_CHECKING

from pimtext.causes.diagnosis import Diagnosis
from viqeshor import lab
from viqeshor.lab import (
    NEVER, Active, AssertState, Downstream, ElectedBsr, GroupRecord, LearnedRp, Link, Mistake, Neighbour, OlderHosts,
    Port, Received, Router, SharedTree, SourceRecord, Table, Tree, Upstream,
)
from viqeshor.lab.faults import LateJudge
from viqeshor.lab.lines import Lines
from viqeshor.lab.mistakes import group_given, source_given

if TYPE_CHECKING:
    from pimtext.ways.streams import Stream

__all__ = [
    "NEVER", "Active", "AssertState", "Downstream", "ElectedBsr", "GroupRecord", "Host", "LearnedRp", "Link", "Mistake",
    "Neighbour", "Network", "OlderHosts", "Port", "Received", "Router", "Served", "SharedTree", "SourceRecord", "Table",
    "Tree", "Upstream",
]


@dataclass(frozen=True)
class Served:
    """Whether a host is served, and the lines that say how or why not."""
    lines: list
    is_served: bool

    def __bool__(self) -> bool:
        return self.is_served

    def __str__(self) -> str:
        return "\n".join(self.lines)


class Host(lab.Host):
    """A host that is told whether it is served."""

    def served(self, group: str, source: lab.Host | str) -> Served:
        """Whether it is served of a source, a host or an address, at the present; as a text, hop by hop how, or why
        not."""
        return self.net.served(self, group, source)

    def watch(self, group: str, source: lab.Host | str | None = None) -> list[Stream]:
        """What came of a group so far, of each source that sent to it or of one: a `Stream` each, with `sent`, `came`,
        `twice`, `longest_gap` and `first_after` in seconds, and `missing()`."""
        return self.net.watch(self, group, source)


class Network(lab.Network):
    """A network that is diagnosed."""

    HOST = Host
    diagnosed: tuple[tuple[int, int], Diagnosis] | None = None

    def served(self, host: lab.Host, group: str, source: lab.Host | str) -> Served:
        """Whether a host is served of a source, a host or an address, at the present; as a text, hop by hop how, or why
        not."""
        diagnosis, address = self.diagnosis(), source_given(source)
        watch = diagnosis.run.watch
        stream = watch.stream(host.address, group_given(group), address, host.link.name)
        if watch.origin(stream) is None:
            raise Mistake(f"the source {address} is in the subnet of no link that is up")
        verdict = watch.verdict(stream)
        causes = [f"  cause: {cause.line}: {cause.text}" for cause in diagnosis.of(verdict.stream)]
        return Served([*verdict.lines, *causes], verdict.is_served)

    def watch(self, host: lab.Host, group: str, source: lab.Host | str | None = None) -> list[Stream]:
        """What came to a host of a group, of each source or of one: streams with their numbers."""
        self.running()
        watch = self.diagnosis().run.watch
        found = watch.asked(host.address, group_given(group), source and source_given(source))
        return [stream for _, streams in found for stream in streams]

    def diagnosis(self) -> Diagnosis:
        """The run up to the present with what went wrong in it; it is made once for each present."""
        key = len(self.running().moves), self.now
        if self.diagnosed is None or self.diagnosed[0] != key:
            judge = LateJudge(self.scenario())
            self.diagnosed = key, Diagnosis(judge, *self.played(), Lines(self), frozenset(self.unheard))
        return self.diagnosed[1]

    def notes(self) -> list[str]:
        """What a reader would wonder about in the run, as `tools/why --run` has it, with the lines of the file that
        made it."""
        return self.diagnosis().lines()
