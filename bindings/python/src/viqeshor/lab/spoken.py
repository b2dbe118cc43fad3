"""What hosts said in a run: their reports and their data, as moves `frame` gave them to routers."""
from collections.abc import Iterable, Iterator
from dataclasses import dataclass

from viqeshor.lab import packets, story
from viqeshor.lab.older import read_heard
from viqeshor.lab.packets import RECORD_KINDS
from viqeshor.lab.printed import ANY

IS_IN, IS_EX, TO_IN, TO_EX, ALLOW, BLOCK = RECORD_KINDS


@dataclass(frozen=True)
class Said:
    """A packet that a router took as a host's, on an interface."""
    step: story.Step
    packet: packets.Packet

    @property
    def router(self) -> str:
        return self.step.router

    @property
    def iface(self) -> int | None:
        return self.step.iface

    def is_report(self) -> bool:
        return isinstance(self.packet.body, packets.Report)

    def is_data(self) -> bool:
        return isinstance(self.packet.body, packets.Data)

    def wishes(self) -> list[tuple[str, str]]:
        """What a report asks for: pairs of a group and a source, ANY where it asks for every source."""
        return [pair for record in self.packet.body.records for pair in wished(record)] if self.is_report() else []


def wished(record: packets.Record) -> list[tuple[str, str]]:
    if record.kind in (IS_EX, TO_EX):
        return [(record.group, ANY)]
    return [(record.group, source) for source in record.sources] if record.kind in (IS_IN, TO_IN, ALLOW) else []


def said(steps: Iterable[story.Step]) -> Iterator[Said]:
    """What was given to the routers by `frame` and taken."""
    for step in steps:
        if step.did is not None and step.did["do"] == "frame" and step.verdict == "done":
            yield Said(step, read_heard(step.taken()))


def joined(steps: Iterable[story.Step]) -> Iterator[tuple[str, str]]:
    """The groups and sources that Joins from outside the scenario ask for, in moves `frame`."""
    for each in said(steps):
        if isinstance(each.packet.body, packets.JoinPrune):
            for group in each.packet.body.groups:
                yield from ((group.group, ANY if entry.wildcard else entry.source) for entry in group.joins)
