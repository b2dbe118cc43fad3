"""One diagnosis of a run: causes, each with the symptoms that follow from it, and symptoms for which no cause was
found.

A symptom is what a reader sees: a host that misses packets or has them twice, a tree whose Joins reach nobody, packets
that were refused or that nobody took. Each is told under the first cause that explains it, equal ones once. """
from __future__ import annotations

from collections.abc import Iterator
from typing import TYPE_CHECKING

from pimtext.ways import reasons, served
from viqeshor.lab import asked, printed, words
from viqeshor.lab.addresses import is_source_specific
from pimtext.causes.askers import Askers
from pimtext.causes.cause import Cause, Symptom, attached, grouped
from pimtext.causes.changes import Changes
from pimtext.causes.doubles import Doubles
from pimtext.causes.gaps import Gaps
from pimtext.causes.interfaces import Interfaces
from pimtext.causes.latencies import Latencies
from pimtext.causes.memberships import Memberships
from pimtext.causes.mistakes import Mistakes
from pimtext.causes.notes import Lines, Notes
from pimtext.causes.outages import Outages
from viqeshor.lab.printed import ANY
from pimtext.causes.run import Run, times
from pimtext.causes.strangers import Strangers

if TYPE_CHECKING:
    from viqeshor.lab.lines import Lines as LabLines
    from pimtext.ways.ends import End
    from viqeshor.lab.faults import Judge
    from viqeshor.lab.known import Known
    from viqeshor.lab.scenario import Scenario
    from pimtext.ways.streams import Stream
    from pimtext.ways.watched import Verdict

# Symptoms of these kinds are told under a cause alone: what nobody sends or asks for is no fault of itself.
QUIET = ("silent",)


class Symptoms:
    def __init__(self, run: Run) -> None:
        self.run, self.known, self.world, self.doubles = run, run.known, run.world, Doubles(run)

    # ---- hosts

    def hosts(self) -> Iterator[Symptom]:
        for verdict in self.run.verdicts:
            yield from self.missed(verdict)
            if verdict.stream.twice:
                yield self.twice(verdict.stream)

    def missed(self, verdict: Verdict) -> Iterator[Symptom]:
        stream, whole = verdict.stream, self.named(verdict.stream)
        for loss in verdict.losses:
            told = f"{stream.host} missed {loss.words()} of {stream.sent} of {whole}"
            if len(verdict.losses) == 1 and not stream.came:
                told = f"{stream.host} got none of {times(stream.sent, 'packet')} of {whole}"
            # What a router lacked while the packet was on its way is that of the last step of it.
            at = loss.packets[0].taken()[-1].at if loss.end.kind == "interface down" else loss.packets[0].at
            yield self.of_end(loss.end, stream, told, at)
        if verdict.end is not None and not verdict.losses and verdict.end.kind != "silent":
            yield self.of_end(verdict.end, stream, f"{stream.host} would get nothing of {whole}", len(self.run.steps))
        senders = {packet.source for packet in self.run.packets if packet.group == stream.group}
        if not stream.packets and stream.source not in senders:
            told = f"{stream.host} asked for {whole}, and nobody has sent it"
            line = self.run.lines.router(next(iter(self.known)))
            whose = {"group": stream.group, "source": stream.source, "host": stream.host, "place": stream.link}
            yield Symptom("silent", line, told, **whose)

    def named(self, stream: Stream) -> str:
        """A stream, with its sender's link where several have its address, and its host's where that asks on several.
        """
        sender = f" from {stream.origin}" if stream.origin else ""
        is_alone = len(self.run.hosts.keys(stream.host, stream.group)) < 2
        return words.tree(stream.group, stream.source) + sender + ("" if is_alone else f" on {stream.link}")

    def of_end(self, end: End, stream: Stream, told: str, at: int) -> Symptom:
        name = end.router or next(iter(self.known))
        line = self.run.on_link(name, end.link if end.router else None)
        where = {"router": end.router, "link": end.link, "address": end.address, "cause": end.cause}
        whose = {"group": stream.group, "source": stream.source, "host": stream.host, "place": stream.link}
        return Symptom(end.kind, line, told, **where, **whose, alone=end.text, at=at)

    def twice(self, stream: Stream) -> Symptom:
        whole = self.named(stream)
        told = f"{stream.host} got {times(stream.twice, 'packet')} of {whole} {stream.how_often()}"
        senders, doubles = stream.senders(), self.doubles
        line = self.run.on_link(senders[0], stream.link) if senders else self.run.lines.router(next(iter(self.known)))
        told = f"{told}: {'; '.join(stream.doubled())}"
        whose = {"group": stream.group, "source": stream.source, "host": stream.host, "place": stream.link}
        where = {"at": doubles.packets(stream)[0].at, "pairs": tuple(doubles.pairs(stream))}
        return Symptom("twice", line, f"{told}: {doubles.words(stream)}", next(iter(senders), None), stream.link,
                       **whose, **where)

    # ---- trees

    def trees(self) -> Iterator[Symptom]:
        """Trees whose Joins reach nobody, or count for nothing."""
        for name, state in self.known.items():
            for row in state.of(printed.Upstream):
                if reasons.is_root(state, row.group, row.source):
                    continue
                _, end = served.next_up(self.world, state, row.group, row.source)
                is_sent = not reasons.why_no_join(state, row.group, row.source)
                if hasattr(end, "kind") and (not is_sent or end.kind == "rp disagrees"):
                    yield self.of_tree(name, row, end, is_sent)

    def of_tree(self, name: str, row: printed.Upstream, end: End, is_sent: bool) -> Symptom:
        what = "its Joins count for nothing" if is_sent else "it sends no Join"
        told = f"{name} has joined {words.tree(row.group, row.source)}, and {what}"
        place = len(self.run.steps)
        source = None if row.source == ANY else row.source
        where = {"router": end.router, "link": end.link, "address": end.address}
        line, whose = self.run.on_link(end.router, end.link), {"group": row.group, "source": source}
        return Symptom(end.kind, line, told, **where, **whose, alone=end.text, at=place)

    def senders(self) -> Iterator[Symptom]:
        """The DR of a source registers with an RP that it can reach."""
        said = [each for each in self.run.said if each.is_data()]
        keys = [(each.router, each.iface, each.packet.source, each.packet.destination) for each in said]
        for name, iface, source, group in dict.fromkeys(keys):
            state = self.known[name]
            is_here = asked.rpf_interface(state, source) == iface and asked.is_connected(state, source)
            if not is_source_specific(group) and is_here and asked.is_dr(state, iface):
                yield from self.of_dr(name, state, source, group)

    def of_dr(self, name: str, state: Known, source: str, group: str) -> Iterator[Symptom]:
        rp, whose = asked.rp_of(state, group), f"router {name} is the DR of the source {source}"
        line = self.run.lines.router(name)
        if rp is None:
            told = f"{whose} and has no RP for {group}: it registers nothing"
            yield Symptom("no rp", line, told, name, group=group, source=source)
        elif not state.router.has(rp) and asked.route(state, rp) is None:
            told = f"{whose} and has no route to {rp}, the RP of {group}"
            yield Symptom("no route", line, told, name, address=rp, group=group, source=source)

    def silent(self) -> Iterator[Symptom]:
        """Groups that hosts ask for and to which nobody sends."""
        sent = {packet.group for packet in self.run.packets}
        for host, group in dict.fromkeys((host, group) for host, group, _ in self.run.hosts.told):
            if group not in sent:
                told = f"{host} asked for {group}, to which nobody has sent"
                yield Symptom("silent", self.run.lines.router(next(iter(self.known))), told, group=group, host=host)

    def all(self) -> Iterator[Symptom]:
        for told in (self.hosts, self.trees, self.senders, self.silent):
            yield from told()


def of_odd(run: Run, symptom: Symptom) -> Cause:
    """What was refused, ignored or taken by nobody, as the cause of what comes of it."""
    if symptom.kind == "unheard":
        covers = lambda each: run.wire.last == 0 and each.kind in ("no neighbour", "lost")
        return Cause(symptom.line, symptom.text, covers)
    where = symptom.router, symptom.link, symptom.cause
    covers = lambda each: each.kind == "refused" and (each.router, each.link, each.cause) == where
    return Cause(symptom.line, symptom.alone or symptom.text, covers)


class Diagnosis:
    """`judge` read the file of a run; `places` says the lines of a network of tools/lab, whose packets may be lost on
    purpose."""

    def __init__(
        self,
        judge: Judge,
        played: Scenario,
        lines: list[str],
        places: Lines | LabLines | None = None,
        unheard: frozenset[tuple[str, int] | tuple[str, bytes, int]] = frozenset(),
    ) -> None:
        self.run = run = Run(played, lines, places or Lines(judge), unheard)
        notes, interfaces = Notes(judge, run), Interfaces(run)
        changes = Changes(run)
        self.causes = [*changes.relinked(), *changes.elected(), *interfaces.causes(),
                       *Mistakes(run).causes(), *Askers(run).causes(),
                       *Strangers(run).causes(), *Latencies(run).causes()]
        self.causes += [*Gaps(run, interfaces).causes(), *Outages(run).causes()]
        odd = attached(self.causes, [*notes.odd(), *([] if places else notes.undelivered())])
        self.causes += [of_odd(run, symptom) for symptom in odd]
        left = attached(self.causes, list(Symptoms(run).all()))
        changed = [*changes.causes(left), *Memberships(run).causes(left)]
        left, self.causes = attached(changed, left), [*self.causes, *changed]
        self.causes = [cause for cause in self.causes if cause.symptoms or not cause.is_hint]
        self.left = grouped([symptom for symptom in left if symptom.kind not in QUIET])

    def ordered(self) -> list[Cause]:
        """What explains most comes first, equals by their lines; last come causes that explain nothing."""
        told = [*self.causes, *self.left]
        return sorted(told, key=lambda cause: (not cause.symptoms, *(-count for count in cause.weight()), cause.line))

    def lines(self) -> list[str]:
        return ["\n".join(cause.lines()) for cause in self.ordered()]

    def of(self, stream: Stream) -> list[Cause]:
        """The causes of what a stream misses."""
        key = stream.host, stream.group, stream.source, stream.link
        whose = [(cause, [(each.host, each.group, each.source, each.place) for each in cause.symptoms])
                 for cause in self.causes]
        return [cause for cause, keys in whose if key in keys]
