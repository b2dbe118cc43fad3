"""A run's streams as tables: a row for each time that a host asked for one, or a row a channel, as text or as CSV."""
from __future__ import annotations

import csv
import io
from collections.abc import Iterable
from typing import TYPE_CHECKING

from pimtext.causes.latencies import Latencies, middle
from pimtext.causes.run import gathered

if TYPE_CHECKING:
    from pimtext.causes.latencies import Phase
    from pimtext.causes.run import Run
    from pimtext.ways.watched import Verdict

Row = dict[str, object]


def number(value: float | None) -> object:
    """A time in seconds; nothing where there is none."""
    return "" if value is None else float(f"{value:.3f}")


def most(values: Iterable[float | None]) -> object:
    return number(max((value for value in values if value is not None), default=None))


def phase_row(verdict: Verdict, phase: Phase, is_last: bool) -> Row:
    """A host's Join of a stream, what came of it, and the Leave. Times are in seconds."""
    stream, ended = verdict.stream, phase.ended
    sent = [packet for packet in stream.packets if phase.began <= packet.at and (ended is None or packet.at <= ended)]
    came = [packet for packet in sent if stream.arrivals[packet]]
    twice = [packet.moment for packet in came if len(stream.arrivals[packet]) > 1]
    return {
        "host": stream.host, "link": stream.link, "group": stream.group, "source": stream.source,
        "joined": number(phase.joined / 1000), "first after": number(phase.join_latency),
        "left": number(None if phase.left is None else phase.left / 1000), "went on": number(phase.leave_latency),
        "sent": len(sent), "came": len(came), "missed": len(sent) - len(came), "twice": len(twice),
        "twice for": number((twice[-1] - twice[0]) / 1000 if twice else None),
        "longest gap": number(stream.longest_gap) if is_last else "",
        "served": ("yes" if verdict.is_served else "no") if ended is None else "left",
    }


def phases_of(run: Run) -> list[Row]:
    """A row for each time that a host asked for a stream."""
    latencies, rows = Latencies(run), []
    for verdict in run.verdicts:
        found = latencies.phases(verdict.stream)
        rows += [phase_row(verdict, phase, phase is found[-1]) for phase in found]
    return rows


def channels_of(run: Run) -> list[Row]:
    """A row for each channel: a group with a source of it."""
    latencies = Latencies(run)
    verdicts = gathered(((each.stream.group, each.stream.source), each) for each in run.verdicts)
    sent = gathered(((packet.group, packet.source), packet) for packet in run.packets)
    return [channel_row(latencies, key, verdicts.get(key, []), sent.get(key, []))
            for key in sorted({*verdicts, *sent})]


def channel_row(latencies: Latencies, key: tuple[str, str], verdicts: list[Verdict], sent: list) -> Row:
    streams = [each.stream for each in verdicts]
    phases = [phase for stream in streams for phase in latencies.phases(stream)]
    joins = [phase.waited for phase in phases if phase.waited is not None]
    asked, came = sum(each.sent for each in streams), sum(each.came for each in streams)
    registered = [packet for packet in sent if any(copy.is_register() for copy in packet.copies())]
    ended = [each for each in verdicts if latencies.wants(each.stream) and not each.is_served]
    return {
        "group": key[0], "source": key[1], "sent": len(sent), "registered": len(registered),
        "hosts": len({stream.host for stream in streams}), "joins": len(phases),
        "asked for": asked, "came": came, "missed": asked - came, "twice": sum(each.twice for each in streams),
        "join latency": number(middle(joins)), "longest": most(joins),
        "leave latency": most(phase.leave_latency for phase in phases), "not served": len(ended),
    }


def as_csv(rows: list[Row]) -> str:
    out = io.StringIO()
    if rows:
        writer = csv.DictWriter(out, list(rows[0]), lineterminator="\n")
        writer.writeheader()
        writer.writerows(rows)
    return out.getvalue()


def as_table(rows: list[Row]) -> str:
    """The rows below one another, with `-` where there is nothing."""
    if not rows:
        return "no stream was sent or asked for\n"
    cells = [list(rows[0])] + [[str(value) if value != "" else "-" for value in row.values()] for row in rows]
    widths = [max(map(len, column)) for column in zip(*cells)]
    return "".join("  ".join(cell.ljust(width) for cell, width in zip(row, widths)).rstrip() + "\n" for row in cells)
