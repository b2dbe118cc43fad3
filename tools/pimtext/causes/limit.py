"""What a message that the limit refused says again: facts that the router holds, which end as if it hadn't come."""
from __future__ import annotations

from collections.abc import Iterator

from pimtext.files import pimlab
from viqeshor.lab import fed, packets, printed, scenario, story, words
from viqeshor.lab.printed import ANY

# Types of an IGMPv3 record: those that ask for all but some sources, and those that ask for the sources that they name.
ALL_BUT, ONLY = (2, 4), (1, 3, 5)


def refreshed(body: object) -> Iterator[tuple[type[printed.Row], dict[str, str]]]:
    """The rows that a Join/Prune or a report refreshes where it is taken: pairs of their table and of columns with
    their values.
    """
    if isinstance(body, packets.JoinPrune):
        for group in body.groups:
            yield from ((printed.Downstream, columns) for columns in joined_and_pruned(group))
    if isinstance(body, packets.Report):
        for record in body.records:
            if record.kind in ALL_BUT:
                yield printed.GroupRecord, {"group": record.group}
            if record.kind in ONLY:
                yield from ((printed.SourceRecord, {"group": record.group, "source": source})
                    for source in record.sources)


def joined_and_pruned(group: packets.GroupEntries) -> Iterator[dict[str, str]]:
    """The columns of the rows that one group of a Join/Prune refreshes: what it joins, and what it prunes off the
    shared tree.
    """
    for entry in group.joins:
        if entry.wildcard:
            yield {"group": group.group, "source": ANY, "kind": "g"}
        elif not entry.rpt:
            yield {"group": group.group, "source": entry.source, "kind": "sg"}
    for entry in group.prunes:
        if entry.rpt and not entry.wildcard:
            yield {"group": group.group, "source": entry.source, "kind": "rpt"}


def said_again(played: scenario.Scenario, step: story.Step) -> list[printed.Row]:
    """The rows of the router that a refused step of a move says again, as they stood before the move."""
    event = fed.event(step)
    if event is None or event.name != "frame":
        return []
    iface, content = event.values
    # Data may carry what no message is.
    named = [] if packets.refusal(content, packets.MOST_IN_A_FRAME) else list(refreshed(packets.read(content).body))
    if not named:
        return []
    _, tables = story.played(played, pimlab.run_text(played.text(step.move - 1)))
    rows = (tables[step.router].of(table, iface=iface, **columns) for table, columns in named)
    return [row for found in rows for row in found if row.end is not None]


def told(row: printed.Row) -> str:
    """A row in words: what it is of, and its end."""
    source = getattr(row, "source", ANY)
    kind = "rpt" if getattr(row, "kind", None) == "rpt" else ""
    return f"{words.tree(row.group, source, kind)} until {words.seconds(row.end)}"
