"""What the router of a capture sent beside what ours sent: which packets say the same, and how much later or
earlier."""
from __future__ import annotations

from bisect import bisect_left
from collections.abc import Callable, Iterable, Iterator
from dataclasses import dataclass
from typing import TYPE_CHECKING

from pimtext.files import captured
from viqeshor.lab import packets, words
from viqeshor.lab.packets import GroupEntries, JoinPrune, Refused

if TYPE_CHECKING:
    from viqeshor.lab.scenario import Router

# How far apart in ms two packets of a kind may be: what RFC 7761 (4.11) draws by chance, else two seconds for clocks
# and work.
CLOCK = 2000
WINDOWS = {
    "Hello": (5000, "Triggered_Hello_Delay"), "Join/Prune": (3000, "J/P_Override_Interval"),
    "Assert": (3000, "Assert_Override_Interval"), "Null-Register": (60000, "Register_Suppression_Time"),
}
AGREE, DIFFER, ONLY_CAPTURE, ONLY_OURS = "agree", "differ", "only in the capture", "only ours"


@dataclass(frozen=True)
class Said:
    """What one packet says, or one tree of a Join/Prune: what it is about, and all of it as text, with what else
    must be equal."""
    packet: int
    moment: int
    iface: int | None
    kind: str
    subject: str
    text: str
    exact: bytes = b""

    def window(self) -> int:
        return max(CLOCK, WINDOWS.get(self.kind, (0, ""))[0])

    def is_as(self, other: Said) -> bool:
        return (self.iface, self.kind, self.text, self.exact) == (other.iface, other.kind, other.text, other.exact)

    def is_about_same(self, other: Said) -> bool:
        return (self.iface, self.kind, self.subject) == (other.iface, other.kind, other.subject)


@dataclass(frozen=True)
class Row:
    """A line of the comparison: what the capture has, what ours, or both."""
    verdict: str
    theirs: Said | None
    ours: Said | None

    def one(self) -> Said:
        return self.theirs or self.ours

    def later(self) -> int:
        """By how many ms the capture's is later than ours."""
        return self.theirs.moment - self.ours.moment


def said_of(number: int, moment: int, iface: int | None, data: bytes, is_copy: bool) -> list[Said]:
    """What a packet says: one, or for a Join/Prune one for each tree."""
    here = number, moment, iface
    if is_copy:
        packet = packets.read_data(data)
        return [Said(*here, "data", packet.destination, words.packet(packet), data)]
    try:
        packet = packets.read(data)
    except Refused as refused:
        return [Said(*here, "malformed", "", f"malformed: {words.REFUSALS[refused.args[0]]}", data)]
    body = packet.body
    if isinstance(body, JoinPrune):
        return [Said(*here, "Join/Prune", *each) for each in trees_of(body)]
    return [Said(*here, *kind_of(packet))]


def trees_of(body: JoinPrune) -> Iterator[tuple[str, str]]:
    """The subject and the text of each tree of a Join/Prune."""
    for group in body.groups:
        for verb, sources in (("join", group.joins), ("prune", group.prunes)):
            for source in sources:
                both = ((source,), ()) if verb == "join" else ((), (source,))
                alone = JoinPrune(body.upstream, body.holdtime, (GroupEntries(group.group, group.mask, *both),))
                yield f"{verb} {words.entry(group, source)}", words.join_prune(alone)


def kind_of(packet: packets.Packet) -> tuple[str, str, str] | tuple[str, str, str, bytes]:
    """The kind, the subject, the text and what else must be equal of a packet that is no Join/Prune."""
    body, to = packet.body, f"to {packet.destination}: "
    match body:
        case packets.Hello():
            return "Hello", "", words.hello(body)
        case packets.Assert():
            return "Assert", words.tree(body.group, body.source), words.assert_words(body)
        case packets.Register():
            kind, inner = "Null-Register" if body.is_null else "Register", body.inner
            payload = b"" if body.is_null else inner.body.payload
            return kind, words.tree(inner.destination, inner.source), f"{to}{words.register(body)}", payload
        case packets.RegisterStop():
            return "Register-Stop", words.tree(body.group, body.source), f"{to}{words.register_stop(body)}"
        case packets.Query():
            return "query", body.group, words.query(body)
    return type(body).__name__, "", words.packet(packet)


def said_in_capture(events: list[captured.Event]) -> list[Said]:
    own = [(event.number, event.moment, event.iface, event.data, is_copy(event))
           for event in events if event.what == captured.SENT]
    return [said for words_of in own for said in said_of(*words_of)]


def is_copy(event: captured.Event) -> bool:
    """Whether an event is a copy of data."""
    if event.iface is None or event.data[9] == packets.IGMP:
        return False
    return not (event.data[9] == packets.PIM and event.data[16:20] == packets.ALL_PIM_ROUTERS)


def said_in_run(run: captured.Run) -> list[Said]:
    return [said for sent, iface in run.sent
            for said in said_of(sent.number, sent.moment, iface, sent.data, sent.kind == "copy")]


@dataclass(frozen=True)
class Clock:
    """The capture's moments. Where our time passes from one to the next alone, its packets are later by up to one of
    them."""
    moments: list
    is_coarse: bool

    def are_near(self, said: Said, other: Said) -> bool:
        """Whether a captured packet and one of ours are within the window of their kind."""
        if abs(said.moment - other.moment) <= said.window():
            return True
        if not self.is_coarse or said.moment < other.moment:
            return False
        place = bisect_left(self.moments, other.moment + said.window())
        return place < len(self.moments) and said.moment <= self.moments[place]

    def is_beyond(self, said: Said) -> bool:
        """Whether the router may send what ours sent after the capture's end."""
        return said.moment + WINDOWS.get(said.kind, (0, ""))[0] > self.moments[-1]


def pairs(
    theirs: list[Said], ours: list[Said], clock: Clock, is_pair: Callable[[Said, Said], bool]
) -> Iterator[tuple[Said, Said]]:
    """Pairs the captured with the nearest of ours, one after the other; both lists lose what is paired."""
    for said in list(theirs):
        near = [other for other in ours if is_pair(said, other) and clock.are_near(said, other)]
        if near:
            other = min(near, key=lambda each: abs(said.moment - each.moment))
            theirs.remove(said)
            ours.remove(other)
            yield said, other


def compared(events: list[captured.Event], run: captured.Run) -> list[Row]:
    """A row for all that either sent, in time's order, but for what ours sent alone and the router may send after
    the capture's end."""
    theirs, ours = by_subject(said_in_capture(events)), by_subject(said_in_run(run))
    clock = Clock([event.moment for event in events], run.is_coarse)
    rows = [row for key in {**theirs, **ours} for row in rows_of(theirs.get(key, []), ours.get(key, []), clock)]
    rows = [row for row in rows if row.verdict != ONLY_OURS or not clock.is_beyond(row.ours)]
    return sorted(rows, key=lambda row: (row.one().moment, row.one().packet))


def by_subject(said: list[Said]) -> dict[tuple[int | None, str, str], list[Said]]:
    found = {}
    for each in said:
        found.setdefault((each.iface, each.kind, each.subject), []).append(each)
    return found


def rows_of(theirs: list[Said], ours: list[Said], clock: Clock) -> list[Row]:
    """The rows of one subject."""
    rows = [Row(AGREE, *pair) for pair in pairs(theirs, ours, clock, Said.is_as)]
    rows += [Row(DIFFER, *pair) for pair in pairs(theirs, ours, clock, Said.is_about_same)]
    return rows + [Row(ONLY_CAPTURE, said, None) for said in theirs] + [Row(ONLY_OURS, None, said) for said in ours]


# ---- in words


def seconds(moment: int) -> str:
    return f"{moment / 1000:.3f} s"


def apart(rows: list[Row]) -> str:
    """How much later or earlier the capture's packets are."""
    least, most = min(row.later() for row in rows), max(row.later() for row in rows)
    kind = rows[0].one()
    if least == most == 0:
        return "at the same time"
    said = " to ".join(f"{value / 1000:+.3f}" for value in dict.fromkeys((least, most)))
    why = WINDOWS.get(kind.kind, (CLOCK, "clocks"))
    return f"{said} s beside ours ({why[1]}: up to {why[0] / 1000:g} s)"


def some(texts: Iterable[str], most: int = 4) -> str:
    texts = list(texts)
    return ", ".join(texts[:most]) + (f" .. {texts[-1]}" if len(texts) > most else "")


def lines_of(verdict: str, rows: list[Row], router: Router) -> list[str]:
    """The lines of a verdict's rows: equal ones once, with the packets' numbers and moments."""
    alike = {}
    for row in (row for row in rows if row.verdict == verdict):
        key = row.one().iface, row.one().text, row.ours.text if verdict == DIFFER else ""
        alike.setdefault(key, []).append(row)
    return [line_of(verdict, group, router) for group in alike.values()]


def line_of(verdict: str, rows: list[Row], router: Router) -> str:
    first = rows[0].one()
    where = "unicast" if first.iface is None else router.interfaces[first.iface].link
    when = some(f"{'packet ' if row.theirs else ''}{row.one().packet if row.theirs else ''}{' ' if row.theirs else ''}"
                f"at {seconds(row.one().moment)}" for row in rows)
    count = f"{len(rows)} times, " if len(rows) > 1 else ""
    text = f"{where}: {first.text}: {count}{when}"
    if verdict == DIFFER:
        text += f"; ours: {rows[0].ours.text}"
    return text + (f"; {apart(rows)}" if verdict in (AGREE, DIFFER) else "")
