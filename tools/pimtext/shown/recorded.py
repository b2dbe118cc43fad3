"""A run as a page shows it: what each router knew after each answer, what was sent, and what came to each host.

It is made of the steps of one run; what the routers knew after each is asked of their twins. A router's *shape* is all
that it knows but for when its timers end: shapes come again and again, so each is kept once, with its tables, rows and
trees, and a step names the shape and the ends alone. In a shape's texts an end stands as a moment of its own beyond all
real ones, MARK seconds and its place.
"""
from __future__ import annotations

import re
from bisect import bisect_right
from collections import Counter
from collections.abc import Iterable, Iterator
from dataclasses import dataclass, field, replace
from functools import cache, lru_cache
from typing import TYPE_CHECKING, Any

from pimtext.shown import view_text, views
from viqeshor.lab import asked, packets, printed, story, words
from pimtext.shown.arrivals import Arrivals
from viqeshor.lab.known import begun, copied, follow

if TYPE_CHECKING:
    from viqeshor.lab.asked import Branch
    from pimtext.causes.diagnosis import Diagnosis
    from viqeshor.lab.known import Known
    from viqeshor.lab.scenario import Router, Scenario

# An address by itself, without the length of a subnet.
ADDRESS = r"(?<![\d.])\d+\.\d+\.\d+\.\d+(?![\d.]*\d|/)"
# An end in a shape's texts is this many seconds and its place in the list of ends.
MARK = 10 ** 9
# What moves a step's router to another shape although its rows stay: what it heard, and what it was told.
SILENT = ("advance",)


class Texts:
    """Texts by number, each kept once."""

    def __init__(self) -> None:
        self.all, self.numbers = [], {}

    def __call__(self, text: str) -> int:
        if text not in self.numbers:
            self.numbers[text] = len(self.all)
            self.all.append(text)
        return self.numbers[text]


@lru_cache(maxsize=65536)
def parted(row: printed.Row) -> tuple[printed.Row, dict[str, float]]:
    """A row without its ends, and these by their columns."""
    ends = {column: getattr(row, column, None) for column in ("end", "pending")}
    ends = {column: end for column, end in ends.items() if end is not None and end != printed.NEVER}
    return (row._replace(**dict.fromkeys(ends, 0)) if ends else row), ends


def marked(rows: Iterable[printed.Row]) -> Iterator[printed.Row]:
    """The rows with their ends as marks."""
    count = 0
    for row in rows:
        ends = parted(row)[1]
        yield row._replace(**{column: (MARK + count + place) * 1000 for place, column in enumerate(ends)})
        count += len(ends)


# ---- rows in words


def row_words(router: Router, row: printed.Row) -> str:
    """What a row says, without when it ends."""
    where = f" on {words.place(router, row.iface)}" if hasattr(row, "iface") else ""
    match row:
        case printed.Neighbour():
            return f"neighbour {row.address}{where}"
        case printed.GroupRecord():
            return f"hosts want {row.group}{where}" + (" of named sources" if row.mode == "include" else "")
        case printed.SourceRecord():
            return f"hosts {'exclude' if row.end is None else 'want'} {words.tree(row.group, row.source)}{where}"
        case printed.Downstream():
            verb = {"join": "Join", "pending": "Prune pending", "prune": "Prune"}[row.state]
            return f"{verb} {words.tree(row.group, row.source, row.kind)}{where}"
        case printed.AssertState():
            whose = "won" if row.role == "winner" else f"lost to {row.winner}"
            return f"assert {words.tree(row.group, row.source)}{where} {whose}"
        case printed.Upstream():
            return f"joined upstream {words.tree(row.group, row.source)}"
        case printed.SharedTree():
            verb = "pruned off" if row.state == "pruned" else "keeps"
            return f"{verb} {words.tree(row.group, row.source, 'rpt')} upstream"
        case printed.Active():
            register = {"-": "", "join": ", registers", "prune": ", Registers stopped",
                        "pending": ", asks the RP"}[row.register]
            by = ", on its own tree" if row.spt == "spt" else ""
            return f"source {words.tree(row.group, row.source)}{by}{register}"
        case printed.OlderHosts():
            return f"hosts of IGMP{row.mode} want {row.group}{where}"
        case printed.ElectedBsr():
            return f"the BSR is {row.bsr}"
        case printed.LearnedRp():
            told = {"given": "learned", "kept": "learned, and another wins", "waits": "said in a fragment"}[row.state]
            return f"RP of {row.groups} {told}: {row.rp}"
        case printed.StandingBsr():
            told = {"candidate": "yields to another BSR", "pending": "may become the BSR", "elected": "is the BSR"}
            return told[row.state]
        case printed.HeldRp():
            return f"holds the RP of {row.groups}: {row.rp}"
        case printed.GoneRange():
            return f"says {row.groups} without RPs"
        case printed.ToldBsr():
            return f"as an RP tells {row.bsr}"


# ---- shapes


def around(state: Known) -> tuple[object, ...]:
    """What a shape shows of a router beside its rows, their ends, its queriers, routes and RPs: what is up, the options
    of its neighbours' Hellos, and which asserts it lost."""
    said = [(row.iface, row.address, *state.neighbour(row.iface, row.address)[1:])
            for row in state.of(printed.Neighbour)]
    lost = [(row.group, row.source, asked.lost(state, row.group, row.source))
            for row in state.of(printed.AssertState)]
    return tuple(sorted(state.up)), tuple(said), tuple(lost)


def queriers(state: Known) -> tuple[tuple[int, str], ...]:
    """The other routers that are queriers still."""
    found = ((number, asked.querier_of(state, number)) for number in sorted(state.queriers))
    return tuple((number, querier) for number, querier in found if querier is not None)


class Shapes:
    """The shapes of one router."""

    def __init__(self, recording: Recording, router: Router) -> None:
        self.recording, self.router = recording, router
        self.numbers, self.all, self.context = {}, [], None
        self.lists, self.list = {}, (None, None, None, 0)

    def of(self, state: Known, is_context_kept: bool) -> tuple[int, list[float]]:
        """The number of a router's shape, and its ends."""
        parts = [parted(row) for row in state.rows]
        if self.context is None or not is_context_kept:
            self.context = around(state)
        key = tuple(row for row, _ in parts), self.context, queriers(state), self.number_of_lists(state)
        if key not in self.numbers:
            self.numbers[key] = len(self.all)
            self.all.append(self.made(replace(copied(state), told=list(marked(state.rows)))))
        return self.numbers[key], [end for _, ends in parts for end in ends.values()]

    def number_of_lists(self, state: Known) -> int:
        """A number of a router's routes, ranges and candidates: equal ones have the same."""
        here = state.routes, state.rps, state.candidates
        if any(was is not now for was, now in zip(self.list, here)):
            self.list = *here, self.lists.setdefault(tuple(map(tuple, here)), len(self.lists))
        return self.list[-1]

    def made(self, state: Known) -> dict[str, Any]:
        text = self.recording.text
        view = views.router(state)
        tables = [[title, heads, [[text("-" if cell is None else str(cell)) for cell in row] for row in rows]]
                  for title, heads, rows in view_text.tables(view) if rows]
        arrows = [self.arrow(branch) for branch in asked.branches(state)]
        registers = [[self.recording.tree(row.group, row.source), text(asked.rp_of(state, row.group) or "")]
                     for row in state.of(printed.Active, register="join")]
        rows = list(dict.fromkeys(text(row_words(self.router, row)) for row in state.rows))
        drs = [number for number in sorted(state.up) if asked.is_dr(state, number)]
        rps = sorted({text(f"{prefix}") for prefix in state.own_ranges()})
        return {"up": sorted(state.up), "dr": drs, "rp": rps, "rows": rows, "arrows": arrows, "registers": registers,
                "view": tables}

    def arrow(self, branch: Branch) -> list[Any]:
        incoming = -1 if branch.incoming is None else branch.incoming
        return [self.recording.tree(branch.group, branch.source), incoming, sorted(branch.outgoing)]


# ---- packets and moves


@cache
def packet_words(kind: str, data: bytes) -> tuple[str, str]:
    """A packet's kind in a word or two, and all of it on a line."""
    try:
        read = packets.read_data(data) if kind == "copy" else packets.read(data)
    except packets.Refused as refused:
        return "malformed", f"malformed: {words.REFUSALS[refused.args[0]]}"
    return kind_words(read.body), words.packet(read)


def kind_words(body: object) -> str:
    """A Join/Prune is called by what it does."""
    if isinstance(body, packets.JoinPrune):
        verbs = [verb for verb, name in (("Join", "joins"), ("Prune", "prunes"))
                 if any(getattr(each, name) for each in body.groups)]
        return "/".join(verbs) or "Join/Prune"
    if isinstance(body, packets.Register):
        return "Null-Register" if body.is_null else "Register"
    names = {packets.RegisterStop: "Register-Stop", packets.Query: "query", packets.Report: "report",
             packets.Data: "data"}
    return names.get(type(body), type(body).__name__)


def tree_of(sent: story.Sent) -> tuple[str, str] | None:
    """The group and source whose data a packet is or carries, None of any other."""
    data = packets.read_data(sent.data) if sent.kind == "copy" else None
    if sent.is_unicast():
        try:
            body = packets.read(sent.data).body
        except packets.Refused:
            return None
        data = body.inner if isinstance(body, packets.Register) else None
    return data and (data.destination, data.source)


@dataclass
class Recording:
    """`hosts` are names by address where the run's maker knows them. Where it is by time, all moves of one time are
    shown as one."""
    played: Scenario
    hosts: dict = field(default_factory=dict)
    is_by_time: bool = False

    def __post_init__(self) -> None:
        self.text, self.trees = Texts(), {}
        self.routers = {router.name: place for place, router in enumerate(self.played.routers)}
        self.links = {link: place for place, link in enumerate(self.played.links())}
        self.known = begun(self.played)
        self.shapes = [Shapes(self, router) for router in self.played.routers]
        self.now = [(shape.of(self.known[shape.router.name], False)) for shape in self.shapes]
        self.steps, self.packets, self.moves = [], [], []

    def named(self, text: str) -> str:
        """A text with the names of hosts in the place of their addresses."""
        return re.sub(ADDRESS, lambda found: self.hosts.get(found[0], found[0]), text)

    def tree(self, group: str, source: str) -> int:
        return self.trees.setdefault((group, source), len(self.trees))

    def record(self, steps: Iterable[story.Step]) -> Recording:
        """Follows the steps, move by move."""
        for step in steps:
            self.begin(step.move)
            self.follow(step)
        self.begin(len(self.played.moves) + 1)
        return self

    def begin(self, number: int) -> None:
        """Goes on to a move: those before it are over."""
        while len(self.moves) < number:
            if self.moves:
                self.close()
            if len(self.moves) < len(self.played.moves):
                self.moves.append([len(self.steps), 0, self.moves[-1][2] if self.moves else 0])
            else:
                return

    def close(self) -> None:
        """The move that was begun last is over."""
        self.moves[-1][1] = len(self.steps) - self.moves[-1][0]

    def follow(self, step: story.Step) -> None:
        state = self.known[step.router]
        follow(state, step)
        place = self.routers[step.router]
        was, old = self.now[place]
        is_kept = step.verdict != "done" or step.did["do"] in SILENT
        number, ends = self.now[place] = self.shapes[place].of(state, is_kept)
        told = ends if number != was else [item for at, end in enumerate(ends) if end != old[at] for item in (at, end)]
        first = len(self.packets)
        self.packets += [self.packet(sent, len(self.steps)) for sent in step.sent]
        self.moves[-1][2] = max(self.moves[-1][2], step.moment)
        verdict = 0 if step.verdict == "done" else self.text(words.answer(step.verdict, step.cause)) + 1
        brought = step.brought.number if step.brought else 0
        iface = -1 if step.iface is None else step.iface
        title = -1 if brought else self.text(f"{step.router}: {words.move(step.did, self.played.router(step.router))}")
        self.steps.append(
            [place, number if number != was else -1, step.moment, told, brought, iface, first, len(step.sent), verdict,
             title])

    def packet(self, sent: story.Sent, at: int) -> list[Any]:
        short, told = packet_words(sent.kind, sent.data)
        tree = tree_of(sent)
        where = self.text(sent.where) if sent.is_unicast() else self.links[sent.where]
        iface = -1 if sent.iface is None else sent.iface
        tree = -1 if tree is None else self.tree(*tree)
        return [self.routers[sent.router], where, int(sent.is_unicast()), self.text(short), self.text(told),
                self.text(sent.data.hex()), at, tree, iface]

    # ---- what the page gets

    def title(self, number: int) -> str:
        """What a move is, counted from 0."""
        did, count = self.played.moves[number], self.moves[number][1]
        name = did.get("router", "")
        if did["do"] == "settle":
            return f"settle: {deliveries(count)}"
        if did["do"] in ("deliver", "carry") and count:
            return f"{name}: takes packet {did['frame']}"
        return f"{name}: {words.move(did, self.played.router(name))}"

    def groups(self) -> list[list[int]]:
        """The moves that are shown as one: each by itself, or all of one time."""
        found = []
        for number, (_, _, moment) in enumerate(self.moves):
            if self.is_by_time and found and self.moves[found[-1][0]][2] == moment:
                found[-1].append(number)
            else:
                found.append([number])
        return found

    def group(self, numbers: list[int]) -> list[Any]:
        """Moves that are shown as one: a title, the first answer and their count, the time, and what hosts gave in
        them, as pairs of a host and an answer."""
        first, moment = self.moves[numbers[0]][0], self.moves[numbers[-1]][2]
        count = sum(self.moves[number][1] for number in numbers)
        said = [[self.arrivals.senders[at], at] for at in range(first, first + count) if at in self.arrivals.senders]
        title = self.summary(numbers, said) if self.is_by_time else self.title(numbers[0])
        return [self.text(title), first, count, moment, said]

    def summary(self, numbers: list[int], said: list[list[int]]) -> str:
        """What happened at one time: first what fails and what changes, then how many hosts speak."""
        dids = [self.played.moves[number] for number in numbers]
        told = list(self.missed(numbers))
        turned = {verb: [f"{did['router']} {words.place(self.played.router(did['router']), did['iface'])}"
                         for did in dids if did["do"] == verb] for verb in ("down", "up")}
        told += [f"{named(whose, 'interfaces', 2)} {verb}" for verb, whose in turned.items() if whose]
        for do, what in (("restart", "restarts"), ("reload", "gets another configuration")):
            told += [f"{did['router']} {what}" for did in dids if did["do"] == do]
        changed = sorted({did["router"] for did in dids if did["do"] in ("routes", "rps", "candidates")})
        told += [f"new routes or RPs at {named(changed, 'routers')}"] * bool(changed)
        told += self.spoken(said)
        brought = sum(self.moves[number][1] for number in numbers
                      if self.played.moves[number]["do"] in ("settle", "deliver", "carry"))
        told += [deliveries(brought)] * bool(brought)
        return words.seconds(self.moves[numbers[-1]][2]).replace(".000", "") + (": " + "; ".join(told) if told else "")

    def missed(self, numbers: list[int]) -> Iterator[str]:
        """How many packets hosts missed, and what routers refused or ignored."""
        first = self.moves[numbers[0]][0]
        end = first + sum(self.moves[number][1] for number in numbers)
        count = bisect_right(self.arrivals.missed, end) - bisect_right(self.arrivals.missed, first)
        if count:
            yield f"{count} packet{'s' * (count > 1)} missed"
        odd = Counter(self.text.all[step[8] - 1] for step in self.steps[first:end] if step[8])
        yield from (f"{text} {count} times" if count > 1 else text for text, count in odd.items())

    def spoken(self, said: list[list[int]]) -> list[str]:
        """Which hosts sent and reported, or how many."""
        hosts, found = list(self.arrivals.hosts.values()), {True: {}, False: {}}
        for host, at in said:
            found[": data" in self.text.all[self.steps[at][9]]].setdefault(hosts[host].name)
        verbs = {True: ("sends", "sources send"), False: ("reports", "hosts report")}
        return [f"{len(names)} {verbs[is_data][1]}" if len(names) > 2 else f"{name} {verbs[is_data][0]}"
                for is_data, names in found.items() for name in (list(names)[:1] if len(names) > 2 else names)]

    def told(self, diagnosis: Diagnosis) -> dict[str, Any]:
        """All of it with the diagnosis of the run, ready for JSON."""
        self.arrivals = Arrivals(self, diagnosis)
        hosts, groups = self.arrivals.told(), self.groups()
        moves = [self.group(numbers) for numbers in groups]
        numbers = {number + 1: place for place, group in enumerate(groups, 1) for number in group}
        return {
            "routers": [router_told(router) for router in self.played.routers],
            "links": [[link, str(net)] for link, net in self.played.links().items()],
            "hosts": hosts, "moves": moves, "steps": self.steps, "packets": self.packets,
            "shapes": [shape.all for shape in self.shapes], "trees": [list(tree) for tree in self.trees],
            "streams": self.arrivals.streams, "texts": self.text.all, "numbers": numbers, "byTime": self.is_by_time,
        }


def named(names: list[str], what: str, most: int = 3) -> str:
    """Some names, or how many they are."""
    return ", ".join(names) if len(names) <= most else f"{len(names)} {what}"


def deliveries(count: int) -> str:
    return f"{count} deliver{'y' if count == 1 else 'ies'}"


def router_told(router: Router) -> dict[str, Any]:
    """A router: its name, its interfaces by link and address, its addresses of no interface, and the ranges of which it
    is the RP."""
    own = [str(prefix) for prefix, rp in router.rps if router.has(rp)]
    ifaces = [[each.link, each.address] for each in router.interfaces]
    return {"name": router.name, "ifaces": ifaces, "addresses": router.addresses, "rp": own}
