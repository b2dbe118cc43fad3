"""One command of FRR's vtysh at a time, over a scenario: its columns, with uptimes, timers and counts.

Uptimes are since the move after which the router had the row; a count of packets is of those that the run brought to
the router. """
from __future__ import annotations

from collections import defaultdict
from collections.abc import Callable, Iterator
from dataclasses import dataclass, field
from typing import TYPE_CHECKING

from pimtext.files import pimlab
from pimtext.shown import views
from pimtext.ways import moments, trace
from viqeshor.lab import asked, printed, scenario, story
from viqeshor.lab.addresses import address_in, is_group
from viqeshor.lab.printed import ANY

if TYPE_CHECKING:
    from viqeshor.lab.known import Known
    from viqeshor.lab.scenario import Scenario

Rows = list[list[str]]
# What vtysh calls that by which an RP is named; it has no candidates but those of Bootstraps.
RP_SOURCES = {"range": "Static", "bootstrap": "BSR", "candidate": "Candidate"}


@dataclass
class Count:
    """What came of a source to a router: packets, bytes, when the last came, and how many on another interface."""
    packets: int = 0
    bytes: int = 0
    last: int = 0
    wrong: int = 0


@dataclass
class History:
    """What the routers know after some moves, since when they know it, and what came to them."""
    known: dict[str, Known]
    steps: list[story.Step] = field(default_factory=list)
    since: dict[tuple, int] = field(default_factory=dict)
    counts: dict[tuple[str, str, str], Count] = field(default_factory=lambda: defaultdict(Count))


def rows_known(state: Known) -> Iterator[tuple]:
    """What a router knows, without its ends: what has an uptime."""
    for row in state.rows:
        yield (type(row).__name__, *(value for name, value in zip(row._fields, row) if name not in printed.ENDS
                                     and not (name == "state" and isinstance(row, printed.Downstream))))
    yield from (("mroute", *key) for key in views.keys(state))


def history(played: Scenario, number: int) -> History:
    """The run up to a move, followed move by move."""
    cut = scenario.Scenario(played.routers, played.moves[:number])
    lines = pimlab.run_each(cut.text())
    made, there = History({}), {}
    for _, steps, known in moments.after_moves(cut, lines):
        made.known = known
        for name in dict.fromkeys(step.router for step in steps):
            here = set(rows_known(known[name]))
            there[name] = {key: there.get(name, {}).get(key, known[name].moment) for key in here}
    made.since = {(name, *key): moment for name, keys in there.items() for key, moment in keys.items()}
    made.steps = story.played(cut, lines)[0]
    for packet in trace.traced(cut, made.steps):
        for taken in packet.taken():
            count(made.counts[taken.router, packet.group, packet.source], taken)
    return made


def count(here: Count, taken: trace.Taken) -> None:
    if taken.is_done() and taken.copies:
        here.packets, here.bytes, here.last = here.packets + 1, here.bytes + len(taken.step.taken()), taken.moment
    elif taken.is_done() and taken.iface is not None:
        here.wrong += 1


def clock(ms: float | None) -> str:
    """A span as vtysh has it."""
    if ms is None:
        return "--:--:--"
    if ms == printed.NEVER:
        return "forever"
    whole = max(0, int(ms)) // 1000
    return f"{whole // 3600:02}:{whole // 60 % 60:02}:{whole % 60:02}"


class Shown:
    """The commands over a router."""

    def __init__(self, made: History, name: str) -> None:
        self.made, self.name, self.state = made, name, made.known[name]

    def up(self, *key: object) -> str:
        since = self.made.since.get((self.name, *key))
        return clock(None if since is None else self.state.moment - since)

    def left(self, end: float | None) -> str:
        return clock(end if end in (None, printed.NEVER) else end - self.state.moment)

    def link(self, number: int | None) -> str:
        return "<none>" if number is None else self.state.link(number)

    def keys(self, group: str | None, source: str | None) -> list[tuple[str, str]]:
        return [key for key in views.keys(self.state) if group in (None, key[0]) and source in (None, key[1])]

    # ---- show ip mroute

    def mroute(self, group: str | None = None, source: str | None = None) -> tuple[list[str], Rows]:
        rows = []
        for key in self.keys(group, source):
            entry = views.mroute(self.state, *key)
            out = [(each["link"], "IGMP" if "hosts" in each["why"][0] else "PIM") for each in entry["outgoing"]]
            out += [("pimreg", "PIM")] * entry["registers"]
            came = "pimreg" if entry["is_rp"] and entry["by"] == "shared tree" else \
                "<iif?>" if entry["incoming"] is None else entry["incoming"]["link"]
            head = [key[1], key[0], entry["flags"]]
            for link, proto in out or [("none", "none")]:
                rows.append([*head, proto, came, link, "1" if out else "0", self.up("mroute", *key)])
                head, came = ["", "", ""], ""
        return ["Source", "Group", "Flags", "Proto", "Input", "Output", "TTL", "Uptime"], rows

    def mroute_count(self, group: str | None = None, source: str | None = None) -> tuple[list[str], Rows]:
        rows = []
        for key in self.keys(group, source):
            if key[1] != ANY:
                came = self.made.counts[self.name, *key]
                last = clock(self.state.moment - came.last) if came.packets else "--:--:--"
                rows.append([key[1], key[0], last, came.packets, came.bytes, came.wrong])
        return ["Source", "Group", "LastUsed", "Packets", "Bytes", "WrongIf"], rows

    # ---- show ip pim ..

    def upstream(self, group: str | None = None, source: str | None = None) -> tuple[list[str], Rows]:
        rows = []
        for key in self.keys(group, source):
            told = views.upstream(self.state, *key)
            active = next(iter(self.state.of(printed.Active, group=key[0], source=key[1])), None)
            states = ["J" if told["joined"] else "NotJ"]
            registers = {"join": "RegJ", "prune": "RegP", "pending": "RegJP"}.get(active.register if active else "")
            keepalive = self.left(active.end) if active else clock(None)
            timer = told["next_join"]
            rows.append([self.link(told["rpf"] and told["rpf"]["interface"]), key[1], key[0],
                         ",".join(states + ([registers] if registers else [])), self.up("mroute", *key),
                         clock(None if timer is None else timer - self.state.moment), keepalive,
                         told["rpf_neighbour"] or "<none>"])
        return ["Iif", "Source", "Group", "State", "Uptime", "JoinTimer", "KATimer", "RPF'"], rows

    def neighbor(self) -> tuple[list[str], Rows]:
        rows = [[self.link(row.iface), row.address, self.up("Neighbour", row.iface, row.address), self.left(row.end),
                 f"{self.priority(row)}{' (DR)' * (asked.dr_of(self.state, row.iface) == row.address)}"]
                for row in self.state.of(printed.Neighbour)]
        return ["Interface", "Neighbor", "Uptime", "Holdtime", "DR Pri"], rows

    def priority(self, row: printed.Neighbour) -> object:
        said = self.state.neighbour(row.iface, row.address)
        return "-" if said is None or said.priority is None else said.priority

    def interface(self) -> tuple[list[str], Rows]:
        rows = []
        for each in self.state.configured():
            told, here = views.interface(self.state, each), self.state.of(printed.Neighbour, iface=each.number)
            dr = "" if not told["is_up"] else "local" if told["is_dr"] else told["dr"]
            channels = len({(row.group, row.source) for row in self.state.of(printed.Downstream, iface=each.number)})
            rows.append([each.link, "up" if told["is_up"] else "down", each.address, len(here), dr, channels])
        return ["Interface", "State", "Address", "PIM Nbrs", "PIM DR", "IfChannels"], rows

    def join(self, group: str | None = None, source: str | None = None) -> tuple[list[str], Rows]:
        rows = [[self.link(row.iface), self.state.router.address(row.iface), row.source, row.group,
                 f"{row.state}{' rpt' * (row.kind == 'rpt')}",
                 self.up("Downstream", row.iface, row.group, row.source, row.kind), self.left(row.end),
                 self.left(row.pending)] for row in self.state.of(printed.Downstream)
                if group in (None, row.group) and source in (None, row.source)]
        return ["Interface", "Address", "Source", "Group", "State", "Uptime", "Expire", "Prune"], rows

    def assert_(self, group: str | None = None, source: str | None = None) -> tuple[list[str], Rows]:
        rows = [[self.link(row.iface), self.state.router.address(row.iface), row.source, row.group, row.role,
                 row.winner, self.up("AssertState", row.iface, row.group, row.source, row.role, row.winner),
                 self.left(row.end)] for row in self.state.of(printed.AssertState)
                if group in (None, row.group) and source in (None, row.source)]
        return ["Interface", "Address", "Source", "Group", "State", "Winner", "Uptime", "Timer"], rows

    def rp_info(self) -> tuple[list[str], Rows]:
        rows = [[each["rp"], each["range"], self.link(each["rpf"] and each["rpf"]["interface"]),
                 "yes" if each["is_own"] else "no", RP_SOURCES[each["named_by"]], "ASM"]
                for each in views.rps(self.state)]
        return ["RP address", "group/prefix-list", "OIF", "I am RP", "Source", "Group-Type"], rows

    def rpf(self, address: str) -> tuple[list[str], Rows]:
        path = asked.route(self.state, address)
        if path is None:
            return ["Address", "RPF interface", "Next hop"], [[address, "<none>", "<none>"]]
        hop = "connected" if path.is_connected else path.next_hop
        return ["Address", "RPF interface", "Next hop"], [[address, self.link(path.iface), hop]]

    # ---- show ip igmp ..

    def groups(self, group: str | None = None) -> tuple[list[str], Rows]:
        rows = []
        for row in self.state.of(printed.GroupRecord):
            if group in (None, row.group):
                count_of = len(self.state.of(printed.SourceRecord, iface=row.iface, group=row.group))
                rows.append([self.link(row.iface), row.group, row.mode.upper()[:4], self.left(row.end), count_of,
                             self.up("GroupRecord", row.iface, row.group, row.mode)])
        return ["Interface", "Group", "Mode", "Timer", "Srcs", "Uptime"], rows

    def sources(self, group: str | None = None) -> tuple[list[str], Rows]:
        rows = [[self.link(row.iface), row.group, row.source, self.left(row.end), "N" if row.end is None else "Y",
                 self.up("SourceRecord", row.iface, row.group, row.source)]
                for row in self.state.of(printed.SourceRecord) if group in (None, row.group)]
        return ["Interface", "Group", "Source", "Timer", "Fwd", "Uptime"], rows


# Each command, with what it takes: a group and a source, a group, an address, or nothing.
COMMANDS: dict[str, tuple[Callable[..., tuple[list[str], Rows]], int]] = {
    "ip mroute count": (Shown.mroute_count, 2), "ip mroute": (Shown.mroute, 2),
    "ip pim upstream": (Shown.upstream, 2), "ip pim neighbor": (Shown.neighbor, 0),
    "ip pim interface": (Shown.interface, 0), "ip pim join": (Shown.join, 2), "ip pim assert": (Shown.assert_, 2),
    "ip pim rp-info": (Shown.rp_info, 0), "ip igmp groups": (Shown.groups, 1), "ip igmp sources": (Shown.sources, 1),
    "ip rpf": (Shown.rpf, 1),
}


class Unknown(Exception):
    """No such command; the text says which there are."""


def parsed(text: str) -> tuple[str, list[str]]:
    """A command and its words."""
    given = text.split()
    given = given[1:] if given[:1] in (["show"], ["sh"]) else given
    name = next((name for name in COMMANDS if given[:len(name.split())] == name.split()), None)
    if name is None:
        raise Unknown(f"there is no command `{text}`: there are {', '.join(sorted(COMMANDS))}")
    more = given[len(name.split()):]
    most = COMMANDS[name][1]
    if len(more) > most or name == "ip rpf" and not more or any(word != ANY and address_in(word) is None
                                                                  for word in more):
        takes = ("nothing", "an address" if name == "ip rpf" else "a group", "a group and a source")[most]
        raise Unknown(f"`{name}` takes {takes}")
    if more and name != "ip rpf" and not is_group(address_in(more[0])):
        raise Unknown(f"{more[0]} is no group")
    return name, more


def lines(made: History, name: str, command: tuple[str, list[str]]) -> Iterator[str]:
    """What a router answers to a command."""
    call, _ = COMMANDS[command[0]]
    heads, rows = call(Shown(made, name), *command[1])
    cells = [heads, *([str(cell) for cell in row] for row in rows)]
    widths = [max(map(len, column)) for column in zip(*cells)]
    for row in cells:
        yield "  ".join(text.ljust(width) for text, width in zip(row, widths)).rstrip()
