"""What stops streams for a while in a run, or for good: what is lost on a link, a Prune that nobody overrode, and the
limit."""
from __future__ import annotations

from collections.abc import Callable, Collection, Iterator
from dataclasses import dataclass
from typing import TYPE_CHECKING

from pimtext.causes import limit
from viqeshor.lab import asked, packets, printed, words
from pimtext.causes.cause import Cause
from viqeshor.lab.facts import DELAYS, USUAL
from pimtext.causes.run import COUNTED, gathered, listed, some, times
from pimtext.ways.wire import ASSERT, DATA, HELLO, JOIN, PLURALS, SINGULARS, names_group

if TYPE_CHECKING:
    from pimtext.causes.cause import Symptom
    from pimtext.causes.run import Run
    from viqeshor.lab.story import Sent, Step
    from pimtext.ways.streams import Stream
    from pimtext.ways.watched import Loss
    from pimtext.ways.wire import Way


# How long a Prune on a link waits for a Join that overrides it where nothing is configured, in ms.
USUAL_OVERRIDE = sum(USUAL[key] for key in DELAYS)
# So many steps after a Prune is overridden what it did further up may last.
AFTERWARDS = 40
# How many neighbours an interface has at most.
MOST_NEIGHBOURS = 64
# Routers have clocks of their own: what is apart by no more ms may be at one time.
SLACK = 2000


@dataclass(frozen=True)
class Pruned:
    """A Prune as the router above took it; `who` is a router's name, or the address of somebody who isn't in the file.
    """
    who: str
    move: int
    taken: Step
    at: int

    def is_strange(self) -> bool:
        return self.taken.did["do"] == "frame"


@dataclass(frozen=True)
class Spell:
    """What was lost on a way at one time: the stretches of its kinds."""
    way: Way
    stretches: list

    def kinds(self) -> set[str]:
        return {each.kind for each in self.stretches}

    @property
    def began(self) -> Sent:
        return min((each.began for each in self.stretches), key=lambda sent: sent.number)

    @property
    def until(self) -> Sent | None:
        ends = [each.until for each in self.stretches]
        return None if None in ends else max(ends, key=lambda sent: sent.number)

    def is_like(self, other: Spell) -> bool:
        is_one = self.way.sender == other.way.sender and self.kinds() == other.kinds()
        is_as_open = (self.until is None) == (other.until is None)
        return is_one and is_as_open and self.stretches[0].is_with(other.stretches[0])


def spells(way: Way) -> list[Spell]:
    """The stretches of a way, those of one time as one."""
    found = []
    for stretch in way.stretches():
        near = next((each for each in found if each.stretches[0].is_with(stretch)), None)
        if near is None:
            found.append(Spell(way, [stretch]))
        else:
            near.stretches.append(stretch)
    return found


def lost_numbers(group: list[Spell], kind: str) -> set[int]:
    return {sent.number for spell in group for each in spell.stretches if each.kind == kind for sent in each.lost}


class Outages:
    def __init__(self, run: Run) -> None:
        self.run, self.known, self.wire = run, run.known, run.wire

    # ---- what is lost between two routers

    def losses(self) -> Iterator[Cause]:
        """Of some kind nothing came from one router to another; both ways together where no Hello came either way."""
        told = set()
        for way in self.wire.ways.values():
            kinds = [kind for kind in way.all_lost() if kind in (HELLO, JOIN, ASSERT, DATA)]
            back = self.wire.way(way.receiver, way.sender, way.link)
            if way.link is None or not kinds or back in told:
                continue
            if HELLO in kinds and HELLO in back.all_lost():
                told.add(way)
                yield self.strangers(way, back)
            else:
                yield self.one_way(way, kinds)

    def strangers(self, way: Way, back: Way) -> Cause:
        names, both = {way.sender, way.receiver}, f"{way.sender} and {way.receiver} on {way.link} aren't neighbours"
        told = f"{both}: no Hello came from one to the other ({way.words()}; {back.words()} were lost)"
        if way.is_dead() and back.is_dead():
            told = f"{both}: all that they sent to one another was lost ({way.words()}; {back.words()})"
        covers = self.of_way(names, names, way.link, {HELLO, JOIN, DATA})
        return Cause(self.run.on_link(way.sender, way.link), told, covers)

    def one_way(self, way: Way, kinds: list[str]) -> Cause:
        what = "nothing" if way.is_dead() else f"none of the {' and '.join(PLURALS[kind] for kind in kinds)}"
        told = f"{what} that {way.sender} sent on {way.link} came to {way.receiver}: {way.words(kinds)} were lost"
        covers = self.of_way({way.sender}, {way.receiver}, way.link, kinds)
        return Cause(self.run.on_link(way.sender, way.link), told, covers, is_hint=HELLO not in kinds)

    def for_a_while(self) -> Iterator[Cause]:
        """Of some kinds nothing came from a moment on, or until another one. What a router sent to several others is
        told once."""
        groups = []
        for way in (way for way in self.wire.ways.values() if way.link is not None):
            for spell in spells(way):
                near = next((each for each in groups if each[0].is_like(spell)), None)
                (groups.append([spell]) if near is None else near.append(spell))
        yield from map(self.while_lost, groups)

    def while_lost(self, group: list[Spell]) -> Cause:
        first = min((each.began for each in group), key=lambda sent: sent.number)
        until = None if group[0].until is None else max((each.until for each in group), key=lambda sent: sent.number)
        when = f"since {words.seconds(first.moment)}" if until is None else \
            f"from {words.seconds(first.moment)} until {words.seconds(until.moment)}"
        kinds = [kind for kind in PLURALS if kind in group[0].kinds()]
        what = "nothing" if all(map(self.is_all, group)) else f"none of the {listed(PLURALS[kind] for kind in kinds)}"
        links = gathered((each.way.link, each.way.receiver) for each in group)
        where = listed(f"{listed(names)} on {link}" for link, names in links.items())
        count = ", ".join(f"{len(numbers)} {SINGULARS[kind] if len(numbers) == 1 else PLURALS[kind]}"
                          for kind, numbers in ((kind, lost_numbers(group, kind)) for kind in kinds))
        told = f"{when} {what} that {first.router} sent came to {where}: {count} were lost"
        parts = [self.of_way({first.router}, {each.way.receiver}, each.way.link, kinds) for each in group]

        def covers(each: Symptom) -> bool:
            moment = None if each.at is None or each.at >= len(self.run.steps) else self.run.steps[each.at].moment
            is_then = until is None if moment is None else first.moment <= moment + SLACK and (
                until is None or moment <= until.moment + SLACK)
            return is_then and any(part(each) for part in parts)

        return Cause(self.run.on_link(first.router, group[0].way.link), told, covers, is_hint=True)

    @staticmethod
    def is_all(spell: Spell) -> bool:
        """Whether nothing at all came meanwhile."""
        first, last = spell.began.number, spell.until.number if spell.until else None
        lost = {sent.number for lost in spell.way.lost.values() for sent in lost}
        numbers = {sent.number for every in spell.way.sent.values() for sent in every}
        return {each for each in numbers if first <= each and (last is None or each < last)} <= lost

    def partly(self) -> Iterator[Cause]:
        """Of some kind a part was lost between two routers on a link."""
        for way in self.wire.ways.values():
            told = {each.kind for each in way.stretches()}
            kinds = [kind for kind in way.sent if way.lost[kind] and kind not in {*way.all_lost(), *told}]
            if kinds and way.link is not None:
                told = f"of what {way.sender} sent on {way.link} to {way.receiver} a part was lost: {way.words(kinds)}"
                kinds = [kind for kind in kinds if kind != HELLO]
                covers = self.of_way({way.sender}, {way.receiver}, way.link, kinds)
                yield Cause(self.run.on_link(way.sender, way.link), told, covers, is_hint=True)

    def of_way(
        self, senders: set[str], receivers: set[str], link: str, kinds: Collection[str]
    ) -> Callable[[Symptom], bool]:
        """What follows where some kinds don't come from these routers to those."""
        addresses = {each.address for name in senders for each in self.known[name].router.interfaces}

        def covers(each: Symptom) -> bool:
            is_here = each.link == link
            if each.kind == "twice":
                pairs = [{one, other} for where, one, other in each.pairs if where == link]
                return bool({HELLO, ASSERT} & set(kinds)) and any(
                    pair & senders and pair & receivers or pair & senders and ASSERT in kinds for pair in pairs)
            if each.kind == "odd":
                is_theirs = each.router in receivers and each.host in addresses
                return is_theirs and HELLO in kinds and each.cause == "NoNeighbour"
            if each.kind == "no neighbour":
                return is_here and HELLO in kinds and each.router in receivers and each.address in addresses
            if each.kind == "no join":
                is_asked = bool({HELLO, JOIN} & set(kinds))
                return is_here and is_asked and each.router in receivers and each.address in senders
            if each.kind == "lost" and each.link is None:
                return HELLO in kinds and self.crosses(each.router, each.address, link)
            is_lost = each.kind == "lost" and is_here and DATA in kinds
            return is_lost and each.router in senders and each.address in receivers

        return covers

    def crosses(self, name: str | None, address: str | None, link: str) -> bool:
        """Whether the routes from a router to an address lead over a link."""
        seen = []
        while name in self.known and name not in seen:
            seen.append(name)
            path = asked.route(self.known[name], address)
            if path is None:
                return False
            if self.known[name].link(path.iface) == link:
                return True
            above = self.run.world.owner(path.next_hop)
            name = above and above.router.name
        return False

    # ---- a Prune that nobody overrode

    def overrides(self) -> Iterator[Cause]:
        """A router that wants what another one on its link prunes overrides the Prune."""
        losses = [(verdict.stream, loss) for verdict in self.run.verdicts for loss in verdict.losses]
        for stream, loss in losses:
            pruned = self.prune(stream.group, loss) if loss.end.kind == "no join" else None
            if pruned is not None:
                yield from self.override(stream, loss, pruned)

    def prune(self, group: str, loss: Loss) -> Pruned | None:
        """The last Prune of a group that another one than the router below sent on its link, and that was taken before
        a loss."""
        upper, below, link = loss.end.router, loss.end.address, loss.end.link
        others = [name for name, _ in self.run.ports()[link] if name not in (upper, below)]
        said = [pair for name in others for pair in self.wire.joins(name, link) if names_group(pair[1], group, False)]
        came = ((sent.router, sent.move, self.wire.answer(sent, upper)) for sent, _ in said)
        places = {id(step): at for at, step in enumerate(self.run.steps)}
        found = [Pruned(who, move, step, places[id(step)]) for who, move, step in came if step is not None]
        found += self.strange_prunes(group, upper, link)
        taken = [each for each in found if each.at < loss.packets[0].at and each.taken.verdict == "done"]
        return max(taken, key=lambda each: each.at, default=None)

    def strange_prunes(self, group: str, upper: str, link: str) -> Iterator[Pruned]:
        """The Prunes that moves gave to a router in the name of others."""
        for at, step in enumerate(self.run.steps):
            data = step.taken() if step.did["do"] == "frame" and (step.router, step.link) == (upper, link) else None
            if data and step.verdict == "done" and packets.is_pim(data, packets.JOIN_PRUNE):
                packet = packets.read_on_link(data)
                if names_group(packet.body, group, False):
                    yield Pruned(packet.source, step.move, step, at)

    def override(self, stream: Stream, loss: Loss, pruned: Pruned) -> Iterator[Cause]:
        """The cause where the router below sent no Join in time, or it was lost."""
        upper, below, link, group = loss.end.router, loss.end.address, loss.end.link, stream.group
        said = [join for join, body in self.wire.joins(below, link) if names_group(body, group, True)]
        joins = [join for join in said if join.move > pruned.move]
        taken, waits = pruned.taken, self.override_interval(link)
        until = taken.moment + waits
        early = [join for join in joins if join.moment <= until]
        if any(self.wire.answer(join, upper) for join in early):
            return
        lost = f"it sent no Join by {words.seconds(until)} to override it"
        if early:
            lost = f"its Join of {words.seconds(early[0].moment)}, which was to override it, was lost"
        next_one = next((step for join in joins if (step := self.wire.answer(join, upper)) is not None), None)
        later = f"; its next Join came at {words.seconds(next_one.moment)}" if next_one else ""
        came = f"which came to {upper} at {words.seconds(taken.moment)}{self.by_whom(pruned, below, link)},"
        told = f"the Prune of {pruned.who} for {group} on {link}, {came} took effect though {below} wants the group"
        told = f"{told} there: {self.waiting(link, waits)}{lost}{later}. {outage(stream, loss)}"
        last = loss.packets[-1].at if next_one is None else self.run.steps.index(next_one)
        covers = self.of_prune(stream, upper, link, pruned.at, last)
        line = self.run.lines.move(pruned.move) if pruned.is_strange() else self.run.on_link(upper, link)
        yield Cause(line, told, covers)

    def by_whom(self, pruned: Pruned, below: str, link: str) -> str:
        """Of a Prune that a move gave: which move, and whether the router below heard it."""
        if not pruned.is_strange():
            return ""
        data = pruned.taken.taken()
        heard = any(step.router == below and step.taken() == data for step in self.run.steps)
        return f" by move {pruned.move}" + ("" if heard else f" and not to {below}")

    def waiting(self, link: str, waits: int) -> str:
        """How long a Prune waits, where that isn't the usual time."""
        if waits == USUAL_OVERRIDE:
            return ""
        return f"`propagation` and `override` of {link} let it wait {words.seconds(waits)}, and "

    @staticmethod
    def of_prune(stream: Stream, upper: str, link: str, first: int, last: int) -> Callable[[Symptom], bool]:
        """What the host missed on the link, and above it, since the router that took the Prune prunes too."""
        def covers(each: Symptom) -> bool:
            if each.kind != "no join" or (each.group, each.host) != (stream.group, stream.host):
                return False
            is_above = each.address == upper and each.at is not None and first <= each.at
            return each.link == link or is_above and each.at <= last + AFTERWARDS
        return covers

    def override_interval(self, link: str) -> int:
        """How long a Prune on a link waits for a Join that overrides it, in ms (RFC 7761, 4.3.3), by what is
        configured."""
        ports = [(self.known[name].router, interface.number) for name, interface in self.run.ports()[link]]
        tables = [router.table["iface"][number] for router, number in ports]
        return sum(max(each.get(key, USUAL[key]) for each in tables) for key in DELAYS)

    # ---- the limit

    def limits(self) -> Iterator[Cause]:
        """A router has room for what it is asked."""
        full = [(at, step) for at, step in enumerate(self.run.steps) if (step.verdict, step.cause) == ("refused", "24")]
        for (name, iface, is_bound), found in gathered(
                ((step.router, step.iface if self.is_bound(at, step) else None, self.is_bound(at, step)), (at, step))
                for at, step in full).items():
            yield self.crowded(name, iface, found) if is_bound else self.full(name, found)

    def is_bound(self, at: int, step: Step) -> bool:
        """Whether a Hello was refused since the interface has as many neighbours as one may have."""
        if step.iface is None or not packets.is_pim(step.taken(), packets.HELLO):
            return False
        state = self.run.past.known(at)[step.router]
        return len(state.of(printed.Neighbour, iface=step.iface)) >= MOST_NEIGHBOURS

    def crowded(self, name: str, iface: int, found: list[tuple[int, Step]]) -> Cause:
        link, strangers = found[0][1].link, dict.fromkeys(packets.dotted(step.taken()[12:16]) for _, step in found)
        told = f": interface {iface} (link {link}) has {MOST_NEIGHBOURS} neighbours, which is the most that an"
        told = f"{told} interface has, whatever `limit` is, since before move {found[0][1].move}; the Hellos of"
        told = f"{told} {some(strangers, 6)} were refused 24 (Full) {times(len(found), 'time')}"

        def covers(each: Symptom) -> bool:
            is_refused = each.kind in ("odd", "refused") and each.cause == "24" and each.router == name
            return is_refused or (each.kind in ("no neighbour", "no join") and each.link == link and (
                each.address in strangers or each.router == name))

        return Cause(*self.run.at_router(name, told), covers)

    def full(self, name: str, found: list[tuple[int, Step]]) -> Cause:
        settings, value = self.run.settings, lambda each: each.router.table.get("limit", USUAL["limit"])
        most, since = value(settings.at(name, found[0][0])), settings.since(name, value, found[0][0])
        held = self.run.held(found[0][0], name)
        what = ", ".join(times(count, COUNTED[table]) for table, count in held.items()) or "none"
        first = f"when it first refused a message that needs more than there is room for, in move {found[0][1].move}"
        count = f"{times(len(found), 'message')} {'was' if len(found) == 1 else 'were'} refused 24 (Full)"
        when = f" ({settings.words(since)})" if since.began else ""
        told = f": its limit is {most}{when}, and it held {sum(held.values())} facts ({what}) {first}; {count}"
        groups = {group for _, step in found for group in groups_of(step)}
        greeted = {packets.dotted(step.taken()[12:16]) for _,
            step in found if packets.is_pim(step.taken(), packets.HELLO)}

        def covers(each: Symptom) -> bool:
            is_refused = each.kind in ("odd", "refused") and each.cause == "24"
            is_unknown = each.kind in ("unwanted", "no join") and each.group in groups
            is_stranger = each.kind == "no neighbour" and each.address in greeted
            return each.router == name and (is_refused or is_unknown or is_stranger)

        return Cause(settings.line(name, since), f"router {name}{told}{self.taken_along(found)}", covers)

    def taken_along(self, found: list[tuple[int, Step]]) -> str:
        """What the refused messages said again of the router's facts."""
        rows = list(dict.fromkeys(row for _, step in found for row in limit.said_again(self.run.played, step)))
        if not rows:
            return ""
        shown = ", ".join(map(limit.told, rows[:4])) + (" .." if len(rows) > 4 else "")
        return f". Each is refused whole, so what it says again isn't refreshed, and ends as if it hadn't come: {shown}"

    def causes(self) -> Iterator[Cause]:
        for told in (self.limits, self.overrides, self.losses, self.for_a_while, self.partly):
            yield from told()


def outage(stream: Stream, loss: Loss) -> str:
    """How long a host missed packets, where a loss is among them."""
    run = next(run for run in stream.missing() if loss.packets[0] in run)
    numbers = f"{run[0].number} to {run[-1].number} ({len(run)})"
    before = [each.moment for each in stream.first_arrivals() if each.packet.at < run[0].at]
    after = [each.moment for each in stream.first_arrivals() if each.packet.at > run[-1].at]
    if not before or not after:
        return f"{stream.host} missed packets {numbers}"
    return f"{stream.host} missed packets {numbers}: nothing came to it for {(after[0] - before[-1]) / 1000:g} s"


def groups_of(step: Step) -> list[str]:
    """The groups that a refused message names."""
    data = step.taken()
    try:
        packet = packets.read_on_link(data) if step.iface is not None else packets.read(data)
    except packets.Refused:
        return []
    body = packet.body
    if isinstance(body, packets.JoinPrune):
        return [each.group for each in body.groups]
    if isinstance(body, packets.Report):
        return [each.group for each in body.records]
    return [packet.destination] if isinstance(body, packets.Data) else []
