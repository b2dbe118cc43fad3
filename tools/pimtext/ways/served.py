"""The way of a source's packets to a host by what the routers know: hop by hop, where it ends, and why.

What a router would do with a packet is what a copy of it does that is given one. What really came of packets that were
sent is in pimtext.ways.died. """
from __future__ import annotations

from collections import defaultdict
from dataclasses import dataclass
from typing import TYPE_CHECKING

from pimtext.ways import reasons, trace
from viqeshor.lab import asked, packets, printed, words
from viqeshor.lab.addresses import ip_address, is_source_specific, longest
from pimtext.ways.ends import End
from viqeshor.lab.printed import ANY

if TYPE_CHECKING:
    from viqeshor.lab.known import Known


# How many hops are told of a stream that goes another way than to the host.
MOST_SHOWN = 12


@dataclass(frozen=True)
class Taken:
    """What a router does with a packet that comes: where it leaves, the RP that it is registered with, and by which
    tree."""
    out: frozenset
    by: str
    rp: str | None = None


@dataclass(frozen=True, eq=False)
class Hop:
    """A router that packets come to, on an interface, or in a Register where that is None."""
    state: Known
    iface: int | None
    taken: Taken
    before: "Hop | None" = None

    def way(self) -> list[Hop]:
        """The hops up to this one."""
        return [*(self.before.way() if self.before else []), self]


@dataclass(frozen=True)
class Rung:
    """A router on the way from a host up to the root of its tree: the link below it, and the tree that it joined."""
    state: Known
    link: str
    source: str


class World:
    """All routers with what they know."""

    def __init__(self, known: dict[str, Known]) -> None:
        self.known, self.ports = known, defaultdict(list)
        for state in known.values():
            for interface in state.interfaces_up():
                self.ports[interface.link].append((state, interface.number))

    def owner(self, address: str) -> Known | None:
        return next((state for state in self.known.values() if state.router.has(address)), None)

    def named(self, address: str) -> str:
        """An address with its router's name."""
        owner = self.owner(address)
        return address if owner is None else f"{owner.router.name} ({address})"

    def on(self, address: str, link: str) -> str:
        """The same where that router has the address on a link; else the address alone."""
        here = (each for state in self.known.values() for each in state.configured() if each.link == link)
        is_there = any(each.address == address for each in here)
        return self.named(address) if is_there else address

    def every(self, address: str) -> str:
        """The same of a router that may have gone, or of several that have the address."""
        names = [state.router.name for state in self.known.values() if state.router.has(address)]
        return f"{' and '.join(names)} ({address})" if names else address

    def reaches(self, state: Known, address: str) -> bool:
        """Whether links lead from a router to the one that has an address, over interfaces that are up."""
        found, waiting = {}, [state]
        while waiting:
            here = waiting.pop()
            if here.router.name not in found:
                found[here.router.name] = here
                waiting += [other for interface in here.interfaces_up() for other, _ in self.ports[interface.link]]
        return any(here.router.has(address) for here in found.values())

    def link_of(self, address: str) -> str | None:
        """The link whose subnet has an address, None where none has."""
        for state in self.known.values():
            for interface in state.interfaces_up():
                if ip_address(address) in interface.own.network:
                    return interface.link
        return None


# ---- what one router does


def taken(state: Known, group: str, source: str, iface: int) -> Taken:
    """What a router would do with a packet that came on an interface."""
    return state.once((taken, group, source, iface), lambda: tried(state, group, source, iface))


def tried(state: Known, group: str, source: str, iface: int) -> Taken:
    """What a copy of it does with the packet."""
    with state.copy_of_core() as router:
        answer = router.frame(iface, packets.write_data(source, group, b""), draw=0)
        sent = [] if answer else router.packets()
        own, shared = router.source_tree(source, group), router.tree(group)
    registers = [each.where for each in sent if each.kind == "unicast" and trace.registered(each.packet) is not None]
    out = frozenset(each.where for each in sent if each.kind == "copy")
    if own.spt_bit:
        by = "the source's tree" if own.path is not None and own.path.iface == iface else ""
    else:
        by = "the RP's tree" if shared.path is not None and shared.path.iface == iface else ""
    return Taken(out, by, registers[0] if registers else None)


def registered(state: Known, group: str, source: str) -> Taken:
    """What a router would do with a packet that came in a Register."""
    if not is_rp(state, group) or state.source_tree(group, source).spt_bit:
        return Taken(frozenset(), "")
    data = packets.write_register(source, asked.rp_of(state, group), packets.write_data(source, group, b""))
    with state.copy_of_core() as router:
        sent = [] if router.unicast(data, draw=0) else router.packets()
    return Taken(frozenset(each.where for each in sent if each.kind == "copy"), "a Register")


# ---- where packets come


def flow(world: World, group: str, source: str, link: str) -> tuple[list[Hop], dict[str, Hop | None]]:
    """Each hop of the packets from their link on, in the order in which they come, and the hop that brings them to each
    link."""
    hops, by_link = [], {link: None}
    waiting = [(state, number, None) for state, number in world.ports[link]]
    seen = set()
    while waiting:
        state, number, before = waiting.pop(0)
        if (state.router.name, number) in seen:
            continue
        seen.add((state.router.name, number))
        what = registered(state, group, source) if number is None else taken(state, group, source, number)
        hop = Hop(state, number, what, before)
        hops.append(hop)
        waiting += onward(world, hop, by_link)
    return hops, by_link


def onward(world: World, hop: Hop, by_link: dict[str, Hop | None]) -> list[tuple[Known, int | None, Hop]]:
    """Who takes what a router sends on: on its links, and its RP. Notes by whom a link is reached."""
    found = []
    for number in sorted(hop.taken.out):
        link = hop.state.link(number)
        by_link.setdefault(link, hop)
        found += [(other, port, hop) for other, port in world.ports[link] if other is not hop.state]
    rp = None if hop.taken.rp is None else world.owner(hop.taken.rp)
    is_there = rp is not None and world.reaches(hop.state, hop.taken.rp)
    return [*found, (rp, None, hop)] if is_there else found


# ---- from the host up


def serving(world: World, group: str, source: str, link: str) -> tuple[Known | None, End | None]:
    """The router that serves the hosts of a link; else None, and why there is none."""
    here = world.ports[link]
    for state, number in here:
        own, shared = state.source_tree(group, source), state.tree(group)
        is_shared = number in shared.pim_include and number not in own.pim_exclude
        if number in own.pim_include or is_shared:
            return state, None
    if not here:
        return None, End("down", f"no router has an interface on {link} that is up", link=link)
    drs = [(state, number) for state, number in here if asked.is_dr(state, number)]
    if not drs:
        return None, absent_dr(world, here, link)
    for state, number in drs:
        lost = reasons.lost(state, group, source, number)
        if lost and reasons.causes(state, group, source, number):
            name, row = state.router.name, lost[0]
            told = f"{name}, the DR of {link}, lost the assert of ({row.source}, {group}) to {row.winner}"
            return None, End("assert", told, name, link, row.winner)
    return None, unwanted(drs, group, source, link)


def absent_dr(world: World, here: list[tuple[Known, int]], link: str) -> End:
    """The routers of a link take somebody for its DR who isn't there."""
    state, number = here[0]
    address = asked.dr_of(state, number)
    if any(other.router.interfaces[port].address == address for other, port in here):
        name = state.router.name
        told = f"each router on {link} takes another one for its DR: {name} takes {world.every(address)} for it"
        return End("dead dr", told, name, link, address)
    until = state.of(printed.Neighbour, iface=number, address=address)[0].end
    where = f"which is gone from {link}" if world.owner(address) else "which no router here has"
    when = "for ever" if until == printed.NEVER else f"until {words.seconds(until)}"
    gone = f"{world.every(address)}, {where}, and takes it for a neighbour {when}"
    name = state.router.name
    return End("dead dr", f"{name} isn't the DR of {link}: it takes that to be {gone}", name, link, address)


def unwanted(drs: list[tuple[Known, int]], group: str, source: str, link: str) -> End:
    """Why the DR of a link doesn't take it that hosts there want the packets."""
    state, number = drs[0]
    name, wants = state.router.name, f"to {state.router.name}, the DR of {link}, hosts there want {group}"
    rows = state.of(printed.SourceRecord, iface=number, group=group)
    named = sorted({row.source for row in rows if row.end is not None})
    if state.of(printed.GroupRecord, iface=number, group=group, mode="include") and named:
        return End("unwanted", f"{wants} of {', '.join(named)} alone", name, link)
    if number in state.source_tree(group, source).pim_exclude:
        return End("excluded", f"{wants}, but not of {source}", name, link)
    if is_source_specific(group) and state.of(printed.GroupRecord, iface=number, group=group):
        told = f"{wants} without a source, and an SSM group has no tree but those of its sources"
        return End("unwanted", told, name, link)
    return End("unwanted", f"{name}, the DR of {link}, knows of no host that wants {group}", name, link)


def has_joined(state: Known, group: str, source: str) -> bool:
    return bool(state.of(printed.Upstream, group=group, source=source))


def is_rp(state: Known, group: str) -> bool:
    return state.router.has(asked.rp_of(state, group) or "")


def tree_at(state: Known, group: str, source: str) -> str:
    """The tree by which a router gets the packets."""
    if is_source_specific(group) or asked.is_connected(state, source):
        return source
    has_spt_bit = state.source_tree(group, source).spt_bit
    is_alone = is_rp(state, group) or has_spt_bit or not has_joined(state, group, ANY)
    return source if is_alone and has_joined(state, group, source) else ANY


def next_up(world: World, state: Known, group: str, tree: str) -> tuple[Known, str] | tuple[None, End]:
    """The router to which one sends its Joins, and the link between; else None, and why there is none."""
    name, root = state.router.name, asked.root_of(state, group, tree)
    if root is None:
        return None, End("no rp", f"{name} has no RP for {group}", name)
    whom = f"the RP {root}" if tree == ANY else f"the source {root}"
    path, hop = asked.route(state, root), asked.upstream_neighbour(state, group, tree)
    if path is None:
        return None, no_route(world, state, root, whom, tree == ANY)
    link = state.link(path.iface)
    if hop is None:
        where = f"{world.on(path.next_hop, link)} on {link}"
        told = f"{where}, the next hop of {name} towards {whom}, is no neighbour of it"
        return None, End("no neighbour", told, name, link, path.next_hop)
    above = world.owner(hop.address)
    if above is None:
        told = f"{name} sends its Joins to {hop.address}, which no router here has"
        return None, End("no owner", told, name, link, hop.address)
    told = dropped(state, above, group) if tree == ANY else None
    return (None, told) if told else (above, link)


def dropped(state: Known, above: Known, group: str) -> End | None:
    """A Join of a shared tree counts only at a router that has the same RP; None where it does."""
    name, other, rp, theirs = state.router.name, above.router.name, asked.rp_of(state, group), asked.rp_of(above, group)
    if theirs == rp:
        return None
    has = f"has no RP for {group}" if theirs is None else f"has {theirs} as the RP of {group}"
    return End("rp disagrees", f"{other} {has}, and drops the Joins of {name} to {rp}", other, None, rp)


def no_route(world: World, state: Known, root: str, whom: str, is_rp_wanted: bool) -> End:
    """Why a router has no route to an RP or a source."""
    name = state.router.name
    found = longest([(each.prefix, each) for each in state.routes], ip_address(root))
    if is_rp_wanted and found is None and world.owner(root) is None:
        return End("no owner", f"no router has the address {root}, and {name} no route to it", name, None, root)
    if found is None:
        return End("no route", f"{name} has no route to {whom}", name, None, root)
    link = state.link(found.iface)
    return End("interface down", f"{name}'s interface on {link}, which leads to {whom}, is down", name, link, root)


def climb(world: World, group: str, source: str, state: Known, link: str) -> tuple[list[Rung], End | None]:
    """The rungs from a host's router up to the root, the source's router or the RP; and why they end before it, or
    None."""
    rungs, tree = [], tree_at(state, group, source)
    while all(rung.state is not state or rung.source != tree for rung in rungs):
        rungs.append(Rung(state, link, tree))
        if asked.is_connected(state, source) if tree == source else is_rp(state, group):
            return rungs, None
        above, told = next_up(world, state, group, tree)
        if above is None:
            return rungs, told
        state, link = above, told
        tree = source if tree == source else tree_at(state, group, source)
    names = [rung.state.router.name for rung in rungs]
    round_ = " to ".join([*names[names.index(state.router.name):], state.router.name])
    root = asked.root_of(state, group, tree)
    told = f"the Joins towards {root} run in a circle, from {round_}"
    return rungs, End("circle", told, state.router.name, link, root)


def parted(group: str, source: str, rungs: list[Rung]) -> End | None:
    """The first rung from the host up that nothing asks for the packets on the link below; None where all are asked."""
    for below, rung in zip(rungs, rungs[1:]):
        numbers = [each.number for each in rung.state.router.on(rung.link)]
        if not any(reasons.causes(rung.state, group, source, number) for number in numbers):
            return stopped(rung.state, group, source, rung.link, below.state)
    return None


# ---- why it ends


def unregistered(world: World, group: str, source: str, link: str | None) -> End:
    """Why the RP has no packets of a source."""
    drs = [state for state, number in world.ports[link] if asked.is_dr(state, number)]
    if not drs:
        return End("not the source's dr", f"no router on {link} is the DR of {source}", link=link)
    name, rp = drs[0].router.name, asked.rp_of(drs[0], group)
    if rp is None:
        return End("no rp", f"{name}, the DR of {source}, has no RP for {group}", name)
    return registers_end(world, drs[0], group, source, rp)


def registers_end(world: World, dr: Known, group: str, source: str, rp: str) -> End:
    """Why nothing comes of what a DR registers."""
    name, owner = dr.router.name, world.owner(rp)
    if dr.router.has(rp):
        told = f"{name} is the RP of {group} to itself, by its address {rp}, so it registers nothing"
        return End("registers stopped", f"{told}, and no Join for it came to {name}", name, None, rp)
    if owner is None:
        return End("no owner", f"{name} registers with {rp}, which no router here has", name, None, rp)
    if not world.reaches(dr, rp):
        told = f"no links that are up lead from {name} to {world.named(rp)}, the RP, so its Registers are lost"
        return End("lost", told, name, None, rp)
    if not is_rp(owner, group):
        own = asked.rp_of(owner, group)
        told = f"has {own} as its RP" if own else "has no RP for it"
        told = f"{name} registers {group} with {world.named(rp)}, which {told}, and stops the Registers"
        return End("rp disagrees", told, owner.router.name, None, rp)
    rows = dr.of(printed.Active, group=group, source=source)
    if any(row.register in ("prune", "pending") for row in rows):
        told = f"the Registers of {name} are stopped, and {world.named(rp)} has no packets of ({source}, {group})"
        return End("registers stopped", f"{told} by its own tree", name, None, rp)
    told = f"{name} sends no Registers of ({source}, {group}) to {world.named(rp)}"
    return End("registers stopped", told, name, None, rp)


def stopped(state: Known, group: str, source: str, link: str, below: Known | None) -> End:
    """Why a router that has the packets doesn't send them on a link, to the router below or to hosts."""
    numbers, name = [each.number for each in state.router.on(link)], state.router.name
    where = f"{name}, on {words.place(state.router, numbers[0])}" if numbers else name
    if not set(numbers) & state.up:
        return End("interface down", f"{name} has no interface on {link} that is up", name, link)
    for number in numbers:
        against = reasons.obstacles(state, group, source, number)
        if against:
            kind = "assert" if "assert" in against[0] else "pruned" if "Prune" in against[0] else "unwanted"
            return End(kind, f"{name}, on {words.place(state.router, number)}: {'; '.join(against)}", name, link)
    if any(reasons.causes(state, group, source, number) for number in numbers):
        return End("rpf", f"{where}: the packets come from there", name, link)
    if below is None:
        return End("unwanted", f"{where}: no wish of a host is there", name, link)
    other = below.router.name
    return End("no join", f"{where}: no Join for {group} of {other} is there", name, link, other)


# ---- in words


def hop_line(world: World, hop: Hop, group: str, source: str) -> str:
    state, how = hop.state, hop.taken
    where = "in a Register" if hop.iface is None else f"on {words.place(state.router, hop.iface)}"
    by = f", by {how.by}" if how.by and hop.iface is not None else ""
    sent = [f"sends it on {words.place(state.router, number)}: "
        + ", ".join(reasons.causes(state, group, source, number))
            for number in sorted(how.out)]
    sent += [f"registers it with {world.named(how.rp)}"] if how.rp else []
    rows = state.of(printed.Active, group=group, source=source)
    sent += ["its Registers are stopped" for row in rows if row.register in ("prune", "pending")
        and hop.iface is not None]
    return f"  {state.router.name} takes it {where}{by}; " + ("; ".join(sent) or "sends it nowhere")


def waiting_line(rung: Rung, group: str) -> str:
    return f"  {rung.state.router.name} waits for it: it is to come by ({rung.source}, {group})"


def expected(world: World, group: str, source: str, origin: str, link: str) -> tuple[list[str], End | None]:
    """By what the routers know: whether packets would come to a host's link, the lines of their way, and the end where
    they don't."""
    hops, by_link = flow(world, group, source, origin)
    state, end = serving(world, group, source, link)
    if link in by_link and state is not None:
        return [hop_line(world, hop, group, source) for hop in by_link[link].way()], None
    if state is None:
        return [], end
    rungs, broken = climb(world, group, source, state, link)
    came = {hop.state.router.name: hop for hop in hops if hop.taken.by or asked.is_connected(hop.state, source)}
    place = next((at for at, rung in enumerate(rungs) if rung.state.router.name in came), None)
    waiting = [waiting_line(rung, group) for rung in reversed(rungs[:place])]
    if place is None:
        way = [hop_line(world, hop, group, source) for hop in hops[:MOST_SHOWN]]
        return way + waiting, broken or unregistered(world, group, source, origin)
    last, below = rungs[place], rungs[place - 1].state if place else None
    way = [hop_line(world, hop, group, source) for hop in came[last.state.router.name].way()]
    return way + waiting, stopped(last.state, group, source, last.link, below)
