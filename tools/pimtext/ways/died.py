"""Where a packet that was really sent went no further on its way to a host, and why.

What routers took and sent is that of the run, as pimtext.ways.trace has it. Which way it should have come, and why a
router that took it sent it not on, follows from what the routers knew just before. """
from __future__ import annotations

from typing import TYPE_CHECKING

from pimtext.ways import served, trace
from viqeshor.lab import asked, words
from viqeshor.lab.addresses import is_source_specific
from pimtext.ways.ends import End
from viqeshor.lab.printed import ANY

if TYPE_CHECKING:
    from viqeshor.lab.known import Known
    from pimtext.ways.past import Past

# How many routers are told of that took a packet which goes another way than to the host.
MOST_SHOWN = 12


def ttl_of(taken: trace.Taken) -> int:
    """The TTL with which a packet came to a router, that of the inner one in a Register."""
    data = taken.step.taken()
    inner = trace.registered(data) if taken.iface is None else data
    return (inner or data)[8]


def refused(world: served.World, taken: trace.Taken) -> End:
    """The end of a packet that a router refused or ignored."""
    link = taken.step.link
    what = "the Register" if taken.iface is None else f"the packet on {link}"
    told = f"{what} was {words.answer(taken.step.verdict, taken.step.cause)} at {taken.router}"
    return End("refused", told, taken.router, link, None, taken.step.cause)


class Death:
    """A packet that didn't come to a host's link: `past` says what routers knew, `link` is the host's."""

    def __init__(self, past: Past, packet: trace.Packet, link: str) -> None:
        self.past, self.packet, self.link = past, packet, link
        self.world = served.World(past.known(packet.at))
        self.group, self.source = packet.group, packet.source
        self.taken = packet.taken()

    # ---- the way that it should have come

    def end(self) -> tuple[End, list[served.Rung]]:
        """Why it didn't come, and the rungs that waited for it, from the one nearest to the source."""
        state, end = served.serving(self.world, self.group, self.source, self.link)
        if state is None:
            return self.refused_everywhere() or end, []
        rungs, broken = served.climb(self.world, self.group, self.source, state, self.link)
        place = next((at for at, rung in enumerate(rungs) if self.at(rung.state.router.name)), None)
        waiting = rungs[:place][::-1]
        parted = served.parted(self.group, self.source, rungs[:None if place is None else place])
        if place is None:
            return self.refused_everywhere() or parted or broken or self.unregistered(), waiting
        return parted or self.stopped(rungs[place], rungs[place - 1].state if place else None), waiting

    def at(self, name: str) -> list[trace.Taken]:
        """What a router took of it in order, and accepted."""
        return [taken for taken in self.taken if taken.router == name and taken.is_done() and self.is_accepted(taken)]

    def is_accepted(self, taken: trace.Taken) -> bool:
        """Whether it came on the interface of one of its trees, or in a Register to the RP."""
        if taken.copies:
            return True
        state = self.past.known(taken.at)[taken.router]
        if taken.iface is None:
            return served.is_rp(state, self.group)
        if asked.rpf_interface(state, self.source) == taken.iface:
            return True
        has_spt_bit = state.source_tree(self.group, self.source).spt_bit
        is_shared = not is_source_specific(self.group) and not has_spt_bit
        return is_shared and asked.upstream_interface(state, self.group, ANY) == taken.iface

    # ---- at its first router

    def refused_everywhere(self) -> End | None:
        """Where no router took it at all."""
        began = self.packet.began
        return refused(self.world, began[0]) if all(not taken.is_done() for taken in began) else None

    def unregistered(self) -> End:
        """Why the RP never had it, where nothing else is wrong on the way from the host."""
        known, done = self.world.known, [taken for taken in self.packet.began if taken.is_done()]
        for taken in done:
            if taken.iface is not None and not asked.is_connected(known[taken.router], self.source):
                return self.stranger(known[taken.router], taken.iface)
        sent = [copy for taken in done for copy in taken.copies if copy.is_register()]
        if sent:
            return self.register_end(sent[0])
        if self.packet.link is None:
            return self.misdirected(known[done[0].router])
        drs = [taken for taken in done if taken.iface is not None and asked.is_dr(known[taken.router], taken.iface)]
        if drs and ttl_of(drs[0]) <= 1:
            return self.used_up(drs[0])
        return served.unregistered(self.world, self.group, self.source, self.packet.link)

    def stranger(self, state: Known, iface: int) -> End:
        name, link = state.router.name, state.router.interfaces[iface].link
        told = f"to {name} the source {self.source} isn't on {link}, nor on any other link of it"
        return End("stranger", f"{told}, so {name} doesn't register it", name, link, self.source)

    def misdirected(self, state: Known) -> End:
        """A Register from outside the scenario came to a router that isn't on the host's way, or isn't the RP."""
        name, rp = state.router.name, asked.rp_of(state, self.group)
        if served.is_rp(state, self.group):
            told = f"it came in a Register to {name} alone, and on no link of {self.source}"
            return End("not the source's dr", told, name, None, self.source)
        told = f"has {rp} as the RP of {self.group}" if rp else f"has no RP for {self.group}"
        return End("rp disagrees", f"it came in a Register to {name}, which {told}, and forwards nothing of it", name)

    def register_end(self, copy: trace.Copy) -> End:
        """What became of a Register."""
        rp, name = copy.sent.where, copy.by.router
        if not copy.taken:
            if self.world.owner(rp) is None:
                return End("no owner", f"{name} registers with {rp}, which no router here has", name, None, rp)
            told = f"the Register of {name} to {self.world.named(rp)} was lost on its way"
            return End("lost", told, name, None, rp)
        last = copy.taken[-1]
        if not last.is_done():
            return refused(self.world, last)
        state = self.past.known(last.at)[name]
        return served.registers_end(self.world, state, self.group, self.source, rp)

    # ---- at a router that had it

    def stopped(self, rung: served.Rung, below: Known | None) -> End:
        """Why a router that had it didn't bring it to the router below, or to hosts."""
        had = self.at(rung.state.router.name)
        for taken in had:
            sent = [copy for copy in taken.copies if not copy.is_register() and copy.sent.where == rung.link]
            if sent:
                return self.unheard(sent[0], below, rung.link)
        spent = next((taken for taken in had if ttl_of(taken) <= 1), None)
        if spent is not None:
            return self.used_up(spent)
        states = [self.past.known(taken.at)[taken.router] for taken in had]
        ends = [served.stopped(state, self.group, self.source, rung.link, below) for state in states]
        # An interface on which the packet came says nothing where it came by another one too.
        return next((end for end in ends if end.kind != "rpf"), ends[0])

    def used_up(self, taken: trace.Taken) -> End:
        where = "in a Register" if taken.iface is None else f"on {self.world.known[taken.router].link(taken.iface)}"
        told = f"packets of {self.source} with TTL {self.packet.ttl} come to {taken.router} {where} with"
        return End("ttl", f"{told} TTL {ttl_of(taken)}, with which no copy leaves", taken.router)

    def unheard(self, copy: trace.Copy, below: Known | None, link: str) -> End:
        """Why the router below had nothing of a copy on the link between."""
        name = below.router.name if below else "the host"
        here = [taken for taken in copy.taken if taken.router == name]
        if not here:
            told = f"the copy that {copy.by.router} sent on {link} was lost before {name}"
            return End("lost", told, copy.by.router, link, name)
        if not here[0].is_done():
            return refused(self.world, here[0])
        return self.other_way(here[0])

    def other_way(self, taken: trace.Taken) -> End:
        """It came on an interface on which the router doesn't take it."""
        state = self.past.known(taken.at)[taken.router]
        name, link = taken.router, state.link(taken.iface)
        told = f"{name} takes no packet of {self.source} on {link}: it has its trees from elsewhere"
        return End("rpf", told, name, link)


# ---- in words


def place_words(world: served.World, taken: trace.Taken) -> str:
    router = world.known[taken.router].router
    return "in a Register" if taken.iface is None else f"on {words.place(router, taken.iface)}"


def hop_line(world: served.World, taken: trace.Taken) -> str:
    """A router, how it took a packet, and where it sent it."""
    head = f"  {taken.router} took it {place_words(world, taken)}, TTL {ttl_of(taken)}; "
    if not taken.is_done():
        return f"{head}{words.answer(taken.step.verdict, taken.step.cause)}"
    copies = [copy for copy in taken.copies if not copy.is_register()]
    links = [copy.sent.where + ("" if copy.taken or is_last(world, copy) else " (lost)") for copy in copies]
    registers = [f"registered it with {world.named(copy.sent.where)}{'' if copy.taken else ' (lost)'}"
                 for copy in taken.copies if copy.is_register()]
    sent = [f"sent it on {', '.join(links)}"] if links else []
    return head + ("; ".join([*sent, *registers]) or "sent it nowhere")


def is_last(world: served.World, copy: trace.Copy) -> bool:
    """No other router is on the link of a copy."""
    return all(state.router.name == copy.by.router for state, _ in world.ports[copy.sent.where])


def way_lines(world: served.World, packet: trace.Packet, link: str) -> list[str]:
    """The routers by which a packet came to a link; where it didn't, all that took it."""
    there = packet.on(link)
    way = there[0].by.way() if there else packet.taken()[:MOST_SHOWN]
    return [hop_line(world, taken) for taken in way]
