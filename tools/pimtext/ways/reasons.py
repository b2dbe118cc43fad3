"""Why an interface is in a tree's list of outgoing interfaces, or isn't, and why no Join leaves, in words."""
from __future__ import annotations

from collections.abc import Iterator
from typing import TYPE_CHECKING

from viqeshor.lab import asked, printed
from viqeshor.lab.addresses import ip_address, longest
from viqeshor.lab.printed import ANY

if TYPE_CHECKING:
    from viqeshor.lab.known import Known


def causes(state: Known, group: str, source: str, number: int) -> list[str]:
    """Who wants the packets of a tree on an interface."""
    facts = state.facts(group, source)
    found = [f"Join ({source}, {group})"] if number in facts.joins else []
    found += [f"hosts want ({source}, {group})"] if number in facts.local_receiver_include else []
    if source != ANY:
        found += causes(state, group, ANY, number)
    return found


def obstacles(state: Known, group: str, source: str, number: int) -> list[str]:
    """What keeps them off it."""
    found = []
    if source != ANY:
        facts = state.source_tree(group, source)
        if number in facts.prunes and number in state.tree(group).joins:
            found.append(f"Prune ({source}, {group}, rpt)")
        if number in facts.pim_exclude:
            found.append(f"hosts there exclude {source}")
    return found + unserved(state, group, source, number)


def unserved(state: Known, group: str, source: str, number: int) -> list[str]:
    """Why what is wanted on an interface is another router's to send: an assert that was lost, or for hosts the DR."""
    found = [f"it lost the assert of ({row.source}, {group}) to {row.winner}"
        for row in lost(state, group, source, number)]
    for wanted in dict.fromkeys((source, ANY)):
        facts = state.facts(group, wanted)
        if number in facts.local_receiver_include - facts.pim_include and not asked.is_dr(state, number):
            return [*found, f"it isn't the DR, which is {asked.dr_of(state, number)}"]
    return found


def lost(state: Known, group: str, source: str, number: int) -> list[printed.AssertState]:
    """The asserts that the router lost on an interface which isn't where it expects the packets."""
    sources = {each for each in (source, ANY) if number in asked.lost(state, group, each)}
    rows = state.of(printed.AssertState, iface=number, group=group, role="loser")
    return [row for row in rows if row.source in sources]


def reasons(state: Known, group: str, source: str) -> Iterator[tuple[int, bool, list[str], list[str]]]:
    """Each interface that somebody wants the packets on: its number, whether it is in the list, the causes and the
    obstacles.
    """
    there = asked.outgoing(state, group, source) - {asked.upstream_interface(state, group, source)}
    for interface in state.interfaces_up():
        why = causes(state, group, source, interface.number)
        if why:
            yield interface.number, interface.number in there, why, obstacles(state, group, source, interface.number)


# ---- Joins


def is_root(state: Known, group: str, source: str) -> bool:
    """Whether a tree begins at the router, which then joins it nowhere: it is the RP, or the source is on a link of
    it.
    """
    facts = state.facts(group, source)
    is_here = source != ANY and facts.path is not None and facts.path.is_connected
    return facts.rpf_cause == "own" or is_here


def why_no_join(state: Known, group: str, source: str) -> str:
    """Why the Join of a tree reaches nobody; "" where it does, or the tree begins here."""
    facts, root = state.facts(group, source), asked.root_of(state, group, source)
    what = "the group's RP" if source == ANY else "the source"
    if facts.rpf_cause == "no rp":
        return "no RP range has the group"
    if is_root(state, group, source) or facts.rpf_neighbour is not None:
        return ""
    if facts.rpf_cause == "no route":
        return no_route(state, what, root)
    where = f"{facts.path.next_hop} on interface {facts.path.iface}, towards {what} {root}"
    return f"{where}, is no neighbour: no Hello of it is there"


def no_route(state: Known, what: str, root: str) -> str:
    found = longest([(route.prefix, route) for route in state.routes], ip_address(root))
    if found is None:
        return f"it has no route to {what} {root}"
    return f"its interface {found.iface}, which leads to {what} {root}, is down"
