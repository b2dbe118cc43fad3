"""What routers are asked about groups, sources and interfaces, as people need it: where packets come from, where they
go, and who serves a link.

A source is ANY for (*,G). A set of interfaces is a set of their numbers; the register tunnel is in none.
"""
from __future__ import annotations

from collections.abc import Iterator
from dataclasses import dataclass
from typing import TYPE_CHECKING

from viqeshor.lab import printed
from viqeshor.lab.printed import ANY

if TYPE_CHECKING:
    from viqeshor.lab.known import Known
    from viqeshor.trees import Hop, Path

# A group with which routes are asked for: they are the same for each.
SOME_GROUP = "224.0.0.0"


@dataclass(frozen=True)
class Branch:
    """A tree at a router: the interface on which it expects packets, None where they are its own, and those it sends
    them on.
    """
    group: str
    source: str
    incoming: int | None
    outgoing: frozenset[int]


# ---- where packets come from


def rp_of(state: Known, group: str) -> str | None:
    """The RP of a group, None where it has none."""
    return state.tree(group).rp


def route(state: Known, address: str | None) -> Path | None:
    """The route to an address: none to an own one, nor over an interface that is down."""
    return None if address is None else state.source_tree(SOME_GROUP, address).path


def rpf_interface(state: Known, address: str | None) -> int | None:
    """The interface towards an address; None for no address, an own one, and one without a route."""
    path = route(state, address)
    return None if path is None else path.iface


def is_connected(state: Known, source: str) -> bool:
    path = route(state, source)
    return path is not None and path.is_connected


def root_of(state: Known, group: str, source: str) -> str | None:
    """Where a tree has its root: the RP, or the source."""
    return rp_of(state, group) if source == ANY else source


def upstream_interface(state: Known, group: str, source: str) -> int | None:
    path = state.facts(group, source).path
    return None if path is None else path.iface


def upstream_neighbour(state: Known, group: str, source: str) -> Hop | None:
    """RPF' of a tree."""
    return state.facts(group, source).rpf_neighbour


# ---- who serves a link


def dr_of(state: Known, number: int) -> str:
    """The address of an interface's DR."""
    return state.port(number).dr


def is_dr(state: Known, number: int) -> bool:
    port = state.port(number)
    return port is not None and port.is_dr


def querier_of(state: Known, number: int) -> str | None:
    """The address of an interface's querier, None where that is the router itself."""
    port = state.port(number)
    return state.queriers.get(number) if port is not None and port.querier.role == "other" else None


def lost(state: Known, group: str, source: str) -> frozenset[int]:
    """The interfaces on which an assert of a tree was lost: lost_assert(*,G), or lost_assert(S,G) and
    lost_assert(S,G,rpt)."""
    facts = state.facts(group, source)
    return facts.lost_assert if source == ANY else facts.lost_assert | facts.lost_assert_rpt


# ---- where packets go


def outgoing(state: Known, group: str, source: str) -> frozenset[int]:
    """immediate_olist(*,G), or inherited_olist(S,G)"""
    facts = state.facts(group, source)
    return facts.immediate_olist if source == ANY else facts.inherited_olist


def branches(state: Known) -> Iterator[Branch]:
    """A branch for each tree that the router has joined."""
    for row in state.of(printed.Upstream):
        incoming = upstream_interface(state, row.group, row.source)
        there = outgoing(state, row.group, row.source)
        yield Branch(row.group, row.source, incoming, there - {incoming})
