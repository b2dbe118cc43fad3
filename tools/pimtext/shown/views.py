"""What a router knows as `show ip mroute` and its like have it: plain lists and tables, ready for JSON.

Moments are ms; an end is None where none runs, and "never" where it doesn't come.
"""
from __future__ import annotations

from typing import TYPE_CHECKING, Any, TypeVar

from pimtext.ways import reasons
from pimtext.ways.namings import namings_of
from viqeshor.lab import asked, printed
from viqeshor.lab.addresses import ip_address, is_source_specific
from viqeshor.lab.printed import ANY

if TYPE_CHECKING:
    from ipaddress import IPv4Network
    from pimtext.ways.namings import Naming
    from viqeshor.lab.known import Known
    from viqeshor.lab.rps import Candidate
    from viqeshor.lab.scenario import Interface

    R = TypeVar("R")


def end(moment: float | None) -> float | str | None:
    return "never" if moment == printed.NEVER else moment


def place(state: Known, number: int | None) -> dict[str, Any] | None:
    """An interface; None for none."""
    return None if number is None else {"interface": number, "link": state.link(number)}


# ---- show ip mroute


def keys(state: Known) -> list[tuple[str, str]]:
    """The groups and sources that the router has facts of, group by group with (*,G) first."""
    rows = [row for row in state.rows if isinstance(row, KEYED) and row.group]
    found = {(row.group, ANY if isinstance(row, printed.GroupRecord) else row.source) for row in rows if is_shown(row)}
    found |= {(row.group, ANY) for row in state.of(printed.SharedTree)}
    return sorted(found,
        key=lambda key: (ip_address(key[0]), key[1] != ANY, ip_address(key[1]) if key[1] != ANY else 0))


KEYED = (
    printed.GroupRecord, printed.SourceRecord, printed.Downstream, printed.AssertState, printed.Upstream,
        printed.Active,
)


def is_shown(row: printed.Row) -> bool:
    """A group that hosts want of some sources alone has no (*,G), nor has a source that they exclude its own."""
    if isinstance(row, printed.GroupRecord):
        return row.mode == "exclude"
    return not isinstance(row, printed.SourceRecord) or row.end is not None


def mroute(state: Known, group: str, source: str) -> dict[str, Any]:
    leaves, kept = [], []
    for number, is_there, why, against in reasons.reasons(state, group, source):
        told = {**place(state, number), "why": why}
        if is_there:
            leaves.append(told)
        else:
            kept.append({**told, "kept_off": against or ["it is where they come from"]})
    tunnel = source != ANY and state.source_tree(group, source).has_tunnel
    number = incoming(state, group, source)
    return {
        "source": source, "group": group, "flags": flags(state, group, source, bool(leaves) or tunnel),
        "by": "source tree" if is_by_source(state, group, source) else "shared tree", "is_rp": is_rp(state, group),
        "incoming": place(state, number), "rpf_neighbour": None if number is None else neighbour(state, group, source),
        "registers": tunnel, "outgoing": leaves, "kept_off": kept,
    }


def is_rp(state: Known, group: str) -> bool:
    return state.router.has(asked.rp_of(state, group))


def is_by_source(state: Known, group: str, source: str) -> bool:
    """Whether a source's packets are taken from its own tree: always where there is no other, else with the SPTbit."""
    if source == ANY:
        return False
    is_alone = is_source_specific(group) or asked.is_connected(state, source)
    return is_alone or state.source_tree(group, source).spt_bit


def tree_of(state: Known, group: str, source: str) -> tuple[str, str]:
    """The tree from which the packets of a group, or of a source of it, are taken."""
    return group, source if is_by_source(state, group, source) else ANY


def incoming(state: Known, group: str, source: str) -> int | None:
    """Where packets are taken from; None where they come in Registers, or from nowhere."""
    return asked.upstream_interface(state, *tree_of(state, group, source))


def neighbour(state: Known, group: str, source: str) -> str | None:
    hop = asked.upstream_neighbour(state, *tree_of(state, group, source))
    return hop and hop.address


def flags(state: Known, group: str, source: str, is_sent: bool) -> str:
    """The letters of FRR: sparse, connected hosts, pruned, pruned off the shared tree, registering, SPTbit."""
    own = None if source == ANY else state.source_tree(group, source)
    hosts = state.tree(group).pim_include | (own.pim_include if own else frozenset())
    told = (True, hosts, not is_sent, own and own.rpt_state == "pruned", own and own.has_tunnel, own and own.spt_bit)
    return "".join(letter for letter, holds in zip("SCPRFT", told) if holds)


# ---- show ip pim upstream


def upstream(state: Known, group: str, source: str) -> dict[str, Any]:
    facts = state.facts(group, source)
    path, hop = facts.path, facts.rpf_neighbour
    tables = (printed.Upstream, printed.Active, printed.SharedTree)
    joined, active, rpt = (row_of(state, table, group, source) for table in tables)
    return {
        "source": source, "group": group, "rpf": place(state, path and path.iface), "next_hop": path and path.next_hop,
        "rpf_neighbour": hop and hop.address, "by_assert": facts.rpf_cause == "winner", "joined": bool(joined),
        "sends_joins": bool(joined and hop), "next_join": end(joined.end) if joined and hop else None,
        "why_none": why_none(state, group, source, joined), "kept_alive_until": active and end(active.end),
        "rpt": rpt and rpt.state,
    }


def row_of(state: Known, table: type[R], group: str, source: str) -> R | None:
    return next(iter(state.of(table, group=group, source=source)), None)


def why_none(state: Known, group: str, source: str, joined: printed.Upstream | None) -> str | None:
    """Why no Join leaves; None where one does."""
    if not joined:
        return "nobody wants it of this router"
    if reasons.is_root(state, group, source):
        return "the tree begins here"
    return reasons.why_no_join(state, group, source) or None


# ---- show ip pim neighbor, show ip pim interface, show ip igmp groups


def interface(state: Known, each: Interface) -> dict[str, Any]:
    port, is_up = state.port(each.number), state.is_up(each.number)
    told = {**place(state, each.number), "address": str(each.own), "is_up": is_up, "priority": each.priority}
    if not is_up:
        return told
    querier = asked.querier_of(state, each.number)
    return {
        **told, "dr": port.dr, "is_dr": port.is_dr, "querier": querier or each.address, "is_querier": querier is None,
        "querier_until": port.querier.end if querier else None,
    }


def pim_neighbour(state: Known, row: printed.Neighbour) -> dict[str, Any]:
    said = state.neighbour(row.iface, row.address)
    delays = said.lan_delay
    return {
        **place(state, row.iface), "address": row.address, "until": end(row.end),
        "is_dr": asked.dr_of(state, row.iface) == row.address, "priority": said.priority,
        "generation": said.generation, "propagation": delays and delays.propagation_delay,
        "override": delays and delays.override_interval,
    }


def igmp_group(state: Known, row: printed.GroupRecord) -> dict[str, Any]:
    sources = [
        {"source": each.source, "until": end(each.end), "is_excluded": each.end is None}
        for each in state.of(printed.SourceRecord, iface=row.iface, group=row.group)
    ]
    wanted = wanted_of(row, sources)
    return {
        **place(state, row.iface), "group": row.group, "mode": row.mode, "until": end(row.end), "sources": sources,
        "querier": asked.querier_of(state, row.iface) or state.router.interfaces[row.iface].address,
        "is_served": any(row.iface in state.facts(row.group, source).pim_include for source in wanted),
    }


def wanted_of(row: printed.GroupRecord, sources: list[dict[str, Any]]) -> list[str]:
    """The sources that a record asks for: every one, or those named."""
    return [ANY] if row.mode == "exclude" else [each["source"] for each in sources]


# ---- show ip pim rp-info


def rps(state: Known) -> list[dict[str, Any]]:
    """The RP ranges and then the candidate RPs, each with the groups that have their RP by it."""
    groups = sorted({group for group, _ in keys(state)}, key=ip_address)
    first = [(group, found[0]) for group in groups if (found := namings_of(state, group))]
    by_range = [rp_named(state, prefix, rp, None, first) for prefix, rp in state.rps]
    return by_range + [rp_named(state, each.prefix, each.rp, each, first) for each in state.candidates]


def named_by(state: Known, prefix: IPv4Network, rp: str) -> str:
    """Whether an RP range is of Bootstraps."""
    learned = ((it.groups, it.rp) for it in state.learned() if it.is_given)
    return "bootstrap" if (str(prefix), rp) in learned else "range"


def rp_named(
    state: Known, prefix: IPv4Network, rp: str, candidate: Candidate | None, first: list[tuple[str, Naming]]
) -> dict[str, Any]:
    """`first` has what names the RP of each group."""
    used = [group for group, it in first if (it.prefix, it.rp, it.candidate) == (prefix, rp, candidate)]
    towards = place(state, asked.rpf_interface(state, rp))
    return {
        "range": str(prefix), "rp": rp, "named_by": "candidate" if candidate else named_by(state, prefix, rp),
        "priority": candidate and candidate.priority, "hash_length": candidate and candidate.hash_length,
        "is_own": state.router.has(rp), "rpf": towards, "groups": used,
    }


# ---- all


def router(state: Known) -> dict[str, Any]:
    here = keys(state)
    return {
        "router": state.router.name, "moment": state.moment,
        "interfaces": [interface(state, each) for each in state.router.interfaces],
        "mroute": [mroute(state, *key) for key in here],
        "upstream": [upstream(state, *key) for key in here],
        "neighbours": [pim_neighbour(state, row) for row in state.of(printed.Neighbour)],
        "groups": [igmp_group(state, row) for row in state.of(printed.GroupRecord)],
        "rps": rps(state),
    }
