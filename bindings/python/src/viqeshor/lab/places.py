"""What the links of a network are in a picture, and where its nodes stand: in ranks from some of them on."""
from __future__ import annotations

from collections import defaultdict
from collections.abc import Iterable, Iterator, Mapping, Sequence
from typing import TYPE_CHECKING, TypeAlias

if TYPE_CHECKING:
    # The letter of a kind, and a name: "r" for a router, "l" for a link, "h" for a host.
    Node: TypeAlias = tuple[str, str]

# How far apart ranks are, and the nodes in one.
APART = 170, 92
# How often the order in the ranks is mended.
SWEEPS = 8


def kinds(links: Iterable[str], ports: Mapping[str, list[str]], hosts: Mapping[str, list[str]]) -> dict[str, str]:
    """What each link is in a picture: a node of its own ("lan"), a line between two routers ("pair"), a line from a
    router to each host ("stub"), or nothing. `ports` are the routers on each link, `hosts` the hosts there."""
    found = {}
    for link in links:
        routers, here = len(ports[link]), hosts[link]
        if routers == 2 and not here and len(set(ports[link])) == 2:
            found[link] = "pair"
        elif routers == 1 or not (routers or here):
            found[link] = "stub" if here else "none"
        else:
            found[link] = "lan"
    return found


def edges(
    kinds_of: dict[str, str], ports: Mapping[str, list[str]], hosts: Mapping[str, list[str]]
) -> Iterator[tuple[Node, Node, str]]:
    """The lines of a picture: the nodes at both ends, and the link."""
    for link, kind in kinds_of.items():
        routers = [("r", name) for name in ports[link]]
        ends = [("h", host) for host in hosts[link]]
        if kind == "pair":
            yield *routers, link
        elif kind == "stub":
            yield from ((routers[0], end, link) for end in ends)
        elif kind == "lan":
            yield from ((node, ("l", link), link) for node in routers + ends)


def neighbours(pairs: Iterable[tuple[Node, Node]]) -> dict[Node, list[Node]]:
    near = defaultdict(list)
    for one, other in pairs:
        near[one].append(other)
        near[other].append(one)
    return near


def ranks(pairs: Iterable[tuple[Node, Node]], roots: Sequence[Node]) -> dict[Node, int]:
    """How far each node is from the roots."""
    near = neighbours(pairs)
    far, waiting = {root: 0 for root in roots}, list(roots)
    for node in waiting:  # grows as it goes
        fresh = [each for each in near[node] if each not in far]
        far.update((each, far[node] + 1) for each in fresh)
        waiting += fresh
    return far


def in_ranks(
    nodes: Sequence[Node], pairs: Sequence[tuple[Node, Node]], far: Mapping[Node, int]
) -> dict[Node, tuple[float, float]]:
    """The places of nodes by their ranks: in each they stand so that their lines cross few others."""
    near, rows = neighbours(pairs), defaultdict(list)
    for node in nodes:
        rows[far.get(node, 0)].append(node)
    order = {node: at - (len(row) - 1) / 2 for row in rows.values() for at, node in enumerate(row)}
    for sweep in range(SWEEPS):
        for rank in sorted(rows, reverse=sweep % 2 == 1):
            mend(rows[rank], order, {node: near[node] for node in rows[rank]})
    across, down = APART
    return {node: (across * far.get(node, 0), down * order[node]) for node in nodes}


def mend(row: list[Node], order: dict[Node, float], near: Mapping[Node, list[Node]]) -> None:
    """Puts the nodes of a rank in the order of the middles of their neighbours elsewhere."""
    def middle(node: Node) -> float:
        others = [order[each] for each in near[node] if each not in row]
        return sum(others) / len(others) if others else order[node]
    row.sort(key=middle)
    order.update((node, at - (len(row) - 1) / 2) for at, node in enumerate(row))
