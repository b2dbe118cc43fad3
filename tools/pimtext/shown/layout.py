"""Where the routers, links and hosts of a network stand in a picture, by Graphviz, or in plain ranks without it."""
from __future__ import annotations

import re
import shutil
import subprocess
from collections.abc import Collection, Iterable, Iterator, Mapping, Sequence
from typing import TYPE_CHECKING

from viqeshor.lab.places import edges, in_ranks, ranks

if TYPE_CHECKING:
    from viqeshor.lab.places import Node

# Up to so many routers stand in ranks from the sources on; more are laid out by their distances.
MOST_IN_RANKS = 9
SIZES = {"r": (1.3, 0.58), "l": (1.17, 0.45), "h": (1.28, 0.36)}
# Around the middles of the outermost nodes, to the sides and above and below.
MARGIN = 96, 70


def quoted(node: Node) -> str:
    return '"' + " ".join(node).replace("\\", "\\\\").replace('"', '\\"') + '"'


def graph(
    nodes: Sequence[Node], pairs: Iterable[tuple[Node, ...]], far: dict[Node, int], is_ranked: bool
) -> Iterator[str]:
    """The text for Graphviz."""
    yield "graph {"
    if is_ranked:
        yield "rankdir=LR; nodesep=0.9; ranksep=1.5"
    else:
        yield 'overlap=prism; overlap_scaling=0; sep="+10"; splines=false; start=7; mode=major; model=shortpath'
    for node in nodes:
        width, height = SIZES[node[0]]
        yield f"{quoted(node)} [shape=box fixedsize=true width={width} height={height}]"
    for pair in pairs:
        one, other = sorted(pair, key=lambda node: far.get(node, 99))
        length = 0.5 if "h" in (one[0], other[0]) else 0.8
        yield f"{quoted(one)} -- {quoted(other)} [len={length}]"
    yield "}"


def laid_out(
    nodes: Sequence[Node], pairs: Iterable[tuple[Node, ...]], far: dict[Node, int], is_ranked: bool
) -> dict[Node, tuple[float, float]]:
    program = "dot" if is_ranked else "neato"
    if shutil.which(program) is None:
        return in_ranks(nodes, list(pairs), far)
    text = "\n".join(graph(nodes, pairs, far, is_ranked))
    plain = subprocess.run([program, "-Tplain"], input=text, capture_output=True, text=True, check=True).stdout
    rows = re.findall(r'^node (?:"((?:[^"\\]|\\.)*)"|(\S+)) (\S+) (\S+)', plain, re.M)
    named = {quoted(node)[1:-1]: node for node in nodes}
    scale = (72, -92) if is_ranked else (92, -72)
    return {named[name or bare]: (scale[0] * float(x), scale[1] * float(y)) for name, bare, x, y in rows}


def stretched(found: dict[Node, tuple[float, float]], ratio: float) -> dict[Node, tuple[float, float]]:
    """The places with more room between them from above to below, up to a ratio of width to height."""
    wide, high = (max(each) - min(each) for each in zip(*found.values()))
    more = min(2.4, max(1.0, wide / ratio / high)) if high else 1.0
    return {node: (x, more * y) for node, (x, y) in found.items()}


def places(
    routers: Collection[str],
    kinds_of: dict[str, str],
    ports: Mapping[str, list[str]],
    hosts: Mapping[str, list[str]],
    roots: Iterable[str],
    ratio: float,
) -> tuple[dict[str, list[float]], list[float]]:
    """The place of each node by its kind and name, and the box that has all of them, about as much wider than high as
    `ratio` says."""
    pairs = [(one, other) for one, other, _ in edges(kinds_of, ports, hosts)]
    nodes = list(dict.fromkeys([("r", name) for name in routers] + [node for pair in pairs for node in pair]))
    roots = [("h", host) for host in roots if ("h", host) in nodes] or nodes[:1]
    found = stretched(laid_out(nodes, pairs, ranks(pairs, roots), len(routers) <= MOST_IN_RANKS), ratio)
    xs, ys = [x for x, _ in found.values()] or [0], [y for _, y in found.values()] or [0]
    wide, high = MARGIN
    box = [min(xs) - wide, min(ys) - high, max(xs) - min(xs) + 2 * wide, max(ys) - min(ys) + 2 * high]
    return {" ".join(node): [round(x, 1), round(y, 1)] for node,
            (x, y) in found.items()}, [round(each, 1) for each in box]
