"""A network and its trees as SVG, for notebooks: boxes are routers, ellipses links of several, rounded boxes hosts; an
arrow is a tree, a dashed one that of an RP. A network has the same places in each picture."""
from __future__ import annotations

from collections.abc import Iterator, Sequence
from html import escape
from typing import TYPE_CHECKING

from viqeshor.lab.colours import colours
from viqeshor.lab.places import edges, in_ranks, kinds, ranks
from viqeshor.lab.printed import ANY
from viqeshor.lab.words import seconds

if TYPE_CHECKING:
    from viqeshor.lab.network import Network
    from viqeshor.lab.places import Node
    from viqeshor.lab.topology import Link
    from viqeshor.lab.tree import Tree

# Half the width and half the height of a node, and how much is left around all.
HALF, MARGIN, LEGEND = (56, 19), 24, 20
# Between arrows side by side.
APART = 7
STYLE = ("text{font:12px sans-serif;text-anchor:middle;fill:#222}.small{font-size:9px;fill:#777}"
         ".box{fill:#f2f2f2;stroke:#444;stroke-width:1.4}.end{fill:#fff;stroke:#888}"
         ".line{stroke:#bbb;stroke-width:1.2}.arrow{stroke-width:2.4}.off{stroke:#c0392b;stroke-dasharray:4 3}")
Point = tuple[float, float]


class Picture:
    """What is drawn of a network: its nodes with their places, and its lines."""

    def __init__(self, net: Network) -> None:
        self.net, self.known = net, net.known() if net.player else {}
        ports = {name: [port.router.name for port in link.ports] for name, link in net.links.items()}
        hosts = {name: [host.name for host in link.hosts] for name, link in net.links.items()}
        self.kinds = kinds(net.links, ports, hosts)
        self.edges = list(edges(self.kinds, ports, hosts))
        pairs = [(one, other) for one, other, _ in self.edges]
        nodes = dict.fromkeys([("r", name) for name in net.routers] + [node for pair in pairs for node in pair])
        root = next((node for node in nodes if node[0] == "h"), next(iter(nodes), None))
        self.places = in_ranks(list(nodes), pairs, ranks(pairs, [root] if root else []))

    # ---- trees

    def sends(self, tree: Tree, node: Node, link: Link) -> bool:
        """Whether a node sends a tree's packets on a link."""
        if node[0] == "r":
            return link.name in tree.outgoing.get(node[1], ())
        if node[0] == "l":
            return any(link.name in there for there in tree.outgoing.values()) or self.has_source(tree, link)
        return self.net.hosts[node[1]].address == tree.source and link.name in tree.incoming.values()

    def has_source(self, tree: Tree, link: Link) -> bool:
        return any(self.sends(tree, ("h", host.name), link) for host in link.hosts)

    def expects(self, tree: Tree, node: Node, link: Link) -> bool:
        """Whether a node expects a tree's packets on a link."""
        if node[0] == "r":
            return node[1] in tree.incoming and tree.incoming[node[1]] == link.name
        if node[0] == "l":
            return True
        wish = self.net.hosts[node[1]].wish(tree.group)
        return wish.is_exclude or bool(wish.sources) if tree.source == ANY else wish.has(tree.source)

    def carries(self, tree: Tree, tail: Node, head: Node, link: Link) -> bool:
        """Whether a tree goes from one node to another: a router is shown what it is sent, and what it waits for."""
        if "l" in (tail[0], head[0]):
            return self.sends(tree, tail, link) and self.expects(tree, head, link)
        if head[0] == "r" and tail[0] == "r":
            return self.sends(tree, tail, link) or self.expects(tree, head, link)
        return self.sends(tree, tail, link) and (head[0] == "r" or self.expects(tree, head, link))

    # ---- lines

    def line(self, one: Node, other: Node, name: str, trees: Sequence[Tree], shades: dict) -> Iterator[str]:
        """A line between two nodes, with an arrow for each tree on it."""
        link, ends = self.net.links[name], (self.places[one], self.places[other])
        arrows = [(tree, *pair) for tree in trees for pair in ((one, other), (other, one))
                  if self.carries(tree, *pair, link)]
        if not arrows:
            off = "" if self.is_up(one, other, link) else " off"
            yield f'<line class="line{off}" {between(*ends, 0, is_short=False)}/>'
        for at, (tree, tail, head) in enumerate(arrows):
            shift = APART * (at - (len(arrows) - 1) / 2) * (1 if tail == one else -1)
            shade = shades[tree.group, tree.source]
            dash = ' stroke-dasharray="6 4"' if tree.source == ANY else ""
            yield (f'<line class="arrow" stroke="{shade}"{dash} marker-end="url(#{marker(shade)})" '
                   f'{between(self.places[tail], self.places[head], shift)}/>')
        if self.kinds[name] == "pair":
            x, y = (sum(pair) / 2 for pair in zip(*ends))
            yield f'<text class="small" x="{x:g}" y="{y - 10:g}">{escape(name)}</text>'

    @staticmethod
    def is_up(one: Node, other: Node, link: Link) -> bool:
        names = [node[1] for node in (one, other) if node[0] == "r"]
        return all(port.is_up() for port in link.ports if port.router.name in names)

    # ---- nodes

    def node(self, node: Node) -> Iterator[str]:
        """A node, with its name, and what is below it."""
        (kind, name), (x, y), (wide, high) = node, self.places[node], HALF
        if kind == "l":
            below, shape = str(self.net.links[name].subnet), f'<ellipse class="end" rx="{wide}" ry="{high}"'
            yield f'{shape} cx="{x:g}" cy="{y:g}"/>'
        else:
            below = self.told(name) if kind == "r" else self.net.hosts[name].address
            off = " off" * (kind == "r" and not self.net.routers[name].is_up)
            look = f'class="box{off}"' if kind == "r" else f'class="end" rx="{high}"'
            yield f'<rect {look} x="{x - wide:g}" y="{y - high:g}" width="{2 * wide}" height="{2 * high}"/>'
        yield f'<text x="{x:g}" y="{y:g}">{escape(name)}</text>'
        if below not in ("", name):
            yield f'<text class="small" x="{x:g}" y="{y + 12:g}">{escape(below)}</text>'

    def told(self, name: str) -> str:
        """Of which groups a router is the RP."""
        state = self.known.get(name)
        return ", ".join(f"RP of {groups}" for groups in (state.own_ranges() if state else ()))

    # ---- the whole

    def svg(self, trees: Sequence[Tree]) -> str:
        """The picture with these trees."""
        shades = colours((tree.group, tree.source) for tree in trees)
        xs, ys = zip(*self.places.values()) if self.places else ((0,), (0,))
        left, top = min(xs) - HALF[0] - MARGIN, min(ys) - HALF[1] - MARGIN
        wide = max(max(xs) + HALF[0] + MARGIN - left, 260)
        foot = max(ys) + HALF[1] + MARGIN
        high = foot - top + LEGEND * (len(trees) + 1)
        parts = [f'<svg xmlns="http://www.w3.org/2000/svg" viewBox="{left:g} {top:g} {wide:g} {high:g}" '
                 f'width="{wide:g}" height="{high:g}"><style>{STYLE}</style>']
        parts += map(arrowhead, sorted(set(shades.values())))
        for one, other, name in self.edges:
            parts += self.line(one, other, name, trees, shades)
        for node in self.places:
            parts += self.node(node)
        parts += self.legend(trees, shades, left + wide / 2, foot)
        return "\n".join([*parts, "</svg>"])

    def legend(self, trees: Sequence[Tree], shades: dict, x: float, y: float) -> Iterator[str]:
        moment = max((tree.moment for tree in trees), default=self.net.now)
        yield f'<text x="{x:g}" y="{y:g}">at {seconds(moment)}</text>'
        for at, tree in enumerate(trees, 1):
            about = "" if tree else ": nobody has joined it"
            yield (f'<text x="{x:g}" y="{y + LEGEND * at:g}" style="fill:{shades[tree.group, tree.source]}">'
                   f'{escape(tree.name() + about)}</text>')


def marker(shade: str) -> str:
    return f"head-{shade.removeprefix('#')}"


def arrowhead(shade: str) -> str:
    return (f'<marker id="{marker(shade)}" viewBox="0 0 8 8" refX="7" refY="4" markerWidth="4.5" markerHeight="4.5" '
            f'orient="auto"><path d="M0 0L8 4L0 8z" fill="{shade}"/></marker>')


def between(tail: Point, head: Point, shift: float, is_short: bool = True) -> str:
    """A line from one node to another, so far to its side; a short one begins and ends at their edges."""
    across, down = head[0] - tail[0], head[1] - tail[1]
    length = max((across * across + down * down) ** 0.5, 1)
    aside = -down / length * shift, across / length * shift
    part = min((half / abs(way) for half, way in zip(HALF, (across, down)) if way), default=0) if is_short else 0
    (x1, y1), (x2, y2) = ((at[0] + sign * part * across + aside[0], at[1] + sign * part * down + aside[1])
                          for at, sign in ((tail, 1), (head, -1)))
    return f'x1="{x1:.1f}" y1="{y1:.1f}" x2="{x2:.1f}" y2="{y2:.1f}"'


def svg(net: Network, trees: Sequence[Tree]) -> str:
    """The picture of a network with some of its trees, as they stood when they were asked."""
    return Picture(net).svg(trees)
