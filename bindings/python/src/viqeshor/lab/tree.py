"""A tree as the routers have it."""
from __future__ import annotations

from dataclasses import dataclass, field
from typing import TYPE_CHECKING

from viqeshor.lab import asked
from viqeshor.lab.picture import svg
from viqeshor.lab.printed import ANY
from viqeshor.lab.words import tree as tree_name

if TYPE_CHECKING:
    from viqeshor.lab.hosts import Host
    from viqeshor.lab.known import Known
    from viqeshor.lab.network import Network


@dataclass(frozen=True, repr=False)
class Tree:
    """By router: the name of the link on which it expects the packets, None where it is the root, and those it sends
    them on.
    """
    group: str
    source: str
    incoming: dict[str, str | None]
    outgoing: dict[str, set[str]]
    net: Network = field(compare=False)
    moment: int = field(compare=False)

    def __bool__(self) -> bool:
        return bool(self.incoming)

    def routers(self) -> set[str]:
        """The names of the routers that have joined it."""
        return set(self.incoming)

    def links(self) -> set[str]:
        """The names of the links on which its packets are sent."""
        return set().union(*self.outgoing.values())

    def path(self, host: Host) -> list[str]:
        """The names of the routers from the root to a host; empty where the tree doesn't reach it."""
        found, link = [], host.link.name
        while router := next((name for name, links in self.outgoing.items() if link in links and name not in found),
            None):
            found.insert(0, router)
            link = self.incoming[router]
        return found

    def _repr_svg_(self) -> str:
        """Its picture in a notebook."""
        return svg(self.net, [self])

    def name(self) -> str:
        """As people write it: (*, G) or (S, G)."""
        return tree_name(self.group, self.source)

    def __repr__(self) -> str:
        rows = [
            f"  {name}: from {self.incoming[name] or 'itself'} to {', '.join(sorted(self.outgoing[name])) or 'none'}"
            for name in self.incoming
        ]
        return "\n".join([self.name(), *(rows or ["  nobody has joined it"])])


def tree_of(net: Network, known: dict[str, Known], group: str, source: str = ANY) -> Tree:
    """The tree of a network by what its routers know."""
    incoming, outgoing = {}, {}
    for name, state in known.items():
        for branch in asked.branches(state):
            if (branch.group, branch.source) == (group, source):
                interfaces = state.router.interfaces
                incoming[name] = None if branch.incoming is None else interfaces[branch.incoming].link
                outgoing[name] = {interfaces[number].link for number in branch.outgoing}
    return Tree(group, source, incoming, outgoing, net, net.now)
