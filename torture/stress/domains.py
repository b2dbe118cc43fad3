"""Networks of routers for torture/run elections: links, addresses, and the shortest ways."""
from __future__ import annotations

import random
from dataclasses import dataclass


@dataclass(frozen=True)
class Plan:
    """Which routers are on each link, in order; the links' numbers are parts of their addresses. Of each router, for
    how many RPs it has room, and for what it chooses one."""
    links: tuple[tuple[int, ...], ...]
    routers: int
    limit: int = 256
    choice: str = "range"

    def interfaces(self, router: int) -> list[tuple[str, int]]:
        return [(self.address(link, router), 24) for link in self.links_of(router)]

    def links_of(self, router: int) -> list[int]:
        return [number for number, link in enumerate(self.links) if router in link]

    def address(self, link: int, router: int) -> str:
        return f"10.{link}.0.{router + 1}"

    def loopback(self, router: int) -> str:
        return f"10.200.0.{router + 1}"

    def routes(self, router: int) -> list[tuple[str, str, int]]:
        """The shortest ways to the other routers' addresses, and to links."""
        found, waiting, ways = {router}, [router], {}
        for at in waiting:
            for link, other in ((link, other) for link in self.links_of(at) for other in self.links[link]):
                if other not in found:
                    found.add(other)
                    waiting.append(other)
                    own = self.links_of(router)
                    ways[other] = ways.get(at) or (self.address(link, other), own.index(link))
        routes = [(f"{self.loopback(other)}/32", *way) for other, way in ways.items()]
        near = set(self.links_of(router))
        for link in set(range(len(self.links))) - near:
            way = next(ways[other] for other in waiting if other in ways and link in self.links_of(other))
            routes.append((f"10.{link}.0.0/24", *way))
        return sorted(routes)


def planned(draws: random.Random) -> Plan:
    """A tree of links, and sometimes one more."""
    routers = draws.choice((2, 2, 3, 3, 4, 5))
    links, left = [], list(range(1, routers))
    joined = [0]
    while left:
        taken = [left.pop() for _ in range(min(len(left), draws.choice((1, 1, 2))))]
        links.append((draws.choice(joined), *taken))
        joined += taken
    if routers > 2 and draws.random() < 0.4:
        links.append(tuple(draws.sample(range(routers), 2)))
    return Plan(tuple(links), routers, draws.choice((256, 256, 256, 256, 3)), draws.choice(("range", "group")))
