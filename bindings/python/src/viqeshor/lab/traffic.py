"""What is due: what hosts do, and packets on their way between routers, where no settle delivers them.

Whether a packet is lost, how long it takes and whether it is overtaken follows from a seed, its number and its
receiver.
"""
from __future__ import annotations

import heapq
import math
import random
from collections.abc import Sequence
from dataclasses import dataclass, field
from typing import TYPE_CHECKING, Any

from viqeshor.lab import story
from viqeshor.lab.playing import Action, Batch
from viqeshor.lab.topology import ways

if TYPE_CHECKING:
    from viqeshor.lab.network import Network
    from viqeshor.lab.topology import Link, Router
    from viqeshor.lab.scenario import Scenario

# What is due at one moment goes in this order.
START, HOSTS, DELIVERIES, OVERTAKEN = range(4)


@dataclass
class Chances:
    """What packets suffer: `delay` in ms, from least to most on each link."""
    seed: int
    delay: tuple
    reorder: float

    def of(self, *words: object) -> random.Random:
        return random.Random(f"{self.seed} {' '.join(map(str, words))}")


def delivery(number: int, router: Router, iface: int | None, draw: int) -> dict[str, Any]:
    """The move that brings a packet to a router, as a unicast where there is no interface."""
    if iface is None:
        return {"do": "carry", "router": router.name, "frame": number, "draw": draw}
    return {"do": "deliver", "router": router.name, "iface": iface, "frame": number, "draw": draw}


@dataclass
class Traffic:
    """`dues` is a queue of moments, orders and actions: at one moment the lower order comes first, and no two have the
    same. `read` is the scenario without its moves. `latest` is when the last packet of each way comes, which the next
    ones don't overtake."""
    net: Network
    read: Scenario | None
    chances: Chances
    dues: list = field(default_factory=list)
    latest: dict = field(default_factory=dict)

    # ---- what is due

    def schedule(self, action: Action, moment: int, order: tuple[Any, ...]) -> None:
        heapq.heappush(self.dues, (moment, order, action))

    def coming(self, stepped: int, step: int, end: int) -> Batch | None:
        """Takes the next batch up to the end, None where there is none; the last step of time is the end."""
        tick = min(stepped + step, end) if stepped < end else math.inf
        moment = min(tick, self.dues[0][0] if self.dues else math.inf)
        if moment > end:
            return None
        here = []
        while self.dues and self.dues[0][0] == moment:
            here.append(heapq.heappop(self.dues)[2])
        return Batch(moment, here, moment == tick)

    # ---- packets on their way

    def leave(self, sent: story.Sent, moment: int) -> None:
        """A router sent a packet: it is to be delivered, unless it is lost."""
        for name, iface in story.receivers(self.read, sent):
            self.bring(sent, self.net.routers[name], iface, moment)

    def bring(self, sent: story.Sent, router: Router, iface: int | None, moment: int) -> None:
        chance = self.chances.of(sent.number, router.name, iface)
        hops = self.hops_to(sent, router)
        arrives = self.share(sent, hops) if hops is not None and router.is_up else 0
        if chance.random() >= arrives:
            return
        moment += sum(chance.randint(*self.chances.delay) for _ in hops)
        way, order = (sent.router, sent.where, router.name, iface), DELIVERIES
        if chance.random() < self.chances.reorder:
            moment, order = moment + self.chances.delay[1], OVERTAKEN
        else:
            self.latest[way] = moment = max(moment, self.latest.get(way, 0))
        move = delivery(sent.number, router, iface, chance.getrandbits(32))
        self.schedule(Action([move]), moment, (order, sent.number, router.name, -1 if iface is None else iface))

    @staticmethod
    def share(sent: story.Sent, hops: Sequence[tuple[Link, str, str]]) -> float:
        """The share of packets like this one that come over some hops."""
        packet = sent.packet()
        return math.prod(1 - link.share_lost(packet, sender, receiver) for link, sender, receiver in hops)

    def hops_to(self, sent: story.Sent, router: Router) -> list[tuple[Link, str, str]] | None:
        """The links on which a packet comes to a router, each with the routers at its ends; None where it can't."""
        if not sent.is_unicast():
            link = self.net.links[sent.where]
            return [(link, sent.router, router.name)] if link.is_up else None
        way = ways(self.net.routers[sent.router]).get(router)
        if way is None:
            return None
        names = [sent.router, *(each.name for each in way.routers)]
        return list(zip(way.links, names, names[1:]))
