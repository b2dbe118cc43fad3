"""Has networks elect a BSR, with losses, delays and reloads, and compares each router with a reading of RFC 5059.

    torture/run elections [--seconds N] [--seed N] [--forget RULE | --each] [--unproved | --from FOLDER |
    --archive FILE]

In random runs, for so many seconds in all (60), two to five routers on links of two or more stand as candidate BSRs, as
candidate RPs, as both or as neither. Their packets take a while, and some are lost; links break and heal, routers begin
anew, and stand as something else. Some advertisements are forged. Beside each router a plain reading of the RFC and of
docs/COMPLIANCE.md (stress.standing, stress.rfc5059) says what each answer has to be, what is sent, who is elected,
which RPs are held and which are known: after each event all of it is compared. A run ends in silence: no packet is
lost, and nothing else happens. Then one router is the BSR, that of the most weight; all others know it, and the RPs
that it says, which are all candidate RPs for which there is room. --seed N begins with that run. With --forget the
reading forgets a rule (--rules lists them), so it has to differ in a random run; with --each every rule is tried so.
The exit status is 0 where all came as it has to.
"""
from __future__ import annotations

import argparse
import heapq
import itertools
import random
from collections.abc import Iterable
from dataclasses import dataclass, field
from ipaddress import IPv4Address
from pathlib import Path

from pimtext.build.library import chosen
from stress import forgetting
from stress.advertised import Advertised, AsBsr, AsRp, Differs, advertisement_message, advertisement_packet
from stress.domains import planned
from stress.rfc5059 import network, packet
from stress.standing import RULES
from stress.stands import Node, drawn
from viqeshor import Sent
from viqeshor.lab import packets
from viqeshor.lab.packets import Bootstrap, CandidateRp, RpRange, bootstrap_message

# How long a run is left in silence, in ms: a broken link's neighbours go after 105 s, a silent BSR after 130 s; then
# the next one is elected within 23 s, and it may be the wrong one first; the RPs are told within 60 s. What an
# RP says lasts for 300 s, and as long again what a BSR says of it.
SILENCE = 900_000
RANGES = ("239.1.0.0/16", "239.2.0.0/16", "239.0.0.0/8", "225.0.0.0/8", "224.0.0.0/4")


@dataclass(order=True)
class Due:
    """A packet that comes at a timestamp."""
    moment: int
    number: int
    router: int = field(compare=False)
    iface: int | None = field(compare=False)
    data: bytes = field(compare=False)


class Run:
    """A network in random events, by a seed."""

    def __init__(self, library: Path, seed: int, forgets: Iterable[str] = (), kind: type[Node] = Node) -> None:
        self.draws, self.library, self.forgets = random.Random(seed), library, frozenset(forgets)
        self.kind = kind
        self.plan, self.now, self.words = planned(self.draws), 0, []
        self.loss, self.slowest, self.broken = 0.0, self.draws.choice((2, 200, 3000)), set()
        self.numbers, self.due, self.events = itertools.count(), [], 0
        self.nodes = [self.made(number) for number in range(self.plan.routers)]
        self.say(f"{self.plan}, packets take up to {self.slowest} ms")
        for node in self.nodes:
            self.stand(node)

    def say(self, words: str) -> None:
        self.words.append(f"{self.now}: {words}")

    def made(self, number: int) -> Node:
        return self.kind(self.library, self.plan, number, self.now, self.forgets)

    def end(self) -> None:
        for node in self.nodes:
            node.end()

    # ---- as what routers stand

    def stand(self, node: Node) -> None:
        draws, own = self.draws, self.plan.loopback(node.number)
        if draws.random() < 0.3:
            own = self.plan.interfaces(node.number)[0][0]
        priority, mask = draws.choice((0, 1, 64, 64, 64, 255)), draws.choice((0, 30, 32))
        bsr = AsBsr(own, priority, mask, draws.choice((1, 3, 255, 255)))
        ranges = tuple(draws.sample(RANGES, draws.choice((1, 1, 2, 3))))
        rp = AsRp(own, draws.choice((0, 192, 192, 255)), ranges)
        as_bsr, as_rp = draws.choice(((bsr, None), (bsr, rp), (bsr, rp), (None, rp), (None, None)))
        says_so = draws.random() < 0.5
        self.say(f"{node.name} stands as {as_bsr} and {as_rp}{', its RP says that it goes' * says_so}")
        node.stand(as_bsr, as_rp, says_so)
        self.take_sent(node)

    def restart(self) -> None:
        number = self.draws.randrange(len(self.nodes))
        self.say(f"router {number} begins anew")
        self.nodes[number].end()
        self.nodes[number] = self.made(number)
        self.due = [each for each in self.due if each.router != number]
        heapq.heapify(self.due)
        self.stand(self.nodes[number])

    # ---- packets

    def take_sent(self, node: Node) -> None:
        sent, node.sent = node.sent, []
        for each in sent:
            if each.kind == "frame":
                self.put_on(node, each)
            elif each.kind == "unicast":
                self.put_to(each.where, each.packet, node.number)

    def put_on(self, node: Node, sent: Sent) -> None:
        link = self.plan.links_of(node.number)[sent.where]
        for other in self.plan.links[link]:
            if other != node.number:
                self.put(other, self.plan.links_of(other).index(link), sent.packet, [link])

    def put_to(self, address: str, data: bytes, source: int) -> None:
        owner = next((other for other in range(self.plan.routers) if self.is_of(address, other)), None)
        if owner is not None:
            self.put(owner, None, data, self.way(source, owner))

    def is_of(self, address: str, router: int) -> bool:
        return address == self.plan.loopback(router) or any(address == own for own, _ in self.plan.interfaces(router))

    def way(self, source: int, to: int) -> list[int]:
        """The links on the way."""
        links, at = [], source
        while at != to:
            hop, iface = next((hop, iface) for net, hop, iface in self.plan.routes(at)
                              if net == f"{self.plan.loopback(to)}/32")
            links.append(self.plan.links_of(at)[iface])
            at = int(IPv4Address(hop)) % 256 - 1
        return links

    def put(self, router: int, iface: int | None, data: bytes, links: list[int]) -> None:
        """A packet of Hellos is never lost but on a broken link."""
        is_lost = self.draws.random() < self.loss and data[20] & 15 in (4, 8)
        if not (is_lost or self.broken & set(links)):
            moment = self.now + self.draws.randint(1, self.slowest)
            heapq.heappush(self.due, Due(moment, next(self.numbers), router, iface, data))

    # ---- time

    def pass_time(self, ms: int) -> None:
        end = self.now + ms
        while self.next_moment() <= end:
            self.step()
        self.run_all_to(end)

    def next_moment(self) -> int:
        ends = [node.next_end() for node in self.nodes]
        return min([end for end in ends if end is not None] + [each.moment for each in self.due[:1]])

    def run_all_to(self, moment: int) -> None:
        self.now = moment
        for node in self.nodes:
            if moment > node.now():
                node.run_to(moment, self.draws)
                self.take_sent(node)

    def step(self) -> None:
        """What is due next."""
        self.events += 1
        moment = max(self.next_moment(), self.now)
        self.now = moment
        for node in self.nodes:
            if (end := node.next_end()) is not None and end <= moment:
                node.run_to(moment, self.draws)
                self.take_sent(node)
                return
        came = heapq.heappop(self.due)
        node = self.nodes[came.router]
        if moment > node.now():
            node.run_to(moment, self.draws)
        if came.iface is None:
            node.unicast(came.data, drawn(self.draws))
        else:
            node.frame(came.iface, came.data, drawn(self.draws))
        self.take_sent(node)

    # ---- random events

    def happen(self) -> None:
        self.draws.choices(
            [self.wait, self.lose, self.breaks, self.heal, self.restart, self.restand, self.forge, self.forge_bsr,
             self.waver, self.flood],
            [12, 2, 2, 2, 1, 3, 3, 2, 1, 0.2])[0]()

    def wait(self) -> None:
        ms = self.draws.choice((1, 500, 5000, 9999, 10_000, 30_000, 61_000, 140_000))
        self.pass_time(ms)

    def lose(self) -> None:
        self.loss = self.draws.choice((0.0, 0.0, 0.1, 0.5, 1.0))
        self.say(f"of a hundred Bootstraps and advertisements {int(100 * self.loss)} are lost")

    def breaks(self) -> None:
        link = self.draws.randrange(len(self.plan.links))
        self.say(f"link {link} breaks")
        self.broken.add(link)

    def heal(self) -> None:
        self.say("links heal")
        self.broken.clear()

    def restand(self) -> None:
        self.stand(self.draws.choice(self.nodes))

    def forge(self) -> None:
        """An advertisement comes to some candidate BSR."""
        draws, node = self.draws, self.draws.choice(self.nodes)
        bsr = node.reading.bsr.address if node.reading.bsr else self.plan.loopback(node.number)
        groups = [("239.1.0.0", 16), ("239.1.2.3", 8), ("225.0.0.0", 8), ("224.0.0.0", 4), ("239.7.0.0", 32)]
        ranges = tuple((*draws.choice(groups), draws.random() < 0.2) for _ in range(draws.choice((0, 1, 2, 3))))
        told = Advertised(f"10.99.0.{draws.randint(1, 3)}", ranges, draws.choice((0, 192)),
                          draws.choice((0, 1, 20, 150, 300)))
        body = advertisement_message(told)
        if draws.random() < 0.2:
            cut = packets.with_number(body[:13], 2, 0)
            body = packets.with_number(cut, 2, packets.sum16(cut))
        self.say(f"{told} comes to {node.name}")
        node.unicast(advertisement_packet(told.rp, bsr, body), drawn(draws))
        self.take_sent(node)

    def forge_bsr(self) -> None:
        """A Bootstrap comes, as of the last hop of the elected BSR, or of some router that may be none."""
        draws, node = self.draws, self.draws.choice(self.nodes)
        elected = node.reading.listener.elected
        bsr = elected[0] if elected and draws.random() < 0.7 else self.plan.loopback(draws.randrange(len(self.nodes)))
        count = draws.choice((0, 1, 4))
        rps = tuple(CandidateRp(f"10.99.0.{at}", draws.choice((0, 20, 150)), 192) for at in range(1, 1 + count))
        ranges = draws.choice(((), (RpRange("239.1.0.0", 16, rps, len(rps)),)))
        self.tell(node, Bootstrap(bsr, ranges, draws.getrandbits(16), 30, draws.choice((0, 63, 64, 65, 255)),
                                  draws.random() < 0.2))

    def flood(self) -> None:
        """More RPs of a range advertise themselves than a fragment holds, and say it once."""
        node = next((node for node in self.nodes if node.reading.role == "elected"), None)
        if node and node.reading.bsr.limit == 255:
            self.say(f"150 RPs of a range come to {node.name}")
            for at in range(1, 151):
                told = Advertised(f"10.98.0.{at}", (("239.2.0.0", 16, False),), holdtime=20)
                data = advertisement_packet(told.rp, node.reading.bsr.address, advertisement_message(told))
                node.unicast(data, drawn(self.draws))
            self.take_sent(node)
            self.pass_time(30_000)

    def waver(self) -> None:
        """Soon after an elected BSR's message one of more weight comes, which then has less."""
        node = next((node for node in self.nodes if node.reading.role == "elected"), None)
        others = [other for other in range(len(self.nodes)) if node and other != node.number]
        if not others:
            return
        self.pass_time(max(node.reading.end[0] + 1 - self.now, 0))
        bsr = self.plan.loopback(self.draws.choice(others))
        for priority in (255, self.draws.choice((0, 64, 200))):
            self.tell(node, Bootstrap(bsr, priority=priority))
            self.pass_time(self.draws.choice((1, 1000, 6000)))

    def tell(self, node: Node, told: Bootstrap) -> None:
        """A Bootstrap comes from the RPF neighbour of its BSR."""
        if hop := node.reading.listener.around.rpf_neighbour(told.bsr):
            self.say(f"{told} comes to {node.name}")
            node.frame(hop[0], packet(hop[1], bootstrap_message(told)), drawn(self.draws))
            self.take_sent(node)

    # ---- in the end

    def calm_down(self) -> None:
        """Nothing is lost, and there is silence; forged RPs go with their holdtimes."""
        self.say("silence")
        self.loss = 0.0
        self.broken.clear()
        self.pass_time(SILENCE)
        if self.plan.limit == 256:
            self.compare_all()

    def compare_all(self) -> None:
        """Where there is room for all RPs."""
        stand = [node for node in self.nodes if node.reading.bsr]
        best = max(stand, key=lambda node: node.reading.bsr.weight(), default=None)
        for node in self.nodes:
            is_best = best and node is best
            self.same(node, "what it is", node.reading.role,
                      "elected" if is_best else "candidate" if node.reading.bsr else "none")
            elected = node.bsr.elected()
            self.same(node, "the elected BSR", elected and elected.bsr, best and best.reading.bsr.address)
            self.same(node, "the RPs that are known", self.known(node), self.known(best) if best else set())
        if best:
            self.held_are_all(best)

    def same(self, node: Node, what: str, got: object, wanted: object) -> None:
        if got != wanted:
            raise Differs(f"in the end: {node.name}: {what} is {got}, and has to be {wanted}")

    def known(self, node: Node) -> set[tuple[str, str, int]]:
        return {(row.groups, row.rp, row.priority) for row in node.bsr.rps()}

    def held_are_all(self, best: Node) -> None:
        """The BSR holds each candidate RP, where there is room for all, and it says those alone."""
        rps = [(network(net), node.reading.rp.address) for node in self.nodes if node.reading.rp
               for net in node.reading.rp.ranges]
        held = {(network(row.groups), row.rp) for row in best.stands.rps()}
        forged = {it for it in held if it[1].startswith("10.99.")}
        if len(rps) + len(forged) <= best.reading.bsr.limit:
            self.same(best, "the RPs that it holds", held - forged, set(rps))
        self.same(best, "the RPs that it says", {(network(net), rp) for net, rp, _ in self.known(best)}, held)


def run(
    library: Path, seed: int, count: int, forgets: Iterable[str] = (), kind: type[Node] = Node
) -> tuple[str, Run]:
    """What differs in a run of so many random events; nothing where nothing does."""
    made = Run(library, seed, forgets, kind)
    try:
        for _ in range(count):
            made.happen()
        made.calm_down()
    except Differs as differs:
        return differs.args[0], made
    finally:
        made.end()
    return "", made


def told(seed: int, differs: str, made: Run) -> bool:
    """Whether nothing differs; what does is printed."""
    if differs:
        print(f"seed {seed}:")
        print("\n".join(f"  {word}" for word in made.words))
        print(f"  {made.now}: {differs}")
    return not differs


def all_runs(library: Path, asked: argparse.Namespace) -> bool:
    def one(seed: int) -> int | None:
        differs, made = run(library, seed, asked.events)
        return made.events if told(seed, differs, made) else None

    return forgetting.all_runs(asked, one)


def is_noticed(library: Path, rule: str, asked: argparse.Namespace) -> bool:
    """Whether a reading that forgets a rule differs from the routers in a random run."""
    seed = next((seed for seed in range(1, 300) if run(library, seed, asked.events, [rule])[0]), None)
    return forgetting.said_of(rule, RULES, seed)


# ---- the tool


def add_words(parser: argparse.ArgumentParser) -> None:
    forgetting.add_runs(parser, 60, 40, "of a run, before its silence")
    forgetting.add_rules(parser, RULES)


def is_right(asked: argparse.Namespace) -> bool:
    return forgetting.is_right(asked, RULES, lambda asked: chosen(asked)[0].shared(), is_noticed, all_runs)
