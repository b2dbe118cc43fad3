"""What a router that hears Bootstraps (RFC 5059) is to know: a plain reading of the RFC with the choices of
docs/COMPLIANCE.md. It stands on no code of the router. Addresses are dotted text, times are ms."""
from __future__ import annotations

import functools
import math
from collections.abc import Iterable, Iterator
from dataclasses import dataclass, field, replace
from ipaddress import IPv4Address, IPv4Network

from viqeshor import Answer
from viqeshor.lab import packets
from viqeshor.lab.packets import Bootstrap, CandidateRp, RpRange
from viqeshor.lab.rps import hashed

# BS_Period and BS_Timeout (section 5), and how long the same bytes are a repetition.
BS_PERIOD, BS_TIMEOUT, REPETITION = 60_000, 130_000, 1000
MOST_RANGES = 256
SSM = IPv4Network("232.0.0.0/8")
# Rules of the reading, each of which `Listener` may be told to forget: then it differs from the router in some run.
RULES = {
    "own": "a Bootstrap of the router itself doesn't count",
    "neighbour": "one of a stranger doesn't",
    "scope": "one of a zone doesn't",
    "refresh": "one with the No-Forward bit counts before any other, in the first minute",
    "rpf": "another has to come from the RPF neighbour of its BSR",
    "preferred": "one of less weight than the elected BSR doesn't count",
    "weight": "of the same priority the higher address has more weight",
    "same": "one of the elected BSR counts whatever its weight",
    "room": "one for whose RPs there is no room doesn't count",
    "static": "configured ranges take room",
    "bs_timeout": "a BSR that falls silent is forgotten",
    "holdtime": "an RP lasts for its holdtime",
    "gone": "an RP of holdtime 0 goes",
    "empty": "a range of no RPs goes",
    "bidir": "a range with the B bit doesn't count",
    "host_bits": "a range with host bits counts for its prefix",
    "fragments": "the RPs of a range count when as many came as it says",
    "tag": "those of one tag",
    "sender": "of one BSR",
    "twice": "an RP that is said twice is one",
    "stale": "fragments go when the others haven't come",
    "mask": "a message's hash mask counts for all ranges",
    "priority": "the lowest priority number is chosen",
    "hash": "of the same the greatest hash",
    "configured": "a configured range wins",
    "group": "where each group has its own RP, by the group and not by its range",
    "longer": "of its candidates those of the longest prefix come first",
    "between": "of a candidate and a configured range the longer prefix decides",
    "forward": "a message is sent on, on each interface with neighbours",
    "repetition": "not where it came on, within a second",
}


@functools.lru_cache(maxsize=65536)
def network(text: str) -> IPv4Network:
    return IPv4Network(text)


def packet(source: str, body: bytes, ttl: int = 1, options: bytes = b"") -> bytes:
    """A PIM message to all PIM routers."""
    to = packets.dotted(packets.ALL_PIM_ROUTERS)
    return packets.write(packets.PIM, source, to, ttl, body, options, packets.ROUTING)


# ---- around the router


@dataclass
class Around:
    """What is known of a router without hearing Bootstraps: its interfaces and other addresses, its routes, and of its
    neighbours, by interface and address, until when they are."""
    interfaces: list[tuple[str, int]]
    addresses: list[str] = field(default_factory=list)
    routes: list[tuple[str, str, int]] = field(default_factory=list)
    up: set[int] = field(default_factory=set)
    neighbours: dict[tuple[int, str], float] = field(default_factory=dict)
    now: int = 0

    def is_own(self, address: str) -> bool:
        return address in self.addresses or any(address == own for own, _ in self.interfaces)

    def has_neighbours(self, iface: int) -> bool:
        return any(at == iface for at, _ in self.neighbours)

    def link_of(self, address: str) -> int | None:
        """The interface that is up whose link the address is on."""
        links = enumerate(IPv4Network(own, strict=False) for own in self.interfaces)
        return next((at for at, link in links if at in self.up and IPv4Address(address) in link), None)

    def rpf_neighbour(self, address: str) -> tuple[int, str] | None:
        """The interface and the next hop towards an address (RFC 7761, 4.1.5), that is a neighbour."""
        if self.is_own(address):
            return None
        at = self.link_of(address)
        hop = self.routed(address) if at is None else (at, address)
        return hop if hop in self.neighbours else None

    def routed(self, address: str) -> tuple[int, str] | None:
        routes = ((network(net), hop, at) for net, hop, at in self.routes)
        fitting = [route for route in routes if IPv4Address(address) in route[0]]
        found = max(fitting, key=lambda route: route[0].prefixlen, default=None)
        return (found[2], found[1]) if found and found[2] in self.up else None

    def hello(self, iface: int, address: str, holdtime: int) -> None:
        if holdtime:
            self.neighbours[iface, address] = math.inf if holdtime == 0xFFFF else self.now + 1000 * holdtime
        else:
            self.neighbours.pop((iface, address), None)

    def down(self, iface: int) -> None:
        self.up.discard(iface)
        self.neighbours = {who: end for who, end in self.neighbours.items() if who[0] != iface}

    def pass_to(self, moment: int) -> None:
        self.now = moment
        self.neighbours = {who: end for who, end in self.neighbours.items() if end > moment}


# ---- what is known by Bootstraps


@dataclass(frozen=True)
class Learned:
    """An RP of a range, in force until its end."""
    prefix: IPv4Network
    rp: str
    priority: int
    end: int


@dataclass(frozen=True)
class Part:
    """An RP of a range in a message of which other fragments are missing."""
    prefix: IPv4Network
    rp: CandidateRp
    bsr: str
    tag: int
    until: int


@dataclass(frozen=True)
class Kept:
    """The RPs in force and those that wait, each in the order in which they came, and the hash mask's length."""
    rps: tuple[Learned, ...] = ()
    parts: tuple[Part, ...] = ()
    hash_length: int = 0

    def count(self) -> int:
        return len(self.rps) + len(self.parts)


@dataclass(frozen=True)
class Outcome:
    """What comes of a packet: the answer, whether the RPs moved, and what is sent on."""
    answer: Answer
    moved: bool = False
    sent: tuple[tuple[str, int, bytes], ...] = ()


class Listener:
    """What a router that hears Bootstraps is to know, and to do. An RP is chosen for a `range` of groups, or for each
    `group`. It may be told to forget rules."""

    def __init__(self, around: Around, static: Iterable[tuple[str, str]] = (), *, limit: int = 256,
                 refresh_end: int = 0, choice: str = "range", forgets: Iterable[str] = ()) -> None:
        self.around, self.refresh_end, self.forgets = around, refresh_end, frozenset(forgets)
        self.choice = choice
        self.elected: tuple[str, int, int] | None = None
        self.kept, self.has_heard = Kept(), False
        self.last: tuple[bytes, int] = b"", 0
        self.configure(static, limit)

    def minds(self, rule: str) -> bool:
        return rule not in self.forgets

    # ---- which messages count (3.1.3)

    def hear(self, iface: int, data: bytes) -> Outcome:
        """A packet that the router ignored for its type."""
        header = 4 * (data[0] & 15)
        source, body = packets.dotted(data[12:16]), data[header:packets.word(data, 2)]
        if not packets.is_pim(data, packets.BOOTSTRAP):
            return Outcome(Answer.OTHER_TYPE)
        try:
            told = packets.read_bootstrap(body)
        except packets.Refused as refused:
            return Outcome(Answer(refused.args[0]))
        after = self.after(told)
        reason = self.why_not(iface, source, told) or self.why_no_room(after)
        return Outcome(reason) if reason else self.taken(iface, body, told, after)

    def why_not(self, iface: int, source: str, told: Bootstrap) -> Answer | None:
        """The first test that fails."""
        may_refresh = not self.has_heard and self.around.now <= self.refresh_end
        tests = {
            "own": (self.around.is_own(told.bsr), Answer.OWN_BSR),
            "neighbour": ((iface, source) not in self.around.neighbours, Answer.NO_NEIGHBOUR),
            "scope": (bool(told.ranges) and told.ranges[0].is_zone, Answer.SCOPED),
            "refresh": (told.no_forward and not may_refresh, Answer.LATE_REFRESH),
            "rpf": (not told.no_forward and self.around.rpf_neighbour(told.bsr) != (iface, source),
                    Answer.NOT_FROM_RPF),
            "preferred": (not self.is_preferred(told), Answer.NOT_PREFERRED),
        }
        return next((why for rule, (fails, why) in tests.items() if fails and self.minds(rule)), None)

    def is_preferred(self, told: Bootstrap) -> bool:
        """It is of the elected BSR, or one of more weight (3.1.4)."""
        if self.elected is None:
            return True
        bsr, priority, _ = self.elected
        if told.bsr == bsr and self.minds("same"):
            return True
        higher = IPv4Address(told.bsr) > IPv4Address(bsr) or not self.minds("weight")
        return told.priority > priority or (told.priority == priority and higher)

    def room(self) -> int:
        static = len(self.static) if self.minds("static") else 0
        return min(self.limit, MOST_RANGES - static)

    def why_no_room(self, after: Kept) -> Answer | None:
        return Answer.FULL if after.count() > self.room() and self.minds("room") else None

    def taken(self, iface: int, body: bytes, told: Bootstrap, after: Kept) -> Outcome:
        sent, before = tuple(self.sent_on(iface, body, told)), self.given()
        self.kept, self.has_heard, self.last = after, True, (body, self.around.now + REPETITION)
        self.elected = told.bsr, told.priority, self.around.now + BS_TIMEOUT
        return Outcome(Answer.DONE, before != self.given(), sent)

    def sent_on(self, iface: int, body: bytes, told: Bootstrap) -> Iterator[tuple[str, int, bytes]]:
        """3.4; each router of a link sends a message that comes there."""
        is_repeated = self.last[0] == body and self.around.now < self.last[1] and self.minds("repetition")
        if not told.no_forward and self.minds("forward"):
            for at, (own, _) in enumerate(self.around.interfaces):
                if self.around.has_neighbours(at) and not (at == iface and is_repeated):
                    yield "frame", at, packet(own, body)

    # ---- the RPs (3.1.5, 4.1.1)

    def after(self, told: Bootstrap) -> Kept:
        """What is kept after a message that counts."""
        kept = replace(self.kept, hash_length=told.hash_length) if told.ranges and self.minds("mask") else self.kept
        for one in told.ranges:
            if not (one.is_bidir and self.minds("bidir")):
                kept = self.with_range(kept, told, one)
        return kept

    def with_range(self, kept: Kept, told: Bootstrap, one: RpRange) -> Kept:
        prefix = one.prefix() if self.minds("host_bits") else IPv4Network((one.group, 32))
        others = tuple(part for part in kept.parts if part.prefix != prefix)
        other_rps = tuple(rp for rp in kept.rps if rp.prefix != prefix)
        if one.count == 0 and self.minds("empty"):
            return replace(kept, rps=other_rps, parts=others)
        parts = self.parts_of([part for part in kept.parts if part.prefix == prefix], prefix, told, one)
        if len(parts) < one.count and self.minds("fragments"):
            return replace(kept, parts=others + tuple(parts))
        new = tuple(self.learned(part) for part in parts if part.rp.holdtime or not self.minds("gone"))
        return replace(kept, rps=other_rps + new, parts=others)

    def parts_of(self, before: list[Part], prefix: IPv4Network, told: Bootstrap, one: RpRange) -> list[Part]:
        """The fragments of a range of one message that have come; of an RP the last word."""
        parts = [part for part in before if (part.tag == told.tag or not self.minds("tag"))
                 and (part.bsr == told.bsr or not self.minds("sender"))]
        for rp in one.rps:
            if self.minds("twice"):
                parts = [part for part in parts if part.rp.address != rp.address]
            parts.append(Part(prefix, rp, told.bsr, told.tag, self.around.now + BS_TIMEOUT))
        return parts

    def learned(self, part: Part) -> Learned:
        return Learned(part.prefix, part.rp.address, part.rp.priority, self.around.now + 1000 * part.rp.holdtime)

    # ---- what the router is given

    def weight(self, rp: Learned, group: IPv4Address) -> tuple[int, int, int]:
        """Of the RPs of a prefix that of the least weight is chosen for a group (RFC 7761, 4.7.1 and 4.7.2)."""
        value = hashed(self.kept.hash_length, group, rp.rp) if self.minds("hash") else 0
        return rp.priority if self.minds("priority") else 0, -value, -int(IPv4Address(rp.rp))

    def chosen(self) -> dict[IPv4Network, Learned]:
        """The RP of each range that isn't configured, where one is chosen for a range: by the range's own address."""
        prefixes = {rp.prefix for rp in self.kept.rps} if self.choice == "range" else set()
        prefixes -= self.static.keys() if self.minds("configured") else set()
        return {net: min((rp for rp in self.kept.rps if rp.prefix == net),
                         key=lambda rp: self.weight(rp, rp.prefix.network_address)) for net in prefixes}

    def candidates(self) -> tuple[Learned, ...]:
        """Those of which the router chooses one for each group."""
        return self.kept.rps if self.choice == "group" else ()

    def given(self) -> tuple[dict[IPv4Network, str], set[tuple[IPv4Network, str, int, int]]]:
        """The ranges that the router is given, and the candidates with their priorities and masks."""
        ranges = self.static | {net: it.rp for net, it in self.chosen().items()}
        return ranges, {(it.prefix, it.rp, it.priority, self.kept.hash_length) for it in self.candidates()}

    def rp(self, group: str) -> str | None:
        """RP(G) of the router (RFC 7761, 4.7.1)."""
        address = IPv4Address(group)
        if address in SSM:
            return None
        (ranges, _), found = self.given(), []
        for net in sorted((net for net in ranges if address in net), key=lambda net: -net.prefixlen)[:1]:
            found.append((net.prefixlen, self.minds("configured"), ranges[net]))
        if (one := self.candidate(address)) is not None:
            found.append((one.prefix.prefixlen if self.minds("between") else 33, not self.minds("configured"), one.rp))
        return max(found, default=(0, False, None))[-1]

    def candidate(self, group: IPv4Address) -> Learned | None:
        """The candidate that is chosen for a group, of those whose prefix has it."""
        here = [rp for rp in self.candidates() if group in rp.prefix]
        return min(here, key=lambda rp: (
            -rp.prefix.prefixlen if self.minds("longer") else 0,
            self.weight(rp, group if self.minds("group") else rp.prefix.network_address)), default=None)

    # ---- time, and other configured ranges

    def next_end(self) -> int | None:
        return min((rp.end for rp in self.kept.rps), default=None)

    def pass_to(self, moment: int) -> None:
        """What has expired by then is forgotten."""
        self.around.pass_to(moment)
        if self.elected and self.elected[2] <= moment and self.minds("bs_timeout"):
            self.elected = None
        rps = tuple(rp for rp in self.kept.rps if rp.end > moment or not self.minds("holdtime"))
        parts = tuple(part for part in self.kept.parts if part.until > moment or not self.minds("stale"))
        self.kept = replace(self.kept, rps=rps, parts=parts)

    def choose(self, choice: str) -> None:
        """An RP is chosen for something else."""
        self.choice = choice

    def configure(self, static: Iterable[tuple[str, str]], limit: int) -> None:
        """Those for which there is no room any more go, those that wait first, and the newest."""
        self.static, self.limit = {network(net): rp for net, rp in static}, limit
        rps = self.kept.rps[:self.room()]
        self.kept = replace(self.kept, rps=rps, parts=self.kept.parts[:self.room() - len(rps)])
