"""Hostile and odd Bootstraps: trials, each with a new router and a new listener, and random runs."""
from __future__ import annotations

import random
from collections.abc import Callable, Iterable
from typing import Any

from stress.heard import (
    ABOVE, BELOW, BESIDE, BSR, BSR_BELOW, BSR_BESIDE, BSR_NOWHERE, BSR_OF_STRANGER, INTERFACES, LOOPBACK, OTHER_BSR,
    OTHER_ROUTES, ROUTES, STATIC, STRANGER, Heard,
)
from stress.rfc5059 import packet
from viqeshor.lab import packets
from viqeshor.lab.packets import Bootstrap, CandidateRp, RpRange, bootstrap_message

FIRST, SECOND, THIRD, OWN = "10.99.0.1", "10.88.0.9", "10.77.0.2", INTERFACES[0][0]

# ---- messages


def rps_of(addresses: Iterable[str], holdtime: int = 150, priority: int = 0) -> tuple[CandidateRp, ...]:
    return tuple(CandidateRp(address, holdtime, priority) for address in addresses)


def hosts(count: int, first: int = 0) -> list[str]:
    return [f"10.99.{number // 250}.{1 + number % 250}" for number in range(first, first + count)]


def whole(group: str, length: int, addresses: Iterable[str], **of_rp: int) -> RpRange:
    """A range with all its RPs."""
    rps = rps_of(addresses, **of_rp)
    return RpRange(group, length, rps, len(rps))


WIDE = whole("239.0.0.0", 8, [FIRST, SECOND])
USUAL = Bootstrap(BSR, (WIDE, whole("225.0.0.0", 8, [THIRD], priority=5)))


def mended(data: bytes) -> bytes:
    """With the lengths and checksums of what is there."""
    body = packets.with_number(data[20:], 2, 0) if len(data) >= 24 else data[20:]
    body = packets.with_number(body, 2, packets.sum16(body)) if len(body) >= 4 else body
    return packets.with_header_sum(packets.with_number(data[:20] + body, 2, len(data)))


# ---- trials: each begins with a new router and a new listener


def cut(heard: Heard) -> None:
    data = packet(ABOVE[1], bootstrap_message(USUAL))
    for length in range(len(data)):
        heard.frame(0, data[:length])
        if length >= 20:
            heard.frame(0, mended(data[:length]))
        if length % 40 == 0:
            heard.wait(151_000)


def flipped(heard: Heard) -> None:
    """Each bit, as it is and with the sums mended."""
    data = packet(ABOVE[1], bootstrap_message(USUAL))
    for bit in range(8 * len(data)):
        spoilt = packets.with_number(data, bit // 8, data[bit // 8] ^ 1 << bit % 8, 1)
        heard.frame(0, spoilt)
        if spoilt[0] == 0x45:
            heard.frame(0, mended(spoilt))
        heard.hello(*ABOVE)
        if bit % 16 == 0:
            heard.wait(131_000)


def left_over(heard: Heard) -> None:
    """Bytes after the last range, of which none is whole."""
    for count in range(1, 12):
        heard.frame(0, mended(packet(ABOVE[1], bootstrap_message(USUAL) + bytes([1, 0, 0, 8] + [0] * 8)[:count])))


def endless(heard: Heard) -> None:
    """200 RPs in 20 fragments of a range that is said to have more, until they are forgotten."""
    for at in range(20):
        heard.tell(Bootstrap(BSR, (RpRange("239.0.0.0", 8, rps_of(hosts(10, 10 * at)), 255),)))
        heard.wait(10)
    heard.wait(129_000)
    heard.wait(1_000)
    heard.same("how many wait", len(heard.bsr.parts()), 0)


def endless_tags(heard: Heard) -> None:
    """Fragments each of a message of its own, of ranges that never come whole."""
    for at in range(600):
        wide, narrow = ("239.0.0.0", 8, rps_of(hosts(3, at)), 255), (f"238.{at % 256}.0.0", 16, rps_of([FIRST]), 2)
        heard.tell(Bootstrap(BSR, (RpRange(*wide), RpRange(*narrow)), tag=at))


def many_ranges(heard: Heard) -> None:
    """256 ranges, of which a configured one takes the room of the last."""
    for first in range(0, 256, 32):
        ranges = tuple(whole(f"238.{at}.0.0", 16, [FIRST]) for at in range(first, first + 32))
        heard.tell(Bootstrap(BSR, ranges, tag=first))
    heard.tell(Bootstrap(BSR, tuple(whole(f"238.{at}.0.0", 16, [FIRST]) for at in range(224, 255))))
    heard.tell(Bootstrap(BSR, (whole("237.1.0.0", 16, [FIRST]),)))
    heard.configure([])
    heard.tell(Bootstrap(BSR, (whole("237.1.0.0", 16, [FIRST]),)))
    heard.configure([(f"238.{at}.0.0/16", SECOND) for at in range(256)])
    heard.configure(STATIC, 3)


def many_rps(heard: Heard) -> None:
    """200 RPs of one range, in fragments that come in any order, one of them twice."""
    order = [7, 3, 0, 9, 1, 2, 8, 3, 4, 6, 5]
    for at in order:
        heard.tell(Bootstrap(BSR, (RpRange("239.0.0.0", 8, rps_of(hosts(20, 20 * at)), 200),)))
    heard.same("how many are in force", len(heard.bsr.rps()), 200)
    heard.tell(Bootstrap(BSR, (RpRange("239.0.0.0", 8, rps_of(hosts(20)), 200),), tag=8))
    heard.wait(151_000)


def tags(heard: Heard) -> None:
    """A tag that goes back, the same tag with another count and of another BSR, a count below what comes."""
    def part(rps: list[str], count: int, **of_message: Any) -> None:
        heard.tell(Bootstrap(**{"bsr": BSR} | of_message, ranges=(RpRange("239.0.0.0", 8, rps_of(rps), count),)))

    for tag in (7, 8, 7, 0xFFFF, 0):
        part([FIRST], 3, tag=tag)
        part([SECOND], 3, tag=tag)
    part([THIRD], 4, tag=0)
    part([THIRD], 2, tag=0)
    part([FIRST], 2)
    part([SECOND], 2, bsr=OTHER_BSR)
    part([FIRST], 2, bsr=OTHER_BSR)
    part([FIRST, SECOND, THIRD], 1)
    part([FIRST, FIRST], 2, tag=9)
    part([FIRST, SECOND], 2, tag=9)
    part([], 2, tag=10)
    part([FIRST], 0, tag=10)


def extremes(heard: Heard) -> None:
    """The least and the greatest of each number, and what can't stand there."""
    for holdtime in (0, 1, 65535):
        heard.tell(Bootstrap(BSR, (whole("239.0.0.0", 8, [FIRST], holdtime=holdtime), WIDE)))
        heard.tell(Bootstrap(BSR, (whole("225.0.0.0", 8, [FIRST, SECOND], holdtime=holdtime),)))
        heard.wait(1_500)
    for length in (*range(0, 5), 31, 32, 33, 255):
        for group in ("224.0.0.0", "239.255.255.255", "232.0.0.0", "223.255.255.255", "240.0.0.0"):
            heard.tell(Bootstrap(BSR, (whole(group, length, [FIRST]),)))
    for length in (0, 1, 32, 33, 255):
        heard.tell(Bootstrap(BSR, (WIDE,), hash_length=length))
    for priority in (255, 0):
        rps = CandidateRp(FIRST, 150, priority), CandidateRp(SECOND, 150, 7)
        heard.tell(Bootstrap(BSR, (RpRange("239.0.0.0", 8, rps, 2),)))
    for address in ("0.0.0.0", "0.0.0.1", "223.255.255.255", "224.0.0.1", "255.255.255.255", OWN, LOOPBACK):
        heard.tell(Bootstrap(BSR, (whole("239.0.0.0", 8, [address, FIRST]),)))
        heard.tell(Bootstrap(address, (WIDE,), priority=255))
    heard.tell(Bootstrap(BSR))
    heard.wait(65_535_000)


def addressed(heard: Heard) -> None:
    """Other encodings and families, other destinations, TTLs, IP options; reserved bits set."""
    body = bootstrap_message(USUAL)
    for place in (8, 9, 14, 15, 26, 27, 36, 37):
        for value in (0, 1, 2, 255):
            heard.frame(0, mended(packet(ABOVE[1], packets.with_number(body, place, value, 1))))
    for place in (1, 16, 24, 25, 35):
        heard.frame(0, mended(packet(ABOVE[1], packets.with_number(body, place, 0x7F, 1))))
    for ttl in (0, 1, 2, 255):
        heard.tell(USUAL, ttl=ttl)
    heard.tell(USUAL, options=packets.ROUTER_ALERT)
    heard.tell(USUAL, options=bytes([1] * 40))
    for to in ("224.0.0.1", "224.0.0.14", "239.0.0.13", OWN, "255.255.255.255"):
        heard.frame(0, packets.write(packets.PIM, ABOVE[1], to, 1, body))
    heard.frame(0, packets.write(packets.UDP, ABOVE[1], "224.0.0.13", 1, body))


def flags(heard: Heard) -> None:
    """Zones and BIDIR, in the first range and in others; ranges that come twice, or have none."""
    narrow = RpRange("239.2.0.0", 16, rps_of([THIRD]), 1)
    bidir, zone, zone_too = (RpRange("239.0.0.0", 8, rps_of([FIRST]), 1, *both) for both in
                             ((True, False), (False, True), (True, True)))
    for ranges in ((bidir, narrow), (narrow, bidir), (zone, narrow), (narrow, zone), (zone_too,), (narrow, zone_too),
                   (narrow, narrow), (WIDE, RpRange("239.7.7.7", 8)), (RpRange("239.7.7.7", 8), WIDE), (WIDE, WIDE)):
        heard.tell(Bootstrap(BSR, ranges))


def senders(heard: Heard) -> None:
    """Who may say it: by the route to the BSR, while routes, neighbours and links change."""
    everybody = [(by, bsr) for by in (ABOVE, BESIDE, BELOW, STRANGER, (1, ABOVE[1]), (2, "10.0.2.2"), (0, LOOPBACK))
                 for bsr in (BSR, BSR_BESIDE, BSR_BELOW, BSR_OF_STRANGER, BSR_NOWHERE, ABOVE[1], LOOPBACK)]

    def all_say() -> None:
        for at, (by, bsr) in enumerate(everybody):
            heard.tell(Bootstrap(bsr, (WIDE,), tag=at), by)
            heard.tell(Bootstrap(bsr, (WIDE,), priority=255, tag=at, no_forward=True), by)
            heard.wait(131_000 if at % 3 == 0 else 1)

    all_say()
    heard.hello(*STRANGER)
    all_say()
    heard.set_routes(OTHER_ROUTES)
    all_say()
    heard.hello(*BELOW, holdtime=0)
    all_say()
    heard.down(0)
    heard.up(0)
    heard.hello(*BESIDE, holdtime=200)
    all_say()
    heard.set_routes([])
    all_say()


def fragments_by_routes(heard: Heard) -> None:
    """The RPF neighbour changes between two fragments."""
    half, other = (Bootstrap(BSR, (RpRange("239.0.0.0", 8, rps_of([rp]), 2),)) for rp in (FIRST, SECOND))
    heard.tell(half)
    heard.set_routes(OTHER_ROUTES)
    heard.tell(other)
    heard.tell(other, BELOW)


def flapping(heard: Heard) -> None:
    """Two BSRs by turns, of equal weight, of more and of less; a better one that falls silent."""
    for at in range(60):
        heard.tell(Bootstrap((BSR, OTHER_BSR)[at % 2], (WIDE,), priority=(10, 10, 11, 9, 255)[at % 5], tag=at))
        heard.wait(100)
    heard.tell(Bootstrap(BSR_BELOW, (WIDE,), priority=255), BELOW)
    for _ in range(14):
        heard.wait(10_000)
        heard.tell(Bootstrap(BSR, (WIDE,), priority=0))


def refreshed(heard: Heard) -> None:
    """Messages with the No-Forward bit after a start: one of anybody who is a neighbour, in the first minute."""
    fresh = Bootstrap(BSR_NOWHERE, (WIDE,), no_forward=True)
    heard.tell(fresh, STRANGER)
    heard.tell(Bootstrap(BSR, (WIDE,), no_forward=True, priority=255), BESIDE)
    heard.tell(fresh, BESIDE)


def too_late(heard: Heard) -> None:
    heard.pass_to(60_000)
    heard.tell(Bootstrap(BSR_NOWHERE, (), no_forward=True), BESIDE)
    heard.pass_to(60_001)
    heard.tell(Bootstrap(BSR_NOWHERE, (WIDE,), no_forward=True), BESIDE)


def never_too_early(heard: Heard) -> None:
    heard.pass_to(60_001)
    heard.tell(Bootstrap(BSR_NOWHERE, (WIDE,), no_forward=True), BESIDE)
    heard.tell(USUAL)


def each_group(heard: Heard) -> None:
    """Each group has its own RP, of ranges in one another, of several priorities and masks, beside configured ones."""
    several = whole("239.0.0.0", 8, [FIRST, SECOND, THIRD])
    for mask in (30, 0, 32, 8):
        heard.tell(Bootstrap(BSR, (several,), tag=mask, hash_length=mask))
    unlike = tuple(CandidateRp(rp, 150, priority) for rp, priority in ((FIRST, 7), (SECOND, 5), (THIRD, 5)))
    heard.tell(Bootstrap(BSR, (RpRange("239.0.0.0", 8, unlike, 3),), tag=33))
    heard.tell(Bootstrap(BSR, (whole("239.2.0.0", 16, [THIRD]), whole("224.0.0.0", 4, [SECOND])), tag=34))
    heard.tell(Bootstrap(BSR, (whole("239.1.0.0", 16, [FIRST, SECOND]), whole("239.1.1.0", 24, [SECOND])), tag=35))
    for static in ([("239.0.0.0/8", "10.0.0.98")], [("224.0.0.0/4", "10.0.0.98")], [], STATIC):
        heard.configure(static)
    heard.configure(STATIC, 2)
    heard.wait(151_000)


def choices(heard: Heard) -> None:
    """Another choice, while RPs are in force, wait for fragments and end."""
    heard.tell(USUAL)
    heard.tell(Bootstrap(BSR, (RpRange("238.0.0.0", 8, rps_of([FIRST]), 2),)))
    for choice in ("group", "range", "group", "group", "range"):
        heard.choose(choice)
        heard.wait(10)
    heard.choose("group")
    heard.tell(Bootstrap(BSR, (RpRange("238.0.0.0", 8, rps_of([SECOND]), 2),)))
    heard.choose("range")
    heard.wait(151_000)
    heard.choose("group")


def with_receivers(heard: Heard) -> None:
    """The RP changes, goes and comes while there are members, and while a source's packets come."""
    group = "239.9.9.9"
    report = packets.write_report("10.0.2.60", [packets.Record(4, group, ())], packets.ROUTING)
    for rp in (FIRST, SECOND, ABOVE[1], OWN, BSR_BELOW, LOOPBACK, "10.0.2.77"):
        heard.tell(Bootstrap(BSR, (whole("239.0.0.0", 8, [rp], holdtime=20),)))
        heard.router.frame(2, report, 7)
        heard.router.frame(2, packets.write_data("10.0.2.50", group, b"data"), 7)
        heard.wait(5_000)
    heard.wait(20_000)


TRIALS: dict[str, tuple[Callable[[Heard], None], dict[str, Any]]] = {
    each.__name__: (each, {"refresh_end": 60_000}) for each in (refreshed, too_late, never_too_early)
} | {each.__name__: (each, {}) for each in (tags, flags, extremes, fragments_by_routes, flapping, with_receivers,
    many_rps, many_ranges, endless, left_over, addressed, cut, senders, endless_tags, flipped, choices)} | {
    f"{each.__name__}_by_group": (each, {"choice": "group"}) for each in (
        each_group, many_rps, many_ranges, with_receivers)}


# ---- random runs


class Random:
    """What happens in a random run, by its seed."""

    def __init__(self, seed: int) -> None:
        self.draws = random.Random(seed)
        self.settings = {"limit": self.draws.choice((256, 256, 40, 5, 1)),
                         "refresh_end": self.draws.choice((0, 60_000, 60_000)),
                         "static": self.draws.choice((STATIC, [], [("239.0.0.0/8", THIRD), *STATIC])),
                         "choice": self.draws.choice(("range", "group"))}

    def rp(self) -> CandidateRp:
        address = self.draws.choice((FIRST, SECOND, THIRD, *hosts(3), ABOVE[1], LOOPBACK))
        holdtime = self.draws.choice((0, 1, 60, 150, 150, 150, 65535))
        return CandidateRp(address, holdtime, self.draws.choice((0, 0, 0, 5, 255)))

    def range(self) -> RpRange:
        group, length = self.draws.choice((("239.0.0.0", 8), ("239.0.0.0", 8), ("239.7.7.7", 8), ("239.1.0.0", 16),
            ("225.1.1.1", 32), ("224.0.0.0", 4), ("232.0.0.0", 8), (f"238.{self.draws.randrange(256)}.0.0", 16)))
        rps = tuple(self.rp() for _ in range(self.draws.choice((0, 1, 1, 2, 2, 3))))
        count = self.draws.choice((len(rps), len(rps), len(rps), len(rps) + 1, self.draws.randrange(4)))
        return RpRange(group, length, rps, count, self.draws.random() < 0.03, self.draws.random() < 0.02)

    def bootstrap(self) -> tuple[tuple[int, str], Bootstrap]:
        """A message, and by whom it is said."""
        by, bsr = self.draws.choice(((ABOVE, BSR), (ABOVE, BSR), (ABOVE, BSR), (ABOVE, OTHER_BSR), (BESIDE, BSR_BESIDE),
            (BELOW, BSR_BELOW), (STRANGER, BSR), (BELOW, BSR), (ABOVE, ABOVE[1]), (ABOVE, LOOPBACK)))
        ranges = tuple(self.range() for _ in range(self.draws.choice((0, 1, 1, 2, 3))))
        told = Bootstrap(bsr, ranges, self.draws.choice((7, 7, 7, 8)), self.draws.choice((30, 30, 30, 0, 8, 32)),
                         self.draws.choice((10, 10, 10, 11, 9)), self.draws.random() < 0.05)
        return by, told

    def spoilt(self) -> tuple[int, bytes]:
        """A message of random bytes, or a lawful one with some of them other ones."""
        by, told = self.bootstrap()
        body = bytearray(bootstrap_message(told))
        if self.draws.random() < 0.2:
            body[4:] = self.draws.randbytes(self.draws.randrange(60))
        for _ in range(self.draws.choice((0, 1, 2))):
            place = self.draws.randrange(4, max(5, len(body)))
            body[place:place + 1] = bytes([self.draws.choice((0, 1, 255, self.draws.randrange(256)))])
        return by[0], mended(packet(by[1], bytes(body)))

    def happen(self, heard: Heard) -> None:
        """One of what may happen."""
        what, = self.draws.choices(
            ("message", "again", "garbage", "wait", "routes", "neighbour", "link", "ranges", "choice"),
            (50, 8, 12, 25, 2, 3, 1, 2, 0.5))
        getattr(self, what)(heard)

    def message(self, heard: Heard) -> None:
        by, told = self.bootstrap()
        self.last = by[0], packet(by[1], bootstrap_message(told))
        self.frame(heard, *self.last)

    def again(self, heard: Heard) -> None:
        """The last message, once more."""
        if hasattr(self, "last"):
            self.frame(heard, *self.last)

    def garbage(self, heard: Heard) -> None:
        self.frame(heard, *self.spoilt())

    def frame(self, heard: Heard, iface: int, data: bytes) -> None:
        if iface in heard.wanted.around.up:
            heard.frame(iface, data)

    def wait(self, heard: Heard) -> None:
        end = heard.wanted.next_end()
        to_end = max(end - heard.wanted.around.now - self.draws.choice((0, 1)), 0) if end else 1
        heard.wait(self.draws.choice((0, 1, 10, 999, 1000, 20_000, 60_000, 130_000, to_end, to_end)))

    def routes(self, heard: Heard) -> None:
        heard.set_routes(self.draws.choice((ROUTES, ROUTES, OTHER_ROUTES, [])))

    def neighbour(self, heard: Heard) -> None:
        iface, whom = self.draws.choice((ABOVE, BESIDE, BELOW, STRANGER))
        if iface in heard.wanted.around.up:
            heard.hello(iface, whom, self.draws.choice((0xFFFF, 0xFFFF, 105, 0)))

    def link(self, heard: Heard) -> None:
        iface = self.draws.randrange(2)
        (heard.down if iface in heard.wanted.around.up else heard.up)(iface)

    def choice(self, heard: Heard) -> None:
        heard.choose({"range": "group", "group": "range"}[heard.wanted.choice])

    def ranges(self, heard: Heard) -> None:
        many = [(f"238.{at}.0.0/16", FIRST) for at in range(250)]
        static = self.draws.choice((STATIC, [], [("239.0.0.0/8", THIRD)], many))
        heard.configure(static, self.draws.choice((256, 256, 40, 5)))
