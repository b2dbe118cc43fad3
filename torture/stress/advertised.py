"""Candidate-RP-Advertisements (RFC 5059, section 4.2), written and read, and what a router sent, for the reading of
stress.standing."""
from __future__ import annotations

import math
from collections import Counter
from collections.abc import Iterable
from dataclasses import dataclass
from ipaddress import IPv4Address

from viqeshor.lab import packets
from viqeshor.lab.packets import expect

# In seconds (4.2).
HOLDTIME = 150
ADVERTISEMENT = 8


class Differs(Exception):
    """What the router did beside what it has to do."""


@dataclass(frozen=True)
class AsBsr:
    address: str
    priority: int = 64
    hash_length: int = 30
    limit: int = 255

    def weight(self) -> tuple[int, int]:
        return self.priority, int(IPv4Address(self.address))


@dataclass(frozen=True)
class AsRp:
    address: str
    priority: int
    ranges: tuple[str, ...]


@dataclass(frozen=True)
class Advertised:
    """A Candidate-RP-Advertisement (4.2): each range with its B bit."""
    rp: str
    ranges: tuple[tuple[str, int, bool], ...]
    priority: int = 192
    holdtime: int = HOLDTIME


def advertisement_message(told: Advertised) -> bytes:
    head = bytes([0x20 | ADVERTISEMENT, 0, 0, 0, len(told.ranges), told.priority]) + told.holdtime.to_bytes(2, "big")
    groups = (bytes([1, 0, 0x80 * bidir, length]) + packets.octets(group) for group, length, bidir in told.ranges)
    body = head + packets.encoded_unicast(told.rp) + b"".join(groups)
    return packets.with_number(body, 2, packets.sum16(body))


def read_range(fields: packets.Fields) -> tuple[str, int, bool]:
    flags = fields.data[fields.place + 2:fields.place + 3]
    group, length = fields.group()
    expect(4 <= length <= 32, packets.LENGTH)
    return group, length, bool(flags[0] & 0x80)


def read_advertisement(message: bytes) -> Advertised:
    fields = packets.Fields(message, 4)
    count, priority = fields.take(2)
    holdtime, rp = fields.number(), packets.read_host(fields)
    return Advertised(rp, tuple(read_range(fields) for _ in range(count)), priority, holdtime)


def advertisement_packet(source: str, bsr: str, body: bytes) -> bytes:
    return packets.write(packets.PIM, source, bsr, 64, body, service=packets.ROUTING)


def override(own: AsBsr, stored: AsBsr | None) -> float:
    """BS_Rand_Override in ms, as section 5 has it."""
    known = [own, stored] if stored else [own]
    priority, address = max(it.priority for it in known), max(it.weight()[1] for it in known)
    mine = own.weight()[1]
    by_address = math.log2(1 + address - mine) / 16 if priority == own.priority else 2 - mine / 2**31
    return 1000 * (5 + 2 * math.log2(1 + priority - own.priority) + by_address)


class Sent:
    """What a router sent at a call, which the reading takes piece by piece."""

    def __init__(self, sent: Iterable[tuple[str, int | str, bytes]]) -> None:
        self.left = Counter(map(tuple, sent))

    def expect(self, kind: str, where: int | str, data: bytes) -> None:
        if not self.left[kind, where, data]:
            raise Differs(f"it doesn't send {kind} {where} {data.hex()}; it sends {list(self.left.elements())}")
        self.left[kind, where, data] -= 1

    def own_messages(self, bsr: str) -> list[tuple[int, bytes]]:
        """The Bootstraps of a BSR, each with its interface, and they are taken."""
        found = [(where, data) for kind, where, data in self.left.elements()
                 if kind == "frame" and packets.is_pim(data, packets.BOOTSTRAP) and bsr_of(data) == bsr]
        self.left = +Counter({each: count for each, count in self.left.items() if each[1:] not in found})
        return found

    def end(self) -> None:
        if left := list(self.left.elements()):
            raise Differs(f"it sends what it needn't: {[(kind, where, data.hex()) for kind, where, data in left]}")


def content(data: bytes) -> bytes:
    return data[4 * (data[0] & 15):packets.word(data, 2)]


def bsr_of(data: bytes) -> str:
    return packets.dotted(content(data)[10:14])
