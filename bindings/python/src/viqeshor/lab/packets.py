"""IPv4, PIM version 2 and IGMP version 3 packets, read and written.

Readings are strict, by the formats of RFC 791, RFC 7761 (4.9) and RFC 3376 (4): the first test that fails is raised as
`Refused` with the number of the refusal, as docs/SCENARIOS.md lists them. They stand on no code of the router.
Addresses are dotted text.
"""
from __future__ import annotations

import functools
from collections.abc import Sequence
from dataclasses import dataclass, field
from ipaddress import IPv4Address, IPv4Network
from typing import Any

SHORT, VERSION, CHECKSUM, LENGTH, ADDRESS, GROUP, OLD, UNKNOWN, FRAGMENT = range(1, 10)
IGMP, UDP, PIM = 2, 17, 103
ALL_PIM_ROUTERS = bytes((224, 0, 0, 13))
# The type of service of routing protocols, and the option that routers look at.
ROUTING = 0xC0
ROUTER_ALERT = b"\x94\x04\0\0"
# The longest packet that comes on a link, and the longest one that comes as a unicast: a Register with such a one in
# it.
MOST_IN_A_FRAME, MOST_IN_A_UNICAST = 1500, 1528
HELLO, REGISTER, REGISTER_STOP, JOIN_PRUNE, BOOTSTRAP, ASSERT = range(6)
RECORD_KINDS = {1: "IS_IN", 2: "IS_EX", 3: "TO_IN", 4: "TO_EX", 5: "ALLOW", 6: "BLOCK"}
INFINITE = (0x7FFFFFFF, 0xFFFFFFFF)


class Refused(Exception):
    """A test of the reading failed; the first argument is the refusal's number."""


def expect(holds: bool, number: int) -> None:
    if not holds:
        raise Refused(number)


def word(data: bytes, place: int) -> int:
    return int.from_bytes(data[place:place + 2], "big")


def sum16(data: bytes) -> int:
    """The one's complement of the one's complement sum of 16-bit words; an odd length is padded by a zero."""
    total = sum(word(data + b"\0", place) for place in range(0, len(data), 2))
    while total > 0xFFFF:
        total = (total & 0xFFFF) + (total >> 16)
    return total ^ 0xFFFF


def dotted(data: bytes) -> str:
    return ".".join(map(str, data))


@functools.lru_cache(maxsize=65536)
def octets(address: str) -> bytes:
    """Raises a ValueError where the text is no address."""
    return IPv4Address(address).packed


def is_multicast(data: bytes) -> bool:
    return 224 <= data[0] < 240


def is_host(data: bytes) -> bool:
    return data[0] < 224 and any(data)


def is_pim(data: bytes, kind: int) -> bool:
    """Whether a whole packet on a link is a PIM message of this type."""
    return data[9] == PIM and data[16:20] == ALL_PIM_ROUTERS and data[4 * (data[0] & 15)] & 15 == kind


# ---- what packets say


@dataclass(frozen=True)
class Hello:
    """Options that aren't there are None. Times in ms but for the holdtime, which is in seconds."""
    holdtime: int | None = None
    propagation: int | None = None
    override: int | None = None
    priority: int | None = None
    generation: int | None = None


@dataclass(frozen=True)
class Register:
    is_null: bool
    inner: "Packet"


@dataclass(frozen=True)
class RegisterStop:
    group: str
    source: str


@dataclass(frozen=True)
class Entry:
    """A source that is joined or pruned: for a shared tree it is the RP, with both bits."""
    source: str
    mask: int
    wildcard: bool
    rpt: bool


@dataclass(frozen=True)
class GroupEntries:
    group: str
    mask: int
    joins: tuple
    prunes: tuple


@dataclass(frozen=True)
class JoinPrune:
    upstream: str
    holdtime: int
    groups: tuple


@dataclass(frozen=True)
class Assert:
    group: str
    mask: int
    source: str
    rpt: bool
    preference: int
    metric: int

    def is_infinite(self) -> bool:
        return self.rpt and (self.preference, self.metric) == INFINITE


@dataclass(frozen=True)
class OtherPim:
    """A message that a router alone doesn't read, with its bytes."""
    kind: int
    message: bytes = field(default=b"", repr=False)


@dataclass(frozen=True)
class CandidateRp:
    address: str
    holdtime: int = 150
    priority: int = 0


@dataclass(frozen=True)
class RpRange:
    """A range of groups with its RPs in this fragment, and how many it has in all."""
    group: str
    length: int
    rps: tuple[CandidateRp, ...] = ()
    count: int = 0
    is_bidir: bool = False
    is_zone: bool = False

    def prefix(self) -> IPv4Network:
        return IPv4Network((self.group, self.length), strict=False)


@dataclass(frozen=True)
class Bootstrap:
    """RFC 5059, section 4.1."""
    bsr: str
    ranges: tuple[RpRange, ...] = ()
    tag: int = 7
    hash_length: int = 30
    priority: int = 10
    no_forward: bool = False


@dataclass(frozen=True)
class Query:
    """`response` is in tenths of a second, `interval` in seconds. Group 0.0.0.0 asks for all groups."""
    group: str
    sources: tuple
    response: int
    suppress: bool
    robustness: int
    interval: int


@dataclass(frozen=True)
class Record:
    kind: int
    group: str
    sources: tuple


@dataclass(frozen=True)
class Report:
    records: tuple


@dataclass(frozen=True)
class Data:
    """Ports are None where the packet isn't a whole UDP packet; then all that follows the IP header is the payload."""
    payload: bytes
    source_port: int | None = None
    destination_port: int | None = None


@dataclass(frozen=True)
class Packet:
    source: str
    destination: str
    ttl: int
    protocol: int
    size: int
    body: Hello | Register | RegisterStop | JoinPrune | Assert | OtherPim | Query | Report | Data


# ---- readings


class Fields:
    """The fields of a message, from first to last."""

    def __init__(self, data: bytes, place: int = 0) -> None:
        self.data, self.place = data, place

    def take(self, count: int) -> bytes:
        expect(self.place + count <= len(self.data), SHORT)
        self.place += count
        return self.data[self.place - count:self.place]

    def number(self, size: int = 2) -> int:
        return int.from_bytes(self.take(size), "big")

    def is_left(self) -> bool:
        return self.place < len(self.data)

    def addresses(self, count: int) -> tuple[str, ...]:
        taken = self.take(4 * count)
        return tuple(dotted(taken[place:place + 4]) for place in range(0, len(taken), 4))

    def encoded(self, size: int) -> bytes:
        """An encoded address of so many bytes, its family and encoding read."""
        field = self.take(size)
        expect(field[:2] == b"\1\0", ADDRESS)
        return field[2:]

    def unicast(self) -> bytes:
        return self.encoded(6)

    def group(self) -> tuple[str, int]:
        """The group and its mask."""
        field = self.encoded(8)
        expect(is_multicast(field[2:]), GROUP)
        return dotted(field[2:]), field[1]

    def source(self) -> Entry:
        field = self.encoded(8)
        return Entry(dotted(field[2:]), field[1], bool(field[0] & 2), bool(field[0] & 1))


def read_hello(fields: Fields) -> Hello:
    known = {1: ("holdtime", 2), 2: ("delay", 4), 19: ("priority", 4), 20: ("generation", 4)}
    found = {}
    while fields.is_left():
        kind, length = fields.number(), fields.number()
        name, size = known.get(kind, (None, length))
        expect(length == size, LENGTH)
        found[name] = int.from_bytes(fields.take(length), "big")
    delay = found.pop("delay", None)
    found.pop(None, None)
    if delay is None:
        return Hello(**found)
    return Hello(propagation=delay >> 16 & 0x7FFF, override=delay & 0xFFFF, **found)


def read_null(inner: bytes) -> Packet:
    """The packet in a Null-Register: a header alone, of which only the addresses count."""
    expect(len(inner) >= 20, SHORT)
    expect(inner[10:12] == b"\0\0" or sum16(inner[:20]) == 0, CHECKSUM)
    return Packet(dotted(inner[12:16]), dotted(inner[16:20]), inner[8], inner[9], len(inner), Data(b""))


def read_register(fields: Fields) -> Register:
    is_null, inner = bool(fields.take(4)[0] & 0x40), fields.data[8:]
    packet = read_null(inner) if is_null else read_data(inner)
    expect(is_host(octets(packet.source)), ADDRESS)
    expect(is_multicast(octets(packet.destination)), GROUP)
    return Register(is_null, packet)


def read_register_stop(fields: Fields) -> RegisterStop:
    return RegisterStop(fields.group()[0], dotted(fields.unicast()))


def read_group_entries(fields: Fields) -> GroupEntries:
    group, mask = fields.group()
    joins, prunes = fields.number(), fields.number()
    sources = [fields.source() for _ in range(joins + prunes)]
    return GroupEntries(group, mask, tuple(sources[:joins]), tuple(sources[joins:]))


def read_join_prune(fields: Fields) -> JoinPrune:
    upstream = dotted(fields.unicast())
    groups, holdtime = fields.take(2)[1], fields.number()
    return JoinPrune(upstream, holdtime, tuple(read_group_entries(fields) for _ in range(groups)))


def read_assert(fields: Fields) -> Assert:
    group, mask = fields.group()
    source = fields.unicast()
    expect(source[0] < 224, ADDRESS)
    preference, metric = fields.number(4), fields.number(4)
    return Assert(group, mask, dotted(source), bool(preference >> 31), preference & 0x7FFFFFFF, metric)


PIM_READERS = {
    HELLO: read_hello, REGISTER: read_register, REGISTER_STOP: read_register_stop, JOIN_PRUNE: read_join_prune,
    ASSERT: read_assert,
}


def read_pim(data: bytes) -> Hello | Register | RegisterStop | JoinPrune | Assert | OtherPim:
    expect(len(data) >= 4, SHORT)
    expect(data[0] >> 4 == 2, VERSION)
    kind = data[0] & 15
    expect(kind != REGISTER or len(data) >= 8, SHORT)
    expect(sum16(data) == 0 or (kind == REGISTER and sum16(data[:8]) == 0), CHECKSUM)
    return PIM_READERS[kind](Fields(data, 4)) if kind in PIM_READERS else OtherPim(kind, data)


def read_host(fields: Fields) -> str:
    """An encoded address of a host."""
    address = fields.unicast()
    expect(is_host(address), ADDRESS)
    return dotted(address)


def read_candidate(fields: Fields) -> CandidateRp:
    address, holdtime = read_host(fields), fields.number()
    return CandidateRp(address, holdtime, fields.take(2)[0])


def read_rp_range(fields: Fields) -> RpRange:
    flags = fields.data[fields.place + 2:fields.place + 3]
    group, length = fields.group()
    expect(4 <= length <= 32, LENGTH)
    count, here, *_ = fields.take(4)
    rps = tuple(read_candidate(fields) for _ in range(here))
    return RpRange(group, length, rps, count, bool(flags[0] & 0x80), bool(flags[0] & 1))


def read_bootstrap(message: bytes) -> Bootstrap:
    """A whole PIM message of this type, its header read, as a router reads it that listens for them."""
    fields = Fields(message, 4)
    tag, hash_length, priority = fields.number(), *fields.take(2)
    expect(hash_length <= 32, LENGTH)
    bsr, ranges = read_host(fields), []
    while fields.is_left():
        ranges.append(read_rp_range(fields))
    return Bootstrap(bsr, tuple(ranges), tag, hash_length, priority, bool(message[1] & 0x80))


def code_value(code: int) -> int:
    """What a byte of a query means: below 128 itself, else a mantissa and an exponent."""
    return code if code < 128 else (code & 15 | 16) << ((code >> 4 & 7) + 3)


def read_query(data: bytes) -> Query:
    expect(len(data) != 8, OLD)
    expect(len(data) >= 12, LENGTH)
    expect(not any(data[4:8]) or is_multicast(data[4:8]), GROUP)
    fields = Fields(data, 10)
    sources = fields.addresses(fields.number())
    return Query(dotted(data[4:8]), sources, code_value(data[1]), bool(data[8] & 8), data[8] & 7, code_value(data[9]))


def read_record(fields: Fields) -> Record:
    kind, auxiliary = fields.take(2)
    count = fields.number()
    group = fields.take(4)
    expect(is_multicast(group) or kind not in RECORD_KINDS, GROUP)
    sources = fields.addresses(count)
    fields.take(4 * auxiliary)
    return Record(kind, dotted(group), sources)


def read_report(data: bytes) -> Report:
    fields = Fields(data, 6)
    return Report(tuple(read_record(fields) for _ in range(fields.number())))


def read_igmp(data: bytes) -> Query | Report:
    expect(len(data) >= 8, SHORT)
    expect(sum16(data) == 0, CHECKSUM)
    expect(data[0] not in (0x12, 0x16, 0x17), OLD)
    expect(data[0] in (0x11, 0x22), UNKNOWN)
    return read_query(data) if data[0] == 0x11 else read_report(data)


def read_header(data: bytes, limit: int) -> tuple[dict[str, Any], bytes]:
    """The header's fields of an IPv4 packet, by their names, and what it carries."""
    expect(len(data) <= limit, LENGTH)
    expect(len(data) >= 20, SHORT)
    expect(data[0] >> 4 == 4, VERSION)
    header, total = 4 * (data[0] & 15), word(data, 2)
    expect(header >= 20, LENGTH)
    expect(total >= header, LENGTH)
    expect(len(data) >= total, SHORT)
    expect(sum16(data[:header]) == 0, CHECKSUM)
    expect(word(data, 6) & 0x3FFF == 0, FRAGMENT)
    expect(data[12] < 224 and (any(data[12:16]) or data[9] == IGMP), ADDRESS)
    head = {
        "source": dotted(data[12:16]),
        "destination": dotted(data[16:20]),
        "ttl": data[8],
        "protocol": data[9],
        "size": total,
    }
    return head, data[header:total]


def data_packet(head: dict[str, Any], content: bytes) -> Packet:
    is_udp = head["protocol"] == UDP and len(content) >= 8 and word(content, 4) == len(content)
    body = Data(content[8:], word(content, 0), word(content, 2)) if is_udp else Data(content)
    return Packet(**head, body=body)


def read(data: bytes, limit: int = MOST_IN_A_UNICAST) -> Packet:
    """The packet that these bytes are, from the IP header on. Raises Refused."""
    head, content = read_header(data, limit)
    reader = {PIM: read_pim, IGMP: read_igmp}.get(head["protocol"])
    return Packet(**head, body=reader(content)) if reader else data_packet(head, content)


def read_on_link(data: bytes) -> Packet:
    """The same as a router takes it on a link: what claims to be PIM and goes to another group than that of all PIM
    routers is data."""
    is_data = data[9:10] == bytes([PIM]) and data[16:20] != ALL_PIM_ROUTERS
    return read_data(data) if is_data else read(data, MOST_IN_A_FRAME)


def read_data(data: bytes) -> Packet:
    """The same, whatever it carries: a copy that a router forwards is data."""
    return data_packet(*read_header(data, MOST_IN_A_FRAME))


def refusal(data: bytes, limit: int) -> int | None:
    """The refusal of a packet, None where it is lawful."""
    try:
        read(data, limit)
    except Refused as refused:
        return refused.args[0]
    return None


# ---- writings


def with_number(data: bytes, place: int, number: int, size: int = 2) -> bytes:
    return data[:place] + (number % 256 ** size).to_bytes(size, "big") + data[place + size:]


def write(
    protocol: int, source: str, destination: str, ttl: int, body: bytes, options: bytes = b"", service: int = 0
) -> bytes:
    """An IPv4 packet; options are a multiple of four bytes."""
    length = 20 + len(options)
    head = bytes([0x40 + length // 4, service]) + (length + len(body)).to_bytes(2, "big")
    head += bytes([0, 0, 0, 0, ttl, protocol, 0, 0]) + octets(source) + octets(destination) + options
    return with_header_sum(head) + body


def with_header_sum(data: bytes) -> bytes:
    """With the right checksum of the IP header."""
    return with_number(data, 10, sum16(with_number(data[:4 * (data[0] & 15)], 10, 0)))


def aged(data: bytes) -> bytes:
    """A packet with a TTL lower by one, and nothing else changed."""
    return with_header_sum(with_number(data, 8, data[8] - 1, 1))


def write_igmp(source: str, destination: str, message: bytes, service: int = 0) -> bytes:
    """An IGMP message with its checksum."""
    return write(IGMP, source, destination, 1, with_number(message, 2, sum16(message)), ROUTER_ALERT, service)


def encoded_record(record: Record) -> bytes:
    """A record of a report."""
    head = bytes([record.kind, 0]) + len(record.sources).to_bytes(2, "big") + octets(record.group)
    return head + b"".join(map(octets, record.sources))


def write_report(host: str, records: Sequence[Record], service: int = 0) -> bytes:
    """What a host tells its routers by IGMPv3."""
    body = bytes([0x22, 0, 0, 0, 0, 0]) + len(records).to_bytes(2, "big") + b"".join(map(encoded_record, records))
    return write_igmp(host, "224.0.0.22", body, service)


def write_older(host: str, group: str, version: int = 2, is_leave: bool = False) -> bytes:
    """What a host tells its routers by IGMPv1 or IGMPv2: that it wants a group, or, by IGMPv2 alone, wants it no more.
    By IGMPv1 there is no Router Alert."""
    body = bytes([0x17 if is_leave else {1: 0x12, 2: 0x16}[version], 0, 0, 0]) + octets(group)
    if version == 1:
        return write(IGMP, host, group, 1, with_number(body, 2, sum16(body)))
    return write_igmp(host, "224.0.0.2" if is_leave else group, body)


def write_data(source: str, group: str, payload: bytes, ttl: int = 16, port: int = 5000) -> bytes:
    """A UDP packet with its checksum."""
    size = 8 + len(payload)
    body = port.to_bytes(2, "big") * 2 + size.to_bytes(2, "big") + b"\0\0" + payload
    pseudo = octets(source) + octets(group) + bytes([0, UDP]) + size.to_bytes(2, "big")
    return write(UDP, source, group, ttl, with_number(body, 6, sum16(pseudo + body) or 0xFFFF))


def write_pim(kind: int, source: str, destination: str, ttl: int, content: bytes) -> bytes:
    """A PIM message; the checksum of a Register is over its first 8 bytes."""
    body = bytes([0x20 | kind, 0, 0, 0]) + content
    sum_of = body[:8] if kind == REGISTER else body
    return write(PIM, source, destination, ttl, with_number(body, 2, sum16(sum_of)), service=ROUTING)


def write_register(source: str, rp: str, inner: bytes, is_null: bool = False) -> bytes:
    return write_pim(REGISTER, source, rp, 64, bytes([0x40 * is_null, 0, 0, 0]) + inner)


def write_to_routers(kind: int, source: str, content: bytes) -> bytes:
    return write_pim(kind, source, dotted(ALL_PIM_ROUTERS), 1, content)


def encoded_unicast(address: str) -> bytes:
    return b"\1\0" + octets(address)


def encoded_group(group: str, mask: int) -> bytes:
    return bytes([1, 0, 0, mask]) + octets(group)


def encoded_source(entry: Entry) -> bytes:
    return bytes([1, 0, 4 | 2 * entry.wildcard | entry.rpt, entry.mask]) + octets(entry.source)


def write_hello(source: str, hello: Hello) -> bytes:
    """With the options that are there; the delays are one option."""
    options = [(1, 2, hello.holdtime), (19, 4, hello.priority), (20, 4, hello.generation)]
    if hello.propagation is not None:
        options.insert(1, (2, 4, hello.propagation << 16 | hello.override))
    told = [number for number in options if number[2] is not None]
    content = b"".join(bytes([0, code, 0, size]) + value.to_bytes(size, "big") for code, size, value in told)
    return write_to_routers(HELLO, source, content)


def shared_join(group: str, rp: str) -> GroupEntries:
    """The entries that join a shared tree."""
    return GroupEntries(group, 32, (Entry(rp, 32, True, True),), ())


def write_join_prune(source: str, upstream: str, groups: Sequence[GroupEntries], holdtime: int = 210) -> bytes:
    content = encoded_unicast(upstream) + bytes([0, len(groups)]) + holdtime.to_bytes(2, "big")
    return write_to_routers(JOIN_PRUNE, source, content + b"".join(map(encoded_entries, groups)))


def encoded_entries(group: GroupEntries) -> bytes:
    """A group of a Join/Prune with its sources."""
    counts = len(group.joins).to_bytes(2, "big") + len(group.prunes).to_bytes(2, "big")
    return (
        encoded_group(group.group, group.mask) + counts + b"".join(map(encoded_source, (*group.joins, *group.prunes)))
    )


def write_assert(source: str, told: Assert) -> bytes:
    preference = told.rpt << 31 | told.preference
    content = encoded_group(told.group, told.mask) + encoded_unicast(told.source)
    return write_to_routers(ASSERT, source, content + preference.to_bytes(4, "big") + told.metric.to_bytes(4, "big"))


def encoded_rp_range(told: RpRange) -> bytes:
    head = bytes([1, 0, 0x80 * told.is_bidir | told.is_zone, told.length]) + octets(told.group)
    rps = (encoded_unicast(rp.address) + rp.holdtime.to_bytes(2, "big") + bytes([rp.priority, 0]) for rp in told.rps)
    return head + bytes([told.count, len(told.rps), 0, 0]) + b"".join(rps)


def bootstrap_message(told: Bootstrap) -> bytes:
    """The message alone, with its checksum."""
    head = told.tag.to_bytes(2, "big") + bytes([told.hash_length, told.priority]) + encoded_unicast(told.bsr)
    body = bytes([0x20 | BOOTSTRAP, 0x80 * told.no_forward, 0, 0]) + head + b"".join(map(encoded_rp_range, told.ranges))
    return with_number(body, 2, sum16(body))
