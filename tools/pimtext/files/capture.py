"""Captures, pcap and pcapng, read: the IPv4 packets in Ethernet, Linux cooked and raw frames, with their moments and
links."""
import struct
from collections.abc import Iterator
from dataclasses import dataclass
from pathlib import Path

ETHERNET, RAW, RAW_BSD, RAW_IPV4, NULL, LOOP, COOKED, COOKED_2 = 1, 101, 12, 228, 0, 108, 113, 276
LINK_TYPES = {
    ETHERNET: "Ethernet", RAW: "raw", RAW_BSD: "raw", RAW_IPV4: "raw IPv4", COOKED: "Linux cooked",
    COOKED_2: "Linux cooked 2", NULL: "null", LOOP: "null",
}
IPV4, VLAN = 0x0800, (0x8100, 0x88A8)
# What Linux says of a packet that this machine sends itself.
OUTGOING = 4
SECTION, INTERFACE, SIMPLE, ENHANCED = 0x0A0D0D0A, 1, 3, 6
NAME, RESOLUTION = 2, 9
# Microseconds of most files' timestamps.
MICRO, NANO = 10**6, 10**9


class Unreadable(Exception):
    """The file isn't a capture that is read here; the text is a sentence."""


@dataclass(frozen=True)
class Frame:
    """An IPv4 packet of a capture: its number in the file, seconds since 1970, the interface, whether the machine
    that captured sent it itself and its sender's hardware address, both None where the frame doesn't tell, and its
    bytes from the IP header on."""
    number: int
    moment: float
    link: str
    is_outgoing: bool | None
    hardware: bytes | None
    data: bytes


@dataclass(frozen=True)
class Port:
    """An interface of a capture: its kind of frames, its name, and ticks in a second."""
    kind: int
    name: str
    ticks: int


def unwrapped(kind: int, frame: bytes, name: str) -> tuple[str, bool | None, bytes | None, bytes] | None:
    """The interface, whether outgoing, the hardware address and the IP packet in a frame; None where that isn't
    IPv4."""
    if kind in (RAW, RAW_BSD, RAW_IPV4):
        return name, None, None, frame
    if kind in (NULL, LOOP):
        return name, None, None, frame[4:]
    if kind == ETHERNET:
        protocol, place = after_tags(frame, 12)
        return (name, None, frame[6:12], frame[place:]) if protocol == IPV4 else None
    if kind == COOKED and len(frame) >= 16:
        way, _, size = struct.unpack(">HHH", frame[:6])
        protocol, place = after_tags(frame, 14)
        return (name, way == OUTGOING, frame[6:6 + min(size, 8)], frame[place:]) if protocol == IPV4 else None
    if kind == COOKED_2 and len(frame) >= 20:
        protocol, _, index, _, way, size = struct.unpack(">HHIHBB", frame[:12])
        found = f"interface {index}", way == OUTGOING, frame[12:12 + min(size, 8)], frame[20:]
        return found if protocol == IPV4 else None
    return None


def after_tags(frame: bytes, place: int) -> tuple[int, int]:
    """The protocol at a place, past tags of VLANs, and where its packet begins."""
    protocol = int.from_bytes(frame[place:place + 2], "big")
    while protocol in VLAN:
        place += 4
        protocol = int.from_bytes(frame[place:place + 2], "big")
    return protocol, place + 2


def frame_of(number: int, moment: float, port: Port, content: bytes) -> Frame | None:
    """A packet of a capture, None where it isn't IPv4. What follows the IP packet in the frame is left out."""
    found = unwrapped(port.kind, content, port.name)
    if found is None or len(found[3]) < 20 or found[3][0] >> 4 != 4:
        return None
    link, is_outgoing, hardware, data = found
    return Frame(number, moment, link, is_outgoing, hardware, data[:max(20, int.from_bytes(data[2:4], "big"))])


# ---- pcap

MAGICS = {0xA1B2C3D4: MICRO, 0xA1B23C4D: NANO}


def classic(content: bytes, order: str, ticks: int) -> Iterator[Frame | None]:
    """The packets of a pcap file."""
    kind = struct.unpack(order + "I", content[20:24])[0] & 0x0FFFFFFF
    port, place, number = Port(known_kind(kind), "link", ticks), 24, 0
    while place + 16 <= len(content):
        seconds, part, size, _ = struct.unpack(order + "IIII", content[place:place + 16])
        number += 1
        yield frame_of(number, seconds + part / ticks, port, content[place + 16:place + 16 + size])
        place += 16 + size


def known_kind(kind: int) -> int:
    if kind not in LINK_TYPES:
        raise Unreadable(f"frames of the kind {kind} aren't read: {', '.join(dict.fromkeys(LINK_TYPES.values()))} are")
    return kind


# ---- pcapng


def blocks(content: bytes) -> Iterator[tuple[int, bytes, str]]:
    """The blocks of a file: kind, body and the order of bytes of their section."""
    place, order = 0, "<"
    while place + 12 <= len(content):
        if content[place:place + 4] == b"\x0a\x0d\x0d\x0a":
            order = "<" if content[place + 8:place + 12] == b"\x4d\x3c\x2b\x1a" else ">"
        kind, size = struct.unpack(order + "II", content[place:place + 8])
        if size < 12 or place + size > len(content):
            return
        yield kind, content[place + 8:place + size - 4], order
        place += size


def options(content: bytes, order: str) -> dict[int, bytes]:
    """The options of a block, by their codes."""
    place, found = 0, {}
    while place + 4 <= len(content):
        code, size = struct.unpack(order + "HH", content[place:place + 4])
        found.setdefault(code, content[place + 4:place + 4 + size])
        place += 4 + size + -size % 4
    return found


def port_of(body: bytes, order: str, number: int) -> Port:
    kind = struct.unpack(order + "H", body[:2])[0]
    told = options(body[8:], order)
    resolution = told.get(RESOLUTION, b"\6")[0]
    ticks = 2 ** (resolution & 127) if resolution & 128 else 10**resolution
    return Port(known_kind(kind), told.get(NAME, b"").decode("utf-8", "replace") or f"link {number}", ticks)


def next_generation(content: bytes, names: list[str]) -> Iterator[Frame | None]:
    """The packets of a pcapng file; the names of its interfaces are added to a list."""
    ports, number = [], 0
    for kind, body, order in blocks(content):
        if kind == SECTION:
            ports = []
        elif kind == INTERFACE:
            ports.append(port_of(body, order, len(ports)))
            names.append(ports[-1].name)
        elif kind in (ENHANCED, SIMPLE):
            number += 1
            yield block_packet(kind, body, order, number, ports)


def block_packet(kind: int, body: bytes, order: str, number: int, ports: list[Port]) -> Frame | None:
    if kind == SIMPLE:
        return frame_of(number, 0.0, ports[0], body[4:])
    at, high, low, size = struct.unpack(order + "IIII", body[:16])
    if at >= len(ports):
        raise Unreadable(f"packet {number} is of the interface {at}, which isn't there")
    return frame_of(number, (high << 32 | low) / ports[at].ticks, ports[at], body[20:20 + size])


@dataclass(frozen=True)
class Capture:
    """All IPv4 packets of a capture, in their order, and the names of the interfaces that it tells."""
    frames: list
    names: list


def read(path: Path) -> Capture:
    """A capture; raises Unreadable."""
    content, names = path.read_bytes(), []
    if content[:4] == b"\x0a\x0d\x0d\x0a":
        found = next_generation(content, names)
    else:
        is_long = len(content) >= 24
        orders = [order for order in "<>" if is_long and struct.unpack(order + "I", content[:4])[0] in MAGICS]
        if not orders:
            raise Unreadable("it is neither pcap nor pcapng")
        found = classic(content, orders[0], MAGICS[struct.unpack(orders[0] + "I", content[:4])[0]])
    return Capture([frame for frame in found if frame is not None], names)
