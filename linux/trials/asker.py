#!/usr/bin/env python3
"""A PIM router on a LAN that asks two others for the same source, so that both send there; for try_with_frr.

    asker.py INTERFACE ADDRESS SOURCE GROUP ROUTER OTHER SECONDS [RP]

With an RP it asks the first router for the group too. At the end it prints, as JSON, how many Asserts each of the two
sent, how many packets of the source each brought in all, and how many in the last three seconds. Who brought a packet
is told by its Ethernet address, as the Hellos have it.
"""
import json
import select
import socket
import struct
import sys
import time

PIM = 103
ALL_PIM_ROUTERS = bytes([224, 0, 0, 13])


def checksum(data: bytes) -> int:
    data += b"\0" * (len(data) % 2)
    total = sum(struct.unpack(f"!{len(data) // 2}H", data))
    while total >> 16:
        total = (total & 0xFFFF) + (total >> 16)
    return ~total & 0xFFFF


def pim(own: bytes, kind: int, content: bytes) -> bytes:
    message = struct.pack("!BBH", 0x20 | kind, 0, 0) + content
    message = message[:2] + struct.pack("!H", checksum(message)) + message[4:]
    header = struct.pack("!BBHHHBBH4s4s", 0x45, 0xC0, 20 + len(message), 0, 0, 1, PIM, 0, own, ALL_PIM_ROUTERS)
    return header[:10] + struct.pack("!H", checksum(header)) + header[12:] + message


def hello() -> bytes:
    return struct.pack("!HHH", 1, 2, 105) + struct.pack("!HHI", 20, 4, 77) + struct.pack("!HHI", 19, 4, 0)


SOURCE, RP_OF_ALL = 4, 7


def join(to: bytes, source: bytes, group: bytes, kind: int = SOURCE) -> bytes:
    """Of the source, or of all by an RP."""
    unicast = bytes([1, 0])
    head = unicast + to + struct.pack("!BBH", 0, 1, 210)
    return head + bytes([1, 0, 0, 32]) + group + struct.pack("!HH", 1, 0) + bytes([1, 0, kind, 32]) + source


class Heard:
    def __init__(self) -> None:
        self.hardware, self.asserts, self.packets = {}, {}, []

    def take(self, frame: bytes, source: bytes, group: bytes) -> None:
        packet = frame[14:]
        if len(packet) < 20 or frame[12:14] != b"\x08\x00":
            return
        sender = socket.inet_ntoa(packet[12:16])
        if packet[9] == PIM and packet[16:20] == ALL_PIM_ROUTERS:
            self.hardware[frame[6:12]] = sender
            if packet[20] & 15 == 5:
                self.asserts[sender] = self.asserts.get(sender, 0) + 1
        elif packet[12:20] == source + group:
            self.packets.append((time.monotonic(), frame[6:12]))

    def counted(self, since: float) -> dict[str, int]:
        counts = {}
        for moment, hardware in self.packets:
            if moment >= since:
                name = self.hardware.get(hardware, hardware.hex())
                counts[name] = counts.get(name, 0) + 1
        return counts


def main() -> None:
    interface = sys.argv[1]
    own, source, group, *routers = (socket.inet_aton(text) for text in sys.argv[2:7])
    seconds = float(sys.argv[7])
    rps = [socket.inet_aton(text) for text in sys.argv[8:]]
    link = socket.socket(socket.AF_PACKET, socket.SOCK_RAW, socket.htons(3))
    link.bind((interface, 0))
    out = socket.socket(socket.AF_PACKET, socket.SOCK_DGRAM, socket.htons(0x0800))
    ether = bytes([1, 0, 0x5E, 0, 0, 13])
    send = lambda kind, message: out.sendto(pim(own, kind, message), (interface, 0x0800, 0, 0, ether))
    heard, began, due = Heard(), time.monotonic(), 0.0
    # Groups outside the local ones come only where the card is asked for all.
    link.setsockopt(263, 1, struct.pack("IHH8s", socket.if_nametoindex(interface), 2, 0, b""))
    while (now := time.monotonic()) < began + seconds:
        if now >= due:
            due = now + 5
            send(0, hello())
        # Once: after an Assert a router would ask the winner alone.
        while rps:
            send(3, join(routers[0], rps.pop(), group, RP_OF_ALL))
        while routers and now >= began + 5:
            send(3, join(routers.pop(), source, group))
        if select.select([link], [], [], 0.2)[0]:
            heard.take(link.recv(65535), source, group)
    print(json.dumps({"asserts": heard.asserts, "all": heard.counted(0), "last": heard.counted(time.monotonic() - 3)}))


if __name__ == "__main__":
    main()
