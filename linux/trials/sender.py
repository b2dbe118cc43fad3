#!/usr/bin/env python3
"""A host or a router that sends what others wouldn't; for the trials.

    sender.py INTERFACE ADDRESS reports COUNT [PAUSE [FIRST]]  IGMPv3 reports, each for 183 groups that are new, COUNT
                                                        groups in all, from 239.2.16.0 on or another one; it prints
                                                        when it begins, in seconds since 1970
    sender.py INTERFACE ADDRESS report GROUP ..         one report, in fragments where it is long
    sender.py INTERFACE ADDRESS older VERSION GROUP     a report of IGMPv1 or IGMPv2
    sender.py INTERFACE ADDRESS older-reports COUNT TIMES  a report of IGMPv2 for each of COUNT groups, so many times
    sender.py INTERFACE ADDRESS sources COUNT           a packet of data to each of COUNT groups
    sender.py INTERFACE ADDRESS hello SECONDS [TTL]     Hellos of a router with the highest priority
    sender.py INTERFACE ADDRESS hellos COUNT            a Hello of each of COUNT routers, beginning with the address
    sender.py INTERFACE ADDRESS flaps COUNT SECONDS     Hellos of COUNT routers, and their goodbyes, again and again; it
                                                        prints how many
    sender.py INTERFACE ADDRESS assert SOURCE GROUP     a Hello, and an Assert of metric 0
    sender.py INTERFACE ADDRESS joins TO RP FROM COUNT TIMES  a Hello, and a Join(*,G) of each of COUNT groups, from
                                                        239.2.64.0 and so many more on, so many times
    sender.py INTERFACE ADDRESS registers RP GROUP COUNT  a Register of each of COUNT sources
    sender.py INTERFACE ADDRESS carried RP GROUP TIMES  a Register with a query inside, and one with a report for 180
                                                        groups, both of 1.0.0.1, so many times
    sender.py INTERFACE ADDRESS bootstraps SECONDS HOLDTIME COUNT RP ..  each second a Hello, and a Bootstrap of this
                                                        address: COUNT ranges of 16 bits, from 239.41.0.0 on, with
                                                        these RPs each
    sender.py INTERFACE ADDRESS fragments FIRST SECONDS HOLDTIME COUNT RP ..  the same in a fragment for each RP, of
                                                        which the first so many are sent, or with -1 the last
    sender.py INTERFACE ADDRESS heard SECONDS           it prints a line, and then how many packets of 1.0.0.1 came
"""
import socket
import struct
import sys
import time

from asker import ALL_PIM_ROUTERS, PIM, checksum

IGMP = 2
ALL_IGMP_ROUTERS = bytes([224, 0, 0, 22])
RECORDS = 183
# Of what is carried in Registers: lower than any router's, so that its queries are the querier's.
LOWEST = bytes([1, 0, 0, 1])
TO_EX = 4
MTU = 1500


def ip(source: bytes, destination: bytes, protocol: int, content: bytes, flags: int = 0, ttl: int = 1) -> bytes:
    head = struct.pack("!BBHHHBBH4s4s", 0x45, 0xC0, 20 + len(content), 7, flags, ttl, protocol, 0, source, destination)
    return head[:10] + struct.pack("!H", checksum(head)) + head[12:] + content


def summed(message: bytes) -> bytes:
    return message[:2] + struct.pack("!H", checksum(message)) + message[4:]


def report(groups: list[bytes]) -> bytes:
    records = b"".join(bytes([TO_EX, 0, 0, 0]) + group for group in groups)
    return summed(struct.pack("!BBHHH", 0x22, 0, 0, 0, len(groups)) + records)


def hello(generation: int, seconds: int = 105, priority: int = 0xFFFFFFFF) -> bytes:
    holdtime, last = struct.pack("!HHH", 1, 2, seconds), struct.pack("!HHI", 19, 4, priority)
    return summed(bytes([0x20, 0, 0, 0]) + holdtime + struct.pack("!HHI", 20, 4, generation) + last)


def assertion(source: bytes, group: bytes) -> bytes:
    return summed(bytes([0x25, 0, 0, 0, 1, 0, 0, 32]) + group + bytes([1, 0]) + source + bytes(8))


def join(to: bytes, rp: bytes, group: bytes) -> bytes:
    head = bytes([0x23, 0, 0, 0, 1, 0]) + to + bytes([0, 1, 0, 210, 1, 0, 0, 32]) + group
    return summed(head + bytes([0, 1, 0, 0, 1, 0, 7, 32]) + rp)


def flaps(link: "Link", routers: list[bytes], seconds: float) -> int:
    end, count = time.monotonic() + seconds, 0
    messages = [hello(9, priority=0), hello(9, 0, 0)]
    while time.monotonic() < end:
        for own in routers:
            link.send(ip(own, ALL_PIM_ROUTERS, PIM, messages[count // len(routers) % 2]))
            count += 1
        time.sleep(0.005)
    return count


def register_of(packet: bytes) -> bytes:
    return summed(bytes([0x21, 0, 0, 0, 0, 0, 0, 0])) + packet


def register(source: bytes, group: bytes) -> bytes:
    data = ip(source, group, 17, struct.pack("!HHHH", 5004, 5004, 12, 0) + b"data", ttl=9)
    return register_of(data)


def carried(group: bytes) -> list[bytes]:
    """Registers with IGMP inside."""
    query = summed(bytes([0x11, 10, 0, 0, 0, 0, 0, 0, 2, 125, 0, 0]))
    messages = query, report([numbered("239.2.16.0", number) for number in range(180)])
    return [register_of(ip(LOWEST, group, IGMP, message, ttl=9)) for message in messages]


def bootstrap(bsr: bytes, tag: int, holdtime: int, count: int, rps: list[bytes], of: int) -> bytes:
    """A Bootstrap (RFC 5059, 4.1) with a hash mask of 30 bits and BSR priority 64: these RPs of so many of a range."""
    candidates = b"".join(bytes([1, 0]) + rp + struct.pack("!HBB", holdtime, 0, 0) for rp in rps)
    ranges = b"".join(bytes([1, 0, 0, 16, 239, 41 + number, 0, 0, of, len(rps), 0, 0]) + candidates
                      for number in range(count))
    return summed(bytes([0x24, 0, 0, 0]) + struct.pack("!HBB", tag, 30, 64) + bytes([1, 0]) + bsr + ranges)


def heard(interface: str, seconds: float) -> int:
    link = socket.socket(socket.AF_PACKET, socket.SOCK_DGRAM, socket.htons(0x0800))
    link.bind((interface, 0x0800))
    link.settimeout(0.2)
    print("listens", flush=True)
    end, count = time.monotonic() + seconds, 0
    while time.monotonic() < end:
        try:
            count += link.recv(65535)[12:16] == LOWEST
        except socket.timeout:
            continue
    return count


def numbered(first: str, number: int) -> bytes:
    return struct.pack("!I", struct.unpack("!I", socket.inet_aton(first))[0] + number)


class Link:
    def __init__(self, interface: str) -> None:
        self.interface = interface
        self.out = socket.socket(socket.AF_PACKET, socket.SOCK_DGRAM, socket.htons(0x0800))

    def send(self, packet: bytes) -> None:
        group = packet[16:20]
        hardware = bytes([1, 0, 0x5E, group[1] & 0x7F, group[2], group[3]])
        self.out.sendto(packet, (self.interface, 0x0800, 0, 0, hardware))

    def send_long(self, source: bytes, destination: bytes, protocol: int, content: bytes) -> None:
        room = (MTU - 20) & ~7
        for at in range(0, len(content), room):
            more = 0x2000 if at + room < len(content) else 0
            self.send(ip(source, destination, protocol, content[at:at + room], more | at // 8))


def main() -> None:
    interface, address, what, *rest = sys.argv[1:]
    link, own = Link(interface), socket.inet_aton(address)
    if what == "reports":
        count, pause = int(rest[0]), float(rest[1]) if len(rest) > 1 else 0.0
        begin = rest[2] if len(rest) > 2 else "239.2.16.0"
        named = [numbered(begin, number) for number in range(count)]
        parts = [named[first:first + RECORDS] for first in range(0, count, RECORDS)]
        packets = [ip(own, ALL_IGMP_ROUTERS, IGMP, report(groups)) for groups in parts]
        print(time.time())
        for packet in packets:
            link.send(packet)
            if pause:
                time.sleep(pause)
    elif what == "report":
        link.send_long(own, ALL_IGMP_ROUTERS, IGMP, report([socket.inet_aton(group) for group in rest]))
    elif what == "older":
        kind, group = {"1": 0x12, "2": 0x16}[rest[0]], socket.inet_aton(rest[1])
        link.send(ip(own, group, IGMP, summed(bytes([kind, 0, 0, 0]) + group)))
    elif what == "older-reports":
        groups = [numbered("239.2.16.0", number) for number in range(int(rest[0]))]
        packets = [ip(own, group, IGMP, summed(bytes([0x16, 0, 0, 0]) + group)) for group in groups]
        for number, packet in enumerate(packets * int(rest[1])):
            link.send(packet)
            if number % 64 == 63:
                time.sleep(0.004)
    elif what == "sources":
        for number in range(int(rest[0])):
            link.send(ip(own, numbered("239.2.16.0", number), 17, struct.pack("!HHHH", 5004, 5004, 8, 0), ttl=9))
            if number % 64 == 63:
                time.sleep(0.004)
    elif what == "hello":
        for number in range(int(rest[0])):
            link.send(ip(own, ALL_PIM_ROUTERS, PIM, hello(9), ttl=int(rest[1]) if len(rest) > 1 else 1))
            time.sleep(1)
    elif what == "hellos":
        for number in range(int(rest[0])):
            link.send(ip(numbered(address, number), ALL_PIM_ROUTERS, PIM, hello(number)))
    elif what == "flaps":
        print(flaps(link, [numbered(address, number) for number in range(int(rest[0]))], float(rest[1])))
    elif what == "assert":
        link.send(ip(own, ALL_PIM_ROUTERS, PIM, hello(9, priority=0)))
        time.sleep(0.2)
        link.send(ip(own, ALL_PIM_ROUTERS, PIM, assertion(*map(socket.inet_aton, rest))))
    elif what == "joins":
        to, rp = map(socket.inet_aton, rest[:2])
        first, count, times = map(int, rest[2:])
        link.send(ip(own, ALL_PIM_ROUTERS, PIM, hello(9, priority=0)))
        time.sleep(0.2)
        groups = [numbered("239.2.64.0", first + number) for number in range(count)]
        packets = [ip(own, ALL_PIM_ROUTERS, PIM, join(to, rp, group)) for group in groups]
        for number in range(count * times):
            link.send(packets[number % count])
            if number % 64 == 63:
                time.sleep(0.004)
    elif what in ("bootstraps", "fragments"):
        first = int(rest.pop(0)) if what == "fragments" else None
        seconds, holdtime, count = map(int, rest[:3])
        rps = [socket.inet_aton(rp) for rp in rest[3:]]
        parts = [rps] if first is None else [[rp] for rp in (rps[first:] if first < 0 else rps[:first])]
        for number in range(seconds):
            link.send(ip(own, ALL_PIM_ROUTERS, PIM, hello(9, priority=0)))
            for some in parts:
                message = bootstrap(own, number, holdtime, count, some, len(rps))
                link.send(ip(own, ALL_PIM_ROUTERS, PIM, message))
            time.sleep(1)
    elif what == "heard":
        print(heard(interface, float(rest[0])))
    elif what == "carried":
        rp, group = rest[0], socket.inet_aton(rest[1])
        out = socket.socket(socket.AF_INET, socket.SOCK_RAW, PIM)
        for packet in carried(group) * int(rest[2]):
            out.sendto(packet, (rp, 0))
    elif what == "registers":
        rp, group = socket.inet_aton(rest[0]), socket.inet_aton(rest[1])
        out = socket.socket(socket.AF_INET, socket.SOCK_RAW, PIM)
        for number in range(int(rest[2])):
            out.sendto(register(numbered("10.1.64.0", number), group), (socket.inet_ntoa(rp), 0))
            if number % 64 == 63:
                time.sleep(0.004)


if __name__ == "__main__":
    main()
