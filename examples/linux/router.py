#!/usr/bin/env python3
"""A multicast router for Linux, around the library: an example, and no data plane, since each packet goes through
Python.

    router.py --library LIBRARY --rp GROUPS=ADDRESS [--rp ..] [--quiet] INTERFACE ..

It hears on the interfaces by packet sockets, takes the time of the machine's clock and its random numbers, reads the
kernel's IPv4 routes once and whenever they change, and sends what the router names, copies of data included. It prints
what comes and what leaves in words, and its tables where it is sent SIGUSR1. It needs the right to open packet sockets
(root, in a network namespace of its own: `try_with_frr` makes some).
"""
import argparse
import fcntl
import ipaddress
import json
import os
import select
import signal
import socket
import struct
import subprocess
import sys
import time
from pathlib import Path
from typing import Any

TOP = Path(__file__).resolve().parents[2]
sys.path.insert(0, str(TOP / "bindings" / "python" / "src"))
import viqeshor  # noqa: E402
from viqeshor.lab import packets, words  # noqa: E402

ETH_P_IP = 0x0800
SOL_PACKET, PACKET_ADD_MEMBERSHIP, PACKET_AUXDATA, PACKET_MR_ALLMULTI = 263, 1, 8, 2
TP_STATUS_CSUMNOTREADY = 8
PACKET_OUTGOING = 4
UDP, PIM = 17, 103
RTMGRP_LINK, RTMGRP_IPV4_ROUTE = 1, 0x40
SIOCGIFFLAGS, IFF_RUNNING = 0x8913, 0x40
# What a route of the kernel is taken to prefer.
PREFERENCE = 110


def asked(*words_of: str) -> Any:
    """What `ip` says, read as JSON."""
    said = subprocess.run(["ip", "-json", "-4", *words_of], check=True, capture_output=True, text=True).stdout
    return json.loads(said or "[]")


def filled(packet: bytes) -> bytes:
    """A packet whose sender left the UDP checksum to its card, with the checksum."""
    header, total = 4 * (packet[0] & 15), int.from_bytes(packet[2:4], "big")
    content = bytearray(packet[header:total])
    if packet[9] != UDP or len(content) < 8 or int.from_bytes(packet[6:8], "big") & 0x3FFF:
        return packet
    content[6:8] = b"\0\0"
    summed = packet[12:20] + bytes([0, UDP]) + len(content).to_bytes(2, "big") + content + b"\0" * (len(content) % 2)
    # In UDP 0 would say that there is none.
    checksum = -sum(struct.unpack(f"!{len(summed) // 2}H", summed)) % 0xFFFF or 0xFFFF
    content[6:8] = checksum.to_bytes(2, "big")
    return packet[:header] + bytes(content)


class Port:
    """An interface of the machine, with its packet socket."""

    def __init__(self, number: int, name: str) -> None:
        self.number, self.name, self.is_up, self.index = number, name, False, 0
        own = asked("address", "show", "dev", name)[0]["addr_info"][0]
        self.address, self.length = own["local"], own["prefixlen"]
        self.socket = socket.socket(socket.AF_PACKET, socket.SOCK_DGRAM, socket.htons(ETH_P_IP))
        self.socket.setsockopt(SOL_PACKET, PACKET_AUXDATA, 1)

    def bind(self) -> None:
        """To the interface that has the name now, if it is another one than before."""
        index = socket.if_nametoindex(self.name)
        if index != self.index:
            self.socket.bind((self.name, ETH_P_IP))
            all_groups = struct.pack("IHH8s", index, PACKET_MR_ALLMULTI, 0, b"")
            self.socket.setsockopt(SOL_PACKET, PACKET_ADD_MEMBERSHIP, all_groups)
            self.index = index

    def is_running(self) -> bool:
        request = struct.pack("16sH14s", self.name.encode(), 0, b"")
        try:
            flags = struct.unpack("16sH14s", fcntl.ioctl(self.socket, SIOCGIFFLAGS, request))[1]
            self.bind()
        except OSError:
            return False
        return bool(flags & IFF_RUNNING)

    def hear(self) -> bytes | None:
        """A packet that came; None for one that the machine itself sent, and where the interface went down."""
        try:
            packet, told, _, source = self.socket.recvmsg(65535, socket.CMSG_SPACE(20))
        except OSError:
            return None
        if source[2] == PACKET_OUTGOING or len(packet) < 20:
            return None
        packet = packet[: int.from_bytes(packet[2:4], "big")]
        status = next(
            (
                int.from_bytes(value[:4], sys.byteorder)
                for level, kind, value in told
                if (level, kind) == (SOL_PACKET, PACKET_AUXDATA)
            ),
            0,
        )
        return filled(packet) if status & TP_STATUS_CSUMNOTREADY else packet

    def send(self, packet: bytes) -> None:
        group = packet[16:20]
        ether = bytes([0x01, 0x00, 0x5E, group[1] & 0x7F, group[2], group[3]])
        self.socket.sendto(packet, (self.name, ETH_P_IP, 0, 0, ether))


class Machine:
    """The router, and the machine around it."""

    def __init__(self, arguments: argparse.Namespace) -> None:
        self.quiet, self.began = arguments.quiet, time.monotonic()
        self.ports = [Port(number, name) for number, name in enumerate(arguments.interfaces)]
        self.own = {packets.octets(port.address) for port in self.ports}
        ranges = [tuple(text.split("=")) for text in arguments.rp]
        at = [(port.address, port.length) for port in self.ports]
        self.router = viqeshor.Router(at, ranges, self.routes(), library=arguments.library)
        self.raw = socket.socket(socket.AF_INET, socket.SOCK_RAW, socket.IPPROTO_RAW)
        # With a socket for it, the kernel doesn't complain of PIM that comes to an address of its own.
        self.kernel = socket.socket(socket.AF_INET, socket.SOCK_RAW, PIM)
        self.changes = socket.socket(socket.AF_NETLINK, socket.SOCK_RAW, socket.NETLINK_ROUTE)
        self.changes.bind((0, RTMGRP_LINK | RTMGRP_IPV4_ROUTE))

    def now(self) -> int:
        """In ms."""
        return int((time.monotonic() - self.began) * 1000)

    def say(self, text: str) -> None:
        if not self.quiet:
            print(f"{self.now() / 1000:8.3f} {text}", flush=True)

    def routes(self) -> list[tuple[str, str, int, int, int]]:
        """The kernel's routes through routers on these interfaces."""
        numbers = {port.name: port.number for port in self.ports}
        found = {}
        for route in asked("route", "show"):
            if "gateway" in route and route.get("dev") in numbers:
                net = "0.0.0.0/0" if route["dst"] == "default" else str(ipaddress.IPv4Network(route["dst"]))
                found.setdefault(
                    net, (net, route["gateway"], numbers[route["dev"]], PREFERENCE, route.get("metric", 0))
                )
        return list(found.values())

    def done(self, answer: viqeshor.Answer, what: str) -> None:
        """Sends what an event named."""
        if answer:
            if what:
                self.say(f"{what}: answer {answer}")
            return
        for _, where, packet in self.router.packets():
            self.leave(where, packet)

    def leave(self, where: str | int, packet: bytes) -> None:
        try:
            if isinstance(where, str):
                self.say(f"sends to {where}: {told(packet)}")
                self.raw.sendto(packet, (where, 0))
            else:
                self.say(f"sends on {self.ports[where].name}: {told(packet)}")
                self.ports[where].send(packet)
        except OSError as error:
            self.say(f"  which is lost: {error.strerror}")

    def advance(self) -> None:
        self.done(self.router.advance(self.now()), "")

    def watch_links(self) -> None:
        for port in self.ports:
            is_up = port.is_running()
            if is_up != port.is_up:
                port.is_up = is_up
                self.say(f"{port.name} goes {'up' if is_up else 'down'}")
                self.done(self.router.up(port.number) if is_up else self.router.down(port.number), port.name)

    def changed(self) -> None:
        self.changes.recv(65535)
        self.advance()
        self.watch_links()
        self.done(self.router.set_routes(self.routes()), "routes")

    def hear(self, port: Port) -> None:
        packet = port.hear()
        if packet is None or not port.is_up or len(packet) < 20:
            return
        self.advance()
        if packets.is_multicast(packet[16:20]):
            self.say(f"hears on {port.name}: {told(packet)}")
            self.done(self.router.frame(port.number, packet), "  which is not taken")
        elif packet[9] == PIM and packet[16:20] in self.own:
            self.say(f"takes from {port.name}: {told(packet)}")
            self.done(self.router.unicast(packet), "  which is not taken")

    def print_tables(self) -> None:
        for line in self.router.tables():
            self.say(f"  {line}")

    def run(self) -> None:
        wake = os.pipe()
        os.set_blocking(wake[1], False)
        signal.set_wakeup_fd(wake[1])
        signal.signal(signal.SIGUSR1, lambda *_: None)
        self.watch_links()
        sources = {port.socket: port for port in self.ports}
        while True:
            moment = self.router.next_moment()
            wait = 1.0 if moment is None else max(0.0, min(1.0, moment / 1000 - (time.monotonic() - self.began)))
            ready = select.select([*sources, self.changes, self.kernel, wake[0]], [], [], wait)[0]
            self.advance()
            for one in ready:
                if one in sources:
                    self.hear(sources[one])
                elif one is self.changes:
                    self.changed()
                elif one is self.kernel:
                    self.kernel.recv(65535)
                else:
                    os.read(wake[0], 64)
                    self.print_tables()


def told(packet: bytes) -> str:
    """A packet in words."""
    return words.bytes_given(packet, packets.MOST_IN_A_UNICAST)


def main() -> None:
    parser = argparse.ArgumentParser(description=__doc__, formatter_class=argparse.RawDescriptionHelpFormatter)
    parser.add_argument("--library", required=True)
    parser.add_argument("--rp", action="append", default=[], metavar="GROUPS=ADDRESS")
    parser.add_argument("--quiet", action="store_true")
    parser.add_argument("interfaces", nargs="+", metavar="INTERFACE")
    Machine(parser.parse_args()).run()


if __name__ == "__main__":
    main()
