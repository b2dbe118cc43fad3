"""Two domains with an RP each, which tell each other of their sources by MSDP: this router, and FRR's pimd.

    west-host -- west -- own-rp -- frr-rp -- east-host

The links are 10.71.0.0/24 to 10.74.0.0/24. West is a router of these too, the DR of its host, and registers with
own-rp; frr-rp is DR and RP itself. The side with the higher address listens: that is FRR, or the router.
"""
from __future__ import annotations

import json
import subprocess
import time
from typing import TYPE_CHECKING

from trials.network import AS_SERVICE, PIMD, Failed, inside, run, until

if TYPE_CHECKING:
    from typing import Any

    from trials.network import Network

# Who listens at port 639 has one right more.
WITH_PORT = [word.replace("+net_raw", "+net_raw,+net_bind_service") for word in AS_SERVICE]
GROUPS = "239.61.0.0/16"
TO_EAST, TO_WEST, LATER, OUTSIDE = "239.61.1.1", "239.61.1.2", "239.61.1.3", "239.61.9.9"
WEST_HOST, EAST_HOST = "10.71.0.50", "10.74.0.50"
RATE, SECONDS = 50, 16
# A session that is cut comes back after the ConnectRetry-Period, 30 s.
RETRY = 50
HOSTILE = [b"GET / HTTP/1.1\r\n\r\n", b"\x01\x00\x00", b"\x01\xff\xff" + bytes(50_000), bytes(5_000), b"\xff" * 5_000]


class Domains:
    """The routers, and what runs in them."""

    def __init__(self, net: Network, listens: bool, mesh: str | None) -> None:
        self.net, self.routers, self.before = net, {}, len(net.running)
        self.own, self.other = ("10.73.0.2", "10.73.0.1") if listens else ("10.73.0.1", "10.73.0.2")
        self.mesh = mesh
        self.routes = {
            "west-host": ["default via 10.71.0.1"],
            "west": ["10.73.0.0/24 via 10.72.0.2", "10.74.0.0/24 via 10.72.0.2"],
            "own-rp": ["10.71.0.0/24 via 10.72.0.1", f"10.74.0.0/24 via {self.other}"],
            "frr-rp": [f"10.71.0.0/24 via {self.own}", f"10.72.0.0/24 via {self.own}"],
            "east-host": ["default via 10.74.0.1"],
        }

    def lay_out(self) -> None:
        self.net.add(self.routes)
        for place in self.routes:
            forwards = place in ("west", "own-rp", "frr-rp")
            run(*inside(place, "sysctl", "-qw", f"net.ipv4.ip_forward={int(forwards)}"))
        links = [("west-host", f"{WEST_HOST}/24", "west", "10.71.0.1/24"),
                 ("west", "10.72.0.1/24", "own-rp", "10.72.0.2/24"),
                 ("own-rp", f"{self.own}/24", "frr-rp", f"{self.other}/24"),
                 ("frr-rp", "10.74.0.1/24", "east-host", f"{EAST_HOST}/24")]
        self.net.connect_all(links, self.routes)

    def settings(self, place: str, more: str) -> str:
        ports = ("west-host", "own-rp") if place == "west" else ("west", "frr-rp")
        text = "".join(f'[[interface]]\nname = "to-{port}"\n\n' for port in ports)
        control = f'log = "debug"\nsocket = "{self.control(place)}"\n\n'
        rp = f'[[rp]]\ngroups = "{GROUPS}"\naddress = "{self.own}"\n\n'
        return control + text + rp + more

    def peer(self) -> str:
        mesh = f'mesh = "{self.mesh}"\n' if self.mesh else ""
        return f'[[msdp]]\npeer = "{self.other}"\naddress = "{self.own}"\n{mesh}'

    def control(self, place: str) -> Any:
        return self.net.room / place / "control"

    def start_router(self, place: str, more: str = "") -> None:
        self.routers[place] = self.net.start_another(place, self.settings(place, more), rights=WITH_PORT)

    def start(self) -> None:
        self.lay_out()
        group = f"ip msdp mesh-group {self.mesh}"
        said = (f"{group} member {self.own}\n{group} source {self.other}\n" if self.mesh else
                f"ip msdp peer {self.own} source {self.other}\n")
        ports = "interface to-own-rp\n ip pim\n ip pim hello 5\ninterface to-east-host\n ip pim\n ip igmp\nexit\n"
        PIMD["frr-rp"] = f"{ports}ip pim rp {self.other} {GROUPS}\n{said}"
        self.net.start_frr("frr-rp")
        self.start_router("west")
        self.start_router("own-rp", self.peer())
        knows = lambda place: len(self.net.show("neighbors", control=self.control(place)))
        until("own-rp knows its neighbours", 40, lambda: knows("own-rp") == 2)
        until("the session comes up", 2 * RETRY, self.is_up)

    def rows(self, what: str) -> list[dict[str, Any]]:
        return [row for row in self.net.show("msdp", control=self.control("own-rp")) if row["what"] == what]

    def is_up(self) -> bool:
        return [row["state"] for row in self.rows("peer")] == ["established"]

    def frr_sources(self) -> dict[str, str]:
        """The groups of FRR's cache with their RPs."""
        said = self.net.frr("frr-rp", "show ip msdp sa json")
        told = json.loads(said) if said.strip() else {}
        return {group: row["rp"] for group, rows in told.items() for row in rows.values()}

    def reload(self, more: str) -> None:
        settings = self.settings("own-rp", more)
        self.net.read_anew("own-rp", self.routers["own-rp"], settings, "the settings are taken")

    def end(self) -> None:
        self.net.clear(self.before, self.routes)


def streams(domains: Domains) -> list[subprocess.Popen[str]]:
    """Receivers of two streams, one to each domain, which are sent."""
    net, count = domains.net, RATE * SECONDS
    receivers = [net.receive("east-host", TO_EAST, EAST_HOST, count, SECONDS + 10),
                 net.receive("west-host", TO_WEST, WEST_HOST, count, SECONDS + 10)]
    time.sleep(3)
    net.send("west-host", TO_EAST, WEST_HOST, count, RATE)
    net.send("east-host", TO_WEST, EAST_HOST, count, RATE)
    return receivers


def arrived(receivers: list[subprocess.Popen[str]]) -> list[int]:
    """How many packets came of each; all but those of the first second."""
    came = [int(receiver.communicate()[0].split()[1]) for receiver in receivers]
    if any(RATE * SECONDS - count > RATE for count in came):
        raise Failed(f"of {RATE * SECONDS} packets each {came} came")
    return came


def both_tell(domains: Domains) -> None:
    """FRR knows the source that registers with the router, and the router FRR's, which it doesn't tell as its own."""
    until("FRR knows the router's source", 10, lambda: domains.frr_sources().get(TO_EAST) == domains.own)
    heard = lambda: {(row["group"], row["source"], row["rp"]) for row in domains.rows("heard")}
    until("the router knows FRR's source", 10, lambda: (TO_WEST, EAST_HOST, domains.other) in heard())
    told = {row["group"] for row in domains.rows("told")}
    if told != {TO_EAST}:
        raise Failed(f"the router tells of {told} as its own")


def cut(domains: Domains) -> float:
    """The session is cut by other settings, and comes back by those of before. Returns after how many seconds."""
    domains.reload("")
    if domains.rows("peer"):
        raise Failed("a peer is there that the file hasn't any more")
    domains.reload(domains.peer())
    began = time.monotonic()
    until("the session comes back", 2 * RETRY, domains.is_up)
    return time.monotonic() - began


def hostile(domains: Domains) -> None:
    """Bytes of a stranger at the port of MSDP, of FRR's address too."""
    words = "import socket,sys; s=socket.create_connection((sys.argv[1],639),3); s.sendall(bytes.fromhex(sys.argv[2]))"
    for said in HOSTILE:
        for place in ("west", "frr-rp"):
            to = domains.own if place == "frr-rp" else "10.72.0.2"
            subprocess.run(inside(place, "python3", "-c", words, to, said.hex()), capture_output=True)
    until("the session is up after hostile bytes", 2 * RETRY, domains.is_up)


def tried(net: Network, listens: bool, mesh: str | None) -> str:
    domains = Domains(net, listens, mesh)
    try:
        domains.start()
        receivers = streams(domains)
        both_tell(domains)
        back = cut(domains)
        came = arrived(receivers)
        if listens:
            hostile(domains)
        later = net.receive("east-host", LATER, EAST_HOST, RATE * 5, 20)
        net.send("west-host", LATER, WEST_HOST, RATE * 5, RATE)
        count = int(later.communicate()[0].split()[1])
        if RATE * 5 - count > RATE:
            raise Failed(f"after the session came back {count} of {RATE * 5} packets came")
        if domains.routers["own-rp"].poll() is not None:
            raise Failed("the router ended")
    finally:
        domains.end()
    return f"{came[0]} and {came[1]} of {RATE * SECONDS} packets; the session was back after {back:.0f} s"


def rps_tell_each_other_of_their_sources(net: Network) -> str:
    """streams between the domains of an RP of FRR's and one of this router, which connects; the session is cut"""
    return tried(net, False, None)


def a_mesh_group_with_frr(net: Network) -> str:
    """the same in a mesh group, where this router listens, and bytes of strangers come"""
    return tried(net, True, "two")


TRIALS = [rps_tell_each_other_of_their_sources, a_mesh_group_with_frr]
