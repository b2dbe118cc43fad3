"""Two more routers on the machine of the router, each with a table of its own: a VRF where the kernel has these."""
from __future__ import annotations

import signal
import subprocess
import sys
import time
from dataclasses import dataclass
from typing import TYPE_CHECKING

from trials.network import AS_SERVICE, NAMES, Failed, ended, inside, ip, received, run, until

if TYPE_CHECKING:
    from trials.network import Network

GROUP, REGISTERED = "239.2.20.1", "239.9.20.1"
FAR_RP = "192.0.2.9"
# Prints how many Registers come.
REGISTERS = """import socket, sys, time
s = socket.socket(socket.AF_INET, socket.SOCK_RAW, 103)
s.settimeout(float(sys.argv[1]))
count, end = 0, time.monotonic() + float(sys.argv[1])
try:
    while time.monotonic() < end and count < 3:
        count += s.recv(2000)[20] == 0x21
except TimeoutError:
    pass
print(count)
"""


@dataclass(frozen=True)
class Part:
    """A part of the machine: its table, and the second byte of its addresses at the source and at the host."""

    name: str
    table: int
    near: int
    far: int

    def source(self) -> str:
        return f"10.{self.near}.0.50"

    def host(self) -> str:
        return f"10.{self.far}.0.77"

    def settings(self, net: Network, is_vrf: bool) -> str:
        which = f'vrf = "{self.name}"' if is_vrf else f"table = {self.table}"
        ports = "".join(f'[[interface]]\nname = "to-{self.name}-{end}"\n' for end in ("source", "host"))
        ranges = [("239.2.0.0/16", f"10.{self.near}.0.1"), ("239.9.0.0/16", FAR_RP)]
        rps = "".join(f'[[rp]]\ngroups = "{groups}"\naddress = "{rp}"\n' for groups, rp in ranges)
        return f'{which}\nlog = "debug"\nsocket = "{net.room}/router/{self.name}"\n{ports}{rps}'


PARTS = (Part("red", 100, 81, 82), Part("blue", 200, 83, 84))


def has_vrfs() -> bool:
    """Whether the kernel knows such links."""
    made = subprocess.run(["ip", "-n", NAMES["router"], "link", "add", "tried", "type", "vrf", "table", "77"],
                          stderr=subprocess.DEVNULL)
    if made.returncode == 0:
        ip("router", "link", "delete", "tried")
    return made.returncode == 0


def lay_out(net: Network, part: Part, is_vrf: bool) -> None:
    if is_vrf:
        ip("router", "link", "add", part.name, "type", "vrf", "table", part.table)
        ip("router", "link", "set", part.name, "up")
    for end, own, address in (("source", part.near, part.source()), ("host", part.far, part.host())):
        place = f"{part.name}-{end}"
        run("ip", "netns", "add", NAMES[place])
        ip(place, "link", "set", "lo", "up")
        net.connect(place, f"{address}/24", "router", f"10.{own}.0.1/24")
        ip(place, "route", "add", "default", "via", f"10.{own}.0.1")
        port = f"to-{place}"
        if is_vrf:
            ip("router", "link", "set", port, "master", part.name)
        else:
            ip("router", "route", "add", f"10.{own}.0.0/24", "dev", port, "table", part.table)
            ip("router", "rule", "add", "iif", port, "lookup", part.table, "priority", 900)
    run(*inside(f"{part.name}-host", "sysctl", "-qw", "net.ipv4.conf.all.force_igmp_version=3"))
    ip("router", "route", "add", FAR_RP, "via", part.host(), "table", part.table)
    ip(f"{part.name}-host", "address", "add", f"{FAR_RP}/32", "dev", "lo")


def start(net: Network, part: Part, is_vrf: bool) -> subprocess.Popen[str]:
    file = net.room / f"{part.name}.toml"
    file.write_text(part.settings(net, is_vrf))
    with open(net.room / f"{part.name}.log", "a") as log:
        return net.start("router", *AS_SERVICE, net.room / "viqeshord", "run", file, stderr=log)


def shown(net: Network, part: Part, topic: str) -> list[dict[str, object]]:
    return net.show(topic, control=net.room / "router" / part.name)


def rules(family: str = "rule") -> str:
    return subprocess.run(["ip", "-n", NAMES["router"], family], capture_output=True, text=True).stdout


def crosses_not(net: Network, sending: Part, other: Part) -> str:
    """A stream of one part gets to its host, and to nobody of the other part, who asks for the same group."""
    receivers = [net.receive(f"{part.name}-host", GROUP, part.host(), 200, 30) for part in (sending, other)]
    asked = lambda part: any(row["group"] == GROUP for row in shown(net, part, "igmp"))
    until("both routers are asked", 15, lambda: asked(sending) and asked(other))
    net.send(f"{sending.name}-source", GROUP, sending.source(), 200, 50).wait()
    came, of, twice = received(receivers[0])
    ended(receivers[1])
    sources = [row["source"] for row in shown(net, other, "mroute") if row["group"] == GROUP and row["source"] != "*"]
    if came < of - 2 or twice > 2:
        raise Failed(f"{came} of {of} came in {sending.name}, {twice} twice")
    if sending.source() in sources:
        raise Failed(f"{other.name} has an entry of {sending.name}'s source")
    entry = next(row for row in shown(net, sending, "mroute") if row["source"] == sending.source())
    if not entry["packets"] >= 190 or entry["outgoing"] != [f"to-{sending.name}-host"]:
        raise Failed(f"the entry of {sending.name} is {entry}")
    return f"{came} of {of} in {sending.name}"


def nothing_came(net: Network, sending: Part, other: Part) -> None:
    """While one part sends, the other one's host has a receiver that takes nothing."""
    silent = net.receive(f"{other.name}-host", GROUP, other.host(), 1, 6)
    net.send(f"{sending.name}-source", GROUP, sending.source(), 50, 25).wait()
    came, _, _ = received(silent)
    if came:
        raise Failed(f"{came} packets of {sending.name} came in {other.name}")


def registers(net: Network, part: Part) -> int:
    """How many Registers come at an RP to which only the part's table has a way."""
    hearing = net.start(f"{part.name}-host", sys.executable, "-c", REGISTERS, 10, stdout=subprocess.PIPE)
    time.sleep(1)
    net.send(f"{part.name}-source", REGISTERED, part.source(), 20, 10).wait()
    return int(hearing.communicate()[0])


def end_all(net: Network, routers: list[subprocess.Popen[str]]) -> None:
    for router in routers:
        if router.poll() is None:
            router.send_signal(signal.SIGTERM)
            router.wait(10)
    for part in PARTS:
        for end in ("source", "host"):
            subprocess.run(["ip", "netns", "delete", NAMES[f"{part.name}-{end}"]], stderr=subprocess.DEVNULL)


def tables(net: Network) -> str:
    """two more routers on the machine, each with its table, have the same group, and nothing crosses"""
    is_vrf = has_vrfs()
    routers, before = [], (rules("rule"), rules("mrule"))
    try:
        for part in PARTS:
            lay_out(net, part, is_vrf)
            routers.append(start(net, part, is_vrf))
        for part in PARTS:
            up = lambda: sum(bool(row["is_up"]) for row in shown(net, part, "interfaces"))
            until(f"{part.name}'s router is up", 15, lambda: up() == 2)
        red, blue = PARTS
        said = [crosses_not(net, red, blue), crosses_not(net, blue, red)]
        nothing_came(net, red, blue)
        nothing_came(net, blue, red)
        told = {part.name: registers(net, part) for part in PARTS}
        if min(told.values()) == 0:
            raise Failed(f"Registers that came: {told}")
        own = [row["source"] for row in net.show("mroute") if row["group"] in (GROUP, REGISTERED)]
        if own:
            raise Failed(f"the router of the usual tables has entries of {own}")
    finally:
        end_all(net, routers)
    if [router.returncode for router in routers] != [0, 0]:
        raise Failed(f"they ended with {[router.returncode for router in routers]}")
    left = [line for line in rules("mrule").splitlines() if line not in before[1]]
    left += [line for line in rules("rule").splitlines() if "fwmark" in line and line not in before[0]]
    if not is_vrf and left:
        raise Failed(f"rules are left: {left}")
    return f"{'VRFs' if is_vrf else 'tables, as the kernel has no VRFs'}; {', '.join(said)}"


TRIALS = [tables]
