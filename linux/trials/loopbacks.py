"""RPs on addresses of no link: of lo and of a dummy here, of lo at FRR, each beside another router's."""
from __future__ import annotations

import subprocess
import time
from typing import TYPE_CHECKING

from trials.liveness import configure
from trials.network import HOST, NAMES, SOURCE, Failed, ended, ip, received, until
from trials.streams import FEWER_BYTES

if TYPE_CHECKING:
    from trials.network import Network

VIEWER = "10.6.0.77"
OWN, NEXT, DUMMY = "10.255.0.1", "10.255.0.0", "10.255.0.2"
GROUPS = {OWN: "239.21", NEXT: "239.22", DUMMY: "239.23"}
# Where the addresses are, and by which hop the others come to them.
PORTS = {OWN: ("router", "lo"), NEXT: ("second", "lo"), DUMMY: ("router", "dummy0")}
OF_ROUTER = {"first": "10.2.0.2", "second": "10.3.0.2"}
WAYS = {OWN: OF_ROUTER, NEXT: {"first": "10.4.0.2", "router": "10.3.0.1"}, DUMMY: OF_ROUTER}
HOSTS = [(("hosts", HOST), ("source", SOURCE)), (("viewer", VIEWER), ("source", SOURCE)),
         (("viewer", VIEWER), ("hosts", HOST))]


def has_dummies() -> bool:
    """A kernel may have none."""
    words = ["ip", "-n", NAMES["router"], "link", "add", "dummy0", "type", "dummy"]
    return subprocess.run(words, stderr=subprocess.DEVNULL).returncode == 0


def rps(addresses: list[str]) -> list[tuple[str, str]]:
    return [(f"{GROUPS[address]}.0.0/16", address) for address in addresses]


def lay_out(net: Network, addresses: list[str]) -> None:
    for address in addresses:
        place, port = PORTS[address]
        ip(place, "address", "add", f"{address}/32", "dev", port)
        ip(place, "link", "set", port, "up")
        for other, hop in WAYS[address].items():
            ip(other, "route", "add", f"{address}/32", "via", hop)
    configure(net, "second", "interface lo", "ip pim")
    for place in ("first", "second"):
        configure(net, place, *(f"ip pim rp {address} {groups}" for groups, address in rps(addresses)))
    ports = "".join(f'[[interface]]\nname = "{PORTS[each][1]}"\n\n' for each in addresses if each != NEXT)
    net.reload(net.settings + ports + "".join(
        f'[[rp]]\ngroups = "{groups}"\naddress = "{address}"\n\n' for groups, address in rps(addresses)))


def clear(net: Network, addresses: list[str]) -> None:
    net.reload(net.settings)
    for place in ("first", "second"):
        configure(net, place, *(f"no ip pim rp {address} {groups}" for groups, address in rps(addresses)))
    configure(net, "second", "interface lo", "no ip pim")
    for address in addresses:
        for other in WAYS[address]:
            ip(other, "route", "delete", f"{address}/32")
        place, port = PORTS[address]
        words = ["link", "delete", port] if port == "dummy0" else ["address", "delete", f"{address}/32", "dev", port]
        ip(place, *words)


def streamed(net: Network, group: str, to: tuple[str, str], by: tuple[str, str]) -> str:
    """All packets of a stream arrive, once its trees are made."""
    keeper = net.receive(to[0], group, to[1], 1000, 60, FEWER_BYTES)
    time.sleep(2)
    try:
        net.send(by[0], group, by[1], 30, 10).wait()
        receiver = net.receive(to[0], group, to[1], 100, 20)
        net.send(by[0], group, by[1], 100, 50).wait()
        came, of, _ = received(receiver)
    finally:
        ended(keeper)
    if came < of:
        raise Failed(f"{came} of {of} packets of {group} came from {by[0]} to {to[0]}")
    return f"{group} {by[0]} to {to[0]}"


def are_on_no_link(net: Network, addresses: list[str]) -> None:
    for address in addresses:
        place, port = PORTS[address]
        if place == "router":
            until(f"{port} is up", 10, lambda port=port: net.interface(port)["is_up"])
            row = net.interface(port)
            if (row["address"], row["vif"], row["dr"]) != (f"{address}/32", None, None):
                raise Failed(f"{port}: {row}")
    wanted = {address: (address != NEXT, "10.3.0.1" if address == NEXT else None) for address in addresses}
    found = {row["rp"]: (row["is_here"], row["next_hop"]) for row in net.show("rp") if row["rp"] in wanted}
    if found != wanted:
        raise Failed(f"the RPs are {found}")


def rps_on_no_link(net: Network) -> str:
    """the router is the RP by a /32 of lo, and of a dummy, FRR by a /32 of its lo beside them, and streams arrive"""
    addresses = [OWN, NEXT, DUMMY] if has_dummies() else [OWN, NEXT]
    lay_out(net, addresses)
    try:
        are_on_no_link(net, addresses)
        said = [streamed(net, f"{GROUPS[address]}.1.{number}", *ends) for address in addresses
                for number, ends in enumerate(HOSTS)]
    finally:
        clear(net, addresses)
    return ", ".join(said if DUMMY in addresses else [*said, "the kernel has no dummies"])


TRIALS = [rps_on_no_link]
