"""BFD beside FRR's bfdd."""
from __future__ import annotations

import json
import shutil
import subprocess
import time
from typing import TYPE_CHECKING, Any

from trials.network import FRR, SOURCE, Failed, ended, inside, ip, longest_gap, until

if TYPE_CHECKING:
    from collections.abc import Callable

    from trials.network import Network

ROUTER, FIRST = "10.7.0.3", "10.7.0.2"
ASKER = "10.7.0.77"


def configure(net: Network, place: str, *lines: str) -> None:
    words = [word for line in ("configure terminal", *lines) for word in ("-c", line)]
    subprocess.run(inside(place, "vtysh", "--vty_socket", net.room / place, *words), check=True,
                   stdout=subprocess.DEVNULL)


def start_bfdd(net: Network, place: str) -> subprocess.Popen[str]:
    room = net.room / place
    (room / "bfdd.conf").write_text("")
    shutil.chown(room / "bfdd.conf", "frr", "frr")
    words = ["-z", room / "zserv", "--vty_socket", room, "-f", room / "bfdd.conf", "-i", room / "bfdd.pid",
             "--bfdctl", room / "bfdd.sock"]
    return net.start(place, FRR / "bfdd", *words, stdout=subprocess.DEVNULL, stderr=subprocess.DEVNULL)


def session(net: Network, address: str) -> str | None:
    """The state of the router's session with a neighbour."""
    return next((row["bfd"] for row in net.show("neighbors") or [] if row["address"] == address), None)


def peer(net: Network) -> dict[str, Any]:
    """What bfdd says of its session with the router."""
    told = json.loads(net.frr("first", "show bfd peers json") or "[]")
    return next((row for row in told if row["peer"] == ROUTER), {"status": "none"})


def took(what: str, holds: Callable[[], object]) -> float:
    """In how many seconds something holds, of two at most."""
    began = time.monotonic()
    while not holds():
        if time.monotonic() > began + 2:
            raise Failed(f"{what}, after 2 s not yet")
        time.sleep(0.02)
    return time.monotonic() - began


def dr(net: Network) -> str:
    return next(row["dr"] for row in net.show("interfaces") if row["interface"] == "to-lan")


def came_up(net: Network) -> None:
    until("the router's session is up", 40, lambda: session(net, FIRST) == "up")
    until("bfdd's session is up", 10, lambda: peer(net)["status"] == "up")


def bfd(net: Network) -> str:
    """a designated router that falls silent is missed within 1.2 s, here and at FRR, and its LAN is served on"""
    bfdd = start_bfdd(net, "first")
    until("bfdd answers", 10, lambda: "bfd" in net.frr("first", "show daemons"))
    configure(net, "first", "interface to-lan", "ip pim bfd", "ip pim drpriority 50", "ip igmp")
    try:
        net.reload_interface("to-lan", "bfd = true\n")
        came_up(net)
        until("FRR is the designated router", 10, lambda: dr(net) == FIRST)
        group = "239.2.13.1"
        receiver = net.receive("asker", group, ASKER, 900, 60)
        sender = net.send("source", group, SOURCE, 900, 50)
        time.sleep(6)
        ip("first", "link", "set", "to-lan", "down")
        here = took("the router is the designated one", lambda: dr(net) == ROUTER)
        sender.wait()
        gap = longest_gap(receiver)
        ip("first", "link", "set", "to-lan", "up")
        came_up(net)
        net.router.kill()
        there = took("FRR misses the router", lambda: ROUTER not in net.frr("first", "show ip pim neighbor"))
        net.router.wait()
    finally:
        configure(net, "first", "interface to-lan", "no ip pim bfd", "no ip pim drpriority 50", "no ip igmp")
        ended(bfdd)
    # It would go on as one that doesn't query, as long as FRR would have.
    net.forget_state()
    net.start_router()
    until("the router knows three neighbours", 40, lambda: len(net.neighbours()) == 3)
    if gap >= 2_000:
        raise Failed(f"the LAN's stream has a gap of {gap} ms")
    if max(here, there) >= 1.2:
        raise Failed(f"the router missed FRR after {here:.2f} s, FRR the router after {there:.2f} s")
    return f"here after {here:.2f} s, at FRR after {there:.2f} s; the longest gap of the LAN's stream {gap} ms"


TRIALS = [bfd]
