"""Two RPs that share an address, among four of these routers and none of FRR's:

                      one
        10.92.0.0/24 /   \\ 10.94.0.0/24
      west-host -- west   east -- east-host
        10.93.0.0/24 \\   / 10.95.0.0/24
                      two

The links of the hosts are 10.91.0.0/24 and 10.96.0.0/24. Unicast routing is this program: at first `one` is the nearest
RP of west, and `two` of east, and what the two exchange otherwise goes by `two`.
"""
from __future__ import annotations

import time
from typing import TYPE_CHECKING

from trials.network import Failed, came_with_gap, inside, ip, run, until

if TYPE_CHECKING:
    import subprocess
    from pathlib import Path
    from typing import Any

    from trials.network import Network

SHARED = "10.99.9.9"
OWN = {"one": "10.92.0.2", "two": "10.93.0.2"}
LINKS = [
    ("west-host", "10.91.0.50/24", "west", "10.91.0.1/24"),
    ("west", "10.92.0.1/24", "one", "10.92.0.2/24"),
    ("west", "10.93.0.1/24", "two", "10.93.0.2/24"),
    ("east", "10.94.0.1/24", "one", "10.94.0.2/24"),
    ("east", "10.95.0.1/24", "two", "10.95.0.2/24"),
    ("east-host", "10.96.0.50/24", "east", "10.96.0.1/24"),
]
PORTS = {"west": ("west-host", "one", "two"), "one": ("west", "east"), "two": ("west", "east"),
         "east": ("east-host", "one", "two")}
ROUTES = {
    "west-host": ["default via 10.91.0.1"],
    "west": [f"{SHARED}/32 via 10.92.0.2", "10.94.0.0/24 via 10.92.0.2", "10.95.0.0/24 via 10.93.0.2",
             "10.96.0.0/24 via 10.93.0.2"],
    "one": ["10.91.0.0/24 via 10.92.0.1", "10.93.0.0/24 via 10.92.0.1", "10.95.0.0/24 via 10.94.0.1",
            "10.96.0.0/24 via 10.94.0.1"],
    "two": ["10.91.0.0/24 via 10.93.0.1", "10.92.0.0/24 via 10.93.0.1", "10.94.0.0/24 via 10.95.0.1",
            "10.96.0.0/24 via 10.95.0.1"],
    "east": [f"{SHARED}/32 via 10.95.0.2", "10.91.0.0/24 via 10.95.0.2", "10.92.0.0/24 via 10.94.0.2",
             "10.93.0.0/24 via 10.95.0.2"],
    "east-host": ["default via 10.96.0.1"],
}
# By these all goes by `one`.
MOVED = {"west": ["10.96.0.0/24 via 10.92.0.2"],
         "east": [f"{SHARED}/32 via 10.94.0.2", "10.91.0.0/24 via 10.94.0.2", "10.93.0.0/24 via 10.94.0.2"]}
# Each with its group, its sender and its receiver.
STREAMS = [("239.31.1.1", ("west-host", "10.91.0.50"), ("east-host", "10.96.0.50")),
           ("239.31.1.2", ("east-host", "10.96.0.50"), ("west-host", "10.91.0.50"))]
RATE, SECONDS = 50, 16
# Unicast routing takes so many seconds to move, and what follows at most as many ms.
ROUTING, FOLLOWING = 1.0, 1_000


class Square:
    """The four routers and what runs in them."""

    def __init__(self, net: Network) -> None:
        self.net, self.routers = net, {}

    def lay_out(self) -> None:
        self.net.add(ROUTES)
        for place in ROUTES:
            run(*inside(place, "sysctl", "-qw", f"net.ipv4.ip_forward={int(place in PORTS)}"))
        self.net.connect_all(LINKS, ROUTES)
        for place in OWN:
            ip(place, "address", "add", f"{SHARED}/32", "dev", "lo")

    def settings(self, place: str) -> str:
        ports = "".join(f'[[interface]]\nname = "to-{port}"\n\n' for port in PORTS[place])
        rp = f'[[rp]]\ngroups = "239.31.0.0/16"\naddress = "{SHARED}"\n\n'
        sets = ""
        if place in OWN:
            ports += f'[[interface]]\nname = "lo"\naddress = "{SHARED}/32"\n\n'
            others = next(own for other, own in OWN.items() if other != place)
            sets = f'[[anycast]]\nshared = "{SHARED}"\nown = "{OWN[place]}"\nothers = ["{others}"]\n'
        return f'log = "debug"\nsocket = "{self.control(place)}"\n\n{ports}{rp}{sets}'

    def control(self, place: str) -> Path:
        return self.net.room / place / "control"

    def start(self, place: str) -> None:
        self.routers[place] = self.net.start_another(place, self.settings(place))

    def show(self, place: str, topic: str) -> list[dict[str, Any]]:
        return self.net.show(topic, control=self.control(place))

    def knows(self, place: str) -> int:
        return len(self.show(place, "neighbors"))

    def end(self) -> None:
        for router in self.routers.values():
            router.kill()
            router.wait()
        self.net.delete(ROUTES)


def begin(square: Square) -> None:
    square.lay_out()
    for place in PORTS:
        square.start(place)
    for place in PORTS:
        until(f"{place} knows two neighbours", 40, lambda place=place: square.knows(place) == 2)
    for place, other in (("one", "two"), ("two", "one")):
        rows = [(row["rp"], row["is_here"], row["shared_with"]) for row in square.show(place, "rp")]
        if rows != [(SHARED, True, [OWN[other]])]:
            raise Failed(f"the RPs of {place} are {rows}")


def join_the_others(square: Square) -> None:
    """Each RP joins the source whose Registers go to the other one."""
    joined = lambda place: {(row["source"], row["group"]) for row in square.show(place, "upstream")}
    for place, (group, (_, source), _) in zip(("two", "one"), STREAMS):
        until(f"{place} joins {source}", 10, lambda place=place, wanted=(source, group): wanted in joined(place))


def streamed(square: Square) -> list[subprocess.Popen[str]]:
    """Receivers of both streams, which are sent."""
    count = RATE * SECONDS
    receivers = [square.net.receive(to, group, address, count, SECONDS + 10)
                 for group, _, (to, address) in STREAMS]
    time.sleep(2)
    for group, (place, address), _ in STREAMS:
        square.net.send(place, group, address, count, RATE)
    return receivers


def kill(square: Square) -> float:
    """One is killed, and unicast routing moves after its time. Returns how long that took, in ms."""
    began = time.monotonic()
    square.routers["two"].kill()
    time.sleep(ROUTING)
    for place, routes in MOVED.items():
        for route in routes:
            ip(place, "route", "replace", *route.split())
    return 1000 * (time.monotonic() - began)


def rps_share_an_address(net: Network) -> str:
    """two RPs with one address serve each other's receivers; one is killed, and streams go on with unicast routing"""
    square = Square(net)
    try:
        begin(square)
        receivers = streamed(square)
        join_the_others(square)
        time.sleep(3)
        moved = kill(square)
        gaps, lost = [], []
        for receiver, (group, *_) in zip(receivers, STREAMS):
            came, of, gap = came_with_gap(receiver)
            if gap > moved + FOLLOWING or of - came > RATE * (gap + 2_000) / 1_000:
                raise Failed(f"{group}: {came} of {of} came, with a gap of {gap} ms, of which routing took {moved:.0f}")
            gaps.append(gap)
            lost.append(of - came)
    finally:
        square.end()
    both = [" and ".join(map(str, numbers)) for numbers in (gaps, lost)]
    return f"gaps of {both[0]} ms, of which routing took {moved:.0f}; {both[1]} packets lost of {RATE * SECONDS} each"


TRIALS = [rps_share_an_address]
