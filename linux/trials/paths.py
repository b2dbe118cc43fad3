"""Ways that change under a stream: joins at odd times, routes that flap, links that go down and come back."""
from __future__ import annotations

import time
from typing import TYPE_CHECKING

from trials import liveness
from trials.network import HOST, SOURCE, THREE, Failed, ended, first_after, ip, received, until
from trials.streams import FEWER_BYTES, SOON

if TYPE_CHECKING:
    from collections.abc import Callable

    from trials.network import Network

VIEWER, ASKER = "10.6.0.77", "10.7.0.77"
RATE = 1_000
TO_SOURCE = "10.1.0.0/24"
BY_FIRST, BY_SECOND, BY_LAN = ("via", "10.2.0.1"), ("via", "10.3.0.1"), ("via", "10.7.0.2")


def joined_at_odd_times(net: Network, group: str, place: str, address: str) -> list[int | None]:
    """After how many ms each of eight joins to a running stream of the router's own link has its first packet."""
    times = []
    sender = net.send("hosts", group, HOST, 60_000, 100)
    time.sleep(4)
    for number in range(8):
        times.append(first_after(net.receive(place, group, address, 1, 6)))
        until("nobody asks", 20, lambda: not net.entry(HOST, group)["outgoing"])
        # The kernel tells of a stray once in three seconds: each join comes at another part of these.
        time.sleep(0.5 + 0.37 * number)
    ended(sender)
    return times


def joins_to_its_own_source(net: Network) -> str:
    """where it is the DR of a running source eight joins each have the first packet at once, by three ways"""
    said = []
    # The joins come from where the RP is, from elsewhere, and from its own host.
    for group, place, address in (("239.1.30.1", "viewer", VIEWER), ("239.4.30.1", "viewer", VIEWER),
                                  ("239.1.30.2", "asker", ASKER)):
        times = joined_at_odd_times(net, group, place, address)
        said.append(f"{group} at {place}: {times} ms")
        if any(it is None or it > SOON for it in times):
            raise Failed(f"the first packets came after: {'; '.join(said)}")
    return f"after {'; '.join(said)}"


def missing(net: Network, group: str, seconds: int, act: Callable[[], None]) -> int:
    """How many packets of a stream to the router's host don't come while ways change."""
    keeper = net.receive("hosts", group, HOST, 1000, 30 + seconds, FEWER_BYTES)
    time.sleep(2)
    net.send("source", group, SOURCE, 30, 10, FEWER_BYTES).wait()
    receiver = net.receive("hosts", group, HOST, RATE * seconds, 30 + seconds)
    until("the kernel forwards", 15, lambda: net.entry(SOURCE, group)["forwarding"] == "kernel")
    sender = net.send("source", group, SOURCE, RATE * seconds, RATE)
    time.sleep(2)
    act()
    sender.wait()
    came, of, _ = received(receiver)
    ended(keeper)
    return of - came


def few(most: int, counts: dict[str, int]) -> str:
    """No more than so many packets are missing, by any way; what is to be said."""
    said = ", ".join(f"{count} by {name}" for name, count in counts.items())
    if max(counts.values()) > most:
        raise Failed(f"{said} are missing")
    return f"{said} are missing"


def route_flaps(net: Network) -> str:
    """a route to the source that moves ten times, and a longer prefix that comes and goes, cost a few packets"""
    def flaps() -> None:
        for number in range(10):
            ip("router", "route", "replace", TO_SOURCE, *(BY_FIRST if number % 2 else BY_SECOND))
            time.sleep(1)

    def longer_prefix() -> None:
        for word in ("add", "del"):
            ip("router", "route", word, "10.1.0.50/32", *BY_SECOND)
            time.sleep(3)

    return few(50, {"ten moves": missing(net, "239.1.31.1", 14, flaps),
                    "a longer prefix": missing(net, "239.1.31.2", 10, longer_prefix)})


def link_with_another_path(net: Network) -> str:
    """where the tree's link goes down, on either side, and comes back, the next metric's route costs few packets"""
    ip("router", "route", "add", TO_SOURCE, *BY_LAN, "metric", "20")

    def change(place: str, port: str, state: str) -> Callable[[], None]:
        def act() -> None:
            ip(place, "link", "set", port, state)
            if state == "up" and place == "router":
                ip("router", "route", "replace", TO_SOURCE, *BY_FIRST)
            if state == "up" and place == "first":
                for prefix in ("10.3.0.0/24", "10.5.0.0/24"):
                    ip("first", "route", "replace", prefix, "via", "10.2.0.2")
            time.sleep(6)

        return act

    counts = {}
    try:
        for number, (place, port) in enumerate((("first", "to-router"), ("router", "to-first"))):
            for state in ("down", "up"):
                group = f"239.1.32.{2 * number + (state == 'up')}"
                counts[f"{place}'s end {state}"] = missing(net, group, 10, change(place, port, state))
                if state == "up":
                    until("the router knows three neighbours", 40, lambda: net.neighbours() >= THREE)
    finally:
        ip("router", "route", "del", TO_SOURCE, *BY_LAN, "metric", "20")
    return few(100, counts)


def next_hop_before_its_hello(net: Network) -> str:
    """a route that moves to a next hop that is no neighbour yet moves once its Hello has come: few are missing"""
    configure = lambda line: liveness.configure(net, "first", "interface to-router", line)
    ip("router", "route", "replace", TO_SOURCE, *BY_LAN)
    configure("no ip pim")
    until("first is no neighbour", 30, lambda: "10.2.0.1" not in net.neighbours())

    def act() -> None:
        ip("router", "route", "replace", TO_SOURCE, *BY_FIRST)
        time.sleep(5)
        configure("ip pim")
        configure("ip pim hello 5")

    group = "239.1.33.1"
    said = few(50, {"the move": missing(net, group, 25, act)})
    if net.entry(SOURCE, group)["incoming"] != "to-first":
        raise Failed(f"in the end it is {net.entry(SOURCE, group)}")
    return said


TRIALS = [joins_to_its_own_source, route_flaps, link_with_another_path, next_hop_before_its_hello]
