"""Hosts and routers of IGMPv1 and IGMPv2, on the LAN of the router and FRR."""
from __future__ import annotations

import re
import subprocess
import time
from typing import TYPE_CHECKING

from trials.network import SOURCE, Failed, came_with_gap, ended, goes_on, inside, run, until

if TYPE_CHECKING:
    from trials.network import Network

OLDER, NEWER, ROUTER = "10.7.0.76", "10.7.0.77", "10.7.0.3"
# Twice the query interval and the query response interval (RFC 3376, 8.13), in seconds.
PRESENT = 2 * 20 + 2
# Two queries for the last member, a second each, and some time of the machine.
LEFT = 6
# Of 200 packets those come that are sent after the receiver joined.
FEWEST, LONGEST_GAP = 60, 500


def speaks(place: str, version: int) -> None:
    """0: the one of the link's queries."""
    run(*inside(place, "sysctl", "-qw", f"net.ipv4.conf.all.force_igmp_version={version}"))


def row(net: Network, group: str) -> dict[str, object]:
    """What the router shows of a group on the LAN, or nothing."""
    rows = [it for it in net.show("igmp") if (it["interface"], it["group"], it["source"]) == ("to-lan", group, "*")]
    return rows[0] if rows else {"version": None, "older_expires_seconds": None}


def is_in(net: Network, group: str, version: str | None) -> bool:
    return row(net, group)["version"] == version


def sends_there(net: Network, group: str) -> bool:
    return "to-lan" in net.entry(SOURCE, group)["outgoing"]


def is_forwarded(net: Network, group: str) -> bool:
    return net.entry(SOURCE, group)["forwarding"] == "kernel"


def beside_a_newer(net: Network, group: str, version: int) -> tuple[str, subprocess.Popen[str], subprocess.Popen[str]]:
    """A stream to an older host, while one of IGMPv3 joins its group and leaves it: how it came; then what holds the
    group, and who sends."""
    speaks("older", version)
    until("the router knows first", 40, lambda: {"10.2.0.1", "10.7.0.2"} <= net.neighbours())
    keeps = net.receive("older", group, OLDER, 100_000, 300)
    until(f"the router has its IGMPv{version} report", 10, lambda: is_in(net, group, f"IGMPv{version}"))
    if not 0 < row(net, group)["older_expires_seconds"] <= PRESENT:
        raise Failed(f"the router shows {row(net, group)}")
    sender = net.send("source", group, SOURCE, 3_000, 10)
    # Only then, since FRR may lose some packets at the change to the source's tree.
    until("the kernel forwards", 20, lambda: sends_there(net, group) and is_forwarded(net, group))
    time.sleep(2)
    receiver = net.receive("older", group, OLDER, 200, 60)
    newer = net.receive("asker", group, NEWER, 100_000, 60)
    time.sleep(2)
    ended(newer)
    came, _, gap = came_with_gap(receiver)
    if came < FEWEST or gap > LONGEST_GAP:
        raise Failed(f"{came} packets came, the longest gap was {gap} ms")
    if not is_in(net, group, f"IGMPv{version}"):
        raise Failed(f"after the other one's leave the router shows {row(net, group)}")
    return f"{came} packets came, the longest gap was {gap} ms", keeps, sender


def host_of_version_two(net: Network) -> str:
    """a host of IGMPv2 has its stream, also after one of IGMPv3 left its group, and its Leave ends it in time"""
    group = "239.2.15.1"
    said, keeps, sender = beside_a_newer(net, group, 2)
    left = time.monotonic()
    ended(keeps)
    until("the stream ends with its Leave", LEFT, lambda: not sends_there(net, group))
    left = time.monotonic() - left
    ended(sender)
    # Its reports go to the group, and are no data of it.
    if [it for it in net.show("mroute") if it["source"] == OLDER]:
        raise Failed("the router has the host as a source")
    if "is the first on to-lan to speak IGMPv2" not in net.log():
        raise Failed("no line says so")
    return f"{said}; the stream ended {left:.1f} s after its Leave"


def host_of_version_one(net: Network) -> str:
    """a host of IGMPv1 has its stream, also after one of IGMPv3 left its group; once it is gone its group expires"""
    group = "239.2.15.2"
    said, keeps, sender = beside_a_newer(net, group, 1)
    ended(keeps)
    gone = time.monotonic()
    time.sleep(LEFT)
    goes_on(net, group, "while its interval runs")
    until("its group expires", PRESENT, lambda: is_in(net, group, None))
    if sends_there(net, group):
        raise Failed("the stream goes on")
    gone = time.monotonic() - gone
    ended(sender)
    return f"{said}; the stream ended {gone:.1f} s after it was gone"


def host_over_an_upgrade(net: Network) -> str:
    """over an upgrade a host of IGMPv2 keeps its stream, and its mode: one of IGMPv3 leaves its group right after it"""
    group = "239.2.15.6"
    said, keeps, sender = beside_a_newer(net, group, 2)
    newer = net.receive("asker", group, NEWER, 100_000, 60)
    receiver = net.receive("older", group, OLDER, 3_000, 25)
    time.sleep(2)
    net.upgrade(net.router, "the other one goes on")
    after = row(net, group)
    if after["version"] != "IGMPv2" or not 0 < after["older_expires_seconds"] <= PRESENT:
        raise Failed(f"the router shows {after}")
    ended(newer)
    came, _, gap = came_with_gap(receiver)
    ended(keeps)
    ended(sender)
    if came < FEWEST or gap > LONGEST_GAP:
        raise Failed(f"{came} packets came, the longest gap was {gap} ms")
    return f"{said}; over the upgrade {came}, {gap} ms"


def querier_of(place: str, port: str) -> str:
    """By which version the queries come that the kernel of a place heard."""
    said = subprocess.run(inside(place, "cat", "/proc/net/igmp"), capture_output=True, text=True).stdout
    found = re.search(rf"^\d+\s+{port}\s*:\s*\d+\s+(V\d)", said, re.M)
    return found.group(1) if found else ""


def queries_of_version_two(net: Network) -> str:
    """with `version = 2` hosts, and programs on the router, fall back to IGMPv2, are served, and leave in time"""
    net.reload_interface("to-lan", "version = 2\n")
    until("the host has heard such a query", 30, lambda: querier_of("asker", "to-lan") == "V2")
    group, own = "239.2.15.3", "239.2.15.4"
    receiver = net.receive("asker", group, NEWER, 100, 40)
    until("the router has its IGMPv2 report", 10, lambda: is_in(net, group, "IGMPv2"))
    sender = net.send("source", group, SOURCE, 100, 10)
    words = receiver.communicate()[0].split()
    sender.wait()
    if int(words[1]) < 95:
        raise Failed(f"{words[1]} of 100 came")
    until("the stream ends with its Leave", LEFT, lambda: not sends_there(net, group))
    program = net.receive("router", own, ROUTER, 100_000, 60)
    until("the router has its program's report", 10, lambda: is_in(net, own, "IGMPv2"))
    ended(program)
    until("it has its Leave", LEFT, lambda: is_in(net, own, None))
    net.reload(net.settings)
    return f"{words[1]} of 100 came"


def configure(net: Network, place: str, *lines: str) -> None:
    """FRR takes some lines of an interface."""
    commands = [word for line in ("configure terminal", "interface to-lan", *lines) for word in ("-c", line)]
    run(*inside(place, "vtysh", "--vty_socket", net.room / place, *commands), stdout=subprocess.DEVNULL)


def older_querier(net: Network) -> None:
    """where FRR asks by IGMPv2, with a lower address, the router asks no more, and says so; its hosts stay served"""
    group = "239.2.15.5"
    asks = lambda: net.log().count(f"sends on to-lan: {ROUTER} > 224.0.0.1: IGMP query")
    says = lambda: net.log().count("10.7.0.2 on to-lan asks hosts by an older version")
    before = says()
    speaks("older", 2)
    receiver = net.receive("older", group, OLDER, 1, 200)
    configure(net, "first", "ip igmp", "ip igmp version 2", "ip igmp query-interval 10",
              "ip igmp query-max-response-time 20")
    try:
        until("the router has heard FRR", 30, lambda: says() > before)
        asked = asks()
        # Longer than a group stays that nobody reports, by the values of the router.
        time.sleep(PRESENT + 5)
        if asks() != asked or not is_in(net, group, "IGMPv2"):
            raise Failed(f"it asked {asks() - asked} times, and shows {row(net, group)}")
    finally:
        configure(net, "first", "no ip igmp version 2", "no ip igmp query-interval",
                  "no ip igmp query-max-response-time", "no ip igmp")
        ended(receiver)
    until("the router asks again", 2 * PRESENT, lambda: asks() > asked)


TRIALS = [host_of_version_two, host_of_version_one, host_over_an_upgrade, queries_of_version_two, older_querier]
