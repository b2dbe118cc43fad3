"""Streams of every kind: joined late, long, of a program on the router."""
from __future__ import annotations

import time
from typing import TYPE_CHECKING

from trials.network import HOST, SOURCE, Failed, ended, first_after, ip, received, until

if TYPE_CHECKING:
    from trials.network import Network

# A join to a running stream is to have its first packet within so many ms.
SOON = 500
SIZES = (100, 1480, 9000, 60_000)
FEWER_BYTES = 99


def join_to_running_stream(net: Network) -> str:
    """a host that joins a running stream has its first packet at once, eight times, by the router as RP and by FRR's"""
    said = []
    for group in ("239.2.3.1", "239.1.3.1"):
        sender = net.send("source", group, SOURCE, 30_000, 100)
        time.sleep(3)
        times = []
        for _ in range(8):
            receiver = net.receive("hosts", group, HOST, 1, 4)
            times.append(first_after(receiver))
            # Its leave takes two queries for the last member.
            until("nobody asks", 15, lambda: "to-hosts" not in net.entry("*", group)["outgoing"])
            time.sleep(1)
        ended(sender)
        said.append(f"{group}: {times} ms")
        if any(it is None or it > SOON for it in times):
            raise Failed(f"the first packets came after: {'; '.join(said)}")
    return f"after {'; '.join(said)}"


def sized(net: Network, way: tuple[str, str, str, str], group: str, size: int) -> str:
    """Packets of a size arrive by a way: but for some the first ones, of which trees are made, and then all."""
    sending, source, receiving, address = way
    # It keeps the group between the two.
    keeper = net.receive(receiving, group, address, 1000, 90, FEWER_BYTES)
    time.sleep(2)
    found = []
    try:
        for count, rate, may_miss in ((10, 10, 4), (60, 20, 0)):
            receiver = net.receive(receiving, group, address, count, 20, size)
            sender = net.send(sending, group, source, count, rate, size)
            came, of, twice = received(receiver)
            sender.wait()
            found.append(f"{came} of {of}")
            if came < of - may_miss or (not may_miss and twice):
                raise Failed(f"{size} bytes {sending} to {receiving}: {' and '.join(found)}, {twice} twice")
            until("the kernel forwards", 15, lambda: net.entry(source, group)["forwarding"] == "kernel")
    finally:
        ended(keeper)
    return f"{size} bytes {sending} to {receiving}: {' and '.join(found)}"


def long_packets(net: Network) -> str:
    """packets of 100 to 60,000 bytes arrive: from its host by FRR's RP, by the router as RP, and to its host"""
    # Of the first ones FRR's RP loses one, and its DR registers the first fragment of one alone; while trees change
    # packets are lost of which some fragments came by each way.
    ways = [(("hosts", HOST, "viewer", "10.6.0.77"), "239.1.4"), (("source", SOURCE, "viewer", "10.6.0.77"), "239.2.4"),
            (("source", SOURCE, "hosts", HOST), "239.1.5")]
    said = [sized(net, way, f"{groups}.{number}", size) for number, size in enumerate(SIZES) for way, groups in ways]
    return "; ".join(said)


def first_long_packets_by_registers(net: Network) -> str:
    """of a long packet each fragment goes in a Register of its own, and FRR's RP makes it whole for its viewer"""
    group = "239.1.4.77"
    receiver = net.receive("viewer", group, "10.6.0.77", 6, 25, 9000)
    until("second is asked", 15, lambda: group in net.frr("second", "show ip igmp groups"))
    stood_in, sent = net.counter("fragments and long packets that a short one stood for"), net.counter("unicasts sent")
    net.send("hosts", group, HOST, 6, 4, 9000).wait()
    came, of, _ = received(receiver)
    stood_in = net.counter("fragments and long packets that a short one stood for") - stood_in
    # FRR's RP loses the first, and one may go half by Registers when these are stopped.
    if came < of - 2 or stood_in == 0 or net.counter("unicasts sent") == sent:
        raise Failed(f"{came} of {of} came, {stood_in} fragments by the router")
    return f"{came} of {of} came, {stood_in} fragments by the router"


def whole_long_packets(net: Network) -> str:
    """on links that take 9,000 bytes whole packets of 8,028 are registered by the router, and by FRR with it as RP"""
    ends = [("source", "first"), ("first", "router"), ("first", "second"), ("second", "router"), ("hosts", "router"),
            ("second", "viewer")]
    ends = [(place, f"to-{other}") for left, right in ends for place, other in ((left, right), (right, left))]
    for place, port in ends:
        ip(place, "link", "set", port, "mtu", 9000)
    said = []
    try:
        for sending, source, receiving, address, group in (
            ("hosts", HOST, "viewer", "10.6.0.77", "239.1.4.99"),
            ("source", SOURCE, "hosts", HOST, "239.2.4.99"),
        ):
            stood_in = net.counter("fragments and long packets that a short one stood for")
            receiver = net.receive(receiving, group, address, 60, 20, 8000)
            time.sleep(2)
            sender = net.send(sending, group, source, 60, 20, 8000)
            came, of, twice = received(receiver)
            sender.wait()
            stood_in = net.counter("fragments and long packets that a short one stood for") - stood_in
            said.append(f"{sending} to {receiving}: {came} of {of}, {twice} twice, {stood_in} by the router")
            if came < of - 3 or not stood_in:
                raise Failed("; ".join(said))
    finally:
        for place, port in ends:
            ip(place, "link", "set", port, "mtu", 1500)
    return "; ".join(said)


def program_on_the_router(net: Network) -> str:
    """a program on the router that joins a group receives, and the router hears its report and its leave"""
    group = "239.1.6.1"
    receiver = net.receive("router", group, "10.5.0.1", 60, 20)
    until("the router has its report", 10, lambda: "to-hosts" in net.entry("*", group)["outgoing"])
    sender = net.send("source", group, SOURCE, 60, 10)
    # Longer than a group of which no report comes stays (2 x 20 s + 2 s): the queries reach the program's kernel.
    came, of, twice = received(receiver)
    sender.wait()
    if came < of - 3:
        raise Failed(f"the program took {came} of {of}")
    keeps = net.receive("router", group, "10.5.0.1", 1000, 70)
    time.sleep(55)
    if "to-hosts" not in net.entry("*", group)["outgoing"]:
        raise Failed("after 55 s the router has let its group go")
    ended(keeps)
    until("the router has its leave", 15, lambda: "to-hosts" not in net.entry("*", group)["outgoing"])
    return f"{came} of {of} came, {twice} twice; its group stayed for 55 s, and went with its leave"


TRIALS = [join_to_running_stream, long_packets, first_long_packets_by_registers, whole_long_packets,
          program_on_the_router]
