"""What the router does beside FRR's pimd."""
from __future__ import annotations

import json
import signal
import subprocess
import sys
import time
from typing import TYPE_CHECKING, Any

from trials.network import (ASKER, DEBUGS, HOST, RPS, SENDER, SOURCE, Failed, all_came, ended, goes_on, inside, ip,
                            received, run, stream, until, used_for)

if TYPE_CHECKING:
    from trials.network import Network


def neighbours(net: Network) -> None:
    """both sides know each other as neighbours"""
    until("the router knows three neighbours", 30, lambda: net.neighbours() == {"10.2.0.1", "10.3.0.1", "10.7.0.2"})
    for place, address in (("first", "10.2.0.2"), ("second", "10.3.0.2"), ("first", "10.7.0.3")):
        until(f"{place} knows {address}", 30, lambda: address in net.frr(place, "show ip pim neighbor"))


def frr_joined(net: Network, place: str, group: str) -> list[str]:
    """What FRR has joined of a group towards the router."""
    lines = net.frr(place, "show ip pim join").splitlines()
    return [line for line in lines if group in line and "JOIN" in line and "to-router" in line]


def joins_to_frr(net: Network) -> None:
    """a host's report at the router brings a Join to FRR, and its leave a Prune"""
    receiver = net.receive("hosts", "239.1.9.1", HOST, 1, 60)
    until("second has the Join", 15, lambda: "239.1.9.1" in net.frr("second", "show ip pim join"))
    ended(receiver)
    until("second has the Prune", 20, lambda: not frr_joined(net, "second", "239.1.9.1"))


def joins_from_frr(net: Network) -> None:
    """a host's report at FRR brings a Join to the router, and its leave a Prune"""
    receiver = net.receive("viewer", "239.2.9.1", "10.6.0.77", 1, 60)
    until("the router sends towards second", 15, lambda: "to-second" in net.entry("*", "239.2.9.1")["outgoing"])
    ended(receiver)
    until("the router sends there no more", 30, lambda: "to-second" not in net.entry("*", "239.2.9.1")["outgoing"])


def register_to_frr(net: Network) -> str:
    """the router registers its host with FRR's RP, whose viewer gets it, and FRR takes the source's tree"""
    group = "239.1.2.2"
    receiver = net.receive("viewer", group, "10.6.0.77", 40, 40)
    until("second is asked", 15, lambda: group in net.frr("second", "show ip igmp groups"))
    sent = net.counter("unicasts sent")
    sender = net.send("hosts", group, HOST, 40, 10)
    until("the kernel forwards to second", 20, lambda: net.entry(HOST, group)["outgoing"] == ["to-second"])
    if net.counter("unicasts sent") == sent:
        raise Failed("no Register was sent")
    until("the Registers are stopped", 20, lambda: net.entry(HOST, group)["forwarding"] == "kernel")
    sender.wait()
    came, of, twice = received(receiver)
    # FRR may lose the first while it has no entry, and take one of each way at the change.
    if came < of - 3:
        raise Failed(f"the viewer took {came} of {of}")
    return f"{came} of {of} came, {twice} twice"


def register_from_frr(net: Network) -> str:
    """FRR registers its source with the router as RP, whose host gets it, and the router takes the source's tree"""
    group = "239.2.1.1"
    receiver = net.receive("hosts", group, HOST, 40, 40)
    until("the router has the report", 10, lambda: "to-hosts" in net.entry("*", group)["outgoing"])
    heard = net.counter("unicasts heard")
    sender = net.send("source", group, SOURCE, 40, 10)
    until("the router forwards from first", 20, lambda: net.entry(SOURCE, group)["incoming"] == "to-first")
    if net.counter("unicasts heard") == heard:
        raise Failed("no Register came")
    until("it has SPTbit", 10, lambda: "T" in net.entry(SOURCE, group)["flags"])
    until("first stops its Registers", 20, lambda: "RegP" in net.frr("first", "show ip pim upstream"))
    sender.wait()
    came, of, twice = received(receiver)
    if came < of - 3:
        raise Failed(f"the host took {came} of {of}")
    return f"{came} of {of} came, {twice} twice"


def change_to_source_tree(net: Network) -> str:
    """as last hop the router leaves FRR's RP for the tree of the source, and prunes it off the shared one"""
    group = "239.1.1.1"
    receiver = net.receive("hosts", group, HOST, 60, 40)
    until("second has the Join", 15, lambda: group in net.frr("second", "show ip pim join"))
    sender = net.send("source", group, SOURCE, 60, 10)
    until("the router forwards from first", 20, lambda: net.entry(SOURCE, group)["incoming"] == "to-first")
    until("first has the Join of the source", 10, lambda: (SOURCE in net.frr("first", "show ip pim join")))
    until("the router has pruned the shared tree", 10, lambda: f"prune ({SOURCE}, {group}, rpt)" in net.log())
    if net.entry("*", group)["incoming"] != "to-second":
        raise Failed("the shared tree isn't from second")
    sender.wait()
    came, of, twice = received(receiver)
    if came < of - 3:
        raise Failed(f"the host took {came} of {of}")
    return f"{came} of {of} came, {twice} twice"


FEWER_BYTES = 99


def carried(net: Network, group: str, sending: str, source: str, receiving: str, receiver_address: str) -> str:
    """A stream of 20,000 packets a second, all of which are to arrive by the kernel."""
    # Sent faster, so that a sender that is kept waiting for up to a second has still sent as many a second.
    count, rate, least = 100_000, 25_000, 20_000
    # It keeps the group, and so the entry that the first packets of another size made; none of these is counted below.
    keeper = net.receive(receiving, group, receiver_address, 1000, 600, FEWER_BYTES)
    time.sleep(2)
    net.send(sending, group, source, 30, 10, FEWER_BYTES).wait()
    try:
        receiver = net.receive(receiving, group, receiver_address, count, 60)
        until("the kernel forwards", 15, lambda: net.entry(source, group)["forwarding"] == "kernel")
        time.sleep(1)
        whole, before = net.counter("packets that the kernel handed up whole"), net.entry(source, group)["packets"]
        said = net.send(sending, group, source, count, rate).communicate()[0].strip()
        came, of, twice = received(receiver)
        whole = net.counter("packets that the kernel handed up whole") - whole
        forwarded = net.entry(source, group)["packets"] - before
    finally:
        ended(keeper)
    said = f"{came} of {of} came, {twice} twice; {said}; the kernel forwarded {forwarded}, {whole} came to the router"
    if came < of or twice or forwarded < of or int(said.split(" a second")[0].split()[-1]) < least:
        raise Failed(said)
    return said


def stream_as_last_hop(net: Network) -> str:
    """20,000 packets a second go through the kernel, and none is lost: from FRR's source to the router's host"""
    return carried(net, "239.1.1.1", "source", SOURCE, "hosts", HOST)


def stream_as_dr(net: Network) -> str:
    """and from the router's host to FRR's, with FRR's RP between"""
    return carried(net, "239.1.2.9", "hosts", HOST, "viewer", "10.6.0.77")


def stream_as_rp(net: Network) -> str:
    """and from FRR's source, by the router as its RP, to FRR's host"""
    return carried(net, "239.2.1.9", "source", SOURCE, "viewer", "10.6.0.77")


def assert_of(net: Network, source_place: str, source: str, group: str, *rp: str) -> tuple[dict[str, Any], str]:
    """A router on the LAN asks both for a source, and where an RP is named first for the group; what it heard."""
    words = ["to-lan", "10.7.0.77", source, group, "10.7.0.2", "10.7.0.3", 16, *rp]
    asker = net.start("asker", sys.executable, ASKER, *words, stdout=subprocess.PIPE)
    time.sleep(2)
    sender = net.send(source_place, group, source, 180, 10)
    heard = json.loads(asker.communicate()[0])
    ended(sender)
    said = f"Asserts {heard['asserts']}, packets {heard['all']}, in the last 3 s {heard['last']}"
    if set(heard["all"]) != {"10.7.0.3", "10.7.0.2"}:
        raise Failed(f"not both sent: {said}")
    return heard, said


def assert_lost(net: Network) -> str:
    """on a LAN onto which both send, FRR wins where it is at the source; the router stops, and says why"""
    group = "239.4.5.5"
    heard, said = assert_of(net, "source", SOURCE, group, "10.4.0.1")
    if set(heard["asserts"]) != {"10.7.0.3", "10.7.0.2"} or set(heard["last"]) != {"10.7.0.2"}:
        raise Failed(f"at the end not first alone sends: {said}")
    entry = net.entry(SOURCE, group)
    if "source" not in entry or "to-lan" in entry["outgoing"]:
        raise Failed(f"the router has {entry}: {said}")
    why = [row for row in net.show("why", group, SOURCE) if row["interface"] == "to-lan"]
    told = [(row["is_outgoing"], "joined (S,G)" in row["reasons"], row["kept_off"]) for row in why]
    if told != [(False, True, ["lost assert (S,G) to 10.7.0.2"])]:
        raise Failed(f"the router says {why}: {said}")
    return said


def assert_won(net: Network) -> str:
    """where the router is at the source it wins, and FRR says that it lost"""
    group = "239.2.5.6"
    heard, said = assert_of(net, "hosts", HOST, group)
    if not heard["asserts"].get("10.7.0.3") or not heard["last"].get("10.7.0.3"):
        raise Failed(f"the router sent no Assert, or stopped: {said}")
    row = [line for line in net.frr("first", "show ip pim assert").splitlines() if group in line]
    if not row or "LOSER  10.7.0.3" not in row[0]:
        raise Failed(f"first says {row}: {said}")
    return said


def prunes(net: Network) -> None:
    """a leave at the router ends the stream on both trees, and one at FRR what the router sends there"""
    group = "239.1.1.1"
    receiver = net.receive("hosts", group, HOST, 10_000, 60)
    sender = net.send("source", group, SOURCE, 400, 10)
    until("the kernel forwards to the host", 20, lambda: net.entry(SOURCE, group)["outgoing"] == ["to-hosts"])
    ended(receiver)
    until("the kernel forwards nowhere", 20, lambda: net.entry(SOURCE, group)["outgoing"] == [])
    for place in ("first", "second"):
        until(f"{place} has the Prune", 20, lambda: not frr_joined(net, place, group))
    ended(sender)


def checksum(net: Network) -> str:
    """a sender that leaves its checksum to the card: what the router handles itself arrives with one"""
    group = "239.1.3.3"
    receiver = net.receive("viewer", group, "10.6.0.77", 5, 40)
    until("second is asked", 15, lambda: group in net.frr("second", "show ip igmp groups"))
    filled = net.counter("checksums filled in")
    # The first packets go in Registers, by the router.
    net.send("hosts", group, HOST, 5, 2).wait()
    came, of, _ = received(receiver)
    if net.counter("checksums filled in") == filled:
        raise Failed("none was filled in")
    if came < of - 1:
        raise Failed(f"{came} of {of} came")
    return f"{came} of {of} came, {net.counter('checksums filled in') - filled} filled in"


def link_down(net: Network) -> None:
    """an interface of the router that goes down and comes back costs that link alone"""
    group = "239.2.1.7"
    with stream(net, group, 90, 600):
        ip("router", "link", "set", "to-second", "down")
        until("second is gone", 10, lambda: "10.3.0.1" not in net.neighbours())
        goes_on(net, group, "while the link is down")
        ip("router", "link", "set", "to-second", "up")
        ip("router", "route", "replace", "10.4.0.0/24", "via", "10.3.0.1")
        ip("router", "route", "replace", "10.6.0.0/24", "via", "10.3.0.1")
        until("second is back", 30, lambda: "10.3.0.1" in net.neighbours())
        goes_on(net, group, "after it came back")


def link_deleted(net: Network) -> None:
    """one that is deleted and made anew, too"""
    group = "239.2.1.8"
    with stream(net, group, 120, 800):
        ip("router", "link", "delete", "to-lan")
        is_gone = lambda: bool(net.interface("to-lan")["why_down"])
        until("it is said to be gone", 10, is_gone)
        goes_on(net, group, "without it")
        net.connect("router", "10.7.0.3/24", "lan", None)
        until("first is back there", 40, lambda: "10.7.0.2" in net.neighbours())
        goes_on(net, group, "with it anew")


def another_address(net: Network) -> str:
    """one that gets another address takes that, and its own again, and a stream through others flows on meanwhile"""
    group = "239.1.1.18"
    receiver = net.receive("hosts", group, HOST, 1500, 90)
    sender = net.send("source", group, SOURCE, 1500, 20)
    until("the kernel forwards", 20, lambda: net.entry(SOURCE, group)["outgoing"] == ["to-hosts"])
    for new, old in (("10.7.9.1/24", "10.7.0.3/24"), ("10.7.0.3/24", "10.7.9.1/24")):
        ip("router", "address", "add", new, "dev", "to-lan")
        ip("router", "address", "delete", old, "dev", "to-lan")
        has_it = lambda row: row["address"] == new and row["is_up"]
        until(f"it has {new}", 10, lambda: has_it(net.interface("to-lan")))
        until("the router has learned", 30, lambda: net.entry(SOURCE, group)["forwarding"] == "kernel")
    until("first is back there", 40, lambda: "10.7.0.2" in net.neighbours())
    sender.wait()
    return all_came(*received(receiver), 3)


def restart_of_router(net: Network) -> None:
    """the router says goodbye, comes again, and the stream with it"""
    group = "239.1.1.9"
    with stream(net, group, 120, 800):
        net.router.send_signal(signal.SIGTERM)
        if net.router.wait(10):
            raise Failed(f"it ended with {net.router.returncode}")
        until("first has heard the goodbye", 3, lambda: "10.2.0.2" not in net.frr("first", "show ip pim neighbor"))
        net.start_router()
        until("the kernel forwards again", 60, lambda: net.entry(SOURCE, group)["outgoing"] == ["to-hosts"])
        goes_on(net, group, "after it came again")


def restart_of_frr(net: Network) -> None:
    """FRR's pimd is killed and comes again, and the stream with it"""
    group = "239.1.1.10"
    with stream(net, group, 150, 1200):
        net.pimd["first"].kill()
        time.sleep(2)
        net.start_pimd("first")
        until("first has the Join again", 40, lambda: group in net.frr("first", "show ip pim join"))
        until("first knows the router", 20, lambda: "10.2.0.2" in net.frr("first", "show ip pim neighbor"))
        goes_on(net, group, "after it came again")


def holdtime_at_first(net: Network) -> int | None:
    """In seconds, as FRR heard it of the router; None where it doesn't know it."""
    known = json.loads(net.frr("first", "show ip pim neighbor json") or "{}").get("to-router", {})
    return known.get("10.2.0.2", {}).get("holdTimeMax")


def hello_times(net: Network) -> str:
    """Hellos leave as often and hold as long as the settings say, so that FRR misses a router that is killed at once"""
    net.reload_interface("to-first", "hello_interval = 0.3\nhello_holdtime = 1\n")
    until("first has heard of it", 10, lambda: holdtime_at_first(net) == 1)
    # Longer than a Hello holds: others come meanwhile.
    for _ in range(15):
        time.sleep(0.2)
        if holdtime_at_first(net) is None:
            raise Failed("first lost the router")
    net.router.kill()
    killed = time.monotonic()
    until("first misses it", 5, lambda: holdtime_at_first(net) is None)
    missed = time.monotonic() - killed
    net.router.wait()
    net.start_router()
    until("first knows it again", 40, lambda: holdtime_at_first(net) == 105)
    if missed > 2:
        raise Failed(f"first missed it after {missed:.1f} s")
    return f"it missed it after {missed:.1f} s"


def packed_joins(net: Network) -> str:
    """Join/Prunes to a neighbour leave together, and FRR takes as many of them as where each leaves by itself"""
    said = []
    for number, setting in enumerate(("pack = true\n", "pack = false\n")):
        net.reload(setting + net.settings)
        groups = [f"239.1.{30 + number}.{last}" for last in range(150)]
        before = net.sent("to-second")
        words = inside("hosts", sys.executable, SENDER, "to-router", HOST, "report", *groups)
        subprocess.run(words, check=True, stdout=subprocess.DEVNULL)
        joined = lambda: len(frr_joined(net, "second", f"239.1.{30 + number}."))
        until("second has the Joins", 20, lambda: joined() == len(groups))
        said.append(net.sent("to-second") - before)
    net.reload(net.settings)
    # The Hellos and queries of these seconds are among them.
    if said[0] > 20 or said[1] < len(groups):
        raise Failed(f"{said[0]} packets together, {said[1]} each by itself")
    return f"{len(groups)} groups in {said[0]} packets, and in {said[1]} where each leaves by itself"


def reload(net: Network) -> None:
    """SIGHUP takes new RP ranges, says what needs a restart, and refuses a wrong file, as --check does"""
    file = net.room / "router.toml"
    more = '[[rp]]\ngroups = "239.3.0.0/16"\naddress = "10.4.0.2"\n'
    net.reload(net.settings.replace("control", "other") + more)
    until("the new range is there", 5, lambda: any(row["groups"] == "239.3.0.0/16" for row in net.show("rp")))
    if "socket differs in the file" not in net.log():
        raise Failed("what needs a restart isn't said")
    file.write_text("limit = 0\n" + net.settings)
    net.router.send_signal(signal.SIGHUP)
    until("a wrong file is refused", 5, lambda: "line 1: limit is 0" in net.log())
    checked = subprocess.run([net.built / "viqeshord", "run", "--check", file], capture_output=True, text=True)
    if checked.returncode != 2 or "line 1: limit is 0" not in checked.stderr:
        raise Failed(f"--check: {checked}")
    net.reload(net.settings)
    until("the range is gone", 5, lambda: len(net.show("rp")) == len(RPS))


def routes(net: Network) -> None:
    """of the kernel's routes the lowest metric and the highest next hop are taken, and a blackhole is a hole"""
    for route in ("10.60.0.0/14 via 10.2.0.1", "blackhole 10.61.0.0/16",
                  "10.62.0.0/16 nexthop via 10.2.0.1 nexthop via 10.3.0.1",
                  "10.63.0.0/16 via 10.3.0.1 metric 30", "10.63.0.0/16 via 10.2.0.1 metric 20"):
        ip("router", "route", "add", *route.split())
    asked = [(f"239.{number}.0.0/16", f"10.{number}.0.1") for number in range(60, 64)]
    ranges = [f'[[rp]]\ngroups = "{groups}"\naddress = "{address}"\n' for groups, address in asked]
    net.reload(net.settings + "".join(ranges))
    wanted = ["10.2.0.1", None, "10.3.0.1", "10.2.0.1"]
    until(f"the next hops are {wanted}", 5, lambda: [row["next_hop"] for row in net.show("rp")[len(RPS):]] == wanted)
    ip("router", "route", "delete", "blackhole", "10.61.0.0/16")
    wanted[1] = "10.2.0.1"
    until("the hole is filled", 5, lambda: [row["next_hop"] for row in net.show("rp")[len(RPS):]] == wanted)
    net.reload(net.settings)


def reroute(net: Network) -> None:
    """a route to the source that changes takes its tree to the other neighbour, and back"""
    group = "239.2.1.5"
    receiver = net.receive("hosts", group, HOST, 100_000, 120)
    sender = net.send("source", group, SOURCE, 1200, 10)
    until("it comes from first", 20, lambda: net.entry(SOURCE, group)["incoming"] == "to-first")
    for neighbour, port in (("10.3.0.1", "to-second"), ("10.2.0.1", "to-first")):
        ip("router", "route", "replace", "10.1.0.0/24", "via", neighbour)
        until(f"it comes from {port[3:]}", 20, lambda: net.entry(SOURCE, group)["incoming"] == port)
        goes_on(net, group, f"by {port[3:]}")
    ended(sender)
    ended(receiver)


def limit(net: Network) -> str:
    """at its limit the router refreshes what it knows, where a report also names what is new, and refuses that alone"""
    known, new = "239.2.8.1", "239.2.8.2"
    # What FRR has joined in a trial before would take the group's room.
    until("nobody joins anything any longer", 300, lambda: not net.show("joins"))
    net.stop_router()
    # Three neighbours, and a group; no quota is to be met before the limit.
    net.start_router("limit = 4\n", "max_groups = 100\n")
    receivers = []
    try:
        until("the router knows three neighbours", 40, lambda: len(net.neighbours()) == 3)
        for group in (known, new):
            receivers.append(net.receive("hosts", group, HOST, 1, 120))
            time.sleep(1)
        # Longer than a group stays of which no report comes: 2 x 20 s + 2 s.
        for _ in range(12):
            groups = {row["group"] for row in net.show("igmp")}
            if groups != {known}:
                raise Failed(f"it has {groups}")
            time.sleep(4)
        refused = net.refused("the rest of `limit`")
        if refused < 3:
            raise Failed(f"{refused} were refused")
    finally:
        for receiver in receivers:
            ended(receiver)
        net.stop_router()
        net.start_router()
    return f"the new one was refused {refused} times"


def repeated_joins(net: Network) -> str:
    """a Join that repeats, of 1,000 groups, costs no more of a processor than it costs FRR"""
    groups, times = 1_000, 20
    log_each = lambda word: [net.frr("first", f"{word}{line}") for line in DEBUGS if net.is_logged]
    # Neither writes a line for a packet.
    net.reload(net.settings.replace('log = "debug"', 'log = "info"'))
    log_each("no ")
    took = {}
    # Each as the RP of its groups: 239.2.64.0 and more, 239.4.64.0 and more.
    for name, process, to, rp, first in (("the router", net.router.pid, "10.7.0.3", "10.5.0.1", 0),
                                         ("FRR", net.pimd["first"].pid, "10.7.0.2", "10.4.0.1", 0x20000)):
        words = inside("asker", sys.executable, SENDER, "to-lan", "10.7.0.77", "joins", to, rp, first, groups)
        run(*words, 1)
        took[name] = used_for(process, lambda: run(*words, times)) / (groups * times) * 1e6
    log_each("")
    joined = (len([row for row in net.show("joins") if row["interface"] == "to-lan"]),
              net.frr("first", "show ip pim join").count("to-lan "))
    net.stop_router()
    net.start_router()
    said = ", ".join(f"{name} {each:.1f} µs" for name, each in took.items())
    if min(joined) < groups or took["the router"] > took["FRR"]:
        raise Failed(f"{said}; {joined} groups were joined")
    return said


TRIALS = [neighbours, joins_to_frr, joins_from_frr, register_to_frr, checksum, register_from_frr, change_to_source_tree,
          stream_as_last_hop, stream_as_dr, stream_as_rp, assert_lost, assert_won, prunes, link_down, link_deleted,
          another_address, restart_of_router, restart_of_frr, hello_times, packed_joins, reload, routes, reroute, limit,
          repeated_joins]
