"""What hosts and strangers can't do: each is refused in front of the router, counted, and said."""
from __future__ import annotations

import subprocess
import sys
import time
from typing import TYPE_CHECKING

from trials.network import (HOST, SENDER, SOURCE, Failed, ended, first_after, goes_on, inside, received, stream,
                            until)

if TYPE_CHECKING:
    from trials.network import Network

FEW_LINES = 4


def send(net: Network, place: str, interface: str, address: str, *words: object) -> None:
    said = subprocess.DEVNULL
    subprocess.run(inside(place, sys.executable, SENDER, interface, address, *words), check=True, stdout=said)


def lines(net: Network, words: str) -> list[str]:
    return [line for line in net.log().splitlines() if words in line]


def is_refused(net: Network, cause: str, by: str) -> str:
    """Some were refused for a cause, and few lines say it."""
    count = net.refused(cause)
    said = lines(net, cause)
    if not count or not said:
        raise Failed(f"{by}: {count} refused for {cause}, {len(said)} lines")
    return f"{count} refused, {len(said)} lines"


# A host that joins beside a flood has its first packet within so many ms.
AT_ONCE = 50


def flood_of_groups(net: Network) -> str:
    """of 65,536 groups of a host its share is held: another one of its link is served at once, so is a neighbour"""
    group = "239.2.7.8"
    sender = net.send("source", group, SOURCE, 20_000, 200)
    send(net, "hosts", "to-router", "10.5.0.50", "reports", 65_536)
    until("the flood is refused", 15, lambda: net.refused("max_host_groups") > 0)
    before = len(lines(net, "max_host_groups"))
    times = []
    for _ in range(5):
        flood = net.start("hosts", sys.executable, SENDER, "to-router", "10.5.0.50", "reports", 65_536, 0.02,
                          stdout=subprocess.PIPE)
        flood.stdout.readline()
        time.sleep(1)
        times.append(first_after(net.receive("hosts", group, HOST, 1, 4)))
        if flood.poll() is not None:
            raise Failed("the flood was over")
        ended(flood)
        until("nobody asks", 15, lambda: "to-hosts" not in net.entry("*", group)["outgoing"])
    ended(sender)
    # A neighbour that comes anew, and a host on another link.
    send(net, "asker", "to-lan", "10.7.0.99", "hello", 1)
    until("the new neighbour is known", 5, lambda: "10.7.0.99" in net.neighbours())
    send(net, "asker", "to-lan", "10.7.0.78", "report", "239.4.9.9")
    until("its group is known", 5, lambda: any(row["group"] == "239.4.9.9" for row in net.show("igmp")))
    groups = len([row for row in net.show("igmp") if row["interface"] == "to-hosts"])
    if before > FEW_LINES:
        raise Failed(f"{before} lines say it")
    said = is_refused(net, "max_host_groups", "the flood")
    net.stop_router()
    net.start_router()
    if any(it is None or it > AT_ONCE for it in times):
        raise Failed(f"another host had its first packet after {times} ms")
    return f"{groups} groups of the link are held; another host joins after {times} ms; {said}"


def flood_of_older_groups(net: Network) -> str:
    """of 65,536 groups that it reports by IGMPv2, too, while it reports what is held again and again"""
    net.reload(net.with_policy("max_host_groups = 1000000\n"))
    send(net, "hosts", "to-router", HOST, "older-reports", 65_536, 1)
    until("the flood is refused", 15, lambda: net.refused("`max_groups`") > 0)
    groups = len([row for row in net.show("igmp") if row["version"] == "IGMPv2"])
    words = [sys.executable, SENDER, "to-router", HOST, "older-reports", 8_000, 20]
    flood = net.start("hosts", *words, stdout=subprocess.DEVNULL)
    receiver = net.receive("asker", "239.2.7.9", "10.7.0.77", 100, 30)
    sender = net.send("source", "239.2.7.9", SOURCE, 100, 10)
    came, of, _ = received(receiver)
    sender.wait()
    is_over = flood.poll() is not None
    ended(flood)
    net.stop_router()
    net.start_router()
    if is_over or came < of - 10:
        raise Failed(f"{came} of {of} came, and the flood {'was over' if is_over else 'went on'}")
    return f"{groups} groups of the flood are held; of a stream elsewhere {came} of {of} came"


def flood_of_sources(net: Network) -> str:
    """one that sends to 40,000 groups, too: a stream of another interface goes on, and a new one begins"""
    group = "239.2.7.1"
    with stream(net, group, 120, 10_000, 50, most=10_000):
        send(net, "hosts", "to-router", "10.5.0.50", "sources", 40_000)
        until("the flood is refused", 30, lambda: net.refused("max_streams") > 0)
        goes_on(net, group, "under the flood")
        another = net.receive("hosts", "239.2.7.2", HOST, 40, 20)
        time.sleep(2)
        net.send("source", "239.2.7.2", SOURCE, 40, 10).wait()
        came, of, _ = received(another)
        if came < of - 3:
            raise Failed(f"the new stream: {came} of {of} came")
    said = is_refused(net, "max_streams", "the flood")
    net.stop_router()
    net.start_router()
    return f"the new stream: {came} of {of} came; {said}"


def flood_of_registers(net: Network) -> str:
    """and Registers of 40,000 sources at the RP take their quota, and no more"""
    send(net, "source", "to-first", SOURCE, "registers", "10.5.0.1", "239.2.7.3", 40_000)
    until("they are refused", 20, lambda: net.refused("max_registered") > 0)
    said = is_refused(net, "max_registered", "the Registers")
    net.stop_router()
    net.start_router()
    return said


def flood_of_neighbours(net: Network) -> str:
    """Hellos of 60 addresses on a link take its quota of neighbours"""
    net.reload_interface("to-lan", "max_neighbors = 8\n")
    send(net, "asker", "to-lan", "10.7.0.100", "hellos", 60)
    until("they are refused", 10, lambda: net.refused("max_neighbors") > 0)
    there = len([it for it in net.neighbours() if it.startswith("10.7.0.")])
    if there != 8:
        raise Failed(f"{there} neighbours are there")
    said = is_refused(net, "max_neighbors", "the Hellos")
    net.stop_router()
    net.start_router()
    return f"8 are there; {said}"


def hello_of_a_host(net: Network) -> str:
    """on a passive interface a host's Hello doesn't take the designated router's part, and the stream to it goes on"""
    group = "239.2.7.4"
    net.reload_interface("to-hosts", "passive = true\n")
    with stream(net, group, 60, 400, most=1000):
        send(net, "hosts", "to-router", "10.5.0.250", "hello", 3)
        if "10.5.0.250" in net.neighbours():
            raise Failed("it is a neighbour")
        goes_on(net, group, "after the Hellos")
    said = is_refused(net, "PIM on a passive interface", "the Hellos")
    net.reload(net.settings)
    return said


def pim_of_strangers(net: Network) -> str:
    """a Hello of another subnet, and one with TTL 64, make no neighbour, and the stream goes on"""
    group, before = "239.2.7.5", net.neighbours()
    with stream(net, group, 60, 400, most=1000):
        send(net, "hosts", "to-router", "10.99.0.9", "hello", 2)
        send(net, "hosts", "to-router", "10.5.0.250", "hello", 2, 64)
        said = [is_refused(net, cause, "the Hellos") for cause in ("isn't `unnumbered`", "TTL isn't 1")]
        if net.neighbours() - before:
            raise Failed(f"neighbours are {net.neighbours()}")
        goes_on(net, group, "after the Hellos")
        net.reload_interface("to-hosts", "unnumbered = true\n")
        send(net, "hosts", "to-router", "10.99.0.9", "hello", 1)
        until("it is a neighbour of an unnumbered link", 5, lambda: "10.99.0.9" in net.neighbours())
    net.stop_router()
    net.start_router()
    return "; ".join(said)


def ingress_rule(net: Network) -> None:
    """a firewall's rule at the ingress of an interface keeps a Hello from the router, and one at `input` doesn't"""
    forged = "10.5.0.250"
    nft = lambda rules: subprocess.run(inside("router", "nft", "-f", "-"), input=rules, text=True, check=True)
    nft('table netdev pim { chain hosts { type filter hook ingress device "to-hosts" priority 0;'
        " ip protocol pim ip daddr 224.0.0.13 drop; }; }")
    send(net, "hosts", "to-router", forged, "hello", 2)
    if forged in net.neighbours():
        raise Failed("it passes the ingress")
    nft("delete table netdev pim\n"
        "table inet pim { chain input { type filter hook input priority 0; ip protocol pim drop; }; }")
    send(net, "hosts", "to-router", forged, "hello", 1)
    until("it is a neighbour", 5, lambda: forged in net.neighbours())
    nft("delete table inet pim")
    net.stop_router()
    net.start_router()


def forwarders_are_said(net: Network) -> None:
    """where a host may speak PIM a line says so, and one that it is the designated router, or won an Assert"""
    group, forged = "239.2.7.6", "10.5.0.250"
    receiver = net.receive("hosts", group, HOST, 1000, 60)
    sender = net.send("source", group, SOURCE, 400, 10)
    until("it is said that hosts are there", 10, lambda: lines(net, "hosts are on to-hosts, which has neither"))
    until("the kernel forwards", 20, lambda: net.entry(SOURCE, group)["outgoing"] == ["to-hosts"])
    send(net, "hosts", "to-router", forged, "assert", SOURCE, group)
    until("the Assert is said", 5, lambda: lines(net, f"{forged} forwards ({SOURCE}, {group}) on to-hosts"))
    send(net, "hosts", "to-router", forged, "hello", 1)
    until("the designated router is said", 5, lambda: lines(net, f"{forged} is the designated router of to-hosts"))
    ended(sender)
    ended(receiver)
    net.stop_router()
    net.start_router()


def lines_are_bounded(net: Network) -> str:
    """of 20 neighbours that come and go for 15 s few lines are said, and one that counts the others"""
    before = len(lines(net, "on to-hosts"))
    words = inside("hosts", sys.executable, SENDER, "to-router", "10.5.0.100", "flaps", 20, 15)
    sent = int(subprocess.run(words, check=True, capture_output=True, text=True).stdout)
    left_out = "more lines of neighbours that come and go on to-hosts"
    until("it is said what was left out", 15, lambda: lines(net, left_out))
    count = len([line for line in lines(net, "on to-hosts")[before:] if "debug" not in line])
    net.stop_router()
    net.start_router()
    if count > 100 or sent < 5_000:
        raise Failed(f"{count} lines of {sent} Hellos")
    return f"{count} lines of {sent} Hellos"


def neighbours_that_are_believed(net: Network) -> str:
    """where `neighbors` names some, another's Hello is refused, and those are known"""
    net.reload_interface("to-lan", 'neighbors = ["10.7.0.2", "10.7.0.64/28"]\n')
    send(net, "asker", "to-lan", "10.7.0.99", "hello", 2)
    send(net, "asker", "to-lan", "10.7.0.77", "hello", 2)
    until("the one is known", 5, lambda: "10.7.0.77" in net.neighbours())
    if "10.7.0.99" in net.neighbours():
        raise Failed("so is the other")
    until("so is first", 30, lambda: "10.7.0.2" in net.neighbours())
    said = is_refused(net, "isn't among `neighbors`", "the Hello")
    net.reload(net.settings)
    return said


def list_of_joins(net: Network) -> str:
    """a group that `join` doesn't permit isn't joined, by a host or by FRR, and another one is"""
    rules = 'join = [{ groups = "239.2.8.0/24", permit = false }, { groups = "239.0.0.0/8" }]\n'
    net.reload(net.with_policy(rules))
    receivers = [net.receive("hosts", group, HOST, 1, 60) for group in ("239.2.8.1", "239.2.9.1")]
    receivers += [net.receive("viewer", group, "10.6.0.77", 1, 60) for group in ("239.2.8.2", "239.2.9.2")]
    outgoing = lambda group: net.entry("*", group)["outgoing"]
    are_joined = lambda: "to-hosts" in outgoing("239.2.9.1") and "to-second" in outgoing("239.2.9.2")
    until("the permitted are joined", 20, are_joined)
    time.sleep(3)
    joined = [group for group in ("239.2.8.1", "239.2.8.2") if outgoing(group)]
    for receiver in receivers:
        ended(receiver)
    if joined:
        raise Failed(f"{joined} are joined too")
    said = is_refused(net, "`join` doesn't permit", "the joins")
    net.reload(net.settings)
    return said


def list_of_senders(net: Network) -> str:
    """a source that `send` doesn't permit is dropped by the kernel, and another of the same group arrives"""
    group = "239.1.8.3"
    net.reload_interface("to-hosts", 'send = [{ sources = "10.5.0.77/32" }]\n')
    receiver = net.receive("viewer", group, "10.6.0.77", 40, 40)
    until("second is asked", 15, lambda: group in net.frr("second", "show ip igmp groups"))
    net.send("hosts", group, "10.5.0.50", 20, 10).wait()
    time.sleep(1)
    if net.entry("10.5.0.50", group)["outgoing"] or "F" in net.entry("10.5.0.50", group)["flags"]:
        raise Failed("the router forwards it")
    refused = is_refused(net, "`send` doesn't permit", "the source")
    net.send("hosts", group, HOST, 40, 10).wait()
    came, of, twice = received(receiver)
    if came < of - 3 or twice > 3:
        raise Failed(f"{came} of {of} came, {twice} twice")
    net.reload(net.settings)
    return f"of the other {came} of {of} came; {refused}"


def list_of_registers(net: Network) -> str:
    """a Register that `register` doesn't permit makes no source known, and another one does"""
    net.reload(net.with_policy('register = [{ groups = "239.2.8.4/32", permit = false }, {}]\n'))
    for group in ("239.2.8.4", "239.2.8.5"):
        net.send("source", group, SOURCE, 10, 10).wait()
    heard = net.counter("unicasts heard")
    until("a Register is refused", 5, lambda: net.refused("`register` doesn't permit") > 0)
    said = is_refused(net, "`register` doesn't permit", f"of {heard} unicasts")
    net.reload(net.settings)
    return said


def igmp_in_registers(net: Network) -> str:
    """a query and a report inside Registers come to no link of the RP's unless `guard` is off, and a stream does"""
    # Of no other trial: the source's DR registers a stream again only a minute after a Register-Stop.
    group, times = "239.2.7.7", 5

    def carried() -> int:
        words = [sys.executable, SENDER, "to-router", HOST, "heard", 3]
        listener = net.start("hosts", *words, stdout=subprocess.PIPE)
        listener.stdout.readline()
        send(net, "source", "to-first", SOURCE, "carried", "10.5.0.1", group, times)
        return int(listener.communicate()[0])

    receiver = net.receive("hosts", group, HOST, 40, 60)
    until("the router has the report", 10, lambda: "to-hosts" in net.entry("*", group)["outgoing"])
    guarded = carried()
    said = is_refused(net, "`guard` doesn't let", "the Registers")
    net.send("source", group, SOURCE, 40, 10).wait()
    came, of, _ = received(receiver)
    receiver = net.receive("hosts", group, HOST, 40, 60)
    net.reload("guard = false\n" + net.settings)
    unguarded = carried()
    net.reload(net.settings)
    ended(receiver)
    if (guarded, unguarded) != (0, 2 * times) or came < of - 3:
        raise Failed(f"{guarded} came, and {unguarded} without the guard; {came} of {of} of the stream")
    return f"{said}; {came} of {of} of the stream came; {unguarded} of {2 * times} without the guard"


def fragments_of_a_report(net: Network) -> str:
    """a report in fragments is heard: the kernel makes it whole"""
    groups = [f"239.2.13.{number}" for number in range(250)] + [f"239.2.14.{number}" for number in range(50)]
    send(net, "hosts", "to-router", HOST, "report", *groups)
    until("all its groups are known", 5, lambda: {row["group"] for row in net.show("igmp")} >= set(groups[:180]))
    there = {row["group"] for row in net.show("igmp")} & set(groups)
    return f"{len(there)} of {len(groups)} groups"


def older_hosts_that_are_not_heard(net: Network) -> None:
    """one of IGMPv2 is said once, however often it reports, and "v2" hears it, but none of IGMPv1 and none of SSM"""
    group, ssm = "239.2.8.6", "232.1.1.1"
    is_there = lambda: any(row["group"] == group for row in net.show("igmp"))
    says = lambda version: len(lines(net, f"the host 10.5.0.50 on to-hosts speaks {version}, which `older_hosts`"))
    asks = lambda version, group: send(net, "hosts", "to-router", "10.5.0.50", "older", version, group)
    net.reload(net.settings.replace("[igmp]\n", '[igmp]\nolder_hosts = "none"\n'))
    for _ in range(5):
        asks(2, group)
    until("it is said", 5, lambda: says("IGMPv2"))
    if says("IGMPv2") != 1 or net.refused("IGMPv1 or IGMPv2") < 5 or is_there():
        raise Failed(f"{says('IGMPv2')} lines")
    net.reload_interface("to-hosts", 'older_hosts = "v2"\njoin = [{ groups = "239.2.8.6/32" }]\n')
    refused = net.refused("IGMPv1 or IGMPv2")
    asks(1, group)
    until("IGMPv1 isn't heard", 5, lambda: net.refused("IGMPv1 or IGMPv2") > refused and not is_there())
    refused = net.refused("`join` doesn't permit")
    asks(2, "239.2.8.7")
    until("`join` refuses another group", 5, lambda: net.refused("`join` doesn't permit") > refused)
    asks(2, ssm)
    until("it is said of SSM", 5, lambda: lines(net, f"speaks IGMPv2 of the SSM group {ssm}"))
    asks(2, group)
    until("IGMPv2 is heard", 5, is_there)
    net.reload(net.settings)


def check_says_quotas(net: Network) -> None:
    """--check says what is kept for neighbours, which quotas leave hosts without, and which interface isn't there"""
    file = net.room / "checked.toml"
    checked = lambda text: (file.write_text(text), subprocess.run(
        inside("router", net.built / "viqeshord", "run", "--check", file), capture_output=True, text=True).stdout)[1]
    said = checked(net.settings + '[[interface]]\nname = "to-nowhere"\n')
    wanted = ("are kept for neighbours", "no interface to-nowhere now")
    if any(words not in said for words in wanted) or "more than what is left" in said:
        raise Failed(said)
    said = checked(net.with_policy("max_groups = 60000\n"))
    if "more than what is left of the limit" not in said:
        raise Failed(said)


TRIALS = [check_says_quotas, older_hosts_that_are_not_heard, fragments_of_a_report, hello_of_a_host, pim_of_strangers,
          ingress_rule, forwarders_are_said, lines_are_bounded, neighbours_that_are_believed, list_of_joins,
          list_of_senders, list_of_registers, igmp_in_registers, flood_of_neighbours, flood_of_groups,
          flood_of_older_groups, flood_of_sources, flood_of_registers]
