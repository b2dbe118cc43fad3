"""What an operator sees of the router and does with it, beside FRR."""
from __future__ import annotations

import json
import os
import stat
import subprocess
import sys
import time
from typing import TYPE_CHECKING

from trials.network import AS_SERVICE, HOST, NOBODY, SENDER, SOURCE, Failed, ended, goes_on, inside, received, until

if TYPE_CHECKING:
    from trials.network import Network

AT = "127.0.0.1:9791"
GET = "import sys, urllib.request; sys.stdout.write(urllib.request.urlopen(sys.argv[1]).read().decode())"
VIEWER = "10.6.0.77"


def metrics_of(net: Network) -> dict[str, float]:
    """The samples that the router tells over HTTP, or none."""
    words = inside("router", sys.executable, "-c", GET, f"http://{AT}/metrics")
    said = subprocess.run(words, capture_output=True, text=True).stdout
    lines = [line.rsplit(" ", 1) for line in said.splitlines() if not line.startswith("#")]
    return {name: float(value) for name, value in lines}


def metrics(net: Network) -> str:
    """with `listen` SIGHUP has the router answer Prometheus, with counts that rise, and without it no more"""
    if metrics_of(net):
        raise Failed("it answers where the settings don't say so")
    until("the router knows three neighbours", 40, lambda: len(net.neighbours()) == 3)
    net.reload(net.settings + f'[metrics]\nlisten = "{AT}"\n')
    until("it answers", 10, lambda: metrics_of(net))
    before = metrics_of(net)
    for port in ("to-first", "to-second", "to-lan"):
        if before[f'viqeshor_pim_neighbors{{interface="{port}"}}'] != 1:
            raise Failed(f"it tells no neighbour on {port}")
    group = "239.1.12.1"
    receiver = net.receive("hosts", group, HOST, 200, 40)
    until("second is asked", 15, lambda: group in net.frr("second", "show ip pim join"))
    net.send("source", group, SOURCE, 200, 50).wait()
    came, of, _ = received(receiver)
    after = metrics_of(net)
    rose = lambda name: after[f"viqeshor_{name}"] - before[f"viqeshor_{name}"]
    sent = rose('forwarded_packets_total{interface="to-hosts",direction="sent"}')
    joins = rose('pim_messages_total{interface="to-second",type="join_prune",direction="sent"}')
    # The router itself may copy the first ones.
    if not came - 20 <= sent <= came or not joins or not rose("events_total"):
        raise Failed(f"{sent} packets and {joins} Joins were told, {came} of {of} came")
    net.reload(net.settings)
    until("it doesn't answer any more", 10, lambda: not metrics_of(net))
    return f"{len(after)} samples; {sent:.0f} packets sent by the kernel, {came} came"


def shown_beside_frr(net: Network) -> None:
    """Joins of both directions, their RPF', and ways are shown as FRR has them"""
    ours, theirs = "239.1.12.2", "239.2.12.2"
    receivers = [net.receive("hosts", ours, HOST, 1, 60), net.receive("viewer", theirs, VIEWER, 1, 60)]
    until("second has the Join", 15, lambda: ours in net.frr("second", "show ip pim join"))
    up = next(row for row in net.show("upstream") if row["group"] == ours)
    told = {name: up[name] for name in ("source", "type", "state", "rpf_interface", "rpf_neighbor", "by_assert")}
    if told != {"source": "*", "type": "*,G", "state": "joined", "rpf_interface": "to-second",
                "rpf_neighbor": "10.3.0.1", "by_assert": False} or not 0 < up["next_join_seconds"] <= 60:
        raise Failed(f"upstream is {up}")
    joined = lambda: [row for row in net.show("joins") if row["group"] == theirs]
    until("second's Join is shown", 15, joined)
    row = joined()[0]
    if (row["interface"], row["source"], row["state"]) != ("to-second", "*", "joined"):
        raise Failed(f"the Join of second is {row}")
    way = next(row for row in net.show("rpf") if row["address"] == "10.4.0.2")
    if (way["next_hop"], way["prefix"]) != ("10.3.0.1", "10.4.0.0/24") or way["neighbor_up_seconds"] is None:
        raise Failed(f"the way to the RP is {way}")
    for receiver in receivers:
        ended(receiver)


def watch(net: Network) -> None:
    """`show --watch` tells again and again, also of a router that went and came again, until it is ended"""
    control = net.room / "router" / "control"
    words = [net.built / "viqeshord", "show", "rp", "--watch", "0.3", "--json", "--socket", control]
    watching = net.start("router", *words, stdout=subprocess.PIPE)
    read = lambda: "".join(iter(watching.stdout.readline, "\n"))
    told = [json.loads(read())["rp"] for _ in range(3)]
    net.stop_router()
    until("it says that nobody answers", 10, lambda: "is the router running?" in read())
    net.start_router()
    until("it tells again", 10, lambda: read().startswith("{"))
    if watching.poll() is not None or told[0] != told[2] or not told[0]:
        raise Failed(f"it told {told}")
    ended(watching)


def cleared(net: Network, *what: str, user: int = 0, group: int = 0) -> subprocess.CompletedProcess[str]:
    words = ["setpriv", f"--reuid={user}", f"--regid={group}", "--clear-groups", net.room / "viqeshord", *what,
             "--socket", net.room / "router" / "control"]
    return subprocess.run(inside("router", *words), capture_output=True, text=True)


def clear(net: Network) -> str:
    """`clear` has entries and an interface begin anew while a stream flows, and counters count from 0"""
    group = "239.1.12.3"
    receiver = net.receive("hosts", group, HOST, 1000, 60)
    until("second is asked", 15, lambda: group in net.frr("second", "show ip pim join"))
    sender = net.send("source", group, SOURCE, 1000, 50)
    until("the kernel forwards", 20, lambda: net.entry(SOURCE, group)["packets"] > 100)
    for what in (["clear", "mroute"], ["clear", "counters"]):
        if cleared(net, *what).returncode:
            raise Failed(f"{what} fails")
    if net.entry(SOURCE, group)["packets"] > 50 or net.counter("events given to the router") > 100:
        raise Failed("something still has its old count")
    goes_on(net, group, "after the entries are made anew")
    told = lambda: json.loads(net.frr("second", "show ip pim neighbor 10.3.0.2 json") or "{}")
    before = json.dumps(told())
    if cleared(net, "clear", "interface", "to-second").returncode:
        raise Failed("clear interface fails")
    until("second knows it anew", 20, lambda: "10.3.0.2" in net.frr("second", "show ip pim neighbor"))
    until("the router knows second anew", 20, lambda: "10.3.0.1" in net.neighbours())
    goes_on(net, group, "after another interface began anew")
    sender.wait()
    came, of, twice = received(receiver)
    if came < of - 20:
        raise Failed(f"{came} of {of} came, {twice} twice; second told {before}")
    return f"{came} of {of} came, {twice} twice"


def socket_of_a_group(net: Network) -> None:
    """members of the control socket's group may ask, but not clear, and others may do neither"""
    net.stop_router()
    net.start_router('socket_group = "nogroup"\n')
    mode = os.stat(net.room / "router" / "control")
    if stat.S_IMODE(mode.st_mode) != 0o660 or mode.st_gid != NOBODY:
        raise Failed(f"the socket is {mode}")
    other, no_member = 4711, 4712
    tried = [cleared(net, "show", "rp", user=other, group=NOBODY),
             cleared(net, "clear", "counters", user=other, group=NOBODY),
             cleared(net, "show", "rp", user=other, group=no_member)]
    if [it.returncode for it in tried] != [0, 1, 1]:
        raise Failed(f"they were answered {tried}")
    if "clear is for root" not in tried[1].stderr or "Permission denied" not in tried[2].stderr:
        raise Failed(f"they were told {tried}")
    net.stop_router()
    net.start_router()
    time.sleep(1)


def imported(net: Network) -> str:
    """with settings made of FRR's configuration the router takes the place of FRR's RP, and its host gets its stream"""
    (net.room / "second.conf").write_text(net.frr("second", "show running-config"))
    words = [net.built / "viqeshord", "import", net.room / "second.conf"]
    made = subprocess.run(list(map(str, words)), capture_output=True, text=True)
    wanted = ["spt-switchover infinity-and-beyond prefix-list by-the-rp"]
    left = made.stderr.splitlines()
    if made.returncode or len(left) != len(wanted) or any(words not in line for words, line in zip(wanted, left)):
        raise Failed(f"it leaves {left}")
    own = net.room / "in-second"
    own.mkdir()
    os.chown(own, NOBODY, NOBODY)
    (net.room / "second.toml").write_text(f'socket = "{own}/control"\n{made.stdout}')
    net.pimd["second"].kill()
    net.pimd["second"].wait()
    with open(own / "log", "w") as log:
        router = net.start("second", *AS_SERVICE, net.room / "viqeshord", "run", net.room / "second.toml", stderr=log)
    try:
        group = "239.1.12.9"
        holdtimes = lambda: net.frr("first", "show ip pim neighbor json").replace(" ", "")
        until("first knows it", 30, lambda: 'holdTimeMax":18' in holdtimes())
        receiver = net.receive("viewer", group, VIEWER, 100, 60)
        time.sleep(3)
        net.send("source", group, SOURCE, 100, 10).wait()
        came, of, twice = received(receiver)
    finally:
        ended(router)
        net.start_pimd("second")
    until("the router knows second again", 40, lambda: "10.3.0.1" in net.neighbours())
    until("second knows the router", 40, lambda: "10.3.0.2" in net.frr("second", "show ip pim neighbor"))
    if came < of - 3:
        raise Failed(f"{came} of {of} came, {twice} twice")
    return f"{came} of {of} came, {twice} twice"


def priorities(net: Network) -> str:
    """where standard error is the journal, which JOURNAL_STREAM names, each line begins with its priority"""
    net.stop_router()
    before, log = len(net.log().splitlines()), os.stat(net.room / "router.log")
    net.start_router('socket_group = "vq-no-such-group"\n', environment=[f"JOURNAL_STREAM={log.st_dev}:{log.st_ino}"])
    net.stop_router()
    said = net.log().splitlines()[before:]
    numbers = {"error": "<3>", "warn": "<4>", "info": "<6>", "debug": "<7>"}
    wrong = [line for line in said if not line.startswith(numbers.get(line.split()[1], "none"))]
    warnings = [line for line in said if line.startswith("<4>")]
    net.start_router()
    if wrong or not warnings:
        raise Failed(f"{len(warnings)} warnings, and lines without a priority: {wrong[:3]}")
    return f"{len(said)} lines, {len(warnings)} of them warnings"


TOPICS = ("why", "mroute", "igmp", "upstream")


def shown_after(net: Network, topic: str, *about: str) -> tuple[float, int]:
    """After how many seconds a topic is shown, and how many rows."""
    began = time.monotonic()
    rows = len(net.show(topic, *about))
    return time.monotonic() - began, rows


def show_of_many_groups(net: Network) -> str:
    """what `show` takes rises with the groups: 60,000 are shown whole, in at most 60 times the time of 4,000"""
    net.stop_router()
    net.start_router("limit = 200000\n", "max_groups = 100000\nmax_host_groups = 100000\n")
    until("the router knows second", 40, lambda: "10.3.0.1" in net.neighbours())
    took, said = {}, []
    for count in (1_000, 4_000, 60_000):
        words = [sys.executable, SENDER, "to-router", "10.5.0.50", "reports", count, 0.002, "239.1.16.0"]
        subprocess.run(inside("hosts", *words), check=True, stdout=subprocess.DEVNULL)
        until(f"{count} groups are known", 60, lambda: len(net.show("igmp")) >= count)
        for topic in TOPICS:
            took[topic, count], rows = shown_after(net, topic)
            if rows < count:
                raise Failed(f"{topic} shows {rows} of {count} after {took[topic, count]:.1f} s")
        said.append(f"{count}: " + ", ".join(f"{topic} {took[topic, count]:.2f}" for topic in TOPICS))
    for topic in TOPICS:
        if took[topic, 60_000] > 60 * took[topic, 4_000]:
            raise Failed(f"{topic} takes too long: {'; '.join(said)} s")
    of_one = [shown_after(net, topic, "239.1.16.9") for topic in TOPICS]
    if [rows for _, rows in of_one] != [1] * len(TOPICS):
        raise Failed(f"of one group they show {of_one}")
    net.stop_router()
    # So many Joins take it minutes, in which it would hear nothing else.
    net.restart_pimd("second")
    net.start_router()
    until("second knows the router", 40, lambda: "10.3.0.2" in net.frr("second", "show ip pim neighbor"))
    return f"{'; '.join(said)}; one group of 60,000 " + ", ".join(f"{after:.2f}" for after, _ in of_one) + " s"


TRIALS = [metrics, shown_beside_frr, watch, clear, socket_of_a_group, imported, priorities,
          show_of_many_groups]
