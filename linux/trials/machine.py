"""What the machine does to the router: interfaces and addresses that come and go, want of memory, links of each
kind."""
from __future__ import annotations

import json
import socket
import subprocess
import sys
import threading
import time
from typing import TYPE_CHECKING

from trials.network import (HOST, SENDER, SOURCE, THREE, Failed, all_came, ended, first_after, goes_on, inside, ip,
                            received, run, until)

if TYPE_CHECKING:
    from collections.abc import Callable

    from trials.network import Network


def no_address_at_start(net: Network) -> None:
    """it begins where no interface has an address, says so, and takes each as it comes"""
    net.stop_router()
    ports = [("to-first", "10.2.0.2/24"), ("to-second", "10.3.0.2/24"), ("to-hosts", "10.5.0.1/24"),
             ("to-lan", "10.7.0.3/24")]
    for port, address in ports:
        ip("router", "address", "delete", address, "dev", port)
    net.start_router()
    if "no interface is up" not in net.log():
        raise Failed("it isn't said")
    for port, address in ports:
        ip("router", "address", "add", address, "dev", port)
        time.sleep(0.5)
    for route in ("10.1.0.0/24 via 10.2.0.1", "10.4.0.0/24 via 10.3.0.1", "10.6.0.0/24 via 10.3.0.1"):
        ip("router", "route", "replace", *route.split())
    ip("hosts", "route", "replace", "default", "via", "10.5.0.1")
    for port, address in ports:
        until(f"{port} is up", 15, lambda: net.interface(port)["is_up"] and net.interface(port)["address"] == address)
    until("the router knows three neighbours", 40, lambda: net.neighbours() >= THREE)


def without_services(net: Network) -> None:
    """without the group of its control socket, and the address of its metrics, it works, and takes that as it comes"""
    net.stop_router()
    at = "10.98.0.1:9791"
    net.start_router('socket_group = "vq-no-such-group"\n', f'[metrics]\nlisten = "{at}"\n')
    until("the router knows three neighbours", 40, lambda: net.neighbours() >= THREE)
    for wanted in ("no group vq-no-such-group", f"metrics can't be answered at {at}"):
        if wanted not in net.log():
            raise Failed(f"it isn't said: {wanted}")
    ask = f"import urllib.request; urllib.request.urlopen('http://{at}/metrics').read()"
    answers = lambda: subprocess.run(inside("router", sys.executable, "-c", ask), capture_output=True).returncode == 0
    if answers():
        raise Failed("the metrics are answered")
    ip("router", "address", "add", "10.98.0.1/32", "dev", "lo")
    until("the metrics are answered", 10, answers)
    ip("router", "address", "delete", "10.98.0.1/32", "dev", "lo")
    waiting = net.room / "waiting.toml"
    waiting.write_text(f'vrf = "vq-none"\nsocket = "{net.room}/waiting"\n[[interface]]\nname = "to-first"\n')
    words = inside("router", net.room / "viqeshord", "run", waiting)
    router = subprocess.Popen(words, stderr=subprocess.PIPE, text=True)
    line = router.stderr.readline()
    time.sleep(2)
    is_waiting = router.poll() is None
    ended(router)
    net.stop_router()
    net.start_router()
    if "no VRF vq-none: the router waits for it" not in line or not is_waiting:
        raise Failed(f"without its VRF it says {line}")


def flowing(
    net: Network, group: str, count: int, rate: int = 100, seconds: int = 35
) -> tuple[subprocess.Popen[str], subprocess.Popen[str]]:
    """The receiver and the sender of so many packets, once the kernel forwards them. It waits for so many seconds more
    than they take."""
    warm = net.receive("hosts", group, HOST, 30, 20)
    time.sleep(2)
    net.send("source", group, SOURCE, 30, 10).wait()
    receiver = net.receive("hosts", group, HOST, count, seconds + count // rate)
    ended(warm)
    sender = net.send("source", group, SOURCE, count, rate)
    until("the kernel forwards", 15, lambda: net.entry(SOURCE, group)["outgoing"] == ["to-hosts"])
    return receiver, sender


def late_address(net: Network) -> str:
    """an address that comes late is taken, and a stream of 100 packets a second through other interfaces loses none"""
    net.stop_router()
    ip("router", "address", "delete", "10.7.0.3/24", "dev", "to-lan")
    net.start_router()
    group = "239.1.11.1"
    until("the router knows two neighbours", 40, lambda: net.neighbours() >= {"10.2.0.1", "10.3.0.1"})
    receiver, sender = flowing(net, group, 2500)
    ip("router", "address", "add", "10.7.0.3/24", "dev", "to-lan")
    until("to-lan is up", 10, lambda: net.interface("to-lan")["is_up"])
    until("the router has learned", 30, lambda: net.entry(SOURCE, group)["forwarding"] == "kernel")
    until("first is a neighbour there", 40, lambda: "10.7.0.2" in net.neighbours())
    sender.wait()
    return all_came(*received(receiver))


def interface_that_comes(net: Network) -> None:
    """one that the file doesn't name yet comes with SIGHUP, and one that it names comes when the machine has it"""
    more = '[[interface]]\nname = "to-nobody"\n'
    net.reload(net.settings + more)
    if net.interface("to-nobody")["is_up"]:
        raise Failed("it is up before it is there")
    ip("router", "link", "add", "to-nobody", "type", "veth", "peer", "name", "nobody")
    for port in ("to-nobody", "nobody"):
        ip("router", "link", "set", port, "up")
    ip("router", "address", "add", "10.8.0.1/24", "dev", "to-nobody")
    until("it is up", 15, lambda: net.interface("to-nobody")["is_up"])
    ip("router", "link", "delete", "to-nobody")
    until("it is down", 10, lambda: not net.interface("to-nobody")["is_up"])
    net.reload(net.settings)
    if net.interface("to-nobody")["address"]:
        raise Failed("it is shown though the file hasn't it")
    until("the router knows three neighbours", 40, lambda: net.neighbours() >= THREE)


def settings_under_a_stream(net: Network) -> str:
    """SIGHUP takes another limit and other times of IGMP, and a stream of 100 packets a second loses nothing"""
    group = "239.1.11.2"
    receiver, sender = flowing(net, group, 2500)
    net.reload("limit = 30000\n" + net.settings.replace("query_interval = 20", "query_interval = 30"))
    if net.entry(SOURCE, group)["forwarding"] != "kernel" or net.neighbours() < THREE:
        raise Failed("it doesn't go on with what it knew")
    return came_before_reload(net, receiver, sender)


def came_before_reload(net: Network, receiver: subprocess.Popen[str], sender: subprocess.Popen[str]) -> str:
    """All came, and the router has its settings of before again."""
    sender.wait()
    counts = received(receiver)
    net.reload(net.settings)
    return all_came(*counts)


def shorter_interval_under_a_stream(net: Network) -> str:
    """SIGHUP takes a query interval of 4 s in place of 20, and a stream of 100 packets a second loses none in 45 s"""
    receiver, sender = flowing(net, "239.1.11.9", 4500)
    net.reload(net.settings.replace("query_interval = 20", "query_interval = 4"))
    return came_before_reload(net, receiver, sender)


def settings_at_the_rp(net: Network) -> str:
    """nor does one of which the router is the RP"""
    group = "239.2.11.4"
    receiver, sender = flowing(net, group, 2600, 20, 20)
    net.reload("limit = 30000\n" + net.settings)
    if net.entry(SOURCE, group)["forwarding"] != "kernel":
        raise Failed("it doesn't go on with what it knew")
    return came_before_reload(net, receiver, sender)


def soon(what: str, holds: Callable[[], bool]) -> None:
    """Waits for what comes with a Hello that leaves at once."""
    until(what, 3, holds)


def interfaces_under_a_stream(net: Network) -> str:
    """FRR learns of another priority and of an interface that left the file at once, and a stream loses nothing"""
    group, lan = "239.1.11.5", '[[interface]]\nname = "to-lan"\n'
    receiver, sender = flowing(net, group, 2500)
    net.reload(net.settings.replace(lan, lan + "priority = 0\n"))
    soon("FRR is the designated router", lambda: dr_at_frr(net) == "10.7.0.2")
    net.reload(net.settings.replace(lan, ""))
    soon("FRR misses the router", lambda: "10.7.0.3" not in net.frr("first", "show ip pim neighbor"))
    net.reload(net.settings)
    until("the router knows three neighbours", 40, lambda: net.neighbours() >= THREE)
    sender.wait()
    came, of, twice = received(receiver)
    if came < of or twice:
        raise Failed(f"{came} of {of} came, {twice} twice")
    return f"{came} of {of} came, {twice} twice"


def dr_at_frr(net: Network) -> str:
    return json.loads(net.frr("first", "show ip pim interface to-lan json"))["to-lan"]["drAddress"]


def kernel_without_memory(net: Network) -> str:
    """where the kernel has no memory for an entry the router says so, goes on, and sets it once there is some"""
    shim, lacks = net.room / "no_memory.so", net.room / "no-memory"
    run("cc", "-shared", "-fPIC", "-o", shim, SENDER.parent / "no_memory.c", "-ldl")
    net.stop_router()
    net.start_router(environment=(f"LD_PRELOAD={shim}", f"NO_MEMORY={lacks}"))
    until("the router knows three neighbours", 40, lambda: net.neighbours() >= THREE)
    group = "239.2.11.3"
    lacks.touch()
    receiver = net.receive("hosts", group, HOST, 1000, 60)
    sender = net.send("source", group, SOURCE, 400, 10)
    said = "the kernel refuses an entry of its forwarding cache: Cannot allocate memory"
    until("it is said", 20, lambda: said in net.log())
    time.sleep(2)
    if "nobody: the kernel refused" not in net.entry(SOURCE, group)["forwarding"]:
        raise Failed(f"the entry is {net.entry(SOURCE, group)}")
    lacks.unlink()
    goes_on(net, group, "once there is memory")
    lines = net.log().count("forwarding cache: Cannot allocate memory")
    ended(sender)
    ended(receiver)
    net.stop_router()
    net.start_router()
    if lines > 3:
        raise Failed(f"{lines} lines say it")
    return f"{lines} lines said it"


def vxlan_and_next_hop_objects(net: Network) -> None:
    """a vxlan link is an interface like another; routes by next hop objects are read, without compatibility too"""
    ip("router", *"link add vx7 type vxlan id 7 local 10.2.0.2 remote 10.2.0.1 dstport 4789".split())
    ip("router", "address", "add", "10.8.1.1/24", "dev", "vx7")
    ip("router", "link", "set", "vx7", "up")
    ranges = [f'[[rp]]\ngroups = "239.{number}.0.0/16"\naddress = "10.{number}.0.1"\n' for number in (70, 71, 72)]
    net.reload(net.settings + '[[interface]]\nname = "vx7"\n' + "".join(ranges))
    until("it is up", 15, lambda: net.interface("vx7")["is_up"])
    if "can't be read" in net.log():
        raise Failed([line for line in net.log().splitlines() if "can't be read" in line][0])
    run(*inside("router", "sysctl", "-qw", "net.ipv4.nexthop_compat_mode=0"))
    ip("router", "nexthop", "add", "id", "1", "via", "10.2.0.1", "dev", "to-first")
    ip("router", "nexthop", "add", "id", "2", "via", "10.3.0.1", "dev", "to-second")
    ip("router", "nexthop", "add", "id", "3", "group", "1/2")
    ip("router", "nexthop", "add", "id", "4", "blackhole")
    for prefix, number in (("10.70.0.0/16", 1), ("10.71.0.0/16", 3), ("10.72.0.0/16", 4)):
        ip("router", "route", "add", prefix, "nhid", str(number))
    hops = lambda: [row["next_hop"] for row in net.show("rp") if row["rp"] in ("10.70.0.1", "10.71.0.1", "10.72.0.1")]
    until("the next hops are known", 5, lambda: hops() == ["10.2.0.1", "10.3.0.1", None])
    ip("router", "nexthop", "replace", "id", "1", "via", "10.3.0.1", "dev", "to-second")
    until("a next hop that changes is taken", 5, lambda: hops()[0] == "10.3.0.1")
    for number in (3, 1, 2, 4):
        ip("router", "nexthop", "delete", "id", str(number))
    run(*inside("router", "sysctl", "-qw", "net.ipv4.nexthop_compat_mode=1"))
    ip("router", "link", "delete", "vx7")
    net.reload(net.settings)
    until("the router knows three neighbours", 40, lambda: net.neighbours() >= THREE)


def show_while_the_router_works(net: Network) -> str:
    """with 65,536 groups `show` keeps no join waiting, and 32 silent clients of the control socket lock no one out"""
    net.stop_router()
    net.start_router("limit = 200000\n", "max_groups = 100000\nmax_host_groups = 100000\n")
    until("the router knows three neighbours", 40, lambda: net.neighbours() >= THREE)
    group = "239.2.12.1"
    sender = net.send("source", group, SOURCE, 6000, 100)
    time.sleep(2)
    words = [sys.executable, SENDER, "to-router", "10.5.0.50", "reports", 65_536, 0.002]
    subprocess.run(inside("hosts", *words), check=True, stdout=subprocess.DEVNULL)
    # All of them: a join that comes behind reports of the flood waits for these, whatever `show` does.
    until("the groups are known", 60, lambda: len(net.show("igmp")) >= 65_536)
    path = str(net.room / "router" / "control")
    silent = []
    for _ in range(32):
        client = socket.socket(socket.AF_UNIX)
        client.connect(path)
        silent.append(client)
    asking = threading.Event()
    rows = []

    def ask() -> None:
        while not asking.is_set():
            rows.append(len(net.show("igmp")))

    asker = threading.Thread(target=ask)
    asker.start()
    time.sleep(1)
    times = []
    for _ in range(4):
        receiver = net.receive("hosts", group, HOST, 1, 8)
        times.append(first_after(receiver))
        time.sleep(4)
    asking.set()
    asker.join()
    for client in silent:
        client.close()
    ended(sender)
    net.stop_router()
    net.start_router()
    if not rows or max(rows) < 65_000:
        raise Failed(f"show said {rows} groups")
    if any(it is None or it > 600 for it in times):
        raise Failed(f"the joins had their first packets after {times} ms")
    return f"{len(rows)} answers of {max(rows)} groups; joins had their first packets after {times} ms"


TRIALS = [without_services, late_address, no_address_at_start, interface_that_comes, settings_under_a_stream,
          shorter_interval_under_a_stream, settings_at_the_rp, interfaces_under_a_stream, kernel_without_memory,
          vxlan_and_next_hop_objects, show_while_the_router_works]
