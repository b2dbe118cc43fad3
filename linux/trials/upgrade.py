"""A router that takes the place of another one: an upgrade while it runs, its death, and what was recorded."""
from __future__ import annotations

import os
import re
import shutil
import signal
import subprocess
import sys
import time
from typing import TYPE_CHECKING

from trials import liveness
from trials.machine import flowing
from trials.network import (AS_SERVICE, GOES_ON, HERE, HOST, NOBODY, SENDER, SOURCE, THREE, Failed, all_came, ended,
                            first_after, goes_on, inside, received, run, until)
from trials.streams import SOON
from trials.with_frr import FEWER_BYTES

if TYPE_CHECKING:
    from collections.abc import Callable
    from pathlib import Path

    from trials.network import Network

MANAGER = HERE / "trials" / "manager.py"
VIEWER = "10.6.0.77"
OTHER_SETTINGS = "the router goes on with other settings (the settings differ)"
# Packets a second, where the machine keeps up; else a tenth.
RATES = (20_000, 2_000)
SECONDS = 12


class Streams:
    """Two streams that the router's host has: one of a tree of FRR's RP, and one of which the router is the RP."""

    def __init__(self, net: Network, number: int, rate: int, seconds: int) -> None:
        count, groups = rate * seconds, (f"239.1.20.{number}", f"239.2.20.{number}")
        # They keep the groups, and so the trees that the first packets of another size made.
        self.keepers = [net.receive("hosts", group, HOST, 1000, 600, FEWER_BYTES) for group in groups]
        time.sleep(2)
        for group in groups:
            net.send("source", group, SOURCE, 30, 10, FEWER_BYTES).wait()
        self.receivers = [net.receive("hosts", group, HOST, count, 60 + 2 * seconds) for group in groups]
        for group in groups:
            until("the kernel forwards", 15, lambda: net.entry(SOURCE, group)["forwarding"] == "kernel")
        time.sleep(1)
        self.senders = [net.send("source", group, SOURCE, count, rate) for group in groups]

    def came(self) -> str:
        """That all came, and none twice; what is to be said of them."""
        sent = [sender.communicate()[0].split() for sender in self.senders]
        said, is_whole = [], True
        for receiver, words in zip(self.receivers, sent):
            came, of, twice = received(receiver)
            said.append(f"{came} of {of} came, {twice} twice, at {words[words.index('a') - 1]} a second")
            is_whole &= came == of and not twice
        for keeper in self.keepers:
            ended(keeper)
        if not is_whole:
            raise Failed("; ".join(said))
        return "; ".join(said)


def at_a_rate(net: Network, number: int, act: Callable[[], None]) -> str:
    """Something is done while streams flow, at the highest rate that the machine keeps up with before."""
    for rate in RATES:
        try:
            Streams(net, number, rate, 4).came()
            break
        except Failed:
            number += 1
    streams = Streams(net, number + 1, rate, SECONDS)
    time.sleep(1)
    act()
    return streams.came()


def from_viewer(net: Network, number: int, rate: int, act: Callable[[], None]) -> str:
    """Something is done under a stream of FRR's viewer to the router's host, of which the router is the RP."""
    group, count = f"239.2.21.{number}", rate * SECONDS
    keeper = net.receive("hosts", group, HOST, 1000, 600, FEWER_BYTES)
    try:
        time.sleep(2)
        net.send("viewer", group, VIEWER, 30, 10, FEWER_BYTES).wait()
        receiver = net.receive("hosts", group, HOST, count, 60 + 2 * SECONDS)
        until("the kernel forwards", 15, lambda: net.entry(VIEWER, group)["forwarding"] == "kernel")
        time.sleep(1)
        sender = net.send("viewer", group, VIEWER, count, rate)
        time.sleep(1)
        act()
        words = sender.communicate()[0].split()
        came, of, twice = received(receiver)
    finally:
        ended(keeper)
    said = f"{came} of {of} came, {twice} twice, at {words[words.index('a') - 1]} a second"
    if came < of or twice:
        raise Failed(said)
    return said


def list_without_its_first(net: Network) -> str:
    """SIGHUP takes a list that lacks its first interface, and one that has it again, under a stream: none is lost"""
    until("the router knows three neighbours", 40, lambda: net.neighbours() >= THREE)
    first = '[[interface]]\nname = "to-first"\n\n'
    if first not in net.settings:
        raise Failed("the settings haven't the interface")

    def act() -> None:
        net.reload(net.settings.replace(first, ""))
        if [row["interface"] for row in net.show("interfaces")] != ["to-second", "to-hosts", "to-lan"]:
            raise Failed("the others aren't the router's interfaces")
        time.sleep(3)
        net.reload(net.settings)

    number, rate = 1, RATES[0]
    for rate in RATES:
        try:
            from_viewer(net, number, rate, lambda: None)
            break
        except Failed:
            number += 1
    said = from_viewer(net, number + 1, rate, act)
    until("the router knows three neighbours again", 40, lambda: net.neighbours() >= THREE)
    return said


def generation(net: Network) -> list[int]:
    """By which generations FRR knows the router."""
    places = (("first", "10.2.0.2"), ("second", "10.3.0.2"))

    def told() -> list[int]:
        said = [net.frr(place, f"show ip pim neighbor {address} json") for place, address in places]
        return [int(number) for text in said for number in re.findall(r'"generationId": *(\d+)', text)]

    until("FRR knows the router", 40, lambda: len(told()) == len(places))
    return told()


def taken_over(net: Network, act: Callable[[], object], what: str = "the next one goes on") -> float:
    """After how many seconds the next program goes on."""
    began = time.monotonic()
    net.says(GOES_ON, act, what)
    return time.monotonic() - began


def upgrade(net: Network) -> str:
    """SIGUSR2 puts another program in the router's place under two streams: none is lost, none comes twice"""
    until("the router knows three neighbours", 40, lambda: net.neighbours() >= THREE)
    before, process = generation(net), net.router.pid
    times = []

    def act() -> None:
        for _ in range(3):
            net.put_new()
            times.append(taken_over(net, lambda: net.router.send_signal(signal.SIGUSR2), "the other one goes on"))
            until("it answers", 10, lambda: net.neighbours() >= THREE)

    said = at_a_rate(net, 1, act)
    if net.router.pid != process or net.router.poll() is not None:
        raise Failed("it is another process")
    if generation(net) != before:
        raise Failed(f"neighbours saw it begin anew: {before}, {generation(net)}")
    return f"{said}; three upgrades took {', '.join(f'{it:.1f}' for it in times)} s each"


def program_that_hangs(net: Network) -> str:
    """while a program that hangs is asked whether it can take over the router goes on: a join has its first packet"""
    group, program = "239.2.20.60", net.room / "viqeshord"
    # It comes back as the same file, so that nothing has changed then.
    os.rename(program, net.room / "viqeshord.good")
    other = net.room / "viqeshord.new"
    other.write_text("#!/bin/sh\nexec sleep 60\n")
    other.chmod(0o755)
    os.rename(other, program)
    sender = net.send("source", group, SOURCE, 6000, 100)
    time.sleep(3)
    refusals = lambda: net.log().count("can't take over: it doesn't answer")
    before = refusals()
    net.router.send_signal(signal.SIGUSR2)
    after = first_after(net.receive("hosts", group, HOST, 1, 5))
    is_asked = refusals() == before
    until("the router stays as it was", 15, lambda: refusals() > before)
    os.rename(net.room / "viqeshord.good", program)
    ended(sender)
    if not is_asked or after is None or after > SOON:
        raise Failed(f"the first packet came after {after} ms; the other program was asked then: {is_asked}")
    return f"the first packet came after {after} ms"


def upgrade_by_reload(net: Network) -> None:
    """SIGHUP does the same where the program has changed, takes the settings, and refuses a program that can't go on"""
    count = net.log().count(GOES_ON)
    program, settings = net.room / "viqeshord", net.room / "router.toml"
    net.reload(net.settings)
    if net.log().count(GOES_ON) > count:
        raise Failed("it was replaced though the program is the same")
    other = net.room / "viqeshord.new"
    other.write_text("#!/bin/sh\necho 'not today' >&2\nexit 2\n")
    other.chmod(0o755)
    shutil.copy(program, net.room / "viqeshord.good")
    os.rename(other, program)
    net.reload(net.settings)
    if "viqeshord can't take over: not today" not in net.log():
        raise Failed("it doesn't say that the other program refuses")
    os.rename(net.room / "viqeshord.good", program)
    range_of_more = '[[rp]]\ngroups = "239.9.0.0/16"\naddress = "10.4.0.2"\n'
    settings.write_text(net.settings + range_of_more)
    net.router.send_signal(signal.SIGHUP)
    until("the other one goes on", 30, lambda: net.log().count(GOES_ON) > count)
    until("it has the settings", 10, lambda: any(row["groups"] == "239.9.0.0/16" for row in net.show("rp")))
    net.reload(net.settings)


def session_goes_on(net: Network) -> str:
    """a session of BFD goes on over an upgrade: FRR sees the same one, and no loss"""
    return session_over(net, signal.SIGUSR2)


def session_over(net: Network, number: int) -> str:
    bfdd = liveness.start_bfdd(net, "first")
    until("bfdd answers", 10, lambda: "bfd" in net.frr("first", "show daemons"))
    liveness.configure(net, "first", "interface to-lan", "ip pim bfd")
    try:
        net.reload_interface("to-lan", "bfd = true\n")
        liveness.came_up(net)
        time.sleep(2)
        before = liveness.peer(net)
        net.says(GOES_ON, lambda: net.router.send_signal(number), "the other one goes on")
        time.sleep(3)
        after = liveness.peer(net)
    finally:
        liveness.configure(net, "first", "interface to-lan", "no ip pim bfd")
        ended(bfdd)
    net.reload(net.settings)
    told = [(it.get("remote-id"), it["status"], it.get("uptime", 0)) for it in (before, after)]
    if told[0][:2] != told[1][:2] or told[0][1] != "up" or told[1][2] < told[0][2]:
        raise Failed(f"bfdd tells {told}")
    return f"up for {told[0][2]} s before, and for {told[1][2]} s after"


def another_limit(net: Network) -> str:
    """an upgrade with another limit goes on with what the router knew, and a stream loses nothing"""
    group = "239.1.20.77"
    receiver, sender = flowing(net, group, 2500)
    anew = net.log().count("the router is made anew")
    (net.room / "router.toml").write_text("limit = 30000\n" + net.settings)
    net.says(OTHER_SETTINGS, lambda: net.router.send_signal(signal.SIGUSR2), "it is said", 20)
    if net.entry(SOURCE, group)["forwarding"] != "kernel" or net.log().count("the router is made anew") > anew:
        raise Failed("it doesn't go on with what it knew")
    sender.wait()
    counts = received(receiver)
    net.reload(net.settings)
    until("the router knows three neighbours", 40, lambda: net.neighbours() >= THREE)
    return all_came(*counts)


def managed(net: Network, seconds: float) -> Path:
    """The router begins again, with a service manager that starts it again so many seconds after it died."""
    net.stop_router()
    said = net.room / "manager.log"
    notify = net.room / "notify.sock"
    if notify.exists():
        notify.unlink()
    with open(net.room / "router.log", "a") as log, open(said, "w") as told:
        words = [sys.executable, MANAGER, notify, seconds, *AS_SERVICE, net.room / "viqeshord", "run",
                 net.room / "router.toml"]
        net.router = net.start("router", *words, stderr=log, stdout=told)
    until("the router answers", 20, lambda: net.show("interfaces"))
    until("the router knows three neighbours", 60, lambda: net.neighbours() >= THREE)
    return said


def the_router(net: Network) -> int:
    """The number of the router's process, below its manager."""
    words = ["pgrep", "-P", str(net.router.pid), "viqeshord"]
    return int(subprocess.run(words, capture_output=True, text=True, check=True).stdout.split()[0])


def killed(net: Network) -> str:
    """kill -9 while the service manager keeps the sockets: no packet is lost, none comes twice, no neighbour notices"""
    told = managed(net, 0.5)
    before, times = generation(net), []

    def act() -> None:
        for _ in range(2):
            # The last state was saved by now.
            time.sleep(3)
            times.append(taken_over(net, lambda: os.kill(the_router(net), signal.SIGKILL)))

    said = at_a_rate(net, 11, act)
    if generation(net) != before:
        raise Failed(f"neighbours saw it begin anew: {before}, {generation(net)}")
    lines = told.read_text().splitlines()
    if len(lines) != 3 or "mroute" not in lines[1]:
        raise Failed(f"the manager said {lines}")
    return f"{said}; it went on {', '.join(f'{it:.1f}' for it in times)} s after"


def restarted(net: Network) -> str:
    """a restart (SIGUSR1, as `systemctl restart` sends it): no packet is lost or comes twice, no neighbour notices"""
    before, times = generation(net), []
    told = net.room / "manager.log"
    starts = len(told.read_text().splitlines())

    def act() -> None:
        for _ in range(3):
            times.append(taken_over(net, lambda: net.router.send_signal(signal.SIGUSR1)))
            until("it answers", 10, lambda: net.neighbours() >= THREE)

    said = at_a_rate(net, 31, act)
    if generation(net) != before:
        raise Failed(f"neighbours saw it begin anew: {before}, {generation(net)}")
    lines = told.read_text().splitlines()[starts:]
    if len(lines) != 3 or any("mroute" not in line for line in lines):
        raise Failed(f"the manager said {lines}")
    return f"{said}; it went on {', '.join(f'{it:.1f}' for it in times)} s after"


def restarted_session(net: Network) -> str:
    """over such a restart a session of BFD goes on: FRR sees no loss"""
    return session_over(net, signal.SIGUSR1)


def join_while_dead(net: Network) -> str:
    """what comes while the router is dead waits at the sockets: a host's report then brings its stream, and a Join"""
    group, theirs = "239.2.20.90", "239.2.20.91"
    sender = net.send("source", group, SOURCE, 3000, 100)
    other = net.send("hosts", theirs, HOST, 3000, 100)
    time.sleep(4)
    os.kill(the_router(net), signal.SIGKILL)
    receivers = [net.receive("hosts", group, HOST, 1, 15), net.receive("viewer", theirs, VIEWER, 1, 15)]
    times = [first_after(receiver) for receiver in receivers]
    ended(sender)
    ended(other)
    if any(it is None or it > 5_000 for it in times):
        raise Failed(f"the first packets came after {times} ms")
    return f"the first packets came after {times} ms"


def killed_with_many_groups(net: Network) -> str:
    """with 59,000 groups the last state is fresh at each of three odd times of death, and no packet is lost"""
    groups, ages = 59_000, []
    (net.room / "router.toml").write_text(
        "limit = 200000\n" + net.with_policy("max_groups = 100000\nmax_host_groups = 100000\n"))
    managed(net, 0.5)
    words = [sys.executable, SENDER, "to-router", "10.5.0.50", "reports", groups, 0.002]
    report = lambda: run(*inside("hosts", *words), stdout=subprocess.DEVNULL)
    report()
    until("the groups are known", 60, lambda: len(net.show("igmp")) >= groups)
    streams = Streams(net, 51, 1_000, 60)
    for number in range(3):
        # They stay for twice the query interval alone.
        report()
        time.sleep(3 + 0.7 * number)
        net.says(GOES_ON, lambda: os.kill(the_router(net), signal.SIGKILL), "the next one goes on")
        ages.append(net.log().rsplit(GOES_ON, 1)[1].split(" ms later")[0].split()[-1])
        until("it has the groups", 20, lambda: len(net.show("igmp")) >= groups)
    return f"{streams.came()}; it went on with states {', '.join(ages)} ms old"


def killed_long_ago(net: Network) -> None:
    """a state that isn't fresh isn't taken: the router says so, begins anew, and gets its neighbours and its stream"""
    (net.room / "router.toml").write_text(net.settings + "[restart]\nfresh = 0.1\n")
    managed(net, 1)
    time.sleep(3)
    os.kill(the_router(net), signal.SIGKILL)
    said = "the router begins anew, since what is left of the one before it can't be taken: it is"
    until("it is said", 20, lambda: said in net.log())
    until("the router knows three neighbours", 60, lambda: net.neighbours() >= THREE)
    group = "239.1.20.92"
    receiver = net.receive("hosts", group, HOST, 300, 40)
    sender = net.send("source", group, SOURCE, 600, 20)
    goes_on_late(net, group)
    ended(sender)
    ended(receiver)


def goes_on_late(net: Network, group: str) -> None:
    until("the kernel forwards", 30, lambda: net.entry(SOURCE, group)["outgoing"] == ["to-hosts"])
    goes_on(net, group, "after a beginning anew")


def ends_in_order(net: Network) -> None:
    """after SIGTERM nobody keeps anything: no socket, no state, no entry"""
    net.router.send_signal(signal.SIGTERM)
    net.router.wait(20)
    lines = (net.room / "manager.log").read_text().splitlines()
    if lines[-1] != "ended with nothing":
        raise Failed(f"the manager said {lines}")
    if (net.room / "router" / "control.state").exists():
        raise Failed("the state is there")
    found = subprocess.run(inside("router", "ip", "mroute", "show"), capture_output=True, text=True).stdout
    if found:
        raise Failed(f"the kernel has {found}")
    (net.room / "router.toml").write_text(net.settings)
    net.start_router()
    until("the router knows three neighbours", 60, lambda: net.neighbours() >= THREE)


def recorded(net: Network) -> str:
    """tools/recorded plays what the router did before and after upgrades, record by record the same"""
    folder = net.room / "recorded"
    folder.mkdir(exist_ok=True)
    os.chown(folder, NOBODY, NOBODY)
    net.reload(net.settings + f'[recorder]\nfolder = "{folder}"\nsize = 4\n')
    group = "239.1.20.99"
    for _ in range(2):
        receiver = net.receive("hosts", group, HOST, 300, 40)
        until("second is asked", 15, lambda: group in net.frr("second", "show ip pim join"))
        net.send("source", group, SOURCE, 300, 50).wait()
        ended(receiver)
        time.sleep(4)
        net.router.send_signal(signal.SIGUSR2)
        time.sleep(4)
    net.reload(net.settings)
    archive = os.environ.get("VIQESHOR_ARCHIVE")
    library = ["--archive", archive] if archive else ["--unproved"]
    said = []
    for number in (0, 1):
        tool = HERE.parent / "tools" / "recorded"
        scenario = folder / f"part{number}.toml"
        file = folder / f"router.{number}"
        played = run(tool, *library, "--scenario", scenario, file, capture_output=True, text=True)
        said.append(played.stdout.strip().splitlines()[-1])
        if "each as it was recorded" not in said[-1] or "[[move]]" not in scenario.read_text():
            raise Failed(f"{played.stdout}")
    return "; ".join(said)


TRIALS = [list_without_its_first, upgrade, program_that_hangs, upgrade_by_reload, session_goes_on, another_limit,
          recorded, killed, restarted, restarted_session, join_while_dead, killed_with_many_groups, killed_long_ago,
          ends_in_order]
