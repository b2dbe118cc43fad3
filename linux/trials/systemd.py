"""The router as a service of a systemd of its own: what restarts, upgrades, a crash, a stop and a reboot cost."""
from __future__ import annotations

import shutil
import subprocess
import time
from pathlib import Path
from typing import TYPE_CHECKING

from trials.network import HERE, HOST, SOURCE, THREE, Failed, ended, received, until
from trials.upgrade import generation

if TYPE_CHECKING:
    from collections.abc import Callable

    from trials.network import Network

SYSTEMD = Path("/lib/systemd/systemd")
RATE, SECONDS = 1_000, 15
UNIT = "viqeshord.service"
TARGET = "[Unit]\nDescription=Nothing but what is started\nDefaultDependencies=no\n"


class Machine:
    """A systemd in the router's network namespace, whose only service is the router."""

    def __init__(self, net: Network) -> None:
        self.net, self.files, self.shared = net, net.room / "files", net.room / "shared"
        self.put("etc/systemd/system/trial.target", TARGET)
        self.put(f"etc/systemd/system/{UNIT}", (HERE / UNIT).read_text())
        self.put(f"etc/systemd/system/{UNIT}.d/log.conf", f"[Service]\nStandardError=append:{self.shared}/log\n")
        # The socket is the usual one, in the folder of the unit.
        self.put("etc/viqeshord.toml", net.settings.replace(f'socket = "{net.room}/router/control"\n', ""))
        self.put("usr/local/sbin/viqeshord", "")
        shutil.copy(net.built / "viqeshord", self.files / "usr/local/sbin/viqeshord")
        self.shared.mkdir()
        (net.room / "systemd").mkdir()
        words = ["unshare", "--mount", "--pid", "--fork", "--ipc", "--uts", "--kill-child",
                 HERE / "trials" / "systemd.sh", net.room / "systemd", self.files, self.shared]
        with open(net.room / "systemd.log", "w") as log:
            self.process = net.start("router", *words, stdout=log, stderr=log)

    def put(self, place: str, content: str) -> None:
        (self.files / place).parent.mkdir(parents=True, exist_ok=True)
        (self.files / place).write_text(content)

    def end(self) -> None:
        self.systemctl("stop", UNIT)
        # It takes no other signal, and its processes go with it.
        self.process.kill()
        self.process.wait()

    def first(self) -> int:
        """The number of systemd itself, below `unshare`."""
        words = ["pgrep", "-P", str(self.process.pid)]
        return int(subprocess.run(words, capture_output=True, text=True).stdout.split()[0])

    def run(self, *words: str) -> str:
        try:
            entered = ["nsenter", "-t", str(self.first()), "-m", "-p", "-r", "-w"]
        except IndexError:
            return ""
        said = subprocess.run([*entered, *words], capture_output=True, text=True)
        return said.stdout + said.stderr

    def systemctl(self, *words: str) -> str:
        return self.run("systemctl", *words)

    def log(self) -> str:
        file = self.shared / "log"
        return file.read_text() if file.exists() else ""

    def main_process(self) -> int:
        """As it is numbered inside."""
        return int(self.systemctl("show", "-P", "MainPID", UNIT))


def missing(net: Network, number: int, act: Callable[[], object]) -> tuple[int, int]:
    """How many packets of a stream to the router's host don't come while something happens, and how many come twice."""
    group = f"239.1.40.{number}"
    keeper = net.receive("hosts", group, HOST, 1000, 60, 99)
    time.sleep(2)
    net.send("source", group, SOURCE, 30, 10, 99).wait()
    receiver = net.receive("hosts", group, HOST, RATE * SECONDS, 60)
    until("the kernel forwards", 15, lambda: net.entry(SOURCE, group)["forwarding"] == "kernel")
    sender = net.send("source", group, SOURCE, RATE * SECONDS, RATE)
    time.sleep(2)
    act()
    sender.wait()
    came, of, twice = received(receiver)
    ended(keeper)
    return of - came, twice


def by_systemd(net: Network) -> str:
    """as a service: a restart, an upgrade by packages and kill -9 lose nothing; stop and reboot say goodbye"""
    if not SYSTEMD.exists():
        return "not tried: there is no systemd"
    net.stop_router()
    machine = Machine(net)
    try:
        until("systemd begins", 20, lambda: "running" in machine.systemctl("is-system-running"))
        net.control = Path(f"/proc/{machine.first()}/root/run/viqeshord/control")
        return tried(net, machine)
    finally:
        machine.end()
        net.control = net.room / "router" / "control"
        net.start_router()


def tried(net: Network, machine: Machine) -> str:
    machine.systemctl("start", UNIT)
    until("three neighbours", 60, lambda: net.neighbours() >= THREE)
    # What is saved has them.
    time.sleep(3)
    before, found = generation(net), {}

    def upgrade() -> None:
        """As dpkg puts a program in its place, and as the package's postinst goes on."""
        place = "/usr/local/sbin/viqeshord"
        machine.run("sh", "-c", f"cp {place} {place}.new && mv {place}.new {place}")
        machine.systemctl("daemon-reload")
        machine.systemctl("try-reload-or-restart", UNIT, "viqeshord@*.service")

    def kill() -> None:
        machine.systemctl("kill", "--signal=KILL", "--kill-who=main", UNIT)

    acts = {"restart": lambda: machine.systemctl("restart", UNIT), "upgrade": upgrade, "kill -9": kill}
    for number, (name, act) in enumerate(acts.items()):
        process = machine.main_process()
        found[name] = missing(net, number, act)
        until(f"it answers after {name}", 20, lambda: net.neighbours() >= THREE)
        if (machine.main_process() == process) != (name == "upgrade"):
            raise Failed(f"after {name} the process was {process}, and is {machine.main_process()}")
        time.sleep(3)
    if generation(net) != before:
        raise Failed(f"neighbours saw it begin anew: {found}")
    goodbyes = machine.log().count("the router ends\n")
    found["stop and start"] = missing(net, 9, lambda: [machine.systemctl(word, UNIT) for word in ("stop", "start")])
    until("it answers after stop and start", 20, lambda: net.neighbours() >= THREE)
    machine.systemctl("reboot")
    until("FRR misses the router", 10, lambda: "10.7.0.3" not in net.frr("first", "show ip pim neighbor"))
    said = ", ".join(f"{count} by {name} ({twice} come twice)" for name, (count, twice) in found.items())
    said = f"of {RATE * SECONDS} packets are lost {said}"
    if any(found[name] != (0, 0) for name in acts) or goodbyes or machine.log().count("the router ends\n") != 2:
        raise Failed(f"{said}; {goodbyes} goodbyes before the stop")
    return said


TRIALS = [by_systemd]
