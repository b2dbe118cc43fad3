"""A network of namespaces with the router and FRR in it, for the trials."""
import json
import os
import shutil
import signal
import subprocess
import time
from collections.abc import Callable, Iterable, Iterator
from contextlib import contextmanager
from pathlib import Path
from typing import Any

HERE = Path(__file__).resolve().parent.parent
FRR = Path("/usr/lib/frr")
PLACES = ("source", "first", "second", "router", "hosts", "viewer", "lan", "asker", "older")
# Of a trial of its own.
MORE_PLACES = ("red-source", "red-host", "blue-source", "blue-host",
               "west-host", "west", "one", "two", "east", "east-host", "bsr", "heard", "heard-host",
               "behind", "behind-host", "own-rp", "frr-rp")
NAMES = {place: f"vq-{place}-{os.getpid()}" for place in (*PLACES, *MORE_PLACES)}
LINKS = [
    ("source", "10.1.0.50/24", "first", "10.1.0.1/24"),
    ("first", "10.2.0.1/24", "router", "10.2.0.2/24"),
    ("second", "10.3.0.1/24", "router", "10.3.0.2/24"),
    ("first", "10.4.0.1/24", "second", "10.4.0.2/24"),
    ("hosts", "10.5.0.77/24", "router", "10.5.0.1/24"),
    ("second", "10.6.0.1/24", "viewer", "10.6.0.77/24"),
    ("router", "10.7.0.3/24", "lan", None),
    ("first", "10.7.0.2/24", "lan", None),
    ("asker", "10.7.0.77/24", "lan", None),
    ("older", "10.7.0.76/24", "lan", None),
]
ROUTES = {
    "source": ["default via 10.1.0.1"],
    "first": ["10.3.0.0/24 via 10.2.0.2", "10.5.0.0/24 via 10.2.0.2", "10.6.0.0/24 via 10.4.0.2"],
    "second": ["10.1.0.0/24 via 10.4.0.1", "10.2.0.0/24 via 10.4.0.1", "10.5.0.0/24 via 10.3.0.2",
               "10.7.0.0/24 via 10.3.0.2"],
    "router": ["10.1.0.0/24 via 10.2.0.1", "10.4.0.0/24 via 10.3.0.1", "10.6.0.0/24 via 10.3.0.1"],
    "hosts": ["default via 10.5.0.1"],
    "viewer": ["default via 10.6.0.1"],
    "asker": ["default via 10.7.0.3"],
    "older": ["default via 10.7.0.3"],
}
RPS = [("239.1.0.0/16", "10.4.0.2"), ("239.2.0.0/16", "10.5.0.1"), ("239.4.0.0/16", "10.4.0.1")]
WITH_PIM = {"first": ("source", "router", "second", "lan"), "second": ("first", "router")}
PIMD = {place: "".join(f"interface to-{port}\n ip pim\n ip pim hello 5\n" for port in ports)
        for place, ports in WITH_PIM.items()}
# As last hop of the router's groups it stays on the RP's tree: what its viewer gets of them goes by the router.
PIMD["second"] += """interface to-viewer
 ip pim
 ip igmp
exit
ip prefix-list by-the-rp permit 239.2.0.0/16 le 32
ip pim spt-switchover infinity-and-beyond prefix-list by-the-rp
"""
SETTINGS = """log = "debug"
socket = "{room}/router/control"

[igmp]
query_interval = 20
query_response = 2.0

""" + "".join(f'[[interface]]\nname = "to-{port}"\n\n' for port in ("first", "second", "hosts", "lan")) + "".join(
    f'[[rp]]\ngroups = "{groups}"\naddress = "{address}"\n\n' for groups, address in RPS)
# Each end with its address; None of a port of the bridge.
Link = tuple[str, str, str, str | None]
GOES_ON = "the router goes on where the one before it was"
PRIORITY = -15
SOURCE, HOST = "10.1.0.50", "10.5.0.77"
# The neighbours that FRR is.
THREE = {"10.2.0.1", "10.3.0.1", "10.7.0.2"}
# What FRR logs where logs are kept.
DEBUGS = ("debug pim packets", "debug pim events", "debug mroute", "debug pim trace")
# With the rights of the unit file alone.
NOBODY, RIGHTS = 65534, "-all,+net_raw,+net_admin"
AS_SERVICE = ["setpriv", f"--reuid={NOBODY}", f"--regid={NOBODY}", "--clear-groups", "--no-new-privs",
              f"--inh-caps={RIGHTS}", f"--ambient-caps={RIGHTS}", f"--bounding-set={RIGHTS}"]
# A router on the LAN.
ASKER = HERE / "trials" / "asker.py"
# A host that sends what others wouldn't.
SENDER = HERE / "trials" / "sender.py"


class Failed(Exception):
    pass


def run(*words: object, **how: Any) -> subprocess.CompletedProcess[Any]:
    return subprocess.run([str(word) for word in words], check=True, **how)


def hurry() -> None:
    """From here on this program, and what it starts, runs before other work of the machine."""
    os.setpriority(os.PRIO_PROCESS, 0, min(PRIORITY, os.getpriority(os.PRIO_PROCESS, 0)))


def inside(place: str, *words: object) -> list[str]:
    return ["ip", "netns", "exec", NAMES[place], *map(str, words)]


def ip(place: str, *words: object) -> None:
    run("ip", "-n", NAMES[place], *words)


def until(what: str, seconds: float, holds: Callable[[], object]) -> None:
    """Waits until something holds; it fails with what was to be."""
    end = time.monotonic() + seconds
    while not holds():
        if time.monotonic() > end:
            raise Failed(f"{what}, after {seconds} s not yet")
        time.sleep(0.2)


def used(process: int) -> float:
    """Seconds of a processor, of all threads of a process."""
    tasks = Path(f"/proc/{process}/task").iterdir()
    return sum(int((task / "schedstat").read_text().split()[0]) for task in tasks) / 1e9


def used_for(process: int, act: Callable[[], object]) -> float:
    """The same for something, once the process is done with it."""
    before = used(process)
    act()
    last, end = before, time.monotonic() + 60
    # Less than a tenth of a processor is what it does besides.
    while (now := used(process)) > last + 0.1 and time.monotonic() < end:
        last = now
        time.sleep(1)
    return now - before


def of_frr(root: Path | None, path: str) -> list[object]:
    """A program of FRR's, of this machine or of the root folder of another release of Debian: with its libraries."""
    if root is None:
        return [Path("/") / path]
    libraries = root / "usr" / "lib" / "x86_64-linux-gnu"
    loader = root / "usr" / "lib64" / "ld-linux-x86-64.so.2"
    return [loader, "--library-path", f"{libraries}:{libraries / 'frr'}", root / path]


class Network:
    """The namespaces, and what runs in them."""

    def __init__(self, built: Path, room: Path, is_logged: bool, frr_root: Path | None = None) -> None:
        self.built, self.room, self.is_logged = built, room, is_logged
        self.running, self.router, self.pimd = [], None, {}
        # Where another FRR is, and the places that have it.
        self.frr_root: Path | None = frr_root
        self.roots: dict[str, Path | None] = {}
        # The router's socket for those that ask.
        self.control = room / "router" / "control"

    # ---- namespaces

    def connect(self, left: str, left_address: str, right: str, right_address: str | None) -> None:
        ends = [(left, f"to-{right}", left_address), (right, f"to-{left}", right_address)]
        run("ip", "link", "add", ends[0][1], "netns", NAMES[left], "type", "veth",
            "peer", "name", ends[1][1], "netns", NAMES[right])
        for place, port, address in ends:
            if address:
                ip(place, "address", "add", address, "dev", port)
            else:
                ip(place, "link", "set", port, "master", "bridge")
            ip(place, "link", "set", port, "up")

    @staticmethod
    def add(places: Iterable[str]) -> None:
        for place in places:
            run("ip", "netns", "add", NAMES[place])
            ip(place, "link", "set", "lo", "up")

    def connect_all(self, links: Iterable[Link], routes: dict[str, list[str]], forwards: Iterable[str] = ()) -> None:
        """Links, and then routes and who forwards."""
        for link in links:
            self.connect(*link)
        for place, each in routes.items():
            for route in each:
                ip(place, "route", "add", *route.split())
        for place in forwards:
            run(*inside(place, "sysctl", "-qw", "net.ipv4.ip_forward=1"))

    def lay_out(self) -> None:
        self.add(PLACES)
        ip("lan", "link", "add", "bridge", "type", "bridge", "mcast_snooping", "0")
        ip("lan", "link", "set", "bridge", "up")
        self.connect_all(LINKS, ROUTES, ("first", "second", "router"))
        ip("hosts", "address", "add", "10.5.0.50/24", "dev", "to-router")
        run(*inside("hosts", "sysctl", "-qw", "net.ipv4.conf.all.force_igmp_version=3"))
        run(*inside("viewer", "sysctl", "-qw", "net.ipv4.conf.all.force_igmp_version=3"))

    def clear(self, first: int = 0, places: Iterable[str] = NAMES) -> None:
        """Ends what runs, from one process on, and deletes places."""
        for one in reversed(self.running[first:]):
            if one.poll() is None:
                one.terminate()
        for one in self.running[first:]:
            one.wait()
        self.delete(places)

    def delete(self, places: Iterable[str]) -> None:
        for place in places:
            subprocess.run(["ip", "netns", "delete", NAMES[place]], stderr=subprocess.DEVNULL)

    def start(self, place: str, *words: object, **how: Any) -> subprocess.Popen[str]:
        started = subprocess.Popen(inside(place, *words), text=True, **how)
        self.running.append(started)
        return started

    # ---- routers

    def start_frr(self, place: str, has_rps: bool = True) -> None:
        room = self.room / place
        room.mkdir(exist_ok=True)
        rps = "".join(f"ip pim rp {address} {groups}\n" for groups, address in RPS if has_rps)
        logs = "".join(f"{line}\n" for line in (f"log file {room / 'pimd.log'}", *DEBUGS))
        (room / "pimd.conf").write_text(PIMD[place] + rps + (logs if self.is_logged else ""))
        (room / "zebra.conf").write_text("")
        # FRR's daemons give up root for their own user.
        for path in [room, *room.iterdir()]:
            shutil.chown(path, "frr", "frr")
        self.start_frr_daemon(place, "zebra")
        until(f"{place}'s zebra listens", 20, (room / "zserv").exists)
        self.start_pimd(place)

    def start_pimd(self, place: str) -> None:
        self.pimd[place] = self.start_frr_daemon(place, "pimd")

    def restart_pimd(self, place: str) -> None:
        """It has nothing of before, and nothing waits at its sockets."""
        self.pimd[place].kill()
        self.pimd[place].wait()
        self.start_pimd(place)

    def start_frr_daemon(self, place: str, daemon: str) -> subprocess.Popen[str]:
        room = self.room / place
        words = ["-z", room / "zserv", "--vty_socket", room, "-f", room / f"{daemon}.conf",
                 "-i", room / f"{daemon}.pid"]
        program = of_frr(self.roots.get(place), f"usr/lib/frr/{daemon}")
        return self.start(place, *program, *words, stdout=subprocess.DEVNULL, stderr=subprocess.DEVNULL)

    def frr(self, place: str, *commands: str) -> str:
        each = [word for command in commands for word in ("-c", command.strip())]
        vtysh = of_frr(self.roots.get(place), "usr/bin/vtysh")
        words = inside(place, *vtysh, "--vty_socket", self.room / place, *each)
        return subprocess.run(words, capture_output=True, text=True).stdout

    def learned_by_frr(self, place: str) -> dict[str, str]:
        """The RPs that FRR learned of Bootstraps, by their ranges."""
        said = self.frr(place, "show ip pim rp-info json")
        rows = [(rp, row) for rp, found in (json.loads(said) if said.strip() else {}).items() for row in found]
        return {row["group"]: rp for rp, row in rows if row["source"] == "BSR"}

    def start_router(self, more: str = "", policy: str = "", environment: Iterable[str] = ()) -> None:
        self.settings = more + SETTINGS.format(room=self.room)
        self.settings = self.with_policy(policy)
        (self.room / "router.toml").write_text(self.settings)
        own = self.room / "router"
        own.mkdir(exist_ok=True)
        os.chown(own, NOBODY, NOBODY)
        shutil.copy(self.built / "viqeshord", self.room)
        with open(self.room / "router.log", "a") as log:
            words = ["env", *environment, self.room / "viqeshord", "run", self.room / "router.toml"]
            self.router = self.start("router", *AS_SERVICE, *words, stderr=log)
        until("the router answers", 10, lambda: self.show("interfaces"))

    def start_another(
        self, place: str, settings: str, own: str | None = None, rights: Iterable[str] = AS_SERVICE
    ) -> subprocess.Popen[str]:
        """Another router, at a place: it has a folder of its own, of this name if one is given."""
        folder, program, file = self.room / (own or place), self.room / "viqeshord", self.room / f"{place}.toml"
        folder.mkdir(exist_ok=True)
        os.chown(folder, NOBODY, NOBODY)
        if not program.exists():
            shutil.copy(self.built / "viqeshord", program)
        file.write_text(settings)
        with open(self.room / f"{place}.log", "a") as log:
            return self.start(place, *rights, program, "run", file, stderr=log)

    def says(self, line: str, act: Callable[[], object], what: str, seconds: float = 30, place: str = "router") -> None:
        """Waits until the router, or that of another place, says something once more, once something is done."""
        log = self.room / f"{place}.log"
        before = log.read_text().count(line)
        act()
        until(what, seconds, lambda: log.read_text().count(line) > before)

    def put_new(self) -> None:
        """The program's file is another one."""
        shutil.copy(self.room / "viqeshord", self.room / "viqeshord.new")
        os.rename(self.room / "viqeshord.new", self.room / "viqeshord")

    def upgrade(self, router: subprocess.Popen[str], what: str, place: str = "router") -> None:
        """Another program takes a router's place."""
        self.put_new()
        self.says(GOES_ON, lambda: router.send_signal(signal.SIGUSR2), what, place=place)

    def stop_router(self) -> None:
        self.router.send_signal(signal.SIGTERM)
        self.router.wait(10)

    def forget_state(self) -> None:
        """The next router begins anew, though the last one was killed just now."""
        (self.room / "router" / "control.state").unlink(missing_ok=True)

    def reload(self, settings: str) -> None:
        """Other settings, by SIGHUP, once the router has taken them."""
        self.read_anew("router", self.router, settings, "the settings are taken", 10)

    def read_anew(
        self, place: str, router: subprocess.Popen[str], settings: str, what: str, seconds: float = 30
    ) -> None:
        def act() -> None:
            (self.room / f"{place}.toml").write_text(settings)
            router.send_signal(signal.SIGHUP)

        self.says("the settings are read anew", act, what, seconds, place)

    def with_policy(self, lines: str) -> str:
        """The settings that the router started with, and some lines of `[policy]`."""
        return self.settings.replace("[igmp]\n", f"[policy]\n{lines}\n[igmp]\n") if lines else self.settings

    def reload_interface(self, name: str, lines: str) -> None:
        """The settings that the router started with, and some lines for an interface."""
        line = f'name = "{name}"\n'
        assert line in self.settings
        self.reload(self.settings.replace(line, line + lines))

    def show(self, topic: str, *about: str, control: Path | None = None) -> list[dict[str, Any]]:
        """What `viqeshord show` prints, as rows; none where the router doesn't answer. By its socket another router is
        asked."""
        words = [self.built / "viqeshord", "show", topic, *about, "--json", "--socket", control or self.control]
        said = subprocess.run(list(map(str, words)), capture_output=True, text=True)
        return json.loads(said.stdout)[topic] if said.returncode == 0 else []

    def interface(self, name: str) -> dict[str, Any]:
        """The row of an interface; one that is down where the router doesn't answer."""
        rows = [row for row in self.show("interfaces") if row["interface"] == name]
        return rows[0] if rows else {"is_up": False, "address": None, "why_down": None}

    def sent(self, name: str) -> int:
        """How many packets the router sent on an interface."""
        row = self.interface(name)
        if "sent" not in row:
            raise Failed(f"the router doesn't say what it sent on {name}")
        return row["sent"]

    def entry(self, source: str, group: str) -> dict[str, Any]:
        """The router's entry, or an empty one."""
        found = [row for row in self.show("mroute") if (row["source"], row["group"]) == (source, group)]
        return found[0] if found else {"incoming": None, "outgoing": [], "flags": "", "forwarding": "", "packets": 0}

    def neighbours(self) -> set[str]:
        return {row["address"] for row in self.show("neighbors")}

    def counter(self, name: str) -> int:
        return next((row["count"] for row in self.show("counters") if row["counter"] == name), 0)

    def refused(self, words: str) -> int:
        """How much the settings refused, of what the counters say in these words."""
        rows = [row for row in self.show("counters") if row["counter"].startswith("refused on")]
        return sum(row["count"] for row in rows if words in row["counter"])

    def log(self) -> str:
        return (self.room / "router.log").read_text()

    # ---- hosts

    def receive(
        self, place: str, group: str, address: str, count: int, seconds: float, size: int = 100
    ) -> subprocess.Popen[str]:
        words = [self.built / "examples" / "stream", "receive", group, address, count, seconds, size]
        started = self.start(place, *words, stdout=subprocess.PIPE)
        if started.stdout.readline().strip() != "joined":
            raise Failed(f"{place} can't join {group}")
        return started

    def send(
        self, place: str, group: str, address: str, count: int, rate: int, size: int = 100
    ) -> subprocess.Popen[str]:
        words = [self.built / "examples" / "stream", "send", group, address, count, rate, size]
        return self.start(place, *words, stdout=subprocess.PIPE)


def received(receiver: subprocess.Popen[str]) -> tuple[int, int, int]:
    """How many came, of how many, and how many came twice."""
    words = receiver.communicate()[0].split()
    return int(words[1]), int(words[3].rstrip(",")), int(words[5])


def first_after(receiver: subprocess.Popen[str]) -> int | None:
    """After how many ms the first packet came; None where none did."""
    words = receiver.communicate()[0].split()
    at = words.index("first") + 1
    return None if words[at].startswith("never") else int(words[at + 1])


def came_with_gap(receiver: subprocess.Popen[str]) -> tuple[int, int, int]:
    """How many came, of how many, and the longest time between two, in ms."""
    words = receiver.communicate()[0].split()
    return int(words[1]), int(words[3].rstrip(",")), int(words[words.index("gap") + 1])


def longest_gap(receiver: subprocess.Popen[str]) -> int:
    return came_with_gap(receiver)[2]


def all_came(came: int, of: int, twice: int, may_lack: int = 0) -> str:
    """That all came, but for so many; what is to be said of them."""
    said = f"{came} of {of} came, {twice} twice"
    if came < of - may_lack:
        raise Failed(said)
    return said


@contextmanager
def stream(net: Network, group: str, seconds: int, count: int, rate: int = 10, most: int = 100_000) -> Iterator[None]:
    """A stream that the kernel forwards to the router's host."""
    receiver = net.receive("hosts", group, HOST, most, seconds)
    sender = net.send("source", group, SOURCE, count, rate)
    until("the kernel forwards", 20, lambda: net.entry(SOURCE, group)["outgoing"] == ["to-hosts"])
    yield
    ended(sender)
    ended(receiver)


def goes_on(net: Network, group: str, when: str) -> None:
    """The kernel's counts of a stream rise."""
    def packets() -> int:
        words = inside("router", "ip", "-j", "-s", "mroute", "show")
        said = subprocess.run(words, capture_output=True, text=True).stdout
        return sum(row.get("packets", 0) for row in json.loads(said or "[]") if row["dst"] == group)

    before = packets()
    until(f"the stream goes on {when}", 5, lambda: packets() > before + 5)


def ended(process: subprocess.Popen[str]) -> None:
    if process.poll() is None:
        process.terminate()
    process.communicate()
