"""The lab's prompt: a network is built, run, broken and looked at, a line at a time."""
from __future__ import annotations

import cmd
import re
import shlex
from pathlib import Path
from typing import IO, TYPE_CHECKING

from lab import Mistake, Network
from pimtext.files import labfile
from pimtext.shown import playpage, view_text, views
from viqeshor.lab import packets
from viqeshor.lab.printed import ANY

if TYPE_CHECKING:
    from viqeshor.lab.hosts import Host
    from viqeshor.lab.topology import Link

INTRO = """\
A network of multicast routers. `help` names the commands, `look` writes the page, ctrl-d ends. For a beginning:
    line r1 r2 r3 / rp r2 / host camera r1 / host viewer r3 / run 10
    join viewer 239.1.1.1 / stream camera 239.1.1.1 / run 5 / look"""
LOSS = re.compile(r"""(?P<share>\d+(?:\.\d+)?)\s*%(?:\s+of\s+(?P<kind>\S+))?\s+on\s+(?P<link>\S+)
                      (?:\s+from\s+(?P<sender>\S+))?(?:\s+to\s+(?P<receiver>\S+))?$""", re.VERBOSE)
KINDS = {"joins": packets.JoinPrune, "prunes": packets.JoinPrune, "hellos": packets.Hello, "asserts": packets.Assert,
         "registers": packets.Register, "data": packets.Data, "queries": packets.Query}


class Unclear(Exception):
    """A line that isn't understood; the text says why."""


def seconds_of(text: str) -> float:
    try:
        return float(text)
    except ValueError:
        raise Unclear(f"{text!r} is no number of seconds") from None


class Prompt(cmd.Cmd):
    """`out` is where `look` writes the page; it is written anew after each run once it was looked at."""
    prompt, intro = "lab> ", INTRO

    def __init__(self, net: Network | None = None, out: Path = Path("live.html"), **streams: IO[str]) -> None:
        super().__init__(**streams)
        self.net, self.out = net or Network(), out
        self.is_looked_at, self.seen = False, {}

    # ---- the prompt itself

    def say(self, text: object) -> None:
        print(text, file=self.stdout)

    def onecmd(self, line: str) -> bool:
        """Several commands may stand on a line, with ` / ` between. What is wrong with one is told, and the prompt goes
        on."""
        for part in re.split(r"\s+/\s+", line):
            try:
                if super().onecmd(part):
                    return True
            except (Mistake, Unclear, OSError) as error:
                self.say(error)
                return False
            except (TypeError, ValueError):
                self.say(f"it is called so: {getattr(self, f'do_{part.split()[0]}').__doc__}")
                return False
        return False

    def emptyline(self) -> bool:
        return False

    def default(self, line: str) -> bool:
        if line == "EOF":
            self.say("")
            return True
        self.say(f"{line.split()[0]} is no command; `help` names them")
        return False

    def do_quit(self, _line: str) -> bool:
        """quit"""
        return True

    # ---- what the network is made of

    def do_line(self, line: str) -> None:
        """line ROUTER ROUTER ..: routers, and a link from each to the next"""
        self.net.line(*shlex.split(line))

    def do_ring(self, line: str) -> None:
        """ring ROUTER ROUTER ..: the same, and from the last to the first"""
        self.net.ring(*shlex.split(line))

    def do_link(self, line: str) -> None:
        """link ROUTER ROUTER ..: one link with all these routers"""
        self.net.link(*shlex.split(line))

    def do_host(self, line: str) -> None:
        """host NAME ROUTER|LINK: a host on a link of its own at a router, or on a link"""
        name, at = shlex.split(line)
        self.net.host(name, at)

    def do_rp(self, line: str) -> None:
        """rp ROUTER [RANGE]: the RP of a range of groups, of all where none is named"""
        self.net.rp(*shlex.split(line))

    # ---- time, and what hosts do

    def do_run(self, line: str) -> None:
        """run [SECONDS]: time passes, 10 s where no number is named; it is told what came to hosts"""
        self.net.run(seconds_of(line or "10"))
        self.say(f"{self.net.now / 1000:g} s")
        for name, host in self.net.hosts.items():
            new = host.received[self.seen.get(name, 0):]
            self.seen[name] = len(host.received)
            if new:
                last = " ".join(new[-1].path) or "its own link"
                count = f"{len(new)} packet{'s' * (len(new) > 1)}"
                self.say(f"  {name}: {count}, the last one of {new[-1].source} by {last}")
        if self.is_looked_at:
            self.write()

    def do_join(self, line: str) -> None:
        """join HOST GROUP [SOURCE]"""
        name, *rest = shlex.split(line)
        self.host(name).join(*map(self.host_or_address, rest))

    def do_leave(self, line: str) -> None:
        """leave HOST GROUP [SOURCE]"""
        name, *rest = shlex.split(line)
        self.host(name).leave(*map(self.host_or_address, rest))

    def do_send(self, line: str) -> None:
        """send HOST GROUP [TEXT]: a packet of data"""
        name, group, *text = shlex.split(line)
        self.host(name).send(group, " ".join(text).encode())

    def do_stream(self, line: str) -> None:
        """stream HOST GROUP [TIMES]: a packet a second, ten where no number is named"""
        name, group, times = (shlex.split(line) + ["10"])[:3]
        self.host(name).stream(group, times=int(seconds_of(times)))

    # ---- what breaks

    def do_down(self, line: str) -> None:
        """down LINK, down ROUTER: it fails; down ROUTER LINK: that router's interface on the link alone"""
        self.turn(shlex.split(line), False)

    def do_up(self, line: str) -> None:
        """up LINK, up ROUTER, up ROUTER LINK: it comes again"""
        self.turn(shlex.split(line), True)

    def turn(self, names: list[str], is_up: bool) -> None:
        if len(names) == 2:
            port = self.net.known_router(names[0]).port(self.link(names[1]))
            (port.up if is_up else port.down)()
        elif len(names) == 1 and names[0] in self.net.links:
            link = self.net.links[names[0]]
            (link.up if is_up else link.down)()
        elif len(names) == 1:
            router = self.net.known_router(names[0], " or link")
            (router.start if is_up else router.stop)()
        else:
            raise Unclear("name a link, a router, or a router and a link of it")

    def do_lose(self, line: str) -> None:
        """lose 30% on LINK; lose 30% of Joins on LINK; lose 100% of Hellos on LINK from ROUTER to ROUTER: from the
        present on, between routers. Kinds are Joins (with Prunes), Hellos, Asserts, Registers, data, queries. With 0%
        the same loses nothing any more"""
        found = LOSS.match(line.strip())
        if found is None:
            raise Unclear("say it as: lose 30% of Joins on LINK from ROUTER to ROUTER")
        kind = found["kind"] and found["kind"].lower()
        if kind is not None and kind not in KINDS:
            raise Unclear(f"{found['kind']} is no kind: it is one of {', '.join(KINDS)}")
        link = self.link(found["link"])
        link.lose(float(found["share"]) / 100, kind and KINDS[kind], found["sender"], found["receiver"])

    # ---- looking

    def do_tree(self, line: str) -> None:
        """tree GROUP [SOURCE]: the tree that stands"""
        group, *source = shlex.split(line)
        self.say(self.net.tree(group, *map(self.host_or_address, source)) or "there is no such tree")

    def do_show(self, line: str) -> None:
        """show ROUTER: what it knows, as show ip mroute and its like have it; show: routers, links and hosts"""
        if line:
            name = self.net.known_router(line).name
            self.say("\n".join(view_text.text(views.router(self.net.known()[name]))))
            return
        for link in self.net.links.values():
            ends = [f"{port.router.name} {port.number}: {port.address}"
                    for port in link.ports] + [f"{host.name} {host.address}" for host in link.hosts]
            self.say(f"  {link.name}{'' if link.is_up else ' (down)'}: {', '.join(ends)}")

    def do_served(self, line: str) -> None:
        """served HOST GROUP SOURCE: whether packets come, by which way, or why not"""
        name, group, source = shlex.split(line)
        self.say(self.net.served(self.host(name), group, self.host_or_address(source)))

    def do_why(self, _line: str) -> None:
        """why: what went wrong in the run, causes first"""
        self.say("\n".join(note.partition(": ")[2] for note in self.net.notes()) or "nothing")

    def do_look(self, line: str) -> None:
        """look [FILE.html]: writes the page of the run, and anew after each `run`"""
        self.out = Path(line) if line else self.out
        self.is_looked_at = True
        self.write()
        self.say(f"{self.out.resolve().as_uri()}#9999")

    def do_save(self, line: str) -> None:
        """save FILE.toml: the run as a scenario"""
        self.net.save(line)

    def write(self) -> None:
        self.out.write_text(playpage.page([labfile.told(self.net, self.out.stem)]))

    # ---- names

    def host(self, name: str) -> Host:
        if name not in self.net.hosts:
            raise Unclear(f"there is no host {name}: its hosts are {', '.join(self.net.hosts) or 'none'}")
        return self.net.hosts[name]

    def host_or_address(self, word: str) -> Host | str:
        return self.net.hosts.get(word, ANY if word == ANY else word)

    def link(self, name: str) -> Link:
        if name not in self.net.links:
            raise Unclear(f"there is no link {name}: its links are {', '.join(self.net.links) or 'none'}")
        return self.net.links[name]
