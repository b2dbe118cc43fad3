"""A network: its routers, links and hosts, the packets between them, and time."""
from __future__ import annotations

import math
import random
import weakref
from collections.abc import Callable, Container, Sequence
from itertools import count, zip_longest
from pathlib import Path
from typing import TYPE_CHECKING, Any, Self

from viqeshor.lab import packets, words
from viqeshor.lab.addresses import address_in, is_host, prefix_in
from viqeshor.lab.faults import ROUTER_KEYS, Candidate, candidate_fault, faults_of
from viqeshor.lab.hosts import Host
from viqeshor.lab.lines import calling
from viqeshor.lab.mistakes import (
    Mistake, Named, address_given, delay_given, group_given, host_given, is_known_key, kind_given, ms_given, near,
    number_given, share_given, shown, source_given, subnet_given,
)
from viqeshor.lab.picture import svg
from viqeshor.lab.playing import Action, Player
from viqeshor.lab.printed import ANY, ROWS, Upstream
from viqeshor.lab.scenario import hosts_text, scenario_of, text_of
from viqeshor.lab.tables import Table, table_of
from viqeshor.lab.topology import Link, Port, Router, routes
from viqeshor.lab.traffic import HOSTS, START, Chances, Traffic
from viqeshor.lab.tree import Tree, tree_of

if TYPE_CHECKING:
    from viqeshor.lab.known import Known
    from viqeshor.lab.packets import Packet
    from viqeshor.lab.playing import Batch
    from viqeshor.lab.reading import Script
    from viqeshor.lab.scenario import Scenario
    from viqeshor.lab.story import Sent, Step, Story, Tables

# All networks of this run.
MADE = []
# The keys of a router that a network leaves to whoever makes it.
ROUTER_OPTIONS = [key for key in ROUTER_KEYS if key not in ("name", "iface")]
MOST_ROUTERS = 1000
FIRST_HOST = 101


class Network:
    """`loss` is the share of packets that each link between routers loses, for each receiver by itself; `delay` the
    least and the most seconds that one takes; `reorder` the share of those that later ones overtake. `step` is the
    seconds between two moments at which time passes for all routers: what a router sends in between leaves at the next
    of them."""

    # What makes a host of this network.
    HOST = Host

    def __init__(
        self,
        seed: int = 0,
        loss: float = 0.0,
        delay: tuple[float, float] = (0.0, 0.0),
        reorder: float = 0.0,
        step: float = 1.0,
    ) -> None:
        self.chance = random.Random(seed)
        self.loss, self.step, self.order = share_given(loss, "are lost"), ms_given(step, "step", 0.001), count()
        self.routers: Named[Router] = Named("router")
        self.links: Named[Link] = Named("link")
        self.hosts: Named[Host] = Named("host")
        self.ranges, self.named, self.fixed = [], [], {}
        self.now = self.present = self.stepped = 0
        self.alone = set()
        self.player, self.sent, self.paths, self.odd = None, [], {}, []
        self.made, self.spoken, self.unheard = calling(), {}, set()
        self.script: Script | None = None
        MADE.append(weakref.ref(self))
        chances = Chances(seed, delay_given(delay), share_given(reorder, "later ones overtake"))
        self.traffic = Traffic(self, None, chances)
        self.settles = not (loss or reorder or chances.delay[1])

    @classmethod
    def read(cls, path: str | Path, until: float | None = None, seed: int = 0) -> Self:
        """The network of a scenario file, of which no move is played yet: `run` and `run_to` play them as their time
        comes, those up to `until` seconds alone where it is given. Until then nothing else may happen in it; from then
        on time passes as in any network. Its hosts are those that speak in the file, by the names of lines `# host
        ADDRESS NAME`, else by their addresses; they answer queries once the last move is played. Its routes and RPs
        are the file's, whatever fails. Raises a `Mistake` that has a line `FILE:LINE: ..` for all that is wrong."""
        from viqeshor.lab import reading
        return reading.network_of(cls(seed), path, until)

    # ---- what it is made of

    def router(self, name: str, **options: Any) -> Router:
        """A router; options are keys of the scenario file, as `spt="never"`."""
        self.is_new(name, self.routers)
        for key in options:
            is_known_key(key, ROUTER_OPTIONS, "a router")
        if len(self.routers) == MOST_ROUTERS:
            raise Mistake(f"a network has at most {MOST_ROUTERS} routers")
        self.routers[name] = Router(name, options, self)
        return self.routers[name]

    def link(
        self,
        *routers: Router | str,
        name: str | None = None,
        subnet: str | None = None,
        addresses: Sequence[str | None] = (),
        cost: int = 10,
        loss: float | None = None,
    ) -> Link:
        """A link of routers, or of one for its hosts. They are told by name too, and are made where they are new.
        `addresses` are theirs, in their order; where it ends, the network gives them."""
        routers = [self.find(router) for router in routers]
        name = name or "-".join(router.name for router in routers)
        self.is_new(name, self.links)
        number = len(self.links) + 1
        subnet = subnet_given(subnet or f"10.{number >> 8}.{number & 255}.0/24")
        cost = number_given(cost, "cost of a link", 1, is_whole=True)
        link = Link(name, subnet, cost, share_given(self.loss if loss is None else loss, "are lost"), self)
        for router, address in zip_longest(routers, addresses[:len(routers)]):
            own = host_given(address) if address else address_given(subnet, len(link.ports) + 1, router.name)
            port = Port(router, len(router.ports), link, own)
            router.ports.append(port)
            link.ports.append(port)
        self.settles = self.settles and not link.loss
        self.links[name] = link
        return link

    def line(self, *routers: Router | str) -> list[Link]:
        """A link from each router to the next."""
        if len(routers) < 2:
            raise Mistake("a line has two routers or more, and a ring too")
        return [self.link(*pair) for pair in zip(routers, routers[1:])]

    def ring(self, *routers: Router | str) -> list[Link]:
        """The same, and from the last to the first."""
        return self.line(*routers, *routers[:1] * (len(routers) > 1))

    def host(
        self, name: str, at: Router | Link | str, address: str | None = None, igmp: int = 3, answers: bool = True
    ) -> Host:
        """A host on a link, or at a router: then it has a link of its own there, which loses nothing. `address` is
        another one than the network would give it, `igmp` the version that it speaks, 3, 2 or 1, and `answers` whether
        it answers queries."""
        self.is_new(name, self.hosts)
        number_given(igmp, "version of IGMP", 1, 3, is_whole=True)
        link = self.links.get(at) if isinstance(at, str) else at
        if not isinstance(link, Link):
            link = self.link(self.known_router(at, " or link"), name=name, loss=0.0)
        own = host_given(address) if address else address_given(link.subnet, FIRST_HOST + len(link.hosts), name)
        host = self.HOST(name, link, own, self, igmp=igmp, answers=answers)
        link.hosts.append(host)
        self.hosts[name] = host
        return host

    def rp(self, router: Router | str, groups: str = "224.0.0.0/4", address: str | None = None) -> None:
        """The RP of a range of groups. Where no address of it is given, it is that of a link of its own, which never
        fails."""
        address = self.rp_given(router, groups, address)
        self.ranges = [row for row in self.ranges if row[0] != groups]
        self.ranges.append((groups, address))
        if self.player:
            self.each("rps", lambda router: self.rps())

    def candidate(
        self, router: Router | str, groups: str = "224.0.0.0/4", priority: int = 192, mask: int = 30,
        address: str | None = None, at: Router | str | None = None
    ) -> None:
        """A candidate RP of a range of groups, of which several may be: of each group routers choose one of them, as if
        Bootstraps had told all of them, or one `at` alone. The lower priority is preferred; `mask` has the bits of the
        hash function's. The address is as of `rp`."""
        number_given(priority, "priority of an RP", 0, 255, is_whole=True)
        number_given(mask, "length of a hash mask", 0, 32, is_whole=True)
        address, at = self.rp_given(router, groups, address), None if at is None else self.known_router(at)
        if what := candidate_fault(Candidate(0, groups, *prefix_in(groups), address_in(address), 0, 0, priority, mask)):
            raise Mistake(what)
        self.named.append((f"{groups} {address}", at, f"{priority} {mask}"))
        if self.player:
            self.each("candidates", self.candidates_of)

    def rp_given(self, router: Router | str, groups: str, address: str | None) -> str:
        """The address of a router by which it is the RP of a range."""
        router = self.known_router(router)
        if self.script:
            raise Mistake("the RPs of this network are those of its file")
        if not isinstance(groups, str) or prefix_in(groups) is None:
            raise Mistake(f"{groups!r} is no range of groups: it is one as \"239.0.0.0/8\"")
        if address is not None and (not isinstance(address, str) or not is_host(address_in(address) or 0)):
            raise Mistake(f"{shown(address)} is no address of an RP: it is one as \"10.0.1.1\"")
        return address or self.loopback(router)

    def candidates_of(self, router: Router) -> list[str]:
        """The candidate RPs of which a router was told, each as it was last."""
        told = {named: rest for named, at, rest in self.named if at in (None, router)}
        return [f"{named} {rest}" for named, rest in told.items()]

    def rps(self) -> list[str]:
        return [f"{prefix} {address}" for prefix, address in self.ranges]

    def loopback(self, router: Router) -> str:
        """The address of a router on a link that is its alone."""
        name = f"{router.name}-lo"
        if name not in self.links:
            number = len(self.links)
            self.link(router, name=name, subnet=f"10.255.{number & 255}.{number >> 8 << 2}/30", loss=0.0)
        return router.port(self.links[name]).address

    def find(self, router: Router | str) -> Router:
        """A router by its name, which is made where there is none."""
        if isinstance(router, Router):
            return router
        if not isinstance(router, str):
            raise Mistake(f"{shown(router)} is no router, nor the name of one")
        return self.routers.get(router) or self.router(router)

    def known_router(self, router: Router | str, or_what: str = "") -> Router:
        """A router that is there."""
        if isinstance(router, str) and router not in self.routers:
            raise Mistake(f"there is no router{or_what} {router}{near(router, list(self.routers))}")
        return self.find(router)

    def is_new(self, name: str, among: Container[str]) -> None:
        if not isinstance(name, str):
            raise Mistake(f"{shown(name)} is no name: it is a text")
        if self.player:
            raise Mistake(f"{name}: routers, links and hosts are made before the first run")
        if name in among:
            raise Mistake(f"there is a {name!r} already")

    def owner(self, address: str) -> Router:
        """The router that has an address."""
        return next(router for router in self.routers.values() if router.has(address))

    def written(self, router: Router) -> dict[str, Any]:
        """A router's table in the scenario file."""
        ports = [port.table() for port in router.ports]
        return {
            "name": router.name,
            "iface": ports,
            "routes": self.routes_of(router),
            "rps": self.rps(),
            **router.options,
        }

    # ---- what changes

    def change_link(self, link: Link, is_up: bool) -> None:
        ports = [port for port in link.ports if port.router.is_up and port.is_working]
        self.change(link, is_up, ports)

    def change_router(self, router: Router, is_up: bool) -> None:
        self.change(router, is_up, [port for port in router.ports if port.link.is_up and port.is_working])

    def change(self, thing: Link | Router, is_up: bool, ports: list[Port]) -> None:
        """A link or a router comes or goes: with it its ports, and routes change."""
        self.act()
        if self.player is None:
            raise Mistake("links and routers go down after the first run")
        if thing.is_up != is_up:
            thing.is_up = is_up
            self.settles = False
            self.schedule(Action([self.turned(port) for port in ports]), self.now)
            self.each("routes", self.routes_of)

    def change_port(self, port: Port, is_up: bool) -> None:
        """One interface comes or goes."""
        self.act()
        if self.player is None:
            port.is_working, self.settles = is_up, self.settles and is_up
        elif port.is_working != is_up:
            was, port.is_working = port.is_up(), is_up
            self.settles = False
            if was != port.is_up():
                self.schedule(Action([self.turned(port)]), self.now)
                self.each("routes", self.routes_of)

    def turned(self, port: Port) -> dict[str, Any]:
        do = "up" if port.is_up() else "down"
        return {"do": do, "router": port.router.name, "iface": port.number, "draw": self.draw()}

    def news(self, do: str, router: Router, texts: list[str]) -> dict[str, Any]:
        return {"do": do, "router": router.name, "list": texts, "draw": self.draw()}

    def each(self, do: str, listing: Callable[[Router], list[str]]) -> None:
        """New routes or ranges for all routers that are up."""
        here = [router for router in self.routers.values() if router.is_up]
        self.schedule(Action([self.news(do, router, listing(router)) for router in here]), self.now)

    def routes(self, router: Router | str, *texts: str, alone: bool = False) -> None:
        """Routes that go before those by shortest path, as `PREFIX NEXTHOP IFACE PREFERENCE METRIC`. With `alone` the
        router has no other ones: those stay, whatever fails."""
        router = self.known_router(router)
        self.fixed[router] = self.fixed.get(router, ()) + texts
        self.alone |= {router} if alone else set()
        if self.player:
            self.schedule(Action([self.news("routes", router, self.routes_of(router))]), self.now)

    def routes_of(self, router: Router) -> list[str]:
        fixed = self.fixed.get(router, ())
        if router in self.alone:
            return list(fixed)
        prefixes = {text.split()[0] for text in fixed}
        return [*fixed, *(text for text in routes(router) if text.split()[0] not in prefixes)]

    # ---- time

    def act(self) -> None:
        """A sentence where a file's moves come first."""
        if self.script and self.script.moves:
            raise Mistake(f"the moves of {self.script.name} come first: `net.play()` plays them all, `Network.read(.., "
                          "until=SECONDS)` leaves out the later ones")

    def draw(self) -> int:
        return self.chance.getrandbits(32)

    def schedule(self, action: Action, moment: int) -> None:
        """What is to happen at a moment by the hosts or by whoever runs the network."""
        self.traffic.schedule(action, moment, (HOSTS, next(self.order)))

    def start(self) -> None:
        """All interfaces come up at moment 0."""
        tables = [self.written(router) for router in self.routers.values()]
        # What was given is judged; routes by shortest path aren't looked for mistakes.
        given = [{**table, "routes": list(self.fixed.get(self.routers[table["name"]], ()))} for table in tables]
        judge, number = faults_of(text_of(given, []), MOST_ROUTERS)
        if number:
            raise Mistake("; ".join(f"{fault.where}: {fault.what}" for fault in judge.faults))
        self.begin(tables)
        moves = [self.turned(port) for router in self.routers.values() for port in router.ports if port.is_up()]
        moves += [self.news("candidates", router, texts) for router in self.routers.values()
                  if (texts := self.candidates_of(router))]
        self.traffic.schedule(Action(moves), 0, (START,))

    def begin(self, tables: list[dict[str, Any]], coming: Sequence[dict[str, Any]] = ()) -> None:
        """Makes the routers, by their tables in the scenario file."""
        self.player = Player(tables, {name: self.draw() for name in self.routers}, coming)
        self.traffic.read = scenario_of({"router": tables})

    def run(self, seconds: float) -> Self:
        """Time passes, with all that happens in it."""
        return self.go_on(self.now + ms_given(seconds, "number of seconds"))

    def run_to(self, seconds: float) -> Self:
        """The same until so many seconds after the beginning."""
        return self.go_on(ms_given(seconds, "number of seconds", self.now / 1000))

    def play(self) -> Self:
        """Plays what is left of the moves of its file."""
        if self.script:
            self.script.play(math.inf)
            self.now = self.present
        return self

    def go_on(self, end: int) -> Self:
        """Time passes up to a moment, after the moves of a file up to then."""
        if self.player is None:
            self.start()
        if self.script:
            self.script.play(end)
        while batch := self.traffic.coming(self.stepped, self.step, end):
            self.happen(batch)
        self.now = self.present = end
        return self

    def happen(self, batch: Batch) -> None:
        """All that happens at a moment."""
        self.present = batch.moment
        self.stepped = batch.moment if batch.is_step else self.stepped
        steps = self.player.play(batch, self.draw if self.settles else None)
        for action in batch.actions:
            action.done(batch.moment)
        self.came(steps, batch.moment)

    def came(self, steps: list[Step], moment: int) -> None:
        """What routers did at a moment, and what left."""
        for step in steps:
            self.follow(step, moment)
        for sent in (sent for step in steps for sent in step.sent):
            self.leave(sent)

    def follow(self, step: Step, moment: int) -> None:
        """What a router did: which way its packets came, and whether it took what came."""
        came = () if step.brought is None else self.paths[step.brought.number]
        self.paths.update((sent.number, (*came, step.router)) for sent in step.sent)
        if step.verdict != "done":
            self.odd.append((moment, step))

    def leave(self, sent: Sent) -> None:
        """A router sent a packet: hosts hear it at once, routers by a settle or by deliveries of their own."""
        self.sent.append(sent)
        if not sent.is_unicast():
            self.tell_hosts(self.links[sent.where], sent, sent.packet())
        if not self.settles:
            self.traffic.leave(sent, self.present)

    def tell_hosts(self, link: Link, sent: Sent, packet: Packet) -> None:
        for host in link.hosts:
            if self.chance.random() < link.loss:
                self.unheard.add((host.address, sent.number))
                continue
            if isinstance(packet.body, packets.Query):
                host.hear(packet.body)
            elif sent.kind == "copy":
                host.take(self.present, packet, self.paths[sent.number])

    # ---- what came of it

    def __repr__(self) -> str:
        return f"<network of {len(self.routers)} routers and {len(self.hosts)} hosts at {words.seconds(self.now)}>"

    def __str__(self) -> str:
        """A line for each link: its subnet, and the routers and hosts on it."""
        about = []
        for link in self.links.values():
            ends = [f"{port.router.name} {port.address}" + " down" * (not port.is_up()) for port in link.ports]
            ends += [" ".join(dict.fromkeys(["host", host.name, host.address])) for host in link.hosts]
            about.append(f"{link.name} {link.subnet}: {', '.join(ends)}")
        return "\n".join(about)

    def tables(self) -> dict[str, Tables]:
        """What each router knows at the present, by names."""
        return {name: self.table_of(name) for name in self.running().cores}

    def table_of(self, name: str) -> Tables:
        """The same of one."""
        return self.running().tables(name, self.now)

    def running(self) -> Player:
        """What plays it, once it has run."""
        if self.player is None:
            raise Mistake("nothing has run yet")
        return self.player

    def tree(self, group: str, source: Host | str = ANY) -> Tree:
        """The tree of a group and all sources, or of one, a host or an address, as it stands at the present."""
        return tree_of(self, self.known(), group_given(group), source if source == ANY else source_given(source))

    def table(self, kind: type | str) -> Table:
        """The rows of a table of all routers, each with its router's name before it: a class as `Neighbour`, or its
        letter, as "N"."""
        return table_of(kind, {name: router.rows(kind) for name, router in self.routers.items()})

    def frames(self) -> dict[str, Any]:
        """The tables of all routers by their letters, as frames of pandas, or as they are where pandas isn't there."""
        return {letter: self.table(letter).frame() for letter in ROWS}

    def known(self) -> dict[str, Known]:
        """The same with what follows of the run: interfaces that are up, routes, RP ranges, Hellos."""
        return self.running().known(self.now)

    def played(self) -> tuple[Scenario, Story]:
        """The scenario that was played up to the present, and its run."""
        return self.running().told(self.now)

    def _repr_svg_(self) -> str:
        """Its picture in a notebook, with all trees as they stand at the present."""
        return svg(self, self.trees() if self.player else [])

    def trees(self) -> list[Tree]:
        """All trees that a router has joined, as they stand at the present."""
        known = self.known()
        named = {(row.group, row.source) for state in known.values() for row in state.of(Upstream)}
        return [tree_of(self, known, *name) for name in sorted(named)]

    def lines(self, with_tables: bool = True) -> list[str]:
        """What `pimlab run` prints of what was played so far, with the tables of `--tables` or without."""
        return self.running().lines(with_tables)

    def packets(self, kind: type | None = None) -> list[Sent]:
        """What routers sent, in order, all or of one kind: a class of viqeshor.lab.packets, as Register."""
        kind_given(kind)
        return [sent for sent in self.sent if kind is None or isinstance(sent.packet().body, kind)]

    def troubles(self) -> list[str]:
        """What routers refused or ignored, in words."""
        played = self.running().played
        return [
            f"at {words.seconds(moment)} {step.router}: {words.step(step, played)}: "
            f"{words.answer(step.verdict, step.cause)}"
            for moment, step in self.odd
        ]

    def scenario(self) -> str:
        """The text of the scenario that was played, for `pimlab` and the other tools."""
        played = self.played()[0]
        names = hosts_text({host.address: host.name for host in self.hosts.values()})
        return names + text_of((router.table for router in played.routers), played.moves)

    def save(self, path: str | Path) -> None:
        """Writes it to a file."""
        text = self.scenario()
        try:
            Path(path).write_text(text)
        except OSError as error:
            raise Mistake(f"{path} can't be written: {error.strerror}") from None


def made() -> list[Network]:
    """The networks that this run has made and that are still in use."""
    return [net for net in (known() for known in MADE) if net is not None]
