"""Random events of one router: neighbours, hosts and sources on its links, sources and RPs behind others, routes,
ranges and candidate RPs that change, links that go down, and time. All of it comes of one seed. And the events of a
stored scenario."""
from __future__ import annotations

import random
from collections import deque
from dataclasses import dataclass, replace
from ipaddress import IPv4Address, IPv4Network
from typing import TYPE_CHECKING, Any

from viqeshor.lab import fed, packets
from viqeshor.lab.packets import Assert, Entry, GroupEntries, Hello, Record
from viqeshor.lab.rps import Candidate, rp_among

if TYPE_CHECKING:
    from collections.abc import Iterable, Iterator

    from viqeshor.lab.story import Step

ANY_SOURCE, SSM = ("239.1.1.1", "239.1.1.2", "239.2.1.1"), ("232.1.1.1",)
GROUPS = ANY_SOURCE + SSM
FAR_RP = "10.80.0.8"
LOOPBACK = "10.255.0.1"
FAR_SOURCES = ("10.90.0.7", "10.90.1.7", "10.91.0.7")
PREFIXES = ("10.80.0.0/16", "10.90.0.0/16", "10.90.1.0/24", "10.91.0.0/16", "0.0.0.0/0")
# Of Hellos and of Joins, in seconds.
HOLDTIMES = (0xFFFF,) * 8 + (105, 20, 3, 0)
JOINED_FOR = (0xFFFF,) * 4 + (210,) * 4 + (60, 3, 0)
# What is wrong with a packet that claims to be data.
SPOILT = (
    "version", "header", "total", "short", "long", "checksum", "fragment", "source", "own", "unicast", "local",
    "igmp", "pim",
)


@dataclass(frozen=True)
class Event:
    """`call` is the method of `viqeshor.Router`, `values` what it takes before the draw, `words` what it is. Meanwhile
    memory may be refused."""
    call: str
    values: tuple
    draw: int
    words: str
    is_refused: bool = False


# The calls that take a list, which a stored event has as texts.
LISTS = {
    "routes": ("set_routes", fed.routes), "ranges": ("set_ranges", fed.ranges),
    "candidates": ("set_candidates", fed.candidates),
}


def events_of(steps: Iterable[Step]) -> Iterator[Event]:
    """What a router of a stored scenario takes."""
    for step in steps:
        given = fed.event(step)
        if given is not None:
            call, read = LISTS.get(given.name, (given.name, None))
            values = tuple(list(read(value)) for value in given.values) if read else given.values
            yield Event(call, values, given.draw, f"move {step.move}")


def spoilt(data: bytes, how: str, own: str) -> bytes:
    """A data packet with one thing wrong."""
    if how in ("version", "header"):
        changed = packets.with_number(data, 0, 0x65 if how == "version" else 0x44, 1)
    elif how in ("total", "short"):
        changed = packets.with_number(data, 2, 19 if how == "total" else len(data) + 1)
    elif how == "fragment":
        changed = packets.with_number(data, 6, 0x2000)
    elif how == "long":
        changed = data + bytes(1501 - len(data))
    elif how in ("igmp", "pim"):
        changed = packets.with_number(data, 9, packets.IGMP if how == "igmp" else packets.PIM, 1)
    elif how in ("source", "own"):
        changed = data[:12] + (packets.octets(own) if how == "own" else b"\xe0\1\1\1") + data[16:]
    elif how in ("unicast", "local"):
        changed = data[:16] + (b"\x0a\0\0\x63" if how == "unicast" else b"\xe0\0\0\x63") + data[20:]
    else:
        return packets.with_number(data, 10, packets.word(data, 10) ^ 1)
    return packets.with_header_sum(changed) if how != "header" else changed


class Happenings:
    """A router's configuration, and what happens to it."""

    def __init__(self, seed: int) -> None:
        self.draws = draws = random.Random(seed)
        self.count = draws.randint(2, 5)
        self.interfaces = [(f"10.0.{at}.5", 24, draws.choice((1, 1, 0, 7)), 500, 2500) for at in range(self.count)]
        self.neighbours = [[f"10.0.{at}.{last}" for last in (2, 9) if draws.random() < 0.6] for at in range(self.count)]
        # Half of all have an address on no link.
        self.apart = [LOOPBACK][seed % 2:]
        self.rps = [FAR_RP, self.own(0), self.own(self.count - 1), *self.apart]
        self.routes, self.ranges = self.some_routes(), self.some_ranges()
        self.candidates: list[Candidate] = []
        limit = draws.choice((65536, 65536, draws.randint(2, 8), draws.randint(8, 25)))
        self.settings = {"limit": limit, "stays_on_shared_tree": draws.random() < 0.3, "addresses": self.apart}
        self.flows = [self.some_flow() for _ in range(draws.randint(1, 3))]
        self.present = 0
        # What happens next, each as what makes the event.
        self.coming = deque((self.up, at) for at in range(self.count))
        self.coming.extend((self.hello_of, at, whom) for at, whom in self.all_neighbours() if draws.random() < 0.9)

    # ---- who there is

    def own(self, iface: int) -> str:
        return self.interfaces[iface][0]

    def iface(self) -> int:
        return self.draws.randrange(self.count)

    def all_neighbours(self) -> list[tuple[int, str]]:
        return [(at, whom) for at, some in enumerate(self.neighbours) for whom in some]

    def neighbour(self) -> tuple[int, str]:
        """An interface and a router on it, who may be a stranger."""
        if not self.all_neighbours() or self.draws.random() < 0.03:
            iface = self.iface()
            return iface, f"10.0.{iface}.77"
        return self.draws.choice(self.all_neighbours())

    def source(self) -> str:
        return self.draws.choice(
            (*FAR_SOURCES, *(f"10.0.{at}.{last}" for at in range(self.count) for last in (50, 51)))
        )

    def some_flow(self) -> tuple[str, str]:
        """A source and a group."""
        return self.source(), self.draws.choice(GROUPS)

    def flow(self) -> tuple[str, str]:
        return self.draws.choice(self.flows) if self.draws.random() < 0.9 else self.some_flow()

    def towards(self, address: str) -> int:
        """The interface towards an address, by its link or the longest route; any, where there is none."""
        if address.startswith("10.0."):
            return int(address.split(".")[2])
        ways = [(IPv4Network(prefix), iface) for prefix, _, iface, *_ in self.routes]
        ways = [(net.prefixlen, iface) for net, iface in ways if IPv4Address(address) in net]
        return max(ways)[1] if ways else self.iface()

    def rp(self, group: str) -> str:
        found = rp_among([(IPv4Network(prefix), rp) for prefix, rp in self.ranges], self.candidates, group)
        return found[1] if found else FAR_RP

    def way(self, source: str, group: str) -> int:
        """An interface on which packets come: that towards the source, that towards the RP, or any; now and then one
        that isn't."""
        if self.draws.random() < 0.01:
            return self.count
        return self.draws.choice([self.towards(source)] * 4 + [self.towards(self.rp(group))] * 2 + [self.iface()])

    def some_routes(self) -> list[tuple[str, str, int, int, int]]:
        routes = []
        for prefix in PREFIXES:
            if self.draws.random() < 0.75:
                iface = self.iface()
                hop = self.draws.choice(self.neighbours[iface] or [f"10.0.{iface}.2"])
                routes.append((prefix, hop, iface, self.draws.choice((100, 110)), self.draws.choice((10, 20))))
        return routes

    def some_ranges(self) -> list[tuple[str, str]]:
        ranges = [("239.0.0.0/8", self.draws.choice(self.rps))]
        if self.draws.random() < 0.4:
            ranges.append(("239.2.0.0/16", self.draws.choice(self.rps)))
        return ranges if self.draws.random() < 0.95 else []

    def some_candidates(self) -> list[Candidate]:
        """RPs of ranges that the RP ranges have too, contain, or are in; now and then none."""
        prefixes = [IPv4Network(self.draws.choice(("224.0.0.0/4", "239.0.0.0/8", "239.0.0.0/14", "239.2.0.0/16")))
                    for _ in range(self.draws.choice((0, 1, 2, 2, 4)))]
        named = {(prefix, self.draws.choice(self.rps)) for prefix in prefixes}
        return [Candidate(prefix, rp, self.draws.choice((0, 192, 192)), self.draws.choice((0, 30, 32)))
                for prefix, rp in sorted(named)]

    # ---- events

    def event(self, call: str, values: tuple[Any, ...], words: str) -> Event:
        return Event(call, values, self.draws.getrandbits(32), words)

    def frame(self, iface: int, data: bytes, words: str) -> Event:
        return self.event("frame", (iface, data), f"on {iface} {words}")

    def up(self, iface: int) -> Event:
        return self.event("up", (iface,), f"interface {iface} goes up")

    def up_without_memory(self, iface: int) -> Event:
        """A Hello leaves of it, so it needs memory."""
        return replace(self.up(iface), is_refused=True, words=f"interface {iface} goes up, and memory is refused")

    def hello_of(self, iface: int, whom: str, generation: int = 1) -> Event:
        hello = Hello(self.draws.choice(HOLDTIMES), None, None, self.draws.choice((None, 0, 1, 7)), generation)
        if self.draws.random() < 0.5:
            hello = Hello(hello.holdtime, 500, 2500, hello.priority, generation)
        return self.frame(
            iface, packets.write_hello(whom, hello), f"Hello of {whom}, {hello.holdtime} s, priority {hello.priority}"
        )

    def hello(self) -> Event:
        return self.hello_of(*self.neighbour(), generation=self.draws.choice((1, 1, 1, 2)))

    def down(self, iface: int) -> Event:
        return self.event("down", (iface,), f"interface {iface} goes down")

    def link(self) -> Event:
        """An interface goes down, and mostly up again in a while."""
        iface = self.iface()
        if self.draws.random() < 0.8:
            self.coming.extend([(self.any,), (self.any,), (self.up, iface)])
            self.coming.extend((self.hello_of, iface, whom) for whom in self.neighbours[iface])
        return self.down(iface)

    def new_routes(self) -> Event:
        if self.draws.random() < 0.5 and self.routes:
            self.routes = [route for route in self.routes if self.draws.random() < 0.8]
        else:
            self.routes = self.some_routes()
        return self.event("set_routes", (self.routes,), f"routes {self.routes}")

    def new_rps(self) -> Event:
        """New RP ranges, or new candidate RPs."""
        if self.draws.random() < 0.5:
            self.ranges = self.some_ranges()
            return self.event("set_ranges", (self.ranges,), f"ranges {self.ranges}")
        self.candidates = self.some_candidates()
        given = [(str(prefix), *rest) for prefix, *rest in self.candidates]
        return self.event("set_candidates", (given,), f"candidates {given}")

    def entry(self, source: str, group: str) -> tuple[str, Entry]:
        """An entry of a Join/Prune, in words and as it is sent: of (*,G), (S,G) or (S,G,rpt)."""
        kind = self.draws.choice(("sg", "sg", "rpt") if group in SSM else ("star", "star", "sg", "sg", "rpt"))
        if kind == "star":
            return "*", Entry(self.rp(group), 32, True, True)
        return f"{source}{' rpt' if kind == 'rpt' else ''}", Entry(source, 32, False, kind == "rpt")

    def join_prune(self) -> Event:
        iface, whom = self.neighbour()
        others = [other for other in self.neighbours[iface] if other != whom]
        to = self.draws.choice(others) if others and self.draws.random() < 0.3 else self.own(iface)
        (source, group), joins, prunes, words = self.flow(), [], [], []
        for _ in range(self.draws.choice((1, 1, 1, 2, 3))):
            said, entry = self.entry(source if self.draws.random() < 0.9 else self.source(), group)
            is_join = self.draws.random() < 0.75
            (joins if is_join else prunes).append(entry)
            words.append(f"{'Join' if is_join else 'Prune'}({said},{group})")
        holdtime = self.draws.choice(JOINED_FOR)
        data = packets.write_join_prune(whom, to, [GroupEntries(group, 32, tuple(joins), tuple(prunes))], holdtime)
        return self.frame(iface, data, f"{' '.join(words)} of {whom} to {to}, {holdtime} s")

    def assert_(self) -> Event:
        iface, whom = self.neighbour()
        source, group = self.flow()
        is_star = self.draws.random() < 0.3 and group not in SSM
        metric = self.draws.choice((10, 15, 20, 0xFFFFFFFF))
        rpt = is_star or self.draws.random() < 0.3
        preference = 0x7FFFFFFF if metric == 0xFFFFFFFF else self.draws.choice((0, 100, 110, 120))
        told = Assert(group, 32, "0.0.0.0" if is_star else source, rpt, preference, metric)
        return self.frame(iface, packets.write_assert(whom, told), f"Assert of {whom}: {told}")

    def report(self) -> Event:
        iface, records = self.iface(), []
        for _ in range(self.draws.choice((1, 1, 2))):
            source, group = self.flow()
            kind = self.draws.choice((1, 2, 3, 4, 4, 4, 5, 5, 5, 6))
            sources = {source, self.source()} if self.draws.random() < 0.2 else {source} if kind in (1, 5, 6) else ()
            records.append(Record(kind, group, tuple(sorted(sources))))
        return self.frame(iface, packets.write_report(f"10.0.{iface}.60", records), f"report {records}")

    def query(self) -> Event:
        iface, group = self.iface(), self.draws.choice(("0.0.0.0", *GROUPS))
        body = bytes([0x11, 100, 0, 0]) + packets.octets(group) + bytes([2, 125, 0, 0])
        whom = self.draws.choice((f"10.0.{iface}.2", f"10.0.{iface}.9"))
        to = "224.0.0.1" if group == "0.0.0.0" else group
        return self.frame(iface, packets.write_igmp(whom, to, body), f"query of {whom} for {group}")

    def packet(self, source: str, group: str) -> tuple[int, bytes]:
        ttl = self.draws.choice((64, 64, 64, 64, 2, 1, 0))
        data = packets.write_data(source, group, bytes(self.draws.randrange(8)), ttl)
        return ttl, data + bytes(self.draws.choice((0, 0, 0, 3)))

    def data_on(self, iface: int, source: str, group: str) -> Event:
        ttl, data = self.packet(source, group)
        return self.frame(iface, data, f"data of {source} to {group}, TTL {ttl}, {len(data)} bytes")

    def data(self) -> Event:
        """A packet, and mostly more of it, with time between them."""
        flow = self.flow()
        iface = self.way(*flow)
        for _ in range(self.draws.choice((0, 1, 2, 4))):
            self.coming.append((self.pause,))
            self.coming.append((self.data_on, iface if self.draws.random() < 0.8 else self.way(*flow), *flow))
        return self.data_on(iface, *flow)

    def spoilt(self) -> Event:
        source, group = self.flow()
        how = self.draws.choice(SPOILT)
        data = spoilt(packets.write_data(source, group, bytes(8), 64), how, self.own(self.iface()))
        return self.frame(self.way(source, group), data, f"data of {source} to {group}, wrong: {how}")

    def register(self) -> Event:
        source, group = self.flow()
        is_null = self.draws.random() < 0.3
        inner = packets.write_data(source, group, bytes(4), self.draws.choice((64, 2, 1)))
        inner = packets.write(packets.UDP, source, group, 64, b"") if is_null else inner
        whom, to = self.draws.choice(("10.80.0.1", "10.90.0.1")), self.draws.choice(
            [self.own(at) for at in range(self.count)]
        )
        data = packets.write_register(whom, to, inner, is_null)
        return self.event("unicast", (data,), f"{'Null-' * is_null}Register of {whom} to {to}: {source} to {group}")

    def register_stop(self) -> Event:
        source, group = self.flow()
        whom = self.draws.choice(self.rps)
        content = packets.encoded_group(group, 32) + packets.encoded_unicast(
            self.draws.choice((source, source, "0.0.0.0"))
        )
        data = packets.write_pim(packets.REGISTER_STOP, whom, self.own(self.iface()), 64, content)
        return self.event("unicast", (data,), f"Register-Stop of {whom}: {source} to {group}")

    def advance(self, moment: int) -> Event:
        self.present = max(moment, self.present)
        return self.event("advance", (moment,), f"time passes to {moment}")

    def pause(self) -> Event:
        return self.advance(self.present + self.draws.choice((0, 1, 500, 2000)))

    def wait(self) -> Event:
        """Time passes: for a moment, up to the next timer's end or just before it, or for long."""
        ends = self.next_moment if self.next_moment is not None else self.present + 1
        to = self.draws.choice(
            (
                self.present + self.draws.randint(1, 3000),
                ends,
                ends - 1,
                self.present + self.draws.randint(3000, 70_000),
                self.present + self.draws.randint(3000, 70_000),
                self.present + self.draws.randint(180_000, 215_000),
                self.present - 1,
            )
        )
        return self.advance(max(to, 0))

    CHANCES = {
        "data": 20, "wait": 14, "join_prune": 12, "report": 9, "hello": 4, "assert_": 5, "register": 4, "spoilt": 4,
        "link": 2, "register_stop": 3, "query": 1, "new_routes": 2, "new_rps": 1, "refusal": 0.05,
    }

    def refusal(self) -> Event:
        """An interface goes down, and up again with no memory for it: the router fails."""
        iface = self.iface()
        self.coming.append((self.up_without_memory, iface))
        return self.down(iface)

    def any(self) -> Event:
        name, = self.draws.choices(list(self.CHANCES), list(self.CHANCES.values()))
        return getattr(self, name)()

    def one(self, next_moment: int | None) -> Event:
        """What happens next; a timer of the router ends at the moment, or none runs."""
        self.next_moment = next_moment
        make, *values = self.coming.popleft() if self.coming else (self.any,)
        return make(*values)
