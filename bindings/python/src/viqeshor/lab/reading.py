"""Networks of scenario files: their routers, links and hosts, and their moves, played as the file has them."""
from __future__ import annotations

from collections import deque
from collections.abc import Iterator
from ipaddress import IPv4Interface
from pathlib import Path
from typing import TYPE_CHECKING, Any

from viqeshor.lab import packets, scenario, toml_lines, wishes, written
from viqeshor.lab.faults import faults_of
from viqeshor.lab.mistakes import Mistake, ms_given
from viqeshor.lab.older import read_heard
from viqeshor.lab.topology import Link, Port, Router
from viqeshor.lab.wishes import NOTHING

if TYPE_CHECKING:
    from viqeshor.lab.hosts import Host
    from viqeshor.lab.network import Network
    from viqeshor.lab.story import Step

# The keys of a router that aren't options of it.
OWN_KEYS = ("name", "iface", "routes", "rps")


def text_of(path: Path) -> str:
    """The text of a scenario file with all packets in hexadecimal; a Mistake with all that is wrong in it."""
    try:
        text = written.plain(path.read_text("utf-8"))
    except OSError as error:
        raise Mistake(f"{path} can't be read: {error.strerror}") from None
    except UnicodeDecodeError:
        raise Mistake(f"{path} is no scenario: it isn't UTF-8") from None
    except written.Wrong as wrong:
        raise Mistake(f"{path}:{wrong.line}: {wrong}") from None
    faults = faults_of(text)[0].faults
    if faults:
        raise Mistake("\n".join(f"{path}:{it.line}: {it.where + ': ' if it.where else ''}{it.what}" for it in faults))
    return text


def network_of(net: Network, path: str | Path, until: float | None) -> Network:
    """Makes an empty network that of a scenario file."""
    text = text_of(Path(path))
    read = scenario.scenario_of(toml_lines.plain(toml_lines.read(text)))
    for name, subnet in read.links().items():
        net.links[name] = Link(name, subnet, 10, 0.0, net)
    for router in read.routers:
        options = {key: value for key, value in router.table.items() if key not in OWN_KEYS}
        net.routers[router.name] = Router(router.name, options, net)
        put_ports(net.routers[router.name], router.table)
        put_routes(net.routers[router.name], router.table.get("routes", []))
    moves = list(moves_until(read.moves, until))
    net.script = Script(net, Path(path).name, moves)
    net.script.put_hosts(read, scenario.hosts_in(text))
    net.begin([router.table for router in read.routers], moves)
    return net


def moves_until(moves: list[dict[str, Any]], until: float | None) -> Iterator[dict[str, Any]]:
    """The moves before the first that lets time pass beyond so many seconds."""
    end = None if until is None else ms_given(until, "number of seconds")
    for move in moves:
        if end is not None and move.get("moment", 0) > end:
            return
        yield move


def put_ports(router: Router, table: dict[str, Any], there: dict[int, int] | None = None) -> None:
    """Gives a router the interfaces of a configuration. Those that are up stay so, and have these numbers then."""
    links, were = router.net.links, {(there or {}).get(port.number) for port in router.ports if port.is_working}
    for port in router.ports:
        port.link.ports.remove(port)
    router.ports.clear()
    for number, row in enumerate(table["iface"]):
        own, link = IPv4Interface(row["address"]), links[row["link"]]
        options = {key: value for key, value in row.items() if key not in ("link", "address")}
        port = Port(router, number, link, str(own.ip), options, number in were, own.network.prefixlen)
        router.ports.append(port)
        link.ports.append(port)


def put_routes(router: Router, texts: list[str]) -> None:
    """Gives a router these routes, and no others."""
    router.net.fixed[router] = tuple(texts)
    router.net.alone.add(router)


class Script:
    """The moves of a file that are still to be played, and the hosts that speak in them."""

    def __init__(self, net: Network, name: str, moves: list[dict[str, Any]]) -> None:
        self.net, self.name, self.moves = net, name, deque(moves)
        self.hosts: dict[str, Host] = {}
        self.is_over = False
        # The data that the hosts of a link have heard already: a move brings it to each router there.
        self.heard: set[tuple[int, str, str]] = set()

    def put_hosts(self, read: scenario.Scenario, names: dict[str, str]) -> None:
        """Makes the hosts: whoever sends reports or data from an address that no router has."""
        for move in read.moves:
            packet = said_by_host(move)
            link = packet and read.router(move["router"]).link(move["iface"])
            if link and packet.source not in read.owners and packet.source not in self.hosts:
                name = names.get(packet.source, packet.source)
                host = self.net.HOST(name, self.net.links[link], packet.source, self.net, answers=False)
                self.hosts[packet.source] = self.net.hosts[name] = host
                host.link.hosts.append(host)

    # ---- played

    def play(self, end: float) -> None:
        """Plays the moves up to a moment. Where none is left the hosts go on by themselves."""
        net = self.net
        while self.moves and self.moves[0].get("moment", 0) <= end:
            move = self.moves.popleft()
            steps = net.player.play_move(move)
            net.present = max([net.present, *net.player.clocks.values()])
            net.came(steps, net.present)
            for step in steps if move["do"] != "settle" else ():
                self.follow(step)
        if self.moves:
            net.stepped = end
        elif not self.is_over:
            self.is_over, net.stepped, net.traffic.read = True, net.present, net.player.teller.present
            for host in self.hosts.values():
                host.answers = True

    def follow(self, step: Step) -> None:
        """Keeps what a move changes of the network."""
        router, did = self.net.routers[step.router], step.did
        if did["do"] == "frame":
            self.hear(step)
        elif step.verdict == "done" and did["do"] in ("up", "down"):
            router.ports[did["iface"]].is_working = did["do"] == "up"
        elif step.verdict == "done" and did["do"] == "routes":
            put_routes(router, did["list"])
        elif step.verdict == "done" and did["do"] == "reload":
            put_ports(router, did["config"], scenario.numbers_after(did))
            put_routes(router, did["config"].get("routes", []))

    def hear(self, step: Step) -> None:
        """What a host said: what it wants from then on, and its data, which other hosts of its link hear too."""
        packet = said_by_host(step.did)
        host = packet and self.hosts.get(packet.source)
        if host is None:
            return
        if isinstance(packet.body, packets.Report):
            self.wish(host, packet.body, step)
            return
        key = step.moment, host.link.name, step.did["hex"]
        for other in host.link.hosts if key not in self.heard else ():
            if other is not host:
                other.take(self.net.present, packet, ())
        self.heard.add(key)

    @staticmethod
    def wish(host: Host, report: packets.Report, step: Step) -> None:
        """What a host wants after a report of it."""
        message = wishes.igmp_of(step.taken())
        older = wishes.older_wish(message)
        host.igmp = wishes.OLDER[message[0]] if older else 3
        for record in report.records:
            group, wish = older or (record.group, wishes.after(host.wish(record.group), record))
            host.wishes[group] = wish
            if wish == NOTHING:
                del host.wishes[group]


def said_by_host(move: dict[str, Any]) -> packets.Packet | None:
    """The report or the data that a move brings from a link, None of any other."""
    if move["do"] != "frame":
        return None
    try:
        packet = read_heard(bytes.fromhex(move["hex"]))
    except packets.Refused:
        return None
    is_host = isinstance(packet.body, (packets.Report, packets.Data)) and packet.source != packets.dotted(bytes(4))
    return packet if is_host and packet.protocol != packets.PIM else None
