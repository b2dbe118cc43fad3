"""A small network for tests: a source, three routers in a row with the RP in the middle, and a host."""
from copy import deepcopy

from viqeshor.lab import packets, scenario
from viqeshor.lab.packets import Record

GROUP, SOURCE, HOST, RP = "239.1.1.1", "10.7.0.50", "10.8.0.77", "10.0.1.2"
SSM = "232.1.1.1"
TO_EX, ALLOW = 4, 5


def router(name, interfaces, *routes, **more):
    iface = [{"link": link, "address": address} for link, address in interfaces]
    return {"name": name, "iface": iface, "routes": list(routes), "rps": [f"239.0.0.0/8 {RP}"], **more}


ROUTERS = [
    router("west", [("studio", "10.7.0.1/24"), ("west-hub", "10.0.1.1/24")], "10.0.2.0/24 10.0.1.2 1 110 10"),
    router("hub", [("west-hub", "10.0.1.2/24"), ("hub-east", "10.0.2.2/24")], "10.7.0.0/24 10.0.1.1 0 110 10"),
    router("east", [("hub-east", "10.0.2.3/24"), ("home", "10.8.0.1/24")],
           "10.0.1.0/24 10.0.2.2 0 110 10", "10.7.0.0/24 10.0.2.2 0 110 20"),
]
SETTLE = {"do": "settle"}


def began(routers):
    """All interfaces go up, and Hellos are exchanged."""
    ups = [(made["name"], number) for made in routers for number in range(len(made["iface"]))]
    yield from ({"do": "up", "router": name, "iface": number, "draw": at} for at, (name, number) in enumerate(ups))
    yield from ({"do": "advance", "router": made["name"], "moment": 5000} for made in routers)
    yield SETTLE


def report(kind, group, *sources, router="east", iface=1, host=HOST):
    data = packets.write_report(host, [Record(kind, group, sources)])
    return {"do": "frame", "router": router, "iface": iface, "hex": data.hex()}


def data(group=GROUP, source=SOURCE, router="west", iface=0):
    return {"do": "frame", "router": router, "iface": iface, "hex": packets.write_data(source, group, b"hello").hex()}


class Network:
    """What a test changes: the routers' tables, and what hosts do after the beginning, each followed by a settle."""

    def __init__(self, *said):
        self.routers = deepcopy(ROUTERS)
        self.said = list(said or (report(TO_EX, GROUP), data()))

    def router(self, name):
        return next(made for made in self.routers if made["name"] == name)

    def moves(self):
        return [*began(self.routers), *(move for each in self.said for move in (each, SETTLE))]

    def text(self):
        """The file: each router and each move stands on a line of its own."""
        return scenario.text_of(self.routers, self.moves())

    def line(self, name):
        """The line of a router."""
        return 2 + self.routers.index(self.router(name))

    def said_line(self, at):
        """The line of what a host does."""
        return len(self.routers) + 5 + len(list(began(self.routers))) + 2 * at
