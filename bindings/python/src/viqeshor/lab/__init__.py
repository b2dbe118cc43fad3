"""Networks of multicast routers in a few lines of Python, each a router of the library.

    from viqeshor.lab import Network

    net = Network()
    net.line("r1", "r2", "r3")                 # three routers, and the links r1-r2 and r2-r3
    net.rp("r2")                               # r2 is the RP of all groups
    camera = net.host("camera", "r1")          # a host on a link of its own at r1
    viewer = net.host("viewer", "r3")
    net.run(10)                                # ten seconds: interfaces come up, Hellos are exchanged
    viewer.join("239.1.1.1")
    net.run(5)
    camera.send("239.1.1.1", b"one")
    net.run(5)
    assert viewer.payloads() == [b"one"]
    assert net.tree("239.1.1.1").path(viewer) == ["r2", "r3"]

A scenario file is one too: `net = Network.read("network.toml")`, and `net.run_to(60)` plays its moves up to then. In a
notebook a network and a tree are pictures, and `net.table("N")`, the table of all neighbours, is a frame of pandas by
`.frame()`.

Unicast routes are computed by shortest path. Time passes for all routers together, in steps; after each step all that
was sent is delivered. With `loss`, `delay` or `reorder` the packets between routers suffer, by chance from `seed`: the
same network with the same seed does the same. Hosts speak IGMPv3, or an older version, and answer queries. Times that
you give are in seconds; times that you read are in ms, as in the tables. What is wrong with a call is a `Mistake`.
"""
from viqeshor.lab.hosts import Host, Received
from viqeshor.lab.mistakes import Mistake
from viqeshor.lab.network import Network
from viqeshor.lab.printed import (
    NEVER, Active, AssertState, Downstream, ElectedBsr, GroupRecord, LearnedRp, Neighbour, OlderHosts, SharedTree,
    SourceRecord, Upstream,
)
from viqeshor.lab.tables import Table
from viqeshor.lab.topology import Link, Port, Router
from viqeshor.lab.tree import Tree

__all__ = [
    "NEVER", "Active", "AssertState", "Downstream", "ElectedBsr", "GroupRecord", "Host", "LearnedRp", "Link", "Mistake",
    "Neighbour", "Network", "OlderHosts", "Port", "Received", "Router", "SharedTree", "SourceRecord", "Table", "Tree",
    "Upstream",
]
