"""A triangle: the first packet comes by the RP, later ones straight from the source's router, unless that is switched
off.
"""
from __future__ import annotations

from typing import TYPE_CHECKING

from lab import Network
from viqeshor.lab.packets import Register, RegisterStop

if TYPE_CHECKING:
    from lab import Host


def triangle(spt: str) -> tuple[Network, Host, Host]:
    net = Network()
    net.router("last", spt=spt)
    net.link("first", "rp")
    net.link("rp", "last")
    net.link("first", "last")
    net.rp("rp")
    camera, viewer = net.host("camera", "first"), net.host("viewer", "last")
    net.run(10)
    viewer.join("239.1.1.1")
    net.run(2)
    camera.stream("239.1.1.1", times=5)
    net.run(10)
    assert viewer.payloads() == [b"1", b"2", b"3", b"4", b"5"]
    assert viewer.received[0].path == ("first", "rp", "last")
    return net, camera, viewer


net, camera, viewer = triangle("always")
assert viewer.received[-1].path == ("first", "last")
assert net.tree("239.1.1.1", camera).path(viewer) == ["first", "last"]
assert net.packets(Register) and net.packets(RegisterStop)

net, camera, viewer = triangle("never")
assert viewer.received[-1].path == ("first", "rp", "last")
