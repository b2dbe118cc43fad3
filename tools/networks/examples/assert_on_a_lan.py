"""Two routers send onto one LAN: the first packet comes twice, then an Assert leaves it to the one with the better
route.
"""
from lab import AssertState, Network
from viqeshor.lab.packets import Assert

net = Network()
net.link("head", "left", cost=10)
net.link("head", "right", cost=20)
lan = net.link("left", "right", "attic", "shed", name="lan")
net.rp("head")
camera = net.host("camera", "head")
upstairs, outside = net.host("upstairs", "attic"), net.host("outside", "shed")
net.run(10)

# The routes of attic and shed to the source differ, so that each asks another router.
for name, hop in (("attic", "left"), ("shed", "right")):
    net.routes(name, f"{camera.link.subnet} {net.routers[hop].port(lan).address} 0 110 30")
upstairs.join("232.1.1.1", camera.address)
outside.join("232.1.1.1", camera.address)
net.run(5)
assert net.tree("232.1.1.1", camera).path(upstairs)[-2:] == ["left", "attic"]

camera.stream("232.1.1.1", times=5)
net.run(10)
assert lan.packets(Assert)
winners = {name: net.routers[name].rows(AssertState)[0].role for name in ("left", "right")}
assert winners == {"left": "winner", "right": "loser"}, winners
for viewer in (upstairs, outside):
    assert viewer.payloads() == [b"1", b"1", b"2", b"3", b"4", b"5"]
    assert {packet.path[1] for packet in viewer.received[:2]} == {"left", "right"}
    assert {packet.path[1] for packet in viewer.received[2:]} == {"left"}
