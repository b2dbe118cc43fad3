"""Two routers on the viewers' LAN: the one with the higher priority serves them, and when it falls silent the other one
does.
"""
from lab import Network

net = Network()
net.link("core", "east")
net.link("core", "west")
lan = net.link("east", "west", name="lan")
lan.configure("east", priority=10)
net.rp("core")
camera, viewer = net.host("camera", "core"), net.host("viewer", "lan")
net.run(10)
assert net.routers["west"].neighbours() == {"core", "east"}
viewer.join("239.1.1.1")
net.run(5)
camera.send("239.1.1.1", b"one")
net.run(5)
assert [packet.path for packet in viewer.received] == [("core", "east")]

net.routers["east"].stop()
net.run(120)
assert net.routers["west"].neighbours() == {"core"}
camera.send("239.1.1.1", b"two")
net.run(5)
assert [packet.path for packet in viewer.received] == [("core", "east"), ("core", "west")]
