"""A square: the link on the way to the RP fails, and the tree goes round it; it comes again, and the tree comes
back.
"""
from lab import Network

net = Network()
short = net.link("r1", "r2")
net.link("r2", "r3")
net.link("r1", "r4", cost=20)
net.link("r4", "r3", cost=20)
net.rp("r1")
camera, viewer = net.host("camera", "r1"), net.host("viewer", "r3")
net.run(10)
viewer.join("239.1.1.1")
net.run(5)
assert net.tree("239.1.1.1").path(viewer) == ["r1", "r2", "r3"]

short.down()
net.run(10)
assert net.tree("239.1.1.1").path(viewer) == ["r1", "r4", "r3"]
camera.send("239.1.1.1", b"round")
net.run(5)

short.up()
net.run(40)
assert net.tree("239.1.1.1").path(viewer) == ["r1", "r2", "r3"]
camera.send("239.1.1.1", b"straight")
net.run(5)
assert viewer.payloads() == [b"round", b"straight"]
assert [len(packet.path) for packet in viewer.received] == [3, 3]
