"""Three routers in a line with the RP in the middle: a viewer joins, a camera sends, and the viewer leaves."""
from lab import Network

net = Network()
net.line("r1", "r2", "r3")
net.rp("r2")
camera = net.host("camera", "r1")
viewer = net.host("viewer", "r3")
net.run(10)

viewer.join("239.1.1.1")
net.run(5)
print(net.tree("239.1.1.1"))
assert net.tree("239.1.1.1").path(viewer) == ["r2", "r3"]

camera.stream("239.1.1.1", every=1, times=5)
net.run(10)
print(net.tree("239.1.1.1", camera))
assert viewer.payloads() == [b"1", b"2", b"3", b"4", b"5"]

viewer.leave("239.1.1.1")
net.run(5)
camera.send("239.1.1.1", b"nobody wants it")
net.run(5)
assert len(viewer.received) == 5
assert not net.tree("239.1.1.1")
