"""A ring of ten routers that loses a tenth of all packets: every receiver is served all the same.

A lost Hello is sent again after half a minute, a lost Join after a minute: once that has passed, the trees stand. What
is lost of the data itself is lost. It takes some seconds, for what is lost at one moment decides what happens at later
ones.
"""
from lab import Network

net = Network(seed=5, loss=0.1, step=5)
net.ring(*[f"r{number}" for number in range(10)])
net.rp("r5")
camera = net.host("camera", "r0")
viewers = [net.host(f"viewer{number}", f"r{number}") for number in range(1, 10)]
net.run(40)

for viewer in viewers:
    viewer.join("239.1.1.1")
net.run(70)
camera.stream("239.1.1.1", every=40, times=3)
net.run(125)

tree = net.tree("239.1.1.1", camera)
print(tree)
seen = {viewer: len(viewer.received) for viewer in viewers}
camera.stream("239.1.1.1", every=0.1, times=8)
net.run(1)
for viewer in viewers:
    last = viewer.received[seen[viewer]:]
    print(f"{viewer.name}: {len(last)} of the last 8 packets, by {' '.join(last[-1].path)}")
    assert len(last) >= 3 and all(list(packet.path) == tree.path(viewer) for packet in last)
