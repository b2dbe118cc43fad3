"""Source-specific multicast: no RP, and a viewer gets the source that it asked for, and no other one."""
from lab import Network
from viqeshor.lab.packets import Register

net = Network()
net.line("r1", "r2", "r3", "r4")
wanted, other = net.host("wanted", "r1"), net.host("other", "r2")
viewer = net.host("viewer", "r4")
net.run(10)

viewer.join("232.1.1.1", wanted.address)
net.run(3)
assert net.tree("232.1.1.1", wanted).path(viewer) == ["r1", "r2", "r3", "r4"]
assert not net.tree("232.1.1.1", other)
wanted.stream("232.1.1.1", times=3)
other.stream("232.1.1.1", times=3)
net.run(5)
assert [packet.source for packet in viewer.received] == [wanted.address] * 3
assert not net.packets(Register)

viewer.join("232.1.1.1", other.address)
viewer.leave("232.1.1.1", wanted.address)
net.run(5)
other.send("232.1.1.1", b"changed")
net.run(1)
assert viewer.payloads()[-1] == b"changed"
assert not net.tree("232.1.1.1", wanted)
