"""Where a stream ends and why: one reason, which is checked, with what it concerns."""
from dataclasses import dataclass

# What an end may be.
KINDS = {
    "down": "no router has an interface on the host's link that is up",
    "dead dr": "who is taken for the link's DR has no interface there that is up",
    "unwanted": "the link's DR knows of no host that wants the packets",
    "assert": "the router lost an assert",
    "no rp": "a router has no RP for the group",
    "rp disagrees": "the router to which the group is registered or joined isn't the RP to itself",
    "no route": "a router has no route to the RP or the source",
    "interface down": "the interface of the route is down",
    "no neighbour": "the next hop is no PIM neighbour",
    "no owner": "no router has the address",
    "circle": "the Joins run in a circle",
    "refused": "a router refused or ignored the packet",
    "stranger": "the source is on no link of its first router",
    "not the source's dr": "no router that took the packet is the DR of the source's link",
    "ttl": "the TTL was used up",
    "lost": "a copy or a Register came to nobody",
    "registers stopped": "the Registers are stopped",
    "no join": "no Join of the router below is there",
    "pruned": "the source is pruned",
    "excluded": "hosts exclude the source",
    "rpf": "the packet came on another interface than the tree's",
}


@dataclass(frozen=True)
class End:
    """`kind` is one of KINDS; `router` where it is, `link` on which link, `address` of whom (an RP, a source, a next
    hop, a DR), and `cause` the number or reason of a refusal."""
    kind: str
    text: str
    router: str | None = None
    link: str | None = None
    address: str | None = None
    cause: str | None = None
