"""Messages of hosts and routers of IGMPv1 and IGMPv2 (RFC 1112, appendix I; RFC 2236, section 2)."""
from __future__ import annotations

from dataclasses import dataclass

from viqeshor.lab import packets

QUERY = "query of IGMPv1 or IGMPv2"
NAMES = {0x11: QUERY, 0x12: "IGMPv1 report", 0x16: "IGMPv2 report", 0x17: "IGMPv2 Leave"}
SIZE = 8
# The types of the records that say the same: IS_EX and TO_IN.
RECORDS = {"IGMPv1 report": 2, "IGMPv2 report": 2, "IGMPv2 Leave": 3}
NO_GROUP = "0.0.0.0"


@dataclass(frozen=True)
class Older:
    """A message: `name` is one of NAMES."""
    source: str
    destination: str
    name: str
    group: str

    def __str__(self) -> str:
        whom = "all groups" if self.group == NO_GROUP else self.group
        return f"{self.source} > {self.destination}: {self.name} of {whom}"


def older_of(data: bytes) -> Older | None:
    """The older message that a packet on a link is, if its checksums are right."""
    try:
        head, message = packets.read_header(data, packets.MOST_IN_A_FRAME)
    except packets.Refused:
        return None
    if head["protocol"] != packets.IGMP or len(message) < SIZE or packets.sum16(message) != 0:
        return None
    name = NAMES.get(message[0])
    if name is None or (name == QUERY and len(message) != SIZE):
        return None
    return Older(head["source"], head["destination"], name, packets.dotted(message[4:8]))


def read_heard(data: bytes) -> packets.Packet:
    """A packet on a link as a router takes it that hears older hosts and routers: a report or a Leave as the report of
    IGMPv3 that says the same, a query as that of IGMPv3 with its response time. Raises Refused.
    """
    older = older_of(data)
    if older is None:
        return packets.read_on_link(data)
    head, message = packets.read_header(data, packets.MOST_IN_A_FRAME)
    if older.name == QUERY:
        return packets.Packet(**head, body=packets.Query(older.group, (), message[1], False, 0, 0))
    return packets.Packet(**head, body=packets.Report((packets.Record(RECORDS[older.name], older.group, ()),)))
