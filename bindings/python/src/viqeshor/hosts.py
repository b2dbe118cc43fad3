"""Packets of hosts: reports by which they ask for groups, of IGMPv3 or of an older version, and data by UDP. Each is a
whole IPv4 packet, with its checksums."""
from collections.abc import Iterable
from enum import IntEnum
from typing import NamedTuple

from viqeshor.lab import packets


class Kind(IntEnum):
    """What a record says of its sources (RFC 3376, 4.2.12)."""
    IS_IN = 1
    IS_EX = 2
    TO_IN = 3
    TO_EX = 4
    ALLOW = 5
    BLOCK = 6


class Record(NamedTuple):
    """Of a group: the sources that a host wants, or all but these."""
    kind: Kind
    group: str
    sources: tuple[str, ...] = ()


def report(host: str, records: Iterable[Record]) -> bytes:
    """What a host tells its routers of the groups that it wants."""
    return packets.write_report(host, list(records), packets.ROUTING)


def join(host: str, group: str, *sources: str) -> bytes:
    """A host begins to want a group, of any source or of these alone."""
    return report(host, [Record(Kind.ALLOW, group, sources) if sources else Record(Kind.TO_EX, group)])


def leave(host: str, group: str, *sources: str) -> bytes:
    """A host wants a group no more, of any source or of these."""
    return report(host, [Record(Kind.BLOCK, group, sources) if sources else Record(Kind.TO_IN, group)])


def older_join(host: str, group: str, version: int = 2) -> bytes:
    """A host of IGMPv1 or IGMPv2 wants a group. In version 1 there is no Router Alert."""
    return packets.write_older(host, group, version)


def older_leave(host: str, group: str) -> bytes:
    """A host of IGMPv2 wants a group no more."""
    return packets.write_older(host, group, is_leave=True)


def data(source: str, group: str, payload: bytes = b"", ttl: int = 16, port: int = 5000) -> bytes:
    """A packet of data by UDP."""
    return packets.write_data(source, group, payload, ttl, port)
