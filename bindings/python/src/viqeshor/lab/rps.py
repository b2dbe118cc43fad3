"""Which RP a group has, of RP ranges and candidate RPs: by RFC 7761, sections 4.7.1 and 4.7.2, alone."""
from __future__ import annotations

from collections.abc import Callable, Iterable
from ipaddress import IPv4Address, IPv4Network
from typing import NamedTuple

from viqeshor.lab.addresses import candidate_words, is_source_specific


class Candidate(NamedTuple):
    """An RP of a range of groups, which may have several: the lower priority is preferred, and the hash function's mask
    has so many bits."""
    prefix: IPv4Network
    rp: str
    priority: int
    hash_length: int


def candidates_of(texts: Iterable[str]) -> list[Candidate]:
    """Candidate RPs that the program has taken."""
    return [Candidate(IPv4Network(prefix), *rest) for prefix, *rest in map(candidate_words, texts)]


def hashed(length: int, group: IPv4Address, rp: str) -> int:
    """Value(G,M,C(i)) of 4.7.2, with a mask M of so many bits."""
    masked = int(group) & (0xFFFFFFFF << (32 - length))
    return (1103515245 * ((1103515245 * masked + 12345) ^ int(IPv4Address(rp))) + 12345) % 2 ** 31


def chosen(candidates: Iterable[Candidate], group: str) -> Candidate | None:
    """The candidate of a group: of those whose prefix contains it those of the longest prefix (4.7.1, step 1), of these
    those of the highest priority, which is the lowest number (step 2), of these that of the greatest value of the hash
    function (step 4), and of equal values that of the highest address (4.7.2)."""
    address = IPv4Address(group)
    left = [it for it in candidates if address in it.prefix]
    steps: list[Callable[[Candidate], int]] = [
        lambda it: it.prefix.prefixlen,
        lambda it: -it.priority,
        lambda it: hashed(it.hash_length, address, it.rp),
        lambda it: int(IPv4Address(it.rp)),
    ]
    for step in steps:
        most = max(map(step, left), default=None)
        left = [it for it in left if step(it) == most]
    return left[0] if left else None


def rp_among(
    ranges: Iterable[tuple[IPv4Network, str]], candidates: Iterable[Candidate], group: str
) -> tuple[IPv4Network, str] | None:
    """RP(G) with its prefix; none of an SSM group (4.8.1). Of the range and the candidate of a group the longer prefix
    has the RP, and of one prefix the range (docs/COMPLIANCE.md)."""
    if is_source_specific(group):
        return None
    found = [(prefix, rp) for prefix, rp in ranges if IPv4Address(group) in prefix]
    if (one := chosen(candidates, group)) is not None:
        found.append((one.prefix, one.rp))
    return max(found, key=lambda pair: pair[0].prefixlen, default=None)
