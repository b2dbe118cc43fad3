"""Addresses, prefixes, routes, RP ranges and candidate RPs as a scenario writes them: all tools read them here.

A text is read as the program reads it: decimal numbers without leading zeros in an address, any zeros before other
numbers, numbers below 2^32, and between the words of a route what Unicode calls white space.
"""
from __future__ import annotations

import functools
import ipaddress
import re
from collections.abc import Iterable, Iterator, Sequence
from dataclasses import dataclass
from ipaddress import IPv4Address, IPv4Network
from typing import TypeVar

T = TypeVar("T")

BELOW = 2**32
MULTICAST, LAST_GROUP = 0xE000_0000, 0xEFFF_FFFF
SOURCE_SPECIFIC = IPv4Network("232.0.0.0/8")
ADDRESS = re.compile(r"(?:0|[1-9][0-9]{0,2})(?:\.(?:0|[1-9][0-9]{0,2})){3}\Z")
WHITE_SPACE = re.compile("[\t-\r \x85\xa0\u1680\u2000-\u200a\u2028\u2029\u202f\u205f\u3000]+")


def words_in(text: str) -> list[str]:
    """The words of a route, a range or a candidate."""
    return [word for word in WHITE_SPACE.split(text) if word]


def number_in(text: str) -> int | None:
    """Decimal digits without a sign, below 2^32; None of any other text."""
    return int(text) if re.fullmatch("[0-9]+", text) and int(text) < BELOW else None


def address_in(text: str) -> int | None:
    """An address as a number; None of any other text."""
    if not ADDRESS.match(text):
        return None
    parts = [int(part) for part in text.split(".")]
    return int.from_bytes(bytes(parts), "big") if max(parts) < 256 else None


def prefix_in(text: str) -> tuple[int, int] | None:
    """An address and a length, or None. A length is any number below 2^32 here."""
    head, slash, tail = text.partition("/")
    address, length = address_in(head), number_in(tail)
    return (address, length) if slash and address is not None and length is not None else None


def dotted(number: int) -> str:
    return ".".join(map(str, number.to_bytes(4, "big")))


def is_host(address: int) -> bool:
    """Not 0.0.0.0, and below 224.0.0.0."""
    return 0 < address < MULTICAST


def is_group(address: int) -> bool:
    return MULTICAST <= address <= LAST_GROUP


ip_address = functools.cache(ipaddress.ip_address)


def is_source_specific(group: str) -> bool:
    return ip_address(group) in SOURCE_SPECIFIC


def mask(length: int) -> int:
    return (BELOW - 1) << (32 - length) & (BELOW - 1)


# ---- routes, ranges and candidates of a scenario


def route_words(text: str) -> tuple[str | int, ...]:
    """The parts of a route: prefix and next hop as they are written, interface, preference and metric."""
    prefix, hop, *numbers = words_in(text)
    return prefix, hop, *map(int, numbers)


def range_words(text: str) -> tuple[str, str]:
    """The parts of an RP range as they are written: prefix and RP."""
    prefix, rp = words_in(text)
    return prefix, rp


def candidate_words(text: str) -> tuple[str, str, int, int]:
    """The parts of a candidate RP: prefix and RP as they are written, priority, and the bits of its hash mask."""
    prefix, rp, priority, hash_length = words_in(text)
    return prefix, rp, int(priority), int(hash_length)


@dataclass(frozen=True)
class Route:
    prefix: IPv4Network
    next_hop: str
    iface: int
    preference: int = 0
    metric: int = 0


class Routes(Sequence):
    """Routes that are read once somebody looks at them: a network of 1,000 routers has a million."""

    def __init__(self, texts: Sequence[str]) -> None:
        self.texts = texts

    @functools.cached_property
    def all(self) -> list[Route]:
        return [Route(network_of(prefix), *rest) for prefix, *rest in map(route_words, self.texts)]

    def __len__(self) -> int:
        return len(self.texts)

    def __getitem__(self, place: int) -> Route:
        return self.all[place]

    def __iter__(self) -> Iterator[Route]:
        return iter(self.all)

    def __eq__(self, other: object) -> bool:
        return isinstance(other, Sequence) and self.all == list(other)

    __hash__ = None


network_of = functools.lru_cache(maxsize=65536)(IPv4Network)


def routes_of(texts: Sequence[str]) -> Routes:
    """Routes that the program has taken."""
    return Routes(texts)


def ranges_of(texts: Iterable[str]) -> list[tuple[IPv4Network, str]]:
    """RP ranges that the program has taken: pairs of a prefix and an address."""
    return [(IPv4Network(prefix), rp) for prefix, rp in map(range_words, texts)]


def longest(pairs: Iterable[tuple[IPv4Network, T]], address: IPv4Address) -> T | None:
    """The value of the longest prefix with the address, the first of equal ones, or None."""
    found = [(prefix.prefixlen, value) for prefix, value in pairs if address in prefix]
    return max(found, key=lambda pair: pair[0])[1] if found else None
