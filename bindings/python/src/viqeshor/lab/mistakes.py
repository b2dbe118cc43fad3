"""What somebody who builds a network gets wrong, in sentences."""
from __future__ import annotations

import math
from collections.abc import Iterable, Sequence
from difflib import get_close_matches
from ipaddress import AddressValueError, IPv4Network, NetmaskValueError
from typing import TYPE_CHECKING, NoReturn, TypeVar

from viqeshor.lab import packets, printed
from viqeshor.lab.addresses import address_in, is_group, is_host

if TYPE_CHECKING:
    from viqeshor.lab.hosts import Host

    N = TypeVar("N", int, float)

T = TypeVar("T")
TABLES = list(printed.ROWS.values())
LINK_LOCAL = IPv4Network("224.0.0.0/24")
KINDS = [
    packets.Hello, packets.Register, packets.RegisterStop, packets.JoinPrune, packets.Assert, packets.Query,
        packets.Report,
    packets.Data,
]


# The most bytes of a packet on a link that are left for the payload of data, by the headers of IP and UDP.
MOST_PAYLOAD = 1500 - 28


class Mistake(ValueError):
    """A sentence on what is wrong with a call."""


class Named(dict[str, T]):
    """Routers, links or hosts by their names; `kind` is what one of them is called."""

    def __init__(self, kind: str) -> None:
        super().__init__()
        self.kind = kind

    def __missing__(self, name: str) -> NoReturn:
        raise Mistake(f"there is no {self.kind} {name}{near(name, list(self))}")


def near(word: object, known: Sequence[str]) -> str:
    """What a word was probably to be, in words."""
    found = get_close_matches(str(word), known, 1, 0.6)
    return f"; is {found[0]} meant?" if found else f": there is {', '.join(known) or 'none'}"


def shown(value: object) -> str:
    """A value as a sentence names it."""
    named = getattr(value, "name", None)
    return f"the {type(value).__name__.lower()} {named}" if isinstance(named, str) else repr(value)


def is_known_key(key: str, known: Sequence[str], whose: str) -> None:
    if key not in known:
        raise Mistake(f"{key} is no setting of {whose}{near(key, known)}")


def group_given(group: str) -> str:
    """A group's address, or a sentence."""
    address = address_in(group) if isinstance(group, str) else None
    if address is None or not is_group(address):
        raise Mistake(
            f"{shown(group)} is no group: it is an address from 224.0.0.0 to 239.255.255.255, as \"239.1.1.1\"")
    if packets.octets(group)[:3] == LINK_LOCAL.network_address.packed[:3]:
        raise Mistake(f"{group} is in {LINK_LOCAL}, and no router forwards its packets")
    return group


def source_given(source: Host | str) -> str:
    """The address of a source, which may be told by its host, or a sentence."""
    text = getattr(source, "address", source)
    address = address_in(text) if isinstance(text, str) else None
    if address is None or not is_host(address):
        raise Mistake(f"{shown(source)} is no source: it is a host, or the address of one, as \"10.0.1.101\"")
    return text


def host_given(address: str) -> str:
    """An address that a host or a router may have, or a sentence."""
    number = address_in(address) if isinstance(address, str) else None
    if number is None or not is_host(number):
        raise Mistake(f"{shown(address)} is no address of a host or a router: it is one as \"10.0.1.1\"")
    return address


def length_given(length: int) -> int:
    return number_given(length, "length of a subnet", 1, 31, is_whole=True)


def subnet_given(subnet: str) -> IPv4Network:
    try:
        return IPv4Network(subnet)
    except (AddressValueError, NetmaskValueError, ValueError, TypeError) as wrong:
        raise Mistake(f"the subnet {subnet!r} is none: {wrong}; wanted is one as \"10.0.1.0/24\"") from None


def number_given(value: N, what: str, least: float = 0, most: float = math.inf, is_whole: bool = False) -> N:
    """A number that lies between two others, or a sentence."""
    kind, wanted = (int, "a whole number") if is_whole else ((int, float), "a number")
    if not isinstance(value, kind) or isinstance(value, bool) or not least <= value <= most:
        ends = f"from {least} on" if most == math.inf else f"from {least} to {most}"
        raise Mistake(f"{shown(value)} is no {what}: it is {wanted} {ends}")
    return value


def share_given(value: float, what: str) -> float:
    """A part of all packets, or a sentence."""
    return number_given(value, f"share of the packets that {what}", 0, 1)


def ms_given(seconds: float, what: str, least: float = 0) -> int:
    """Seconds as ms, or a sentence."""
    return round(1000 * number_given(seconds, what, least))


def delay_given(delay: tuple[float, float]) -> tuple[int, int]:
    """The least and the most ms of two numbers of seconds, or a sentence."""
    if not isinstance(delay, (tuple, list)) or len(delay) != 2:
        raise Mistake(f"{shown(delay)} is no delay: it is the least and the most seconds, as (0.01, 0.05)")
    least, most = (ms_given(seconds, "number of seconds") for seconds in delay)
    if least > most:
        raise Mistake(
            f"the delay {delay!r} begins with the longer one: it is the least and the most seconds, as (0.01, 0.05)")
    return least, most


def payload_given(payload: bytes) -> bytes:
    """The bytes of a packet of data, or a sentence."""
    if not isinstance(payload, (bytes, bytearray)):
        raise Mistake(f"{shown(payload)} is no payload: it is bytes, as b\"one\"")
    if len(payload) > MOST_PAYLOAD:
        raise Mistake(f"a payload of {len(payload)} bytes is too long: a packet takes {MOST_PAYLOAD}")
    return bytes(payload)


def address_given(subnet: IPv4Network, place: int, who: str) -> str:
    """The address of a router or host by its place in the subnet of its link, or a sentence."""
    if place >= subnet.num_addresses - 1:
        raise Mistake(f"the subnet {subnet} is too small: {who} would have its address {place}")
    return str(subnet[place])


def one_of(kind: type, known: Sequence[type], what: str) -> None:
    """A sentence where a class is none of these; a name of one in its place is told so."""
    if kind not in known:
        name = getattr(kind, "__name__", kind)
        names = [each.__name__ for each in known]
        if isinstance(kind, str) and kind in names:
            raise Mistake(f"{kind!r} is no {what}: it is the class of this name, without quotes")
        raise Mistake(f"{name if isinstance(kind, type) else repr(kind)} is no {what}{near(name, names)}")


def table_given(kind: type | str, values: Iterable[str]) -> type:
    """A table of a router, which may be told by its letter, with the columns that are asked of it, or a sentence."""
    kind = printed.ROWS.get(kind, kind) if isinstance(kind, str) else kind
    one_of(kind, TABLES, "table of a router")
    for column in values:
        if column not in kind._fields:
            raise Mistake(f"{kind.__name__} has no column {column}{near(column, kind._fields)}")
    return kind


def kind_given(kind: type | None) -> None:
    """A kind of packet, None for all, or a sentence."""
    if kind is not None:
        one_of(kind, KINDS, "kind of packet")
