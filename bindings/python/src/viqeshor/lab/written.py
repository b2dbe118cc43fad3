"""Packets of hosts that a scenario has as words in place of hexadecimal, for all tools; `tools/plain` writes them out
for `pimlab`, and `worded` goes the other way.

    hex = "igmp v3 239.1.1.1 join from 10.8.0.77"       also leave; include, exclude, allow or block and sources
    hex = "igmp v2 239.1.1.1 join from 10.8.0.77"       also leave; v1 has join alone
    hex = "data 239.1.1.1 from 10.7.0.50 port 5004 ttl 16 hello"
"""
from __future__ import annotations

import re
from collections.abc import Callable
from difflib import get_close_matches

from viqeshor.lab import packets
from viqeshor.lab.addresses import address_in, is_group, is_host

# A key `hex` with a text that begins with a word, by which packets are told from hexadecimal.
KEY = re.compile(r"""(\bhex\s*=\s*)(["'])((?:igmp|data)\b[^"'\n]*)\2""")
HEX = re.compile(r'(\bhex\s*=\s*")([0-9a-f]+)(?=")')
# What a host says by IGMPv3: the kind of its record, and whether sources are named.
SAID = {"join": (4, False), "leave": (3, False), "include": (3, True), "exclude": (4, True), "allow": (5, True),
        "block": (6, True)}
# A host that has no address yet (RFC 3376, 4.2.13).
NOBODY = "0.0.0.0"
NUMBERS = {"port": 65535, "ttl": 255}


class Wrong(Exception):
    """Words that are no packet; the text says why, `line` where they stand."""
    line = 0


def group_of(word: str) -> str:
    if not is_group(address_in(word) or 0):
        raise Wrong(f"`{word}` is no group: it is an address from 224.0.0.0 to 239.255.255.255")
    return word


def host_of(word: str) -> str:
    if not is_host(address_in(word) or 0):
        raise Wrong(f"`{word}` is no address of a host or a source")
    return word


def known(word: str, words: list[str]) -> str:
    if word not in words:
        near = get_close_matches(word, words, 1, 0.6)
        raise Wrong(f"`{word}` isn't one of {', '.join(words)}" + (f"; is {near[0]} meant?" if near else ""))
    return word


def sender_of(words: list[str], usual: str | None) -> tuple[list[str], str]:
    """The words without `from HOST`, and the host."""
    if "from" not in words:
        if usual is None:
            raise Wrong("who sends it is missing: from and an address")
        return words, usual
    at = words.index("from")
    if at + 1 == len(words):
        raise Wrong("an address is missing behind `from`")
    return words[:at] + words[at + 2:], host_of(words[at + 1])


def igmp(words: list[str]) -> bytes:
    if len(words) < 3:
        raise Wrong("it is written as: igmp v3 239.1.1.1 join from 10.8.0.77")
    (version, group, said, *sources), host = sender_of(words, NOBODY)
    version = known(version, ["v1", "v2", "v3"])
    if version != "v3":
        known(said, ["join", "leave"] if version == "v2" else ["join"])
        return packets.write_older(host, group_of(group), int(version[1]), said == "leave")
    kind, has_sources = SAID[known(said, list(SAID))]
    if sources and not has_sources:
        raise Wrong(f"`{said}` has no sources: name them with include, exclude, allow or block")
    return packets.write_report(host, [packets.Record(kind, group_of(group), tuple(map(host_of, sources)))])


def data(words: list[str]) -> bytes:
    if not words:
        raise Wrong("it is written as: data 239.1.1.1 from 10.7.0.50 hello")
    (group, *rest), source = sender_of(words, None)
    numbers = {"port": 5000, "ttl": 16}
    while len(rest) > 1 and rest[0] in NUMBERS:
        name, number, *rest = rest
        if not number.isdigit() or int(number) > NUMBERS[name]:
            raise Wrong(f"`{number}` is no {name}: it is a number up to {NUMBERS[name]}")
        numbers[name] = int(number)
    return packets.write_data(source, group_of(group), " ".join(rest).encode(), **numbers)


FORMS: dict[str, Callable[[list[str]], bytes]] = {"igmp": igmp, "data": data}


def packet_of(text: str) -> bytes:
    """The packet that some words say."""
    first, *rest = text.split()
    return FORMS[first](rest)


def plain(text: str) -> str:
    """A scenario with all packets in hexadecimal, line by line as it was. Raises Wrong."""
    def hexed(found: re.Match) -> str:
        try:
            return f"{found[1]}{found[2]}{packet_of(found[3]).hex()}{found[2]}"
        except Wrong as wrong:
            wrong.line = text.count("\n", 0, found.start()) + 1
            raise
    return KEY.sub(hexed, text)


def words_of(packet: bytes) -> str | None:
    """The words that say a packet; None where none say all of it."""
    try:
        read = packets.read(packet)
        said = said_by(read.source, read.destination, read.ttl, read.body)
        is_whole = KEY.fullmatch(f'hex = "{said}"') and packet_of(said) == packet
    except (packets.Refused, Wrong, ValueError):
        return None
    return said if is_whole else None


def said_by(source: str, destination: str, ttl: int, body: object) -> str:
    if isinstance(body, packets.Data):
        told = body.payload.decode()
        return f"data {destination} from {source} port {body.destination_port} ttl {ttl} {told}".rstrip()
    (record,) = body.records if isinstance(body, packets.Report) else ()
    names = [name for name, means in SAID.items() if means == (record.kind, bool(record.sources))]
    return " ".join(["igmp v3", record.group, *names, *record.sources, "from", source])


def worded(text: str) -> str:
    """A scenario with the packets of hosts as words, where words say them."""
    return HEX.sub(lambda found: found[1] + (words_of(bytes.fromhex(found[2])) or found[2]), text)
