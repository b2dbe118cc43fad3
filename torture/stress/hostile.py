"""Writes scenarios with hostile bytes, and the lines that they must print.

    torture/run hostile

Each, crates/test_scenarios/data/hostile_NAME.toml, is a stored scenario with packets before some of its own that must
change nothing; what comes after them must be as if they hadn't come:
- the packet itself, spoilt: cut at each byte, or with one length or count raised by one; each as it is, with the IP
  header mended, and with the message's checksum mended too. It must be refused, by the first test of its reading that
  fails. A spoilt packet that is lawful still (a Hello cut between two options) is left out.
- further messages in its place, with what the stored scenario has not (other options, two groups, two records,
  auxiliary data, sources), spoilt likewise, with their checksums mended.
- the packet itself, lawful, but to be ignored: from an address of the router, from one that said no Hello, or of a type
  that isn't used.

Which test fails, the readings of pimtext say, and for which reason a packet is ignored, is said here: both by the
formats and rules of RFC 791, RFC 7761 and RFC 3376, without the router's code.
"""
import tomllib
from argparse import ArgumentParser, Namespace
from collections.abc import Iterable, Iterator
from typing import Any

from stress.stored import STORED
from viqeshor.lab.packets import (
    ASSERT, HELLO, IGMP, JOIN_PRUNE, MOST_IN_A_FRAME, MOST_IN_A_UNICAST, PIM, REGISTER, REGISTER_STOP, octets, refusal,
    sum16, with_header_sum, with_number, word,
)

# The scenarios, and the moves whose messages are spoilt.
SPOILT = {
    "one_join": (4, 5),
    "a_new_generation": (7,),
    "a_lost_assert": (7,),
    "registers_at_the_rp": (8, 11),
    "a_register_stop": (7,),
    "a_host_wants_more": (9,),
    "another_querier": (6,),
}
# Further messages that are spoilt before a move, as what follows the IP header, checksums aside.
GROUPS = ("E1010101", "E1010102")
FURTHER = {
    # Hello: Holdtime, LAN Prune Delay, DR Priority, an unknown option, Generation ID
    ("a_new_generation", 7): ("20000000" "0001000200D2" "0002000401F409C4" "0013000400000005" "FDE90003ABCDEF"
                              "0014000400000003",),
    # Join/Prune: Join(*,G) with Prunes(S,G,rpt), and Join(S,H) with a Prune(S,H)
    ("one_join", 5): ("23000000" "01000A000101" "000200D2"
                      f"01000020{GROUPS[0]}" "00010002" "010007200A090909" "010005200A000302" "010005200A000303"
                      f"01000020{GROUPS[1]}" "00010001" "010004200A000302" "010004200A000303",),
    # Assert by (S,G)
    ("a_lost_assert", 7): ("25000000" f"01000020{GROUPS[0]}" "01000A000302" "0000000000000014",),
    # report: two records, and one with auxiliary data
    ("a_host_wants_more", 9): ("22000000" "00000002" f"04000000{GROUPS[1]}" f"01000002{GROUPS[0]}0A0002040A000205",
                               "22000000" "00000001" f"02020001{GROUPS[1]}0A0002040123456789ABCDEF"),
    # query of a group's sources
    ("another_querier", 6): (f"11640000{GROUPS[0]}033C0002" "0A0002040A000205",),
}
# An address of no neighbour, on any link.
STRANGER = bytes((10, 0, 77, 77))


# ---- spoilt packets

def header_of(data: bytes) -> int:
    return 4 * (data[0] & 15)


def with_header_mended(data: bytes) -> bytes:
    """With the right total length and header checksum, where there is a header."""
    header = header_of(data) if data else 0
    if not 20 <= header <= len(data):
        return data
    return with_header_sum(with_number(data, 2, len(data)))


def with_checksum_mended(data: bytes) -> bytes:
    """With the right checksum of the message too; that of a Register covers 8 bytes."""
    data = with_header_mended(data)
    header = header_of(data) if data else 0
    if not 20 <= header <= len(data) - 4:
        return data
    data = with_number(data, header + 2, 0)
    is_register = data[9] == PIM and data[header] & 15 == 1
    return with_number(data, header + 2, sum16(data[header:header + 8] if is_register else data[header:]))


def counts(data: bytes) -> Iterator[tuple[int, int]]:
    """The lengths and counts of a packet: where each stands, and in how many bytes."""
    header = header_of(data)
    yield from ((0, 1), (2, 2))
    if data[9] == IGMP:
        if data[header] == 0x11:
            yield header + 10, 2
        else:
            yield header + 6, 2
            place = header + 8
            while place < len(data):
                yield from ((place + 1, 1), (place + 2, 2))
                place += 8 + 4 * (data[place + 1] + word(data, place + 2))
        return
    kind = data[header] & 15
    if kind == 0:
        place = header + 4
        while place < len(data):
            yield place + 2, 2
            place += 4 + word(data, place + 2)
    elif kind == 1 and not data[header + 4] & 0x40:
        yield from ((header + 8, 1), (header + 10, 2))
    elif kind == 3:
        yield header + 11, 1
        place = header + 14
        while place < len(data):
            yield from ((place + 8, 2), (place + 10, 2))
            place += 12 + 8 * (word(data, place + 8) + word(data, place + 10))


def broken(data: bytes) -> Iterator[bytes]:
    """The packet cut at each byte, and with each length or count raised by one."""
    yield from (data[:length] for length in range(len(data)))
    for place, size in counts(data):
        number = int.from_bytes(data[place:place + size], "big")
        yield with_number(data, place, number + 1, size)


def spoilt(data: bytes, further: Iterable[str]) -> dict[bytes, None]:
    """The broken packet with nothing, the IP header, or all mended; then each further message in its place, broken
    after its IP header, with all mended."""
    packets = [mended(packet) for mended in (lambda packet: packet, with_header_mended, with_checksum_mended)
               for packet in broken(data)]
    for message in further:
        whole = with_checksum_mended(data[:header_of(data)] + bytes.fromhex(message))
        packets += [with_checksum_mended(packet) for packet in broken(whole) if len(packet) >= header_of(data)]
    return dict.fromkeys(packets)


# ---- packets that are ignored

def with_source(data: bytes, source: bytes) -> bytes:
    return with_header_mended(data[:12] + source + data[16:])


def with_type(data: bytes, kind: int) -> bytes:
    header = header_of(data)
    return with_checksum_mended(data[:header] + bytes([data[header] & 0xF0 | kind]) + data[header + 1:])


def ignored(data: bytes, move: dict[str, Any], own: list[bytes], neighbours: set[tuple[int, bytes]]) -> str | None:
    """For which reason a lawful packet of a neighbour's protocol is ignored, None where it isn't; no group of theirs is
    link-local or has another mask than 32."""
    source, destination, kind = data[12:16], data[16:20], data[header_of(data)] & 15
    if move["do"] == "unicast":
        return "NotForMe" if destination not in own or data[9] != PIM or kind not in (REGISTER, REGISTER_STOP) else None
    if source in own:
        return "Own"
    if data[9] == PIM and kind in (REGISTER, REGISTER_STOP):
        return "NotForMe"
    if data[9] == PIM and kind not in (HELLO, REGISTER, REGISTER_STOP, JOIN_PRUNE, ASSERT):
        return "OtherType"
    if data[9] == PIM and kind in (JOIN_PRUNE, ASSERT) and (move["iface"], source) not in neighbours:
        return "NoNeighbour"
    return None


def to_ignore(data: bytes, own: list[bytes]) -> Iterator[bytes]:
    """The packet from each address of the router, from a stranger, and of each type."""
    yield from (with_source(data, source) for source in [*own, STRANGER])
    if data[9] == PIM:
        yield from (with_type(data, kind) for kind in range(16))


# ---- scenarios

def move_line(move: dict[str, Any]) -> str:
    values = (f'{key} = {value}' if isinstance(value, int) else f'{key} = "{value}"' for key, value in move.items())
    return "    { " + ", ".join(values) + " },"


def heard(moves: list[dict[str, Any]]) -> set[tuple[int, bytes]]:
    """The neighbours by interface, of which none has ended: those whose Hello came in these moves."""
    packets = [(move["iface"], bytes.fromhex(move["hex"])) for move in moves if move["do"] == "frame"]
    return {(iface, data[12:16]) for iface, data in packets if data[9] == PIM and data[header_of(data)] & 15 == HELLO}


def without_effect(name: str, place: int, moves: list[dict[str, Any]], own: list[bytes]) -> Iterator[tuple[bytes, str]]:
    """The packets put before a move, each with the answer that it must get."""
    move = moves[place - 1]
    data = bytes.fromhex(move["hex"])
    limit = MOST_IN_A_FRAME if move["do"] == "frame" else MOST_IN_A_UNICAST
    for packet in spoilt(data, FURTHER.get((name, place), ())):
        refused = refusal(packet, limit)
        if refused is not None:
            yield packet, f"refused {refused}"
    for packet in dict.fromkeys(to_ignore(data, own)):
        if refusal(packet, limit) is None:
            reason = ignored(packet, move, own, heard(moves[:place - 1]))
            if reason is not None:
                yield packet, f"ignored {reason}"


def spoilt_scenario(name: str, moves: tuple[int, ...]) -> tuple[str, str]:
    """The text of the scenario with packets that change nothing, and what it must print."""
    text = (STORED / f"{name}.toml").read_text()
    lines = (STORED / f"{name}.out").read_text().splitlines()
    scenario = tomllib.loads(text)
    routers = text[text.index("[[router]]"):text.index("[[move]]")]
    routers = "\n".join(line for line in routers.splitlines() if not line.startswith("#")).rstrip()
    (router,) = scenario["router"]
    own = [octets(iface["address"].partition("/")[0]) for iface in router["iface"]]
    said, printed, number = [], [], 0
    for place, move in enumerate(scenario["move"], 1):
        for packet, answer in without_effect(name, place, scenario["move"], own) if place in moves else ():
            number += 1
            said.append(move_line({**move, "hex": packet.hex()}))
            printed.append(f"move {number} {move['router']} {answer}")
        number += 1
        said.append(move_line(move))
        while lines and (not lines[0].startswith("move ") or lines[0].split()[1] == str(place)):
            printed.append(lines.pop(0).replace(f"move {place} ", f"move {number} ", 1))
    head = f"# {name}, with packets before some of its own that change nothing: written by `torture/run hostile`."
    return "\n".join([head, "move = [", *said, "]", "", routers, ""]), "\n".join(printed + lines + [""])


def add_words(parser: ArgumentParser) -> None:
    """It has none."""


def is_right(asked: Namespace) -> bool:
    for name, moves in SPOILT.items():
        text, printed = spoilt_scenario(name, moves)
        (STORED / f"hostile_{name}.toml").write_text(text)
        (STORED / f"hostile_{name}.out").write_text(printed)
    return True
