"""The packets that come to a router that holds much, and the states and events of `torture/run events`."""
from collections.abc import Callable, Iterable
from dataclasses import dataclass

from viqeshor.lab import packets
from viqeshor.lab.addresses import dotted
from viqeshor.lab.packets import Entry, GroupEntries, Record

# OWN_GROUP's RP is the router.
FIRST_GROUP, OWN_GROUP, FIRST_SSM_GROUP = 0xE1010000, 0xEF010000, 0xE8010000
FIRST_SOURCE, RP, OTHER_RP, ROUTER = 0x0A800000, 0x0A090909, 0x0A09090A, 0x0A000002
# Neighbours on the links of interfaces 0, 1 and 2, and others that aren't there yet; hosts on those of 0, 1 and 2.
ABOVE, BELOW, BESIDE, NEW_ABOVE, NEW_BELOW = 0x0A000001, 0x0A000101, 0x0A000201, 0x0A000003, 0x0A000103
HOST_ABOVE, HOST, OTHER_HOST = 0x0A000007, 0x0A000107, 0x0A000207
STAR, SOURCE, RPT = 7, 4, 5
IS_IN, IS_EX, TO_IN, TO_EX, ALLOW = 1, 2, 3, 4, 5
# What a frame holds at most: groups with one source, sources of one group; records of no source, of one.
GROUPS_A_FRAME, SOURCES_A_FRAME, RECORDS_A_REPORT, RECORDS_OF_A_SOURCE = 70, 180, 183, 120
EVENTS, PARTS = 50, 5
# ms: when periodic Joins leave, their holdtime, the Group Membership Interval.
PERIODIC, JOINED, MEMBERSHIP = 60_000, 210_000, 260_000
# Hellos with a DR priority: as the router's own, lower, higher; then with another generation ID, and a goodbye.
HELLO, LOW_HELLO, HIGH_HELLO, ANEW, GOODBYE = (
    bytes.fromhex(f"2000000000010002{held}00130004{priority:08x}00140004{generation:08x}")
    for held, priority, generation in (("ffff", 1, 7), ("ffff", 0, 7), ("ffff", 2, 7), ("ffff", 1, 8), ("0000", 1, 7))
)
Lines = Callable[[int], list[str]]

# ---- packets


def packet(source: int, payload: bytes) -> bytes:
    """A PIM message to all PIM routers on a link."""
    return packets.write_to_routers(payload[0] & 15, dotted(source), payload[4:])


def data_packet(source: int, group: int) -> bytes:
    """Data without a payload."""
    return packets.write(packets.UDP, dotted(source), dotted(group), 16, b"")


def member_record(kind: int, group: int, sources: Iterable[int] = ()) -> Record:
    """A record of an IGMPv3 report."""
    return Record(kind, dotted(group), tuple(map(dotted, sources)))


def report_packet(host: int, records: list[Record]) -> bytes:
    return packets.write_report(dotted(host), records, packets.ROUTING)


def entries(told: Iterable[tuple[int, int]]) -> tuple[Entry, ...]:
    """Sources, each with its flags."""
    return tuple(Entry(dotted(address), 32, bool(flags & 2), bool(flags & 1)) for flags, address in told)


def group_record(number: int, joins: Iterable[tuple[int, int]], prunes: Iterable[tuple[int, int]] = ()) -> GroupEntries:
    """A group with the sources joined and pruned, each with its flags."""
    return GroupEntries(dotted(FIRST_GROUP + number), 32, entries(joins), entries(prunes))


# ---- lines of events


def frame(iface: int, data: bytes) -> str:
    return f"frame {iface} {data.hex()}"


def unicast(data: bytes) -> str:
    return f"unicast {data.hex()}"


def hello(iface: int, source: int, payload: bytes) -> str:
    return frame(iface, packet(source, payload))


def joined(*groups: GroupEntries) -> str:
    return frame(1, packets.write_join_prune(dotted(BELOW), "10.0.1.2", groups))


def seen(*groups: GroupEntries) -> str:
    """A Join/Prune between others on interface 0."""
    return frame(0, packets.write_join_prune(dotted(NEW_ABOVE), dotted(ABOVE), groups))


def report(iface: int, *records: Record) -> str:
    return frame(iface, report_packet((HOST_ABOVE, HOST, OTHER_HOST)[iface], list(records)))


def allowed(numbers: Iterable[int], iface: int = 1) -> str:
    return report(iface, member_record(ALLOW, FIRST_GROUP, [FIRST_SOURCE + at for at in numbers]))


def data(number: int, iface: int = 0, group: int = 0) -> str:
    return frame(iface, data_packet(FIRST_SOURCE + number, FIRST_GROUP + group))


def query(*numbers: int) -> str:
    """Of the first group, or of sources of it."""
    sources = b"".join(packets.octets(dotted(FIRST_SOURCE + at)) for at in numbers)
    head = bytes.fromhex("110a0000") + FIRST_GROUP.to_bytes(4, "big") + bytes.fromhex("027d")
    message = head + len(numbers).to_bytes(2, "big") + sources
    return frame(1, packets.write_igmp(dotted(BELOW - 1), dotted(FIRST_GROUP), message, packets.ROUTING))


def asserted(number: int, metric: int, iface: int = 1) -> str:
    """An Assert of a group whole, whose metric is worse than the router's, or with no metric the best."""
    told = packets.Assert(dotted(FIRST_GROUP + number), 32, "0.0.0.0", True, 0xFFFF if metric else 0, metric)
    return frame(iface, packets.write_assert(dotted((ABOVE, BELOW, BESIDE)[iface]), told))


def registered(number: int, is_null: bool = False) -> str:
    """A Register of a source of one of the groups whose RP is the router."""
    inner = data_packet(FIRST_SOURCE + number, OWN_GROUP + number)
    return unicast(packets.write_register(dotted(NEW_ABOVE), dotted(ROUTER), inner, is_null))


def stopped() -> str:
    """A Register-Stop of all sources of the first group."""
    content = packets.encoded_group(dotted(FIRST_GROUP), 32) + packets.encoded_unicast("0.0.0.0")
    return unicast(packets.write_pim(packets.REGISTER_STOP, dotted(RP), dotted(ROUTER), 64, content))


def routes(*others: str) -> list[str]:
    """The routes to the RPs and the sources, over interface 0, and others, which lead over interface 2."""
    told = [f"{RP & ~255} 24 {ABOVE} 0", f"{FIRST_SOURCE} 9 {ABOVE} 0", *(f"{it} {BESIDE} 2" for it in others)]
    return [*(f"route {it}" for it in told), "routes"]


def ranges(rp: int) -> list[str]:
    return [f"range {0xE0000000} 4 {rp}", f"range {0xEF000000} 8 {ROUTER}", "ranges"]


def star(number: int) -> GroupEntries:
    return group_record(number, [(STAR, RP)])


def star_pruned(number: int) -> GroupEntries:
    return group_record(number, [], [(STAR, RP)])


def source(number: int) -> GroupEntries:
    return group_record(0, [(SOURCE, FIRST_SOURCE + number)])


def source_pruned(number: int) -> GroupEntries:
    return group_record(0, [], [(SOURCE, FIRST_SOURCE + number)])


# ---- states of N facts


def parts(count: int, most: int) -> list[range]:
    return [range(first, min(count, first + most)) for first in range(0, count, most)]


def empty(n: int) -> list[str]:
    """A router with neighbours on three links."""
    return [*routes(), hello(0, ABOVE, HELLO), hello(1, BELOW, HELLO), hello(2, BESIDE, HELLO)]


def groups(n: int) -> list[str]:
    return empty(n) + [joined(*map(star, part)) for part in parts(n, GROUPS_A_FRAME)]


def sources(n: int) -> list[str]:
    named = ([(SOURCE, FIRST_SOURCE + at) for at in part] for part in parts(n, SOURCES_A_FRAME))
    return empty(n) + [joined(group_record(0, it)) for it in named]


def both(n: int) -> list[str]:
    return [*sources(n), joined(star(0))]


def pruned(n: int) -> list[str]:
    named = ([(RPT, FIRST_SOURCE + at) for at in part] for part in parts(n, SOURCES_A_FRAME))
    return [*empty(n), joined(star(0)), *(joined(group_record(0, [], it)) for it in named), "advance 5000"]


def own_sources(n: int) -> list[str]:
    named = ([group_record(at, [(SOURCE, FIRST_SOURCE + at)]) for at in part] for part in parts(n, GROUPS_A_FRAME))
    return empty(n) + [joined(*it) for it in named]


def members(n: int, first: int = FIRST_GROUP) -> list[str]:
    named = ([member_record(IS_EX, first + at) for at in part] for part in parts(n, RECORDS_A_REPORT))
    return empty(n) + [report(1, *it) for it in named]


def own_members(n: int) -> list[str]:
    return members(n, OWN_GROUP)


def channels(n: int) -> list[str]:
    records = [member_record(ALLOW, FIRST_SSM_GROUP + at, [FIRST_SOURCE + at]) for at in range(n)]
    return empty(n) + [report(1, *(records[at] for at in part)) for part in parts(n, RECORDS_OF_A_SOURCE)]


def asked(n: int) -> list[str]:
    """Few a report, whose cost grows with the square of their number."""
    return empty(n) + [allowed(part) for part in parts(n, 10)]


def sent(n: int) -> list[str]:
    """The second packet of a source sets SPTbit."""
    return asked(n) + [data(at) for at in range(n)] * 2


# ---- kinds of events: what is counted begins with a full stop


def some(n: int) -> list[int]:
    return list(dict.fromkeys(at * max(1, n // EVENTS) % n for at in range(EVENTS)))


def each(line: Callable[[int], str]) -> Lines:
    """Of some of what is there."""
    return lambda n: [f".{line(at)}" for at in some(n)]


def new(line: Callable[[int], str]) -> Lines:
    return lambda n: [f".{line(at)}" for at in range(n, n + EVENTS)]


def once(*lines: str) -> Lines:
    """The last of them is counted."""
    return lambda n: [*lines[:-1], "." + lines[-1]]


def again(*lines: str) -> Lines:
    """They are counted from the second time on."""
    return lambda n: [*lines, *once(*lines)(n) * PARTS]


@dataclass(frozen=True)
class Kind:
    name: str
    words: str
    state: Lines
    events: Lines


TOLD = {
    empty: "no fact", groups: "N groups, joined by a neighbour on interface 1",
    sources: "N sources of one group, joined there", both: "the same, with (\\*,G) joined there",
    pruned: "(\\*,G) joined there, N sources pruned from it", members: "N groups that a host asked for",
    asked: "N sources of one group that a host asked for", sent: "the same, and each has sent two packets",
    own_members: "N groups that a host asked for, whose RP is the router",
}
# What a fact takes of memory.
FACTS = {
    "an IGMP group": members, "(\\*,G)": groups, "(S,G) in a group of its own": own_sources,
    "(S,G) in one group": sources, "an SSM group with one source": channels,
}
LEFT, LEFT_WHOLE = member_record(TO_IN, FIRST_GROUP), member_record(TO_EX, FIRST_GROUP)
FIRST = member_record(ALLOW, FIRST_GROUP, [FIRST_SOURCE])
TO_RP, OTHER_SOURCE = routes(f"{RP} 32"), routes(f"{FIRST_SOURCE} 32")
KINDS = [Kind(*row) for row in (
    ("join-again", "Join(\\*,G) again", groups, each(lambda at: joined(star(at)))),
    ("join-many", "the same, as one of 70 of a `viq_frames`", groups,
        lambda n: [*(joined(star(at % n)).replace("frame", "kept", 1) for at in range(70)), ".many"]),
    ("join-new", "Join(\\*,G) of a new group", groups, new(lambda at: joined(star(at)))),
    ("prune", "Prune(\\*,G)", groups, each(lambda at: joined(star_pruned(at)))),
    ("no-row", "data of a source without a row, down the RP's tree", groups, each(lambda at: data(at, 0, at))),
    ("assert-won", "an Assert of a group that is won at first", groups, each(lambda at: asserted(at, 10_000))),
    ("assert-lost", "one that is lost at first", groups, each(lambda at: asserted(at, 0))),
    ("hello", "Hello again", groups, again(hello(1, BELOW, HELLO))),
    ("hello-priority", "Hello with another priority", groups, once(hello(1, BELOW, LOW_HELLO))),
    ("hello-below", "Hello of a new neighbour on interface 1", groups, once(hello(1, NEW_BELOW, LOW_HELLO))),
    ("hello-above", "the same on the interface to the RP", groups, once(hello(0, NEW_ABOVE, LOW_HELLO))),
    ("hello-dr", "Hello of a new neighbour that becomes the DR of interface 1", groups,
        once(hello(1, NEW_BELOW, HIGH_HELLO))),
    ("hello-dr-asked", "the same on interface 0, where a host asked for 100 groups", groups,
        once(report(0, *[member_record(IS_EX, FIRST_GROUP + at) for at in range(100)]),
            hello(0, NEW_ABOVE, HIGH_HELLO))),
    ("generation", "Hello of the next hop to the RP with a new generation ID", groups, once(hello(0, ABOVE, ANEW))),
    ("goodbye", "a goodbye of it", groups, once(hello(0, ABOVE, GOODBYE))),
    ("down-idle", "an interface without a fact goes down", groups, lambda n: [".down 3", "up 3"] * PARTS),
    ("up-idle", "it goes up", groups, again("down 3", "up 3")),
    ("down-below", "the interface where all are joined goes down", groups, once("down 1")),
    ("up-below", "it goes up", groups, once("down 1", "up 1")),
    ("down-above", "the interface to the RP goes down", groups, once("down 0")),
    ("up-above", "it goes up", groups, once("down 0", "up 0")),
    ("routes-same", "the same routes", groups, again(*routes())),
    ("routes-rp", "routes that move the way to the RP", groups, once(*TO_RP)),
    ("ranges-same", "the same RP ranges", groups, again(*ranges(RP))),
    ("ranges-moved", "RP ranges that give all groups another RP", groups, once(*ranges(OTHER_RP))),
    ("advance", "Advance, nothing due", groups,
        lambda n: ["advance 10000", *(f".advance {10_001 + at}" for at in range(EVENTS))]),
    ("joins-due", "Advance, N Join timers due", groups, once(f"advance {PERIODIC - 1}", f"advance {PERIODIC}")),
    ("expire", "Advance, N Joins expire", groups, once(f"advance {JOINED - 1}", f"advance {JOINED}")),
    ("reload", "a reload by the same configuration", groups, once("reload")),
    ("take", "a packet taken, of the N Prunes and Joins when the way to the RP moves", groups, once(*TO_RP, "take")),
    ("save", "a save", groups, once("save")),
    ("restore", "a restore", groups, once("save", "restore")),
    ("source-join-again", "Join(S,G) again", sources, each(lambda at: joined(source(at)))),
    ("source-join-new", "Join(S,G) of a new source", sources, new(lambda at: joined(source(at)))),
    ("source-prune", "Prune(S,G)", sources, each(lambda at: joined(source_pruned(at)))),
    ("star-joined", "Join(\\*,G) of their group", sources, once(joined(star(0)))),
    ("include-left", "a report on interface 2 that leaves INCLUDE", sources, once(report(2, LEFT_WHOLE))),
    ("dr-of-sources", "Hello of a new neighbour that becomes the DR", sources, once(hello(0, NEW_ABOVE, HIGH_HELLO))),
    ("star-again", "Join(\\*,G) again", both, again(joined(star(0)))),
    ("assert-of-all", "an Assert of the group that is won at first", both, once(asserted(0, 10_000))),
    ("assert-again", "won once more", both, again(asserted(0, 10_000))),
    ("assert-of-data", "data of a source without a fact on interface 1, which makes an assert", both,
        lambda n: [f".{data(n, 1)}"]),
    ("prunes-seen", "a Join/Prune between others with 180 equal Prunes(\\*,G)", both,
        once(hello(0, NEW_ABOVE, HELLO), seen(group_record(0, [], [(STAR, RP)] * 180)))),
    ("star-of-prunes", "Join(\\*,G) again", pruned, again(joined(star(0)))),
    ("report-again", "a report again", members, each(lambda at: report(1, member_record(IS_EX, FIRST_GROUP + at)))),
    ("report-new", "one of a new group", members, new(lambda at: report(1, member_record(TO_EX, FIRST_GROUP + at)))),
    ("members-expire", "Advance, N groups expire", members, once(f"advance {MEMBERSHIP - 1}", f"advance {MEMBERSHIP}")),
    ("allow-again", "ALLOW of a source again", asked, each(lambda at: allowed([at]))),
    ("allow", "ALLOW of a new source", asked, new(lambda at: allowed([at]))),
    ("first", "the first packet of a source, the tree the RP's", asked, each(data)),
    ("first-own", "the same, the tree another", asked,
        lambda n: [*routes(f"{FIRST_SOURCE} 10"), *each(lambda at: data(at, 2))(n)]),
    ("query", "a query of the group", asked, again(query())),
    ("query-sources", "a query of 10 sources", asked, again(query(*range(10)))),
    ("records", "a report of 183 records TO_IN, which query all", asked, once(report(1, *[LEFT] * RECORDS_A_REPORT))),
    ("records-again", "the same once more, which query none", asked, again(report(1, *[LEFT] * RECORDS_A_REPORT))),
    ("records-named", "a report of 120 records ALLOW of one source", asked,
        once(report(1, *[FIRST] * RECORDS_OF_A_SOURCE))),
    ("pairs", "a report of 70 pairs of ALLOW and TO_IN", asked, once(report(1, *[FIRST, LEFT] * 70))),
    ("none", "IS_IN of no source", asked, again(report(1, member_record(IS_IN, FIRST_GROUP)))),
    ("left-whole", "a report that leaves INCLUDE: they all go", asked, once(report(1, LEFT_WHOLE))),
    ("stopped", "a Register-Stop of all sources, none with a register", asked, again(stopped())),
    ("sources-expire", "Advance, N sources expire", asked, once(f"advance {MEMBERSHIP - 1}", f"advance {MEMBERSHIP}")),
    ("plain", "a plain packet", sent, each(data)),
    ("off-tree", "data off its tree", sent, each(lambda at: data(at, 2))),
    ("seen", "`viq_seen`", sent, each(lambda at: f"seen 0 {FIRST_SOURCE + at} {FIRST_GROUP}")),
    ("offload", "`viq_offload`", sent, each(lambda at: f"offload 0 {FIRST_SOURCE + at} {FIRST_GROUP}")),
    ("offload-new", "the same of a source without a fact", sent,
        new(lambda at: f"offload 0 {FIRST_SOURCE + at} {FIRST_GROUP}")),
    ("differs", "`viq_may_differ`", sent, each(lambda at: f"differs 0 {FIRST_SOURCE + at} {FIRST_GROUP}")),
    ("routes-source", "routes that move one source", sent, once(*OTHER_SOURCE)),
    ("routes-sources", "routes that move all sources", sent, once(*routes(f"{FIRST_SOURCE} 10"))),
    ("register", "the first Register of a source", own_members, each(registered)),
    ("register-again", "the second", own_members, lambda n: [*map(registered, some(n)), *each(registered)(n)]),
    ("register-null", "a Null-Register", own_members, each(lambda at: registered(at, True))),
    ("reported", "one of the reports of N sources, 360 a report", empty,
        lambda n: [f".{allowed(it)}" for it in parts(n, 360)]),
    ("routes-new", "no routes are replaced by N", empty,
        lambda n: ["routes", *(f"route {(1 << 24) + (at << 8)} 24 {ABOVE} 0" for at in range(n)), ".routes"]),
)]
