"""What packets, answers and moves are, in words for people; one line each."""
from __future__ import annotations

from collections.abc import Iterable
from typing import TYPE_CHECKING, Any

from viqeshor.lab import packets, printed
from viqeshor.lab.facts import REFUSALS
from viqeshor.lab.older import older_of
from viqeshor.lab.packets import RECORD_KINDS, Refused

if TYPE_CHECKING:
    from viqeshor.lab.scenario import Router, Scenario
    from viqeshor.lab.story import Sent, Step

PIM_KINDS = {4: "Bootstrap", 6: "Graft", 7: "Graft-Ack", 8: "Candidate-RP-Advertisement"}
PROTOCOLS = {1: "ICMP", 2: "IGMP", 6: "TCP", 17: "UDP", 103: "PIM"}
NO_GROUP = "0.0.0.0"


def seconds(moment: float | None) -> str:
    """A moment or an end, of ms, in seconds."""
    if moment is None:
        return "-"
    return "never" if moment == printed.NEVER else f"{moment // 1000}.{moment % 1000:03} s"


def listed(items: Iterable[str]) -> str:
    return "{" + ", ".join(items) + "}"


def ranged(address: str, mask: int) -> str:
    return address if mask == 32 else f"{address}/{mask}"


def tree(group: str, source: str, kind: str = "") -> str:
    return f"({source}, {group}{', rpt' if kind == 'rpt' else ''})"


# ---- packets


def hello(body: packets.Hello) -> str:
    said = {
        "holdtime": "for {} s", "priority": "DR priority {}", "generation": "generation {}",
        "propagation": "propagation delay {} ms", "override": "override interval {} ms",
    }
    told = [text.format(getattr(body, name)) for name, text in said.items() if getattr(body, name) is not None]
    return "Hello " + (", ".join(told) or "without options") + (": a farewell" if body.holdtime == 0 else "")


def register(body: packets.Register) -> str:
    inner = body.inner
    if body.is_null:
        return f"Null-Register of {tree(inner.destination, inner.source)}"
    return f"Register of [{inner.source} > {inner.destination}: {data(inner)}]"


def register_stop(body: packets.RegisterStop) -> str:
    return f"Register-Stop of {tree(body.group, body.source)}"


def entry(group: packets.GroupEntries, source: packets.Entry) -> str:
    """A source of a Join/Prune as the tree that it means. With both bits the source is the RP."""
    group = ranged(group.group, group.mask)
    if source.wildcard:
        by = f"by {source.source}" if source.rpt else f"of {source.source}, without the bit R"
        return f"{tree(group, '*')} {by}"
    return tree(group, ranged(source.source, source.mask), "rpt" if source.rpt else "")


def join_prune(body: packets.JoinPrune) -> str:
    said = []
    for group in body.groups:
        for verb, sources in (("join", group.joins), ("prune", group.prunes)):
            said += [f"{verb} {entry(group, source)}" for source in sources]
    return f"Join/Prune to {body.upstream} for {body.holdtime} s: " + ("; ".join(said) or "nothing")


def assert_words(body: packets.Assert) -> str:
    whom = tree(ranged(body.group, body.mask), "*" if body.source == NO_GROUP else body.source)
    if body.is_infinite():
        return f"AssertCancel of {whom}"
    return f"Assert of {whom}, {'by the RP, ' if body.rpt else ''}preference {body.preference}, metric {body.metric}"


def query(body: packets.Query) -> str:
    whom = "of all groups" if body.group == NO_GROUP else f"of {body.group}"
    if body.sources:
        whom += f", sources {listed(body.sources)}"
    said = [f"answer within {body.response / 10:g} s", f"robustness {body.robustness}", f"interval {body.interval} s"]
    return f"query {whom}: " + ", ".join(said + ["suppressed"] * body.suppress)


def record(body: packets.Record) -> str:
    return f"{RECORD_KINDS.get(body.kind, f'type {body.kind}')} {body.group} {listed(body.sources)}"


def report(body: packets.Report) -> str:
    return "report: " + ("; ".join(map(record, body.records)) or "no record")


def rp_range(told: packets.RpRange) -> str:
    """A range of a Bootstrap with its RPs; of a fragment, of how many RPs these are."""
    of = "" if told.count == len(told.rps) else f" of {told.count}"
    flags = ", BIDIR" * told.is_bidir + ", a zone" * told.is_zone
    return f"{told.prefix()} {listed([rp.address for rp in told.rps])}{of}{flags}"


def other_pim(body: packets.OtherPim) -> str:
    """A message that a router alone doesn't read; a Bootstrap, if it can be read, with what it says."""
    kind = PIM_KINDS.get(body.kind, f"type {body.kind}")
    if body.kind != packets.BOOTSTRAP:
        return kind
    try:
        told = packets.read_bootstrap(body.message)
    except Refused as refused:
        return f"{kind}, malformed: {REFUSALS[refused.args[0]]}"
    ranges = "; ".join(map(rp_range, told.ranges)) or "no range"
    return f"{kind} of {told.bsr}, priority {told.priority}{', not sent on' * told.no_forward}: {ranges}"


def data(packet: packets.Packet) -> str:
    """A data packet, without its addresses."""
    body, protocol = packet.body, PROTOCOLS.get(packet.protocol, f"protocol {packet.protocol}")
    port = "" if body.destination_port is None else f" to port {body.destination_port}"
    return f"data, {protocol}{port}, {len(body.payload)} bytes, TTL {packet.ttl}"


WRITERS = {
    packets.Hello: hello, packets.Register: register, packets.RegisterStop: register_stop,
        packets.JoinPrune: join_prune,
    packets.Assert: assert_words, packets.Query: query, packets.Report: report,
}


def packet(read: packets.Packet) -> str:
    """A packet on one line: its addresses, its kind, and what it says."""
    head = f"{read.source} > {read.destination}: "
    if isinstance(read.body, packets.Data):
        return head + data(read)
    if isinstance(read.body, packets.OtherPim):
        return head + f"PIM {other_pim(read.body)}"
    return head + f"{PROTOCOLS[read.protocol]} " + WRITERS[type(read.body)](read.body)


def bytes_given(content: bytes, limit: int = packets.MOST_IN_A_FRAME) -> str:
    """The same of bytes that somebody gives a router, which may be anything."""
    try:
        return packet(packets.read(content, limit))
    except Refused as refused:
        if (told := older_of(content)) is not None:
            return str(told)
        return f"{len(content)} bytes, malformed: {REFUSALS[refused.args[0]]}"


# ---- answers and moves


def answer(verdict: str, cause: str | None) -> str:
    if verdict == "refused":
        return f"refused {cause} ({REFUSALS.get(int(cause), 'unknown')})"
    return verdict if cause is None else f"{verdict} ({cause})"


def place(router: Router | None, iface: int) -> str:
    """An interface by its number and link."""
    if router is None or not 0 <= iface < len(router.interfaces):
        return str(iface)
    return f"{iface} {router.interfaces[iface].link}"


LISTS = {"routes": "routes", "rps": "RP ranges", "candidates": "candidate RPs"}


def move(did: dict[str, Any], router: Router | None, brought: Sent | None = None) -> str:
    """What a move does at its router."""
    match did["do"]:
        case "up" | "down":
            return f"{place(router, did['iface'])} goes {did['do']}"
        case "advance":
            return f"time goes on to {seconds(did['moment'])}"
        case "frame":
            return f"takes on {place(router, did['iface'])}: {bytes_given(bytes.fromhex(did['hex']))}"
        case "unicast":
            return f"takes as a unicast: {bytes_given(bytes.fromhex(did['hex']), packets.MOST_IN_A_UNICAST)}"
        case "routes" | "rps" | "candidates":
            return f"gets new {LISTS[did['do']]}: " + ("; ".join(did["list"]) or "none")
        case "deliver":
            return f"takes on {place(router, did['iface'])}: packet {did['frame']}{of(brought)}"
        case "carry":
            return f"takes as a unicast: packet {did['frame']}{of(brought)}"
        case "restart":
            return "is saved, and made anew of its bytes"
        case "reload":
            count = len(did["config"]["iface"])
            by = f", by the places {', '.join(did['places'])}" if did.get("places") else ""
            return f"gets another configuration, of {count} interface{'' if count == 1 else 's'}{by}"
    return did["do"]


def of(brought: Sent | None) -> str:
    return "" if brought is None else f" of {brought.router}, {short(brought)}"


def short(sent: Sent) -> str:
    """The kind of a packet that a router sent, in a word or two."""
    body = sent.packet().body
    names = {packets.JoinPrune: "Join/Prune", packets.RegisterStop: "Register-Stop", packets.Data: "data"}
    if isinstance(body, packets.Register) and body.is_null:
        return "Null-Register"
    if isinstance(body, packets.Query):
        return "IGMP query"
    return names.get(type(body), type(body).__name__)


def step(told: Step, scenario: Scenario | None) -> str:
    """What a step was: the move, or which packet a settle delivered."""
    if told.did is None:
        return ""
    router = scenario.router(told.router)
    if not told.is_settle():
        return move(told.did, router, told.brought)
    where = "as a unicast" if told.iface is None else f"on {place(router, told.iface)}"
    return f"settle brings {where}: packet {told.brought.number}{of(told.brought)}"
