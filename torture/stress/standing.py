"""What a router that stands as BSR, as RP, or as both is to do: a plain reading of RFC 5059, sections 3.1.1, 3.2 and
3.3, with the choices of docs/COMPLIANCE.md. It stands on no code of the router. Times are ms. Where the RFC leaves a
delay to chance, or to a logarithm, the reading says between which timestamps the end of a timer has to be, and then
takes the router's."""
from __future__ import annotations

import math
from collections import Counter
from collections.abc import Callable, Iterable, Iterator
from ipaddress import IPv4Network

from stress.advertised import (
    ADVERTISEMENT,
    HOLDTIME,
    Advertised,
    AsBsr,
    AsRp,
    Differs,
    Sent,
    advertisement_message,
    advertisement_packet,
    content,
    override,
    read_advertisement,
)
from stress.rfc5059 import BS_PERIOD, BS_TIMEOUT, Listener, packet
from viqeshor import Answer
from viqeshor.lab import packets
from viqeshor.lab.packets import Bootstrap, CandidateRp, RpRange

# Section 5, and where the values may be chosen: how much less than BS_Rand_Override a delay may be.
BS_MIN_INTERVAL, ADV_PERIOD, BACKOFF, ROUGHLY = 10_000, 60_000, 3000, 180
# In seconds: the least holdtime that a Bootstrap says (3.3).
LEAST = 150
# Bytes of a fragment, and how many RPs of a range stand in one.
MOST_BYTES, TOGETHER = 1460, 143
# Rules of the reading, each of which `Standing` may be told to forget: then it differs from the router in some run.
RULES = {
    "preferred": "a candidate yields to a BSR of no less weight than the one that it yields to",
    "higher": "of the same priority the higher address has more weight",
    "own": "one that is pending or elected compares with its own weight",
    "lowered": "the BSR that it yields to may have less weight than before",
    "below": "but where that is less than its own the candidate is pending",
    "sends on": "a pending one sends on a message of less weight",
    "answers": "an elected one answers it by its own",
    "interval": "but for 10 s after its last message",
    "pending": "nor does a pending one become the BSR in these",
    "timeout": "it yields for BS_Timeout",
    "override": "it is pending for BS_Rand_Override",
    "period": "it says that it is the BSR each 60 s",
    "hastens": "other RPs are said sooner",
    "learns": "it learns what it says itself",
    "tag": "the next message has another tag",
    "room": "it doesn't yield to one for whose RPs it has no room",
    "forgets": "where it yields it forgets what it held",
    "held": "an RP is held for its holdtime",
    "goes": "an RP of holdtime 0 goes",
    "bidir": "a range with the B bit isn't taken",
    "host bits": "a range with host bits counts for its prefix",
    "limit": "a new RP isn't taken where there are as many as it may hold",
    "all groups": "an advertisement without ranges is of 224.0.0.0/4",
    "elected": "only an elected BSR takes advertisements",
    "least": "a holdtime is said as 150 s where it is less",
    "empty": "a range whose last RP went is said without RPs",
    "130 s": "for BS_Timeout",
    "backoff": "a new BSR is told within 3 s",
    "three": "three times",
    "minute": "and then each 60 s",
    "nobody": "where no BSR is elected none is told",
    "itself": "the router's own RP is told to its own BSR without a packet",
}
Mapping = tuple[IPv4Network, str]
# The least and the greatest timestamp that a timer's end may be.
Span = tuple[int, int]


class Standing:
    """A router that stands, with the reading of its listener. It may be told to forget rules."""

    def __init__(self, listener: Listener, bsr: AsBsr | None = None, rp: AsRp | None = None,
                 forgets: Iterable[str] = ()) -> None:
        self.listener, self.bsr, self.rp, self.forgets = listener, bsr, rp, frozenset(forgets)
        # The listener leaves weights to the candidate.
        listener.forgets = listener.forgets - {"preferred"} | ({"preferred"} if bsr else set())
        self.role, self.stored, self.quiet, self.tag = "pending" if bsr else "none", None, self.now(), None
        self.held: dict[Mapping, tuple[int, int, int]] = {}
        self.gone: dict[IPv4Network, int] = {}
        self.told: str | None = None
        self.left, self.told_end = 0, (0, 0)
        self.end: Span = self.delayed() if bsr else (0, 0)

    def minds(self, rule: str) -> bool:
        return rule not in self.forgets

    def now(self) -> int:
        return self.listener.around.now

    # ---- a Bootstrap comes (3.1.1, 3.1.4)

    def hear(self, iface: int, data: bytes, sent: Sent) -> tuple[int, bool]:
        """A packet that the router ignored for its type: the answer, and whether the RPs moved."""
        answer, moved = self.hear_as_bsr(iface, data, sent) if self.bsr else self.hear_alone(iface, data, sent)
        self.follow()
        sent.end()
        return answer, moved

    def hear_alone(self, iface: int, data: bytes, sent: Sent) -> tuple[int, bool]:
        came = self.listener.hear(iface, data)
        for each in came.sent:
            sent.expect(*each)
        return came.answer, came.moved

    def hear_as_bsr(self, iface: int, data: bytes, sent: Sent) -> tuple[int, bool]:
        if not packets.is_pim(data, packets.BOOTSTRAP):
            return Answer.OTHER_TYPE, False
        source, body = packets.dotted(data[12:16]), content(data)
        try:
            told = packets.read_bootstrap(body)
        except packets.Refused as refused:
            return Answer(refused.args[0]), False
        if reason := self.listener.why_not(iface, source, told):
            return reason, False
        return self.weigh(told)(iface, body, told, sent)

    def weigh(self, told: Bootstrap) -> Callable[[int, bytes, Bootstrap, Sent], tuple[int, bool]]:
        """What becomes of a message, by its BSR."""
        came, own = AsBsr(told.bsr, told.priority), self.weight(self.bsr)
        yields = self.role == "candidate"
        current = self.weight(self.stored) if yields or not self.minds("own") and self.stored else own
        is_current = yields and told.bsr == self.stored.address
        is_lowered = is_current and self.weight(came) >= own and self.minds("lowered")
        if is_lowered or self.weight(came) >= current and self.minds("preferred"):
            return self.take
        if is_current and self.minds("below"):
            return self.stop_yielding
        by_role = {"pending": self.send_on, "elected": self.answer}
        return by_role.get(self.role, self.ignore)

    def weight(self, bsr: AsBsr) -> tuple[int, int]:
        return bsr.weight() if self.minds("higher") else (bsr.priority, -bsr.weight()[1])

    def take(self, iface: int, body: bytes, told: Bootstrap, sent: Sent) -> tuple[int, bool]:
        after = self.listener.after(told)
        if (reason := self.listener.why_no_room(after)) and self.minds("room"):
            return reason, False
        came = self.listener.taken(iface, body, told, after)
        for each in came.sent:
            sent.expect(*each)
        if self.minds("forgets"):
            self.held, self.gone = {}, {}
        self.role, self.stored = "candidate", AsBsr(told.bsr, told.priority)
        self.end = self.exactly(BS_TIMEOUT if self.minds("timeout") else BS_TIMEOUT + 1)
        return came.answer, came.moved

    def stop_yielding(self, iface: int, body: bytes, told: Bootstrap, sent: Sent) -> tuple[int, bool]:
        self.role, self.end = "pending", self.delayed()
        return self.send_on(iface, body, told, sent)

    def send_on(self, iface: int, body: bytes, told: Bootstrap, sent: Sent) -> tuple[int, bool]:
        if self.minds("sends on"):
            for each in self.listener.sent_on(iface, body, told):
                sent.expect(*each)
        return Answer.DONE, False

    def answer(self, iface: int, body: bytes, told: Bootstrap, sent: Sent) -> tuple[int, bool]:
        if not self.minds("answers"):
            return self.ignore(iface, body, told, sent)
        if self.now() < self.quiet and self.minds("interval"):
            self.end = min(self.end, (self.quiet, self.quiet))
            return self.ignore(iface, body, told, sent)
        before = self.listener.given()
        self.originate(sent)
        return Answer.DONE, before != self.listener.given()

    def ignore(self, _iface: int, _body: bytes, _told: Bootstrap, _sent: Sent) -> tuple[int, bool]:
        return Answer.NOT_PREFERRED, False

    # ---- its timer

    def exactly(self, later: int) -> Span:
        return self.now() + later, self.now() + later

    def delayed(self) -> Span:
        """It is pending, and not for less than the rest of BS_Min_Interval."""
        delay = override(self.bsr, self.stored) if self.minds("override") else 5000
        quiet = self.quiet if self.minds("pending") else 0
        ends = self.now() + math.floor(delay) - ROUGHLY, self.now() + math.ceil(delay) + 1
        return max(ends[0], quiet), max(ends[1], quiet)

    def expire(self, sent: Sent) -> None:
        if self.role == "candidate":
            self.role, self.end = "pending", self.delayed()
        else:
            self.originate(sent)

    # ---- it says what it holds (3.3)

    def originate(self, sent: Sent) -> None:
        """The Bootstrap may be in fragments, in any order. The router hears them as others do."""
        found = sent.own_messages(self.bsr.address)
        bodies = list(dict.fromkeys(content(data) for _, data in found))
        self.check(bodies)
        around = self.listener.around
        linked = [(at, own) for at, (own, _) in enumerate(around.interfaces) if around.has_neighbours(at)]
        wanted = Counter((at, packet(own, body)) for at, own in linked for body in bodies)
        if wanted != Counter(found) or linked and not bodies:
            raise Differs(f"it says {found}, and has to say something on {linked}: the same on each")
        self.role, self.stored = "elected", None
        self.quiet = self.now() + BS_MIN_INTERVAL
        self.end = self.exactly(BS_PERIOD if self.minds("period") else BS_PERIOD + 1)
        if self.minds("learns"):
            self.learn(bodies)

    def learn(self, bodies: list[bytes]) -> None:
        """Without neighbours no message leaves, and it learns the same."""
        listener = self.listener
        heads = [packets.read_bootstrap(body) for body in bodies] or [self.whole()]
        for told in heads:
            after = listener.after(told)
            if not listener.why_no_room(after):
                listener.kept = after
        listener.has_heard = True
        listener.elected = self.bsr.address, self.bsr.priority, self.now() + BS_TIMEOUT

    def whole(self) -> Bootstrap:
        ranges = (RpRange(str(net.network_address), net.prefixlen, rps, len(rps)) for net, rps in self.said().items())
        return Bootstrap(self.bsr.address, tuple(ranges), 0, self.bsr.hash_length, self.bsr.priority)

    def said(self) -> dict[IPv4Network, tuple[CandidateRp, ...]]:
        """Each range with its RPs."""
        said: dict[IPv4Network, tuple[CandidateRp, ...]] = {}
        for (net, rp), (priority, holdtime, _) in self.held.items():
            least = max(holdtime, LEAST) if self.minds("least") else holdtime
            said[net] = (*said.get(net, ()), CandidateRp(rp, least, priority))
        return said | {net: () for net in self.gone if net not in said and self.minds("empty")}

    def check(self, bodies: list[bytes]) -> None:
        """All fragments say the same BSR and tag, and together what has to be said."""
        told = [packets.read_bootstrap(body) for body in bodies]
        heads = {(it.bsr, it.priority, it.hash_length, it.no_forward) for it in told}
        tags = {it.tag for it in told}
        if told and heads != {(self.bsr.address, self.bsr.priority, self.bsr.hash_length, False)}:
            raise Differs(f"its messages say {heads}")
        is_same = self.tag in tags if self.minds("tag") else self.tag not in tags
        if len(tags) > 1 or self.tag is not None and tags and is_same:
            raise Differs(f"its messages have tags {tags} after {self.tag}")
        self.tag = next(iter(tags), None)
        if any(len(body) > MOST_BYTES for body in bodies):
            raise Differs("a fragment is too long")
        ranges = [one for it in told for one in it.ranges]
        parts = Counter(one.prefix() for one in ranges)
        for net, count in parts.items():
            if count != 1 + (len(self.said().get(net, ())) > TOGETHER):
                raise Differs(f"{net} is said {count} times")
        said: dict[IPv4Network, list[CandidateRp]] = {}
        for one in ranges:
            said.setdefault(one.prefix(), []).extend(one.rps)
        wanted = self.said()
        counts = {one.prefix(): one.count for one in ranges}
        if told and (sort(said) != sort(wanted) or counts != {net: len(rps) for net, rps in wanted.items()}):
            raise Differs(f"its messages say {sort(said)}, and have to say {sort(wanted)}")

    # ---- advertisements come (3.3)

    def hear_unicast(self, data: bytes) -> int:
        """A packet to one of the router's addresses that the router ignored."""
        body = content(data)
        if not (self.bsr and packets.dotted(data[16:20]) == self.bsr.address and body[0] & 15 == ADVERTISEMENT):
            return Answer.OTHER_TYPE
        if self.role != "elected" and self.minds("elected"):
            return Answer.NOT_ELECTED
        try:
            self.take_advertised(read_advertisement(body))
        except packets.Refused as refused:
            return Answer(refused.args[0])
        return Answer.DONE

    def take_advertised(self, told: Advertised) -> None:
        ranges = told.ranges or ((("224.0.0.0", 4, False),) if self.minds("all groups") else ())
        held = dict(self.held)
        for group, length, bidir in ranges:
            if bidir and self.minds("bidir"):
                continue
            net = IPv4Network((group, length), strict=False) if self.minds("host bits") else IPv4Network(group)
            held.pop((net, told.rp), None)
            if (told.holdtime or not self.minds("goes")) and (
                    len(held) < self.bsr.limit or not self.minds("limit")):
                held[net, told.rp] = told.priority, told.holdtime, self.now() + 1000 * told.holdtime
        self.hold(held)

    def hold(self, held: dict[Mapping, tuple[int, int, int]]) -> None:
        """Others are held in the place of those before."""
        before, now = self.held, self.now()
        ranges, were = {net for net, _ in held}, {net for net, _ in before}
        until = now + (BS_TIMEOUT if self.minds("130 s") else BS_TIMEOUT + 1)
        gone = {net: end for net, end in self.gone.items() if end > now and net not in ranges}
        self.held, self.gone = held, gone | {net: until for net in were - ranges}
        if moved(before) != moved(held) and self.role == "elected" and self.minds("hastens"):
            soon = max(now, self.quiet)
            self.end = min(self.end, (soon, soon))

    # ---- its own advertisements (3.2)

    def follow(self) -> None:
        """The elected BSR is another one, or none."""
        elected = self.listener.elected and self.listener.elected[0]
        if self.rp is None or elected == self.told or elected is None and not self.minds("nobody"):
            return
        self.told, self.left = elected, 3 if self.minds("three") else 2
        self.told_end = self.soon(self.now()) if elected else (0, 0)

    def soon(self, moment: int) -> Span:
        """No draw of a run has no delay at all."""
        return moment + 1, moment + (BACKOFF if self.minds("backoff") else 0)

    def advertised(self, holdtime: int) -> Advertised:
        nets = map(IPv4Network, self.rp.ranges)
        ranges = tuple((str(net.network_address), net.prefixlen, False) for net in nets)
        return Advertised(self.rp.address, ranges, self.rp.priority, holdtime)

    def advertise(self, sent: Sent) -> None:
        told = self.advertised(HOLDTIME)
        if self.bsr and self.told == self.bsr.address and self.minds("itself"):
            if self.role == "elected":
                self.take_advertised(told)
        else:
            self.send(told, sent)
        self.left, end = max(self.left - 1, 0), self.told_end[0]
        later = end + (ADV_PERIOD if self.minds("minute") else ADV_PERIOD + 1)
        self.told_end = self.soon(end) if self.left else (later, later)

    def send(self, told: Advertised, sent: Sent) -> None:
        body = advertisement_message(told)
        sent.expect("unicast", self.told, advertisement_packet(told.rp, self.told, body))

    def leave(self, sent: Sent) -> None:
        """It says that its RP goes, to the BSR that is elected, where that isn't the router itself."""
        elected = self.listener.elected and self.listener.elected[0]
        if self.rp and elected and not (self.bsr and elected == self.bsr.address):
            body = advertisement_message(self.advertised(0))
            sent.expect("unicast", elected, advertisement_packet(self.rp.address, elected, body))
        sent.end()

    # ---- time

    def pass_to(self, moment: int, sent: Sent) -> bool:
        """One step of each timer that is due. Answers whether the RPs moved."""
        before = self.listener.given()
        self.listener.pass_to(moment)
        if self.bsr:
            self.hold({it: row for it, row in self.held.items() if row[2] > moment or not self.minds("held")})
            if self.end[0] <= moment:
                self.expire(sent)
        self.follow()
        if self.told and self.told_end[0] <= moment:
            self.advertise(sent)
        sent.end()
        return before != self.listener.given()

    def ends(self) -> Iterator[int]:
        if self.bsr:
            yield self.end[0]
            yield from (end for _, _, end in self.held.values())
        if self.told:
            yield self.told_end[0]

    def next_end(self) -> int | None:
        return min(self.ends(), default=None)

    # ---- beside the router

    def adopt(self, end: int | None, told_end: int | None) -> None:
        """The ends of the router's timers, which have to be between those that the reading says."""
        if self.bsr:
            self.end = between("the Bootstrap Timer's end", end, self.end)
        if self.told:
            self.told_end = between("the advertisement timer's end", told_end, self.told_end)


def between(what: str, end: int | None, span: Span) -> Span:
    if end is None or not span[0] <= end <= span[1]:
        raise Differs(f"{what} is {end}, and has to be from {span[0]} to {span[1]}")
    return end, end


def moved(held: dict[Mapping, tuple[int, int, int]]) -> set[tuple[Mapping, int, int]]:
    """What is said of those that are held."""
    return {(it, priority, holdtime) for it, (priority, holdtime, _) in held.items()}


def sort(said: dict[IPv4Network, Iterable[CandidateRp]]) -> dict[IPv4Network, list[CandidateRp]]:
    return {net: sorted(rps, key=lambda rp: rp.address) for net, rps in sorted(said.items())}
