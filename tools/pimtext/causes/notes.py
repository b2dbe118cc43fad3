"""What moves of a run were refused or ignored, in words, and which packets nobody took: each a symptom with its line in
the file."""
from __future__ import annotations

from collections import Counter
from collections.abc import Iterator
from typing import TYPE_CHECKING, Any

from pimtext.ways import trace
from viqeshor.lab import packets, story, wishes, words
from pimtext.causes.cause import Symptom
from viqeshor.lab.facts import MEANINGS
from viqeshor.lab.faults import (
    MOST_CANDIDATES, MOST_ROUTES, MOST_RPS, Judge, candidate_fault, configuration_faults, list_faults, route_fault,
    rp_fault,
)
from viqeshor.lab.scenario import places_of

if TYPE_CHECKING:
    from viqeshor.lab.lines import Line
    from pimtext.causes.run import Run

ETHERNET = {b"\x08\x00": 14, b"\x81\x00": 18}


def ethernet_bytes(data: bytes) -> int:
    """How many bytes of an Ethernet header a packet begins with, 0 where it doesn't."""
    size = ETHERNET.get(data[12:14], 0)
    return size if size and data[size - 2:size] == b"\x08\x00" and data[size:size + 1] == b"\x45" else 0


class Lines:
    """Where moves, routers and interfaces stand in the file that `judge` read."""

    def __init__(self, judge: Judge) -> None:
        self.moves = [table.line for table in judge.moves]
        self.routers = {made["table"].get("name").held: made for made in judge.routers}

    def move(self, number: int) -> int:
        return self.moves[number - 1]

    def router(self, name: str) -> int:
        return self.routers[name]["line"]

    def interface(self, name: str, number: int) -> int:
        made = self.routers[name]
        return [*made["ifaces"], *made["later"]][number].line

    @staticmethod
    def words(line: int) -> str:
        return f"line {line}"


class Notes:
    """The odd steps of a run: `judge` read the file."""

    def __init__(self, judge: Judge, run: Run) -> None:
        self.judge, self.run, self.played, self.steps = judge, run, run.played, run.steps
        self.sent = [sent for step in self.steps for sent in step.sent]

    def at_move(self, number: int, text: str) -> tuple[int | Line, str]:
        return self.run.lines.move(number), f"move {number} ({self.played.moves[number - 1]['do']}){text}"

    # ---- moves that were refused or ignored, and settles that stopped

    def odd(self) -> Iterator[Symptom]:
        """Those of one router, one reason and one sender are one symptom."""
        found = {}
        for step in self.steps:
            if step.verdict != "done":
                found.setdefault(self.key(step), []).append(step)
        for steps in found.values():
            yield self.symptom(steps)
        made = Counter(step.move for step in self.steps if step.is_settle())
        for number, count in made.items():
            if count >= story.SETTLE_LIMIT:
                limit = f"its limit of {story.SETTLE_LIMIT} deliveries"
                told = f" stopped at {limit}, and later packets wait for the next settle: is there a loop?"
                yield Symptom("odd", *self.at_move(number, told))

    def key(self, step: story.Step) -> tuple[object, ...]:
        what = self.meaning(step)
        return step.router, step.iface, step.verdict, step.cause, what, self.what(step), step.is_settle()

    @staticmethod
    def what(step: story.Step) -> str:
        """What was refused or ignored: whose packets."""
        data = step.taken()
        if not data or len(data) < 20:
            return f"moves `{step.did['do']}`"
        source = packets.dotted(data[12:16])
        if trace.names(data):
            return f"packets of data of {source}"
        return f"IGMP messages of {source}" if wishes.igmp_of(data) else f"PIM messages of {source}"

    def symptom(self, steps: list[story.Step]) -> Symptom:
        first, number = steps[0], steps[0].move
        meaning = self.meaning(first)
        one = "a delivery was" if first.is_settle() else "it was"
        many = f"{len(steps)} {self.what(first)} were" if len(steps) > 1 else one
        last = f", up to move {steps[-1].move}" if steps[-1].move != number else ""
        answer = words.answer(first.verdict, first.cause)
        line, told = self.at_move(number, f", router {first.router}: {many} {answer}{last}")
        data = first.taken()
        host = packets.dotted(data[12:16]) if data and len(data) >= 20 else None
        at = self.steps.index(first)
        more = {"host": host, "alone": f"{told}: {meaning}", "at": at}
        return Symptom("odd", line, told, first.router, first.link, None, first.cause, **more)

    def meaning(self, step: story.Step) -> str:
        cause, did = step.cause, step.did
        if cause in ("25", "26", "76"):
            return self.wrong_list(step.move, step.router)
        if cause == "27":
            return self.moved_on(step) if step.is_settle() else self.no_delivery(step)
        if cause.isdigit() and (30 <= int(cause) <= 38 or cause == "70"):
            return self.wrong_configuration(step.move, int(cause))
        if cause == "73":
            return self.wrong_places(step)
        count, bytes_given = self.present(step), len(did.get("hex", "")) // 2
        if cause == "4" and bytes_given > packets.MOST_IN_A_FRAME and did["do"] == "frame":
            return f"a packet on a link has at most {packets.MOST_IN_A_FRAME} bytes, and this one has {bytes_given}"
        size = ethernet_bytes(bytes.fromhex(did.get("hex", ""))) if len(cause) == 1 else 0
        if size:
            return f"the bytes begin with an Ethernet header: leave out its {size} bytes, the first {2 * size} digits"
        return MEANINGS[cause] + (f", and it has {count}" if cause == "22" else "")

    def wrong_places(self, step: story.Step) -> str:
        """Why a map of places doesn't fit."""
        there, count = places_of(step.did) or [], len(step.did["config"]["iface"])
        if len(there) != (present := self.present(step)):
            return f"`places` has {len(there)} items, and the router has {present} interfaces: nothing changes"
        numbers = [number for number in there if number is not None]
        wrong = [f"no interface of `config` has the number {number}" for number in numbers if number >= count]
        wrong += [f"{number} stands twice" for number in dict.fromkeys(numbers) if numbers.count(number) > 1]
        return f"`places`: {', '.join(wrong)}: nothing changes"

    def present(self, step: story.Step) -> int:
        """How many interfaces the router of a step had then."""
        return len(self.configuration(step.router, step.move)["iface"])

    def configuration(self, router: str, move: int) -> dict[str, Any]:
        """The table of a router just before a move."""
        before = (each for each in reversed(self.steps) if each.move < move and each.router == router)
        done = (each for each in before if each.did["do"] == "reload" and each.verdict == "done")
        return next((each.did["config"] for each in done), self.played.router(router).table)

    def wrong_list(self, number: int, router: str) -> str:
        """What is wrong with the routes, the ranges or the candidates of a move."""
        table = self.judge.moves[number - 1]
        made = next(made for made in self.judge.routers if made["table"].get("name").held == router)
        kind = table.get("do").held
        most, one = {
            "routes": (MOST_ROUTES, lambda route: route_fault(route, made)),
            "rps": (MOST_RPS, rp_fault),
            "candidates": (MOST_CANDIDATES, candidate_fault),
        }[kind]
        found = list_faults(Judge().entries(kind, table), most, one, has_rps=kind == "candidates")
        return "; ".join(what for _, what in found)

    def wrong_configuration(self, number: int, test: int) -> str:
        """What is wrong with the configuration of a `reload`."""
        table = self.judge.moves[number - 1].get("config")
        made = {"line": table.line, "where": "config", "table": table, **Judge().configuration(table, "config")}
        told = [f"{what} ({where})" for failed, _, where, what in configuration_faults(made) if failed == test]
        return "; ".join(told) + ": nothing changes"

    def no_delivery(self, step: story.Step) -> str:
        """Why `deliver` or `carry` can't bring its packet."""
        did, sent = step.did, step.brought
        if sent is None:
            count = sum(sent.move < step.move for sent in self.sent)
            return f"there is no packet {did['frame']} yet: {count} were sent before, counted from 1"
        if sent.is_unicast():
            return f"packet {sent.number} is a unicast, which `carry` brings"
        there = f"interface {did['iface']} is on {step.link}" if step.link else f"it has no interface {did['iface']}"
        return f"packet {sent.number} was sent on the link {sent.where}, and {there}"

    @staticmethod
    def moved_on(step: story.Step) -> str:
        """Why a settle can't bring a packet: the interface that it left on is on another link by then."""
        sent = step.brought
        told = f"packet {sent.number} left interface {sent.iface} of {sent.router} on the link {sent.where}, and a"
        return f"{told} `reload` put that interface on {step.link} before the settle: it reaches nobody on {sent.where}"

    # ---- packets that nobody took

    def undelivered(self) -> Iterator[Symptom]:
        last = self.run.wire.last
        named = {did["frame"] for did in self.played.moves if "frame" in did}
        links = Counter(interface.link for router in self.played.routers for interface in router.interfaces)
        left = [sent for sent in self.sent if sent.move > last and sent.number not in named]
        left = [str(sent.number) for sent in left if sent.is_unicast() or links[sent.where] > 1]
        if left:
            shown = ", ".join(left[:6]) + (" .." if len(left) > 6 else "")
            reach = f"{len(left)} packets reach" if len(left) > 1 else "a packet reaches"
            told = f": {reach} nobody, since no settle or deliver comes after: {shown}"
            yield Symptom("unheard", *self.at_move(len(self.played.moves), told))
