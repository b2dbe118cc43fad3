"""Saves and restores a router after each event, and looks at what differs then.

    torture/run restarted [--runs N] [--seed N] [--events N] [--spoilt N] [--facts N] [--unproved | --from FOLDER |
    --archive FILE] [SCENARIO.toml ..]

Each router of each stored scenario, or of those that are named, takes its events, and then the routers of N runs of
random events (stress.happenings). After each event a router is restored of the saved bytes, and goes on in place of
the one that was saved. Another router takes the same events unbroken. After each event both have to have answered and
sent the same, to save the same bytes, to have the same next moment, and to offer and forward the same of each source
that has a fact. A restored router has nothing to send and changed no source. Which hosts of older versions of IGMP it
hears is set again.

The last saved bytes of each router are read by docs/SAVED.md alone (pimtext.files.saved), and have to say its printed
tables. Then they are spoilt: cut off at each length, continued, and N times one byte is changed, and two numbers of
four bytes are exchanged. Each time the bytes have to be refused by the number by which pimtext.files.saved refuses
them. Where it reads them they have to be refused as a state that no router goes on from, or to be those that their
router saves, which then has to let time pass.

Last comes what saving and restoring costs, of a router with N facts. Each part prints a line.
"""
from __future__ import annotations

import argparse
import random
import time
from collections.abc import Iterable, Iterator
from dataclasses import dataclass, field
from pathlib import Path
from typing import Any

import viqeshor
from pimtext.files import saved as by_document
from pimtext.build.library import add_choice, chosen
from stress.dataplane import outcome
from stress.happenings import Event, Happenings, events_of
from stress.stored import made, routers
from viqeshor import Answer, Router, hosts
from viqeshor.lab import fed
from viqeshor.lab.facts import REFUSED_BYTES, REFUSED_STATES


@dataclass
class Counted:
    """What the runs came to."""
    routers: int = 0
    events: int = 0
    restarts: int = 0
    wrong: list[str] = field(default_factory=list)
    saved: list[bytes] = field(default_factory=list)

    def print(self, what: str) -> bool:
        for line in self.wrong:
            print(line)
        print(
            f"{what}: {self.routers} routers, {self.events} events, {self.restarts} times saved and restored, "
            f"{len(self.wrong)} routers differ",
            flush=True,
        )
        return not self.wrong


# ---- a router that is restarted after each event


def seen(router: Router) -> dict[str, Any]:
    """What a router is like, beside what it answered."""
    sources = [(row.source, row.group) for row in router.rows("F")]
    return {
        "saved": router.save(),
        "next moment": router.next_moment(),
        "cached": [router.cached(*source) for source in sources],
        "offered": [router.offload(*source) for source in sources],
        "older": router.older_rows(),
    }


def difference(wanted: dict[str, Any], got: dict[str, Any]) -> str | None:
    differs = (f"{what}: {got[what]} in place of {wanted[what]}" for what in wanted if wanted[what] != got[what])
    return next(differs, None)


def speak(router: Router, table: dict[str, Any]) -> None:
    """Sets what a scenario's table says of a guard and of older versions."""
    router.set_guard(fed.has_guard(table))
    for iface, _ in enumerate(table.get("iface", ())):
        if "older_hosts" in table:
            router.set_older_hosts(iface, table["older_hosts"])
        if "query_version" in table:
            router.set_query_version(iface, table["query_version"])


def restarted(library: Path, router: Router, table: dict[str, Any]) -> Router:
    """A router of what this one saves, which is ended."""
    saved = router.save()
    router.end()
    other = Router.restore(saved, library=library)
    if other.packets() or other.changed() or other.touched() or other.probes():
        raise AssertionError("a restored router has something to send, or has changed")
    speak(other, table)
    return other


def play(library: Path, given: tuple[Any, ...], table: dict[str, Any], events: Iterable[Event],
         came: Counted) -> str | None:
    """Plays a router, of a scenario's table if it is of one; the first difference as a text, or None."""
    alone, other = (made(library, given) for _ in range(2))
    for router in (alone, other):
        speak(router, table)
    try:
        for number, event in enumerate(events, 1):
            came.events += 1
            wanted, got = (outcome(each, event.call, *event.values, draw=event.draw) for each in (alone, other))
            if got != wanted:
                return f"event {number}, {event.words}: {list(got.lines())} in place of {list(wanted.lines())}"
            before, other = other, restarted(library, other, table)
            came.restarts += before is not other
            if found := difference(seen(alone), seen(other)):
                return f"event {number}, {event.words}: {found}"
        came.saved.append(other.save())
        wanted = [line for line in other.tables() if not line.startswith("R ")]
        if (got := list(by_document.printed(by_document.read(came.saved[-1])))) != wanted:
            return f"saved bytes say {got} in place of {wanted}"
        return None
    except (AssertionError, by_document.Unreadable, viqeshor.Error) as error:
        return f"event {number}, {event.words}: {error}"
    finally:
        alone.end()
        other.end()


# ---- runs


def stored(library: Path, paths: Iterable[Path] = ()) -> Counted:
    came = Counted()
    for router in routers(paths):
        found = play(library, router.given(), router.table, events_of(router.steps), came)
        came.routers += 1
        if found:
            came.wrong.append(f"{router}: {found}")
    return came


def random_runs(library: Path, asked: argparse.Namespace) -> Counted:
    came = Counted()
    for seed in range(asked.seed, asked.seed + asked.runs):
        told = Happenings(seed)
        given = told.interfaces, told.ranges, told.routes, told.settings
        clock = made(library, given)

        def events() -> Iterator[Event]:
            """The next event is one of the router alone, whose time the others have."""
            for _ in range(asked.events):
                event = told.one(clock.next_moment())
                outcome(clock, event.call, *event.values, draw=event.draw)
                yield event

        found = play(library, given, {"guard": "on"}, events(), came)
        clock.end()
        came.routers += 1
        if found:
            came.wrong.append(f"seed {seed}: {found}")
    return came


# ---- bytes that are spoilt


def flipped(saved: bytes, draws: random.Random) -> bytes:
    """The bytes with one bit of one of them changed."""
    bytes_ = bytearray(saved)
    bytes_[draws.randrange(len(saved))] ^= 1 << draws.randrange(8)
    return bytes(bytes_)


def changed(saved: bytes, draws: random.Random) -> bytes:
    """The bytes with one of them changed: a bit, or another value."""
    bytes_, place = bytearray(saved), draws.randrange(len(saved))
    bytes_[place] = draws.choice((bytes_[place] ^ 1 << draws.randrange(8), 0, 1, 2, 255))
    return bytes(bytes_)


def exchanged(saved: bytes, draws: random.Random) -> bytes:
    """The bytes with two numbers of four bytes in each other's place."""
    bytes_ = bytearray(saved)
    one, other = (draws.randrange(len(saved) - 3) for _ in range(2))
    bytes_[one:one + 4], bytes_[other:other + 4] = bytes_[other:other + 4], bytes_[one:one + 4]
    return bytes(bytes_)


def spoilt(saved: bytes, count: int, draws: random.Random) -> Iterator[bytes]:
    """Other bytes: some with the sum that was saved, and some with their own, so that more than the sum is tested."""
    front = saved[:-4]
    yield from (saved[:length] for length in range(len(saved)))
    yield from (by_document.summed(front[:length]) for length in range(6, len(front)))
    for more in (1, 4, 8):
        yield saved + bytes([draws.randrange(256)] * more)
        yield by_document.summed(front + bytes([draws.randrange(256)] * more))
    for _ in range(count):
        yield flipped(saved, draws)
        yield by_document.summed(changed(front, draws))
        yield by_document.summed(exchanged(front, draws))


def refusals(given: bytes) -> list[int]:
    """The numbers by which bytes may be refused, by docs/SAVED.md alone; 0 where they needn't be."""
    try:
        by_document.read(given)
        return [0, *REFUSED_STATES]
    except by_document.Unreadable as unreadable:
        return [unreadable.number]


def taken(library: Path, given: bytes) -> int:
    """The number by which bytes are refused, or 0 where they are those of a router, which goes on."""
    wanted = refusals(given)
    try:
        router = Router.restore(given, library=library)
    except viqeshor.Refused as refused:
        if refused.answer not in wanted:
            raise AssertionError(f"refused by {refused.answer.value} in place of {wanted}: {given.hex()}") from None
        return refused.answer.value
    if 0 not in wanted:
        router.end()
        raise AssertionError(f"taken in place of {wanted}: {given.hex()}")
    with router:
        if router.save() != given:
            raise AssertionError(f"the router saves {router.save().hex()} in place of {given.hex()}")
        moment = router.next_moment()
        if moment is not None and moment <= 2**62 and router.advance(moment) != Answer.DONE:
            raise AssertionError(f"no time passes: {given.hex()}")
    return 0


def spoil(library: Path, all_saved: list[bytes], asked: argparse.Namespace) -> bool:
    draws, answers, wrong = random.Random(asked.seed), dict.fromkeys(sorted([0, *REFUSED_BYTES, *REFUSED_STATES]), 0), 0
    for saved in sorted(set(all_saved)):
        for given in spoilt(saved, asked.spoilt, draws):
            try:
                answers[taken(library, given)] += 1
            except AssertionError as error:
                wrong += 1
                print(error)
    counts = ", ".join(f"{count} by {number}" for number, count in answers.items() if number)
    print(f"{sum(answers.values())} times spoilt, {answers[0]} routers, refused: {counts}; {wrong} other answers")
    return not wrong


# ---- what it costs


def full(library: Path, facts: int) -> Router:
    """A router with as many facts: half of them groups that hosts want of a source, half these sources."""
    links, ways = [("10.0.0.1", 24), ("10.0.1.1", 24)], [("0.0.0.0/0", "10.0.0.2", 0, 110, 20)]
    router = made(library, (links, [], ways, {"limit": max(facts, 8)}))
    router.up(0)
    router.up(1)
    for number in range(facts // 2):
        group = f"232.{number >> 16}.{number >> 8 & 255}.{number & 255}"
        if router.frame(1, hosts.join("10.0.1.9", group, "10.9.0.5")) != Answer.DONE:
            break
    return router


def costs(library: Path, facts: int) -> None:
    router, saving, restoring = full(library, facts), [], []
    for _ in range(3):
        start = time.perf_counter()
        saved = router.save()
        saving.append(time.perf_counter() - start)
        start = time.perf_counter()
        other = Router.restore(saved, library=library)
        restoring.append(time.perf_counter() - start)
        other.end()
    size, save, restore = len(saved), min(saving), min(restoring)
    print(
        f"{facts} facts, {size} bytes: saved in {save:.3f} s, with the size asked first, restored in {restore:.3f} s; "
        f"a million bytes in {save * 1e6 / size:.3f} s and {restore * 1e6 / size:.3f} s"
    )
    router.end()


def add_words(parser: argparse.ArgumentParser) -> None:
    parser.add_argument("--runs", type=int, default=100, metavar="N")
    parser.add_argument("--seed", type=int, default=1, metavar="N")
    parser.add_argument("--events", type=int, default=120, metavar="N", help="of a random run")
    parser.add_argument("--spoilt", type=int, default=500, metavar="N", help="of each saved state")
    parser.add_argument("--facts", type=int, default=40_000, metavar="N")
    add_choice(parser)
    parser.add_argument("files", nargs="*", type=Path, metavar="SCENARIO.toml")


def is_right(asked: argparse.Namespace) -> bool:
    library = chosen(asked)[0].shared()
    scenarios = stored(library, asked.files)
    good = [scenarios.print("stored scenarios")]
    runs = random_runs(library, asked)
    good.append(runs.print("random runs"))
    good.append(spoil(library, scenarios.saved + runs.saved, asked))
    costs(library, asked.facts)
    return all(good)
