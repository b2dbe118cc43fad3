"""Compares a router behind a data plane with a router alone.

    torture/run plane [--runs N] [--seed N] [--events N] [--forget DUTY | --each] [--unproved | --from FOLDER |
    --archive FILE]

First each router of each stored scenario takes its events. Then come runs of random events (stress.happenings):
Hellos, Join/Prunes, Asserts, reports, data on every interface, spoilt packets, Registers, routes, RP ranges and
candidate RPs that change, links that go down, time, in some runs a limit that leaves little room, and now and then
memory that is refused.
One router takes them all. In front of another router is a data plane (stress.dataplane) that forwards by the rows
which it reads from the router, and reports later what it forwarded, as include/viqeshor/plane.h says. After each event
both have to have answered and sent the same; now and then, and at the end, all tables have to be the same. The first
divergence is printed, with the events up to it; --seed N begins with that run. With --forget the plane neglects a duty
(--duties lists them), so it has to diverge in one of the random runs; with --each every duty is tried so. The exit
status is 0 where all came as it has to.
"""
import argparse
import ctypes
import random
from collections.abc import Callable, Iterable, Iterator
from dataclasses import dataclass
from pathlib import Path
from typing import TYPE_CHECKING, Any

import viqeshor
from pimtext.build.library import CC, beside, chosen, ran
from stress import forgetting
from stress.dataplane import DUTIES, CaughtUp, Plane, outcome
from stress.happenings import Event, Happenings, events_of
from stress.stored import made, routers

if TYPE_CHECKING:
    from pimtext.build.library import Library

REFUSING = Path(__file__).resolve().parent.parent / "refuse" / "plane.c"
WRAPS = [f"-Wl,--wrap={name}" for name in ("malloc", "realloc", "free")]


@dataclass(frozen=True)
class Divergence:
    """What differs after some events."""
    run: str
    events: tuple
    lines: tuple

    def print(self) -> None:
        print(f"{self.run}, {len(self.events)} events:")
        for number, event in enumerate(self.events, 1):
            print(f"  {number} {event.words}")
        print("\n".join(f"  {line}" for line in self.lines))


def refusing(library: "Library") -> Path:
    """A shared library to which memory can be refused."""
    built = library.room / "libviqeshor_refusing.so"
    whole = ["-Wl,--whole-archive", library.archive, "-Wl,--no-whole-archive"]
    ran([CC, "-shared", "-fPIC", "-O2", "-o", beside(built), REFUSING, *WRAPS, *whole])
    return beside(built).replace(built)


def counting(library: Path) -> ctypes.CDLL:
    """What such a library tells of its memory."""
    counts = ctypes.CDLL(str(library))
    counts.allocations.restype, counts.kept_blocks.restype = ctypes.c_ulong, ctypes.c_long
    return counts


def tables(router: viqeshor.Router) -> list[str]:
    try:
        return list(router.tables())
    except viqeshor.Error as refused:
        return [f"no tables: {refused}"]


class Pair:
    """A router alone, and one behind a plane."""

    def __init__(self, library: Path, given: tuple[Any, ...], tells: str = "keep", forgets: Iterable[str] = ()) -> None:
        self.refuse = ctypes.CDLL(library).refuse_memory
        self.alone, behind = (made(library, given) for _ in range(2))
        # A guard stands before what comes to the router, and not before what a plane forwards by itself.
        self.alone.set_guard(False)
        behind.set_guard(False)
        self.plane = Plane(behind, [own for own, *_ in given[0]], tells, forgets)

    def end(self) -> None:
        self.alone.end()
        self.plane.router.end()

    def take(self, event: Event) -> tuple[str, ...]:
        """What differs of what an event brought, as lines."""
        try:
            if event.is_refused:
                self.plane.catch_up()
            self.refuse(event.is_refused)
            wanted = outcome(self.alone, event.call, *event.values, draw=event.draw)
            got = self.plane.take(event)
        except CaughtUp as caught:
            return ("as the router caught up:", str(caught))
        finally:
            self.refuse(False)
        return () if got == wanted else ("alone:", *wanted.lines(), "behind the plane:", *got.lines())

    def compare(self) -> tuple[str, ...]:
        """What differs of the tables, as lines."""
        try:
            self.plane.catch_up()
        except CaughtUp as caught:
            return ("as the router caught up:", str(caught))
        wanted, got = tables(self.alone), tables(self.plane.router)
        return (
            ()
            if got == wanted
            else ("alone:", *(set(wanted) - set(got)), "behind the plane:", *(set(got) - set(wanted)))
        )

    def play(
        self, run: str, events: Iterable[Event], is_looked_at: Callable[[], bool]
    ) -> tuple[Divergence | None, int]:
        """The first divergence, or None, and how many events there were. The tables are looked at where it is said so,
        and at last."""
        taken = []
        try:
            for event in events:
                taken.append(event)
                lines = self.take(event) or (self.compare() if is_looked_at() else ())
                if lines:
                    return Divergence(run, tuple(taken), lines), len(taken)
            lines = self.compare()
            return Divergence(run, tuple(taken), lines) if lines else None, len(taken)
        finally:
            self.end()


# ---- runs


def run(library: Path, seed: int, count: int, forgets: Iterable[str] = ()) -> tuple[Divergence | None, int, int]:
    """A random run: what differed first, or None, how many events there were, and how many packets the plane
    decided."""
    told, looks = Happenings(seed), random.Random(seed)
    tells = told.draws.choice(("keep", "seen"))
    pair = Pair(library, (told.interfaces, told.ranges, told.routes, told.settings), tells, forgets)
    events = (told.one(pair.alone.next_moment()) for _ in range(count))
    found, took = pair.play(f"seed {seed}", events, lambda: looks.random() < 0.1)
    return found, took, pair.plane.by_itself


def runs(
    library: Path, asked: argparse.Namespace, forgets: Iterable[str] = ()
) -> tuple[Divergence | None, int, int, int]:
    """The first divergence of some runs, or None, and what they came to."""
    events, decided = 0, 0
    for number in range(asked.runs):
        found, took, by_itself = run(library, asked.seed + number, asked.events, forgets)
        events, decided = events + took, decided + by_itself
        if found:
            return found, number + 1, events, decided
    return None, asked.runs, events, decided


def stored(library: Path) -> tuple[Divergence | None, int, int, int]:
    """The first divergence of the routers of the stored scenarios, or None; how many they are, their events, and what
    was decided."""
    count, events, decided = 0, 0, 0
    for router in routers():
        pair = Pair(library, router.given())
        found, took = pair.play(str(router), events_of(router.steps), lambda: False)
        count, events, decided = count + 1, events + took, decided + pair.plane.by_itself
        if found:
            return found, count, events, decided
    return None, count, events, decided


def told(what: str, found: Divergence | None, events: int, decided: int) -> bool:
    if found:
        found.print()
    print(
        f"{what}, {events} events, {decided} packets decided by the plane: "
        f"{'a divergence' if found else 'no divergence'}",
        flush=True,
    )
    return not found


def sound(library: Path, asked: argparse.Namespace) -> Iterator[bool]:
    found, count, events, decided = stored(library)
    yield told(f"{count} routers of the stored scenarios", found, events, decided)
    found, count, events, decided = runs(library, asked)
    yield told(f"{count} runs", found, events, decided)


def is_sound(library: Path, asked: argparse.Namespace) -> bool:
    return all(list(sound(library, asked)))


def forgetful(library: Path, duty: str, asked: argparse.Namespace) -> bool:
    found, count, events, _ = runs(library, asked, [duty])
    if found and not asked.each:
        found.print()
    came = f"diverges in run {count}, after {len(found.events)} events" if found else f"no divergence in {count} runs"
    print(f"{duty} ({DUTIES[duty]}): {came}", flush=True)
    return found is not None


def add_words(parser: argparse.ArgumentParser) -> None:
    parser.add_argument("--runs", type=int, default=1000, metavar="N")
    parser.add_argument("--seed", type=int, default=1, metavar="N")
    parser.add_argument("--events", type=int, default=120, metavar="N", help="of a run")
    forgetting.add_rules(parser, DUTIES, "duty", "duties")


def is_right(asked: argparse.Namespace) -> bool:
    return forgetting.is_right(asked, DUTIES, lambda asked: refusing(chosen(asked)[0]), forgetful, is_sound)
