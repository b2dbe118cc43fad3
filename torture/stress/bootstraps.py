"""Gives hostile Bootstraps to a router that listens, and compares it with a reading of RFC 5059.

    torture/run bootstraps [--seconds N] [--seed N] [--storm SECONDS] [--forget RULE | --each] [--unproved |
    --sanitized | --from FOLDER | --archive FILE]

A router and its listener take what comes, by the library's calls. Beside them a plain reading of the RFC and of
docs/COMPLIANCE.md (stress.rfc5059) says what each answer has to be, what is sent on, which RPs are known and until
when, and which of them the router has. After each event all of it is compared; the router may refuse nothing that it is
given. First come the trials: messages cut after each byte or with each bit flipped, fragments that never end, more RPs
than there is room for, and so on. Then random runs, for so many seconds in all (60); --seed N begins with that run.
Last come storms: a message each millisecond for an hour of simulated time, or for as long as --storm says, of several
kinds; the calls' time and allocations are printed. The first divergence is printed, with the events up to it. With
--forget the reading forgets a rule (--rules lists them), so it has to diverge from the router in a trial or a random
run; with --each every rule is tried so. The exit status is 0 where all came as it has to.
"""
import argparse
import ctypes
import os
import sys
import time
from collections.abc import Callable, Iterable, Iterator
from pathlib import Path

from pimtext.build import sanitized
from pimtext.build.library import ROOM as LIBRARIES
from pimtext.build.library import chosen
from stress import forgetting
from stress.heard import ABOVE, BSR_BELOW, OTHER_BSR, Diverged, Heard
from stress.plane import REFUSING, WRAPS, counting, refusing
from stress.rfc5059 import RULES, packet
from stress.odd_bootstraps import TRIALS, USUAL, WIDE, Random, mended, whole
from viqeshor import Answer, Draw
from viqeshor.bsr import declared
from viqeshor.lab.packets import Bootstrap, bootstrap_message

# ---- trials and random runs


def differs(heard: Heard, happens: Callable[[Heard], None]) -> tuple[str, ...]:
    """What differs first of what happens, as lines; none where nothing does."""
    try:
        happens(heard)
    except Diverged as diverged:
        return diverged.args
    return ()


def trial(library: Path, name: str, forgets: Iterable[str] = ()) -> tuple[tuple[str, ...], list[str]]:
    """What differs in a trial, and what happened."""
    happens, settings = TRIALS[name]
    with Heard(library, forgets, **settings) as heard:
        return differs(heard, happens), heard.words


def run(library: Path, seed: int, count: int, forgets: Iterable[str] = ()) -> tuple[tuple[str, ...], list[str]]:
    """The same of a random run of so many events."""
    told = Random(seed)

    def happens(heard: Heard) -> None:
        for _ in range(count):
            told.happen(heard)

    with Heard(library, forgets, **told.settings) as heard:
        return differs(heard, happens), heard.words


def told(what: str, lines: tuple[str, ...], words: list[str]) -> bool:
    """Whether nothing differs; what does is printed."""
    if lines:
        print(f"{what}, {len(words)} events:")
        print("\n".join(f"  {number} {word}" for number, word in enumerate(words, 1)))
        print("\n".join(f"  {line}" for line in lines))
    return not lines


def all_trials(library: Path) -> Iterator[bool]:
    for name in TRIALS:
        lines, words = trial(library, name)
        yield told(f"trial {name}", lines, words)
        print(f"{name}: {len(words)} events: {'a divergence' if lines else 'no divergence'}", flush=True)


def all_runs(library: Path, asked: argparse.Namespace) -> bool:
    def one(seed: int) -> int | None:
        lines, words = run(library, seed, asked.events)
        return len(words) if told(f"seed {seed}", lines, words) else None

    return forgetting.all_runs(asked, one)


def is_noticed(library: Path, rule: str, asked: argparse.Namespace) -> bool:
    """Whether a reading that forgets a rule differs from the router in a trial, or in a random run."""
    name = next((name for name in TRIALS if trial(library, name, [rule])[0]), None)
    seed = None if name else next((seed for seed in range(1, 200) if run(library, seed, asked.events, [rule])[0]), None)
    return forgetting.said_of(rule, RULES, seed, name)


# ---- storms

ELECTED = Bootstrap(OTHER_BSR, (WIDE,), priority=200)
NARROW = whole("239.2.0.0", 16, ["10.99.0.1"])
# Each kind with its messages, which come by turns beside one of the elected BSR each minute, and what becomes of them.
STORMS = {
    "the same message": ([bootstrap_message(ELECTED)], Answer.DONE),
    "two messages by turns": (
        [bootstrap_message(ELECTED), bootstrap_message(Bootstrap(OTHER_BSR, (NARROW,), priority=200))], Answer.DONE),
    "of less weight": ([bootstrap_message(USUAL)], Answer.NOT_PREFERRED),
    "not from the RPF neighbour": ([bootstrap_message(Bootstrap(BSR_BELOW, (WIDE,)))], Answer.NOT_FROM_RPF),
    "cut": ([bootstrap_message(USUAL)[:-1]], Answer.SHORT),
}
MINUTE = 60_000
# The router keeps the memory of so many packets, and of lists of packets, for later ones.
ROOM = 128 + 4


class Storm:
    """A message each millisecond, by calls of C, since Python's take longer than the library's work."""

    def __init__(self, library: Path, kind: str) -> None:
        bodies, self.wanted = STORMS[kind]
        self.frames = [mended(packet(ABOVE[1], body)) for body in bodies]
        self.calls, self.counts = declared(str(library)), counting(library)
        self.most, self.answers, self.seconds = 0, set(), 0.0

    def frame(self, moment: int) -> bytes:
        return self.frames[moment % len(self.frames)]

    def blow(self, heard: Heard, count: int) -> None:
        """So many messages. The reading is told of the last ones, and what they are compared with."""
        now, begin = heard.wanted.around.now, time.process_time()
        end = now + count - len(self.frames)
        self.come(heard.router._at, heard.bsr._at, range(now + 1, end + 1))
        self.seconds += time.process_time() - begin
        for moment in range(end + 1 - len(self.frames), end + 1):
            heard.wanted.pass_to(moment)
            heard.wanted.hear(ABOVE[0], self.frame(moment))
        for moment in range(end + 1, now + count + 1):
            heard.pass_to(moment)
            self.answers.add(heard.frame(ABOVE[0], self.frame(moment)))
        heard.words.clear()

    def come(self, router: ctypes.c_void_p, bsr: ctypes.c_void_p, moments: Iterable[int]) -> None:
        calls, draw, moved = self.calls, Draw(7), ctypes.c_bool()
        for moment in moments:
            calls.viq_advance(router, moment, draw)
            calls.viq_clear(router)
            calls.viq_bsr_pass(bsr, moment, ctypes.byref(moved))
            data = self.frame(moment)
            self.counts.refuse_allocation(0)
            answer = calls.viq_frame(router, ABOVE[0], data, len(data), draw)
            if answer == Answer.OTHER_TYPE:
                answer = calls.viq_bsr_hear(bsr, router, ABOVE[0], data, len(data), ctypes.byref(moved))
            self.most = max(self.most, self.counts.allocations())
            self.answers.add(answer)
            calls.viq_clear(router)

    def all(self, heard: Heard, count: int) -> None:
        """All of it, minute by minute; a Bootstrap of the elected BSR comes before each."""
        for data in (packet(ABOVE[1], bootstrap_message(ELECTED)), *self.frames) * 2:
            heard.frame(ABOVE[0], data)
        self.blow(heard, 1000)
        kept = self.counts.kept_blocks()
        for first in range(0, count, MINUTE):
            heard.tell(ELECTED)
            self.blow(heard, min(MINUTE, count - first))
        heard.same("the answers", self.answers, {self.wanted})
        is_more = self.counts.kept_blocks() > kept + ROOM
        heard.same("whether more blocks are kept than the router's room", is_more, False)
        if self.wanted != Answer.DONE:
            heard.same("how many allocations a message that changes nothing takes", self.most, 0)


def storm(library: Path, kind: str, seconds: int) -> bool:
    """Whether all comes as it has to in a storm of so many seconds."""
    blows = Storm(library, kind)
    with Heard(library) as heard:
        lines = differs(heard, lambda heard: blows.all(heard, 1000 * seconds))
    count = 1000 * (seconds + 1)
    print(f"a storm, {kind}: {count} messages, {blows.seconds / count * 1e6:.1f} µs each with a millisecond, at most "
          f"{blows.most} allocations: {'a divergence' if lines else 'no divergence'}", flush=True)
    return told(f"a storm, {kind}", lines, [])


# ---- the tool


def add_words(parser: argparse.ArgumentParser) -> None:
    forgetting.add_runs(parser, 60, 200)
    parser.add_argument("--storm", type=int, default=3600, metavar="SECONDS", help="of simulated time, each storm")
    library = forgetting.add_rules(parser, RULES)
    library.add_argument("--sanitized", action="store_true", help="before any proof, each access checked")


def library_of(asked: argparse.Namespace) -> Path:
    """The library that is asked for. What checks the sanitized one has to be the first library of the process, which so
    begins anew."""
    if not asked.sanitized:
        return refusing(chosen(asked)[0])
    if os.environ.get("LD_PRELOAD") != sanitized.runtime():
        os.execve(sys.executable, [sys.executable, *sys.argv], os.environ | sanitized.environment())
    return sanitized.shared(LIBRARIES / "sanitized" / "libviqeshor_refusing.so", [REFUSING], *WRAPS)


def all_of(library: Path, asked: argparse.Namespace) -> bool:
    return (
        all(list(all_trials(library)))
        and all_runs(library, asked)
        and all([storm(library, kind, asked.storm) for kind in STORMS])
    )


def is_right(asked: argparse.Namespace) -> bool:
    return forgetting.is_right(asked, RULES, library_of, is_noticed, all_of)
