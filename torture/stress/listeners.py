"""Refuses memory to a router's listener, one allocation of each of its calls at a time."""
from __future__ import annotations

import ctypes
import itertools
import time
from collections import Counter
from collections.abc import Callable, Iterator
from pathlib import Path
from typing import Any

import viqeshor
from stress.bootstraps import differs
from stress.heard import STATIC, Came, Heard
from stress.plane import counting
from stress.odd_bootstraps import TRIALS, Random
from viqeshor import ABI, Answer, ranges_of
from viqeshor.bsr import declared

# Random runs, by their seeds, of so many events.
RUNS, EVENTS = range(1, 6), 100


class Refusing(Heard):
    """Each call of the listener is made once more for each of its allocations, which is refused, and then with none
    refused. Where memory was refused nothing has changed, or the router is lost, and the listener is as it was."""

    def __init__(self, library: Path, **settings: Any) -> None:
        self.counting = counting(library)
        self.sums: Counter[str] = Counter()
        super().__init__(library, **settings)

    def called(self, call: Callable[[], Came]) -> Came:
        saved = self.router.save()
        for number in itertools.count(1):
            try:
                self.counting.refuse_allocation(number)
                came = call()
            except viqeshor.NoMemory:
                self.sums["unchanged"] += 1
            except viqeshor.Lost:
                self.sums["lost"] += 1
                self.restore(saved)
            else:
                if self.counting.allocations() < number:
                    return self.done(came, number)
                # Those that give ranges do without some, and then bring the same once more.
                self.sums["without"] += 1
                self.same("whether the call gives ranges", isinstance(came, Answer), True)
                self.restore(saved)
                continue
            finally:
                self.counting.refuse_allocation(0)
            self.compare_known()

    def restore(self, saved: bytes) -> None:
        self.router.end()
        self.router = viqeshor.Router.restore(saved, library=self.library)

    def done(self, came: Came, number: int) -> Came:
        """A call of which no allocation was refused."""
        if self.is_sure(getattr(came, "answer", came)):
            self.same("the first allocation of a call that changes nothing", number, 1)
        return came

    def is_sure(self, answer: Answer | bool) -> bool:
        """By the header such a call takes no memory: a message doesn't count, but for its room, or time passed in which
        no RP in force ended."""
        if isinstance(answer, Answer):
            return answer not in (Answer.DONE, Answer.FULL)
        return len(self.bsr.rps()) == len(self.wanted.kept.rps)


def made(library: Path) -> tuple[tuple[str, ...], int]:
    """What differs where memory is refused to a new listener, and how often it was."""
    calls, counts = declared(str(library)), counting(library)
    for number in itertools.count(1):
        listener = ctypes.c_void_p(7)
        counts.refuse_allocation(number)
        answer = calls.viq_bsr_new(ctypes.byref(listener), ABI, 256, *ranges_of(STATIC), 0)
        counts.refuse_allocation(0)
        if answer == Answer.DONE:
            calls.viq_bsr_end(listener)
            return (), number - 1
        if (answer, listener.value) != (Answer.MEMORY, None):
            return (f"a new listener: answer {answer}, at {listener.value}",), number


def played(
    library: Path, happens: Callable[[Heard], None], settings: dict[str, Any]
) -> tuple[tuple[str, ...], Counter[str]]:
    """What differs in a run, and what came of the refusals in it."""
    with Refusing(library, **settings) as heard:
        return differs(heard, happens), heard.sums


def runs() -> Iterator[tuple[str, Callable[[Heard], None], dict[str, Any]]]:
    """Each with its name, what happens, and the listener's settings."""
    for seed in RUNS:
        told = Random(seed)
        yield f"seed {seed}", lambda heard, told=told: [told.happen(heard) for _ in range(EVENTS)], told.settings
    for name, (happens, settings) in TRIALS.items():
        yield f"trial {name}", happens, settings


def is_right(library: Path, seconds: float) -> bool:
    """Whether all comes as the header says, in as many runs as begin in so many seconds; a sum is printed, and the
    first run in which something else came."""
    (lines, refused), kept_blocks = made(library), counting(library).kept_blocks
    sums, kept, end, count = Counter(unchanged=refused), kept_blocks(), time.monotonic() + seconds, 0
    for name, happens, settings in runs():
        if lines or time.monotonic() > end:
            break
        lines, came = played(library, happens, settings)
        sums, count = sums + came, count + 1
        if kept_blocks() != kept:
            lines += (f"{kept_blocks() - kept} blocks are kept",)
        print("".join(f"{name}: {line}\n" for line in lines), end="")
    print(f"listeners: {sums['lost']} routers lost, {sums['unchanged']} calls that changed nothing and "
          f"{sums['without']} done without, in {count} runs: {'another outcome' if lines else 'no other outcome'}")
    return not lines
