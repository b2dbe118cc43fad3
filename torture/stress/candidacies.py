"""Refuses memory to a router's candidacy, one allocation of each of its calls at a time."""
from __future__ import annotations

import itertools
import time
from collections import Counter
from collections.abc import Callable
from pathlib import Path
from typing import Any

import viqeshor
from stress.elections import run, told
from stress.plane import counting
from stress.stands import Came, Node

# So many random events a run.
EVENTS = 10
# What became of the calls to which memory was refused.
SUMS: Counter[str] = Counter()


class Refusing(Node):
    """Each call of the candidacy is made once more for each of its allocations, which is refused, and then with none
    refused. Where memory was refused nothing has changed, or the router is lost, or the call did without it."""

    def __init__(self, library: Path, *given: Any) -> None:
        self.counting = counting(library)
        super().__init__(library, *given)

    def called(self, call: Callable[[], Came]) -> Came:
        saved = self.router.save()
        for number in itertools.count(1):
            try:
                self.counting.refuse_allocation(number)
                came = call()
            except viqeshor.NoMemory:
                SUMS["unchanged"] += 1
            except viqeshor.Lost:
                SUMS["lost"] += 1
                self.router.end()
                self.router = viqeshor.Router.restore(saved, library=self.library)
            else:
                # Some do without it, and bring the same: what came is compared as ever.
                SUMS["without"] += self.counting.allocations() >= number
                return came
            finally:
                self.counting.refuse_allocation(0)
            self.compare()


def is_right(library: Path, seconds: float) -> bool:
    """Random runs for so many seconds."""
    end, seed, is_as_ever = time.monotonic() + seconds, 1, True
    while is_as_ever and time.monotonic() < end:
        is_as_ever = told(seed, *run(library, seed, EVENTS, (), Refusing))
        seed += 1
    print(f"candidacies: {SUMS['lost']} routers lost, {SUMS['unchanged']} calls that changed nothing and "
          f"{SUMS['without']} done without, in {seed - 1} runs: "
          f"{'no other outcome' if is_as_ever else 'another outcome'}")
    return is_as_ever
