"""How long the gate takes by what its tasks take: its longest chain, and its time on some processors, as the kit's
lanes run tasks (a processor a task, first those with the longest chain behind them; edits fill what proofs leave)."""
from __future__ import annotations

import heapq
from collections.abc import Iterable
from dataclasses import dataclass

# The proof of a crate; what comes after it.
Key = tuple[str, str]
Seconds = dict[Key, float]
PROOF, FILLS = "proof", ("edits", "made", "quick")


@dataclass(frozen=True)
class Gate:
    """What the gate does: the crates, lowest first, each with those that it stands on, and the seconds of each task."""

    below: dict[str, list[str]]
    seconds: Seconds

    def waits(self, key: Key) -> list[Key]:
        """The tasks that one begins after."""
        crate, task = key
        after = [(crate, PROOF)] if task in FILLS else [(it, PROOF) for it in self.below.get(crate, [])]
        return [it for it in after if it in self.seconds]

    def chain(self) -> list[str]:
        """The crates of the longest chain of proofs, lowest first."""
        longest: dict[str, list[str]] = {}
        length = lambda chain: sum(self.seconds.get((it, PROOF), 0) for it in chain)
        for crate, below in self.below.items():
            before = max((longest[it] for it in below), key=length, default=[])
            longest[crate] = [*before, crate]
        return max(longest.values(), key=length)

    def behind(self) -> Seconds:
        """The seconds of each task and of the longest chain that waits for it."""
        found = dict(self.seconds)
        for crate in reversed(self.below):
            for key in [it for it in self.seconds if it[0] == crate and it[1] not in FILLS]:
                for it in self.waits(key):
                    found[it] = max(found[it], self.seconds[it] + found[key])
        return found

    def takes(self, processors: int) -> float:
        """The seconds that it takes on so many idle processors."""
        behind = self.behind()
        left = sorted(self.seconds, key=lambda it: (it[1] in FILLS, -behind[it]))
        done: set[Key] = set()
        running: list[tuple[float, Key]] = []
        now = 0.0
        while left or running:
            ready = [it for it in left if done.issuperset(self.waits(it))][:processors - len(running)]
            for key in ready:
                left.remove(key)
                heapq.heappush(running, (now + self.seconds[key], key))
            now, key = heapq.heappop(running)
            done.add(key)
        return now


def pieces(name: str, seconds: float, of: float = 20) -> Iterable[tuple[Key, float]]:
    """The quick tier as tasks that wait for nothing."""
    count = int(seconds // of) + 1
    return (((f"{name}{at}", "quick"), seconds / count) for at in range(count))
