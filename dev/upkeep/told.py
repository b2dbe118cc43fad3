"""What is told of a run of the gate: a line for each crate that is done, and for each whose edits are, with how long it
has taken and what is left. All that is printed goes to a file; of a crate that isn't proved it is passed on too, and so
is what is said of no crate."""
import re
import time
from collections.abc import Callable, Collection

COUNTS = re.compile(r"(\d+) passed, (\d+) failed( \(.*\))?")
BLOCK = re.compile(r"== (\w+)(: its tests)?")
END = re.compile(r"rt: (\w+)(: its tests are)? (proved|NOT PROVED.*)")
KEPT = re.compile(r"rt: (\w+) is kept: .*")
FUNCTIONS = re.compile(r"logic=proved functions=(\d+) .*")
EDIT = re.compile(r"edit (\w+)/(\w+): ([^:]*)(?:: (.*))?")
SECONDS = re.compile(r"seconds (\w+) (\w+) ([\d.]+) ([\d.]+)")
GOOD = re.compile(r"\w+ \S+: proved")
# Names of so many crates are told.
FEW = 3


def minutes(seconds: float) -> str:
    return f"{int(seconds) // 60} min {int(seconds) % 60:02} s"


class Told:
    """The lines come one by one, and each may bring lines that are told. `tried` are the crates whose edits are tried,
    `limit` the seconds that there are."""

    def __init__(self, names: Collection[str], tried: Collection[str] = (), limit: float | None = None,
                 clock: Callable[[], float] = time.monotonic) -> None:
        self.left, self.count, self.clock, self.limit = sorted(names), len(names), clock, limit
        self.began, self.block, self.functions = clock(), None, 0
        self.untried, self.came = sorted(tried), {}

    def of(self, line: str) -> list[str]:
        """What is told of a line."""
        if BLOCK.fullmatch(line):
            self.block, self.functions = [line], 0
            return []
        if found := END.fullmatch(line):
            return self.ended(line, *found.groups())
        if found := SECONDS.fullmatch(line):
            return self.edits_done(found[1]) if found[2] == "edits" else []
        if found := EDIT.fullmatch(line):
            self.came.setdefault(found[1], []).append(found[3])
            return []
        if self.block is not None:
            return self.within(line)
        if found := KEPT.fullmatch(line):
            return [self.done(found[1], "kept from an earlier run")]
        return [] if COUNTS.fullmatch(line) else [line]

    def within(self, line: str) -> list[str]:
        """The same of one that is of a crate. Those of a crate are printed together, when it is done."""
        if found := FUNCTIONS.fullmatch(line):
            self.functions = int(found[1])
        self.block += [] if GOOD.fullmatch(line) else [line]
        return []

    def ended(self, line: str, name: str, tests: str | None, how: str) -> list[str]:
        """The same of the line that says whether a crate is proved."""
        block, self.block = self.block or [], None
        if how != "proved":
            return [*block, line, *([] if tests else [self.done(name, "NOT PROVED")])]
        if tests:
            return [f"{name}: its tests are proved; {self.so_far()}"]
        return [self.done(name, f"proved, {self.functions} functions")]

    def done(self, name: str, how: str) -> str:
        """A crate's line."""
        if name in self.left:
            self.left.remove(name)
        place = f"{self.count - len(self.left)} of {self.count} crates"
        return f"{place}: {name} {how}; {self.so_far()}; left: {self.what_is_left()}"

    def edits_done(self, name: str) -> list[str]:
        """The same where a crate's edits are tried."""
        if name in self.untried:
            self.untried.remove(name)
        came = self.came.pop(name, [])
        refused = f"{came.count('refused')} of {len(came)} edits are refused as they say"
        return [f"{name}: {refused}; {self.so_far()}; left: {self.what_is_left()}"] if came else []

    def so_far(self) -> str:
        """How long it has taken, and how long it may yet take."""
        now = self.clock() - self.began
        may = f", {minutes(max(self.limit - now, 0))} of TEST_MINUTES left" if self.limit is not None else ""
        return f"{minutes(now)} so far{may}"

    def what_is_left(self) -> str:
        """What isn't done, with the names of a few crates."""
        crates = " ".join(self.left) if len(self.left) <= FEW else f"{len(self.left)} crates"
        untried = " ".join(self.untried) if len(self.untried) <= FEW else f"{len(self.untried)} crates"
        parts = [*([crates] if self.left else []), *([f"edits of {untried}"] if self.untried else [])]
        return ", ".join(parts) or "programs and tests"

    def missing(self) -> str:
        """All that isn't done, by name."""
        parts = [*self.left, *([f"edits of {' '.join(self.untried)}"] if self.untried else [])]
        return ", ".join(parts) or "programs and tests"
