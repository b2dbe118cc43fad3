"""What is done beside the kit's gate, in its own lanes: a clock round each of its tasks, and once a crate is proved its
edits, many in one check (upkeep/together.py), and what is made of it."""
from __future__ import annotations

import hashlib
import os
import subprocess
import sys
import tempfile
import time
from collections.abc import Callable, Iterable, Iterator
from pathlib import Path
from typing import TYPE_CHECKING, Any

from pimtext.build import checks, kit
from pimtext.build.kept import cache
from upkeep.edits import Crate, Edit
from upkeep.together import Answer, Prover, all_tried

if TYPE_CHECKING:
    from types import ModuleType

# In the environment: whose edits are tried, as names of crates or of edits (CRATE/EDIT). With the word `--anew` nothing
# is taken that was tried before, with `--whole` what is made of proved crates is tried too.
ASKED = "VIQESHOR_EDITS"
# What judges: where it changes, all is tried again.
JUDGES = [Path(checks.__file__),
          *(Path(__file__).with_name(f"{it}.py") for it in ("beside", "edits", "functions", "together"))]
# What is run once a crate is proved: the archive for C is built over the libraries that the gate has proved just now,
# and what both of the kit's compilers made of the program plays the stored scenarios, and is refused things by the
# system. The kernel computes the lines of the stored scenarios by the definitions, beside the worked runs, and refuses
# a wrong one.
ONCE_PROVED = {
    "pim_runs": [({}, "dev/computed_run --seconds 1200 crates/test_scenarios/data"),
                 ({"KERNEL": "1"}, "dev/try_tools computed_run")],
    "pim_c": [({}, "tools/library --after-test")],
    "pimlab": [({"PIMLAB_BUILD": it}, "dev/try_tools pimlab wires") for it in ("proved", "by-rattle")],
}
# How many sums the store holds, of which a crate has one for each state that it was tried in.
MOST_KEPT = 400


def say(*lines: str) -> None:
    """Prints lines by one write, since tasks end side by side."""
    sys.stdout.write("".join(f"{line}\n" for line in lines))
    sys.stdout.flush()


# ---- what was tried before


def sum_of(*parts: bytes) -> str:
    total = hashlib.sha256()
    for part in parts:
        total.update(b"%d\n" % len(part) + part)
    return total.hexdigest()[:32]


def stands_on(top: Path, name: str) -> str:
    """A sum of all that a verdict on a crate's edits stands on, but for these: the kit, what judges, the crate, and the
    libraries below it as they are built (each of which holds a sum of its files)."""
    files = [it for part in ("src", "specs", "proofs") for it in (top / "crates" / name / part).rglob("*")]
    files = [it for it in sorted(files) if it.is_file()]
    below = [checks.library(it, top) / "format" for it in checks.below(name, checks.named(top))]
    texts = [part for it in files for part in (str(it.relative_to(top)).encode(), it.read_bytes())]
    return sum_of(*((kit.kit() / it).read_bytes() for it in ("KIT-ID", "WHAT")),
                  *(it.read_bytes() for it in (*JUDGES, *below)), *texts)


class Store:
    """The edits of a crate that an earlier run of this user refused, by sums of all that they stand on: a file for each
    state of a crate, with a line for each edit. The files that were used last stay."""

    def __init__(self, top: Path, name: str) -> None:
        self.folder = cache() / "edits"
        self.path = self.folder / f"{name}-{stands_on(top, name)}"

    def read(self) -> dict[str, str]:
        """What was said of the edits, by their sums."""
        if not self.path.is_file():
            return {}
        os.utime(self.path)
        lines = self.path.read_text(encoding="utf-8").splitlines()
        return {line[:32]: line[33:] for line in lines}

    def put(self, said: dict[str, str]) -> None:
        self.folder.mkdir(mode=0o700, parents=True, exist_ok=True)
        with tempfile.NamedTemporaryFile("w", dir=self.folder, delete=False, encoding="utf-8") as file:
            file.write("".join(f"{key} {line}\n" for key, line in said.items()))
        os.replace(file.name, self.path)
        for old in sorted(self.folder.iterdir(), key=lambda it: -it.stat().st_mtime)[MOST_KEPT:]:
            old.unlink(missing_ok=True)


def tried(
    top: Path, edits: list[Edit], before: Iterable[str] = (), anew: bool = False
) -> Iterator[tuple[Edit, Answer]]:
    """What comes of these edits of a crate over the libraries that the gate has just built. Those that are refused as
    they say are kept."""
    crate = edits[0].crate
    store = Store(top, crate.name)
    known = {} if anew else store.read()
    keys = {edit: sum_of(edit.name.encode(), "\n".join(edit.lines).encode()) for edit in edits}
    left = [edit for edit in edits if keys[edit] not in known]
    yield from ((edit, ("refused", known[keys[edit]])) for edit in edits if edit not in left)
    if not left:
        return
    with tempfile.TemporaryDirectory(prefix="gate-edits-") as room:
        prover = Prover(crate, Path(room), checks.over(crate.name, top, top), before)
        for edit, (came, more) in all_tried(left, prover):
            if came == "refused":
                known[keys[edit]] = more
            yield edit, (came, more)
    store.put({**store.read(), **known})


def lines_on(top: Path, edits: list[Edit], before: Iterable[str], anew: bool) -> list[str]:
    """A line `edit CRATE/EDIT: ANSWER: MORE` on each of these edits of a crate."""
    came = {edit: ("not tried", "") for edit in edits}
    try:
        came.update(tried(top, edits, before, anew))
    except OSError as error:
        came = {edit: ("not tried", str(error)) for edit in edits}
    return [f"edit {edit.crate.name}/{edit.name}: {': '.join(filter(None, it))}" for edit, it in came.items()]


# ---- the lanes


class Counted(subprocess.Popen):
    """A process whose processor seconds are counted for the task that it was begun for: by the folder that it runs in,
    which is the crate's, and its words."""

    used: dict[tuple[str, str], float] = {}

    def __init__(self, args: Any, *more: Any, cwd: Any = None, **how: Any) -> None:
        folder = Path(os.fspath(cwd)) if cwd else None
        self.task = (folder.name, task_of(args, folder)) if folder else None
        super().__init__(args, *more, cwd=cwd, **how)

    def _try_wait(self, wait_flags: int) -> tuple[int, int]:
        try:
            pid, status, usage = os.wait4(self.pid, wait_flags)
        except ChildProcessError:
            return self.pid, 0
        if pid and self.task:
            used = usage.ru_utime + usage.ru_stime
            Counted.used[self.task] = Counted.used.get(self.task, 0) + used
        return pid, status


def task_of(words: Any, folder: Path) -> str:
    """For which task of a crate the kit runs a command in a folder."""
    if folder.parent.name != "crates":
        return "edits"
    return "tests" if isinstance(words, list) and "--test" in words else "proof"


def asked(top: Path) -> dict[str, list[Edit]]:
    """The edits that the environment asks for, by their crates."""
    words = os.environ.get(ASKED, "").split()
    found: dict[str, list[Edit]] = {}
    for name in {it.partition("/")[0] for it in words if not it.startswith("-")}:
        edits = Crate(top / "crates" / name).edits()
        chosen = [edit for edit in edits if name in words or f"{name}/{edit.name}" in words]
        found.update({name: chosen} if chosen else {})
    return found


def timed(key: tuple[str, ...], call: Callable[[Any, Any], Any]) -> Callable[[Any, Any], Any]:
    """A task with a line `seconds CRATE TASK WALL PROCESSOR` at its end."""

    def task(given: Any, jobs: Any) -> Any:
        began, name = time.monotonic(), (key[0], key[-1] if key[-1] in ("proof", "tests", "made") else "edits")
        before = Counted.used.get(name, 0)
        try:
            return call(given, jobs)
        finally:
            used = Counted.used.get(name, 0) - before
            say(f"seconds {' '.join(name)} {time.monotonic() - began:.1f} {used:.1f}")

    return task


def run_once_proved(top: Path, name: str, before: Iterable[str]) -> None:
    """Runs what is to be run once a crate is proved: a line `once CRATE is proved, COMMAND: ok`, or what it printed."""
    for more, command in ONCE_PROVED[name]:
        settings = [f"{key}={value}" for key, value in more.items()]
        status, lines = checks.ran([*before, "env", *settings, *command.split()], top)
        came = ["ok"] if not status else ["RED", *lines[-20:]]
        say(f"once {name} is proved, {' '.join([*settings, command])}: " + "\n".join(came))


def more_tasks(made: ModuleType, tasks: dict[Any, Any], anew: bool) -> Iterator[tuple[Any, Any]]:
    """The tasks that are added to the kit's: like its own edits these fill what the proofs leave free."""
    top, words = Path.cwd(), os.environ.get(ASKED, "").split()
    anew = anew or "--anew" in words

    def task(name: str, call: Callable[[], None]) -> Any:
        waits, needs = [(name, "proof"), (name, "tests")], made.OVER * tasks[name, "proof"][2]
        return waits, tasks[name, "proof"][1], needs, lambda given, _: all(given[it] for it in waits) and call()

    for name, edits in asked(top).items():
        if (name, "proof") in tasks:
            yield (name, "edits", "together"), task(name, lambda edits=edits: say(
                *lines_on(top, edits, made.rtlib.guarded(), anew)))
    for name in ONCE_PROVED if "--whole" in words else ():
        if (name, "proof") in tasks:
            yield (name, "edits", "made"), task(name, lambda name=name: run_once_proved(
                top, name, made.rtlib.guarded()))


def added(made: ModuleType, anew: bool) -> None:
    """Has the kit's gate, loaded as a module, do so."""
    inner = made.in_lanes
    subprocess.Popen = Counted

    def in_lanes(tasks: dict[Any, Any]) -> Any:
        tasks = {**tasks, **dict(more_tasks(made, tasks, anew))}
        return inner({key: (*task[:-1], timed(key, task[-1])) for key, task in tasks.items()})

    made.in_lanes = in_lanes
