"""Refuses memory and writes to the program, one call at a time, and looks at what it says then.

    torture/run program [--every N] [FILE.toml ..]

Each scenario (the two routers' run, if none is named) is played once for each allocation, which is refused, and three
times for each write, which is refused, cut to one byte or interrupted; with --every N for each Nth of these alone. Each
run must print all lines; or whole lines from their start, and then `pimlab: no memory` with status 4; or, where a write
was refused, the lines up to that write, and then `pimlab: wire fault` with status 3. A line a scenario and a sum are
printed. The exit status is 1 where anything else came.

It needs the program with its symbols: the proved one, or the one that ./pimlab keeps.
"""
import argparse
import collections
import subprocess
import sys
import tempfile
from pathlib import Path

from pimtext.build import program
from pimtext.build.library import CC

TOP = Path(__file__).resolve().parent.parent.parent
OFTEN = ("alloc", "write", "short", "again")
MEMORY = (4, b"pimlab: no memory\n")
WIRE = (3, b"pimlab: wire fault\n")


def places(binary: str) -> dict[str, str]:
    """Where the functions that are replaced lie in the program."""
    said = subprocess.run(["nm", binary], check=True, capture_output=True, text=True).stdout
    names = {"rattle_alloc": "REFUSE_ALLOC", "rattle_realloc": "REFUSE_REALLOC"}
    found = {}
    for words in map(str.split, said.splitlines()):
        if len(words) == 3 and words[1] == "T" and words[2] in names:
            found[names[words[2]]] = words[0]
    if len(found) < len(names):
        sys.exit(f"torture/run program: {binary} doesn't tell where it allocates")
    return found


class Program:
    """The program under the shim."""

    def __init__(self, binary: str, room: str) -> None:
        self.binary, self.counts = binary, Path(room) / "counts"
        shim = Path(room) / "shim.so"
        source = TOP / "torture" / "refuse" / "shim.c"
        subprocess.run([CC, "-O2", "-Wall", "-shared", "-fPIC", "-o", shim, source], check=True)
        self.env = {**places(binary), "LD_PRELOAD": str(shim), "REFUSE_COUNTS": str(self.counts)}
        # The sanitized build has a runtime of its own, which wants to be the first library.
        self.env["ASAN_OPTIONS"] = "verify_asan_link_order=0:detect_leaks=0"

    def run(self, scenario: Path, kind: str = "", at: int = 0) -> tuple[int, bytes, bytes]:
        """Status, output and complaint of a run, with the call that was chosen refused."""
        env = {**self.env, "REFUSE_KIND": kind, "REFUSE_AT": str(at)}
        words = [self.binary, "run", scenario, "--tables"]
        ran = subprocess.run(words, env=env, stdin=subprocess.DEVNULL, capture_output=True, timeout=120)
        return ran.returncode, ran.stdout, ran.stderr

    def counted(self) -> tuple[int, ...]:
        """How many allocations and writes the last run made."""
        return tuple(map(int, self.counts.read_text().split()))


def outcome(kind: str, got: tuple[int, bytes, bytes], full: tuple[int, bytes, bytes]) -> str | None:
    """In a word what a run came to, or None where it is none of the lawful ones."""
    status, lines, complaint = got
    if got == full:
        return "all lines"
    if not full[1].startswith(lines):
        return None
    if (status, complaint) == MEMORY and (not lines or lines.endswith(b"\n")):
        return "no memory"
    # What tells of a fault of the wire may itself be what couldn't be written.
    if status == 3 and kind != "alloc" and complaint in (WIRE[1], b""):
        return "wire fault"
    return None


def sweep(
    played: Program, scenario: Path, every: int
) -> tuple[int, int, collections.Counter[str | None], list[tuple[str, int, int, bytes, bytes]]]:
    """Plays a scenario with each call refused in turn. How often each outcome came, and the odd ones."""
    full = played.run(scenario)
    allocations, writes = played.counted()
    seen, odd = collections.Counter(), []
    for kind in OFTEN:
        for at in range(1, (allocations if kind == "alloc" else writes) + 1, every):
            got = played.run(scenario, kind, at)
            word = outcome(kind, got, full)
            seen[word] += 1
            if word is None:
                odd.append((kind, at, got[0], got[1][-80:], got[2][-200:]))
    return allocations, writes, seen, odd


def add_words(parser: argparse.ArgumentParser) -> None:
    parser.add_argument("--every", type=int, default=1, metavar="N")
    parser.add_argument("files", nargs="*", type=Path, metavar="FILE.toml")


def is_right(asked: argparse.Namespace) -> bool:
    total = collections.Counter()
    with tempfile.TemporaryDirectory(prefix="refuse-") as room:
        played = Program(program.kept(), room)
        for scenario in asked.files or [TOP / "crates" / "pimlab" / "data" / "two_routers.toml"]:
            allocations, writes, seen, odd = sweep(played, scenario, asked.every)
            told = ", ".join(f"{count} {word}" for word, count in sorted(seen.items(), key=str) if word)
            print(f"{scenario.stem}: {allocations} allocations, {writes} writes: {told}, {len(odd)} other", flush=True)
            for one in odd:
                print("   ", *one)
            total += seen
    print(f"{sum(total.values())} runs, {total[None]} with another outcome")
    return not total[None]
