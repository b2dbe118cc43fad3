"""What each kind of event costs the router, and what a fact takes of memory: one table.

    torture/run events [KIND ..] [--whole] [--facts N ..] [--timed N] [--interfaces N OTHER] [--write]
                       [--unproved | --from FOLDER | --archive FILE]

A router with N facts takes some events of a KIND, or of each (torture/stress/loaded.py), in a program with the library
(torture/bench/events.c); each has to be answered VIQ_DONE. A row is a kind. It has the instructions of one event's
call, such as `viq_frame`, for each N (100 and 1,000 if left out), counted by callgrind (Debian's valgrind) from the
first event on; the exponent of their growth from the first N to the last; by how much they differ with the other number
of interfaces (4 and 120 if left out; all are up), at the greatest N up to 1,000; milliseconds of the processor at the N
of --timed, or at the last one, the lesser of two runs; and the bytes that the event is given and sends then. Then a row
for each kind of fact: bytes that the router has asked for and not given back, for one fact.

Targets: as many instructions, to a tenth, with either number of interfaces; at most 20 ms, or what 10 bytes a
microsecond take. What misses one is bold, and listed below the table. A kind that would take above 20,000,000,000
instructions, by the growth so far, is left out. With --whole the numbers are 100, 1,000 and 10,000, and milliseconds
are those at 60,000, unless other ones are given. The last line says how many seconds of the processor all took. With
--write the table goes into docs/BENCH.md. It wants valgrind.
"""
from __future__ import annotations

import argparse
import math
import os
import re
import resource
import subprocess
import sys
import tempfile
from dataclasses import dataclass, field
from functools import cache
from pathlib import Path

from pimtext.build.library import CC, add_choice, chosen
from stress.loaded import FACTS, KINDS, TOLD, Kind, Lines, empty

TOP = Path(__file__).resolve().parent.parent.parent
BENCH, PAGE = TOP / "torture" / "bench", TOP / "docs" / "BENCH.md"
MARKED = re.compile(r"(?s)(<!-- costs -->\n).*?(\n<!-- end -->)")
MOST, MOST_MS, BYTES_A_MS, MOST_PERCENT, RUNS, MANY = 20_000_000_000, 20, 10_000, 10, 2, 1000
SOME, WHOLE, WHOLE_TIMED = [100, 1000], [100, 1000, 10_000], 60_000
REPLACED = {"rattle_alloc": "BYTES_ALLOC", "rattle_realloc": "BYTES_REALLOC", "rattle_dealloc": "BYTES_DEALLOC"}


@dataclass
class Costs:
    """Of a kind: instructions by the number of facts, by how many percent they differ with the other interfaces, and
    of the last number milliseconds and bytes."""
    kind: Kind
    counted: dict[int, int] = field(default_factory=dict)
    percent: float = 0
    milliseconds: float = 0
    moved: int = 0

    def foretold(self, count: int) -> float:
        """The instructions with so many facts, by the growth so far."""
        last = max(self.counted, default=0)
        return self.counted[last] * (count / last) ** max(1, self.exponent()) if last else 0

    def exponent(self) -> float:
        first, last = min(self.counted), max(self.counted)
        return math.log(self.counted[last] / self.counted[first]) / math.log(last / first) if last > first else 0

    def is_late(self) -> bool:
        return self.milliseconds > max(MOST_MS, self.moved / BYTES_A_MS)

    def differs(self) -> bool:
        return abs(self.percent) > MOST_PERCENT

    def row(self, sizes: list[int]) -> str:
        numbers = [f"{self.counted[it]:,}" if it in self.counted else "" for it in sizes]
        cells = [self.kind.name, self.kind.words, *numbers, f"{self.exponent():.2f}"]
        cells += [bold(f"{self.percent:+.0f} %", self.differs()), bold(f"{self.milliseconds:.3g}", self.is_late())]
        return f"| {' | '.join(cells)} | {self.moved:,} |"


@cache
def lines_of(state: Lines, count: int) -> list[str]:
    """The events of a state, which are made once."""
    return state(count)


def bold(text: str, is_missed: bool) -> str:
    return f"**{text}**" if is_missed else text


class Program:
    """The program with the library."""

    def __init__(self, binary: Path, room: Path) -> None:
        self.binary, self.room, self.events = binary, room, room / "events"

    def told(self, interfaces: int, count: int, kinds: list[Kind], *before: object, **more: str) -> list[list[int]]:
        """What it prints of each kind, all of one state."""
        parts = [["kind", *kind.events(count)] for kind in kinds]
        lines = [*lines_of(kinds[0].state, count), *(line for part in parts for line in part), ""]
        self.events.write_text("\n".join(lines))
        words = [*before, self.binary, self.events, str(interfaces)]
        ran = subprocess.run(words, capture_output=True, text=True, env=os.environ | more)
        told = [[int(it) for it in line.split()] for line in ran.stdout.splitlines() if line]
        for kind, line in zip(kinds, told):
            if line[2]:
                sys.exit(f"{kind.name}: answer {line[2]}")
        if ran.returncode or len(told) != len(kinds):
            sys.exit(f"{', '.join(kind.name for kind in kinds)}: status {ran.returncode}\n{ran.stderr[-1000:]}")
        return told

    def counted(self, interfaces: int, count: int, kinds: list[Kind]) -> list[int]:
        """The instructions of one event of each kind."""
        out = self.room / "out"
        words = ["valgrind", "--tool=callgrind", f"--callgrind-out-file={out}.%p", "--instr-atstart=no"]
        told = self.told(interfaces, count, kinds, *words, "--toggle-collect=counted")
        totals = [re.findall(r"^(?:summary|totals): (\d+)", Path(f"{out}.{it[0]}").read_text(), re.M) for it in told]
        return [int(total[-1]) // line[1] for total, line in zip(totals, told)]

    def held(self, state: Lines, count: int) -> int:
        """The bytes that are held in a state, under the shim."""
        shim, said = self.room / "shim.so", self.room / "said"
        subprocess.run([CC, "-O2", "-Wall", "-shared", "-fPIC", "-o", shim, BENCH / "memory.c"], check=True)
        names = subprocess.run(["nm", self.binary], check=True, capture_output=True, text=True).stdout
        found = re.findall(r"^(\S+) [Tt] (\S+)$", names, re.M)
        places = {REPLACED[name]: place for place, name in found if name in REPLACED}
        nothing = Kind("", "", state, lambda _: [])
        self.told(4, count, [nothing], **places, LD_PRELOAD=str(shim), BYTES_SAID=str(said))
        return int(said.read_text().split()[0])

    def measured(self, kinds: list[Kind], sizes: list[int], timed: int, interfaces: list[int]) -> list[Costs]:
        """The costs of kinds of one state."""
        costs = [Costs(kind) for kind in kinds]
        compared = max((it for it in sizes if it <= MANY), default=sizes[0])
        for count in sizes:
            left = [cost for cost in costs if cost.foretold(count) <= MOST]
            named = [cost.kind for cost in left]
            for cost, one in zip(left, self.counted(interfaces[0], count, named) if left else []):
                cost.counted[count] = one
            for cost, one in zip(left, self.counted(interfaces[1], count, named) if count == compared else []):
                cost.percent = 100 * (one / cost.counted[count] - 1)
        for cost in costs:
            ran = [self.told(interfaces[0], timed, [cost.kind])[0] for _ in range(RUNS)]
            cost.milliseconds, cost.moved = min(it[5] / it[1] for it in ran) / 1e6, ran[0][4] // ran[0][1]
        return costs


def table(program: Program, kinds: list[Kind], sizes: list[int], timed: int, interfaces: list[int]) -> list[str]:
    """The rows of all, state by state, which are printed as they come, and what misses a target."""
    head = [f"{it:,}" for it in sizes] + ["exponent", f"{interfaces[1]} interfaces", f"ms at {timed:,}", "bytes"]
    rows, late, differing = [f"| kind | event | {' | '.join(head)} |", "|---" * (len(head) + 2) + "|"], [], []
    print("\n".join(rows), flush=True)
    for state in dict.fromkeys(kind.state for kind in kinds):
        costs = program.measured([kind for kind in kinds if kind.state == state], sizes, timed, interfaces)
        rows += [f"| | *{TOLD[state]}* |{' |' * len(head)}", *(cost.row(sizes) for cost in costs)]
        print("\n".join(rows[-len(costs) - 1:]), flush=True)
        late += [f"{it.kind.name} {it.milliseconds:,.0f} ms" for it in costs if it.is_late()]
        differing += [f"{it.kind.name} {it.percent:+.0f} %" for it in costs if it.differs()]
    told = [f"Above {MOST_MS} ms at {timed:,}, and {BYTES_A_MS:,} bytes a ms: {', '.join(late) or 'none'}.",
            f"Above {MOST_PERCENT} % with {interfaces[1]} interfaces: {', '.join(differing) or 'none'}."]
    print("", *told, "", sep="\n", flush=True)
    return [*rows, "", *told, ""]


def memory(program: Program, sizes: list[int]) -> list[str]:
    """The bytes of one fact of each kind."""
    rows = [f"| a fact, in bytes | {' | '.join(f'{it:,}' for it in sizes)} |", "|---" * (len(sizes) + 1) + "|"]
    none = program.held(empty, 0)
    for words, state in FACTS.items():
        rows.append(f"| {words} | {' | '.join(f'{(program.held(state, it) - none) / it:,.0f}' for it in sizes)} |")
    print("\n".join(rows), flush=True)
    return rows


def add_words(parser: argparse.ArgumentParser) -> None:
    parser.add_argument("kinds", nargs="*", metavar="KIND", help=", ".join(kind.name for kind in KINDS))
    parser.add_argument("--whole", action="store_true")
    parser.add_argument("--facts", type=int, nargs="+", metavar="N")
    parser.add_argument("--timed", type=int, metavar="N")
    parser.add_argument("--interfaces", type=int, nargs=2, default=[4, 120])
    parser.add_argument("--write", action="store_true")
    add_choice(parser)


def is_right(given: argparse.Namespace) -> bool:
    if unknown := set(given.kinds) - {kind.name for kind in KINDS}:
        sys.exit(f"torture/run events: there is no kind {', '.join(sorted(unknown))}")
    library, build = chosen(given)
    print(f"archive: {build}")
    with tempfile.TemporaryDirectory() as room:
        program = Program(library.program(BENCH / "events.c"), Path(room))
        kinds = [kind for kind in KINDS if not given.kinds or kind.name in given.kinds]
        sizes = given.facts or (WHOLE if given.whole else SOME)
        timed = given.timed or (WHOLE_TIMED if given.whole else sizes[-1])
        rows = [*table(program, kinds, sizes, timed, given.interfaces), *memory(program, sizes)]
    took = [resource.getrusage(who) for who in (resource.RUSAGE_SELF, resource.RUSAGE_CHILDREN)]
    print(f"\nseconds of the processor: {sum(it.ru_utime + it.ru_stime for it in took):,.0f}")
    if given.write:
        PAGE.write_text(MARKED.sub(lambda found: found[1] + "\n".join(rows) + found[2], PAGE.read_text()))
    return True
