"""The proved router as a library beside a plain forwarder, in one process: what a packet costs both.

    torture/run forward [--rows N ..] [--copies N ..] [--bytes N] [--packets N] [--unproved | --from FOLDER |
    --archive FILE]

The plain forwarder (torture/bench/forwarder/plain.rs, in Rust, `rustc -O`) has a hash map from (S,G) to a row. It tests
of a packet what the router tests, moves the expiry of the row's keepalive timer, and writes each copy with a TTL one
lower and its checksum. N rows are sources of groups, a hundred a group, which hosts on so many interfaces have joined;
their packets come by the sources' own trees. Each packet goes through both, whose copies have to be the same: the
router's are taken by `viq_frame` and `viq_take` into a room of the program's, the plain forwarder's
are written there.

A line for each N and each number of copies: processor instructions a packet in both, counted by callgrind (Debian's
valgrind), and their ratio; nanoseconds a packet, and their ratio. For these so many packets of any rows go through both
in turn, 64 at a time, with a millisecond between, and the median counts. Packets have so many bytes. The first line
says which library it is. It wants valgrind and rustc.
"""
import argparse
import re
import subprocess
import tempfile
from pathlib import Path

from pimtext.build.library import add_choice, chosen
from stress.loaded import FIRST_GROUP, IS_EX, RECORDS_A_REPORT, member_record, packet, report_packet

FORWARDER = Path(__file__).resolve().parent.parent / "bench" / "forwarder" / "forwarder.rs"
SOURCES_A_GROUP = 100
# A batch of the program.
BATCH = 64
# Of these is counted: what stands in no loop costs the same each time.
COUNTED = 10 * BATCH
SIDES = ["library_batch", "plain_batch"]


def setup(copies: int, rows: int) -> str:
    """The lines of the events before the data: interfaces, the neighbour above, and hosts below that join each
    group."""
    lines = [f"up {iface}" for iface in range(copies + 1)]
    lines.append(f"frame 0 {packet(0x0A000001, bytes.fromhex('2000000000010002ffff')).hex()}")
    groups = -(-rows // SOURCES_A_GROUP)
    for first in range(0, groups, RECORDS_A_REPORT):
        named = range(FIRST_GROUP + first, FIRST_GROUP + min(groups, first + RECORDS_A_REPORT))
        records = [member_record(IS_EX, group) for group in named]
        lines += [
            f"frame {iface} {report_packet(0x0A000007 + (iface << 8), records).hex()}" for iface in range(1, copies + 1)
        ]
    return "\n".join(lines) + "\n"


def summed(file: Path) -> int:
    """The instructions of one part of callgrind's output."""
    return int(re.search(r"^(?:summary|totals): (\d+)", file.read_text(), re.M)[1])


def counted(words: list[str]) -> list[int]:
    """The instructions of both sides for so many packets."""
    with tempfile.TemporaryDirectory() as room:
        out = Path(room) / "out"
        flags = [f"--callgrind-out-file={out}", "--dump-before=phase_over", *(f"--toggle-collect={it}" for it in SIDES)]
        subprocess.run(
            ["valgrind", "--tool=callgrind", *flags, *words, str(COUNTED), "count"], capture_output=True, check=True
        )
        return [summed(Path(f"{out}.1")), summed(out)]


def line(program: Path, copies: int, rows: int, asked: argparse.Namespace) -> None:
    with tempfile.NamedTemporaryFile("w", suffix=".events") as events:
        events.write(setup(copies, rows))
        events.flush()
        words = [str(it) for it in (program, events.name, copies, rows, asked.bytes)]
        instructions = [it // COUNTED for it in counted(words)]
        ran = subprocess.run([*words, str(asked.packets), "time"], capture_output=True, text=True, check=True)
    cells = [rows, copies]
    for one, other in (instructions, map(int, ran.stdout.split())):
        cells += [one, other, f"{one / other:.1f}"]
    print("| " + " | ".join(it if isinstance(it, str) else f"{it:,}" for it in cells) + " |", flush=True)


def add_words(parser: argparse.ArgumentParser) -> None:
    parser.add_argument("--rows", type=int, nargs="+", default=[10, 1000, 100_000])
    parser.add_argument("--copies", type=int, nargs="+", default=[1, 10])
    parser.add_argument("--bytes", type=int, default=128)
    parser.add_argument("--packets", type=int, default=64_000)
    add_choice(parser)


def is_right(asked: argparse.Namespace) -> bool:
    library, build = chosen(asked)
    program = library.rust_program(FORWARDER)
    print(f"archive: {build}")
    print("| rows | copies | router, instructions | plain, instructions | ratio | router, ns | plain, ns | ratio |")
    print("|---|---|---|---|---|---|---|---|", flush=True)
    for rows in asked.rows:
        for copies in asked.copies:
            line(program, copies, rows, asked)
    return True
