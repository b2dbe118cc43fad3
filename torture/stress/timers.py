"""What timers and tries cost beside plain `BTreeMap`s that do the same.

    torture/run timers [--unproved] [REPEATS [PART [COUNT]]]

Builds a program in Rust (torture/bench/main.rs) with the machine code of the crates, in out/bench, and runs it: all
parts or the one that is named, each so many times, with so many timers and lookups. The crates are proved first unless
they are; with --unproved the code is made of the same sources before any proof. It wants rustc.
"""
from __future__ import annotations

import argparse
import os
import re
import shutil
import subprocess
import sys
import tempfile
from pathlib import Path

from pimtext.build import kit
from pimtext.build.kept import crates_of
from pimtext.build.modules import Module, parts

TOP = Path(__file__).resolve().parent.parent.parent
BENCH = TOP / "torture" / "bench"
ROOM = TOP / "out" / "bench"
NAME, BELOW = "bench", ["pim_types", "pim_meter", "pim_trie", "pim_timers"]
CALL = re.compile(rb'"bench::(bench_(?!mark)\w+)"')
# What makes a program of the crate, with all of its calls.
MAIN = """
fn main(rt: HostRuntime) -> std::process::ExitCode {
    let alloc = rt.alloc();
    let found = bench_wheel(alloc, &[]) | bench_sorted(alloc, &[]) | bench_refresh(alloc, &[]);
    let asked = bench_ask(alloc, &[], 0) | bench_trie(alloc, &[], &[]);
    std::process::ExitCode::from(if found | asked == 0 { 0 } else { 1 })
}
"""


def crates() -> dict[str, list[str]]:
    """The crates below the bench, each with what it stands on."""
    return {name: below for top in BELOW for name, below in crates_of(top).items()}


def write_sources(folder: Path) -> None:
    folder.mkdir(parents=True)
    for file in (BENCH / "crate").iterdir():
        shutil.copyfile(file, folder / file.name.removesuffix(".in"))


def proved() -> Path:
    """The archive of the crate, which is proved with all below it, in copies that keep what was proved."""
    shutil.rmtree(ROOM / "crates" / NAME / "src", ignore_errors=True)
    write_sources(ROOM / "crates" / NAME / "src")
    lines = [f"{name}: {' '.join(below)}\n" for name, below in crates().items()]
    (ROOM / "crates.txt").write_text("".join([*lines, f"{NAME} staticlib: {' '.join(BELOW)}\n"]))
    for name in crates():
        for part in ("src", "specs", "proofs", "out"):
            given, copy = TOP / "crates" / name / part, ROOM / "crates" / name / part
            if part != "out":
                shutil.rmtree(copy, ignore_errors=True)
            if given.is_dir() and not copy.exists():
                shutil.copytree(given, copy)
    try:
        kit.ran("rt", "lib", cwd=ROOM / "crates" / NAME, env=os.environ | {"RT_ALLOW_C": NAME})
    except kit.Failed as failed:
        sys.exit(str(failed))
    return ROOM / "crates" / NAME / "out" / f"lib{NAME}.a"


def unproved(room: Path) -> Path:
    """An object of the same sources without proof, made in a folder."""
    write_sources(room / "src")
    main = (room / "src" / "lib.rt").rename(room / "src" / "main.rt")
    main.write_text(main.read_text() + MAIN)
    module = Module(kit.printed(kit.module_of(NAME, main, crates(), room)))
    calls = {name: found[1] for name in module.functions if (found := CALL.fullmatch(name))}
    module.open_calls(calls)
    text, made = room / "bench.ll", ROOM / "bench.o"
    text.write_bytes(next(parts(module, list(calls.values()), 1)))
    kit.ran(*kit.compiling(text, made))
    return made


def add_words(parser: argparse.ArgumentParser) -> None:
    parser.add_argument("--unproved", action="store_true", help="of the same sources, before any proof")
    parser.add_argument("words", nargs="*", metavar="REPEATS [PART [COUNT]]")


def is_right(asked: argparse.Namespace) -> bool:
    ROOM.mkdir(parents=True, exist_ok=True)
    with tempfile.TemporaryDirectory(dir=ROOM) as room:
        made = unproved(Path(room)) if asked.unproved else proved()
    words = ["rustc", "--edition", "2024", "-C", "opt-level=3", "-C", "target-cpu=x86-64", BENCH / "main.rs"]
    words += ["-o", ROOM / "main", "-C", f"link-arg={made}", "-L", kit.kit() / "c", "-l", "static=libc_c"]
    subprocess.run([str(word) for word in words], check=True)
    return subprocess.run([ROOM / "main", *asked.words]).returncode == 0
