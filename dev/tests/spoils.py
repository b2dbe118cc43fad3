"""Spoilt files, each with the part of `dev/try_all` that has to be red for it, and what it has to say then.

    dev/tests/spoils.py [--in FOLDER] [NAME ..]

Each spoil, or those that are named, is made in a copy of the files that git knows, and its part is run there. A line
tells whether the part was red for it, and the exit status is 1 where one wasn't. With --in the copy is made in FOLDER,
or used as it is where that exists, so that what was compiled there is taken again. `dev/try_tools spoils` tries those
whose part takes a second.
"""
import argparse
import os
import shutil
import subprocess
import sys
import tempfile
from dataclasses import dataclass
from pathlib import Path

TOP = Path(__file__).resolve().parent.parent.parent


@dataclass(frozen=True)
class Spoil:
    """A text of a file, which stands there once, and what is put in its place; the part that sees it, and what this
    says among else."""
    file: str
    old: str
    new: str
    part: str
    says: str

    @property
    def name(self) -> str:
        """Its folder and its part."""
        return f"{self.file.partition('/')[0]}:{self.part}"

    def text(self, top: Path) -> str:
        """The spoilt file."""
        text = (top / self.file).read_text(encoding="utf-8")
        if text.count(self.old) != 1:
            raise ValueError(f"{self.file} has {self.old!r} {text.count(self.old)} times")
        return text.replace(self.old, self.new)


SPOILS = [
    # A link, the trusted definitions, the table of crates.
    Spoil("docs/TUTORIAL.md", "(#write-your-own)", "(#write-your-owm)", "check_docs", "#write-your-owm"),
    Spoil("docs/CALLS.md", "of the folders `specs` of `pim_model`", "of the folders `specs` of `pim_models`", "cited",
        "docs/CALLS.md: this isn't so"),
    Spoil("docs/CALLS.md", "| `law_states` | what holds", "| `law_states` | what held", "crates_table",
        "law_states"),
    # A scenario that stands in two places, what is stored of one, and programs that use the library.
    Spoil("examples/one_join.toml", "[[router]]", "[[router]] ", "test_copies", "one_join.toml"),
    Spoil("crates/test_scenarios/data/a_register_stop.out", "move 2 r done", "move 2 r ignored Own", "test_pimlab",
        "a_register_stop"),
    Spoil("examples/library/join.c", "int main(", "int main((", "lint", "join.c"),
    Spoil("examples/library/join.py", "import Answer, Router", "import Answers, Router", "library",
        "join.py: status 1"),
    # What the header says of the library, and the calls behind it.
    Spoil("include/viqeshor/viqeshor.h", "VIQ_OWN = 101", "VIQ_OWN = 102", "build", "duplicate case value"),
    Spoil("include/viqeshor/viqeshor.h", "\nsize_t viq_packets(", "\nuint32_t viq_none(void);\nsize_t viq_packets(",
        "test_header", "viq_none"),
    Spoil("bindings/c/texts.c", 'case VIQ_DONE: return "done"', 'case VIQ_DONE: return "don"', "library", "don"),
    Spoil("bindings/rust/src/lib.rs", "Error::Memory => MEMORY", "Error::Memory => LOST", "library",
        "errors_have_their_numbers"),
    Spoil("bindings/rust/src/lib.rs", "Error::Memory => MEMORY", "Error::Memory  => MEMORY", "rust_layout", "MEMORY"),
    Spoil("bindings/python/src/viqeshor/__init__.py", "return Answer.DONE < self < Answer.MEMORY",
        "return Answer.DONE <= self < Answer.MEMORY", "library", "test_kinds_of_answers"),
    # The daemon: a rule, a name that isn't used, the layout, an example, its settings, a script, a trial.
    Spoil("linux/src/packet.rs", "let checksum = !sum(&[bytes]);", "let checksum = sum(&[bytes]);", "linux",
        "panicked"),
    Spoil("linux/src/bfd.rs", "const VERSION: u8 = 1;", "const VERSION: u8 = 1;\nconst OTHER: u8 = 2;", "linux_lint",
        "OTHER"),
    Spoil("linux/src/bfd.rs", "const VERSION: u8 = 1;", "const VERSION : u8 = 1;", "linux_layout", "VERSION"),
    Spoil("linux/examples/stream.rs", "fn main(", "fn mainn(", "linux_lint", "main"),
    Spoil("linux/viqeshord.toml", "[[rp]]\n", "[[rps]]\n", "linux", "the_file_of_the_package_is_read"),
    Spoil("linux/viqeshord.bash", "complete ", "fi; complete ", "lint", "viqeshord.bash"),
    Spoil("linux/trials/network.py", "ROUTES = {", "ROADS = {", "lint", "ROUTES"),
    # The tools: one that others use, one with a program of its own, a measurement, a script.
    Spoil("bindings/python/src/viqeshor/lab/packets.py", "return total ^ 0xFFFF", "return total ^ 0xFFFE",
        "test_packets", "FAILED"),
    Spoil("torture/library_calls.c", "viq_packets(NULL), 0)", "viq_packets(NULL), 1)", "library",
        "packets without a router"),
    Spoil("torture/bench/forwarder/plain.rs", "const FRAME_LIMIT: usize = 1500", "const FRAME_LIMIT: usize = 15",
        "forward", "returned non-zero"),
    Spoil("torture/stress/program.py", "if status == 3 and kind", "if status == 5 and kind", "program", " 1 other"),
    Spoil("tools/pimtext/files/frr_lab.py", '"query_interval": "qi"', '"query_interval": "qri"', "test_from_frr",
        "test_older_and_newer_forms"),
    Spoil(".ci/run", "exec ", "exec $(", "lint", ".ci/run"),
    # The crates: a rule, a type, the layout, a definition that can't be read.
    Spoil("crates/pim_register/src/source_timers.rt", "REGISTER_PROBE_TIME: u64 = 5_000",
        "REGISTER_PROBE_TIME: u64 = 6_000", "test_pimlab", "a_register_stop"),
    Spoil("crates/pim_register/src/source_timers.rt", "REGISTER_PROBE_TIME: u64 = 5_000",
        "REGISTER_PROBE_TIME: u32 = 5_000", "build", "source_timers.rt"),
    Spoil("crates/pim_register/src/source_timers.rt", "REGISTER_PROBE_TIME: u64", "REGISTER_PROBE_TIME : u64", "front",
        "source_timers.rt is not in the layout"),
    Spoil("crates/pim_model/specs/Receivers.antt", "local_receiver_star s g i = is_exclude",
        "local_receiver_star s g i = (is_exclude", "front", "Receivers.antt"),
]


def copied(folder: Path) -> Path:
    """A copy of the repository's files as they stand, with a history of its own."""
    listed = subprocess.run(["git", "ls-files", "-z"], cwd=TOP, stdout=subprocess.PIPE, text=True, check=True)
    for name in filter(None, listed.stdout.split("\0")):
        if (TOP / name).is_file():
            (folder / name).parent.mkdir(parents=True, exist_ok=True)
            shutil.copy(TOP / name, folder / name)
    for words in (["init", "-q"], ["add", "-A"]):
        subprocess.run(["git", *words], cwd=folder, check=True)
    return folder


def is_red(spoil: Spoil, top: Path) -> bool:
    """Whether the part of a spoil is red for it in a copy, which is as it was afterwards."""
    file, was = top / spoil.file, (top / spoil.file).read_bytes()
    file.write_text(spoil.text(top), encoding="utf-8")
    try:
        words = [sys.executable, "dev/try_all", spoil.part]
        ran = subprocess.run(words, cwd=top, stdout=subprocess.PIPE, text=True, env=os.environ)
    finally:
        file.write_bytes(was)
    if ran.returncode != 1 or f"RED {spoil.part}: " not in ran.stdout:
        return False
    return spoil.says in (top / "out" / "quick" / f"{spoil.part}.log").read_text(encoding="utf-8", errors="replace")


def main() -> int:
    parser = argparse.ArgumentParser(description=__doc__, formatter_class=argparse.RawDescriptionHelpFormatter)
    parser.add_argument("--in", dest="folder", type=Path, metavar="FOLDER")
    parser.add_argument("names", nargs="*", metavar="NAME", help=", ".join(spoil.name for spoil in SPOILS))
    asked = parser.parse_args()
    green = 0
    with tempfile.TemporaryDirectory(prefix="spoils-") as room:
        top = asked.folder or Path(room)
        if not (top / "tools").exists():
            copied(top)
        for spoil in SPOILS:
            if not asked.names or spoil.name in asked.names:
                red = is_red(spoil, top)
                green += not red
                print(f"{'red' if red else 'NOT SEEN'}: {spoil.part}, with {spoil.file} spoilt", flush=True)
    return bool(green)


if __name__ == "__main__":
    sys.exit(main())
