"""The parts of `dev/try_all`: what each runs, where, and what it waits for."""
import os
import shlex
import sys
from collections.abc import Iterator
from dataclasses import dataclass
from pathlib import Path

TOP = Path(__file__).resolve().parent.parent.parent
TESTS = [TOP / house / "tests" for house in ("tools", "dev", "torture")]
LINUX = ("--offline", "--config", "debian.toml")
STRICT = ("--all-targets", "--", "-D", "warnings")
# The part that builds the program and the library without proofs, for all others, and installs the library here.
BUILD = "build"
INSTALLED = TOP / "out" / "quick" / "installed"
# The part that builds the router for Linux, which reads FRR's configurations; where it is then, and the tests that want
# it.
ROUTER = "router"
VIQESHORD = TOP / "out" / "cargo" / "linux" / "debug" / "viqeshord"
OF_FRR = ("from_frr", "from_pcap", "kinds")
# Where Debian's Rust is, 1.63, which the router has to be content with.
DEBIAN = "/usr/bin"
# The tests that take longest, which begin first; and those that want neither the program nor the library.
LONG = ("embed", "check_counts", "why", "lab", "pimlab", "unproved", "mend", "mroute", "usual_mistakes", "recorded",
    "play")
ALONE = ("beside", "check_counts", "check_docs", "cited", "copies", "crates_table", "edits", "embed", "gate",
    "gate_times", "hostile", "lint", "module_times", "packets", "rt", "spoils", "tables", "together", "told", "torture",
    "try_all", "try_edits", "unused", "wrong_definitions")


@dataclass(frozen=True)
class Part:
    """A command with the folder in which it runs. It waits for the part `after` unless it stands alone."""
    name: str
    words: tuple[str, ...]
    folder: str = "."
    alone: bool = False
    after: str = BUILD

    def environment(self) -> dict[str, str]:
        """Cargo's commands have a folder each, so that they don't wait for one another; what the router is built of is
        what its tests are built of: by Debian's Rust where that is there, beside another one too. What Python compiles
        is kept, whatever the caller's environment says: tests call tools hundreds of times."""
        target = "linux" if self.name == ROUTER else self.name
        before = [DEBIAN] if target == "linux" else []
        return os.environ | {
            "PATH": os.pathsep.join([*before, os.environ.get("PATH", os.defpath)]),
            "PIMLAB_BUILD": "unproved", "CARGO_TARGET_DIR": str(TOP / "out" / "cargo" / target),
            "CARGO_TERM_COLOR": "never", "VIQESHOR_LIB_DIR": str(INSTALLED / "lib"), "VIQESHORD": str(VIQESHORD),
            "PYTHONDONTWRITEBYTECODE": "", "PYTHONPYCACHEPREFIX": str(TOP / "out" / "pycache"),
        }


def tool(words: str, name: str | None = None, alone: bool = False, after: str = BUILD) -> Part:
    """A tool's own check, by its command."""
    command, *rest = shlex.split(words)
    return Part(name or Path(command).name, (sys.executable, command, *rest), alone=alone, after=after)


def alone_first() -> Iterator[Part]:
    """What reads the sources only, while both are built."""
    yield tool("dev/upkeep/installed.py", "packages", alone=True)
    yield tool("dev/front", alone=True)
    yield Part("test_bytes", ("rt", "try", "--test"), "crates/test_bytes", alone=True)
    for words in ("unused", "cited --check", "check_counts", "crates_table --check", "bundle_definitions --check",
                  "tables", "lint", "try_edits --front --changed"):
        yield tool(f"dev/{words}", alone=True)
    yield Part("counts", ("dev/counts",), alone=True)
    yield Part("linux_layout", ("cargo", "fmt", "--check"), "linux", alone=True)
    yield Part("rust_layout", ("cargo", "fmt", "--check"), "bindings/rust", alone=True)


def names_of_tests() -> list[str]:
    return sorted(path.stem.removeprefix("test_") for folder in TESTS for path in folder.glob("test_*.py"))


def tests(alone: bool) -> Iterator[Part]:
    """The tests of the tools: those that take longest first."""
    found = names_of_tests()
    for name in [*(name for name in LONG if name in found), *(name for name in found if name not in LONG)]:
        if (name in ALONE) == alone:
            yield tool(f"dev/try_tools {name}", f"test_{name}", alone, ROUTER if name in OF_FRR else BUILD)


# What `torture/run` runs on a small size: that it finds what it should. Figures of the last three say nothing.
SMALL = {
    "restarted": "--unproved --runs 10 --spoilt 20 --facts 1000", "plane": "--unproved --runs 100",
    "memory": "--unproved --seconds 20", "program": "--every 10",
    "bootstraps": "--unproved --seconds 10 --storm 10", "candidates": "--unproved --seconds 5",
    "elections": "--unproved --seconds 5",
    "events": "--unproved --facts 10", "forward": "--unproved --rows 10 --copies 1 --packets 640",
    "timers": "--unproved 1 '' 1000",
}


def torture() -> Iterator[Part]:
    return (tool(f"torture/run {name} {words}", name, alone=name == "timers") for name, words in SMALL.items())


def parts() -> list[Part]:
    """All, in the order in which they begin."""
    return [
        tool(f"tools/library --unproved --install {INSTALLED.relative_to(TOP)}", BUILD, alone=True),
        *alone_first(),
        *tests(True),
        tool("tools/library --unproved"),
        Part(ROUTER, ("cargo", "build", *LINUX, "--bin", "viqeshord"), "linux"),
        Part("linux_lint", ("cargo", "clippy", *LINUX, *STRICT), "linux"),
        Part("linux", ("cargo", "test", *LINUX), "linux", after=ROUTER),
        *tests(False),
        tool("dev/check_docs", after=ROUTER),
        *torture(),
        Part("rust_lint", ("cargo", "clippy", "--offline", *STRICT), "bindings/rust"),
    ]
