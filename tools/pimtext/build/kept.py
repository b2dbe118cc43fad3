"""What is built before any proof, and where it is kept: in the user's cache folder, for all clones, by the sum of the
sources."""
import hashlib
import os
import sys
from pathlib import Path

TOP = Path(__file__).resolve().parent.parent.parent.parent
HERE = Path(__file__).resolve().parent
# A module of the program's that names the library's calls, and what makes code of the kit's modules.
CALLS, MADE_BY = HERE / "library.rt.in", [HERE / "modules.py", HERE / "unproved.py"]
# As the kit compiles what it has proved, but for the level, and so that a shared library can have it.
FLAGS = [
    "--target=x86_64-unknown-linux-gnu", "-march=x86-64", "--no-default-config", "-no-canonical-prefixes",
    "-Wno-override-module", "-ffunction-sections", "-fdata-sections", "-fno-vectorize", "-fno-slp-vectorize", "-fPIC",
    "-O2",
]
LLVM_FLAGS = [
    "-no-trap-after-noreturn", "-trap-unreachable", "-no-x86-call-frame-opt", "-disable-machine-licm",
    "-disable-postra-machine-licm", "-sink-common-insts=false",
]


def crates_below(name: str, named: dict[str, list[str]], found: set[str]) -> set[str]:
    """Puts the crates that a crate stands on into `found`, and the crate itself."""
    if name in named and name not in found:
        found.add(name)
        for below in named[name]:
            crates_below(below, named, found)
    return found


def crates_of(name: str) -> dict[str, list[str]]:
    """A crate and those of the repository that it stands on, each with the names of what it stands on itself."""
    lines = (line.partition(":") for line in (TOP / "crates.txt").read_text().splitlines() if ":" in line)
    named = {head.split()[0]: below.split() for head, _, below in lines if not head.startswith("#")}
    return {each: named[each] for each in sorted(crates_below(name, named, set()))}


def sum_of_sources(name: str, *others: Path) -> str:
    """A sum of what an unproved build of a crate reads: the sources, without their proofs, and how they become code."""
    total = hashlib.sha256(repr((FLAGS, LLVM_FLAGS)).encode())
    for each, below in crates_of(name).items():
        total.update(f"{each}: {' '.join(below)}\n".encode())
        for source in sorted((TOP / "crates" / each / "src").rglob("*.rt")):
            total.update(f"{source.relative_to(TOP)} {source.stat().st_size}\n".encode() + source.read_bytes())
    for other in (*MADE_BY, *others):
        total.update(other.read_bytes())
    return total.hexdigest()[:32]


def kept_program() -> Path:
    """Where the program is kept."""
    return cache() / f"pimlab-{sum_of_sources('pimlab')}"


def kept_library() -> Path:
    """Where the library's calls are kept, as an archive."""
    return cache() / f"pim_c-{sum_of_sources('pim_c', CALLS)}.a"


def sum_of_both() -> str:
    """What a build of both is called."""
    return hashlib.sha256(f"{kept_program().name} {kept_library().name}".encode()).hexdigest()[:32]


def cache() -> Path:
    """The folder in which builds are kept."""
    given = os.environ.get("XDG_CACHE_HOME", "")
    return Path(given if os.path.isabs(given) else os.path.expanduser("~/.cache")) / "viqeshor"


# A release has this file and its builds beside the tools. Its first line says how they were built: "proved" or "not
# proved", and more behind a colon.
RELEASE = TOP / "RELEASE"


def released() -> str | None:
    """How the builds of a release were built; None where this is no release."""
    return RELEASE.read_text().partition(":")[0] if RELEASE.exists() else None


# The folder with builds that were brought along, from the environment.
BROUGHT = "VIQESHOR_BUILDS"


def brought(path: Path, who: str, folder: str | Path | None = None) -> Path | None:
    """A build of the same sources that was made elsewhere, in the folder that is given or that the environment names;
    None where there is none."""
    folder = folder or os.environ.get(BROUGHT)
    if not folder:
        return None
    found = Path(folder) / path.name
    if found.is_file():
        return found
    print(f"{who}: {folder} has no build of these sources, which would be called {path.name}", file=sys.stderr)
    return None
