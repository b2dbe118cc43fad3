"""Calls of the kit's own program on one crate, where the command `rt` would first prove what stands below it."""
from __future__ import annotations

import re
import subprocess
from pathlib import Path
from typing import TYPE_CHECKING

from pimtext.build import kit
from pimtext.build.kept import crates_below

if TYPE_CHECKING:
    from collections.abc import Iterator

# The crates of a repository, each with the names of what it stands on, of the kit too.
Crates = dict[str, list[str]]


def named(top: Path) -> Crates:
    """The crates of crates.txt."""
    lines = [it for it in (top / "crates.txt").read_text().splitlines() if ":" in it and not it.startswith("#")]
    return {it.partition(":")[0].split()[0]: it.partition(":")[2].split() for it in lines}


def below(name: str, crates: Crates) -> list[str]:
    """The crates of the repository that a crate stands on."""
    return sorted(crates_below(name, crates, set()) - {name})


def logic() -> list[str]:
    """The words that name the logic."""
    where = kit.kit()
    return ["--antt-project", f"{where}/rattle/logic/antt-project.json", "--logic-built", f"{where}/logic_built"]


def of_kit(names: list[str], crates: Crates) -> Iterator[str]:
    """The words that name libraries of the kit."""
    for name in dict.fromkeys(it for it in names if it not in crates):
        yield from ("--extern", f"{name}={kit.kit()}/rlibs/{name}.rlib")
    yield from ("-L", f"dependency={kit.kit()}/rlibs")


def over_sources(name: str, crates: Crates, top: Path) -> list[str]:
    """The words that name all below a crate, each crate of the repository as source."""
    lower = below(name, crates)
    words = [*of_kit(["core", "std", *(it for each in (name, *lower) for it in crates[each])], crates)]
    for each in lower:
        uses = dict.fromkeys(["core", "std", *crates[each]])
        words += ["--lib", f"{each}:{','.join(uses)}={top}/crates/{each}/src/lib.rt"]
    return words


def library(name: str, top: Path) -> Path:
    """Where `rt ci` puts what it made of a crate that it proved."""
    return top / "crates" / name / "out" / "rlib" / f"{name}.rlib"


def over_proved(name: str, crates: Crates, top: Path) -> list[str]:
    """The words that name all below a crate, each crate of the repository as `rt ci` has proved it."""
    words = [*of_kit(["std", *crates[name]], crates)]
    for each in crates[name]:
        words += ["--extern", f"{each}={library(each, top)}"] if each in crates else []
    for each in below(name, crates):
        words += ["-L", f"dependency={library(each, top).parent}"]
    return words


def are_there(names: list[str], top: Path) -> bool:
    """Whether the libraries of these crates are where `rt ci` puts them."""
    return bool(names) and all(library(name, top).exists() for name in names)


def are_of_gate(names: list[str], top: Path) -> bool:
    """Whether `rt ci` made these libraries. Of some kits it keeps them for no other command, which would prove them
    again: where there is a stamp, such a command made them, and knows which are up to date."""
    return are_there(names, top) and not any((library(name, top).parent / "stamp").exists() for name in names)


def kind(name: str, top: Path) -> list[str]:
    """The words that say what a crate is to become, as crates.txt has it."""
    head = next(it for it in (top / "crates.txt").read_text().splitlines() if re.match(rf"{name}\b[^:]*:", it))
    return ["--crate-type", "staticlib"] if "staticlib" in head.partition(":")[0].split() else []


def over(name: str, top: Path, libraries: Path | None) -> list[str]:
    """The words with which a crate is checked: over the libraries that `rt ci` built in a folder, or over sources."""
    crates = named(top)
    lower = over_sources(name, crates, top) if libraries is None else over_proved(name, crates, libraries)
    return [*lower, *logic(), "--links", f"{name}=", *kind(name, top)]


def ran(words: list[str], folder: Path) -> tuple[int, list[str]]:
    """Runs the kit's program in a folder: its status and its lines."""
    how = {"stdin": subprocess.DEVNULL, "stdout": subprocess.PIPE, "stderr": subprocess.STDOUT}
    done = subprocess.run(words, cwd=folder, text=True, errors="replace", **how)
    return done.returncode, done.stdout.splitlines()
