"""The definitions of the crates without the code that meets them: a repository in which the kernel computes with them
in seconds. Of a crate's sources the types are left, since definitions name them."""
from __future__ import annotations

import re
import shutil
from collections.abc import Iterable, Iterator
from pathlib import Path

ROOT = Path(__file__).resolve().parent.parent.parent
LAB = ROOT / "dev" / "definitions" / "Lab.antt.in"
# The crates whose definitions are all taken, and the libraries of the kit that they name. Where files are named only
# the types of these are left.
WHOLE: dict[str, tuple[str, ...] | None] = {
    "pim_ip": None, "pim_types": None, "pim_wire": None, "igmp_wire": None, "pim_model": None, "pim_rows": None,
    "igmp_older": ("front", "kept", "mode", "older", "router", "setting"),
}
OF_KIT = ("byteorder",)
# Files of these that no definition computes with: what laws say, and the list of files, which is written anew.
NOT_COMPUTED = ("Laws", "Lib")
# Files of definitions of other crates, each crate after those that it names.
PARTS = {
    "law_settled": ("Laws", "Ready"), "law_events": ("Locality", "Rest", "Scopes"),
    "law_states": ("Reload", "Reloading", "Placing"), "pim_net": ("Reloading",),
    "pim_anycast": ("Sets", "Passed", "Announced", "Joined"), "pim_lab": ("Stops",),
    "pim_bootstrap": ("Advertisements", "Bootstraps", "Views"),
    "pim_bsr": ("Choice", "Table", "Hearing", "Joined"),
    "igmp_older_saved": ("Hosts",), "pim_session": ("Front", "Placed", "Reloaded"), "pim_guard": ("Guard",),
    "pim_runs": ("Transcript",),
}
# The files of these whose types are left.
TYPES = {"igmp_older_saved": ("host",), "pim_anycast": ("front", "set"),
         "pim_bootstrap": ("advertisement", "bootstrap"), "pim_bsr": ("choice", "heard", "learned")}
# The crate with what a scenario's moves do.
LAB_CRATE = "lab_runs"
TYPE = re.compile(
    r"^(?:pub(?:\(\w+\))? )?(?:enum|struct) (\w+)[^\n]*?(?:;$|\{$.*?^\}$|\{[^\n]*\}$)"
    r"|^impl[^\n]*\bModel for [^\n]*\{$.*?^\}$", re.M | re.S)
MODULE = re.compile(r"^(?:pub(?:\(crate\))? )?mod (\w+);$", re.M)
USE = re.compile(r"^(pub(?:\(crate\))? )?use ([\w:]+?)::(?:\{([^}]*)\}|(\w+));$", re.M | re.S)
COMMENT = re.compile(r"^\s*(?:///|#\[)[^\n]*\n", re.M)
UNFOLDABLE = re.compile(r"^ *unfoldable pub (\S+) :", re.M)


def files_of(crate: str) -> tuple[str, ...] | None:
    """The files of a crate whose types are left, or all."""
    return TYPES[crate] if crate in TYPES else WHOLE[crate]


def sources(crate: str) -> Iterator[tuple[Path, str]]:
    """The files of a crate whose types are left, by their places below its sources."""
    folder, only = ROOT / "crates" / crate / "src", files_of(crate)
    for path in sorted(folder.rglob("*.rt")):
        if only is None or path.stem in ("lib", *only):
            yield path.relative_to(folder), path.read_text(encoding="utf-8")


def declared() -> set[str]:
    """The names of all types that are left."""
    texts = (text for crate in (*WHOLE, *TYPES) for _, text in sources(crate))
    return {found[1] for text in texts for found in TYPE.finditer(text) if found[1]}


def types_of(text: str, known: set[str], only: tuple[str, ...] | None) -> str:
    """A source without its functions."""
    body = "\n\n".join(COMMENT.sub("", found[0]) for found in TYPE.finditer(text))
    lines = ["//! Types.", *["#![tactic(auto)]"] * ("#![tactic(auto" in text)]
    lines += [found[0] for found in MODULE.finditer(text) if only is None or found[1] in only]
    for public, path, several, one in USE.findall(text):
        names = [name for name in re.findall(r"\w+", several or one)
                 if (name in known if public else re.search(rf"\b{name}\b", body))]
        if names:
            lines.append(f"{public}use {path}::{{{', '.join(names)}}};")
    return "\n".join([*lines, "", body, ""])


def specs_of(crate: str) -> list[Path]:
    """The files of definitions that are taken of a crate."""
    if crate == LAB_CRATE:
        return [LAB]
    folder = ROOT / "crates" / crate / "specs"
    if crate in PARTS:
        return [folder / f"{name}.antt" for name in PARTS[crate]]
    return sorted(path for path in folder.glob("*.antt") if path.stem not in NOT_COMPUTED)


def module_of(path: Path) -> str:
    """The name of a file of definitions as a module: `Lab` of Lab.antt.in, too."""
    return path.name.partition(".")[0]


def bundle() -> str:
    """One name under which all definitions compute."""
    uses, names = [], []
    for crate in (*WHOLE, *PARTS, LAB_CRATE):
        for path in specs_of(crate):
            here = []
            for name in sorted(UNFOLDABLE.findall(path.read_text(encoding="utf-8"))):
                other = name if name not in names else f"{crate}_{name}"
                names.append(other)
                here.append(name if other == name else f"{name} as {other}")
            if here:
                uses.append(f"use Rattle.{crate}.specs.{module_of(path)}.{{{', '.join(here)}}}")
    return "\n".join(["-- One name under which all definitions compute.", "use Rattle.std.{specs.Prelude.⊤}", *uses, "",
                      "unfoldable pub machine : ⊤", "unfolding " + " ".join(names), "machine = tt", ""])


def write(path: Path, text: str) -> None:
    """Writes a file, or leaves it alone where it is so already."""
    if not path.exists() or path.read_text(encoding="utf-8") != text:
        path.parent.mkdir(parents=True, exist_ok=True)
        path.write_text(text, encoding="utf-8")


def write_crate(folder: Path, sources: dict[str, str], specs: Iterable[Path], proofs: dict[str, str]) -> None:
    """A crate of these sources, definitions and proofs, and of no other file."""
    wanted = {f"src/{name}": text for name, text in sources.items()}
    wanted |= {f"specs/{module_of(path)}.antt": path.read_text(encoding="utf-8") for path in specs}
    wanted |= {f"proofs/{name}.antt": text for name, text in proofs.items()}
    if "specs/Lib.antt" not in wanted:
        wanted["specs/Lib.antt"] = "".join(f"pub mod {module_of(path)}\n" for path in specs)
    for part in ("src", "specs", "proofs"):
        for path in [path for path in (folder / part).rglob("*") if path.is_file()]:
            if str(path.relative_to(folder)) not in wanted:
                path.unlink()
    for name, text in wanted.items():
        write(folder / name, text)


def scratch_repository(folder: Path, above: str) -> None:
    """The definitions as a repository, kept from run to run, so that only changes are checked again; `above` is an
    empty crate that stands on all of it."""
    folder.mkdir(parents=True, exist_ok=True)
    shutil.copy(ROOT / "HANDLES", folder / "HANDLES")
    crates, known, empty = folder / "crates", declared(), {"lib.rt": "//! No code.\n#![tactic(auto)]\n"}
    for crate in (*WHOLE, *PARTS, LAB_CRATE):
        texts = empty
        if crate in WHOLE or crate in TYPES:
            texts = {str(path): types_of(text, known, files_of(crate)) for path, text in sources(crate)}
        proofs = {"Lib": "pub mod Machine\n", "Machine": bundle()} if crate == LAB_CRATE else {}
        write_crate(crates / crate, texts, specs_of(crate), proofs)
    write(folder / "crates.txt", "\n".join([*listed(), f"{above}: {' '.join([*WHOLE, *PARTS, LAB_CRATE])}", ""]))


def listed() -> Iterator[str]:
    """The lines of crates.txt: each crate with what it names."""
    named = {}
    for line in (ROOT / "crates.txt").read_text(encoding="utf-8").splitlines():
        crate, _, names = line.partition(":")
        named[crate] = names.split()
        if crate in WHOLE:
            yield f"{crate}: {' '.join(name for name in named[crate] if name in (*WHOLE, *OF_KIT))}"
    for place, crate in enumerate([*PARTS, LAB_CRATE]):
        of_kit = [name for name in OF_KIT if name in named.get(crate, [])] if crate in TYPES else []
        yield f"{crate}: {' '.join([*of_kit, *WHOLE, *list(PARTS)[:place]])}"
