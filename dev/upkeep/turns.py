"""Whose edits are tried at a landing: those of each crate that changed since all were tried, and of the others a part
in turn."""
import hashlib
import subprocess
from pathlib import Path

from upkeep.edits import texts_of

# So many landings it takes until the edits of every crate had their turn, where none changes.
TURNS = 5
# The sum of each crate's code, contracts and edits when its edits were tried.
TRIED = Path("dev") / "edits_tried.txt"
HEAD = """# The code, contracts and edits of each crate when its edits were tried last, as sums
# (dev/upkeep/turns.py). `./test` writes those of the crates whose edits it tried, where it is green.
"""


def sum_of(top: Path, name: str) -> str:
    """A sum of a crate's code, contracts and edits, without lines that are comments alone."""
    folder = top / "crates" / name
    files = [it for part in ("src", "specs") for it in sorted((folder / part).rglob("*")) if it.is_file()]
    total = hashlib.sha256()
    for path in (*files, folder / "edits.txt"):
        comment = {".rt": "//", ".antt": "--"}.get(path.suffix, "#")
        text = path.read_text(encoding="utf-8").splitlines()
        lines = [it for it in map(str.strip, text) if not it.startswith(comment)]
        total.update("\n".join([str(path.relative_to(folder)), *filter(None, lines), ""]).encode())
    return total.hexdigest()[:16]


def with_edits(top: Path) -> list[str]:
    """The crates that have edits, as crates.txt has them in order."""
    lines = [it for it in (top / "crates.txt").read_text().splitlines() if ":" in it and not it.startswith("#")]
    names = [it.partition(":")[0].split()[0] for it in lines]
    return [it for it in names if (top / "crates" / it / "edits.txt").is_file()]


def tried_at(top: Path) -> dict[str, str]:
    """The crates whose edits were tried, each with its sum then."""
    path = top / TRIED
    lines = path.read_text(encoding="utf-8").splitlines() if path.is_file() else []
    return dict(line.split() for line in lines if line and not line.startswith("#"))


def write(top: Path, names: list[str]) -> None:
    """Notes that all edits of these crates were tried."""
    sums = {**tried_at(top), **{name: sum_of(top, name) for name in names}}
    lines = [f"{name} {sums[name]}\n" for name in with_edits(top) if name in sums]
    (top / TRIED).write_text(HEAD + "".join(lines), encoding="utf-8")


def changed(top: Path) -> list[str]:
    """The crates with edits that changed since these were tried."""
    before = tried_at(top)
    return [name for name in with_edits(top) if before.get(name) != sum_of(top, name)]


def now(top: Path) -> int:
    """The number of the turn: the hour in which the last commit was made, which every clone knows."""
    ran = subprocess.run(["git", "log", "-1", "--format=%ct"], cwd=top, stdout=subprocess.PIPE,
        stderr=subprocess.DEVNULL, text=True)
    return int(ran.stdout.strip() or 0) // 3600


def in_turn(top: Path, names: list[str], turn: int) -> list[str]:
    """Those of these crates whose turn it is: of the parts into which they fall, of about as many edits each, one."""
    counts, parts = {name: len(texts_of(top / "crates" / name)) for name in names}, [[] for _ in range(TURNS)]
    for name in sorted(names, key=lambda it: (-counts[it], it)):
        min(parts, key=lambda part: sum(counts[it] for it in part)).append(name)
    return [name for name in names if name in parts[turn % TURNS]]


def chosen(top: Path) -> tuple[list[str], list[str]]:
    """The crates whose edits are tried at a landing: those that changed, and of the others those whose turn it is.
    Where no run of all is known, nothing is known to have changed since."""
    first = changed(top) if tried_at(top) else []
    return first, in_turn(top, [it for it in with_edits(top) if it not in first], now(top))
