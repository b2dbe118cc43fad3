"""The routers of the stored scenarios, each with what it takes."""
from __future__ import annotations

from collections.abc import Iterable, Iterator
from dataclasses import dataclass
from pathlib import Path
from typing import TYPE_CHECKING, Any

import viqeshor
from pimtext.files import pimlab
from viqeshor.lab import fed, story

if TYPE_CHECKING:
    from viqeshor.lab.story import Step

STORED = Path(__file__).resolve().parent.parent.parent / "crates" / "test_scenarios" / "data"


@dataclass(frozen=True)
class Stored:
    """A router: its scenario, its name, its table there, and the steps in which it took something."""
    scenario: str
    name: str
    table: dict[str, Any]
    steps: list[Step]

    def __str__(self) -> str:
        return f"{self.scenario}, {self.name}"

    def given(self) -> tuple[Any, ...]:
        """What a router of the library is made of: interfaces, ranges, routes and settings."""
        ranges, routes = (self.table.get(key, []) for key in ("rps", "routes"))
        lists = fed.interfaces(self.table), fed.ranges(ranges), fed.routes(routes)
        return *map(list, lists), fed.settings(self.table)


def routers(paths: Iterable[Path] = ()) -> Iterator[Stored]:
    """Those of some scenarios, or of all, which aren't refused."""
    for path in paths or sorted(STORED.glob("*.toml")):
        lines = path.with_suffix(".out").read_text().splitlines()
        if lines and not path.with_suffix(".err").exists():
            scene = pimlab.read(path)
            steps = story.played(scene, lines)[0]
            for router in scene.routers:
                yield Stored(path.stem, router.name, router.table, [it for it in steps if it.router == router.name])


def made(library: Path, given: tuple[Any, ...]) -> viqeshor.Router:
    """A router of the library."""
    *lists, settings = given
    return viqeshor.Router(*lists, library=library, **settings)
