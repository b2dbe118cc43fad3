"""Which line of a user's file made a router or a host, or had a host speak."""
from __future__ import annotations

import sys
from pathlib import Path
from typing import TYPE_CHECKING, NamedTuple

if TYPE_CHECKING:
    from viqeshor.lab.network import Network

HERE = Path(__file__).resolve().parent


class Line(NamedTuple):
    file: str
    number: int

    def __str__(self) -> str:
        return f"{self.file}:{self.number}"


def calling() -> Line:
    """The line from which the package was called."""
    frame = sys._getframe(1)
    while frame.f_back is not None and is_inside(frame.f_code.co_filename):
        frame = frame.f_back
    return Line(Path(frame.f_code.co_filename).name, frame.f_lineno)


def is_inside(name: str) -> bool:
    """Whether code is the package's own, or was made for one of its data classes."""
    return name == "<string>" or Path(name).parent == HERE


class Lines:
    """Where the moves, routers and interfaces of a network come from, for the notes on its run."""

    def __init__(self, net: Network) -> None:
        made = {name: router.made for name, router in net.routers.items()}
        self.routers = made
        self.moves = [net.spoken.get(did.get("hex")) or made.get(did.get("router"), net.made)
                      for did in net.player.moves]
        self.made = net.made

    def move(self, number: int) -> Line:
        return self.moves[number - 1] if number <= len(self.moves) else self.made

    def router(self, name: str) -> Line:
        return self.routers[name]

    def interface(self, name: str, number: int) -> Line:
        return self.routers[name]

    @staticmethod
    def words(line: Line) -> str:
        return str(line)
