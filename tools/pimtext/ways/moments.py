"""What the routers know after each move of a run, by one run of the program."""
from __future__ import annotations

from collections.abc import Iterable, Iterator
from typing import TYPE_CHECKING

from viqeshor.lab import story
from viqeshor.lab.known import begun, follow

if TYPE_CHECKING:
    from viqeshor.lab.known import Known
    from viqeshor.lab.scenario import Scenario


def after_moves(played: Scenario, lines: Iterable[str]) -> Iterator[tuple[int, list[story.Step], dict[str, Known]]]:
    """After each move, and before the first: the number of moves, the steps of the last one, and what each router
    knows. The lines have the tables of each answer. What is known is the same object each time."""
    known, waiting = begun(played), None
    steps, number = [], 0
    for part in story.Teller(played).tell(lines):
        if isinstance(part, story.Step):
            waiting = part
        if isinstance(part, story.Step) or waiting is None:
            continue
        while number < waiting.move:
            yield number, steps, known
            number, steps = number + 1, []
        steps.append(waiting)
        follow(known[waiting.router], waiting)
        known[waiting.router].print(part)
        waiting = None
    while number <= len(played.moves):
        yield number, steps, known
        number, steps = number + 1, []
