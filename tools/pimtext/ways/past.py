"""What the routers knew before a step of a run, also in the midst of a settle."""
from __future__ import annotations

from bisect import bisect_right
from typing import TYPE_CHECKING

from viqeshor.lab.known import begun, copied, follow

if TYPE_CHECKING:
    from viqeshor.lab import scenario, story
    from viqeshor.lab.known import Known


class Past:
    """A run of a scenario. What a router knew is asked of its twin."""

    def __init__(self, played: scenario.Scenario, steps: list[story.Step]) -> None:
        self.played, self.steps = played, steps
        self.times, self.states = None, None

    def known(self, at: int) -> dict[str, Known]:
        """What each router knew before step `at`, counted from 0."""
        if self.times is None:
            self.follow()
        return {name: states[bisect_right(self.times[name], at) - 1] for name, states in self.states.items()}

    def follow(self) -> None:
        """Keeps what each router knew from each step on."""
        known = begun(self.played)
        self.times = {name: [0] for name in known}
        self.states = {name: [copied(state)] for name, state in known.items()}
        for at, step in enumerate(self.steps, 1):
            follow(known[step.router], step)
            self.times[step.router].append(at)
            self.states[step.router].append(copied(known[step.router]))
