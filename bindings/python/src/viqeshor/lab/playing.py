"""Time: what happens at a moment, and how it is played.

Each router of a network is one of the library, which goes on from where it is: a move costs what its router does with
it, however many moves and routers there are. The routers whose next timer is due stand in a queue, so time passes only
where it does something. What is played is kept as the moves and steps of a scenario; `pimlab` prints the same of it.
"""
from __future__ import annotations

import heapq
from collections.abc import Callable, Iterable
from dataclasses import dataclass, replace
from typing import TYPE_CHECKING, Any

from viqeshor.lab import scenario, story, twin
from viqeshor.lab.known import begun, follow

if TYPE_CHECKING:
    from viqeshor.lab.known import Known
    from viqeshor import Answer, Router as Core


# What is answered where the packet to deliver isn't there.
BAD_MOVE = ("refused", "27")


class Action:
    """Something that happens at a moment: moves, which are asked for when it does."""

    def __init__(self, moves: Iterable[dict[str, Any]] = ()) -> None:
        self.made = list(moves)

    def moves(self) -> list[dict[str, Any]]:
        return self.made

    def done(self, moment: int) -> None:
        """It happened."""


@dataclass(frozen=True)
class Batch:
    """All that happens at one moment. `is_step` where time passes for all routers."""
    moment: int
    actions: list[Action]
    is_step: bool


def words_of(answer: Answer) -> tuple[str, str | None]:
    """What a router answered, as it is printed: a verdict, and what follows it."""
    if answer.is_ignored:
        return "ignored", "".join(word.capitalize() for word in answer.name.split("_"))
    return ("refused", str(answer.value)) if answer.is_refused else ("done", None)


class Player:
    """The routers' tables in the scenario file, the draw of each for time that passes, and what was played: `moves`
    with their `steps`. `states` are what follows of them for each router; `clocks` say how far a router has come.
    `coming` are moves of a file that are to be played: interfaces that these make are known from the beginning."""

    def __init__(
        self, routers: list[dict[str, Any]], draws: dict[str, int], coming: Iterable[dict[str, Any]] = ()
    ) -> None:
        self.routers, self.draws = routers, draws
        self.moves, self.steps = [], []
        self.played = replace(scenario.scenario_of({"router": routers, "move": list(coming)}), moves=self.moves)
        self.teller = story.Teller(self.played)
        self.states, self.followed = begun(self.played), 0
        self.cores = {table["name"]: twin.new_router(table) for table in routers}
        self.clocks = dict.fromkeys(self.cores, 0)
        self.waking, self.next = [], {}
        self.printed = {}

    # ---- a moment

    def play(self, batch: Batch, draw: Callable[[], int] | None) -> list[story.Step]:
        """Plays what happens at a moment, and then a settle where one is asked for by its draw."""
        first = len(self.steps)
        wanted = [move for action in batch.actions for move in action.moves()]
        for name in self.due(batch.moment) if batch.is_step or draw else []:
            self.come(name, batch.moment)
        for move in wanted:
            self.come(move["router"], batch.moment)
            self.make(move)
        if draw and self.teller.taken < len(self.teller.sent):
            self.settle({"do": "settle", "draw": draw()}, batch.moment)
        return self.steps[first:]

    def due(self, moment: int) -> list[str]:
        """The routers for which time that passes up to a moment does something, in their order."""
        found = set()
        while self.waking and self.waking[0][0] <= moment:
            ends, name = heapq.heappop(self.waking)
            if self.next.get(name) == ends:
                found.add(name)
        return sorted(found, key=self.played.places.get)

    def come(self, name: str, moment: int) -> None:
        """Time passes for a router, unless it is there."""
        if self.clocks[name] < moment:
            self.make({"do": "advance", "router": name, "moment": moment, "draw": self.draws[name]})

    def make(self, move: dict[str, Any]) -> None:
        """A router takes a move of its own."""
        self.moves.append(move)
        name = move["router"]
        step = story.Step(len(self.moves), name, "done", None, self.clocks[name], move, iface=move.get("iface"))
        if move["do"] == "advance":
            step.moment = move["moment"]
        if "frame" in move and not self.bring(step, move["frame"]):
            step.verdict, step.cause = BAD_MOVE
        else:
            self.take(step)
        if move["do"] == "advance":
            step.moment = self.clocks[name] = step.moment if step.verdict == "done" else self.clocks[name]
        self.steps.append(step)

    def bring(self, step: story.Step, number: int) -> bool:
        """The packet of a number comes, if it was sent, and on the link where it is to come."""
        if not 1 <= number <= len(self.teller.sent):
            return False
        step.brought = sent = self.teller.sent[number - 1]
        here = self.teller.present
        link = None if sent.is_unicast() else here.router(sent.router).link(sent.iface)
        return step.did["do"] == "carry" or link is not None and here.router(step.router).link(step.iface) == link

    def play_move(self, move: dict[str, Any]) -> list[story.Step]:
        """Plays a move of a file: time passes as the file says it."""
        first = len(self.steps)
        if move["do"] == "settle":
            self.settle(move)
        else:
            self.make(move)
        return self.steps[first:]

    def settle(self, move: dict[str, Any], moment: int | None = None) -> None:
        """All that was sent comes to its receivers, for which time passes before the move, where a moment is given: so
        its number is known once it was made."""
        steps, first = [], len(self.teller.sent)
        for sent, name, iface in self.teller.deliveries():
            if moment is not None:
                self.come(name, moment)
            steps.append(story.Step(0, name, "done", None, self.clocks[name], move, sent, iface))
            self.take(steps[-1])
        self.moves.append(move)
        here = self.teller.sent
        here[first:] = [replace(sent, move=len(self.moves)) for sent in here[first:]]
        for step in steps:
            step.move, step.brought = len(self.moves), here[step.brought.number - 1]
            step.sent = [here[sent.number - 1] for sent in step.sent]
        self.steps += steps

    def take(self, step: story.Step) -> None:
        """A router takes what a step brings it. What leaves does so on the links that it had."""
        core, name = self.cores[step.router], step.router
        here = self.teller.present.router(name)
        step.link = here.link(step.iface)
        step.verdict, step.cause = self.answer(step, core, here.table)
        for kind, where, data in core.packets():
            place = where if kind == "unicast" else here.interfaces[where].link
            number = len(self.teller.sent) + 1
            left = None if kind == "unicast" else where
            step.sent.append(story.Sent(kind, number, place, data, name, step.move, step.moment, left))
            self.teller.sent.append(step.sent[-1])
        if step.did["do"] == "reload":
            self.teller.go_on(step)
            self.put(name, here.table)
        self.wake(name, self.cores[name])

    @staticmethod
    def answer(step: story.Step, core: Core, table: dict[str, Any]) -> tuple[str, str | None]:
        """What a router answers; no answer of it follows of a move `restart`, which is done."""
        event = twin.event_of(step)
        return ("done", None) if event is None else words_of(twin.take(core, event, table))

    def put(self, name: str, before: dict[str, Any]) -> None:
        """A router has another configuration than this one: with a listener or without."""
        table = self.teller.present.router(name).table
        self.cores[name] = twin.with_listener(self.cores[name], before, table, self.clocks[name])

    def wake(self, name: str, core: Core) -> None:
        """Keeps when time does something for a router that has changed."""
        self.printed.pop(name, None)
        ends = core.next_moment()
        if ends is not None and ends != self.next.get(name):
            heapq.heappush(self.waking, (ends, name))
        self.next[name] = ends

    # ---- what came of it

    def told(self, moment: int) -> tuple[scenario.Scenario, story.Story]:
        """The scenario and its run, with the time that has passed since for all routers."""
        moves, steps = list(self.moves), list(self.steps)
        for name, draw in self.draws.items():
            moves.append({"do": "advance", "router": name, "moment": moment, "draw": draw})
            steps.append(story.Step(len(moves), name, "done", None, moment, moves[-1]))
        tables = {name: self.tables(name, moment) for name in self.cores}
        return replace(self.played, moves=moves), story.Story(steps, tables)

    def lines(self, with_tables: bool) -> list[str]:
        """What `pimlab run` prints of what was played, with the tables or without."""
        steps = [line for step in self.steps for line in step.lines()]
        cores = self.cores.items() if with_tables else ()
        return steps + [line for name, core in cores for line in (f"router {name}", *twin.lines_of(core))]

    def tables(self, name: str, moment: int) -> story.Tables:
        """What a router knows at a moment up to which time has passed."""
        if name not in self.printed:
            self.printed[name] = twin.rows_of(self.cores[name])
        return story.Tables(name, moment, self.printed[name])

    def known(self, moment: int) -> dict[str, Known]:
        """The same of all, with what follows of the steps."""
        for step in self.steps[self.followed:]:
            follow(self.states[step.router], step)
        self.followed = len(self.steps)
        for name, state in self.states.items():
            state.told, state.moment = self.tables(name, moment).rows, moment
        return {name: replace(state, queriers=dict(state.queriers)) for name, state in self.states.items()}
