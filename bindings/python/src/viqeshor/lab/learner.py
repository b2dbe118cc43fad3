"""A router of the library behind a listener for Bootstraps, with a candidacy beside it, as a router of a scenario has
both with `bsr = true`."""
from __future__ import annotations

from os import PathLike
from typing import Any

import viqeshor
from viqeshor.bsr import Bsr, Choice
from viqeshor.candidacy import Candidacy, CandidateBsr, CandidateRp, Role
from viqeshor.lab import fed, printed

# Until when a neighbour may say at once what it learned before, in ms: all routers of a scenario start at 0.
REFRESH_END = 60_000
MOST_RPS = 256
CHOICES = {"range": Choice.RANGE, "group": Choice.GROUP}


def hears(table: dict[str, Any]) -> bool:
    """Whether a router hears Bootstraps, by its table of a scenario."""
    return bool(table.get("bsr", False))


def stands(table: dict[str, Any]) -> bool:
    """Whether it stands as a BSR, or as an RP."""
    return "candidate_bsr" in table or "candidate_rp" in table


def standing_of(table: dict[str, Any]) -> tuple[CandidateBsr | None, CandidateRp | None]:
    """As what BSR it stands, and as what RP."""
    as_bsr, as_rp = table.get("candidate_bsr"), table.get("candidate_rp")
    return as_bsr and CandidateBsr(**as_bsr), as_rp and CandidateRp(**as_rp)


class Learner:
    """The calls of a router by which events come to it go by its listener; all others are the router's own."""

    def __init__(
        self, router: viqeshor.Router, table: dict[str, Any], now: int = 0, library: str | PathLike[str] | None = None
    ) -> None:
        self.router, self.limit, self.now, self.library = router, table.get("rp_limit", MOST_RPS), now, library
        self.left: list[viqeshor.Sent] = []
        ranges = fed.ranges(table.get("rps", []))
        self.bsr = Bsr(ranges, limit=self.limit, refresh_end=REFRESH_END, library=library)
        if (choice := CHOICES[table.get("choice", "range")]) != Choice.RANGE:
            self.bsr.choose(router, choice, draw=0)
        self.standing = standing_of(table)
        self.candidacy = self.stand()

    def __getattr__(self, name: str) -> Any:
        return getattr(self.router, name)

    def __enter__(self) -> Learner:
        return self

    def __exit__(self, *_: object) -> None:
        self.end()

    def stand(self) -> Candidacy:
        """Begins anew to stand as what it stands."""
        self.candidacy = Candidacy(*self.standing, now=self.now, library=self.library)
        return self.candidacy

    def frame(self, iface: int, packet: bytes, draw: int) -> viqeshor.Answer:
        return self.candidacy.frame(self.bsr, self.router, iface, packet, draw)

    def unicast(self, packet: bytes, draw: int) -> viqeshor.Answer:
        return self.candidacy.unicast(self.router, packet, draw)

    def advance(self, moment: int, draw: int) -> viqeshor.Answer:
        answer = self.candidacy.advance(self.bsr, self.router, moment, draw)
        if answer == viqeshor.Answer.DONE:
            self.now = moment
        return answer

    def set_ranges(self, ranges: list[tuple[str, str]], draw: int) -> viqeshor.Answer:
        return self.bsr.set_ranges(self.router, ranges, limit=self.limit, draw=draw)

    def leave(self, table: dict[str, Any]) -> None:
        """Says that the RP goes where a configuration has another one, or none."""
        if hears(table) and standing_of(table)[1] == self.standing[1]:
            return
        self.left = self.candidacy.leave(self.bsr, self.router)

    def reload_beside(self, table: dict[str, Any], ranges: list[tuple[str, str]], draw: int) -> viqeshor.Answer:
        """The listener and what stands beside it get another configuration, as the router did."""
        self.limit = table.get("rp_limit", MOST_RPS)
        if standing_of(table) != self.standing:
            self.standing = standing_of(table)
            self.stand()
        answer = self.set_ranges(ranges, draw)
        if (choice := CHOICES[table.get("choice", "range")]) != self.bsr.choice():
            self.bsr.choose(self.router, choice, draw)
        return answer

    def packets(self) -> list[viqeshor.Sent]:
        left, self.left = self.left, []
        return left + self.router.packets()

    def next_moment(self) -> int | None:
        return self.candidacy.next_moment(self.bsr, self.router)

    def end(self) -> None:
        self.candidacy.end()
        self.bsr.end()
        self.router.end()

    def rows_learned(self) -> list[printed.Row]:
        """What the listener learned, and what it stands as, as the rows of a scenario's tables."""
        elected = self.bsr.elected()
        rows = [printed.ElectedBsr(*elected)] if elected else []
        rows += [printed.LearnedRp(it.groups, it.rp, it.priority, it.end, "given" if it.is_given else "kept")
                 for it in self.bsr.rps()]
        rows += [printed.LearnedRp(it.groups, it.rp, it.priority, it.end, "waits") for it in self.bsr.parts()]
        return rows + self.rows_standing()

    def rows_standing(self) -> list[printed.Row]:
        """The rows of what it stands as, but for the ranges whose last RP went, which the library doesn't tell."""
        told = self.candidacy.standing()
        rows = [] if told.role == Role.NONE else [printed.StandingBsr(told.role.name.lower(), told.end)]
        rows += [printed.HeldRp(*it) for it in self.candidacy.rps()]
        return rows + ([printed.ToldBsr(told.told, told.told_end)] if told.told else [])


def words_of(row: printed.Row) -> str:
    """The line that is printed of such a row."""
    letter = next(letter for letter, kind in printed.ROWS.items() if isinstance(row, kind))
    return " ".join([letter, *map(str, row)])
