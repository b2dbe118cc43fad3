"""Which RP a group has at each router of a run, and why."""
from __future__ import annotations

from collections.abc import Iterator
from typing import TYPE_CHECKING

from pimtext.causes.run import gathered, listed
from pimtext.ways.namings import differences, namings, namings_of
from viqeshor.lab import asked, words
from viqeshor.lab.addresses import is_source_specific
from viqeshor.lab.rps import Candidate

if TYPE_CHECKING:
    from pimtext.causes.run import Run
    from pimtext.ways.namings import Naming

# How many others are told of a router that has many.
MOST_OTHERS = 8


class Choices:
    """Which RP a group has at each router at the end of a run, and why."""

    def __init__(self, run: Run, group: str) -> None:
        self.run, self.group = run, group
        self.found = {name: namings_of(state, group) for name, state in run.known.items()}
        self.rps = {name: asked.rp_of(state, group) for name, state in run.known.items()}
        # A group of SSM has none anywhere.
        has_all = None not in self.rps.values() or is_source_specific(group)
        self.are_same = has_all and len(set(self.rps.values())) == 1

    def lines(self) -> Iterator[str]:
        yield self.group
        for name in self.rps:
            yield from self.of_router(name)
        yield from self.disagreement()

    def of_router(self, name: str) -> Iterator[str]:
        if self.rps[name] is None:
            yield f"  {name}: none: {self.why_none()}"
            return
        settings = self.run.settings
        when = settings.words(settings.since(name, lambda each: each.rp(self.group)))
        first, *others = self.found[name]
        yield f"  {name}: {first.words()}" + (f": {when}" if when else "")
        yield from self.learned(name, first)
        for other in others[:MOST_OTHERS]:
            yield f"    before {other.words()}: {first.why_before(other)}"
        if len(others) > MOST_OTHERS:
            yield f"    and {len(others) - MOST_OTHERS} more"

    def why_none(self) -> str:
        if is_source_specific(self.group):
            return "a group of SSM has none"
        return "no RP range and no candidate has the group"

    def learned(self, name: str, chosen: Naming) -> Iterator[str]:
        """Of a range that Bootstraps said, the RPs beside which it was chosen: for the whole range, by the hash value
        of its own address."""
        known = self.run.known[name].learned()
        here = [it for it in known if it.groups == str(chosen.prefix)] if chosen.candidate is None else []
        row = next((it for it in here if it.is_given and it.rp == chosen.rp), None)
        if row is None:
            return
        yield f"    learned of Bootstraps, until {words.seconds(row.end)}"
        all_of = [Candidate(chosen.prefix, it.rp, it.priority, it.hash_length) for it in here]
        first, *others = namings(str(chosen.prefix.network_address), [], all_of)
        for other in others[:MOST_OTHERS]:
            yield f"    before {other.words()}: {first.why_before(other)}"

    def disagreement(self) -> Iterator[str]:
        by_rp = gathered((rp, name) for name, rp in self.rps.items())
        if len(by_rp) < 2:
            return
        told = (f"{rp or 'none'} at {listed(names)}" for rp, names in by_rp.items())
        yield f"  the routers disagree: {'; '.join(told)}"
        (one, *_), *others = by_rp.values()
        for other, *_ in others:
            for text in differences((one, other), (self.found[one], self.found[other])):
                yield f"    {text}"
