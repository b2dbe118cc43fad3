"""Why a router doesn't know that a host wants a group: which record ended, when, and since what."""
from __future__ import annotations

from collections.abc import Callable, Iterable, Iterator
from dataclasses import dataclass
from typing import TYPE_CHECKING, NamedTuple

from viqeshor.lab import packets, printed, wishes, words
from pimtext.causes.cause import Cause
from pimtext.causes.run import gathered, listed, some, times

if TYPE_CHECKING:
    from viqeshor.lab.lines import Line
    from pimtext.causes.cause import Symptom
    from pimtext.causes.run import Run
    from viqeshor.lab.story import Step
    from viqeshor.lab.wishes import Heard


class Whose(NamedTuple):
    """A host that wants a group on a link, and the router there that is to know it."""
    host: str
    group: str
    link: str
    router: str


@dataclass(frozen=True)
class Ended:
    """A record that ended: `last` is the host's last report that the router took before, `at` the step with which the
    record was gone."""
    last: Heard
    at: int


class Memberships:
    def __init__(self, run: Run) -> None:
        self.run, self.hosts, self.steps = run, run.hosts, run.steps

    def causes(self, symptoms: Iterable[Symptom]) -> Iterator[Cause]:
        """A cause for each host, group, link and router that doesn't know of the host."""
        unwanted = [each for each in symptoms if each.kind == "unwanted" and each.host and each.router and each.place
                    and each.place == each.link and each.at is not None]
        keys = (Whose(each.host, each.group, each.place, each.router) for each in unwanted)
        for whose, found in gathered(zip(keys, unwanted)).items():
            yield from self.of(whose, found)

    def of(self, whose: Whose, found: list[Symptom]) -> Iterator[Cause]:
        lasts = [(self.last(whose, each.at), each) for each in found]
        by_report = gathered((last.at, (last, each)) for last, each in lasts if last)
        ends = [Ended(pairs[0][0], at) for pairs in by_report.values()
                if (at := self.ended(pairs[0][0], whose.group, pairs[0][1].at)) is not None]
        early = [each for last, each in lasts if last is None]
        if ends:
            late = {id(each) for last, each in lasts if last}
            yield Cause(*self.forgotten(whose, ends), lambda each: id(each) in late)
        if early:
            others = {id(each) for each in early}
            yield from self.never(whose, early[0], lambda each: id(each) in others)

    # ---- reports

    def reports(self, whose: Whose) -> list[Heard]:
        """The reports of a host that ask for a group, by whatever router they were heard."""
        return [each for each in self.hosts.heard if (each.host, each.link) == (whose.host, whose.link)
                and dict(each.wishes).get(whose.group, wishes.NOTHING) != wishes.NOTHING]

    def last(self, whose: Whose, at: int) -> Heard | None:
        mine = [each for each in self.reports(whose) if each.step.router == whose.router and each.at < at]
        return next((each for each in reversed(mine) if each.step.verdict == "done"), None)

    def ended(self, last: Heard, group: str, at: int) -> int | None:
        """The step with which the record of a report was gone, before a step; None where it wasn't there or is still
        there."""
        past, name, iface = self.run.past, last.step.router, last.step.iface
        past.known(at)
        was = False
        for since, state in zip(past.times[name], past.states[name]):
            if since <= last.at:
                continue
            is_there = bool(state.of(printed.GroupRecord, iface=iface, group=group))
            if was and not is_there:
                return since - 1 if since <= at else None
            was = is_there
        return None

    # ---- a report that never counted

    def never(self, whose: Whose, symptom: Symptom, covers: Callable[[Symptom], bool]) -> Iterator[Cause]:
        """No report of the host was taken before: it came while the interface was down, or to others alone."""
        host, group, link, router = whose
        early = [each for each in self.reports(whose) if each.at < symptom.at]
        mine = [each for each in early if each.step.router == router]
        down = [each for each in mine if each.step.cause == "23"]
        if down:
            first = down[0]
            told = f"the report of {host} for {group} of {words.seconds(first.step.moment)} came to {router} while its"
            told = f"{told} interface on {link} was down, and none came {self.until(whose, first)}"
            yield Cause(*self.run.at_move(first.step, told), covers)
        elif early and not mine:
            names = some(dict.fromkeys(each.step.router for each in early))
            told = f"the report of {host} for {group} of {words.seconds(early[0].step.moment)} came to {names} alone on"
            told = f"{told} {link}, and not to {router}, which serves the link: {self.why_not(router, link, early[0])}"
            yield Cause(*self.run.at_move(early[0].step, told), covers)

    def until(self, whose: Whose, first: Heard) -> str:
        later = [each for each in self.reports(whose) if each.step.router == whose.router and each.at > first.at
                 and each.step.verdict == "done"]
        return f"until {words.seconds(later[0].step.moment)}" if later else "since"

    def why_not(self, router: str, link: str, report: Heard) -> str:
        up = self.run.past.known(report.at)[router].up
        numbers = {each.number for each in self.run.known[router].router.on(link)}
        return "it was lost before it" if numbers & up else "its interface there was down, or not yet up"

    # ---- a record that ended

    def forgotten(self, whose: Whose, ends: list[Ended]) -> tuple[int | Line, str]:
        """Where, when, and since what: each reason once."""
        reasons = gathered((self.why(whose, each), each) for each in ends)
        parts = [f"at {listed(words.seconds(self.steps[each.at].moment) for each in here)}: {reason}"
                 for reason, here in reasons.items()]
        told = f"{whose.router} forgot that {whose.host} on {whose.link} wants {whose.group} {'; '.join(parts)}"
        return self.run.lines.move(ends[0].last.step.move), told + self.elsewhere(whose)

    def why(self, whose: Whose, end: Ended) -> str:
        between, iface = range(end.last.at + 1, end.at + 1), end.last.step.iface
        host, group, link, router = whose
        downs = [at for at in between if self.steps[at].router == router and self.steps[at].iface == iface
                 and self.steps[at].did["do"] == "down" and self.steps[at].verdict == "done"]
        if downs:
            return f"its interface on {link} went down by move {self.steps[downs[0]].move}"
        leave = self.leave(whose, between)
        if leave is not None:
            told = f"{leave.host} left at {words.seconds(leave.step.moment)}, and of {host} no answer came to the"
            return f"{told} queries of {group} that followed"
        return self.unanswered(whose, between, end)

    def leave(self, whose: Whose, between: range) -> Heard | None:
        """The last Leave of a group on the link in these steps."""
        here = whose.router, whose.link
        mine = [each for each in self.hosts.heard if each.at in between and (each.step.router, each.link) == here]
        left = [each for each in mine if dict(each.wishes).get(whose.group) == wishes.NOTHING
                and each.host != whose.host]
        return left[-1] if left else None

    def unanswered(self, whose: Whose, between: range, end: Ended) -> str:
        """No answer came to the queries, and where answers came that this router didn't get."""
        host, _, link, router = whose
        queries = sum(is_query_on(self.steps[at], link) for at in between)
        others = {at: each for each in self.hosts.heard for at in [each.at] if each.at in between
                  and (each.host, each.link) == (host, link) and each.step.router != router}
        told = f"no report of it came to {times(queries, 'query').replace('querys', 'queries')} since that of"
        told = f"{told} {words.seconds(end.last.step.moment)}"
        if others:
            names = some(dict.fromkeys(each.step.router for each in others.values()))
            return f"{told}, though {times(len(others), 'report')} came to {names}: lost before {router}"
        return f"{told}: it doesn't answer, or its reports are lost"

    def elsewhere(self, whose: Whose) -> str:
        moved = self.hosts.moved((whose.host, whose.group, whose.link))
        if moved is None:
            return ""
        return f"; since {words.seconds(self.steps[moved[1]].moment)} it asks on {moved[0]}"


def is_query_on(step: Step, link: str) -> bool:
    """Whether an IGMP query left on a link with a step, or came from somebody else there."""
    sent = any(each.kind == "frame" and each.where == link and each.data[9] == packets.IGMP for each in step.sent)
    data = step.taken() if step.did["do"] == "frame" and step.link == link else None
    message = wishes.igmp_of(data) if data else None
    return sent or bool(message) and message[0] == wishes.QUERY
