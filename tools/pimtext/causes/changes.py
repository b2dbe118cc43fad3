"""What routers were told while a run went on, as the cause of what was missed meanwhile: interfaces, routes and RP
ranges that moves changed, and changed back."""
from __future__ import annotations

from collections.abc import Callable, Iterable, Iterator
from dataclasses import dataclass
from typing import TYPE_CHECKING, Any

from viqeshor.lab import words
from viqeshor.lab.addresses import is_source_specific
from pimtext.causes.cause import Cause
from pimtext.causes.run import gathered, some
from pimtext.causes.settings import spans, way_words

if TYPE_CHECKING:
    from pimtext.causes.cause import Symptom
    from pimtext.causes.run import Run
    from viqeshor.lab.scenario import Interface
    from pimtext.causes.settings import Since, Told

BY_LINK = ("no join", "no neighbour", "lost", "dead dr", "no owner", "rpf", "down", "interface down", "twice")
BY_RP, BY_ROUTE = ("no rp", "rp disagrees"), ("no route", "no neighbour", "interface down", "no owner", "circle")


@dataclass(frozen=True)
class Fact:
    """What a router was told of the RP of groups, or of the route to addresses, by the moves of these numbers."""
    router: str
    is_rp: bool
    value: Any
    moves: tuple[int, ...]

    def words(self, keys: list[str]) -> str:
        what = some(keys)
        if self.is_rp:
            return f"router {self.router} has {f'{self.value} as the RP of' if self.value else 'no RP for'} {what}"
        if self.value is None:
            return f"router {self.router} has no route to {what}"
        leads = "its route" if len(keys) == 1 else "its routes"
        return f"router {self.router}: {leads} to {what} lead{'s' * (len(keys) == 1)} to {way_words(self.value)}"


class Changes:
    def __init__(self, run: Run) -> None:
        self.run, self.settings = run, run.settings

    # ---- interfaces that another number has

    def relinked(self) -> Iterator[Cause]:
        """A `reload` leaves each interface that stays on its link: interfaces are known by their numbers."""
        for name, told in self.settings.told.items():
            for one, other in zip(told, told[1:]):
                pairs = list(zip(one.router.interfaces, other.router.interfaces))
                moved = [(was, now) for was, now in pairs if was.link != now.link]
                if moved:
                    yield self.shifted(name, other, moved)

    def shifted(self, name: str, told: Told, moved: list[tuple[Interface, Interface]]) -> Cause:
        shown = ", ".join(f"interface {was.number} from {was.link} to {now.link}" for was, now in moved[:4])
        shown += " .." if len(moved) > 4 else ""
        text = f"the `reload` of {words.seconds(told.step.moment)} moves {shown}: interfaces are known by their"
        text = f"{text} numbers, and what was known of the old link's neighbours, Joins and hosts stays with the number"
        links = {each.link for pair in moved for each in pair}

        def covers(each: Symptom) -> bool:
            is_here = each.link in links or each.router == name
            is_refused = each.kind == "odd" and each.cause in ("27", "23") and each.link in links
            return is_refused or (is_here and each.kind in BY_LINK and each.at is not None and each.at > told.at)

        return Cause(*self.run.at_move(told.step, text), covers)

    # ---- facts that a move set

    def causes(self, symptoms: Iterable[Symptom]) -> Iterator[Cause]:
        """A cause for each fact that moves set and that symptoms follow from, with all times at which it was so."""
        pairs = gathered(pair for symptom in symptoms for pair in self.facts(symptom))
        facts = {}
        for (router, is_rp, key, value), found in pairs.items():
            whole = spans(since for since, _ in found)
            fact = Fact(router, is_rp, value, tuple(since.began.move for since in whole))
            keys, _, whose = facts.setdefault(fact, ([], whole, set()))
            keys.append(key)
            whose |= {id(symptom) for _, symptom in found}
        for fact, (keys, whole, whose) in facts.items():
            yield self.cause(fact, keys, whole, lambda each, whose=whose: id(each) in whose)

    def facts(self, symptom: Symptom) -> Iterator[tuple[tuple[str, bool, str, Any], tuple[Since, Symptom]]]:
        if symptom.router not in self.settings.told or symptom.at is None or symptom.group is None:
            return
        for is_rp, key in self.keys(symptom):
            value = (lambda each: each.rp(key)) if is_rp else (lambda each: each.way(key))
            since = self.settings.since(symptom.router, value, symptom.at)
            if since.began is not None:
                yield (symptom.router, is_rp, key, since.now), (since, symptom)
                return

    def keys(self, symptom: Symptom) -> list[tuple[bool, str]]:
        """Which facts a symptom may follow from: the RP of a group, or the route to an address."""
        if symptom.kind in BY_RP:
            return [(True, symptom.group)]
        if symptom.kind not in BY_ROUTE:
            return []
        told = self.settings.at(symptom.router, symptom.at)
        roots = [symptom.source, None if is_source_specific(symptom.group) else told.rp(symptom.group)]
        return [(False, root) for root in roots if root and self.is_way(symptom, told.way(root), root)]

    @staticmethod
    def is_way(symptom: Symptom, way: tuple[str, str | None] | None, root: str) -> bool:
        """Whether a symptom is of this route."""
        return symptom.address == (way[0] if way and symptom.kind == "no neighbour" else root)

    def cause(
        self, fact: Fact, keys: list[str], whole: list[Since], covers: Callable[[Symptom], bool]
    ) -> Cause:
        told = "; and again ".join(self.settings.words(since, str if fact.is_rp else way_words) for since in whole)
        return Cause(self.settings.line(fact.router, whole[0]), f"{fact.words(keys)}: {told}", covers)

    # ---- who is elected

    def elected(self) -> Iterator[Cause]:
        """A `reload` that changes a DR priority, or an address, changes who is the DR."""
        for name, told in self.settings.told.items():
            for one, other in zip(told, told[1:]):
                pairs = zip(one.router.interfaces, other.router.interfaces)
                changed = [(was, now) for was, now in pairs if was.link == now.link
                           and (was.priority, was.address) != (now.priority, now.address)]
                yield from (self.stands(name, other, *pair) for pair in changed)

    def stands(self, name: str, told: Told, was: Interface, now: Interface) -> Cause:
        what = f"its DR priority is {now.priority} since {words.seconds(told.step.moment)}, and was {was.priority}"
        if was.address != now.address:
            what = f"its address is {now.address} since {words.seconds(told.step.moment)}, and was {was.address}"
        text = f"on interface {now.number} ({now.link}) {what}: the link's DR is elected anew"

        def covers(each: Symptom) -> bool:
            is_dr = each.kind in ("not the source's dr", "dead dr") or (
                each.kind == "unwanted" and "the DR, which is" in (each.alone or ""))
            return is_dr and each.link == now.link and each.at is not None and each.at > told.at

        return Cause(*self.run.at_move(told.step, text), covers, is_hint=True)
