"""Gives a router RP ranges and candidate RPs, and compares RP(G) with a reading of RFC 7761, 4.7.1 and 4.7.2.

    torture/run candidates [--seconds N] [--seed N] [--forget RULE | --each] [--unproved | --from FOLDER |
    --archive FILE]

In random runs, for so many seconds in all (30), a router is given lists of ranges and of candidates: few or as many as
there may be, of prefixes that contain one another, with the same priorities, and with the same hash values. Some can't
stand. Between them it is saved and restored, or gets another configuration. After each event the router's answer, and
RP(G) of groups in and beside the prefixes, have to be those of the reading, which stands on no code of the router. The
first divergence is printed, with the events up to it; --seed N begins with that run. With --forget the reading forgets
a rule (--rules lists them), so it has to diverge from the router in a random run; with --each every rule is tried so.
The exit status is 0 where all came as it has to.
"""
from __future__ import annotations

import argparse
import random
from collections.abc import Callable, Iterable
from dataclasses import dataclass, field
from ipaddress import IPv4Address, IPv4Network
from pathlib import Path

import viqeshor
from pimtext.build.library import chosen
from stress import forgetting
from viqeshor import Answer
from viqeshor.lab.rps import hashed

INTERFACES = [("10.0.0.1", 24), ("10.0.1.1", 24)]
GROUPS, SSM = IPv4Network("224.0.0.0/4"), IPv4Network("232.0.0.0/8")
MOST = 256
RULES = {
    "ssm": "a group of SSM has no RP",
    "longest": "of candidates those of the longest prefix come first",
    "priority": "of one prefix those of the lowest priority number",
    "hash": "of these the one of the greatest hash value",
    "mask": "the hash is of the group's first bits alone",
    "address": "of one hash value the one of the highest address",
    "longest range": "of ranges the longest has the RP",
    "between": "of a range and a candidate the longer prefix decides",
    "range": "of one prefix the range has the RP",
    "twice": "a list with an RP twice for a prefix can't stand",
    "most": "nor one of more than 256",
    "host bits": "nor one with host bits in a prefix",
    "groups": "nor one with a prefix beside 224.0.0.0/4",
    "host": "nor one with an RP that no host is",
    "255": "nor one with a priority above 255",
    "32": "nor one with a mask above 32 bits",
    "stays": "what can't stand changes nothing",
}
# A range: its prefix, its length and its RP; a candidate has a priority and the length of the hash mask behind these.
Range = tuple[int, int, str]
Candidate = tuple[int, int, str, int, int]


@dataclass
class Reading:
    """The ranges and the candidates of a router, and which RP each group has by them."""
    forgets: frozenset[str] = frozenset()
    ranges: list[Range] = field(default_factory=list)
    candidates: list[Candidate] = field(default_factory=list)

    def minds(self, rule: str) -> bool:
        return rule not in self.forgets

    # ---- which lists can stand

    def can_stand(self, prefix: int, length: int, rp: str, priority: int = 0, mask: int = 0) -> bool:
        tests = {
            "groups": IPv4Address(prefix) in GROUPS and length >= 4,
            "host bits": prefix % (1 << 32 - length) == 0,
            "host": 0 < int(IPv4Address(rp)) < int(GROUPS[0]),
            "255": priority <= 255,
            "32": mask <= 32,
        }
        return all(holds for rule, holds in tests.items() if self.minds(rule))

    def take_ranges(self, ranges: list[Range]) -> Answer:
        names = [each[:2] for each in ranges]
        return self.take("ranges", ranges, names, Answer.BAD_RANGES)

    def take_candidates(self, candidates: list[Candidate]) -> Answer:
        names = [each[:3] for each in candidates]
        return self.take("candidates", candidates, names, Answer.BAD_CANDIDATES)

    def take(self, name: str, given: list, names: list, refusal: Answer) -> Answer:
        is_short = len(given) <= MOST or not self.minds("most")
        is_apart = len(set(names)) == len(names) or not self.minds("twice")
        can_stand = is_short and is_apart and all(self.can_stand(*each) for each in given)
        if can_stand or not self.minds("stays"):
            setattr(self, name, given)
        return Answer.DONE if can_stand else refusal

    # ---- which RP a group has

    def rp(self, group: int) -> str | None:
        if IPv4Address(group) in SSM and self.minds("ssm"):
            return None
        here = [each for each in self.ranges if is_in(group, each)]
        by_range = (max if self.minds("longest range") else min)(here, key=lambda each: each[1], default=None)
        by_candidate = self.candidate(group)
        if by_range is None or by_candidate is None:
            found = by_range or by_candidate
            return found and found[2]
        longer = by_candidate[1] - by_range[1] if self.minds("between") else 0
        is_candidate = longer > 0 or longer == 0 and not self.minds("range")
        return by_candidate[2] if is_candidate else by_range[2]

    def candidate(self, group: int) -> Candidate | None:
        """Step by step those are left that are best by it."""
        left = [each for each in self.candidates if is_in(group, each)]
        steps: dict[str, Callable[[Candidate], int]] = {
            "longest": lambda each: each[1],
            "priority": lambda each: -each[3],
            "hash": lambda each: hashed(each[4] if self.minds("mask") else 32, IPv4Address(group), each[2]),
            "address": lambda each: int(IPv4Address(each[2])),
        }
        for rule, step in steps.items():
            if self.minds(rule):
                best = max(map(step, left), default=None)
                left = [each for each in left if step(each) == best]
        return left[0] if left else None


def is_in(group: int, named: Range | Candidate) -> bool:
    return group >> 32 - named[1] == named[0] >> 32 - named[1]


# ---- random lists


class Random:
    """Ranges, candidates and groups, by a seed."""

    def __init__(self, seed: int) -> None:
        self.draws = random.Random(seed)
        # Prefixes each in the one before it, and others.
        self.groups = [self.draws.randrange(int(GROUPS[0]), int(GROUPS[-1])) for _ in range(3)]
        self.groups += [int(IPv4Address("232.1.1.1")), int(IPv4Address("239.0.0.1"))]
        lasts = [self.draws.randrange(256) for _ in range(self.draws.choice((1, 2, 3)))]
        # An address and the one that differs in its first bit have the same hash value of each group.
        self.rps = [f"{first}.9.{last}.1" for last in lasts for first in (10, 138)]

    def prefix(self) -> tuple[int, int]:
        length = self.draws.choice((4, 4, 5, 8, 8, 16, 24, 30, 32))
        group = self.draws.choice(self.groups)
        return group >> 32 - length << 32 - length, length

    def few(self) -> int:
        return self.draws.choice((0, 1, 2, 2, 3, 3, 5, 9))

    def ranges(self) -> list[Range]:
        apart = dict.fromkeys(self.prefix() for _ in range(self.few()))
        return [(*prefix, self.draws.choice(self.rps)) for prefix in apart]

    def candidate(self) -> Candidate:
        priority = self.draws.choice((0, 192, 192, 192, 255))
        return *self.prefix(), self.draws.choice(self.rps), priority, self.draws.choice((0, 8, 30, 30, 30, 32))

    def candidates(self) -> list[Candidate]:
        if self.draws.random() < 0.1:
            return self.many()
        apart = {each[:3]: each for each in (self.candidate() for _ in range(self.few()))}
        found = list(apart.values())
        self.draws.shuffle(found)
        return found

    def many(self) -> list[Candidate]:
        """As many as there may be, and now and then one more."""
        count = MOST + self.draws.choice((0, 0, 1))
        prefix, length = self.draws.choice(((0xE000_0000, 4), (0xEF00_0000, 8)))
        return [(prefix, length, f"10.{at >> 8}.{at & 255}.9", 192, 30) for at in range(count)]

    def spoilt(self, given: list) -> list:
        """A list of which one item is another one, mostly one that can't stand."""
        if not given or self.draws.random() < 0.75:
            return given
        place = self.draws.randrange(len(given))
        item = list(given[place])
        at, value = self.draws.choice([
            (0, item[0] | 1), (0, int(IPv4Address("10.0.0.0"))), (1, 3), (2, "0.0.0.0"), (2, "224.0.0.1"),
            (2, "255.255.255.255"), *([(3, 256), (4, 33), (3, 2**32 - 1)] if len(item) > 3 else []),
        ])
        changed = tuple([*item[:at], value, *item[at + 1:]])
        return [*given[:place], *self.draws.choice([[changed], [given[place]] * 2]), *given[place + 1:]]

    def asked(self) -> list[int]:
        """Groups of which RP(G) is asked."""
        near = [group ^ 1 << self.draws.randrange(28) for group in self.groups]
        return [*self.groups, *near, *(group ^ 1 for group in near)]


# ---- a router beside the reading


class Diverged(Exception):
    """What differs, as lines."""


class Told:
    """A router that is told what the reading is told."""

    def __init__(self, library: Path, seed: int, forgets: Iterable[str] = ()) -> None:
        self.library, self.random, self.reading = library, Random(seed), Reading(frozenset(forgets))
        self.router, self.words = viqeshor.Router(INTERFACES, library=library), []

    def __enter__(self) -> Told:
        return self

    def __exit__(self, *_: object) -> None:
        self.router.end()

    def happen(self) -> None:
        what, = self.random.draws.choices(("candidates", "ranges", "restart", "reload"), (10, 6, 1, 1))
        getattr(self, what)()
        for group in self.random.asked():
            shown = str(IPv4Address(group))
            self.same(f"the RP of {shown}", self.router.tree(shown).rp, self.reading.rp(group))

    def candidates(self) -> None:
        given = self.random.spoilt(self.random.candidates())
        self.words.append(f"candidates {[texts(each) for each in given]}")
        self.same("the answer", self.router.set_candidates(map(texts, given), 7), self.reading.take_candidates(given))

    def ranges(self) -> None:
        given = self.random.spoilt(self.random.ranges())
        self.words.append(f"ranges {[texts(each) for each in given]}")
        self.same("the answer", self.router.set_ranges(map(texts, given), 7), self.reading.take_ranges(given))

    def restart(self) -> None:
        self.words.append("saved and restored")
        saved = self.router.save()
        self.router.end()
        self.router = viqeshor.Router.restore(saved, library=self.library)

    def reload(self) -> None:
        """Another configuration has its ranges, and keeps the candidates."""
        given = self.random.ranges()
        self.words.append(f"another configuration, with ranges {[texts(each) for each in given]}")
        self.router.reload(INTERFACES, map(texts, given), draw=7)
        self.reading.take_ranges(given)

    @staticmethod
    def same(what: str, got: object, wanted: object) -> None:
        if got != wanted:
            raise Diverged(f"{what}: is {got}, and has to be {wanted}")


def texts(named: Range | Candidate) -> tuple[str | int, ...]:
    prefix, length, *rest = named
    return f"{IPv4Address(prefix)}/{length}", *rest


def run(library: Path, seed: int, count: int, forgets: Iterable[str] = ()) -> tuple[str, list[str]]:
    """What differs in a random run of so many events, and what happened."""
    with Told(library, seed, forgets) as told:
        try:
            for _ in range(count):
                told.happen()
        except Diverged as diverged:
            return str(diverged), told.words
        return "", told.words


def is_noticed(library: Path, rule: str, asked: argparse.Namespace) -> bool:
    """Whether a reading that forgets a rule differs from the router in a random run."""
    seed = next((seed for seed in range(1, 200) if run(library, seed, asked.events, [rule])[0]), None)
    return forgetting.said_of(rule, RULES, seed)


def all_runs(library: Path, asked: argparse.Namespace) -> bool:
    def one(seed: int) -> int | None:
        differs, words = run(library, seed, asked.events)
        if differs:
            print(f"seed {seed}, {len(words)} events:")
            print("\n".join(f"  {number} {word}" for number, word in enumerate(words, 1)))
            print(f"  {differs}")
        return None if differs else len(words)

    return forgetting.all_runs(asked, one, "lists and restarts")


# ---- the tool


def add_words(parser: argparse.ArgumentParser) -> None:
    forgetting.add_runs(parser, 30, 50)
    forgetting.add_rules(parser, RULES)


def is_right(asked: argparse.Namespace) -> bool:
    return forgetting.is_right(asked, RULES, lambda asked: chosen(asked)[0].shared(), is_noticed, all_runs)
