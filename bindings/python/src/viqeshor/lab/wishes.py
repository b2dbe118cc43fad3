"""What hosts asked for in a run, and when: by all reports that they gave, also by those that routers refused, and by
IGMPv1 and IGMPv2."""
from __future__ import annotations

from collections import defaultdict
from dataclasses import dataclass
from typing import TYPE_CHECKING

from viqeshor.lab import packets
from viqeshor.lab.spoken import ALLOW, BLOCK, IS_EX, IS_IN, TO_EX

if TYPE_CHECKING:
    from viqeshor.lab.scenario import Scenario
    from viqeshor.lab.story import Step

# The messages of older hosts, with their version of IGMP: reports, and the one that leaves.
OLDER, LEAVE = {0x12: 1, 0x16: 2, 0x17: 2}, 0x17
# A query of any version.
QUERY = 0x11


@dataclass(frozen=True)
class Wish:
    """Which sources of a group a host wants: these, or all but these."""
    is_exclude: bool
    sources: frozenset

    def has(self, source: str) -> bool:
        return (source in self.sources) != self.is_exclude


NOTHING, EVERYTHING = Wish(False, frozenset()), Wish(True, frozenset())


def after(wish: Wish, record: packets.Record) -> Wish:
    """A host's wish after a record of it."""
    kind, told = record.kind, frozenset(record.sources)
    if kind in (IS_EX, TO_EX):
        return Wish(True, told)
    if kind in (ALLOW, BLOCK):
        is_more = (kind == ALLOW) != wish.is_exclude
        return Wish(wish.is_exclude, wish.sources | told if is_more else wish.sources - told)
    if kind == IS_IN:
        # An answer to a query of some sources names no others that it wants.
        return wish if wish.is_exclude else Wish(False, wish.sources | told)
    return Wish(False, told)


@dataclass(frozen=True)
class Heard:
    """A host's report as a router took or refused it: pairs of a group and what the host wants of it after the
    report. `version` is that of IGMP."""
    at: int
    step: Step
    host: str
    link: str
    wishes: tuple
    version: int = 3


def igmp_of(data: bytes) -> bytes | None:
    """The IGMP message in a packet, None in any other."""
    return data[4 * (data[0] & 15):] if len(data) >= 20 and data[9] == packets.IGMP else None


def older_wish(message: bytes) -> tuple[str, Wish] | None:
    """The group of a message of IGMPv1 or IGMPv2, and what its host wants of it; None of any other."""
    if len(message) < 8 or message[0] not in OLDER:
        return None
    return packets.dotted(message[4:8]), NOTHING if message[0] == LEAVE else EVERYTHING


# A host's address, a group and the link on which it asks: a host may ask on several links.
Key = tuple[str, str, str]


class Hosts:
    """What each host wanted: `told` has by host, group and link the wish from each step on, `links` the links of each
    host, in the order in which it asked there."""

    def __init__(self, played: Scenario, steps: list[Step]) -> None:
        self.played, self.steps = played, steps
        self.told, self.links, self.heard = defaultdict(list), defaultdict(list), []
        for at, step in enumerate(steps):
            if step.did is not None and step.did["do"] == "frame":
                self.hear(at, step)

    def hear(self, at: int, step: Step) -> None:
        data = step.taken()
        message = igmp_of(data)
        if not message or step.link is None:
            return
        host, link, older = packets.dotted(data[12:16]), step.link, older_wish(message)
        wishes = [older] if older else [(record.group, record) for record in records_of(data)]
        if not wishes:
            return
        changed = [(group, told if older else after(self.wish((host, group, link), at), told))
                   for group, told in wishes]
        if link not in self.links[host]:
            self.links[host].append(link)
        self.heard.append(Heard(at, step, host, link, tuple(changed), OLDER[message[0]] if older else 3))
        for group, wish in changed:
            self.told[host, group, link].append((at, wish))

    def wish(self, key: Key, at: int) -> Wish:
        """What a host wanted of a group on a link before step `at`."""
        return next((wish for before, wish in reversed(self.told.get(key, [])) if before < at), NOTHING)

    def keys(self, host: str, group: str | None = None) -> list[Key]:
        """What a host asked for, and where; of one group where it is given."""
        return [key for key in self.told if key[0] == host and group in (None, key[1])]

    def named(self, key: Key) -> list[str]:
        """The sources that a host asked for by name."""
        wishes = [wish for _, wish in self.told.get(key, []) if not wish.is_exclude]
        return list(dict.fromkeys(source for wish in wishes for source in sorted(wish.sources)))

    def joined(self, key: Key, source: str) -> int | None:
        """The step with which a host first asked for a source, None where it never did."""
        return next((at for at, wish in self.told.get(key, []) if wish.has(source)), None)

    def moved(self, key: Key) -> tuple[str, int] | None:
        """The link on which a host asked for the group after all its reports on this one, and the step; None where it
        didn't."""
        host, group, link = key
        last = max(each.at for each in self.heard if (each.host, each.link) == (host, link))
        later = [(told[0][0], other) for (whose, what, other), told in self.told.items()
                 if (whose, what) == (host, group) and other != link and told[0][0] > last]
        return None if not later else (later[0][1], later[0][0])


def records_of(data: bytes) -> tuple[packets.Record, ...]:
    """The records of a report that can be read."""
    try:
        body = packets.read(data).body
    except packets.Refused:
        return ()
    return body.records if isinstance(body, packets.Report) else ()
