"""Candidate BSRs and candidate RPs (RFC 5059): three of our routers in a chain, and FRR's pimd behind them.

                          host 10.85.0.50
                                 |
    west -- 10.86.0.0/24 -- one -- 10.87.0.0/24 -- east -- 10.88.0.0/24 -- behind -- 10.89.0.0/24 -- behind-host

`west` and `east` are candidate BSRs, `one` and `east` candidate RPs of twelve ranges: nothing is configured elsewhere.
All are to have the same RP of each range. FRR 8.4.4 listens and passes on; a later FRR, of which a folder has the root
of its release, is a candidate in both roles itself.
"""
from __future__ import annotations

import json
import time
from typing import TYPE_CHECKING

from trials.network import PIMD, Failed, came_with_gap, until

if TYPE_CHECKING:
    import subprocess
    from collections.abc import Callable, Iterable

    from trials.network import Network

LINKS = [("one", "10.85.0.1/24", "west-host", "10.85.0.50/24"), ("west", "10.86.0.1/24", "one", "10.86.0.2/24"),
         ("one", "10.87.0.1/24", "east", "10.87.0.2/24"), ("east", "10.88.0.1/24", "behind", "10.88.0.2/24"),
         ("behind", "10.89.0.1/24", "behind-host", "10.89.0.50/24")]
ROUTES = {"west-host": ["default via 10.85.0.1"], "west": ["10.80.0.0/12 via 10.86.0.2"],
          "one": ["10.88.0.0/15 via 10.87.0.2"],
          "east": ["10.85.0.0/24 via 10.87.0.1", "10.86.0.0/24 via 10.87.0.1", "10.89.0.0/24 via 10.88.0.2"],
          "behind": ["10.84.0.0/14 via 10.88.0.1"], "behind-host": ["default via 10.89.0.1"]}
PORTS = {"west": ["one"], "one": ["west-host", "west", "east"], "east": ["one", "behind"]}
GROUPS = [f"239.{41 + number}.0.0/16" for number in range(12)]
WEST, ONE, EAST, BEHIND = "10.86.0.1", "10.87.0.1", "10.87.0.2", "10.88.0.2"
USUAL_RP = 192
STREAM, SOURCE, HOST = "239.41.1.1", "10.85.0.50", "10.89.0.50"
RATE, SECONDS = 50, 190
# In ms, and in packets.
LONGEST_GAP, MOST_LOST = 1_000, 50
# In seconds. A candidate is elected after 5 to 23 s, its RPs tell it within 3 s each, and it says so within 10 s; a BSR
# of which nothing is heard is forgotten after 130 s.
SOON, LATER = 60, 200


def settings(place: str, control: object, bsr: tuple[str, int] | None, rp: tuple[str, int] | None) -> str:
    """Of one of our routers, which stands at an address with a priority as BSR, as RP, as both or as neither."""
    ports = "".join(f'[[interface]]\nname = "to-{port}"\n\n' for port in PORTS[place])
    listens = "[bsr]\nlisten = true\n"
    if bsr:
        listens += f'candidate = {{ address = "{bsr[0]}", priority = {bsr[1]} }}\n'
    if rp:
        listens += f'\n[rp_candidate]\naddress = "{rp[0]}"\npriority = {rp[1]}\nranges = {json.dumps(GROUPS)}\n'
    return f'log = "debug"\nsocket = "{control}"\n\n{ports}{listens}'


class Chain:
    """Our routers, by their places, and FRR behind them."""

    def __init__(self, net: Network) -> None:
        self.net, self.before = net, len(net.running)
        self.routers: dict[str, subprocess.Popen[str]] = {}

    def lay_out(self) -> None:
        self.net.add(ROUTES)
        self.net.connect_all(LINKS, ROUTES, (*PORTS, "behind"))

    # ---- our routers

    def control(self, place: str) -> object:
        return self.net.room / f"of-{place}" / "control"

    def start(self, place: str, bsr: tuple[str, int] | None = None, rp: tuple[str, int] | None = None) -> None:
        told = settings(place, self.control(place), bsr, rp)
        self.routers[place] = self.net.start_another(place, told, f"of-{place}")

    def reload(self, place: str, bsr: tuple[str, int] | None = None, rp: tuple[str, int] | None = None) -> None:
        told = settings(place, self.control(place), bsr, rp)
        self.net.read_anew(place, self.routers[place], told, f"{place} takes its settings")

    def upgrade(self, place: str) -> None:
        """Another program takes the router's place."""
        self.net.upgrade(self.routers[place], f"another program goes on as {place}", place)

    def end(self) -> None:
        self.net.clear(self.before, ROUTES)

    def rows(self, place: str, what: str) -> list[dict[str, object]]:
        """The rows of `show bsr` of a kind."""
        return [row for row in self.net.show("bsr", control=self.control(place)) if row["what"] == what]

    def bsr(self, place: str) -> str | None:
        return next((str(row["address"]) for row in self.rows(place, "BSR")), None)

    def role(self, place: str) -> object:
        return next((row["role"] for row in self.rows(place, "candidate BSR")), None)

    def tells(self, place: str) -> set[object]:
        """The BSR that is told of each range of its RP."""
        return {row["tells"] for row in self.rows(place, "candidate RP")}

    # ---- who has which RP

    def rps(self, place: str) -> dict[str, str]:
        """The RPs that one of our routers learned, by their ranges."""
        rows = self.net.show("rp", control=self.control(place))
        return {row["groups"]: row["rp"] for row in rows if row["from"] == "bsr" and row["chosen_for"] == "range"}

    def rps_of_frr(self) -> dict[str, str]:
        return self.net.learned_by_frr("behind")

    def all_have(self, what: str, rps: Iterable[str], seconds: float = SOON, places: Iterable[str] = PORTS) -> None:
        """Each router has an RP of each range, all the same, and these RPs are all that there are."""
        def found() -> list[dict[str, str]]:
            return [*map(self.rps, places), self.rps_of_frr()]

        def holds() -> bool:
            each = found()
            is_whole = sorted(each[0]) == sorted(GROUPS) and set(each[0].values()) == set(rps)
            return is_whole and all(one == each[0] for one in each)
        self.until(what, seconds, holds, found)

    def all_follow(self, what: str, bsr: str, seconds: float = SOON, places: Iterable[str] = PORTS) -> None:
        """Each of our routers has this BSR."""
        def found() -> list[str | None]:
            return list(map(self.bsr, places))
        self.until(what, seconds, lambda: all(one == bsr for one in found()), found)

    @staticmethod
    def until(what: str, seconds: float, holds: Callable[[], bool], found: Callable[[], object]) -> None:
        try:
            until(what, seconds, holds)
        except Failed as failed:
            raise Failed(f"{failed}: {found()}") from None


def begin(chain: Chain) -> None:
    """All routers, with FRR 8.4.4, of which `west` is the BSR, and `one` and `east` are RPs."""
    chain.lay_out()
    PIMD["behind"] = "interface to-east\n ip pim\n ip pim hello 5\ninterface to-behind-host\n ip pim\n ip igmp\n"
    chain.net.start_frr("behind")
    chain.start("west", bsr=(WEST, 20))
    chain.start("one", rp=(ONE, USUAL_RP))
    chain.start("east", bsr=(EAST, 10), rp=(EAST, USUAL_RP))
    chain.all_follow("west is the BSR", WEST)
    chain.all_have("all have both RPs", [ONE, EAST])


def candidates_are_elected_and_all_have_their_rps(net: Network) -> str:
    """of two candidate BSRs the better one says the RPs of both candidates; by reloads an RP comes to all ranges, one \
goes, and the other BSR is preferred, which is the BSR again after an upgrade in place"""
    chain = Chain(net)
    try:
        began = time.monotonic()
        begin(chain)
        seconds = time.monotonic() - began
        if (chain.role("west"), chain.role("east")) != ("elected", "candidate"):
            raise Failed(f"west is {chain.role('west')}, and east {chain.role('east')}")
        if (chain.tells("one"), chain.tells("east")) != ({WEST}, {WEST}):
            raise Failed(f"one tells {chain.tells('one')}, and east {chain.tells('east')}")
        both = list(chain.rps("one").values())
        chain.reload("one", rp=(ONE, 7))
        chain.all_have("one is preferred in all ranges", [ONE])
        chain.reload("one")
        chain.all_have("one goes, and east has all ranges", [EAST])
        chain.reload("one", rp=(ONE, USUAL_RP))
        chain.all_have("all have both RPs again", [ONE, EAST])
        chain.reload("east", bsr=(EAST, 30), rp=(EAST, USUAL_RP))
        chain.all_follow("east is the BSR", EAST)
        chain.until("west yields", SOON, lambda: chain.role("west") == "candidate", lambda: chain.role("west"))
        chain.until("one tells east", SOON, lambda: chain.tells("one") == {EAST}, lambda: chain.tells("one"))
        held = lambda: {row["address"] for row in chain.rows("east", "advertised RP")}
        chain.until("east is told of both RPs", SOON, lambda: held() == {ONE, EAST}, held)
        chain.all_have("all have both RPs of east", [ONE, EAST])
        chain.upgrade("east")
        chain.until("east is elected again", SOON, lambda: chain.role("east") == "elected", lambda: chain.role("east"))
        chain.until("east is told of both RPs again", LATER, lambda: held() == {ONE, EAST}, held)
        chain.all_have("all have both RPs still", [ONE, EAST], 0)
        chain.all_follow("east is the BSR still", EAST, 0)
    finally:
        chain.end()
    return f"after {seconds:.0f} s; {both.count(ONE)} and {both.count(EAST)} ranges"


def another_bsr_takes_over(net: Network) -> str:
    """the BSR is killed and the other candidate takes over; a stream by a learned RP goes on, also when that RP goes"""
    chain, count = Chain(net), RATE * SECONDS
    try:
        begin(chain)
        receiver = net.receive("behind-host", STREAM, HOST, count, SECONDS + 30)
        rp = chain.rps("one")[GROUPS[0]]
        joined = lambda: STREAM in {row["group"] for row in net.show("joins", control=chain.control("east"))}
        until("FRR joins at the learned RP", 30, joined)
        net.send("west-host", STREAM, SOURCE, count, RATE)
        chain.routers["west"].kill()
        killed = time.monotonic()
        chain.all_follow("east is the BSR", EAST, LATER, ["one", "east"])
        after = time.monotonic() - killed
        chain.until("one tells east", SOON, lambda: chain.tells("one") == {EAST}, lambda: chain.tells("one"))
        chain.all_have("both still have both RPs", [ONE, EAST], SOON, ["one", "east"])
        chain.reload("one")
        chain.all_have("one goes, and east has all ranges", [EAST], SOON, ["one", "east"])
        came, _, gap = came_with_gap(receiver)
        if count - came > MOST_LOST or gap > LONGEST_GAP:
            raise Failed(f"{came} of {count} came, with a gap of {gap} ms")
    finally:
        chain.end()
    return f"after {after:.0f} s; {came} of {count} packets of {STREAM} by {rp}, with a gap of {gap} ms"


# ---- with a later FRR


def candidate(command: str, address: str, priority: int) -> str:
    return f" bsr {command} source address {address} priority {priority}\n"


def a_later_frr_is_a_candidate_too(net: Network) -> str:
    """a later FRR is the BSR and says our RP beside its own; our router is, and says FRR's; FRR's RP goes; our BSR is \
killed and FRR takes over"""
    chain = Chain(net)
    vtysh = lambda *commands: net.frr("behind", "configure terminal", "router pim", *commands)
    try:
        chain.lay_out()
        net.roots["behind"] = net.frr_root
        ranges = "".join(f" bsr candidate-rp group {groups}\n" for groups in GROUPS)
        stands = candidate("candidate-bsr", BEHIND, 100) + candidate("candidate-rp", BEHIND, USUAL_RP) + ranges
        PIMD["behind"] = f"interface to-east\n ip pim\n ip pim hello 5\nexit\nrouter pim\n{stands}exit\n"
        net.start_frr("behind", has_rps=False)
        until("FRR answers", SOON, lambda: net.frr("behind", "show version").startswith("FRRouting"))
        version = net.frr("behind", "show version").split()[1]
        chain.start("west", bsr=(WEST, 20))
        chain.start("one", rp=(ONE, USUAL_RP))
        chain.start("east")
        chain.all_follow("FRR is the BSR", BEHIND)
        chain.until("one tells FRR", SOON, lambda: chain.tells("one") == {BEHIND}, lambda: chain.tells("one"))
        chain.all_have("all have our RP and FRR's, as FRR says them", [ONE, BEHIND])
        if chain.role("west") != "candidate":
            raise Failed(f"west is {chain.role('west')}")
        chain.reload("west", bsr=(WEST, 200))
        chain.all_follow("west is the BSR", WEST)
        held = lambda: {row["address"] for row in chain.rows("west", "advertised RP")}
        chain.until("FRR and one tell west", LATER, lambda: held() == {ONE, BEHIND}, held)
        chain.all_have("all have our RP and FRR's, as west says them", [ONE, BEHIND])
        both = list(chain.rps("one").values())
        vtysh("no bsr candidate-rp")
        chain.all_have("FRR's RP goes", [ONE], LATER)
        vtysh(candidate("candidate-rp", BEHIND, 7), *(f"bsr candidate-rp group {groups}" for groups in GROUPS))
        chain.all_have("FRR's RP is preferred", [BEHIND], LATER)
        chain.routers["west"].kill()
        killed = time.monotonic()
        chain.all_follow("FRR is the BSR again", BEHIND, LATER, ["one", "east"])
        after = time.monotonic() - killed
        chain.all_have("both have FRR's RP still", [BEHIND], LATER, ["one", "east"])
    finally:
        chain.end()
        net.roots.pop("behind", None)
    return f"FRR {version}; {both.count(ONE)} and {both.count(BEHIND)} ranges; it takes over after {after:.0f} s"


TRIALS = [candidates_are_elected_and_all_have_their_rps, another_bsr_takes_over]
# They need the root folder of a later FRR.
WITH_LATER_FRR = [a_later_frr_is_a_candidate_too]
