"""A BSR that is a program, the router, and FRR's pimd behind it:

    bsr -- 10.81.0.0/24 -- heard -- 10.82.0.0/24 -- behind -- 10.83.0.0/24 -- behind-host
                             |
                       10.84.0.0/24 -- heard-host

Both are to have the RPs that the Bootstraps say: FRR hears them of the router alone. Of several RPs of a range FRR has
one for the range, and so has the router, or one for each group, as its settings say.
"""
from __future__ import annotations

import time
from collections import Counter
from ipaddress import IPv4Address, IPv4Network
from typing import TYPE_CHECKING

from trials.network import PIMD, SENDER, Failed, came_with_gap, inside, run, until

if TYPE_CHECKING:
    import subprocess

    from trials.network import Network

BSR = "10.81.0.1"
LINKS = [("bsr", f"{BSR}/24", "heard", "10.81.0.2/24"), ("heard", "10.82.0.1/24", "behind", "10.82.0.2/24"),
         ("behind", "10.83.0.1/24", "behind-host", "10.83.0.50/24"),
         ("heard", "10.84.0.1/24", "heard-host", "10.84.0.50/24")]
ROUTES = {"bsr": ["default via 10.81.0.2"], "heard": ["10.83.0.0/24 via 10.82.0.2"],
          "behind": ["10.81.0.0/24 via 10.82.0.1"], "behind-host": ["default via 10.83.0.1"],
          "heard-host": ["default via 10.84.0.1"]}
RANGES = 12
GROUPS = [f"239.{41 + number}.0.0/16" for number in range(RANGES)]
CANDIDATES = ["10.81.0.1", "10.81.0.3", "10.81.0.4"]
# RPs of which each is that of some of these groups of the first ranges, which a host of the router wants.
SEVERAL = ["10.81.0.1", "10.81.0.77", "10.81.0.200"]
ASKED = [f"239.{41 + number % 3}.{7 * number}.{1 + number}" for number in range(12)]
# They take the place of all of them.
OTHER, LAST = "10.81.0.9", "10.81.0.10"
# The router as RP, and then FRR.
OWN, NEXT = "10.81.0.2", "10.82.0.2"
STREAM, HOST = "239.41.1.1", "10.83.0.50"
RATE, SECONDS = 50, 16
# In ms, and in packets.
LONGEST_GAP, MOST_LOST = 1_000, 50
# In seconds: for how long a message holds, and how often FRR's neighbours are heard.
HOLDTIME, HELLO = 20, 5


# ---- which RP a group has, by RFC 7761, 4.7.2


def value(group: str, rp: str, mask: int = 30) -> int:
    """Value(G,M,C(i)), with a mask M of so many bits."""
    masked = int(IPv4Address(group)) & (0xFFFFFFFF << 32 - mask)
    return (1103515245 * ((1103515245 * masked + 12345) ^ int(IPv4Address(rp))) + 12345) % 2**31


def chosen(group: str) -> str:
    """Of the candidates, which have one priority, the one of the greatest value, and of equal values of the highest
    address."""
    return max(SEVERAL, key=lambda rp: (value(group, rp), int(IPv4Address(rp))))


# ---- the network


class Chain:
    """The router, FRR behind it, and the BSR's messages."""

    def __init__(self, net: Network) -> None:
        self.net, self.before, self.router = net, len(net.running), None
        self.control = net.room / "heard" / "control"

    def lay_out(self) -> None:
        self.net.add(ROUTES)
        self.net.connect_all(LINKS, ROUTES, ("heard", "behind"))

    def start(self, choice: str = "range") -> None:
        PIMD["behind"] = f"interface to-heard\n ip pim\n ip pim hello {HELLO}\n"
        PIMD["behind"] += "interface to-behind-host\n ip pim\n ip igmp\n"
        self.net.start_frr("behind")
        self.router = self.net.start_another("heard", self.settings(choice))

    def settings(self, choice: str) -> str:
        ports = "".join(f'[[interface]]\nname = "to-{port}"\n\n' for port in ("bsr", "behind", "heard-host"))
        own, heard = f'log = "debug"\nsocket = "{self.control}"\n\n', f'[bsr]\nlisten = true\nchoice = "{choice}"\n'
        return f"{own}{ports}{heard}"

    def reload(self, choice: str) -> None:
        """The router takes another choice while it runs."""
        self.net.read_anew("heard", self.router, self.settings(choice), "the settings are taken")

    def upgrade(self) -> None:
        """Another program takes the router's place."""
        self.net.upgrade(self.router, "the other program goes on", "heard")

    def say(self, seconds: int, *rps: str, fragments: int = 0) -> subprocess.Popen[str]:
        """The BSR says for so many seconds that these are the RPs of each range; it may say the first so many alone, in
        fragments, or the last one (-1)."""
        what = ["fragments", fragments] if fragments else ["bootstraps"]
        return self.net.start("bsr", "python3", SENDER, "to-heard", BSR, *what, seconds, HOLDTIME, RANGES, *rps)

    def heard(self) -> dict[str, str]:
        """The RPs of the router, by their ranges."""
        rows = self.net.show("rp", control=self.control)
        return {row["groups"]: row["rp"] for row in rows if row["from"] == "bsr" and row["chosen_for"] == "range"}

    def rps(self) -> dict[str, str | None]:
        """The router's RP of each group that its host wants."""
        found = {group: self.net.show("rp", group, control=self.control) for group in ASKED}
        return {group: rows[0]["rp"] if rows else None for group, rows in found.items()}

    def rps_of_frr(self) -> dict[str, str | None]:
        """FRR's: those of their ranges."""
        ranges = self.behind()
        return {group: next((rp for it, rp in ranges.items() if IPv4Address(group) in IPv4Network(it)), None)
                for group in ASKED}

    def ask(self) -> None:
        """The router's host wants the groups."""
        run(*inside("heard-host", "python3", SENDER, "to-heard", "10.84.0.50", "report", *ASKED))

    def waiting(self) -> list[str]:
        """The RPs of which other fragments are missing at the router."""
        return [row["address"] for row in self.net.show("bsr", control=self.control) if row["what"] == "waits"]

    def behind(self) -> dict[str, str]:
        """The RPs that FRR learned, by their ranges."""
        return self.net.learned_by_frr("behind")

    def end(self) -> None:
        self.net.clear(self.before, ROUTES)


def both_have(chain: Chain, what: str, rps: list[str]) -> dict[str, str]:
    """The router and FRR have the same RP of each range, of these."""
    def has_all() -> bool:
        heard = chain.heard()
        return sorted(heard) == sorted(GROUPS) and set(heard.values()) <= set(rps) and chain.behind() == heard
    try:
        until(what, 30, has_all)
    except Failed as failed:
        raise Failed(f"{failed}: the router has {chain.heard()}, and FRR {chain.behind()}") from None
    return chain.heard()


def begin(chain: Chain) -> dict[str, str]:
    """Both have RPs of a BSR that then falls silent."""
    chain.lay_out()
    chain.start()
    first = chain.say(25, *CANDIDATES)
    chosen = both_have(chain, "both have RPs of the BSR", CANDIDATES)
    first.terminate()
    return chosen


def bootstraps_are_heard_and_passed_on(net: Network) -> str:
    """the router and FRR behind it have the RPs of a BSR; a fragment moves none, a message both, silence ends both"""
    chain = Chain(net)
    try:
        chosen = begin(chain)
        chain.say(5, OTHER, LAST, fragments=1).wait()
        if not chain.heard() == chain.behind() == chosen:
            raise Failed(f"by a fragment the router has {chain.heard()}, and FRR {chain.behind()}")
        last = chain.say(8, OTHER, LAST, fragments=2)
        both_have(chain, "both have the RPs of the whole message", [OTHER, LAST])
        last.wait()
        until("the RPs end in both", HOLDTIME + 15, lambda: not chain.heard() and not chain.behind())
    finally:
        chain.end()
    counts = [list(chosen.values()).count(rp) for rp in CANDIDATES]
    return f"{RANGES} ranges, of which {', '.join(map(str, counts))} have one of {len(CANDIDATES)} RPs each"


def a_learned_rp_serves_a_stream(net: Network) -> str:
    """a stream by a learned RP, the router, goes on over an upgrade, and when a Bootstrap says that FRR is the RP"""
    chain, count = Chain(net), RATE * SECONDS
    try:
        chain.lay_out()
        chain.start()
        first = chain.say(60, OWN)
        both_have(chain, f"both have {OWN}", [OWN])
        receiver = net.receive("behind-host", STREAM, HOST, count, SECONDS + 10)
        joined = lambda: STREAM in {row["group"] for row in net.show("joins", control=chain.control)}
        until("FRR joins at the learned RP", 20, joined)
        net.send("bsr", STREAM, BSR, count, RATE)
        time.sleep(SECONDS / 4)
        chain.upgrade()
        both_have(chain, f"both still have {OWN}", [OWN])
        time.sleep(SECONDS / 4)
        first.terminate()
        chain.say(SECONDS, NEXT)
        both_have(chain, f"both have {NEXT}", [NEXT])
        came, _, gap = came_with_gap(receiver)
        if count - came > MOST_LOST or gap > LONGEST_GAP:
            raise Failed(f"{came} of {count} came, with a gap of {gap} ms")
    finally:
        chain.end()
    return f"{came} of {count} packets, with a gap of {gap} ms"


def what_was_learned_outlasts_an_upgrade(net: Network) -> str:
    """after an upgrade the router has a silent BSR's RPs until their ends, and puts a fragment to one of before"""
    chain = Chain(net)
    try:
        chosen = begin(chain)
        chain.upgrade()
        if chain.heard() != chosen:
            raise Failed(f"after an upgrade the router has learned {chain.heard()}")
        until("the RPs end in both", HOLDTIME + 15, lambda: not chain.heard() and not chain.behind())
        chain.say(1, OTHER, LAST, fragments=1).wait()
        chain.upgrade()
        if chain.heard() or chain.waiting() != [OTHER] * RANGES:
            raise Failed(f"after a fragment and an upgrade {chain.waiting()} wait, and the router has {chain.heard()}")
        chain.say(1, OTHER, LAST, fragments=-1).wait()
        both_have(chain, "both have the RPs of both fragments", [OTHER, LAST])
    finally:
        chain.end()
    return f"{len(chosen)} ranges over one upgrade, and a fragment of {RANGES} over another"


def an_rp_is_chosen_for_a_range_or_for_each_group(net: Network) -> str:
    """of three RPs the router has FRR's for 12 groups, or where its settings say so those of RFC 7761 for each group"""
    chain, wanted = Chain(net), {group: chosen(group) for group in ASKED}

    def has(what: str, rps: dict[str, str]) -> None:
        try:
            until(what, 30, lambda: chain.rps() == rps)
        except Failed as failed:
            raise Failed(f"{failed}: {chain.rps()} in place of {rps}") from None

    try:
        chain.lay_out()
        chain.start()
        chain.say(600, *SEVERAL)
        both_have(chain, "both have RPs of the BSR", SEVERAL)
        chain.ask()
        of_frr = chain.rps_of_frr()
        has("the router's RPs of 12 groups are FRR's", of_frr)
        chain.reload("group")
        has("the router's RPs of 12 groups are those of RFC 7761", wanted)
        used = Counter()
        for row in net.show("rp", control=chain.control):
            used[row["rp"]] += row["used_by"]
        if used != Counter(wanted.values()):
            raise Failed(f"of the groups that are asked for RPs have {dict(used)}")
        chain.upgrade()
        has("after an upgrade they are so still", wanted)
        chain.reload("range")
        has("they are FRR's again", of_frr)
    finally:
        chain.end()
    unlike = sum(of_frr[group] != wanted[group] for group in ASKED)
    return f"{len(set(wanted.values()))} RPs for each group; of {unlike} groups another one than FRR has"


TRIALS = [bootstraps_are_heard_and_passed_on, a_learned_rp_serves_a_stream, what_was_learned_outlasts_an_upgrade,
          an_rp_is_chosen_for_a_range_or_for_each_group]
