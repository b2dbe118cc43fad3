"""What `tools/why` tells of networks that are broken as people break theirs: tools/tests/mistakes has one file each.

The good network is fhr - {rp1, rp2} - {e1, e2} with two hosts on the LAN of e1 and e2: 10.0.6.101 asks for 239.1.1.1
(its RP is rp1) and 239.2.2.2 (rp2), 10.0.6.102 for 232.1.1.1 of 10.0.9.101, the camera at fhr, which sends five packets
to each. What has to be told of a broken one is written from what is broken in it; how many packets come is counted in
the printed lines. """
import functools
import subprocess
import sys
import unittest
from collections import Counter
from dataclasses import dataclass, field

from pimtext.files import pimlab
from viqeshor.lab import packets, scenario, toml_lines
from pimtext.causes.diagnosis import Diagnosis
from viqeshor.lab.faults import faults_of
from tests import stored

FOLDER = stored.TOOLS / "tests" / "mistakes"
VIEWER, WATCHER, CAMERA = "10.0.6.101", "10.0.6.102", "10.0.9.101"
ONE, TWO, SSM = (VIEWER, "239.1.1.1"), (VIEWER, "239.2.2.2"), (WATCHER, "232.1.1.1")
ALL = (ONE, TWO, SSM)
NOTHING = (0, 0)


@dataclass
class Mistake:
    """A broken network: `cause` are words that one cause has, which is told first; `hit` whose streams stand below it;
    `came` by host and group how many packets come, and how many twice, where that isn't five and none; `why` are words
    of why the hit ones aren't served; `more` are words of other causes; `never` is what isn't so."""
    cause: tuple
    hit: tuple = ()
    came: dict = field(default_factory=dict)
    why: tuple = ()
    more: tuple = ()
    never: tuple = ()
    place: str = "lan"


def lost(*streams):
    return {stream: NOTHING for stream in streams}


# Where the Registers of fhr are stopped it is as it should be; where they aren't, or never were, it is no cause.
STOPPED = ("the Registers of fhr are stopped",)
MISTAKES = {
    # RPs
    "another_rp": Mistake(
        ("router e1", "RP of 239.1.1.1 is 10.255.7.1 here", "10.255.6.1 at"), (ONE,), lost(ONE),
        ("rp1", "drops the Joins of e1"), never=STOPPED),
    "no_rp_at_the_hosts_router": Mistake(
        ("router e1 has no RP for 239.1.1.1",), (ONE,), lost(ONE), ("e1 has no RP",), never=STOPPED),
    "no_rp_at_the_first_router": Mistake(
        ("router fhr has no RP for 239.1.1.1, 239.2.2.2",), (ONE, TWO), lost(ONE, TWO), ("fhr", "has no RP"),
        never=STOPPED),
    "no_rp_anywhere": Mistake(
        ("no router has an RP for 239.1.1.1, 239.2.2.2",), (ONE, TWO), lost(ONE, TWO), ("has no RP",), never=STOPPED),
    "an_rp_that_nobody_is": Mistake(
        ("no router has the address 10.255.6.9", "RP of 239.1.1.1"), (ONE,), lost(ONE), ("10.255.6.9",),
        never=STOPPED),
    "an_rp_on_a_32": Mistake(("10.255.6.1/32", "one of `addresses`: \"10.255.6.1\"")),
    "two_routers_with_the_rps_address": Mistake(
        ("10.255.6.1 is the address of two interfaces", "fhr (on fhr-lo2)", "rp1 (on rp1-lo)"), (ONE,), lost(ONE),
        ("fhr is the RP of 239.1.1.1 to itself",), never=(*STOPPED, "is rp1-lo meant", "is fhr-lo2 meant")),
    "two_routers_with_the_rps_address_on_no_link": Mistake(
        ("10.255.6.1 is an address of several routers", "fhr (on no link)", "rp1 (on no link)"), (ONE,), lost(ONE),
        ("fhr is the RP of 239.1.1.1 to itself",), never=STOPPED),
    # Routes
    "no_route_to_the_source": Mistake(
        ("e1 has no route to the source 10.0.9.101",), (SSM,), lost(SSM), ("e1 has no route",)),
    "no_route_to_the_source_at_the_rp": Mistake(
        ("rp1 has no route to the source 10.0.9.101",), (SSM,), lost(SSM), ("rp1 has no route",)),
    "no_route_to_the_rp": Mistake(
        ("e1 has no route to the RP 10.255.6.1",), (ONE,), lost(ONE), ("e1 has no route",), never=STOPPED),
    "a_next_hop_that_nobody_is": Mistake(
        ("router e1", "10.0.3.200 on rp1-e1", "no router there has that address"), (SSM,), lost(SSM), ("10.0.3.200",)),
    "a_unicast_loop": Mistake(("10.0.9.101", "run in a circle", "e1 to e2"), (SSM,), lost(SSM), ("run in a circle",)),
    "asymmetric_routes": Mistake(
        ("239.1.1.1) twice", "fhr, a Register to rp1, e1", "fhr, rp2, rp1, e1"), came={ONE: (5, 1)}),
    "a_static_route_over_the_lan": Mistake(("239.1.1.1) twice", "rp1, e1", "rp2, e2"), came={ONE: (5, 1)}),
    # The DR
    "another_dr": Mistake(("the link rp2-e2 is down since 15.000 s",), ALL, {stream: (4, 0) for stream in ALL}),
    "a_dr_without_a_way_up": Mistake(
        ("router rp2", "interface 1 (link rp2-e2) never goes up"), ALL, lost(*ALL),
        ("rp2 (10.0.4.1)", "is no neighbour")),
    "the_dr_is_down": Mistake(
        ("router e1 is down since 15.000 s",), ALL, lost(*ALL), ("e1 (10.0.6.1)", "gone from lan", "until 108.000 s")),
    # TTL, and what is no packet of data
    "ttl_1": Mistake((CAMERA, "TTL 1 come to fhr"), ALL, lost(*ALL), ("fhr", "TTL 1"), never=("are stopped",)),
    "ttl_3": Mistake(
        ("with TTL 3 come to e1 on rp1-e1 with TTL 1",), (ONE, SSM), lost(*ALL), ("e1", "TTL 1"),
        ("with TTL 3 come to rp1 on rp1-rp2 with TTL 1",)),
    "packets_too_long": Mistake(
        ("fhr", "15 packets of data", "refused 4 (BadLength)", "has 1508"), ALL, lost(*ALL), ("refused 4",),
        never=("nobody has sent",)),
    "bad_checksums": Mistake(
        ("fhr", "15 packets of data", "refused 3 (BadChecksum)"), ALL, lost(*ALL), ("refused 3",),
        never=("nobody has sent",)),
    # Addresses and masks
    "a_wrong_mask_at_hosts": Mistake(("two masks on one link", "10.0.6.1/28", "10.0.6.2/24")),
    "a_wrong_mask_at_the_source": Mistake(
        (f"the source {CAMERA} isn't in 10.0.9.0/28",), ALL, lost(*ALL), (CAMERA,), never=STOPPED),
    "two_routers_of_one_address": Mistake(
        ("10.0.6.1 is the address of two interfaces", "e1 (on lan)", "e2 (on lan)"), ALL,
        {stream: (5, 5) for stream in ALL}, never=("hears itself",)),
    "two_routers_of_one_address_as_next_hop": Mistake(("the next hop 10.0.6.1 is an address of the router itself",)),
    "one_subnet_on_two_links": Mistake(
        ("10.0.3.2 is the address of two interfaces", "e1", "e2"), more=("two subnets on one link",)),
    # Links and interfaces
    "all_is_lost_between_two": Mistake(
        ("rp1", "e1", "rp1-e1 aren't neighbours", "lost"), ALL, lost(*ALL), ("is no neighbour",),
        never=("no settle or deliver",)),
    "all_is_lost_one_way": Mistake(("nothing that e1 sent on lan came to e2",), never=("no settle or deliver",)),
    "links_down": Mistake(("the link rp1-e1 is down since 15.000 s",), ALL, lost(*ALL), ("no route",)),
    "the_rp_is_down": Mistake(
        ("router rp1 is down since 15.000 s",), ALL, {ONE: NOTHING, TWO: (4, 0), SSM: (4, 0)}, ("no route",)),
    "an_uplink_without_pim": Mistake(
        ("router e1", "interface 0 (link rp1-e1) never goes up"), ALL, lost(*ALL), ("rp1-e1", "is down")),
    "a_lan_without_pim": Mistake(("router e1", "interface 1 (link lan) never goes up")),
    "a_source_without_pim": Mistake(
        ("router fhr", "interface 2 (link camera) never goes up"), ALL, lost(*ALL), ("refused 23",)),
    # How hosts ask
    "an_igmpv2_host": Mistake(
        (f"{VIEWER} on lan speaks IGMPv2", "refused"), (ONE,), lost(ONE, TWO), ("knows of no host",),
        ("nobody asks for 239.2.2.2",), ("asked for no group",)),
    "an_igmpv2_querier": Mistake(("10.0.6.9 asks hosts by IGMPv2", "hosts that hear it answer by the same")),
    "reports_that_a_switch_keeps": Mistake(
        (f"the reports of {VIEWER} came to e2 and not to e1, the DR",), (ONE, TWO), lost(*ALL),
        ("e1", "knows of no host"), (f"the reports of {WATCHER}",)),
    "ssm_without_a_source": Mistake(
        (f"{WATCHER} asks for 232.1.1.1 without a source",), (SSM,), lost(SSM), ("knows of no host",),
        never=("has forgotten",)),
    "ssm_range_for_asm": Mistake(
        (f"{VIEWER} asks for 232.1.1.1 without a source",), ((VIEWER, "232.1.1.1"),),
        {(VIEWER, "232.1.1.1"): NOTHING, SSM: NOTHING}),
    "ssm_of_another_source": Mistake(
        (f"{WATCHER} asks for 232.1.1.1 of 10.0.7.77", CAMERA), (SSM,), lost(SSM), ("10.0.7.77",)),
    "another_group_is_asked_for": Mistake(("nobody asks for", "239.1.1.1", "asked for is 239.1.1.2")),
    "a_source_of_another_subnet": Mistake(
        ("the source 192.168.1.5 isn't in 10.0.9.0/24",), (ONE, TWO), lost(*ALL), ("192.168.1.5",), never=STOPPED),
    "a_host_with_its_routers_address": Mistake(
        ("10.0.6.1 is also the address of a host on lan", "e1"), tuple(("10.0.6.1", group) for _, group in ALL),
        never=("asked for no group",)),
    "a_host_that_answers_no_query": Mistake(
        (f"{VIEWER} asked for 239.1.1.1", "answered no query since", "forgotten"), (ONE,), lost(*ALL),
        ("knows of no host",), ("forgotten",)),
    "a_group_that_never_leaves_its_link": Mistake(
        ("224.0.0.200", "no router forwards groups of 224.0.0.0/24"), ((VIEWER, "224.0.0.200"),),
        {(VIEWER, "224.0.0.200"): NOTHING}, ("LinkLocal",), never=("nobody has sent", "forgotten")),
    # The limit
    "a_small_limit_at_the_hosts_router": Mistake(
        ("router e1: its limit is 3", "held 3 facts", "24 (Full)"), ALL, lost(*ALL), ("e1",), never=("isn't the DR",)),
    "a_small_limit_at_the_rp": Mistake(
        ("router rp1: its limit is 4", "held 4 facts", "24 (Full)"), ALL, lost(*ALL), ("rp1",)),
    # What fails for a while, and what is lost
    "a_lost_override": Mistake(
        ("Prune of d1", "239.1.1.1 on transit", "d2 wants", "Join", "was lost", "packets 24 to 84 (61)", "62 s"),
        ((VIEWER, "239.1.1.1"),), {(VIEWER, "239.1.1.1"): (59, 0)}, place="h2"),
    "all_is_lost_at_the_first_router": Mistake(
        ("fhr", "mid", "fhr-mid aren't neighbours", "lost"), ((VIEWER, "239.1.1.1"),),
        {(VIEWER, "239.1.1.1"): NOTHING}, ("the Register of fhr", "lost"), place="v"),
    "the_first_routers_link_is_down": Mistake(
        ("the link fhr-mid is down since 15.000 s",), ((VIEWER, "239.1.1.1"),), {(VIEWER, "239.1.1.1"): NOTHING},
        ("the Register of fhr",), place="v"),
    # Scenarios
    "a_router_without_time": Mistake(("router rp1 is never advanced",), ALL, lost(*ALL), ("rp1", "no neighbour")),
    "no_settle": Mistake(("58 packets reach nobody, since no settle",), ALL, lost(*ALL), ("no neighbour",)),
}
# Where nothing is wrong.
FINE = ("good", "good_without_loopbacks", "a_dr_by_its_address", "never_to_the_source_tree")


def numbers_came(lines, place):
    """By group how many packets came on a link, and how many of them twice, by the payloads of the copies that are
    printed."""
    copies = (line.split(" ") for line in lines if line.startswith("copy ") and line.split(" ")[2] == place)
    contents = [bytes.fromhex(words[3]) for words in copies]
    counts = Counter((packets.dotted(data[16:20]), data[28:]) for data in contents)
    came = Counter(group for group, _ in counts)
    twice = Counter(group for (group, _), count in counts.items() if count > 1)
    return {group: (came[group], twice[group]) for group in came}


class Played:
    """A scenario with what was printed and told of it."""

    def __init__(self, name):
        self.path = FOLDER / f"{name}.toml"
        text = self.path.read_text()
        judge, self.number = faults_of(text)
        self.told = [fault.what for fault in judge.faults]
        if not self.number:
            self.lines = pimlab.run_text(text)
            played = scenario.scenario_of(toml_lines.plain(toml_lines.read(text)))
            self.diagnosis = Diagnosis(judge, played, self.lines)
            self.told = self.diagnosis.lines()
            watch = self.diagnosis.run.watch
            answers = [answer for host in {host for host, *_ in watch.hosts.told} for answer in watch.answers(host)]
            streams = {(each[0].stream.host, each[0].stream.group): each for each in answers if each[0]}
            self.answers = streams


@functools.cache
def played(name):
    return Played(name)


class Usual(unittest.TestCase):
    def test_each_is_told_with_its_cause_first_and_what_follows_below(self):
        for name, mistake in MISTAKES.items():
            with self.subTest(name):
                told = played(name).told
                first, *below = told[0].splitlines()
                for words in mistake.cause:
                    self.assertIn(words, first)
                for host, group in mistake.hit:
                    self.assertTrue(any(host in line and f"{group})" in line for line in below), (host, group, below))
                for words in mistake.more:
                    self.assertTrue(any(words in note.splitlines()[0] for note in told[1:]), (words, told))

    def test_no_line_is_told_twice_and_none_that_is_not_so(self):
        for name, mistake in MISTAKES.items():
            with self.subTest(name):
                run = played(name)
                lines = [line for note in run.told for line in note.splitlines()]
                self.assertEqual(len(lines), len(set(lines)))
                served = [] if run.number else [line for _, told in run.answers.values() for line in told]
                for words in mistake.never:
                    self.assertFalse([line for line in lines + served if words in line])

    def test_what_came_is_what_was_printed(self):
        for name, mistake in MISTAKES.items():
            run = played(name)
            for (host, group), (verdict, lines) in () if run.number else run.answers.items():
                with self.subTest(name, host=host, group=group):
                    stream = verdict.stream
                    came = numbers_came(run.lines, mistake.place).get(group, NOTHING)
                    if stream.packets and stream.link == mistake.place:
                        self.assertEqual((stream.came, stream.twice), came)
                        self.assertEqual(came, mistake.came.get((host, group), came))

    def test_whom_nothing_comes_to_is_told_why_and_never_that_it_is_served(self):
        for name, mistake in MISTAKES.items():
            run = played(name)
            for stream, came in mistake.came.items() if not run.number else ():
                with self.subTest(name, stream=stream):
                    verdict, lines = run.answers.get(stream, (None, []))
                    if verdict is not None and came == NOTHING:
                        self.assertFalse(verdict.is_served and verdict.stream.packets)
                        self.assertNotIn(f"{stream[0]} is served", lines)
                    for words in mistake.why if stream in mistake.hit and came == NOTHING else ():
                        self.assertIn(words, lines[-1])
                        self.assertTrue(run.diagnosis.of(verdict.stream) or run.diagnosis.left)

    def test_nothing_is_told_where_nothing_is_wrong(self):
        for name in FINE:
            with self.subTest(name):
                run = played(name)
                self.assertEqual(run.told, [])
                for verdict, lines in run.answers.values():
                    self.assertEqual((verdict.stream.sent, verdict.stream.came, verdict.stream.twice), (5, 5, 0))
                    self.assertEqual(lines[-1], f"{verdict.stream.host} is served")

    def test_each_file_is_one_of_these(self):
        self.assertEqual({path.stem for path in FOLDER.glob("*.toml")}, {*MISTAKES, *FINE})

    def test_the_command_says_the_cause_after_the_host(self):
        path = FOLDER / "another_rp.toml"
        words = [sys.executable, stored.TOOLS / "why", path, "--served", VIEWER, "239.1.1.1"]
        ran = subprocess.run(words, capture_output=True, text=True)
        self.assertEqual(ran.returncode, 1)
        served, cause = ran.stdout.splitlines()[-2:]
        self.assertTrue(served.startswith(f"{VIEWER} isn't served: rp1 has 10.255.6.1 as the RP of 239.1.1.1"), served)
        told = f"  cause: {path}:5: router e1: the RP of 239.1.1.1 is 10.255.7.1 here"
        self.assertTrue(cause.startswith(told), cause)


if __name__ == "__main__":
    unittest.main()
