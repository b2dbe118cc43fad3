"""What `tools/why` tells of networks that are broken while they run, and by what others than their routers send.

`broken.tar.xz` has one scenario each (`tar xf` shows them). What has to be told of one is written from what is broken
in it; how many packets came was counted by whoever broke it. """
import functools
import io
import tarfile
import unittest
from dataclasses import dataclass, field

from pimtext.files import pimlab
from viqeshor.lab import scenario, toml_lines
from pimtext.causes.channels import as_csv, channels_of, phases_of
from pimtext.causes.diagnosis import Diagnosis
from viqeshor.lab.faults import faults_of
from pimtext.causes.latencies import Latencies
from tests import stored

ARCHIVE = stored.TOOLS / "tests" / "broken.tar.xz"
VIEWER, WATCHER, CAMERA = "10.0.6.101", "10.0.6.102", "10.0.9.101"
ONE, TWO, SSM = "239.1.1.1", "239.2.2.2", "232.1.1.1"


@dataclass
class Broken:
    """`told` has for each note the words that it has, with its symptoms: there is no other note. `served` has by host,
    group and link words of the answer of --served, or True where the host is served; `came` by host and group how many
    packets were sent for it, came, and came twice; `never` is what isn't so."""
    told: tuple = ()
    served: dict = field(default_factory=dict)
    came: dict = field(default_factory=dict)
    never: tuple = ()


def note(*words):
    return words


# A packet that comes twice until the assert of two routers on a link, as it does in a good network.
TWICE = ("twice", "both sent it on", "until the Assert of")
STRANGER = ("10.0.6.200 on lan, which no router here has, is a neighbour of e1, e2 by its Hello of 1.000 s (move 20)",)
MOVED = ("moves interface 1 from rp1-e1 to new, interface 2 from rp1-rp2 to rp1-e1", "interfaces are known by their",
         "10.0.6.101 missed packets 8 to 20 (13)", "10.0.6.102 missed packets 8 to 20 (13)", "27 (BadMove)")
NEVER_UP = ("router rp1: interface 4 (link rp1-lo) never goes up",)
BROKEN = {
    "00_good": Broken((), {(VIEWER, ONE): True, (WATCHER, SSM): True}, {(VIEWER, ONE): (5, 5, 0)}),
    # RPs, and when they changed
    "01_rps_dropped_in_flight_at_e1": Broken(
        (note("123: router e1 has no RP for 239.1.1.1", "since 21.000 s, by move 114 (rps), line 123",
              "before it was 10.255.6.1"),), {(VIEWER, ONE): True}, {(VIEWER, ONE): (20, 20, 0)}),
    "02_reload_drops_range_at_rp": Broken(
        (note("123: router rp1 is the RP of 239.1.1.1 to other routers", "since 21.000 s, by move 114 (reload)",
              "before it was 10.255.6.1"),), {(VIEWER, ONE): True}),
    "03_longer_range_at_fhr_only": Broken(
        (note("2: router fhr: the RP of 239.1.1.1 is 10.255.7.1 here", "10.255.6.1 at router rp1 (line 3)"),),
        came={(VIEWER, ONE): (5, 0, 0)}),
    "04_group_outside_ranges": Broken((note("no router has an RP for 225.1.1.1"),)),
    "05_rp_moved_e1_late": Broken(
        (note("5: router e1: the RP of 239.1.1.1 is 10.255.6.1 here", "10.255.7.1 at router fhr (since 21.000 s, by"
              " move 115 (rps), line 124; before it was 10.255.6.1)"),), came={(VIEWER, ONE): (25, 25, 0)}),
    "06_registers_filtered": Broken((), came={(VIEWER, ONE): (5, 5, 0)}),
    "07_register_stop_from_nat": Broken(
        (note("move 65 (unicast), router fhr", "NotRp", "the router goes on registering"),),
        came={(VIEWER, ONE): (5, 5, 0)}),
    "08_rp_is_fhr_and_dies": Broken(
        (note("103: the link fhr-rp1 is down since 20.000 s, by move 94", "missed packets 7 to 20 (14) of 20"),
         note("110: the link fhr-rp2 is down since 20.000 s")), came={(VIEWER, "239.3.3.3"): (20, 6, 0)}),
    "09_rp_restarts_cold_new_viewer": Broken((), {(VIEWER, ONE): True}, {(VIEWER, ONE): (72, 72, 0)}),
    "10_fhr_restart_mid_register": Broken((), came={(VIEWER, ONE): (10, 10, 0)}),
    # Routes
    "11_static_route_flaps": Broken(
        (note("98: router e1: its route to 10.0.9.101 leads to 10.0.3.77 on rp1-e1: since 20.000 s, by move 89",
              "until 30.000 s, by move 113 (routes)", "and again since 40.000 s, by move 185 (routes)",
              "until 50.000 s, by move 213 (routes)", "packets 7 to 16 (10)", "packets 27 to 36 (10)"),),
        came={(WATCHER, SSM): (40, 20, 0)}),
    "12_host_route_beats_subnet": Broken(
        (note("10.0.6.101 got 1 packet of (10.0.9.101, 239.1.1.1) twice", "e1 and e2 both sent it on lan, since the "
              "route of e1 to 10.0.9.101 leads to 10.0.6.2 on lan itself", "until the Assert of e2"),),
        came={(VIEWER, ONE): (5, 5, 1)}),
    "13_default_route_to_the_wrong_side": Broken(
        (note("the routes to 10.0.9.101, 10.255.6.1, 10.255.7.1 run in a circle, from e1 to e2 to e1"),),
        came={(VIEWER, ONE): (5, 0, 0), (WATCHER, SSM): (5, 0, 0)}),
    "14_next_hop_on_another_interface": Broken(
        (note("10.0.3.1 on lan, and no router there has that address (it is that of rp1 on rp1-e1)"),),
        came={(WATCHER, SSM): (5, 0, 0)}, never=("rp1 (10.0.3.1) on lan",)),
    "15_rpf_at_the_rp_by_a_firewall": Broken(
        (note("its route to 10.0.9.101 leads to 10.0.1.99 on fhr-rp1, and no router there has that address"),
         note("fhr: it registers (10.0.9.101, 239.1.1.1) with rp1 for good: the last 10 of 10", "10.0.1.99")),
        came={(VIEWER, ONE): (10, 10, 0), (WATCHER, SSM): (10, 0, 0)}),
    # Sources and hosts
    "16_camera_moves_to_another_router": Broken(
        (note("move 93", "the source 10.0.9.101 isn't in 10.0.10.0/24, the subnet of printer"),),
        came={(VIEWER, ONE): (10, 5, 0)}),
    "17_two_sources_of_one_address": Broken(
        (note("several senders have the address 10.0.9.101", "camera (since 15.000 s), clone (since 15.500 s)",
              "got none of 6 packets of (10.0.9.101, 239.1.1.1) from clone"), note("isn't in 10.0.10.0/24")),
        {(VIEWER, ONE, "camera"): True, (VIEWER, ONE, "clone"): "isn't on clone"}),
    "27_host_reports_on_the_wrong_nic": Broken(
        (note("10.0.6.101 asks for 239.1.1.1 on mgmt, and isn't in 10.0.10.0/24", "its address is one of lan"),)),
    "28_host_excludes_the_source": Broken(
        (note("10.0.6.101 on lan asks for all sources of 239.1.1.1 but 10.0.9.101", "none of the 5 packets"),),
        {(VIEWER, ONE): "it asks for all sources of 239.1.1.1 but 10.0.9.101"},
        never=("nobody has sent", "no more")),
    "29_rogue_querier_long_interval": Broken((), came={(VIEWER, ONE): (5, 5, 0)}),
    "30_querier_with_short_times_then_slow_host": Broken(
        (note("e1 forgot that 10.0.6.101 on lan wants 239.1.1.1 at 18.000 s", "at 45.000 s", "at 66.000 s",
              "lost before e1", "packets 4 to 23 (20)", "packets 31 to 44 (14)", "packets 52 to 60 (9)"),),
        came={(VIEWER, ONE): (60, 17, 0)}),
    "31_timers_differ_e1_e2": Broken(
        (note("10.0.6.101 left (10.0.9.101, 239.1.1.1) at 20.000 s, and the stream went on for 50 s on lan",
              "`lmqi` and `rv` of e1 let it wait 51 s"),)),
    "32_fast_leave_while_another_wants": Broken(
        (note("e1 forgot that 10.0.6.102 on lan wants 239.1.1.1 at 22.000 s: 10.0.6.101 left at 20.000 s",
              "of 10.0.6.102 no answer came"),), came={(WATCHER, ONE): (20, 7, 0)}),
    "33_host_asks_before_router_is_up": Broken(
        (note("the report of 10.0.6.101 for 239.1.1.1 of 15.000 s came to e2 alone on lan, and not to e1",
              "its interface there was down"),), came={(VIEWER, ONE): (5, 0, 0)}),
    "34_receiver_moves_without_asking": Broken(
        (note("10.0.6.101 asks for 239.1.1.1 on wifi, and isn't in 10.0.10.0/24", "where it asked until 20.000 s"),),
        {(VIEWER, ONE, "wifi"): True, (VIEWER, ONE, "lan"): "on lan isn't served: it asks for 239.1.1.1"}),
    "35_report_without_a_subnet": Broken((note("169.254.1.1 asks for 239.1.1.1 on lan, and isn't in 10.0.6.0/24"),)),
    "36_data_fragments": Broken((note("refused 9 (Fragment)", "got none of 5 packets"),)),
    "46_include_of_a_mistyped_source": Broken(
        (note("10.0.6.101 asks for 239.1.1.1 of 10.0.9.110, which has sent nothing", "is of 10.0.9.101"),
         note("239.1.1.1 is asked for of 10.0.9.110 alone")),
        {(VIEWER, ONE): "10.0.9.110 has sent nothing in this run"}, never=("would be served",)),
    "52_null_source_receiver_on_dr_of_another_vlan": Broken(
        (note("10.0.6.101 asks for 239.2.2.2 on camera, and isn't in 10.0.9.0/24", "does its report leak"),),
        {(VIEWER, ONE, "lan"): True}, {(VIEWER, ONE): (5, 5, 0)}),
    "53_asked_on_two_links_one_broken": Broken(
        (note("router e1 has no RP for 239.1.1.1"), note("10.0.6.101 asks for 239.2.2.2 on camera")),
        {(VIEWER, TWO, "camera"): True}, {(VIEWER, TWO): (5, 5, 0)},
        never=("none of 5 packets of (10.0.9.101, 239.2",)),
    # Neighbours that nobody here is, and messages in another's name
    "18_goodbye_in_anothers_name": Broken(
        (note("a farewell (a Hello with holdtime 0) in the name of rp1 (10.0.3.1) came on rp1-e1 at 19.000 s, which"
              " rp1 didn't send: e1 takes rp1 to be gone, until its Hello of 35.000 s"),
         note("move 183", "at 29.000 s", "it was ignored")), came={(VIEWER, ONE): (17, 17, 0)}),
    "19_phantom_dr": Broken((note(*STRANGER, "DR priority 100", "10.0.6.102 got none of 5"),),
                            came={(VIEWER, ONE): (5, 0, 0)}),
    "20_neighbour_without_dr_priority": Broken(
        (note(*STRANGER, "without a DR priority", "so no priority counts on lan, not that of e1 (10)"),)),
    "21_dead_dr_with_endless_holdtime": Broken((note(*STRANGER, "holds for ever"),), never=("until never",)),
    "22_generation_changes_each_hello": Broken(
        (note("3 Hellos in the name of rp1 (10.0.3.1)", "from 18.000 s (move 89) to 38.000 s (move 255)",
              "another generation ID"),), came={(VIEWER, ONE): (30, 30, 0)}),
    "24_one_router_without_lan_delay": Broken(
        (note("the Hello of 10.0.2.200 on transit", "no LAN delay", "3 s and not the 0.15 s"),)),
    "25_transit_silent_upstream": Broken(
        (note("d1 sends its Joins of (10.0.4.101, 232.1.1.1) to 10.0.2.200 on transit, which no router here has",
              "by the Joins of d2 there alone"),)),
    "25b_silent_upstream_alone": Broken(
        (note("10.0.2.200 on transit, which no router here has", "by its Hello of 1.000 s (move 14)"),)),
    "39_assert_by_a_stranger": Broken(
        (note("an Assert of 10.0.3.200 on transit", "at 20.000 s by move 97, with preference 0 and metric 0",
              "10.0.6.101 missed packets 7 to 20", "10.0.7.101 missed packets 7 to 20"), TWICE, TWICE)),
    "40_join_suppressed_by_a_stranger": Broken(
        (note("the Prune of 10.0.2.200 for 232.1.1.1 on transit, which came to up at 20.000 s by move 75 and not to d1",
              "its next Join came at 25.000 s", "packets 9 to 11 (3)"),)),
    "51_sixty_fifth_neighbour": Broken(
        (note("d1: interface 0 (link transit) has 64 neighbours, which is the most", "10.0.5.101 got none of 5"),
         note("up: interface 1 (link transit) has 64 neighbours"),
         note("d2: interface 0 (link transit) has 64 neighbours")), never=("its limit is", "65536")),
    # What is lost, and what is down
    "23_override_interval_zero": Broken(
        (note("the Prune of d1 for 232.1.1.1 on transit, which came to up at 25.160 s", "let it wait 0.000 s",
              "packets 22 to 23 (2)", "missed packet 22", "missed packet 23"), note("a packet reaches nobody"))),
    "26_router_suspended_300s": Broken(
        (note("since 33.000 s none of the Hellos that e1 sent came to rp1 on rp1-e1 and e2 on lan", "232.1.1.1) twice",
              "239.1.1.1) twice", "NoNeighbour"),), never=("longest gap 121 s",)),
    "37_asserts_lost": Broken(
        (note("none of the Asserts that u2 sent on transit came to u1", "10.0.6.101 got 10 packets",
              "10.0.7.101 got 10 packets", "from 15.000 s to 24.000 s"),)),
    "38_assert_winner_dies": Broken(
        (note("since 26.000 s nothing that u2 sent came to u1, d1 and d2 on transit", "packets 12 to 95 (84) of 220"),
         TWICE, TWICE)),
    "41_renumbered_next_hop": Broken(
        (note("its routes to 10.0.9.101, 10.255.6.1, 10.255.7.1 lead to 10.0.3.1 on rp1-e1",
              "rp1 had it on rp1-e1 until 20.000 s, by move 106 (reload), line 115", "would get nothing"),),
        came={(VIEWER, ONE): (200, 200, 0)}),
    "42_link_flaps": Broken(
        (note("the link rp1-e1 was down 4 times: from 15.000 s to 18.000 s", "from 45.000 s to 48.000 s",
              "missed packet 1 of 40", "missed packets 35 to 39"),), came={(VIEWER, ONE): (40, 26, 0)}),
    "43_register_checksum_whole": Broken((), came={(VIEWER, ONE): (5, 5, 0)}),
    "44_priority_zero_and_equal_addresses_swapped": Broken(
        (note("none of the Hellos that e2 sent on lan came to e1", "239.1.1.1) twice", "239.2.2.2) twice",
              "232.1.1.1) twice"),)),
    "45_equal_cost_triangle": Broken(),
    "47_reload_inserts_an_interface": Broken((note(*MOVED), NEVER_UP)),
    "47b_reload_inserts_an_interface_of_a_link": Broken((note(*MOVED), NEVER_UP)),
    "48_feeds_a_and_b": Broken(
        (note("the links fhr-rp1 and fhr-rp2 were down from 20.000 s to 30.000 s", "packets 27 to 76 (50)",
              "packets 77 to 82 (6)"),)),
    "49_fhr_dr_change_mid_stream": Broken((note("router f1 is down since 15.000 s, by move 64"),),
                                          came={(VIEWER, ONE): (171, 171, 0)}),
    "50_rp_address_on_a_down_interface": Broken(
        (note("twice", "rp1 took it in a Register and from the source's tree"),
         note("interface 0 (link fhr-rp1) is down since 10.000 s, by move 49", "10.0.1.2 is that of the RP"))),
    "54_leave_latency_and_loss_of_hello_one_kind": Broken(
        (note("none of the Joins and Prunes that e1 sent on rp1-e1 came to rp1"),), came={(VIEWER, ONE): (5, 0, 0)}),
    "55_asserts_dropped_on_the_receivers_lan": Broken(
        (note("none of the Asserts that u1 sent on transit came to u2", "10.0.6.101 got 1 packet",
              "10.0.7.101 got 1 packet"),)),
    "A1_minimal": Broken((
        note("moves interface 0 from ab to ac"), note("interface 1 (link ab) never goes up"),
        note("router a is never advanced"), note("router b is never advanced"), note("router c is never advanced"),
        note("nothing that a sent on ab came to b"))),
}
# Values of Python that slip into a text.
FALSE = ("None", "Traceback", "<", "=[")


class Played:
    def __init__(self, text):
        judge, self.number = faults_of(text)
        played = scenario.scenario_of(toml_lines.plain(toml_lines.read(text)))
        self.diagnosis = Diagnosis(judge, played, pimlab.run_text(text))
        self.run = self.diagnosis.run
        self.told = self.diagnosis.lines()
        hosts = dict.fromkeys(host for host, *_ in self.run.hosts.told)
        self.answers = [answer for host in hosts for answer in self.run.watch.answers(host)]

    def answer(self, host, group, link=None):
        """The verdict on a stream of a host, and its last line; the link is the host's or the source's."""
        found = [(verdict, lines) for verdict, lines in self.answers if verdict and (host, group) == (
            verdict.stream.host, verdict.stream.group) and link in (None, verdict.stream.link, verdict.stream.origin)]
        (verdict, lines), = found
        return verdict, lines[-1]


@functools.cache
def texts():
    with tarfile.open(fileobj=io.BytesIO(ARCHIVE.read_bytes())) as archive:
        return {each.name.removesuffix(".toml"): archive.extractfile(each).read().decode() for each in archive}


@functools.cache
def played(name):
    return Played(texts()[name])


class Told(unittest.TestCase):
    def test_each_note_is_told_and_no_other(self):
        for name, broken in BROKEN.items():
            with self.subTest(name):
                told = played(name).told
                for words in broken.told:
                    self.assertTrue([each for each in told if all(word in each for word in words)], (words, told))
                known = [each for each in told if any(all(word in each for word in words) for words in broken.told)]
                self.assertEqual(told, known)
                self.assertEqual(len(told), len(broken.told))

    def test_who_is_served(self):
        for name, broken in BROKEN.items():
            for key, wanted in broken.served.items():
                with self.subTest(name, key=key):
                    verdict, line = played(name).answer(*key)
                    self.assertEqual(verdict.is_served, wanted is True)
                    self.assertIn("is served" if wanted is True else wanted, line)

    def test_what_came(self):
        for name, broken in BROKEN.items():
            for key, wanted in broken.came.items():
                with self.subTest(name, key=key):
                    stream = played(name).answer(*key)[0].stream
                    self.assertEqual((stream.sent, stream.came, stream.twice), wanted)

    def test_nothing_is_told_that_is_not_so(self):
        for name, broken in BROKEN.items():
            with self.subTest(name):
                run = played(name)
                lines = [line for each in run.told for line in each.splitlines()]
                lines += [line for _, told in run.answers for line in told]
                for words in (*broken.never, *FALSE):
                    self.assertFalse([line for line in lines if words in line])

    def test_each_file_is_one_of_these(self):
        self.assertEqual(set(texts()), set(BROKEN))


class Tables(unittest.TestCase):
    def test_how_long_a_stream_went_on_after_a_leave(self):
        row, = phases_of(played("31_timers_differ_e1_e2").run)
        wanted = {"host": VIEWER, "link": "lan", "group": ONE, "joined": 10.0, "left": 20.0, "went on": 50.0,
                  "first after": 5.0, "sent": 6, "came": 6, "missed": 0, "served": "left"}
        self.assertEqual({key: row[key] for key in wanted}, wanted)

    def test_a_prune_that_waits_above_the_host_is_told(self):
        run = played("24_one_router_without_lan_delay")
        verdict, _ = run.answer("10.0.5.101", SSM)
        line, = Latencies(run.run).lines(verdict)
        self.assertIn("it left at 20.000 s: the stream went on for 1 s on viewer", line)
        self.assertIn("on src-up for 5 s, where a Prune waits", line)

    def test_a_row_a_channel(self):
        row, = channels_of(played("15_rpf_at_the_rp_by_a_firewall").run)[1:2]
        self.assertEqual((row["group"], row["sent"], row["registered"], row["missed"]), (ONE, 10, 10, 0))
        first, *_ = channels_of(played("15_rpf_at_the_rp_by_a_firewall").run)
        self.assertEqual((first["group"], first["came"], first["missed"], first["not served"]), (SSM, 0, 10, 1))

    def test_as_csv(self):
        text = as_csv(phases_of(played("34_receiver_moves_without_asking").run))
        head, *rows = text.splitlines()
        self.assertEqual(head.split(",")[:4], ["host", "link", "group", "source"])
        self.assertEqual([row.split(",")[1] for row in rows], ["lan", "wifi"])


if __name__ == "__main__":
    unittest.main()
