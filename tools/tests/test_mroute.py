"""`tools/mroute`: what users of FRR look for, as text and as JSON."""
import json
import subprocess
import sys
import tempfile
import unittest
from pathlib import Path

from pimtext.files import pimlab
from pimtext.shown import view_text, views
from viqeshor.lab import asked, story
from viqeshor.lab.known import known_after
from tests import stored
from tests.networks import GROUP, HOST, RP, SOURCE, TO_EX, Network, report


def called(*words):
    ran = subprocess.run([sys.executable, stored.TOOLS / "mroute", *map(str, words)], capture_output=True, text=True)
    return ran.returncode, ran.stdout, ran.stderr


def outgoing(entry):
    return [each["interface"] for each in entry["outgoing"]]


class Shown(unittest.TestCase):
    def setUp(self):
        self.path = Path(self.enterContext(tempfile.TemporaryDirectory())) / "net.toml"
        self.path.write_text(Network().text())

    def view(self, name, *words):
        status, out, err = called(self.path, "--json", *words)
        self.assertEqual((status, err), (0, ""))
        return next(each for each in json.loads(out)["routers"] if each["router"] == name)

    def test_mroutes(self):
        shared, own = self.view("east")["mroute"]
        self.assertEqual((shared["source"], shared["group"], shared["flags"]), ("*", GROUP, "SC"))
        self.assertEqual((shared["incoming"], shared["rpf_neighbour"]),
            ({"interface": 0, "link": "hub-east"}, "10.0.2.2"))
        self.assertEqual(shared["outgoing"], [{"interface": 1, "link": "home", "why": [f"hosts want (*, {GROUP})"]}])
        self.assertEqual((own["source"], own["by"]), (SOURCE, "shared tree"))
        (first,) = self.view("west")["mroute"]
        self.assertEqual((first["flags"], first["registers"], first["by"]), ("SFT", True, "source tree"))

    def test_whether_a_join_leaves(self):
        shared, own = self.view("east")["upstream"]
        self.assertEqual((shared["sends_joins"], shared["rpf_neighbour"], shared["next_join"]),
            (True, "10.0.2.2", 65000))
        self.assertEqual((own["joined"], own["rpt"], own["kept_alive_until"]), (True, "notpruned", 215000))
        (first,) = self.view("west")["upstream"]
        self.assertEqual((first["sends_joins"], first["why_none"]), (False, "the tree begins here"))

    def test_neighbours_with_the_options_of_their_hellos(self):
        (known,) = self.view("east")["neighbours"]
        self.assertEqual(known, {
            "interface": 0, "link": "hub-east", "address": "10.0.2.2", "until": 110000, "is_dr": False,
            "priority": 1, "generation": 3, "propagation": 500, "override": 2500,
        })
        self.assertTrue(self.view("hub")["neighbours"][1]["is_dr"])

    def test_groups_with_their_querier(self):
        (group,) = self.view("east")["groups"]
        self.assertEqual((group["group"], group["mode"]), (GROUP, "exclude"))
        self.assertEqual((group["querier"], group["is_served"]), ("10.8.0.1", True))

    def test_the_rp_in_use(self):
        (rp,) = self.view("hub")["rps"]
        self.assertEqual((rp["range"], rp["rp"], rp["is_own"], rp["groups"]), ("239.0.0.0/8", RP, True, [GROUP]))

    def test_a_group_is_at_its_longest_range_alone(self):
        network = Network()
        network.router("hub")["rps"] = [f"239.0.0.0/8 {RP}", f"239.1.0.0/16 {RP}"]
        self.path.write_text(network.text())
        groups = {each["range"]: each["groups"] for each in self.view("hub")["rps"]}
        self.assertEqual(groups, {"239.0.0.0/8": [], "239.1.0.0/16": [GROUP]})

    def test_candidate_rps(self):
        """Of one range beside an RP range, and of one that contains the group: the first has its longer prefix."""
        wide, narrow = "239.0.0.0/8 10.9.9.9 0 30", "239.1.1.0/24 10.0.1.2 192 24"
        network = Network({"do": "candidates", "router": "hub", "list": [wide, narrow]}, report(TO_EX, GROUP))
        self.path.write_text(network.text())
        by_range, *named = self.view("hub")["rps"]
        self.assertEqual((by_range["named_by"], by_range["priority"], by_range["groups"]), ("range", None, []))
        columns = ("range", "rp", "named_by", "priority", "hash_length", "is_own", "groups")
        self.assertEqual([tuple(each[name] for name in columns) for each in named], [
            ("239.0.0.0/8", "10.9.9.9", "candidate", 0, 30, False, []),
            ("239.1.1.0/24", RP, "candidate", 192, 24, True, [GROUP]),
        ])
        out = [line.split() for line in called(self.path, "--router", "hub")[1].splitlines()]
        self.assertIn(["239.1.1.0/24", RP, "candidate,", "priority", "192", "itself", GROUP], out)
        out = called(self.path, "--router", "hub", "--show", "ip pim rp-info")[1].splitlines()
        self.assertEqual([line.split()[4] for line in out[1:]], ["Static", "Candidate", "Candidate"])

    def test_a_learned_rp(self):
        self.path.write_text((stored.DATA / "bsr_a_learned_rp.toml").read_text())
        named = [(each["range"], each["named_by"]) for each in self.view("r1")["rps"]]
        self.assertEqual(named, [("239.0.0.0/8", "bootstrap")])

    def test_after_a_move(self):
        self.assertEqual(self.view("east", "--at", 0)["neighbours"], [])
        self.assertEqual(len(self.view("east", "--at", 10)["neighbours"]), 1)
        self.assertEqual(self.view("east", "--at", 10)["mroute"], [])
        self.assertEqual(called(self.path, "--at", 0)[1].splitlines()[0], "before the first move")

    def test_as_text(self):
        status, out, _ = called(self.path, "--router", "east")
        self.assertEqual(status, 0)
        lines = [line.split() for line in out.splitlines()]
        self.assertIn(
            ["*", GROUP, "SC", "0", "hub-east", "10.0.2.2", "1", "home", "(hosts", "want", "(*,", f"{GROUP}))"], lines)
        self.assertIn(["1", "home", GROUP, "exclude", "265.000", "s", "-", "10.8.0.1", "yes"], lines)
        for title in ("mroute", "pim upstream", "pim interface", "pim neighbor", "igmp groups", "pim rp-info"):
            self.assertIn(f"  show ip {title}", out.splitlines())
        self.assertNotIn(HOST, out)

    def test_moves_and_routers_that_are_not_there(self):
        for words, wanted in (
            (["--at", 99], "there is no move 99: the scenario has"),
            (["--router", "none"], "there is no router none: its routers are west, hub, east"),
        ):
            status, out, err = called(self.path, *words)
            self.assertEqual((status, out), (1, ""))
            self.assertIn(wanted, err)


class Asserts(unittest.TestCase):
    """An interface on which an assert was lost is in no list, though somebody asks for packets there."""

    def entry(self, path, router, source):
        status, out, err = called(path, "--json", "--router", router)
        self.assertEqual((status, err), (0, ""))
        return next(each for each in json.loads(out)["routers"][0]["mroute"] if each["source"] == source)

    def assert_kept_off(self, entry, wanted):
        self.assertEqual((entry["outgoing"], entry["flags"]), ([], "SP"))
        self.assertEqual([(each["link"], each["why"], each["kept_off"]) for each in entry["kept_off"]], [wanted])

    def test_of_a_source(self):
        entry = self.entry(stored.EXAMPLES / "lan_assert.toml", "right", "10.1.0.50")
        lost = "it lost the assert of (10.1.0.50, 232.1.1.1) to 10.5.0.2"
        self.assert_kept_off(entry, ("lan", ["hosts want (10.1.0.50, 232.1.1.1)"], [lost]))

    def test_of_a_group(self):
        entry = self.entry(stored.DATA / "an_assert_of_the_group.toml", "r", "*")
        lost = "it lost the assert of (*, 225.1.1.1) to 10.0.1.2"
        self.assert_kept_off(entry, ("m", ["Join (*, 225.1.1.1)"], [lost]))

    def test_a_host_there_is_served_by_the_winner(self):
        told = subprocess.run([sys.executable, stored.TOOLS / "why", stored.EXAMPLES / "lan_assert.toml", "--served",
                               "10.5.0.77"], capture_output=True, text=True)
        self.assertEqual(told.returncode, 0, told.stdout + told.stderr)
        self.assertEqual(told.stdout.splitlines()[-2:], [
            "  left took it on 0 west, TTL 15; sent it on lan", "10.5.0.77 is served"])

    def test_an_upstream_neighbour_is_the_winner(self):
        path = stored.EXAMPLES / "lan_assert.toml"
        told = json.loads(called(path, "--json", "--router", "attic")[1])["routers"][0]["upstream"]
        found = [(each["source"], each["rpf_neighbour"], each["by_assert"]) for each in told]
        self.assertEqual(found, [("10.1.0.50", "10.5.0.2", True)])


class Stored(unittest.TestCase):
    """All stored scenarios, by their stored lines."""

    def test_each_is_shown_and_its_branches_are_those_of_the_trees(self):
        for path, lines in stored.played():
            played = pimlab.read(path)
            steps, tables = story.played(played, lines)
            for name, state in known_after(played, steps, tables).items():
                view = views.router(state)
                shown = {(each["group"], each["source"]): outgoing(each) for each in view["mroute"]}
                with self.subTest(path.name, router=name):
                    json.dumps(view)
                    list(view_text.text(view))
                    for branch in asked.branches(state):
                        self.assertEqual(shown[branch.group, branch.source], sorted(branch.outgoing))

    def test_a_querier_that_falls_silent_and_comes_back(self):
        path = stored.EXAMPLES / "querier_takes_over.toml"
        queriers = []
        for number in (11, 12, 13, 19):
            told = json.loads(called(path, "--json", "--router", "higher", "--at", number)[1])
            queriers.append(told["routers"][0]["interfaces"][0]["querier"])
        self.assertEqual(queriers, ["10.4.0.1", "10.4.0.2", "10.4.0.2", "10.4.0.1"])


if __name__ == "__main__":
    unittest.main()
