"""`tools/mtrace` over scenarios, and over routers that answer as docs/schemas say; `tools/mroute --show`."""
import json
import re
import subprocess
import sys
import tempfile
import unittest
from pathlib import Path

from tests import stored
from tests.networks import GROUP, RP, SOURCE, Network

EXAMPLE = stored.EXAMPLES / "shared_to_source_tree.toml"
MISTAKES = stored.TOOLS / "tests" / "mistakes"
# Three routers in a line, as viqeshord shows them: the source is at r1, r2 is the RP, the host at r3.
PORTS = {
    "r1": {"studio": "10.1.0.1/24", "up": "10.2.0.1/24"},
    "r2": {"west": "10.2.0.2/24", "east": "10.3.0.2/24"},
    "r3": {"down": "10.3.0.3/24", "home": "10.4.0.3/24"},
}
ENTRIES = {
    "r1": ("10.1.0.50", "ST", "studio", ["up"], 40), "r2": ("10.1.0.50", "ST", "west", ["east"], 40),
    "r3": ("10.1.0.50", "SCT", "down", ["home"], 39),
}
HOPS = {"r1": ("studio", None), "r2": ("west", "10.2.0.1"), "r3": ("down", "10.3.0.2")}
# What stands in for viqeshord: it prints the stored answer to its words.
STAND_IN = """
import json, sys
answers = json.load(open(sys.argv[1]))
words = sys.argv[3:-1]
print(json.dumps({words[0]: answers[words[0]]}))
"""


def called(tool, *words):
    ran = subprocess.run([sys.executable, stored.TOOLS / tool, *map(str, words)], capture_output=True, text=True)
    return ran.returncode, ran.stdout, ran.stderr


def answers_of(name, entry):
    """What a router shows, by topic."""
    source, flags, came, out, packets = entry
    told = {"asked_by": [], "forwarding": "the kernel", "up_seconds": 1.0, "bytes": 0, "stray": 0}
    port, hop = HOPS[name]
    way = {"address": source, "used_as": [], "is_here": False, "interface": port, "next_hop": hop,
           "neighbor_up_seconds": None, "prefix": None, "preference": None, "metric": None}
    return {
        "interfaces": [{"interface": port, "address": own, "is_up": True} for port, own in PORTS[name].items()],
        "mroute": [{"source": source, "group": "239.1.1.1", "flags": flags, "incoming": came, "outgoing": out,
                    "packets": packets, **told}],
        "upstream": [], "rpf": [way],
        "rp": [{"groups": "239.0.0.0/8", "rp": "10.2.0.2", "is_here": name == "r2", "interface": port, "next_hop": hop,
                "used_by": 1}],
    }


class Live(unittest.TestCase):
    def setUp(self):
        self.room = Path(self.enterContext(tempfile.TemporaryDirectory()))
        (self.room / "viqeshord").write_text(STAND_IN)

    def traced(self, entries, names=("r1", "r2", "r3")):
        words = []
        for name in names:
            (self.room / name).write_text(json.dumps(answers_of(name, entries[name])))
            words += ["--live", f"{name}={sys.executable} {self.room / 'viqeshord'} {self.room / name}"]
        return called("mtrace", *words, "10.1.0.50", "10.4.0.77", "239.1.1.1")

    def test_the_way_of_routers_that_run(self):
        status, out, err = self.traced(ENTRIES)
        self.assertEqual((status, err), (0, ""))
        rows = [re.split(r"  +", line.strip()) for line in out.splitlines()[2:-1]]
        self.assertEqual([row[1:5] for row in rows],
                         [["r1", "studio", "-", "up"], ["r2", "west", "10.2.0.1", "east"],
                          ["r3", "down", "10.3.0.2", "home"]])
        self.assertEqual([row[7] for row in rows], ["40", "40", "39"])
        self.assertIn("reaches 10.4.0.77", out)

    def test_a_router_that_sends_it_nowhere(self):
        status, out, _ = self.traced({**ENTRIES, "r2": ("*", "SP", "west", [], None)})
        self.assertEqual(status, 1)
        self.assertIn("r2, on east: not: the kernel", out)
        self.assertIn("not: the kernel", out)

    def test_a_next_hop_that_is_not_asked(self):
        status, out, _ = self.traced(ENTRIES, ("r2", "r3"))
        self.assertEqual(status, 1)
        self.assertIn("the next hop of r2 is 10.2.0.1, which no router that is asked has", out)

    def test_a_router_that_does_not_answer(self):
        status, _, err = called("mtrace", "--live", "r1=false", "10.1.0.50", "10.4.0.77", "239.1.1.1")
        self.assertEqual(status, 2)
        self.assertIn("r1: status 1", err)

    def test_the_stand_in_answers_by_the_schemas(self):
        for topic, rows in answers_of("r1", ENTRIES["r1"]).items():
            schema = json.loads((stored.TOOLS.parent / "docs" / "schemas" / f"show-{topic}.json").read_text())
            known = schema["properties"][topic]["items"]["properties"]
            for row in rows:
                self.assertLessEqual(set(row), set(known))


class Played(unittest.TestCase):
    def test_the_way_of_a_scenario(self):
        status, out, _ = called("mtrace", EXAMPLE, "10.1.0.50", "10.3.0.77")
        self.assertEqual(status, 0)
        first, last = (re.split(r"  +", line.strip()) for line in out.splitlines()[2:4])
        self.assertEqual(first, ["1", "first", "studio", "-", "first-last", "(10.1.0.50, 239.1.1.1)", "ST", "3",
                                 "outgoing"])
        self.assertEqual(last[1:5], ["last", "first-last", "first (10.0.13.1)", "home"])

    def test_before_the_change_it_is_the_rps_tree(self):
        _, out, _ = called("mtrace", EXAMPLE, "10.1.0.50", "10.3.0.77", "239.1.1.1", "--at", 15)
        self.assertIn("(*, 239.1.1.1)", out)

    def test_where_it_ends(self):
        status, out, _ = called("mtrace", MISTAKES / "no_rp_at_the_hosts_router.toml", "10.0.9.101", "10.0.6.101",
                                "239.1.1.1")
        self.assertEqual(status, 1)
        self.assertIn("doesn't reach 10.0.6.101: e1 has no RP for 239.1.1.1", out)
        status, out, _ = called("mtrace", MISTAKES / "no_route_to_the_source.toml", "10.0.9.101", "10.0.6.102")
        self.assertEqual(status, 1)
        self.assertIn("e1 has no route to the source 10.0.9.101", out)


class Commands(unittest.TestCase):
    def setUp(self):
        self.path = Path(self.enterContext(tempfile.TemporaryDirectory())) / "net.toml"
        self.path.write_text(Network().text())

    def shown(self, command, name):
        status, out, err = called("mroute", self.path, "--router", name, "--show", command)
        self.assertEqual((status, err), (0, ""))
        head, *rows = ([cell.strip() for cell in re.split(r"  +", line)] for line in out.splitlines())
        return head, rows

    def test_an_entry(self):
        head, rows = self.shown(f"show ip mroute {GROUP}", "east")
        self.assertEqual(head, ["Source", "Group", "Flags", "Proto", "Input", "Output", "TTL", "Uptime"])
        self.assertEqual(rows[0][:7], ["*", GROUP, "SC", "IGMP", "hub-east", "home", "1"])
        self.assertEqual(self.shown("ip mroute 239.9.9.9", "east")[1], [])

    def test_counts_are_of_what_the_router_forwarded(self):
        head, ((source, group, _, packets, size, wrong),) = self.shown("ip mroute count", "east")
        self.assertEqual(head, ["Source", "Group", "LastUsed", "Packets", "Bytes", "WrongIf"])
        self.assertEqual((source, group), (SOURCE, GROUP))
        self.assertEqual(int(packets) > 0, int(size) > 0)

    def test_timers_are_what_is_left(self):
        _, rows = self.shown("ip pim neighbor", "east")
        self.assertEqual(rows[0][:2], ["hub-east", "10.0.2.2"])
        uptime, holdtime = (sum(int(part) * 60 ** place for place, part in enumerate(reversed(cell.split(":"))))
                            for cell in rows[0][2:4])
        self.assertLessEqual(holdtime, 105)
        self.assertGreaterEqual(uptime + holdtime, 0)

    def test_an_rp_and_a_route(self):
        self.assertEqual(self.shown("ip pim rp-info", "hub")[1][0][:4], [RP, "239.0.0.0/8", "<none>", "yes"])
        self.assertEqual(self.shown(f"ip rpf {SOURCE}", "west")[1], [[SOURCE, "studio", "connected"]])

    def test_hosts(self):
        (row,) = self.shown("ip igmp groups", "east")[1]
        self.assertEqual(row[:3], ["home", GROUP, "EXCL"])

    def test_what_is_no_command(self):
        for words, told in (("ip mroot", "there is no command `ip mroot`"), ("ip mroute 10.0.0.1", "is no group"),
                            ("ip pim neighbor 1", "takes nothing"), ("ip rpf", "takes an address")):
            status, _, err = called("mroute", self.path, "--show", words)
            self.assertEqual(status, 1)
            self.assertIn(told, err)


if __name__ == "__main__":
    unittest.main()
