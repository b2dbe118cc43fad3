"""Networks of FRR's configurations: their trees are those that FRR told, and what isn't carried over is listed."""
import json
import os
import shutil
import subprocess
import tempfile
import unittest
from pathlib import Path
from unittest import mock

from pimtext.files import frr, frr_lab
from tests import rooms, stored

FRR = Path(__file__).resolve().parent / "frr"
TOPOLOGIES = ["lan", "line", "ring", "triangle"]
from_frr = stored.tool("from_frr")
# An older and a newer form of one configuration, and what can't be carried over.
OLDER = """frr version 8.4.4
hostname r1
ip pim rp 10.0.1.2 prefix-list RPS
ip pim spt-switchover infinity-and-beyond
ip pim join-prune-interval 30
ip prefix-list RPS seq 5 permit 239.0.0.0/8 le 32
ip prefix-list RPS seq 10 deny 239.1.0.0/16
ip route 10.9.0.0/24 10.0.1.2
ip route 10.8.0.0/24 Null0
ip route 0.0.0.0/0 10.0.1.2
router ospf
 network 10.0.0.0/8 area 0
interface eth0
 ip address 10.0.1.1/24
 ip pim
 ip pim drpriority 7
 ip pim hello 5
interface eth1
 ip address 10.0.2.1/24
 ip pim
 ip igmp
 ip igmp version 2
 ip igmp query-interval 60
 ip igmp join 239.1.1.1
 ip igmp join 232.1.1.1 10.9.0.9
interface eth2
 ip address 10.0.3.1/24
"""
NEWER = """router pim
 rp 10.0.1.2 239.0.0.0/8
 spt-switchover infinity-and-beyond
exit
router pim vrf red
 rp 10.0.7.7
exit
vrf red
 ip route 10.9.0.0/24 10.0.1.3
exit-vrf
interface eth0
 ip address 10.0.1.1/24
 ip pim
 ip pim drpriority 7
exit
interface eth1
 ip address 10.0.2.1/24
 ip pim
 ip igmp
 ip igmp query-interval 60
 ip igmp join-group 239.1.1.1
 ip igmp join-group 232.1.1.1 10.9.0.9
exit
interface eth4 vrf red
 ip address 10.0.7.7/24
 ip pim
exit
"""
OTHER = "interface lo\n ip address 10.0.9.9/32\n ip pim\ninterface eth0\n ip address 10.0.1.2/24\n ip pim\n"


def plan_of(files, **how):
    with rooms.repository(files) as room:
        return frr_lab.Plan(frr.routers_of(room, **how))


def left(plan):
    return {f"{each.place.file}:{each.place.number}": each.reason for router in plan.routers for each in router.left}


class Told(unittest.TestCase):
    def test_trees_are_those_that_frr_told(self):
        for name in TOPOLOGIES:
            words = [stored.TOOLS / "from_frr", FRR / name, "--compare", "--quiet"]
            ran = subprocess.run(words, capture_output=True, text=True)
            self.assertEqual((ran.returncode, ran.stderr), (0, ""), ran.stdout)
            plan = frr_lab.Plan(frr.routers_of(FRR / name))
            told = frr_lab.told_branches(plan, FRR / name)
            self.assertGreaterEqual(len(told), 4)
            self.assertEqual(ran.stdout.count("same "), len(told))

    def test_another_tree_is_told(self):
        with tempfile.TemporaryDirectory() as room:
            copy = Path(shutil.copytree(FRR / "line", Path(room) / "line"))
            said = copy / "r3.mroute.json"
            said.write_text(said.read_text().replace('"home"', '"to-r2"'))
            ran = subprocess.run([stored.TOOLS / "from_frr", copy, "--compare"], capture_output=True, text=True)
        self.assertEqual(ran.returncode, 1)
        self.assertIn("differs (*, 239.1.1.1) at r3: FRR no tree; ours from r2-r3 to r3-home", ran.stdout)

    def test_a_scenario_that_plays(self):
        words = [stored.TOOLS / "from_frr", FRR / "ring", "--scenario", "--quiet", "--send", "10.7.0.50", "232.1.1.1"]
        text = subprocess.run(words, capture_output=True, text=True, check=True).stdout
        ran = subprocess.run([stored.TOOLS.parent / "pimlab", "run", "-"], input=text, capture_output=True, text=True)
        self.assertEqual(ran.returncode, 0, ran.stderr)
        self.assertIn("copy", ran.stdout)


class Carried(unittest.TestCase):
    def test_older_and_newer_forms(self):
        plans = [plan_of({"r1.conf": text, "r2/frr.conf": OTHER}) for text in (OLDER, NEWER)]
        for plan in plans:
            self.assertEqual(plan.options["r1"], {"qi": 60, "spt": "never"})
            self.assertEqual(plan.ranges["r1"], [("239.0.0.0/8", "10.0.1.2")])
            self.assertEqual([link.name for link in plan.links.values()], ["r1-r2", "r1-eth1"])
            self.assertEqual(plan.own, {"r1": [], "r2": ["10.0.9.9"]})
            self.assertEqual([port.priority for _, port in plan.links[next(iter(plan.links))].ports], [7, 1])
            self.assertEqual(plan.members[0].joins, (("239.1.1.1", None), ("232.1.1.1", "10.9.0.9")))
        self.assertEqual(plans[0].routes["r1"], ["10.9.0.0/24 10.0.1.2 0 1 0"])
        self.assertEqual(plans[1].routes["r1"], [])

    def test_routes_that_frr_found(self):
        """With a routing protocol they hold at the beginning, and its static ones stay; else they all stay."""
        rows = {"10.9.0.0/24": ("static", 1, 0), "10.7.0.0/24": ("ospf", 110, 20)}
        found = {prefix: [{"protocol": kind, "selected": True, "distance": distance, "metric": metric, "nexthops": [
            {"ip": "10.0.1.2", "interfaceName": "eth0", "active": True, "fib": True}]}]
            for prefix, (kind, distance, metric) in rows.items()}
        routes = ["10.9.0.0/24 10.0.1.2 0 1 0", "10.7.0.0/24 10.0.1.2 0 110 20"]
        for text, lines in (
            (OLDER, [f"routes={routes}", f'net.routes("r1", "{routes[0]}")']),
            (NEWER, ['net.routes("r1", "' + '", "'.join(routes) + '", alone=True)']),
        ):
            plan = plan_of({"r1.conf": text, "r1.routes.json": json.dumps(found), "r2.conf": OTHER})
            made = frr_lab.text_of(plan, "here")
            for line in lines:
                self.assertIn(line.replace("'", '"'), made)
            self.assertIn("r2", from_frr.played(made).routers)

    def test_an_rp_that_never_leaves_its_tree(self):
        text = "ip pim rp 10.0.9.9\nip pim spt-switchover infinity-and-beyond\n" + OTHER
        self.assertIn("as RP", left(plan_of({"r2.conf": text}))["r2.conf:2"])

    def test_what_is_left_is_listed(self):
        said = left(plan_of({"r1.conf": OLDER, "r2/frr.conf": OTHER}))
        numbers = {int(key.split(":")[1]) for key in said if key.startswith("r1")}
        self.assertEqual(numbers, {5, 7, 9, 10, 11, 17, 22, 26})
        self.assertIn("exceptions", said["r1.conf:7"])
        self.assertIn("resolve-via-default", said["r1.conf:10"])
        self.assertNotIn("r2/frr.conf:2", said)

    def test_what_a_network_has_not_is_listed(self):
        text = "ip pim register-accept-list L\nip prefix-list L permit any\ninterface eth0\n ip address 10.0.1.3/24\n"
        text += " ip pim\n ip pim passive\n ip pim bfd\n ip pim allowed-neighbors prefix-list L\n"
        text += " ip multicast boundary oil L\n shutdown\n"
        said = left(plan_of({"a.conf": text.replace(" shutdown\n", ""), "r2.conf": OTHER}))
        wanted = {1: "every source", 6: "speaks PIM", 7: "no BFD", 8: "no lists", 9: "no boundaries"}
        self.assertEqual({f"a.conf:{number}" for number in wanted}, {key for key in said if key.startswith("a.")})
        for number, words in wanted.items():
            self.assertIn(words, said[f"a.conf:{number}"])
        self.assertEqual(left(plan_of({"a.conf": text, "r2.conf": OTHER}))["a.conf:3"], "it is shut down")

    def test_another_vrf(self):
        files = {"r1.conf": NEWER}
        self.assertEqual(plan_of(files, vrf="red").ranges["r1"], [("224.0.0.0/4", "10.0.7.7")])
        self.assertEqual(left(plan_of(files))["r1.conf:6"], "it is of the VRF red, not of default")

    def test_addresses_of_no_link(self):
        """Those of a loopback are the router's, also where another router has the address beside one."""
        loopback = "interface lo\n ip address 10.0.9.8/32\n ip address 10.0.8.8/32\n ip address 10.0.6.8/24\n ip pim\n"
        loopback += " ip igmp\n ip igmp join 239.1.1.1\ninterface eth0\n ip address 10.0.1.3/24\n ip pim\n"
        plan = plan_of({"a.conf": OTHER + "router ospf\n", "b.conf": loopback})
        self.assertEqual(plan.own, {"a": ["10.0.9.9"], "b": ["10.0.9.8", "10.0.8.8"]})
        said = left(plan)
        self.assertIn("an interface has one address here", said["b.conf:4"])
        self.assertIn("a host joins on a link", said["b.conf:7"])
        text = frr_lab.text_of(plan, "here")
        self.assertIn('net.router("b", addresses=["10.0.9.8", "10.0.8.8"])', text)
        net = from_frr.played(text)
        self.assertIn("10.0.9.8/32 10.0.1.3 0 110 10", net.written(net.routers["a"])["routes"])

    def test_more_addresses_than_a_router_has(self):
        loopback = "interface lo\n ip pim\n" + "".join(f" ip address 10.9.0.{n}/32\n" for n in range(1, 18))
        plan = plan_of({"a.conf": OTHER.replace("interface lo", "interface lo1"), "b.conf": loopback})
        self.assertEqual((len(plan.own["b"]), plan.own["a"]), (16, ["10.0.9.9"]))
        self.assertIn("at most 16", left(plan)["b.conf:19"])

    def test_the_file_is_a_program(self):
        plan = plan_of({"r1.conf": OLDER, "r2/frr.conf": OTHER})
        net = from_frr.played(frr_lab.text_of(plan, "here"))
        self.assertEqual(net.routers["r1"].neighbours(), {"r2"})

    def test_what_reads_configurations_is_named_or_found(self):
        given = mock.patch.dict(os.environ, PATH="/nowhere", VIQESHORD="/own")
        with given, mock.patch.object(frr, "SBIN", ["/nowhere"]):
            self.assertEqual((frr.importer("/named"), frr.importer()), ("/named", "/own"))
            del os.environ["VIQESHORD"]
            with self.assertRaises(frr.Unreadable) as raised:
                plan_of({"r2.conf": OTHER})
            self.assertIn("docs/LINUX.md says how it is built", str(raised.exception))
            with rooms.repository({"viqeshord": "#!/bin/sh\n"}) as room:
                (room / "viqeshord").chmod(0o755)
                with mock.patch.object(frr, "SBIN", [str(room)]):
                    self.assertEqual(frr.importer(), str(room / "viqeshord"))

    def test_what_cannot_read_configurations(self):
        for program, text in (("/nowhere", "/nowhere can't be run: No such file"), ("false", "false can't read ")):
            words = [stored.TOOLS / "from_frr", FRR / "line", "--viqeshord", program]
            ran = subprocess.run(words, capture_output=True, text=True)
            self.assertEqual((ran.returncode, ran.stdout), (1, ""))
            self.assertRegex(ran.stderr, f"^tools/from_frr: {text}.*\n$")

    def test_what_cannot_be_read(self):
        for files, text in (({"a.txt": ""}, "has no NAME.conf"), ({"a.conf": "", "a.routes.json": "{"}, "isn't JSON")):
            with rooms.repository(files) as room:
                ran = subprocess.run([stored.TOOLS / "from_frr", room], capture_output=True, text=True)
            self.assertEqual(ran.returncode, 1)
            self.assertIn(text, ran.stderr)


@unittest.skipUnless(os.environ.get("TRY_FRR"), "TRY_FRR isn't set")
@unittest.skipUnless(Path("/usr/lib/frr/pimd").exists() and os.geteuid() == 0, "it wants FRR, and root")
class Live(unittest.TestCase):
    def test_frr_tells_the_same_trees_again(self):
        with tempfile.TemporaryDirectory() as room:
            copy = Path(shutil.copytree(FRR / "line", Path(room) / "line"))
            subprocess.run([FRR / "record", copy], check=True)
            plan = frr_lab.Plan(frr.routers_of(copy))
            self.assertEqual(frr_lab.told_branches(plan, copy), frr_lab.told_branches(plan, FRR / "line"))


if __name__ == "__main__":
    unittest.main()
