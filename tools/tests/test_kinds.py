"""Files of every kind, packets as words, what is odd in a file, and how tools end."""
import os
import pty
import subprocess
import sys
import tempfile
import unittest
from pathlib import Path

from lab import Network
from pimtext.files import checked, kinds, pimlab
from pimtext.shown import playpage
from viqeshor.lab import faults, scenario, written
from tests import stored

LINE = stored.TOOLS / "tests" / "frr" / "line"
THREE = stored.TOOLS / "networks" / "examples" / "three_in_a_line.py"
REPORT = "460000280000000001023a650a08004de0000016940400002200e9fb0000000104000000ef010101"
DATA = "45000021000000001011b0910a070032ef010101138c138c000d9aae68656c6c6f"
TWO = """\
[[router]]
name = "edge"
iface = [{ link = "home", address = "10.8.0.1/24" }, { link = "core", address = "10.0.0.1/24" }]
[[router]]
name = "far"
iface = [{ link = "core", address = "10.0.0.2/24" }]
[[move]]
do = "up"
router = "edge"
iface = 1
"""


def called(tool, *words, **how):
    return subprocess.run([sys.executable, stored.TOOLS / tool, *words], capture_output=True, text=True, **how)


class Words(unittest.TestCase):
    def test_packets_are_those_of_the_documents(self):
        self.assertEqual(written.packet_of("igmp v3 239.1.1.1 join from 10.8.0.77").hex(), REPORT)
        self.assertEqual(written.packet_of("data 239.1.1.1 from 10.7.0.50 port 5004 hello").hex(), DATA)

    def test_records_by_hand(self):
        """The record behind the IP header of 24 bytes and 8 of the report: type, no auxiliary data, sources."""
        wanted = {"join": "04000000", "leave": "03000000", "include 10.0.0.5": "03000001", "exclude": "04000000",
                  "allow 10.0.0.5 10.0.0.6": "05000002", "block 10.0.0.5": "06000001"}
        for said, head in wanted.items():
            sources = "".join({"10.0.0.5": "0a000005", "10.0.0.6": "0a000006"}.get(word, "") for word in said.split())
            data = written.packet_of(f"igmp v3 232.1.1.1 {said}")
            self.assertEqual((data[32:].hex(), data[12:16].hex()), (f"{head}e8010101{sources}", "00000000"))

    def test_older_versions(self):
        types = {"v2 239.1.1.1 join": 0x16, "v2 239.1.1.1 leave": 0x17}
        for said, kind in types.items():
            self.assertEqual(written.packet_of(f"igmp {said}")[24], kind)
        self.assertEqual(written.packet_of("igmp v1 239.1.1.1 join")[20], 0x12)

    def test_wrong_words_are_told_with_their_line(self):
        wrong = {"igmp v4 239.1.1.1 join": "`v4` isn't one of v1, v2, v3",
                 "igmp v3 10.0.0.1 join": "`10.0.0.1` is no group",
                 "igmp v3 239.1.1.1 jion": "is join meant?", "igmp v3 239.1.1.1 join 10.0.0.5": "has no sources",
                 "igmp v1 239.1.1.1 leave": "isn't one of join", "data 239.1.1.1 hello": "who sends it is missing",
                 "data 239.1.1.1 from 10.7.0.50 ttl 256": "`256` is no ttl", "igmp v3": "it is written as: igmp v3",
                 "data 239.1.1.1 from": "an address is missing"}
        for words, told in wrong.items():
            with self.assertRaises(written.Wrong) as raised:
                written.plain(f'[[move]]\ndo = "frame"\nhex = "{words}"\n')
            self.assertIn(told, str(raised.exception))
            self.assertEqual(raised.exception.line, 3)

    def test_other_texts_stay(self):
        text = f"hex = '{REPORT}' # igmp\nname = \"igmp v3\"\n"
        self.assertEqual(written.plain(text), text)

    def test_plain_is_played(self):
        with tempfile.TemporaryDirectory() as room:
            path = Path(room) / "words.toml"
            move = '[[move]]\ndo = "frame"\nrouter = "edge"\niface = 1\nhex = "igmp v3 239.1.1.1 join"\n'
            path.write_text(TWO + move)
            ran = called("plain", path)
            self.assertIn("move 2 edge done", pimlab.run_text(ran.stdout))
            self.assertIn("move 2 edge done", "\n".join(map(str, pimlab.run_file(path))))
            path.write_text(TWO + move.replace("join", "jion"))
            for tool in ("plain", "why", "mroute"):
                ran = called(tool, path)
                self.assertEqual((ran.returncode, ran.stdout), (1, ""))
                self.assertIn(f"{path}:15: `jion`", ran.stderr)


class Kinds(unittest.TestCase):
    def test_what_a_file_is(self):
        paths = LINE, THREE, LINE / "r3.pcapng", stored.EXAMPLES / "one_join.toml"
        self.assertEqual(list(map(kinds.kind_of, paths)), ["folder", "lab", "capture", "scenario"])

    def test_a_lab_file_and_a_folder_are_scenarios(self):
        for path, router in ((THREE, "r2"), (LINE, "r2")):
            self.assertIn(f"router {router} at ", called("mroute", path).stdout)
            ran = called("why", path)
            self.assertEqual((ran.returncode, ran.stderr), (0, ""))
            self.assertIn("is a scenario: 3 routers", ran.stdout)

    def test_a_capture_says_what_makes_one(self):
        for tool in ("why", "mroute", "play", "draw"):
            ran = called(tool, LINE / "r3.pcapng")
            self.assertEqual(ran.returncode, 1)
            self.assertIn("is a capture: `tools/from_pcap", ran.stderr)

    TOOLS = {"show": (), "why": (), "mroute": (), "pcap": ("/dev/null",), "play": (), "draw": (), "whatif": (),
             "lab": (), "from_frr": (), "from_pcap": (), "recorded": (), "saved": (), "plain": ()}

    def test_no_traceback_for_a_file_of_another_kind(self):
        picture = stored.TOOLS.parent / "docs" / "play.png"
        for tool, more in self.TOOLS.items():
            for path in (picture, stored.EXAMPLES, Path("nowhere.toml"), Path("nowhere.py"), LINE / "r3.pcapng"):
                with self.subTest(tool=tool, path=path.name):
                    ran = called(tool, path, *more, stdin=subprocess.DEVNULL)
                    self.assertNotIn("Traceback", ran.stderr)
                    if (tool, path.suffix) != ("from_pcap", ".pcapng"):
                        self.assertNotEqual(ran.returncode, 0)

    def test_no_traceback_for_a_closed_pipe(self):
        example = stored.EXAMPLES / "lan_assert.toml"
        for tool, words in {"why": [example, "--run"], "mroute": [example], "draw": [example], "plain": [example],
                            "lab": [THREE], "whatif": [THREE]}.items():
            with self.subTest(tool):
                running = subprocess.Popen([sys.executable, stored.TOOLS / tool, *words], stdout=subprocess.PIPE,
                                           stderr=subprocess.PIPE, text=True)
                running.stdout.close()
                told = running.stderr.read()
                running.stderr.close()
                self.assertEqual((running.wait(), told), (141, ""))


class Names(unittest.TestCase):
    def test_names_of_hosts_and_links_are_saved(self):
        net = Network()
        net.line("a", "b")
        net.rp("b")
        net.host("the camera", "a")
        net.host("tv", "b")
        net.run(5)
        text = net.scenario()
        self.assertEqual(scenario.hosts_in(text), {net.hosts["the camera"].address: "the camera",
                                                   net.hosts["tv"].address: "tv"})
        self.assertEqual(pimlab.run_text(text)[0].split()[-1], "done")
        self.assertIn("the camera", scenario.scenario_of(faults.toml_lines.plain(faults.toml_lines.read(text))).links())

    def test_a_page_has_them(self):
        text = "# host 10.8.0.77 viewer\n" + TWO + (
            f'[[move]]\ndo = "frame"\nrouter = "edge"\niface = 1\nhex = "{REPORT}"\n')
        told = playpage.run_of(playpage.Told("named", text, scenario.hosts_in(text)))
        self.assertEqual([host["name"] for host in told["hosts"]], ["viewer"])


class Odd(unittest.TestCase):
    def told(self, old="", new=""):
        judge, number = faults.faults_of(TWO.replace(old, new))
        self.assertEqual(number, 0)
        return [(each.line, each.what) for each in checked.odd(judge)]

    def test_nothing_is_odd(self):
        self.assertEqual(self.told(), [])

    def test_addresses(self):
        (told,) = self.told("10.8.0.1/24", "10.8.0.0/24")
        self.assertEqual(told, (3, "10.8.0.0 is the network's own address in 10.8.0.0/24, no router's"))
        (told,) = self.told("10.8.0.1/24", "10.8.0.63/26")
        self.assertEqual(told, (3, "10.8.0.63 is the broadcast address in 10.8.0.0/26, no router's"))
        self.assertEqual(self.told("10.8.0.1/24", "10.8.0.0/31"), [])

    def test_a_misspelt_link(self):
        told = self.told('link = "core", address = "10.0.0.2/24"', 'link = "croe", address = "10.0.0.2/24"')
        self.assertEqual([line for line, _ in told], [3, 6])
        self.assertIn("is the subnet of `core`: is that meant?", told[1][1])

    def test_an_interface_that_is_not_there(self):
        self.assertEqual(self.told("iface = 1", "iface = 2"),
                         [(10, "router edge has no interface 2: it has 2, counted from 0")])


class Hints(unittest.TestCase):
    """What `./pimlab` adds on a terminal."""

    def told(self, *words):
        here, there = pty.openpty()
        ran = subprocess.run([sys.executable, pimlab.PIMLAB, *words], stdout=subprocess.PIPE, stderr=there)
        os.close(there)
        text = os.read(here, 4096).decode().replace("\r\n", "\n")
        os.close(here)
        return ran.returncode, ran.stdout, text

    def test_a_command_line(self):
        status, out, told = self.told("rum", "x.toml")
        self.assertEqual((status, out), (2, b""))
        wanted = "pimlab: command line refused\n`rum` is no word of it; is `run` meant?\nusage: "
        self.assertEqual(told[:len(wanted)], wanted)

    def test_an_option(self):
        self.assertIn("`--table` is no word of it; is `--tables` meant?", self.told("run", "x.toml", "--table")[2])

    def test_a_refusal(self):
        with tempfile.TemporaryDirectory() as room:
            path = Path(room) / "wrong.toml"
            path.write_text(TWO.replace("iface = 1", "ifcae = 1"))
            self.assertEqual(self.told("check", path),
                             (2, b"", f"pimlab: scenario refused: 39\ntools/why {path} says where\n"))


if __name__ == "__main__":
    unittest.main()
