"""tools/recorded plays a recording, and parts of it."""
import os
import shutil
import subprocess
import sys
import tempfile
import tomllib
import unittest
from pathlib import Path

from pimtext.build.library import Library

TOOLS = Path(__file__).resolve().parent.parent
sys.path.insert(0, str(TOOLS.parent / "bindings" / "python" / "src"))
from viqeshor import Router, hosts, load, recording  # noqa: E402

CC = os.environ.get("CC", "cc")


@unittest.skipUnless(shutil.which(CC) and shutil.which("rt"), "there is no C compiler, or no kit")
class Recorded(unittest.TestCase):
    @classmethod
    def setUpClass(cls):
        library = Library(is_proved=False)
        cls.archive, cls.shared = library.archive, library.shared()

    def setUp(self):
        self.room = Path(self.enterContext(tempfile.TemporaryDirectory()))
        ways = [("10.9.0.0/16", "10.0.0.1", 0, 110, 20)]
        interfaces, ranges = [("10.0.0.2", 24), ("10.0.1.1", 24)], [("224.0.0.0/4", "10.0.0.2")]
        with Router(interfaces, ranges, ways, library=self.shared) as router:
            with recording.Recorder(router, self.room / "router"):
                router.up(0)
                router.up(1)
                router.advance(2000)
                router.frame(1, hosts.join("10.0.1.9", "239.1.1.1"))
                router.frame(0, hosts.data("10.0.0.7", "239.1.1.1", b"word"))
                router.set_routes([])
                router.advance(50_000)

    def run_tool(self, *words):
        ran = subprocess.run(
            [sys.executable, TOOLS / "recorded", "--archive", self.archive, *words], capture_output=True, text=True
        )
        return ran.returncode, ran.stdout + ran.stderr

    def test_all_of_it(self):
        self.assertEqual(self.run_tool(self.room / "router.0"), (0, "7 records, each as it was recorded\n"))

    def test_what_is_no_whole_record(self):
        file = self.room / "router.0"
        file.write_bytes(file.read_bytes()[:-5])
        told = "6 records, each as it was recorded\n20 bytes are no whole record\n"
        self.assertEqual(self.run_tool(file), (1, told))
        status, listed = self.run_tool(file, "--list", "--from", "6")
        self.assertEqual((status, listed.splitlines()[1:]), (1, ["20 bytes are no whole record"]))

    def test_each_flip_is_told(self):
        file = self.room / "router.0"
        self.assertEqual(self.run_tool(file, "--flips", "300"), (0, "300 flips, 0 of which nothing tells\n"))
        # One that isn't whole itself tells nothing of flips.
        file.write_bytes(file.read_bytes()[:-1])
        self.assertEqual(self.run_tool(file, "--flips", "1"), (1, "1 flips, 0 of which nothing tells\n"))

    def test_a_state_that_is_damaged(self):
        file = self.room / "router.0"
        data = bytearray(file.read_bytes())
        data[40] ^= 1
        file.write_bytes(data)
        status, told = self.run_tool(file)
        self.assertEqual((status, told.startswith("recorded: "), len(told.splitlines())), (1, True, 1))

    def test_a_part(self):
        part = self.room / "part"
        told = self.run_tool(self.room / "router.0", "--from", "4", "--to", "6", "--write", part)
        self.assertEqual(told, (0, "3 records, each as it was recorded\n"))
        self.assertEqual([record.name for record in recording.read(part).records], ["frame", "frame", "routes"])
        self.assertEqual(self.run_tool(part), (0, "3 records, each as it was recorded\n"))

    def test_lines(self):
        words = (self.room / "router.0", "--list", "--from", "4", "--to", "5")
        lines = ["4 2000 ms frame 1 10.0.1.9 > 224.0.0.22: IGMP report: TO_EX 239.1.1.1 {}: done",
                 "5 2000 ms frame 0 10.0.0.7 > 239.1.1.1: data, UDP to port 5000, 4 bytes, TTL 16: done", ""]
        self.assertEqual(self.run_tool(*words), (0, "\n".join(lines)))
        (self.room / "router.clock").write_text("2026-11-28T03:12:00.500Z\n")
        timed = "\n".join(lines).replace("2000 ms", "2026-11-28 03:12:02.500")
        self.assertEqual(self.run_tool(*words), (0, timed))

    def test_a_scenario(self):
        path = self.room / "part.toml"
        self.assertEqual(self.run_tool(self.room / "router.0", "--from", "4", "--scenario", path)[0], 0)
        told = tomllib.loads(path.read_text())
        self.assertEqual([move["do"] for move in told["move"]], ["frame", "frame", "routes", "advance"])
        self.assertEqual([each["address"] for each in told["router"][0]["iface"]], ["10.0.0.2/24", "10.0.1.1/24"])
        self.assertEqual(told["router"][0]["routes"], ["10.9.0.0/16 10.0.0.1 0 110 20"])
        Router.restore(path.with_suffix(".saved").read_bytes(), library=self.shared).end()

    def test_another_configuration(self):
        with Router([("10.0.0.2", 24), ("10.0.1.1", 24)], library=self.shared) as router:
            with recording.Recorder(router, self.room / "other"):
                router.up(0)
                router.set_older_hosts(1, "all")
                router.reload([("10.0.0.2", 24, 7, 500, 2500)], [("224.0.0.0/4", "10.0.0.2")], limit=9, draw=5)
                router.advance(1000)
        path, part, scenario = self.room / "other.0", self.room / "part", self.room / "part.toml"
        self.assertEqual(self.run_tool(path), (0, "4 records, each as it was recorded\n"))
        said = "10.0.0.2/24 priority 7 delays 500 2500; limit 9; routes none; rps 224.0.0.0/4 10.0.0.2"
        told = self.run_tool(path, "--list", "--from", "3", "--to", "3")
        self.assertEqual(told, (0, f"3 0 ms reload {said}: done\n"))
        # The setting is of an interface that is gone then.
        self.assertEqual(self.run_tool(path, "--from", "4", "--write", part)[0], 0)
        self.assertEqual([record.name for record in recording.read(part).records], ["advance"])
        self.assertEqual(self.run_tool(part)[0], 0)
        self.assertEqual(self.run_tool(path, "--from", "3", "--scenario", scenario)[0], 0)
        first, _ = tomllib.loads(scenario.read_text())["move"]
        self.assertEqual((first["do"], first["draw"], first["config"]["limit"]), ("reload", 5, 9))
        self.assertEqual([(each["link"], each["priority"]) for each in first["config"]["iface"]], [("link0", 7)])

    def test_another_configuration_by_places(self):
        with Router([("10.0.0.2", 24), ("10.0.1.1", 24)], library=self.shared) as router:
            with recording.Recorder(router, self.room / "placed"):
                router.set_older_hosts(0, "v2")
                router.set_older_hosts(1, "all")
                router.reload([("10.0.1.1", 24)], places=[None, 0], draw=5)
                router.advance(1000)
        path, part, scenario = self.room / "placed.0", self.room / "part", self.room / "part.toml"
        self.assertEqual(self.run_tool(path), (0, "4 records, each as it was recorded\n"))
        said = "10.0.1.1/24 priority 1 delays 500 2500; routes none; rps none; places none 0"
        told = self.run_tool(path, "--list", "--from", "3", "--to", "3")
        self.assertEqual(told, (0, f"3 0 ms reload {said}: done\n"))
        # The setting of the one that stays goes with it.
        self.assertEqual(self.run_tool(path, "--from", "4", "--write", part)[0], 0)
        records = recording.read(part).records
        self.assertEqual([(record.name, record.numbers) for record in records],
                         [("older", (0, 2)), ("advance", (1000,))])
        self.assertEqual(self.run_tool(part)[0], 0)
        self.assertEqual(self.run_tool(path, "--from", "3", "--scenario", scenario)[0], 0)
        first, _ = tomllib.loads(scenario.read_text())["move"]
        self.assertEqual((first["do"], first["places"], len(first["config"]["iface"])), ("reload", ["none", "0"], 1))

    def test_candidates(self):
        with Router([("10.0.0.2", 24), ("10.0.1.1", 24)], library=self.shared) as router:
            with recording.Recorder(router, self.room / "several"):
                router.set_candidates([("239.0.0.0/8", "10.0.0.2", 7, 30), ("239.0.0.0/8", "10.8.8.8", 7, 30)], draw=5)
                router.set_candidates([("239.0.0.0/3", "10.0.0.2", 7, 30)])
                router.set_candidates([])
        path, part, scenario = self.room / "several.0", self.room / "part", self.room / "part.toml"
        self.assertEqual(self.run_tool(path), (0, "3 records, each as it was recorded\n"))
        said = [("239.0.0.0/8 10.0.0.2 7 30, 239.0.0.0/8 10.8.8.8 7 30", "done"),
                ("239.0.0.0/3 10.0.0.2 7 30", "bad_candidates"), ("none", "done")]
        told = "".join(f"{number} 0 ms candidates {what}: {answer}\n" for number, (what, answer) in enumerate(said, 1))
        self.assertEqual(self.run_tool(path, "--list"), (0, told))
        # Those of before are in the state.
        self.assertEqual(self.run_tool(path, "--from", "2", "--write", part)[0], 0)
        with Router.restore(recording.read(part).state, library=self.shared) as router:
            self.assertEqual(router.tree("239.1.1.1").rp, "10.8.8.8")
        self.assertEqual(self.run_tool(path, "--scenario", scenario)[0], 0)
        first, *_ = tomllib.loads(scenario.read_text())["move"]
        self.assertEqual((first["do"], first["draw"], first["list"]), ("candidates", 5, said[0][0].split(", ")))

    def test_sets_of_rps(self):
        with Router([("10.0.0.2", 24), ("10.0.1.1", 24)], library=self.shared) as router:
            with recording.Recorder(router, self.room / "shared"):
                router.set_rp_sets([("10.0.0.2", "10.0.1.1", ["10.0.3.7", "10.0.3.8"])])
                router.set_rp_sets([])
                router.set_rp_sets([("10.0.0.2", "10.0.1.1", [])])
                router.advance(1000)
        path, part = self.room / "shared.0", self.room / "part"
        self.assertEqual(self.run_tool(path), (0, "4 records, each as it was recorded\n"))
        said = ["10.0.0.2 own 10.0.1.1 others 10.0.3.7 10.0.3.8", "none", "10.0.0.2 own 10.0.1.1 others none"]
        told = "".join(f"{number} 0 ms anycast {what}: done\n" for number, what in enumerate(said, 1))
        self.assertEqual(self.run_tool(path, "--list", "--to", "3"), (0, told))
        for first, names in (("2", ["anycast", "anycast", "anycast", "advance"]), ("3", ["anycast", "advance"])):
            self.assertEqual(self.run_tool(path, "--from", first, "--write", part)[0], 0)
            self.assertEqual([record.name for record in recording.read(part).records], names)
            self.assertEqual(self.run_tool(part)[0], 0)

    def test_what_differs(self):
        path = self.room / "router.0"
        told = recording.read(path)
        changed = [record._replace(total=record.total ^ 1) if number == 4 else record
                   for number, record in enumerate(told.records)]
        data = path.read_bytes()
        library = load(self.shared)
        written = b"".join(recording.bytes_of(library, record) for record in changed)
        path.write_bytes(data[:22 + len(told.state)] + written)
        status, text = self.run_tool(path)
        self.assertEqual(status, 1)
        self.assertIn("record 5, frame 0 ", text)
        path.write_bytes(b"other")
        self.assertEqual(self.run_tool(path), (1, "recorded: no recording\n"))


if __name__ == "__main__":
    unittest.main()
