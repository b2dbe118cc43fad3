"""The printed lines shown to people."""
import subprocess
import unittest
from collections import Counter

from pimtext.files import pimlab
from viqeshor.lab import story
from tests import stored
from tests.rooms import repository

show = stored.tool("show")


class Shown(unittest.TestCase):
    def test_every_stored_line_is_told(self):
        for path, lines in stored.played():
            read = pimlab.read(path)
            letters = Counter(line.split()[0] for line in lines)
            for known in (read, None):
                said = list(show.shown(lines, known))
                heads = Counter(line.split()[0] for line in said if line)
                with self.subTest(path=path.name):
                    self.assertEqual(heads["packet"], letters["frame"] + letters["copy"] + letters["unicast"])
                    self.assertEqual(heads["move"], letters["move"])
                    self.assertFalse([line for line in said if line.startswith("    packet") and "malformed" in line])

    def test_the_first_packet_of_an_example(self):
        path = stored.EXAMPLES / "shared_to_source_tree.toml"
        said = list(show.shown(path.with_suffix(".out").read_text().splitlines(), pimlab.read(path)))
        self.assertIn("move 16 rp: settle brings as a unicast: packet 19 of first, Register: done", said)
        self.assertIn("move 18 last: settle brings on 1 first-last: packet 27 of first, data: done", said)
        self.assertIn("    2 home     239.1.1.1  exclude  260.001 s", said)
        self.assertIn("router rp at 0.001 s", said)

    def test_a_byte_order_mark_and_a_table_over_several_lines_are_taken(self):
        path = stored.EXAMPLES / "lan_assert.toml"
        text = path.read_text().replace("{ do =", "{\n  do =")
        self.assertNotEqual(text, path.read_text())
        with repository({"scenario.toml": "\ufeff" + text}) as room:
            self.assertEqual(pimlab.read(room / "scenario.toml"), pimlab.read(path))
            self.assertEqual(pimlab.run_file(room / "scenario.toml"), pimlab.run_file(path))

    def test_lines_of_another_scenario_are_found(self):
        lines = (stored.EXAMPLES / "one_join.out").read_text().splitlines()
        with self.assertRaises((story.Untold, LookupError)):
            list(show.shown(lines, pimlab.read(stored.EXAMPLES / "lan_assert.toml")))

    def test_a_row_or_a_packet_below_no_line_of_its_router_is_said_to_be_one(self):
        row, packet, answer, heading = "N 0 10.0.2.2 110000", "frame 1 lan 4500", "move 1 r done", "router r"
        for lines, why in (([row], "`router NAME`"), ([answer, row], "`router NAME`"), ([packet], "packet 1 stands"),
                           ([heading, packet], "packet 1 stands")):
            with self.subTest(lines=lines), self.assertRaisesRegex(story.Untold, why):
                list(show.shown(lines, None))
            said = subprocess.run([stored.TOOLS / "show"], input="\n".join(lines), text=True, capture_output=True)
            self.assertEqual((said.returncode, said.stderr.count("\n")), (1, 1), said.stderr)
            self.assertRegex(said.stderr, why)


if __name__ == "__main__":
    unittest.main()
