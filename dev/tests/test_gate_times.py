"""docs/BUILD.md of a run's lines, and what is foretold by them."""
import contextlib
import io
import unittest
from unittest import mock

from upkeep.forecast import Gate
from tests import stored
from tests.rooms import kit, repository

gate_times = stored.tool("gate_times")
LINES = """== low
logic=proved functions=12 sum=dac8208d650f15bf native=nat
rt: low proved
seconds low proof 60.0 30.2
seconds low tests 0.0 0.0
== low: its tests
logic=proved functions=3 sum=dac8208d650f15bf native=nat
rt: low: its tests are proved
edit low/a: refused: note
edit low/b: STILL PROVED
seconds low edits 50.0 40.0
== high
logic=proved functions=5 sum=dac8208d650f15bf native=nat
rt: high proved
seconds high proof 200.0 100.0
seconds high made 20.0 8.0
1 passed, 0 failed
seconds whole gate 300.0 198.2
5 passed, 1 failed
"""


def page_of(lines):
    """The page, the status and what is printed."""
    out = io.StringIO()
    with repository({"crates.txt": "high: low\nlow: std\n", "docs/a": "", "out/gate.log": lines}) as room:
        with kit(room, "echo a kit"), mock.patch.object(gate_times, "ROOT", room), contextlib.redirect_stderr(out):
            status = gate_times.main([])
        written = room / "docs/BUILD.md"
        return written.read_text() if written.exists() else "", status, out.getvalue()


class Page(unittest.TestCase):
    def test_what_each_crate_took(self):
        page, status, _ = page_of(LINES)
        self.assertEqual(0, status)
        self.assertIn("took 5 min 00 s, and 198 s of the processors:\n5 passed, 1 failed.\n", page)
        self.assertIn("| `low` | 12 | 30 | 60 |  | 40 (2) | all | 17 | 130 | 260 | 8 | 40 (2) |", page)
        self.assertIn("| `high` | 5 | 100 | 200 | 8 |  |  | | | | |  |", page)
        self.assertIn("The longest chain of proofs takes 2 min 10 s: `low` 30, `high` 100.", page)
        self.assertIn("`a kit`", page)
        self.assertRegex(page, r"\n\| 2 \| 2 \| 5 \|\n\| 4 \| 2 \| 5 \|\n")

    def test_nothing_is_foretold_where_crates_were_kept(self):
        page, _, _ = page_of(LINES + "rt: low is kept: an earlier run on this machine proved the same files\n")
        self.assertIn("1 crates were kept from an earlier run, so their seconds aren't known here.", page)
        self.assertNotIn("at half", page)

    def test_lines_without_times(self):
        page, status, said = page_of("rt: low proved\n1 passed, 0 failed\n")
        self.assertEqual(("", 2), (page, status))
        self.assertIn("tells no times", said)


class Forecast(unittest.TestCase):
    BELOW = {"a": [], "b": ["a"], "c": ["a"], "d": ["b", "c"]}
    SECONDS = {("a", "proof"): 10.0, ("b", "proof"): 20.0, ("c", "proof"): 5.0, ("d", "proof"): 7.0}

    def test_the_longest_chain(self):
        self.assertEqual(["a", "b", "d"], Gate(self.BELOW, self.SECONDS).chain())

    def test_on_one_processor_and_on_several(self):
        """By hand: a, then b beside c, then d; on one processor one after the other."""
        gate = Gate(self.BELOW, self.SECONDS)
        self.assertEqual([42, 37, 37], [gate.takes(it) for it in (1, 2, 4)])

    def test_edits_fill_what_proofs_leave_free(self):
        """a until 10; b until 30 beside c and then a's edits from 15 to 27; d until 37 beside b's edits until 34."""
        gate = Gate(self.BELOW, {**self.SECONDS, ("a", "edits"): 12.0, ("b", "edits"): 4.0})
        self.assertEqual([58, 37], [gate.takes(it) for it in (1, 2)])

    def test_the_chain_goes_first(self):
        """Two processors: b, which d waits for, begins before the shorter c and e."""
        below = {**self.BELOW, "e": ["a"]}
        gate = Gate(below, {**self.SECONDS, ("e", "proof"): 6.0})
        self.assertEqual(37, gate.takes(2))


if __name__ == "__main__":
    unittest.main()
