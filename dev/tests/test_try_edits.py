"""`dev/try_edits`, beside a stand-in for the kit."""
import contextlib
import io
import unittest
from unittest import mock

from tests import stored
from tests.rooms import kit, repository

try_edits = stored.tool("try_edits")
CODE = "/// The number.\npub fn number(n: u32) -> u32\n    ensures same { result ≡ n }\n{\n    n\n}\n"
EDIT = "refused: number same\nfile: src/lib.rt\nold:     n\nnew:     n / 2\n"
UNNAMED = EDIT.partition("\n")[2]
FILES = {
    "crates.txt": "# the crates\nmiddle: low\nlow: std\nother: std\n",
    "crates/low/src/lib.rt": CODE, "crates/low/edits.txt": f"edit: weak\n{EDIT}",
    "crates/middle/src/lib.rt": CODE, "crates/middle/edits.txt": f"edit: one\n{UNNAMED}\nedit: two\n{EDIT}",
    "dev/rt": '#!/bin/sh\nexec rt "$@"\n',
}
GOAL = ("note: src/lib.rt:2:1: it is not proved that what the function ensures holds when it returns "
        "(`returns-clause-same`)")
COUNTS = "{} refused, {} NAMES NO CLAUSE, {} NOT AS IT SAYS, {} STILL PROVED, {} does not apply, {} not tried"


def tried(printed, *words, files=FILES):
    """The status, what is printed, what the kit was asked, and the edits of `middle` after it."""
    out = io.StringIO()
    with repository(files) as room, mock.patch.object(try_edits, "ROOT", room), contextlib.chdir(room):
        (room / "dev/rt").chmod(0o755)
        (room / "printed").write_text("".join(f"{line}\n" for line in printed))
        with kit(room, f'echo "$*; $VIQESHOR_EDITS" > {room}/asked; cat {room}/printed'):
            with mock.patch("sys.argv", ["try_edits", *words]), contextlib.redirect_stdout(out):
                with contextlib.redirect_stderr(out):
                    try:
                        status = try_edits.main()
                    except SystemExit as end:
                        status = end.code
        asked = (room / "asked").read_text().strip() if (room / "asked").exists() else ""
        return status, out.getvalue().splitlines(), asked, (room / "crates/middle/edits.txt").read_text()


def came(**answers):
    """The kit's lines on edits: `low_weak` is the edit weak of low."""
    return ["rt: low proved", *(f"edit {name.replace('_', '/', 1)}: {what}" for name, what in answers.items())]


class Tried(unittest.TestCase):
    def test_all_edits_are_asked_for(self):
        lines = came(low_weak=f"refused: {GOAL}", middle_one=f"NAMES NO CLAUSE: {GOAL}", middle_two=f"refused: {GOAL}")
        status, printed, asked, left = tried(lines)
        self.assertEqual((1, "ci middle low; middle low"), (status, asked))
        self.assertEqual([f"low/weak: refused: {GOAL}", f"middle/one: NAMES NO CLAUSE: {GOAL}",
                          f"middle/two: refused: {GOAL}", COUNTS.format(2, 1, 0, 0, 0, 0)], printed)
        self.assertEqual(FILES["crates/middle/edits.txt"], left)

    def test_one_edit_and_one_crate(self):
        status, printed, asked, _ = tried(came(middle_two=f"refused: {GOAL}", low_weak="refused"), "middle/two", "low")
        self.assertEqual((0, "ci middle low; middle/two low"), (status, asked))
        self.assertEqual(COUNTS.format(2, 0, 0, 0, 0, 0), printed[-1])

    def test_anew(self):
        self.assertEqual("ci low; --anew low", tried(came(low_weak="refused"), "--anew", "low")[2])

    def test_what_is_red(self):
        for what in ("STILL PROVED", "NOT AS IT SAYS: note", "does not apply: so"):
            status, printed, _, _ = tried(came(low_weak=what), "low")
            self.assertEqual((1, f"low/weak: {what}"), (status, printed[0]))

    def test_a_crate_that_is_not_proved(self):
        status, printed, _, _ = tried(["rt: low NOT PROVED"], "low")
        self.assertEqual(2, status)
        self.assertEqual(["low/weak: not tried: its crate isn't proved", COUNTS.format(0, 0, 0, 0, 0, 1)], printed[-2:])

    def test_a_clause_is_written_in(self):
        lines = came(middle_one=f"NAMES NO CLAUSE: {GOAL}", middle_two=f"refused: {GOAL}")
        _, _, _, left = tried(lines, "--name", "middle")
        self.assertEqual(f"edit: one\n{EDIT}\nedit: two\n{EDIT}", left)
        lines = came(middle_one="NAMES NO CLAUSE: note: the prover stopped", middle_two=f"refused: {GOAL}")
        self.assertEqual(FILES["crates/middle/edits.txt"], tried(lines, "--name", "middle")[3])

    def test_those_that_name_no_clause(self):
        status, printed, asked, _ = tried([], "--unnamed")
        self.assertEqual((1, ["middle/one", "1 edits name no clause"], ""), (status, printed, asked))
        self.assertEqual(0, tried([], "--unnamed", "low")[0])

    def test_what_is_not_there(self):
        for word in ("lowest", "other", "low/strong"):
            status, printed, _, _ = tried([], word)
            self.assertEqual(2, status)
            self.assertIn(f"there is no edit of {word}", printed[-1])

    def test_the_front_end_reads_the_crates_that_changed(self):
        seen = []

        def read(edits, prover):
            seen.append(edits[0].crate.name)
            return [(edits[0], ("NOT AS IT SAYS", "error[borrow]"))]

        with mock.patch.object(try_edits, "read_by_front_end", read), mock.patch.object(try_edits, "Prover"):
            with mock.patch.object(try_edits.checks, "over", return_value=[]):
                status, printed, asked, _ = tried([], "--front")
                self.assertEqual((1, ["middle", "low"], ""), (status, seen, asked))
                self.assertIn("low/weak: NOT AS IT SAYS: error[borrow]", printed)
                files = {**FILES, "dev/edits_tried.txt": f"low {self.sum_of_low()}\n"}
                for known, wanted in ((files, ["middle"]), (FILES, [])):
                    seen.clear()
                    tried([], "--front", "--changed", files=known)
                    self.assertEqual(wanted, seen)

    def sum_of_low(self):
        with repository(FILES) as room:
            return try_edits.turns.sum_of(room, "low")


class Edits(unittest.TestCase):
    """The edits of this repository."""

    def test_each_applies_changes_code_alone_and_names_functions_and_clauses_that_are_there(self):
        top = stored.TOOLS.parent
        crates = [try_edits.Crate(top / "crates" / name) for name in try_edits.turns.with_edits(top)]
        flaws = [(crate.name, edit.name, flaw) for crate in crates for edit in crate.edits() if (flaw := edit.flaw())]
        self.assertEqual([], flaws)


if __name__ == "__main__":
    unittest.main()
