"""`dev/gate` on a small crate, beside a stand-in for the kit."""
import contextlib
import io
import os
import re
import unittest
from pathlib import Path
from unittest import mock

from upkeep import turns
from tests import stored
from tests.rooms import kit, repository

gate = stored.tool("gate")
TOP = stored.TOOLS.parent
EDIT = "refused: lower ensures\nfile: src/lib.rt\nold: 1\nnew: 2\n"
NAMED = re.compile("refused: .").match
GOOD = ("keeps_the_whole", "goes_too_far", "raises_a_number")
PROVED = ["== low", "rt: low proved"]


def lines(came, last="1 passed, 0 failed"):
    """What the kit prints where the crate is proved and this came of its edits."""
    return [*PROVED, *(f"edit low/{name}: {what}" for name, what in came.items()), "seconds low edits 3.0 2.0", last]


def refused(*names):
    return dict.fromkeys(names, "refused: note: src/lib.rt:1:1")


def ended(names, printed, status=0, words=("--alone",), listed="", more=(), **environment):
    """The gate's lines, what the kit was called with and asked to try, and the file of crates whose edits were tried,
    beside a kit that prints these."""
    files = {"crates.txt": "# Words\nlow:\nother: low\n", "dev/wrong_bodies.txt": listed,
             "crates/low/src/lib.rt": "1",
             "crates/low/edits.txt": "".join(f"edit: {name}\n{EDIT}" for name in names), **dict(more)}
    out = io.StringIO()
    with repository(files) as room, mock.patch.object(gate, "TOP", room), mock.patch.dict(os.environ, environment):
        (room / "printed").write_text("".join(f"{line}\n" for line in printed))
        script = f'echo "$*; $VIQESHOR_EDITS" > {room}/asked; cat {room}/printed; exit {status}  # --anew'
        with kit(room, script), mock.patch("sys.argv", ["gate", *words]):
            with contextlib.redirect_stdout(out), contextlib.suppress(SystemExit):
                gate.main()
                raise AssertionError("it went on")
        asked = (room / "asked").read_text().strip() if (room / "asked").exists() else ""
        written = (room / turns.TRIED).read_text() if (room / turns.TRIED).exists() else None
    return out.getvalue().splitlines(), asked, written


class Gate(unittest.TestCase):
    def assert_red(self, printed, *whats):
        self.assertEqual(len(whats), len([line for line in printed if line.startswith("gate: ")]), printed)
        for what in whats:
            self.assertTrue(any(what in line for line in printed), (what, printed))
        return printed[-1]

    def test_edits_that_are_refused_count_as_passed(self):
        printed, asked, _ = ended(GOOD, lines(refused(*GOOD)), words=["--edits", "--alone"])
        self.assertEqual(("4 passed, 0 failed", "ci; --whole low"), (printed[-1], asked))
        self.assertTrue(any(line.startswith("low: 3 of 3 edits are refused as they say") for line in printed), printed)

    def test_those_that_are_not_count_as_failed(self):
        came = {"keeps_the_whole": "STILL PROVED", "goes_too_far": "NOT AS IT SAYS: note: src/lib.rt:2:2: other",
                **refused("raises_a_number")}
        last = self.assert_red(ended(GOOD, lines(came), words=["--edits", "--alone"])[0],
                               "low/keeps_the_whole: STILL PROVED", "low/goes_too_far: NOT AS IT SAYS: note: src/lib")
        self.assertEqual("2 passed, 2 failed", last)

    def test_one_that_names_no_clause_is_red(self):
        came = {**refused(*GOOD), "keeps_the_whole": "NAMES NO CLAUSE: note"}
        self.assertEqual("3 passed, 1 failed", ended(GOOD, lines(came), words=["--edits", "--alone"])[0][-1])

    def test_one_that_was_not_tried(self):
        last = self.assert_red(ended(GOOD, lines(refused(*GOOD[1:])), words=["--edits", "--alone"])[0],
                               "low/keeps_the_whole: it wasn't tried")
        self.assertEqual("3 passed, 1 failed", last)

    def test_a_crate_that_is_not_proved(self):
        printed, _, _ = ended(GOOD, ["rt: low NOT PROVED", "0 passed, 1 failed"], 1, words=["--edits", "--alone"])
        self.assertEqual("0 passed, 1 failed", printed[-1])

    def test_a_kit_that_ends_badly(self):
        whole = lines(refused(*GOOD))
        for printed, last in ((whole, "4 passed, 1 failed"), (whole[:-1], "3 passed, 1 failed")):
            self.assertEqual(last, ended(GOOD, printed, 137, words=["--edits", "--alone"])[0][-1])

    def test_a_wrong_body_of_the_list_without_its_edit(self):
        listed = "# wrong bodies\nlow/keeps_the_whole  halves nothing\nlow/sends_nothing  nothing is sent\n"
        self.assert_red(ended(GOOD, lines(refused(*GOOD)), listed=listed, words=["low"])[0],
                        "low/sends_nothing: it isn't there, and is to be: nothing is sent")

    def test_what_is_run_once_a_crate_is_proved(self):
        once = ["once low is proved, A=b tools/c: ok", "once low is proved, tools/d: RED", "what it printed"]
        printed, _, _ = ended(GOOD, [*once, *lines(refused(*GOOD))], words=["--edits", "--alone"])
        self.assertEqual("5 passed, 1 failed", self.assert_red(printed, "gate: tools/d: it is red"))
        self.assertIn("what it printed", printed)

    def test_of_crates_that_are_named(self):
        printed, asked, _ = ended(GOOD, lines(refused(*GOOD), "1 passed, 0 failed (low alone)"), words=["low"])
        self.assertEqual(("4 passed, 0 failed (low alone)", "ci low; low"), (printed[-1], asked))
        self.assertEqual("ci other;", ended(GOOD, PROVED, words=["other"])[1])

    def test_nothing_is_taken_where_all_is_to_be_tried_anew(self):
        self.assertEqual("ci --anew low; --anew low", ended(GOOD, lines(refused(*GOOD)), words=["--anew", "low"])[1])

    def test_what_is_printed_goes_to_a_file(self):
        with repository({"crates.txt": "low:\n", "dev/wrong_bodies.txt": ""}) as room:
            script = "; ".join(f"echo '{line}'" for line in [*PROVED, "1 passed, 0 failed"]) + "; echo 'rt: so' >&2"
            with mock.patch.object(gate, "TOP", room), kit(room, script), contextlib.redirect_stdout(io.StringIO()):
                (room / "out").mkdir()
                gate.run([], [], gate.Told(["low"]))
            printed = (room / "out/gate.log").read_text().splitlines()
        self.assertEqual([*PROVED, "1 passed, 0 failed", "rt: so"], printed)


class Turns(unittest.TestCase):
    """Whose edits are tried."""

    def test_those_that_were_tried_are_noted_where_nothing_failed(self):
        whole = lines(refused(*GOOD))
        self.assertRegex(ended(GOOD, whole, words=["--edits", "--alone"])[2], r"\nlow [0-9a-f]{16}\n$")
        self.assertIsNone(ended(GOOD, whole, 1, words=["--edits", "--alone"])[2])
        self.assertIsNone(ended(GOOD, whole, words=["--edits", "low"])[2])

    def test_a_run_of_some_notes_these_and_leaves_the_others(self):
        high = {"crates.txt": "low:\nhigh: low\n", "crates/high/edits.txt": f"edit: a\n{EDIT}",
                "crates/high/src/lib.rt": "1", "dev/wrong_bodies.txt": ""}
        for known, asked in (("low 0123456789abcdef\nhigh {}\n", "low"), ("low {}\nhigh 0123456789abcdef\n", "high")):
            with repository({**high, "crates/low/edits.txt": f"edit: a\n{EDIT}", "crates/low/src/lib.rt": "1"}) as room:
                sums = {name: turns.sum_of(room, name) for name in ("low", "high")}
                (other,) = {"low", "high"} - {asked}
                (room / turns.TRIED).write_text(known.format(sums[other]))
                self.assertEqual([asked], turns.changed(room))
                turns.write(room, [asked])
                self.assertEqual(sums, turns.tried_at(room))
                self.assertEqual([], turns.changed(room))

    def test_a_crate_that_changed_is_tried(self):
        with repository({"crates.txt": "low:\n", "crates/low/edits.txt": f"edit: a\n{EDIT}",
                         "crates/low/src/lib.rt": "// one\n1\n"}) as room:
            known = turns.sum_of(room, "low")
            (room / "crates/low/src/lib.rt").write_text("1\n\n    // two\n")
            self.assertEqual(known, turns.sum_of(room, "low"))
        for text, asked in ((f"low {known}\n", ""), ("low 0123456789abcdef\n", "low")):
            more = {str(turns.TRIED): text, "crates/low/edits.txt": f"edit: a\n{EDIT}"}
            with mock.patch.object(turns, "in_turn", return_value=[]):
                printed, came, _ = ended(["a"], lines(refused("a") if asked else {}), more=more)
            self.assertEqual((f"ci; --whole {asked}".rstrip(), "1 passed" if not asked else "2 passed"),
                             (came, printed[-1].partition(",")[0]))

    def test_where_no_run_of_all_is_known_it_says_so(self):
        with mock.patch.object(turns, "now", return_value=0):
            printed, _, _ = ended(GOOD, lines({}))
        self.assertIn("of no run it is known that it tried edits", printed[0])

    def test_each_crate_has_its_turn(self):
        files = {f"crates/c{number}/edits.txt": "".join(f"edit: e{it}\n" for it in range(number + 1))
                 for number in range(9)}
        with repository(files) as room:
            names = [f"c{number}" for number in range(9)]
            parts = [turns.in_turn(room, names, turn) for turn in range(turns.TURNS)]
        self.assertEqual(names, sorted(name for part in parts for name in part))
        self.assertEqual({9}, {sum(int(name[1]) + 1 for name in part) for part in parts})


class Beside(unittest.TestCase):
    """The quick tier beside it."""

    def ended(self, script):
        more = {"dev/try_all": f"#!/bin/sh\n{script}\n"}

        def executable(words, *_, **how):
            for path in (Path(it) for it in words if str(it).endswith("/try_all")):
                path.chmod(0o755)
            return mock.DEFAULT

        with mock.patch.object(gate.subprocess, "Popen", wraps=gate.subprocess.Popen, side_effect=executable):
            return ended(GOOD, lines(refused(*GOOD)), words=["--edits"], more=more)[0]

    def test_its_checks_count(self):
        self.assertEqual("11 passed, 0 failed", self.ended("echo '7 passed, 0 failed'")[-1])

    def test_it_is_told_what_is_red(self):
        printed = self.ended("echo 'RED lint: dev/lint'; echo '6 passed, 1 failed'; exit 1")
        self.assertIn("RED lint: dev/lint", printed)
        self.assertEqual("10 passed, 1 failed", printed[-1])

    def test_one_that_ends_without_its_counts(self):
        self.assertEqual("4 passed, 1 failed", self.ended("exit 0")[-1])


class Limit(unittest.TestCase):
    def test_it_ends_before_the_time_is_over(self):
        with mock.patch.object(gate, "BEFORE_THE_END", 60):
            printed, _, _ = ended(GOOD, [*PROVED, "rt: waits"], "$(sleep 30 2> /dev/null)",
                                  words=["--edits", "--alone"], TEST_MINUTES="1.1")
        self.assertTrue(any("of TEST_MINUTES left" in line for line in printed), printed)
        self.assertEqual(["gate: the time is over (TEST_MINUTES=1.1); not done: other, edits of low",
                          "0 passed, 1 failed"], printed[-2:])


class List(unittest.TestCase):
    """The edits of this repository."""

    def test_the_wrong_bodies_of_the_list_are_there(self):
        self.assertEqual([], gate.missing(TOP))

    def test_each_edit_names_a_clause(self):
        texts = {f"{name}/{edit}": its for name in turns.with_edits(TOP)
                 for edit, its in gate.texts_of(TOP / "crates" / name).items()}
        self.assertEqual([], [edit for edit, its in texts.items() if not any(map(NAMED, its))])


if __name__ == "__main__":
    unittest.main()
