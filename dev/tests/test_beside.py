"""What the gate does in the kit's lanes: a clock, edits, and the store of those that were refused."""
import contextlib
import io
import os
import subprocess
import sys
import types
import unittest
from unittest import mock

from upkeep import beside
from tests.rooms import repository

EDIT = "refused: number same\nfile: src/lib.rt\nold: 1\nnew: 2\n"
FILES = {
    "crates.txt": "low: std\nhigh: low\n", "kit/KIT-ID": "a kit", "kit/WHAT": "of parts",
    "crates/low/out/rlib/low.rlib/format": "sums", "crates/low/src/lib.rt": "1\n",
    "crates/high/src/lib.rt": "1\n", "crates/high/specs/Lib.antt": "one\n",
    "crates/high/edits.txt": f"edit: a\n{EDIT}\nedit: b\n{EDIT}",
}


@contextlib.contextmanager
def room_of(files=FILES):
    """A repository with a store of its own."""
    with repository(files) as room, mock.patch.object(beside.kit, "kit", return_value=room / "kit"):
        with mock.patch.dict(os.environ, {"XDG_CACHE_HOME": str(room / "cache")}):
            yield room


class Store(unittest.TestCase):
    def tried(self, room, answers, anew=False):
        """What comes of the edits where the prover answers these, and of which it was asked."""
        edits, asked = beside.Crate(room / "crates/high").edits(), []

        def all_tried(edits, _):
            asked.extend(edit.name for edit in edits)
            yield from ((edit, answers[edit.name]) for edit in edits)

        with mock.patch.object(beside, "all_tried", all_tried), mock.patch.object(beside, "Prover"):
            came = {edit.name: answer for edit, answer in beside.tried(room, edits, (), anew)}
        return came, asked

    def test_what_was_refused_is_not_tried_again(self):
        answers = {"a": ("refused", "note"), "b": ("STILL PROVED", "")}
        with room_of() as room:
            self.assertEqual((answers, ["a", "b"]), self.tried(room, answers))
            self.assertEqual((answers, ["b"]), self.tried(room, answers))
            self.assertEqual((answers, ["a", "b"]), self.tried(room, answers, anew=True))
            edits = room / "crates/high/edits.txt"
            edits.write_text(edits.read_text().replace("new: 2", "new: 3", 1))
            self.assertEqual((answers, ["a", "b"]), self.tried(room, answers))

    def test_each_thing_that_a_verdict_stands_on_counts(self):
        answers = {"a": ("refused", "note"), "b": ("refused", "note")}
        for name in ("kit/KIT-ID", "kit/WHAT", "crates/low/out/rlib/low.rlib/format", "crates/high/src/lib.rt",
                     "crates/high/specs/Lib.antt"):
            with room_of() as room:
                self.tried(room, answers)
                self.assertEqual([], self.tried(room, answers)[1])
                (room / name).write_text("other")
                self.assertEqual(["a", "b"], self.tried(room, answers)[1], name)

    def test_it_holds_a_number_of_states_and_none_but_the_user_reads_it(self):
        with room_of() as room, mock.patch.object(beside, "MOST_KEPT", 2):
            for number in range(4):
                (room / "kit/WHAT").write_text(str(number))
                self.tried(room, {"a": ("refused", ""), "b": ("refused", "")})
            folder = beside.Store(room, "high").folder
            self.assertEqual((2, 0o700), (len(list(folder.iterdir())), folder.stat().st_mode & 0o777))

    def test_a_crate_whose_files_cannot_be_read_is_not_tried(self):
        with room_of() as room:
            edits = beside.Crate(room / "crates/high").edits()
            with mock.patch.object(beside, "tried", side_effect=OSError("no room")):
                self.assertEqual(["edit high/a: not tried: no room", "edit high/b: not tried: no room"],
                                 beside.lines_on(room, edits, (), False))


class Lanes(unittest.TestCase):
    def ran(self, asked, results):
        """What is printed, and what the edits waited for, where the kit's tasks give these results."""
        out, waited = io.StringIO(), {}

        def in_lanes(tasks):
            given = {}
            for key, (waits, _, _, call) in tasks.items():
                waited[key] = waits
                given[key] = call(given, 1)
            return given

        library = types.SimpleNamespace(guarded=lambda: ["guard"])
        made = types.SimpleNamespace(in_lanes=in_lanes, OVER=0.7, rtlib=library)
        tasks = {("high", task): ([], 3, 4, lambda *_, task=task: results[task]) for task in ("proof", "tests")}
        with room_of() as room, mock.patch.dict(os.environ, {beside.ASKED: asked}), contextlib.chdir(room):
            with mock.patch.object(subprocess, "Popen"), contextlib.redirect_stdout(out):
                came = mock.Mock(side_effect=lambda _, edits, *more: ((it, ("refused", "so")) for it in edits))
                with mock.patch.object(beside, "tried", came):
                    beside.added(made, False)
                    made.in_lanes(tasks)
        return out.getvalue(), waited

    def test_edits_follow_the_proof_of_their_crate(self):
        printed, waited = self.ran("high", {"proof": True, "tests": True})
        self.assertEqual([("high", "proof"), ("high", "tests")], waited["high", "edits", "together"])
        self.assertRegex(printed, r"(?s)seconds high proof \d+\.\d 0\.0\n.*edit high/a: refused: so\n"
                                  r"edit high/b: refused: so\nseconds high edits \d+\.\d 0\.0\n$")

    def test_what_is_run_once_a_crate_is_proved(self):
        results = {"proof": True, "tests": True}
        once = {"high": [({"SAID": "so"}, "sh -c exit"), ({}, "false now")]}
        with mock.patch.dict(beside.ONCE_PROVED, once):
            ran = mock.patch.object(beside.checks, "ran", side_effect=[(0, []), (1, ["it", "failed"])])
            with ran as asked:
                printed, _ = self.ran("--whole", results)
            self.assertIn("once high is proved, SAID=so sh -c exit: ok\n", printed)
            self.assertIn("once high is proved, false now: RED\nit\nfailed\n", printed)
            self.assertEqual(["guard", "env", "SAID=so", "sh", "-c", "exit"], asked.call_args_list[0].args[0])
            self.assertNotIn("once", self.ran("high", results)[0])

    def test_one_edit_alone(self):
        self.assertNotIn("high/a", self.ran("high/b", {"proof": True, "tests": True})[0])

    def test_none_is_tried_where_the_crate_is_not_proved_or_none_is_asked_for(self):
        for asked, is_proved in (("high", False), ("low other", True)):
            self.assertNotIn("edit ", self.ran(asked, {"proof": is_proved, "tests": True})[0])


class Clock(unittest.TestCase):
    def test_the_processor_seconds_of_a_task_are_those_of_what_it_began(self):
        with repository({"crates/low/a": "", "tries/low/a": ""}) as room, mock.patch.object(beside.Counted, "used", {}):
            for folder, words in (("crates/low", []), ("crates/low", ["--test"]), ("tries/low", [])):
                work = "import time\nwhile time.process_time() < 0.2: pass"
                beside.Counted([sys.executable, "-c", work, *words], cwd=room / folder).wait()
            used = beside.Counted.used
        self.assertEqual({("low", "proof"), ("low", "tests"), ("low", "edits")}, set(used))
        self.assertTrue(all(it >= 0.2 for it in used.values()), used)


if __name__ == "__main__":
    unittest.main()
