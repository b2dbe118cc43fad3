"""The kit's questions that are answered once in each call, over crates that stand on one another in many ways."""
import hashlib
import unittest
from unittest import mock

from upkeep import quick
from tests.rooms import kit, repository


def sum_of(text):
    return hashlib.sha256(text.encode()).hexdigest()


class Crate:
    """A crate as the kit has it: each question goes down each path."""

    asked = 0

    def __init__(self, folder, *deps):
        self.folder, self.deps, self.text = folder, deps, folder

    def below(self):
        Crate.asked += 1
        found = []
        for dep in self.deps:
            found += [it for it in [*dep.below(), dep] if it not in found]
        return found

    def stamp(self):
        Crate.asked += 1
        return sum_of(f"{self.text}({' '.join(dep.stamp() for dep in self.deps)})")


class Quick(Crate):
    below, stamp = (quick.once_in_a_call(getattr(Crate, name)) for name in quick.QUESTIONS)


def chain(made, length):
    """Crates each of which stands on all below it."""
    crates = []
    for number in range(length):
        crates.append(made(f"c{number}", *crates))
    return crates


class Questions(unittest.TestCase):
    def test_the_answers_are_those_of_the_kit(self):
        for one, other in zip(chain(Crate, 8), chain(Quick, 8)):
            self.assertEqual([it.folder for it in one.below()], [it.folder for it in other.below()])
            self.assertEqual(one.stamp(), other.stamp())

    def test_each_crate_is_asked_once_in_a_call(self):
        top = chain(Quick, 30)[-1]
        for ask in (top.below, top.stamp, top.stamp):
            Crate.asked = 0
            ask()
            self.assertEqual(30, Crate.asked)

    def test_what_changes_between_calls_is_seen(self):
        crates = chain(Quick, 4)
        before = crates[-1].stamp()
        crates[0].text = "other"
        self.assertNotEqual(before, crates[-1].stamp())
        crates[0].text = "c0"
        self.assertEqual(before, crates[-1].stamp())

    def test_a_question_that_fails_leaves_nothing(self):
        low, high = chain(Quick, 2)
        with mock.patch.object(low, "text", mock.Mock(__format__=mock.Mock(side_effect=OSError))):
            self.assertRaises(OSError, high.stamp)
        self.assertEqual(sum_of(f"c1({sum_of('c0()')})"), high.stamp())


class Command(unittest.TestCase):
    KIT = ("#!/usr/bin/env python3\nimport sys\nsys.path.insert(0, {folder!r})\nimport rtlib\n"
           "def main(words):\n    return rtlib.Crate().stamp() if words == ['ci'] else 2\n")

    def test_the_command_is_taken_with_quick_answers(self):
        library = "class Crate:\n    folder = 'here'\n\n    def stamp(self):\n        return 7\n"
        with repository({"bin/rtlib.py": library}) as room:
            with kit(room, ""):
                (room / "bin" / "rt").write_text(self.KIT.format(folder=str(room / "bin")))
                made = quick.loaded()
        self.assertTrue(hasattr(made.rtlib.Crate.stamp, "__wrapped__"))
        self.assertEqual(7, made.main(["ci"]))

    def test_another_command_is_run_as_it_is(self):
        with repository({}) as room, kit(room, "exit 0"):
            self.assertIsNone(quick.loaded())
            with mock.patch.object(quick.os, "execvp", side_effect=SystemExit(5)) as run:
                self.assertRaises(SystemExit, quick.main, ["ci", "low"])
        self.assertEqual(("rt", ["rt", "ci", "low"]), run.call_args.args)
