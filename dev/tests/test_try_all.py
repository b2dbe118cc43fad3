"""`dev/try_all`: how parts run, what is said of them, and that all that there is has a part."""
import contextlib
import io
import os
import sys
import unittest
from unittest import mock

from upkeep import installed, parts
from tests import stored

try_all = stored.tool("try_all")
TOP = stored.TOOLS.parent


def part(name, code, alone=True, after=parts.BUILD):
    """A part that runs some Python."""
    return parts.Part(name, (sys.executable, "-c", code), alone=alone, after=after)


class Run(unittest.TestCase):
    def ran(self, *made, jobs=1, goes_on=False):
        """The status, and the lines without seconds."""
        words = ["try_all", "--jobs", str(jobs), *(["--all"] if goes_on else [])]
        said = io.StringIO()
        with (mock.patch.object(try_all, "parts", lambda: list(made)), mock.patch.object(sys, "argv", words),
                contextlib.redirect_stdout(said)):
            status = try_all.main()
        return status, [line.partition(" s, CPU")[0].rstrip("0123456789") for line in said.getvalue().splitlines()]

    def test_all_is_green(self):
        status, lines = self.ran(part(try_all.BUILD, ""), part("one", "print('Ran 3 tests in 0.1s')", alone=False))
        self.assertEqual((status, lines), (0, ["ok build: ", "ok one: 3 tests, ", "", "4 passed, 0 failed"]))

    def test_after_a_red_part_no_other_begins(self):
        red = part("one", "print('why'); raise SystemExit(2)")
        status, lines = self.ran(red, part("two", ""), part("three", ""))
        self.assertEqual((status, lines[0], lines[1].strip()), (1, "RED one: ", "why"))
        self.assertIn("alone: dev/try_all one", lines[2])
        self.assertEqual((lines[3], lines[-1]), ("not begun: two, three", "0 passed, 1 failed"))

    def test_all_goes_on(self):
        status, lines = self.ran(part("one", "raise SystemExit(2)"), part("two", ""), goes_on=True)
        self.assertEqual((status, lines[-1]), (1, "1 passed, 1 failed"))
        self.assertIn("ok two: ", lines)

    def test_a_part_waits_for_the_build(self):
        waits = "import pathlib, sys; sys.exit(not pathlib.Path(%r).exists())"
        mark = try_all.LOGS / "mark"
        mark.unlink(missing_ok=True)
        build = part(try_all.BUILD, f"import pathlib, time; time.sleep(0.3); pathlib.Path({str(mark)!r}).touch()")
        status, lines = self.ran(part("one", waits % str(mark), alone=False), build, jobs=2)
        self.assertEqual((status, lines[-1]), (0, "2 passed, 0 failed"))

    def test_a_part_waits_for_the_router(self):
        made = part(try_all.BUILD, ""), part(try_all.ROUTER, "import time; time.sleep(0.3)", alone=False)
        status, lines = self.ran(part("one", "", alone=False, after=try_all.ROUTER), *made, jobs=2)
        self.assertEqual((status, lines[:3]), (0, ["ok build: ", "ok router: ", "ok one: "]))

    def test_a_part_that_is_named_has_those_for_which_it_waits(self):
        every = {each.name: each for each in parts.parts()}
        both = ["build", "router"]
        for name, wanted in {"lint": [], "test_lab": ["build"], "router": ["build"], "test_from_frr": both}.items():
            self.assertEqual([each.name for each in try_all.chosen([name], every)], [*wanted, name])
        self.assertEqual([each.name for each in try_all.chosen(["linux", "build"], every)], [*both, "linux"])

    def test_what_is_not_there(self):
        status, lines = self.ran(parts.Part("one", ("no_such_program",), alone=True))
        self.assertEqual((status, lines[-1]), (1, "0 passed, 1 failed"))
        self.assertIn("no_such_program: No such file or directory", lines[1])

    def test_what_takes_too_long_is_ended(self):
        with mock.patch.object(try_all, "SECONDS", 0.2):
            status, lines = self.ran(part("one", "import time; time.sleep(60)"))
        self.assertEqual((status, lines[-1]), (1, "0 passed, 1 failed"))
        self.assertIn("it was ended after 0.2 s", "".join(lines))


class Table(unittest.TestCase):
    def setUp(self):
        self.parts = parts.parts()
        self.said = "\n".join(try_all.in_words(part) for part in self.parts)

    def test_names_are_apart(self):
        names = [part.name for part in self.parts]
        self.assertEqual(len(names), len(set(names)))

    def test_each_test_of_the_tools_is_a_part(self):
        for path in TOP.glob("*/tests/test_*.py"):
            self.assertIn(f"`dev/try_tools {path.stem.removeprefix('test_')}`", self.said)

    def test_all_of_torture_is_a_part(self):
        """What writes scenarios has a test."""
        for name in stored.tool("run").NAMES:
            self.assertIn("`dev/try_tools hostile`" if name == "hostile" else f"`torture/run {name} ", self.said)

    def test_the_router_is_built_by_the_oldest_rust_there_is(self):
        first = {part.name: part.environment()["PATH"].split(os.pathsep)[0] for part in self.parts}
        self.assertEqual({first[name] for name in (parts.ROUTER, "linux")}, {"/usr/bin"})

    def test_each_program_of_rust_is_tested(self):
        for manifest in TOP.glob("*/**/Cargo.toml"):
            folder = manifest.parent.relative_to(TOP)
            if "out" not in folder.parts and "target" not in folder.parts:
                for command in ("clippy", "fmt"):
                    self.assertRegex(self.said, f"`cargo {command} .*` in {folder}\n?")

    def test_what_a_part_names_is_there(self):
        for part in self.parts:
            if part.words[0] == sys.executable:
                self.assertTrue((TOP / part.folder / part.words[1]).exists(), part)

    def test_packages_are_known(self):
        names = installed.packages()
        self.assertEqual(names, sorted(set(names)))
        for name in set(names) - set(installed.GIVES):
            self.assertRegex(name, "^librust-.*-dev$")
        self.assertLessEqual(set(installed.GIVES), set(names))

    def test_a_package_that_is_not_there(self):
        self.assertFalse(installed.is_there("librust-no-such-crate-dev"))
        with mock.patch.dict(installed.GIVES, {"none": "no_such_program"}):
            self.assertFalse(installed.is_there("none"))

    def test_an_old_rust(self):
        self.assertTrue(installed.is_old("rustc 1.63.0"))
        self.assertFalse(installed.is_old("rustc 1.85.0 (4d91de4e4 2025-02-17)"))


if __name__ == "__main__":
    unittest.main()
