"""`tools/viq`: each command is its tool's, a run is told in words or as the program prints it, and a release's own
builds are those that play."""
import os
import shutil
import subprocess
import sys
import tempfile
import unittest
from pathlib import Path

from pimtext.build import library
from pimtext.files import pimlab
from viqeshor.lab import written
from pimtext.called import CUT_OFF
from tests import stored

TOP = Path(__file__).resolve().parent.parent.parent
VIQ = TOP / "tools" / "viq"
EXAMPLE = TOP / "examples" / "shared_to_source_tree.toml"
viq = stored.tool("viq")


def called(*words, program=VIQ, text="", **environment):
    """The status of a call, and what it prints on both outputs."""
    ran = subprocess.run([sys.executable, program, *words], input=text, capture_output=True, text=True,
                         env=os.environ | environment)
    return ran.returncode, ran.stdout, ran.stderr


class Commands(unittest.TestCase):
    def test_each_command_is_listed_and_has_help_in_its_own_name(self):
        status, told, _ = called("--help")
        self.assertEqual(status, 0)
        for name in viq.COMMANDS:
            with self.subTest(name):
                self.assertIn(f"\n    {name} ", told)
        for name in ("run", "check", "why", "from-frr"):
            with self.subTest(name):
                status, helped, _ = called(name, "--help")
                self.assertEqual(status, 0)
                self.assertTrue(helped.startswith(f"usage: viq {name} "), helped[:80])
                self.assertNotIn("tools/", helped)

    def test_no_command_and_one_that_is_not_there(self):
        self.assertEqual(called()[0], 2)
        status, told, said = called("mtraec")
        self.assertEqual((status, told), (2, ""))
        self.assertIn("is mtrace meant?", said)

    def test_a_command_is_its_tool(self):
        for command, tool, words in (("why", "why", [EXAMPLE, "--run"]), ("check", "why", [EXAMPLE]),
                                     ("mroute", "mroute", [EXAMPLE, "--json"]), ("draw", "draw", [EXAMPLE])):
            with self.subTest(command):
                self.assertEqual(called(command, *words), called(*words, program=TOP / "tools" / tool))

    def test_the_version_says_whether_the_router_is_proved(self):
        said = f"viq {library.VERSION}: the router that plays is not proved\n"
        self.assertEqual(called("--version", PIMLAB_BUILD="unproved"), (0, said, ""))

    @unittest.skipUnless(shutil.which("bash"), "bash isn't installed")
    def test_the_completion_offers_each_command(self):
        script = '. "$1"; COMP_WORDS=(viq ""); COMP_CWORD=1; _viq; printf "%s\\n" "${COMPREPLY[@]}"'
        ran = subprocess.run(["bash", "-c", script, "bash", f"{VIQ}.bash"], capture_output=True, text=True)
        self.assertEqual(set(ran.stdout.split()), {*viq.COMMANDS, "--help", "--version"})


class Runs(unittest.TestCase):
    def test_a_run_as_the_program_prints_it(self):
        text = EXAMPLE.read_text()
        lines = EXAMPLE.with_suffix(".out").read_text()
        self.assertEqual(called("run", EXAMPLE, "--lines", "--tables"), (0, lines, ""))
        self.assertEqual(called("run", "-", "--lines", "--tables", text=text), (0, lines, ""))

    def test_a_run_in_words(self):
        show, lines = stored.tool("show"), EXAMPLE.with_suffix(".out").read_text().splitlines()
        for words, text, read in (([EXAMPLE], "", pimlab.read(EXAMPLE)), (["-"], EXAMPLE.read_text(), None)):
            wanted = "".join(f"{line}\n" for line in show.shown(lines, read))
            self.assertEqual(called("run", *words, "--tables", text=text), (0, wanted, ""))

    def test_a_run_of_words_or_of_a_network_is_that_of_the_scenario_that_they_make(self):
        words = Path(self.enterContext(tempfile.TemporaryDirectory(prefix="viq-"))) / "words.toml"
        words.write_text(written.worded(EXAMPLE.read_text()))
        self.assertRegex(words.read_text(), written.KEY)
        lines = EXAMPLE.with_suffix(".out").read_text()
        self.assertEqual(called("run", words, "--lines", "--tables"), (0, lines, ""))
        self.assertEqual(called("run", words, "--tables"), called("run", EXAMPLE, "--tables"))
        network = TOP / "tools" / "networks" / "examples" / "three_in_a_line.py"
        lines = "".join(f"{line}\n" for line in pimlab.run_file(network))
        self.assertEqual(called("run", network, "--lines", "--tables"), (0, lines, ""))

    def test_a_run_that_is_refused_has_the_programs_status_and_line(self):
        path = stored.DATA / "config_2.toml"
        wanted, line = path.with_suffix(".err").read_text().splitlines()
        status, told, said = called("run", path)
        self.assertEqual((str(status), told), (wanted, ""))
        self.assertEqual(said, f"{line}\nviq: `viq check {path}` says what is wrong with the scenario\n")

    def test_a_reader_that_ends_early_is_told_nothing(self):
        """The status is that of a closed pipe, unless all was written before."""
        script = f'"{sys.executable}" "{VIQ}" run "{EXAMPLE}" | head -1; echo "${{PIPESTATUS[0]}}"'
        ran = subprocess.run(["bash", "-c", script], capture_output=True, text=True)
        self.assertEqual(ran.stderr, "")
        self.assertIn(ran.stdout.splitlines()[1:], (["0"], [str(CUT_OFF)]))


class Release(unittest.TestCase):
    def setUp(self):
        room = Path(self.enterContext(tempfile.TemporaryDirectory(prefix="viq-")))
        self.top = room / "release"
        ignored = shutil.ignore_patterns("__pycache__", "tests")
        shutil.copytree(TOP / "tools", self.top / "tools", ignore=ignored)
        for folder in ("include", "bindings/python/src"):
            shutil.copytree(TOP / folder, self.top / folder, ignore=ignored)
        (self.top / "bin").mkdir()
        (self.top / "bin" / "pimlab").write_text('#!/bin/sh\necho "own $*"\n')
        (self.top / "bin" / "pimlab").chmod(0o755)

    def test_its_own_program_plays_and_it_says_how_it_was_built(self):
        (self.top / "bin" / "viq").symlink_to("../tools/viq")
        for how in ("proved", "not proved"):
            (self.top / "RELEASE").write_text(f"{how}: by this and that\n")
            said = called("--version", program=self.top / "bin" / "viq")[1]
            self.assertEqual(said, f"viq {library.VERSION}: the router that plays is {how}\n")
        played = called("run", "a.toml", "--lines", program=self.top / "bin" / "viq")
        self.assertEqual(played, (0, "own run a.toml --wire memory\n", ""))


if __name__ == "__main__":
    unittest.main()
