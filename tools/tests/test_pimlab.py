"""`./pimlab`: the stored scenarios print their lines, and its words, streams and status are the program's."""
import os
import shutil
import subprocess
import sys
import tempfile
import unittest
from concurrent.futures import ThreadPoolExecutor
from pathlib import Path

from pimtext.files.pimlab import PIMLAB, playing
from tests import stored

ONE_JOIN = stored.EXAMPLES / "one_join.toml"


def ran(*words, **how):
    """A command's status and what it printed."""
    done = subprocess.run(words, stdout=subprocess.PIPE, stderr=subprocess.PIPE, **how)
    return done.returncode, done.stdout, done.stderr


def called(*words, **how):
    """The same of `./pimlab` with these words."""
    return ran(sys.executable, PIMLAB, *words, **how)


def printed(path):
    """The same of a stored scenario, by the program that `./pimlab` would become, and what is stored of it."""
    out, err = path.with_suffix(".out"), path.with_suffix(".err")
    lines = out.read_bytes() if out.exists() else b""
    tables = ["--tables"] if b"\nrouter " in lines else []
    status, _, told = err.read_bytes().partition(b"\n") if err.exists() else (b"0", b"", b"")
    return ran(playing(), "run", path, *tables), (int(status), lines, told)


def counted_anew(line, moves, frames):
    """A line of a run that begins so many moves and frames later."""
    kind, number, *rest = line.split(b" ", 2)
    later = {b"move": moves, b"frame": frames}.get(kind)
    return line if later is None else b" ".join([kind, b"%d" % (int(number) - later), *rest])


class Stored(unittest.TestCase):
    def test_stored_scenarios_print_their_lines(self):
        paths = sorted(stored.DATA.glob("*.toml"))
        # It may be built first.
        playing()
        with ThreadPoolExecutor(2) as pool:
            for path, (said, wanted) in zip(paths, pool.map(printed, paths)):
                with self.subTest(path.name):
                    self.assertEqual(said, wanted)


class Called(unittest.TestCase):
    def test_a_file_by_its_name_in_a_folder(self):
        self.assertEqual(called("check", ONE_JOIN.name, cwd=stored.EXAMPLES), (0, b"ok\n", b""))

    def test_version(self):
        status, said, _ = called("--version")
        self.assertEqual(status, 0)
        self.assertRegex(said.decode(), r"\Apimlab \d+\.\d+\.\d+, (not )?proved\n\Z")

    def test_standard_input(self):
        self.assertEqual(called("check", "-", input=ONE_JOIN.read_bytes()), (0, b"ok\n", b""))

    def test_a_file_that_is_not_there_goes_by_the_name_given(self):
        self.assertEqual(called("run", "not\nthere"), (2, b"", b"pimlab: cannot read not\nthere\n"))

    def test_words_that_are_refused(self):
        self.assertEqual(called(), (2, b"", b"pimlab: command line refused\n"))
        self.assertEqual(called("run", ONE_JOIN, "--wire", "none"), (2, b"", b"pimlab: command line refused\n"))

    def test_a_word_that_is_not_utf_8(self):
        for words in [(b"run", b"\xff"), (b"\xc3",), (b"run", b"--wire", b"\xff\xfe", b"one_join.toml")]:
            self.assertEqual(called(*words), (2, b"", b"pimlab: command line refused\n"))

    def test_help(self):
        status, out, err = called("--help")
        self.assertEqual((status, err), (0, b""))
        self.assertIn(b"Usage: pimlab <COMMAND>", out)

    def test_a_line_that_cannot_be_written(self):
        with open("/dev/full", "wb") as full:
            done = subprocess.run([sys.executable, PIMLAB, "check", ONE_JOIN], stdout=full, stderr=subprocess.PIPE)
        self.assertEqual((done.returncode, done.stderr), (3, b"pimlab: wire fault\n"))

    def test_a_saved_state_goes_on(self):
        """A run that is cut in two, its second part begun in the state saved after the first, ends as the whole run."""
        text = (stored.DATA / "to_the_shortest_path_tree.toml").read_text()
        head, *moves = text.split("[[move]]")
        parts = [head + "".join("[[move]]" + move for move in part) for part in (moves, moves[:8], moves[8:])]
        with tempfile.TemporaryDirectory() as room:
            whole, first, last = (f"{room}/{name}" for name in ("whole", "first", "last"))
            _, lines, _ = called("run", "-", "--save", f"r={whole}", input=parts[0].encode())
            called("run", "-", "--save", f"r={first}", input=parts[1].encode())
            said = called("run", "-", "--from", f"r={first}", "--save", f"r={last}", input=parts[2].encode())
            # The packet and the move are counted anew.
            wanted = lines[lines.index(b"move 9 "):].replace(b"move 9 ", b"move 1 ").replace(b"copy 10 ", b"copy 1 ")
            self.assertEqual(said, (0, wanted, b""))
            self.assertEqual(Path(last).read_bytes(), Path(whole).read_bytes())
            self.assertNotEqual(Path(first).read_bytes(), Path(whole).read_bytes())

    def test_what_a_listener_knows_goes_on(self):
        """The same of a router that learned RPs: the second part, without its listener's setting, is begun where a
        fragment of a message waits for the other, and a message of a less preferred BSR comes."""
        text = (stored.DATA / "bsr_over_a_restart.toml").read_text()
        before, after = (stored.DATA / "bsr_over_a_restart.out").read_bytes().split(b"move 9 r1 done\n")
        head, moves = text[:text.index("move = [")], text[text.index("move = ["):].splitlines(keepends=True)
        starts = [at for at, line in enumerate(moves) if line.startswith("  {")]
        first = head + "".join(moves[:starts[8]]) + "]\n"
        second = head.replace(", bsr = true", "") + moves[0] + "".join(moves[starts[9]:])
        with tempfile.TemporaryDirectory() as room:
            done = called("run", "-", "--save", f"r1={room}/r1", input=first.encode())
            self.assertEqual(done, (0, before, b""))
            status, said, told = called("run", "-", "--tables", "--from", f"r1={room}/r1", input=second.encode())
            later = [counted_anew(line, 9, before.count(b"\nframe ")) for line in after.splitlines()]
            self.assertEqual((status, said.splitlines(), told), (0, later, b""))
            data = Path(room, "r1").read_bytes()
            for at, number in ((12, 60), (17, 61), (40, 69)):
                Path(room, "r1").write_bytes(data[:at] + b"x" + data[at + 1:])
                said = called("run", "-", "--from", f"r1={room}/r1", input=second.encode())
                self.assertEqual(said, (2, b"", b"pimlab: saved state refused: %d\n" % number))

    def test_saved_states_that_are_refused(self):
        run = ("run", stored.DATA / "to_the_shortest_path_tree.toml")
        self.assertEqual(called(*run, "--from", "r"), (2, b"", b"pimlab: command line refused\n"))
        for words in (("--save", "nobody=/dev/null"), ("--from", "nobody=/dev/null"),
                      ("--save", "r=/dev/null", "--save", "nobody=/dev/null")):
            self.assertEqual(called(*run, *words), (2, b"", b"pimlab: no router nobody\n"))
        status, _, said = called(*run, "--save", "r=/nowhere/r")
        self.assertEqual((status, said), (3, b"pimlab: cannot write /nowhere/r\n"))
        self.assertEqual(called(*run, "--from", "r=/dev/null"), (2, b"", b"pimlab: saved state refused: 62\n"))
        self.assertEqual(called(*run, "--from", "r=not there"), (2, b"", b"pimlab: cannot read not there\n"))
        with tempfile.TemporaryDirectory() as room:
            small = b'[[router]]\nname = "edge"\niface = [{ link = "n", address = "10.0.0.1/24" }]\n'
            self.assertEqual(called("run", "-", "--save", f"edge={room}/edge", input=small), (0, b"", b""))
            self.assertEqual(called(*run, "--from", f"r={room}/edge"),
                             (2, b"", b"pimlab: saved state has other interfaces\n"))

    def test_without_a_build_and_without_the_kit_it_says_so_in_one_line(self):
        with tempfile.TemporaryDirectory() as room:
            shutil.copy(PIMLAB, room)
            shutil.copy(PIMLAB.parent / "crates.txt", room)
            for folder in ("tools/pimtext", "bindings/python/src"):
                shutil.copytree(PIMLAB.parent / folder, f"{room}/{folder}")
            os.mkdir(f"{room}/crates")
            for build, reason in (("proved", b"there is no command `rt`"), ("by-rattle", b"./test makes it")):
                env = {"PATH": "/nowhere", "XDG_CACHE_HOME": room, "PIMLAB_BUILD": build}
                words = [sys.executable, Path(room) / "pimlab", "check", ONE_JOIN]
                status, out, err = ran(*words, env=env)
                self.assertEqual((status, out, err.count(b"\n")), (1, b"", 1))
                self.assertIn(reason, err)

    def test_a_build_that_there_is_not(self):
        status, out, err = called("check", ONE_JOIN, env={**os.environ, "PIMLAB_BUILD": "fast"})
        self.assertEqual((status, out, err.count(b"\n")), (1, b"", 1))
        self.assertIn(b"should be one of proved, by-rattle, unproved, sanitized", err)


if __name__ == "__main__":
    unittest.main()
