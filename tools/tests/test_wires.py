"""The program where sockets fail, where a stranger sends to them, and where files can't be read or lines written."""
from __future__ import annotations

import errno
import os
import shutil
import subprocess
import tempfile
import unittest
from pathlib import Path

from pimtext.build import program
from tests import stored

CC = os.environ.get("CC", "cc")
TWO_ROUTERS = stored.DATA / "two_routers.toml"
WIRE = (3, b"pimlab: wire fault\n")
HELP = """\
Runs the multicast routers of a scenario

Usage: pimlab <COMMAND>

Commands:
  run    Does the moves of a scenario and prints what they bring
  check  Reads a scenario and makes its routers
  help   Print this message or the help of the given subcommand(s)

Options:
  -h, --help  Print help
"""


@unittest.skipUnless(shutil.which(CC), "there is no C compiler")
class Wires(unittest.TestCase):
    """A library is preloaded that stands between the program and the system (torture/refuse/sockets.c)."""

    @classmethod
    def setUpClass(cls) -> None:
        cls.room = Path(cls.enterClassContext(tempfile.TemporaryDirectory()))
        cls.shim, cls.count = cls.room / "shim.so", cls.room / "count"
        source = stored.TORTURE / "refuse" / "sockets.c"
        words = ["-O2", "-Wall", "-Werror", "-shared", "-fPIC", "-o", cls.shim, source]
        subprocess.run([CC, *words], check=True)
        cls.binary = program.kept()

    def ran(self, *words: str | Path, **shim: int | Path) -> tuple[int, bytes, bytes]:
        """Status, lines and complaint of the program behind the library, which is told this."""
        env = {**os.environ, "LD_PRELOAD": str(self.shim), **{name: str(value) for name, value in shim.items()}}
        # The sanitized build has a runtime of its own, which wants to be the first library.
        env["ASAN_OPTIONS"] = "verify_asan_link_order=0:detect_leaks=0"
        done = subprocess.run([self.binary, *words], env=env, capture_output=True, stdin=subprocess.DEVNULL)
        return done.returncode, done.stdout, done.stderr

    def over_sockets(self, path: Path, **shim: int | Path) -> tuple[int, bytes, bytes]:
        tables = ["--tables"] if b"\nrouter " in path.with_suffix(".out").read_bytes() else []
        return self.ran("run", path, "--wire", "udp", *tables, **shim)

    def test_sockets_carry_what_memory_carries(self) -> None:
        for path in sorted(stored.EXAMPLES.glob("*.toml")):
            with self.subTest(path.name):
                self.assertEqual(self.over_sockets(path), (0, path.with_suffix(".out").read_bytes(), b""))

    def test_what_a_stranger_sends_is_dropped(self) -> None:
        wanted = TWO_ROUTERS.with_suffix(".out").read_bytes()
        self.assertEqual(self.over_sockets(TWO_ROUTERS, SOCKETS_COUNT=self.count), (0, wanted, b""))
        calls = int(self.count.read_text())
        got = self.over_sockets(TWO_ROUTERS, SOCKETS_STRANGER=1, SOCKETS_COUNT=self.count)
        self.assertEqual(got, (0, wanted, b""))
        # What came before a socket was connected is read, once for each of the two; the system drops all else.
        self.assertEqual(int(self.count.read_text()), calls + 2)

    def test_a_socket_that_fails_ends_the_run_between_two_moves(self) -> None:
        wanted = TWO_ROUTERS.with_suffix(".out").read_bytes()
        self.assertEqual(self.over_sockets(TWO_ROUTERS, SOCKETS_COUNT=self.count), (0, wanted, b""))
        calls = int(self.count.read_text())
        # Each of the two sockets is opened, bound and connected, and each router's packets are sent and taken.
        self.assertGreaterEqual(calls, 14)
        for at in range(1, calls + 1):
            with self.subTest(call=at):
                status, lines, told = self.over_sockets(TWO_ROUTERS, SOCKETS_FAIL_FROM=at)
                self.assertEqual((status, told), WIRE)
                self.assertTrue(wanted.startswith(lines) and wanted[len(lines):].startswith(b"move "), lines)
        self.assertEqual(self.over_sockets(TWO_ROUTERS, SOCKETS_FAIL_FROM=calls + 1), (0, wanted, b""))

    def test_lines_that_cannot_be_written(self) -> None:
        for path in sorted(stored.EXAMPLES.glob("*.toml")):
            with self.subTest(path.name), open("/dev/full", "wb") as full:
                done = subprocess.run([self.binary, "run", path], stdout=full, stderr=subprocess.PIPE)
                self.assertEqual((done.returncode, done.stderr), WIRE)

    def test_a_file_that_cannot_be_read_to_its_end(self) -> None:
        for error, left, wanted in ((errno.EACCES, 3, (2, b"", b"pimlab: cannot read %s\n" % os.fsencode(TWO_ROUTERS))),
                                    (errno.ENOMEM, 0, (4, b"", b"pimlab: no memory\n"))):
            with self.subTest(os.strerror(error)):
                self.assertEqual(self.ran("check", TWO_ROUTERS, READS_FAIL=error, READS_LEFT=left), wanted)

    def test_a_scenario_that_is_checked_alone(self) -> None:
        refused = (2, b"", b"pimlab: scenario refused: 39\n")
        for name, wanted in (("one_join", (0, b"ok\n", b"")), ("no_scenario", refused)):
            self.assertEqual(self.ran("check", stored.DATA / f"{name}.toml"), wanted)

    def test_help(self) -> None:
        self.assertEqual(self.ran("--help"), (0, HELP.encode(), b""))


if __name__ == "__main__":
    unittest.main()
