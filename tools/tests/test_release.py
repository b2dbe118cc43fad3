"""`tools/release`: what is unpacked plays without the kit and without a compiler, says that it isn't proved where it
isn't, and is the same bytes each time; and each command of README.md runs there, or isn't run for a reason that stands
here. The router in it is a stand-in: building it takes cargo minutes."""
import argparse
import os
import re
import shutil
import subprocess
import sys
import tempfile
import unittest
import unittest.mock
import zipfile
from pathlib import Path

from pimtext.build import library
from pimtext.build.wheel import PACKAGE
from tests import stored

TOP = library.TOP
WANTED = ("dpkg-deb", "zstd", "tar", "strip", library.CC)
ROUTER = f'#include <stdio.h>\nint main(void) {{ puts("viqeshord {library.VERSION} (library x not proved)"); }}\n'
EXAMPLE = "examples/shared_to_source_tree"
NAME = f"viqeshor-{library.VERSION}-unproved-linux-x86_64"
# Programs that a user of a release has.
USERS = ("tar", "zstd", "neato", "dot")
LAB = "tools/networks/examples/change_to_the_source_tree.py"
# The commands of README.md's text: what is run for one where the release is unpacked, or why nothing is.
RUN = {
    "viq whatif": f"bin/viq whatif {LAB} --kind link",
    "viq why": f"bin/viq why {EXAMPLE}.toml --run",
    "viq play": f"bin/viq play {EXAMPLE}.toml -o run.html",
    "viq play --live": "echo 'line r1 r2 / run 1' | bin/viq play --live",
    "viq mend": "bin/viq mend 1",
}
NOT_RUN = {
    "./test": "it runs all tests, these too",
    "./test --quick": "it runs these",
    "./pimlab": "it wants the kit; test_pimlab runs it",
    "./pimlab run FILE": "it wants the kit; test_pimlab runs it",
    "tools/release": "it wants a ./test that passed; with --unproved it made what is tried here",
    "apt-get install $(cat dev/packages.txt)": "it changes the machine; the part `packages` says what is missing",
    "systemctl restart": "it wants systemd; linux/trials/systemd.py runs it",
}
LINK = re.compile(r"\]\((?!\w+:)([^)\s#]+)")
SPAN = re.compile(r"`((?:\./|tools/|linux/|bin/|viq |apt-get |systemctl )[^`]*)`")
release = stored.tool("release")


def blocks(text):
    """The lines of the blocks by indent that begin with a command, each block as one text."""
    found = re.findall(r"(?:^    \S.*\n)+", text, re.M)
    return [re.sub(r"^    ", "", block, flags=re.M) for block in found]


@unittest.skipUnless(all(map(shutil.which, WANTED)), f"it wants {', '.join(WANTED)}")
class Unproved(unittest.TestCase):
    @classmethod
    def setUpClass(cls):
        cls.room = Path(cls.enterClassContext(tempfile.TemporaryDirectory(prefix="release-")))
        (cls.room / "router.c").write_text(ROUTER)
        subprocess.run([library.CC, "-o", cls.room / "viqeshord", cls.room / "router.c"], check=True)
        words = ["--unproved", "--twice", "--built", cls.room, cls.room / "made"]
        command = [sys.executable, TOP / "tools" / "release", *words]
        cls.said = subprocess.run(command, stdout=subprocess.PIPE, text=True, check=True).stdout
        subprocess.run(["tar", "--zstd", "-xf", cls.room / "made" / f"{NAME}.tar.zst", "-C", cls.room], check=True)
        cls.top = cls.room / NAME
        (cls.room / "python").mkdir()
        for name, path in [("python3", sys.executable), *((name, shutil.which(name)) for name in USERS)]:
            if path:
                (cls.room / "python" / name).symlink_to(path)

    def user(self):
        """The environment where there is neither a kit nor a compiler nor a folder for builds."""
        return {"PATH": str(self.room / "python"), "HOME": str(self.room / "nobody"), "CC": "none"}

    def shell(self, command, folder):
        ran = subprocess.run([shutil.which("bash"), "-o", "pipefail", "-ec", command], cwd=folder, capture_output=True,
                             text=True, env=self.user())
        self.assertEqual(ran.returncode, 0, ran.stderr)
        return ran.stdout

    def viq(self, *words):
        """What the release's command prints for a user."""
        ran = subprocess.run([self.top / "bin" / "viq", *words], cwd=self.top, capture_output=True, text=True,
                             env=self.user())
        self.assertEqual((ran.returncode, ran.stderr), (0, ""))
        self.assertFalse((self.room / "nobody").exists())
        return ran.stdout

    def test_twice_it_is_the_same_bytes(self):
        self.assertIn("made twice: the same bytes of 6 files\n", self.said)
        self.assertEqual(len(list((self.room / "made").iterdir())), 6)

    def test_other_bytes_are_no_release(self):
        def make(_, out, how):
            (out / "a.deb").write_text("other")
            return [out / "a.deb"]
        with unittest.mock.patch.object(release, "make", make), self.assertRaises(SystemExit) as end:
            release.compare(argparse.Namespace(), {"a.deb": "0", "b.whl": "1"}, "")
        self.assertIn("other bytes: a.deb, b.whl", str(end.exception))

    @unittest.skipUnless(shutil.which("lintian"), "lintian isn't installed")
    def test_lintian_finds_no_error(self):
        packages = sorted((self.room / "made").glob("*.deb"))
        ran = subprocess.run(["lintian", "--allow-root", "--fail-on", "error", *packages], stdout=subprocess.PIPE,
                             stderr=subprocess.STDOUT, text=True)
        self.assertEqual(ran.returncode, 0, ran.stdout)

    def test_the_blocks_of_the_readme_run_where_the_archive_is(self):
        for block in blocks((TOP / "README.md").read_text()):
            with self.subTest(block):
                folder = self.enterContext(tempfile.TemporaryDirectory(prefix="readme-"))
                (Path(folder) / f"{NAME}.tar.zst").symlink_to(self.room / "made" / f"{NAME}.tar.zst")
                command = block.replace(f"viqeshor-{library.VERSION}-linux-x86_64", NAME)
                self.assertIn("move 1 ", self.shell(command, folder))

    @unittest.skipUnless(shutil.which("neato"), "Graphviz isn't installed")
    def test_each_command_of_the_readme_runs_or_has_a_reason(self):
        shown = {" ".join(command.split()) for command in SPAN.findall((TOP / "README.md").read_text())}
        self.assertEqual(shown, RUN.keys() | NOT_RUN.keys())
        folder = Path(self.enterContext(tempfile.TemporaryDirectory(prefix="readme-"))) / "own"
        shutil.copytree(self.top, folder, symlinks=True)
        for command, ran in RUN.items():
            with self.subTest(command):
                self.assertTrue(self.shell(ran, folder))

    def test_the_links_of_its_pages_lead_to_files(self):
        for page in (*self.top.glob("*.md"), *self.top.glob("docs/*.md")):
            lost = [name for name in LINK.findall(page.read_text()) if not (page.parent / name).exists()]
            self.assertEqual(lost, [], page.name)

    def test_it_says_that_it_is_not_proved(self):
        self.assertIn("NOT a proved release", self.said)
        self.assertTrue((self.top / "RELEASE").read_text().startswith("not proved: "))
        wheel = zipfile.ZipFile(next((self.room / "made").glob("*.whl")))
        summary = wheel.read(f"viqeshor-{library.VERSION}.dist-info/METADATA").decode()
        self.assertIn("; the library in it is not proved\n", summary)
        self.assertEqual(self.viq("--version"), f"viq {library.VERSION}: the router that plays is not proved\n")

    def test_the_package_for_python_is_whole(self):
        """The wheel has each module of the sources, and so has the Debian package."""
        wanted = {f"viqeshor/{file.relative_to(PACKAGE)}" for file in PACKAGE.rglob("*.py")}
        wheel = set(zipfile.ZipFile(next((self.room / "made").glob("*.whl"))).namelist())
        self.assertEqual({name for name in wheel if name.endswith(".py")}, wanted)
        self.assertIn("viqeshor/lab/network.py", wanted)
        package = next((self.room / "made").glob("python3-viqeshor_*.deb"))
        listed = subprocess.run(["dpkg-deb", "--contents", package], stdout=subprocess.PIPE, text=True, check=True)
        self.assertEqual(set(re.findall(r"/dist-packages/(\S+\.py)$", listed.stdout, re.M)), wanted)

    def test_its_sums_are_of_all_its_files(self):
        subprocess.run(["sha256sum", "--check", "--quiet", "SHA256SUMS"], cwd=self.top, check=True)
        listed = {line.split()[1] for line in (self.top / "SHA256SUMS").read_text().splitlines()}
        there = {str(file.relative_to(self.top)) for file in self.top.rglob("*")
                 if file.is_file() and not file.is_symlink() and "__pycache__" not in file.parts}
        self.assertEqual(there - listed, {"SHA256SUMS"})
        self.assertEqual(listed - there, set())

    def test_it_plays_and_is_asked_without_a_kit_and_a_compiler(self):
        example = TOP / f"{EXAMPLE}.toml"
        self.assertEqual(self.viq("run", f"{EXAMPLE}.toml", "--lines", "--tables"),
                         example.with_suffix(".out").read_text())
        asked = subprocess.run([TOP / "tools" / "mroute", example], capture_output=True, text=True, check=True)
        self.assertEqual(self.viq("mroute", f"{EXAMPLE}.toml"), asked.stdout)
        self.assertTrue(self.viq("draw", f"{EXAMPLE}.toml").startswith("digraph "))
        self.assertIn("is a scenario", self.viq("check", f"{EXAMPLE}.toml"))

    def test_a_program_finds_the_library_where_it_was_unpacked(self):
        if not shutil.which("pkg-config"):
            self.skipTest("pkg-config isn't installed")
        found = os.environ | {"PKG_CONFIG_PATH": str(self.top / "lib" / "pkgconfig")}
        flags = subprocess.run(["pkg-config", "--cflags", "--libs", "viqeshor"], env=found, capture_output=True,
                               text=True, check=True).stdout.split()
        join = self.room / "join"
        subprocess.run([library.CC, "-o", join, self.top / "examples" / "library" / "join.c", *flags], check=True)
        ran = subprocess.run([join], capture_output=True, text=True, env={"LD_LIBRARY_PATH": str(self.top / "lib")})
        self.assertEqual(ran.stdout, (stored.DATA / "a_join_that_is_over.out").read_text())


class Proved(unittest.TestCase):
    def refused(self, text):
        """What is said where the gate's lines are these."""
        with tempfile.TemporaryDirectory() as room:
            log = Path(room) / "gate.log"
            if text is not None:
                log.write_text(text)
            with unittest.mock.patch.object(release, "GATE", log), self.assertRaises(SystemExit) as end:
                release.line_of_gate()
        return str(end.exception)

    def test_there_is_none_of_a_gate_that_did_not_pass(self):
        for text in (None, "", "12 passed, 1 failed\n", "12 passed, 0 failed\nrt: more\n", "2 passed, 10 failed\n"):
            with self.subTest(text):
                self.assertIn("the last ./test didn't pass", self.refused(text))

    def test_there_is_none_of_sources_that_changed(self):
        for changed in ("is_newer", "is_proved"):
            with unittest.mock.patch.multiple(release.program, is_newer=lambda _: changed != "is_newer",
                                              is_proved=lambda: changed != "is_proved"), \
                    unittest.mock.patch.object(release, "is_library_proved", lambda: True):
                self.assertIn("a source has changed", self.refused("12 passed, 0 failed\n"))


if __name__ == "__main__":
    unittest.main()
