"""The example of a program in Rattle, crates/embed, prints what it is to print before it is proved."""
import shutil
import subprocess
import unittest

from pimtext.build import builds, kept, kit
from pimtext.build.modules import Module, parts

CRATE = kept.TOP / "crates" / "embed"


def build(room, progress, path):
    shutil.copytree(CRATE / "src", room / "src")
    below = {name: uses for name, uses in kept.crates_of("embed").items() if name != "embed"}
    progress.step("the kit translates all crates")
    bytecode = kit.module_of("embed", room / "src" / "main.rt", below, room, progress.tick)
    text, made = room / "embed.ll", room / "embed.o"
    text.write_bytes(next(parts(Module(kit.printed(bytecode, progress.tick)), [b"main"], 1)))
    # It runs for a moment, and to optimise it takes a minute and more of a processor.
    kit.ran(*kit.compiling(text, made, "-O0"))
    kit.linked([made], room / "embed")
    builds.keep(room / "embed", path)


@unittest.skipUnless(shutil.which("rt"), "the kit isn't installed")
class Embed(unittest.TestCase):
    def test_what_it_prints(self):
        path = kept.cache() / f"embed-{kept.sum_of_sources('embed')}"
        builds.build_once(path, path.name, "embed", lambda room, progress: build(room, progress, path))
        ran = subprocess.run([path], capture_output=True, text=True)
        self.assertEqual((ran.returncode, ran.stderr), (0, ""))
        self.assertEqual(ran.stdout, (CRATE / "stdout").read_text())


if __name__ == "__main__":
    unittest.main()
