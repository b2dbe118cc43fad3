"""Spoilt files turn `dev/try_all` red: those whose part takes a second or a few."""
import tempfile
import unittest
from pathlib import Path

from upkeep import parts
from tests import spoils

QUICK = ("crates_table", "front", "linux_layout", "rust_layout", "test_copies", "test_packets")


class Spoils(unittest.TestCase):
    def test_each_can_be_made(self):
        known = {part.name for part in parts.parts()}
        for spoil in spoils.SPOILS:
            with self.subTest(spoil):
                self.assertNotEqual(spoil.text(spoils.TOP), (spoils.TOP / spoil.file).read_text(encoding="utf-8"))
                self.assertIn(spoil.part, known)

    def test_each_folder_has_one(self):
        folders = {spoil.file.partition("/")[0] for spoil in spoils.SPOILS}
        wanted = {"bindings", "crates", "docs", "examples", "include", "linux", "tools", "torture"}
        self.assertLessEqual(wanted, folders)

    def test_quick_ones_are_red(self):
        with tempfile.TemporaryDirectory(prefix="spoils-") as room:
            top = spoils.copied(Path(room))
            for spoil in spoils.SPOILS:
                if spoil.part in QUICK:
                    with self.subTest(spoil):
                        self.assertTrue(spoils.is_red(spoil, top))


if __name__ == "__main__":
    unittest.main()
