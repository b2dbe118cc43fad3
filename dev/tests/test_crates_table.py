"""`dev/crates_table`: the table that crates.txt says, and the one that docs/CALLS.md has."""
import unittest

from tests import stored

crates_table = stored.tool("crates_table")
LISTED = """\
# Each crate.

# Low ones
# words, and
# what they mean
words: std
# lists
lists: words slab

# High ones
# the program
program staticlib: lists words slab std
"""
TABLE = [
    "| crate | what it is |",
    "|---|---|",
    "| **low ones** | |",
    "| `words` | words, and what they mean |",
    "| `lists` | lists |",
    "| **high ones** | |",
    "| `program` | the program |",
]


class Printed(unittest.TestCase):
    def test_each_group_with_its_crates(self):
        self.assertEqual(crates_table.table(LISTED), TABLE)

    def test_a_crate_without_a_description_is_told(self):
        with self.assertRaisesRegex(SystemExit, "no description of lists"):
            crates_table.table(LISTED.replace("# lists\n", ""))

    def test_every_crate_has_a_line(self):
        text = (stored.TOOLS.parent / "crates.txt").read_text()
        folders = sorted(path.parent.name for path in (stored.TOOLS.parent / "crates").glob("*/src"))
        self.assertEqual(
            sorted(line.split("`")[1] for line in crates_table.table(text) if line.startswith("| `")), folders
        )


class Compared(unittest.TestCase):
    def test_the_same_table(self):
        self.assertIsNone(crates_table.unlike(TABLE, ["# Name", *TABLE, "", "| another | table |"]))
        self.assertIsNone(crates_table.unlike(TABLE, TABLE))

    def test_another_line_one_that_is_missing_and_one_too_many(self):
        another = [*TABLE[:4], "| `lists` | chains |"]
        for document in (["# Name", *another], ["# Name", *TABLE[:4], ""], ["# Name", *TABLE[:4]]):
            self.assertIn("docs/CALLS.md:6: ", crates_table.unlike(TABLE, document))
        self.assertIn("docs/CALLS.md:8: ", crates_table.unlike(TABLE, [*TABLE, "| `more` | one more |"]))

    def test_no_table(self):
        self.assertEqual(crates_table.unlike(TABLE, ["# Name"]), "docs/CALLS.md has no table of crates")


if __name__ == "__main__":
    unittest.main()
