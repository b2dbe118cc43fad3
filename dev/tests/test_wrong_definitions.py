"""dev/wrong_definitions: each stands where it says, changes what is there once, and is judged by the prover's
lines."""
import unittest

from tests import stored
from tests.rooms import repository

TOP = stored.TOOLS.parent
FILES = {
    "crates.txt": "# Words\n# w\nlow:\n# m\nmid: low toml\n# t\ntop: mid low\n# o\nother: low\n",
    "crates/top/specs/Rules.antt": "ends a = a == 1\ngoes a = true\n",
    "crates/top/wrong/ends_later.edit":
        "refused: proofs/Rules.antt ends_so\nfile: specs/Rules.antt\nold: a == 1\nnew: a == 2\n",
}


class WrongDefinitions(unittest.TestCase):
    @classmethod
    def setUpClass(cls):
        cls.tool = stored.tool("wrong_definitions")

    def one(self, room):
        return self.tool.edits(room, [])[0]

    def test_those_that_are_stored_apply(self):
        found = self.tool.edits(TOP, [])
        self.assertGreaterEqual(len(found), 17)
        for edit in found:
            with self.subTest(str(edit)):
                text = (TOP / "crates" / edit.crate / edit.file).read_text(encoding="utf-8")
                self.assertNotEqual(edit.applied(text), text)
                proof = (TOP / "crates" / edit.crate / edit.proof).read_text(encoding="utf-8")
                self.assertRegex(proof, rf"(?m)^ *(pub )?{edit.declaration} :")

    def test_what_is_changed(self):
        with repository(FILES) as room:
            text = (room / "crates/top/specs/Rules.antt").read_text()
            self.assertEqual(self.one(room).applied(text), "ends a = a == 2\ngoes a = true\n")
            with self.assertRaises(self.tool.Wrong):
                self.one(room).applied(text + "more a = a == 1\n")

    def test_one_that_changes_no_definition(self):
        changed = FILES["crates/top/wrong/ends_later.edit"].replace("specs/", "src/")
        with repository({**FILES, "crates/top/wrong/ends_later.edit": changed}) as room:
            with self.assertRaises(self.tool.Wrong):
                self.tool.edits(room, [])

    def test_names(self):
        with repository(FILES) as room:
            self.assertEqual([str(it) for it in self.tool.edits(room, ["top/ends_later"])], ["top/ends_later"])
            self.assertEqual(self.tool.edits(room, ["other"]), [])

    def test_what_is_copied(self):
        with repository(FILES) as room:
            self.assertEqual([*self.tool.below(room, "top")], ["low", "mid", "top"])

    def test_verdicts(self):
        with repository(FILES) as room:
            edit = self.one(room)
        there = "./proofs/Rules.antt:3:5: error: `ends_so`: expected type `a == 2`\n"
        other = "./proofs/Rules.antt:9:5: error: `goes_so`: expected type `false`\n"
        self.assertEqual(edit.verdict(other + there + "logic=not-proved\n"), "refused")
        self.assertTrue(edit.verdict(other + "logic=not-proved\n").startswith("refused elsewhere: proofs/Rules.antt"))
        self.assertEqual(edit.verdict("logic=proved functions=1\n"), "PROVED")
        self.assertEqual(edit.verdict("killed\n"), "NOT TRIED")


if __name__ == "__main__":
    unittest.main()
