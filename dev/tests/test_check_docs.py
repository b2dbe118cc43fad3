"""`dev/check_docs`: the files, functions and words of code that a document names."""
import unittest
from pathlib import Path
from tempfile import TemporaryDirectory

from tests import stored

check_docs = stored.tool("check_docs")
FILES = {
    "pim_a/src/event.rt": "pub fn step(&mut self) {}\npub struct Turn {}\n",
    "pim_a/src/router/reload.rt": "fn reload() {}\n",
    "pim_b/src/plan.rt": "fn planned() {}\n",
    "pim_b/specs/Acting.antt": "",
    "pim_b/proofs/Lent.antt": "",
}


class NamedCode(unittest.TestCase):
    def lost(self, text: str) -> list[tuple[int, str]]:
        with TemporaryDirectory() as room:
            for name, held in FILES.items():
                path = Path(room) / name
                path.parent.mkdir(parents=True, exist_ok=True)
                path.write_text(held)
            return list(check_docs.lost_code(text, Path(room)))

    def test_files_are_of_the_crate_named_last(self) -> None:
        found = self.lost("`pim_a/src/event.rt` (`step`, `Turn`), then `reload.rt`,\n`pim_b`: `src/plan.rt`")
        self.assertEqual(found, [])
        self.assertEqual(self.lost("`pim_a/src/event.rt`,\n`plan.rt`"), [(2, "pim_a has no file plan.rt")])

    def test_a_crate_may_follow(self) -> None:
        self.assertEqual(self.lost("`pim_a/src/event.rt`, and `plan.rt` of\n`pim_b`; `crates/pim_b/specs/Acting`"), [])

    def test_names_in_brackets_are_in_the_file(self) -> None:
        found = self.lost("`pim_a/src/event.rt`\n(`step`, `planned`)")
        self.assertEqual(found, [(1, "pim_a/src/event.rt has no planned")])

    def test_words_of_a_crate(self) -> None:
        self.assertEqual(self.lost("`pim_b::planned`, `pim_b::proofs::Lent`, `pim_a::Turn`"), [])
        self.assertEqual(self.lost("`pim_b::step`"), [(1, "pim_b has no step")])

    def test_crates_and_paths_that_arent_there(self) -> None:
        self.assertEqual(self.lost("`pim_c/src/event.rt`"), [(1, "there is no crate of pim_c/src/event.rt")])
        self.assertEqual(self.lost("`pim_b/specs/Planning`"), [(1, "there is no pim_b/specs/Planning")])
        self.assertEqual(self.lost("`pim_include` and `./test` aren't looked up"), [])


if __name__ == "__main__":
    unittest.main()
