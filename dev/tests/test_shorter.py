"""`dev/shorter`: which copies it tries, what it takes of those that pass, and what it takes out."""
import argparse
import contextlib
import io
import unittest
from unittest import mock

from upkeep import lemmas as parse
from tests import stored
from tests.rooms import kit, repository

shorter = stored.tool("shorter")
SUMS = """\
-- Sums.
use Rattle.std.{proofs.{Common.{ℕ, ◌≡◌, refl, length-append}, lemmas.List.{sum_more as sums}}, specs.Prelude.size}
use Rattle.kin.proofs.Steps.{step, Kept}

-- a value
pub total : ℕ → ℕ
total n =
    size
    n

pub first : (n : ℕ) (b : Bool) → n ≡ n → total n ≡ n
unfolding size
first n true e =
    step n e
    length-append
first n false e = sums (first n
    true e) λ step. step

module _ (P : ℕ → Type 0)
    (Q : ℕ → Type 0) where
  -- nobody names it
  pub left : P ≡ P
  left = refl

  second : Kept P
  second =
      first where
        first : ℕ
        first = zero

pub third : Kept ℕ
third = second
"""
OPENS = "use Rattle.kin.proofs.Sums.{total, first, third}\n\nall : ℕ\nunfolding total\nall = first third\n"
# A check that finds an error in each line that ends in one of the words in the file `refused`, and in what is false.
CHECK = """\
for file in $(find proofs -name '*.antt'); do
  grep -nE "unread-file P = tt|$(cat ../../refused)" $file | sed -E "s|^([0-9]+):.*|./$file:\\1:9: error: no|"
done
cat ../../verdict
"""
FILES = {"crates/kin/proofs/Sums.antt": SUMS, "crates/kin/proofs/Lib.antt": "pub mod Sums\n",
    "crates/kith/proofs/All.antt": OPENS, "refused": "nothing at all", "verdict": "logic=proved functions=1"}


def given(**how):
    return argparse.Namespace(**{"min": 2, "more": True, "only": shorter.PHASES, "check": "rt check", **how})


class Room(unittest.TestCase):
    def setUp(self):
        self.room = self.enterContext(repository(FILES))
        self.crate = self.room / "crates" / "kin"
        self.sums = self.crate / "proofs" / "Sums.antt"
        self.enterContext(kit(self.room, CHECK))

    def ran(self, **how):
        with contextlib.redirect_stdout(io.StringIO()) as said, contextlib.redirect_stderr(io.StringIO()):
            is_good = shorter.shortened(self.crate, given(**how))
        return is_good, said.getvalue()

    def copies(self, of, **how):
        made = shorter.trial(self.sums, {"total"}, given(only=[of], **how))
        return made, ["\n".join(copy.text) for copy in made.copies]


class Lemmas(unittest.TestCase):
    def test_declarations(self):
        found = [(it.name, it.marks, it.start, it.end) for it in parse.lemmas(SUMS.split("\n"))]
        self.assertEqual(found, [("total", "pub ", 5, 9), ("first", "pub ", 10, 17), ("left", "pub ", 21, 23),
            ("second", "", 24, 29), ("third", "pub ", 30, 32)])

    def test_equations(self):
        lines = SUMS.split("\n")
        self.assertEqual([parse.equations(lines, it) for it in parse.lemmas(lines)],
            [[(6, 9)], [(12, 15), (15, 17)], [(22, 23)], [(25, 29)], [(31, 32)]])

    def test_sides(self):
        self.assertEqual(parse.sides("f (λ x = y) =\n  a = b"), ("f (λ x = y)", "\n  a = b"))
        self.assertEqual(parse.sides("f {A = B} a = b"), ("f {A = B} a", " b"))
        self.assertIsNone(parse.sides("f () ≡= ()"))

    def test_names_of_arguments(self):
        self.assertEqual(parse.binders("f : (a b : ℕ) {c : ℕ} → P a → (d : ℕ) → a ≡ d"), ["a", "b", None, "d", None])
        names = parse.given_names([["zero", "b", "{A = x}", "()"], ["(suc a)", "b", "{A = x}", "h"]],
            "f : (a b : ℕ) {A : Type 0} → P a → Q", {"x"})
        self.assertEqual(names, ["a", "b", "{A = x}", "h"])
        self.assertEqual(parse.given_names([["a", "true", "false"]], "f : ℕ → Bool → Bool → Q", {"x"}), ["a", "y", "z"])

    def test_cited_lemmas(self):
        known = parse.facts(SUMS)
        self.assertEqual(known, {"total", "first", "left", "second", "third", "length-append", "sums", "step"})
        self.assertEqual(parse.cited("sums (first n) step λ left. x", known, "first"), ["sums", "step"])

    def test_what_is_unfolded(self):
        self.assertEqual(parse.opened(["  unfolding a b\nf = unfold c d in x\n"]), {"a", "b", "c", "d"})

    def test_imports_join_their_group(self):
        lines = SUMS.split("\n")
        self.assertEqual(parse.with_import(lines, "Rattle.std.proofs.Common.refl"), lines)
        self.assertEqual(parse.with_import(lines, "Rattle.std.proofs.Common.arith")[1],
            "use Rattle.std.{proofs.{Common.{ℕ, ◌≡◌, refl, length-append, arith}, lemmas.List.sum_more as sums}, "
            "specs.Prelude.size}")
        self.assertEqual(parse.with_import(["-- a", "use Rattle.kin.{b}"], "Rattle.std.proofs.Common.arith"),
            ["-- a", "use Rattle.std.{proofs.Common.arith}", "use Rattle.kin.{b}"])


class Copies(Room):
    def test_whole_proofs(self):
        made, texts = self.copies("lemmas")
        self.assertEqual(texts[:5], ["first n b e = cc", "first n b e = grind arith",
            "first n b e = grind (arith, step, length-append, sums)",
            "first n b e = search (rules, step, length-append, sums)",
            "first n b e = grind (arith, common_steps, step, length-append, sums)"])
        self.assertEqual(texts[5], "  second = cc")
        copy = made.copies[0]
        self.assertEqual(made.lines[copy.place.start:copy.place.stop],
            ["tried-0 : (n : ℕ) (b : Bool) → n ≡ n → total n ≡ n", "unfolding size", "tried-0 n b e = cc"])
        self.assertEqual([made.lines[at] for at in made.unread], shorter.UNREAD)
        self.assertIn("Common.{ℕ, ◌≡◌, refl, length-append, arith, rules}", made.lines[1])

    def test_values_and_short_proofs_are_left(self):
        _, texts = self.copies("lemmas", min=4, more=False)
        self.assertEqual([text.split()[0] for text in texts], ["first", "second"])
        _, texts = self.copies("lemmas", min=5, more=False)
        self.assertEqual(texts, ["first n b e = grind (arith, step, length-append, sums)"])

    def test_what_a_wrong_definition_breaks_is_left(self):
        self.assertEqual(shorter.kept(self.crate), {"total", "size"})
        (self.crate / "wrong").mkdir()
        (self.crate / "wrong" / "less.edit").write_text("refused: proofs/Sums.antt first\nfile: specs/Sums.antt\n")
        self.assertEqual(shorter.kept(self.crate), {"total", "size", "first"})

    def test_clauses(self):
        made, texts = self.copies("clauses", more=False)
        self.assertEqual(texts, ["first n true e = grind (arith, step, length-append)",
            "first n false e = grind (arith, first n true e, sums, step)"])
        copy = made.copies[1]
        self.assertEqual(made.lines[copy.place.start + 2:copy.place.stop],
            ["tried-1 n true e =", "    step n e", "    length-append",
             "tried-1 n false e = grind (arith, tried-1 n true e, sums, step)"])

    def test_long_lines_are_broken_once(self):
        proof = f"grind (arith, {', '.join(['lemma'] * 14)})"
        at = 120 - len(f"  f = {proof}")
        self.assertEqual(shorter.wrapped("  f" + "x" * at, proof, 2), [f"  f{'x' * at} = {proof}"])
        self.assertEqual(shorter.wrapped("  fy" + "x" * at, proof, 2), [f"  fy{'x' * at} =", f"      {proof}"])


class Taken(Room):
    def test_the_first_that_passes(self):
        (self.room / "refused").write_text(" = cc$| = grind arith$")
        self.assertEqual(shorter.tried(self.crate, given(only=["lemmas"])), 2)
        text = self.sums.read_text()
        self.assertIn("unfolding size\nfirst n b e = grind (arith, step, length-append, sums)\n\nmodule", text)
        self.assertIn("refl, length-append, arith}", text)
        self.assertNotIn("tried-", text)
        self.assertNotIn("unread-file", text)

    def test_clauses_one_by_one(self):
        (self.room / "refused").write_text("= cc| = (grind|search).*sums")
        self.assertEqual(shorter.tried(self.crate, given(only=["clauses"])), 1)
        self.assertIn("first n true e = grind arith\nfirst n false e = sums (first n\n", self.sums.read_text())

    def test_nothing_of_a_file_that_the_check_did_not_read(self):
        with kit(self.room, "cat ../../verdict"):
            self.assertEqual(shorter.tried(self.crate, given(only=["lemmas"])), 0)
        self.assertEqual(self.sums.read_text(), SUMS)

    def test_nothing_of_a_file_with_another_error(self):
        (self.room / "refused").write_text("^third = ")
        self.assertEqual(shorter.tried(self.crate, given(only=["lemmas"])), 0)
        self.assertEqual(self.sums.read_text(), SUMS)

    def test_nothing_without_a_verdict(self):
        (self.room / "verdict").write_text("rattle: no verdict")
        with self.assertRaisesRegex(SystemExit, "no verdict"):
            shorter.tried(self.crate, given(only=["lemmas"]))
        self.assertEqual(self.sums.read_text(), SUMS)


class Unused(Room):
    def test_what_nothing_names(self):
        self.assertEqual(shorter.unused_cut(self.crate), 1)
        text = self.sums.read_text()
        self.assertNotIn("left", text)
        self.assertNotIn("nobody names it", text)
        self.assertIn("Type 0) where\n\n  second", text.replace("where\n  second", "where\n\n  second"))

    def test_again_until_there_is_none(self):
        (self.room / "crates/kith/proofs/All.antt").write_text("all : ℕ\nunfolding total\nall = first\n")
        self.assertEqual(shorter.unused_cut(self.crate), 3)
        self.assertEqual([it.name for it in parse.lemmas(self.sums.read_text().split("\n"))], ["total", "first"])


    def test_a_section_that_is_empty_then(self):
        self.sums.write_text("-- Sums.\n\n-- for all\nmodule _ (P : ℕ → Type 0)\n    (Q : ℕ → Type 0) where\n"
            "  module _ (n : ℕ) where\n    -- of none\n    left : P ≡ P\n    left = refl\n\n"
            "pub first : ℕ\nfirst = zero\n")
        self.assertEqual(shorter.unused_cut(self.crate), 1)
        self.assertEqual(self.sums.read_text(), "-- Sums.\n\npub first : ℕ\nfirst = zero\n")


class Whole(Room):
    def test_all_phases(self):
        is_good, said = self.ran()
        self.assertTrue(is_good)
        self.assertRegex(said, r"^kin: lines 33 -> 23, 2 proofs replaced, 1 lemmas taken out, seconds \d+ -> \d+\n$")

    def test_one_phase(self):
        self.assertIn("0 proofs replaced, 1 lemmas taken out,", self.ran(only=["unused"])[1])
        self.assertIn("\n    step n e\n", self.sums.read_text())

    def test_what_is_not_proved_then_goes_back(self):
        proved = "if grep -q 'first n b e = cc' proofs/Sums.antt && ! grep -q tried- proofs/Sums.antt; then " \
            "echo logic=not-proved; else cat ../../verdict; fi"
        with kit(self.room, CHECK.replace("cat ../../verdict", proved)):
            self.assertEqual(self.ran(only=["lemmas"]), (False, ""))
        self.assertEqual(self.sums.read_text(), SUMS)

    def test_what_is_not_proved_before_is_not_begun(self):
        (self.room / "verdict").write_text("logic=not-proved")
        with self.assertRaisesRegex(SystemExit, "kin isn't proved"):
            self.ran()

    def test_what_takes_longer_is_told(self):
        seconds = iter([10, 9, 13])
        with mock.patch.object(shorter, "checked", lambda crate, command: (shorter_log(self.sums), next(seconds))):
            is_good, said = self.ran(only=["lemmas"])
        self.assertFalse(is_good)
        self.assertIn("seconds 10 -> 13, SLOWER", said)


def shorter_log(path):
    """What a check prints that passes all but what is false."""
    lines = path.read_text().split("\n")
    places = [at for at, line in enumerate(lines, 1) if line == shorter.UNREAD[1]]
    errors = [f"./proofs/{path.name}:{at}:9: error: no" for at in places]
    return "\n".join([*errors, "logic=proved"])


if __name__ == "__main__":
    unittest.main()
