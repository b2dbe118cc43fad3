"""Edits as they are read, and the prover's lines that tell what refuses them."""
import unittest

from upkeep.edits import Crate
from tests.rooms import repository

SOURCE = """//! Numbers halved and raised.
#![tactic(auto)]

ghost use Rattle.std.specs.Prelude.{◌≡◌, ◌+◌, ◌≤◌, ℕ, Some, None};

/// A number.
pub struct Half {
    value: u32,
}

impl Half {
    /// Of a number.
    pub fn of(value: u32) -> Half
        ensures small { result.value ≤ value }
        ensures here { result.value + result.value ≤ value }
    {
        Half { value: value / 2 }
    }
}

/// The number, or half of it.
pub fn lower(value: u32, all: bool) -> u32
    ensures { result ≤ value }
{
    if all { value } else { value / 2 }
}
"""
TOO_FAR = "file: src/lib.rt\nold: if all { value } else { value / 2 }\nnew: if all { value } else { value | 2 }\n"
KEEPS = "refused: Half::of here\nfile: src/lib.rt\nold: Half { value: value / 2 }\nnew: Half { value: value / 1 }\n"
UNMET = ("note: src/lib.rt:{}: it is not proved that what the function ensures holds when it returns (`{}`); the facts "
         "known there allow values at which this goal is false")
HERE, ELSE = UNMET.format("13:5", "returns-clause-here"), UNMET.format("22:1", "returns-else-all")
NUMBER = "/// The number.\npub fn number(n: u32) -> u32\n    ensures same { result ≡ n }\n{\n    n\n}\n"


def edit_of(text, source=SOURCE, name="low"):
    """The only edit of a crate with this code."""
    with repository({f"{name}/src/lib.rt": source, f"{name}/edits.txt": f"edit: one\n{text}"}) as room:
        (edit,) = Crate(room / name).edits()
    return edit


class Read(unittest.TestCase):
    def test_edits_with_notes_and_empty_lines_between(self):
        edit = edit_of(f"# it is known\n{KEEPS}\n\n")
        self.assertEqual(("one", [("Half::of", "here")]), (edit.name, edit.wanted))
        text = f"edit: a\n{KEEPS}\n# so\nedit: b\n{TOO_FAR}"
        with repository({"low/src/lib.rt": SOURCE, "low/edits.txt": text}) as room:
            found = Crate(room / "low").edits()
        self.assertEqual([("a", 4), ("b", 3)], [(edit.name, len(edit.lines)) for edit in found])

    def test_a_text_that_is_no_list_of_edits(self):
        for text in (f"edit: a\n{KEEPS}edit: a\n{KEEPS}", "edit: a\nolds: 1\n", KEEPS, "edit: a b\n"):
            with repository({"low/src/lib.rt": SOURCE, "low/edits.txt": text}) as room:
                with self.assertRaisesRegex(SystemExit, r"/low/edits.txt:\d: "):
                    Crate(room / "low").edits()

    def test_two_lines_in_the_other_order(self):
        code = NUMBER.replace("    n\n", "    let half = n / 2;\n    let twice = half * 2;\n    n\n")
        edit = edit_of("file: src/lib.rt\nold: let half = n / 2;\nnew: let all = half * 2;\n"
                       "old: let twice = half * 2;\nnew: let half = n / 2;\nold: let all\nnew: let twice\n", code)
        self.assertTrue(edit.applies())
        self.assertIn("let twice = half * 2;\n    let half = n / 2;", edit.edited("src/lib.rt"))


class Flaws(unittest.TestCase):
    def flaw(self, text, source=SOURCE, name="low"):
        return edit_of(text, source, name).flaw()

    def test_none(self):
        self.assertIsNone(self.flaw(KEEPS))
        self.assertFalse(self.flaw(TOO_FAR))
        self.assertIsNone(self.flaw(KEEPS.replace("Half::of here", "error[unknown-name]")))

    def test_a_text_that_stands_there_twice_or_not_at_all(self):
        for old in ("value / 2", "value / 3"):
            text = f"refused: lower ensures\nfile: src/lib.rt\nold: {old}\nnew: 1\n"
            self.assertIn("stand there once", self.flaw(text))

    def test_a_name_that_two_types_have(self):
        source = SOURCE.replace("/// The number, or",
            "impl Whole {\n    pub fn of(value: u32) -> Whole\n        ensures here { 0 ≤ value }\n    {\n"
            "        Whole { value }\n    }\n}\n\n/// The number, or")
        self.assertIn("`of` may be lib::Half::of or lib::Whole::of", self.flaw(KEEPS.replace("Half::", ""), source))
        self.assertIsNone(self.flaw(KEEPS, source))

    def test_a_name_or_a_clause_that_is_not_there(self):
        self.assertIn("names no function of low", self.flaw(f"refused: lowered ensures\n{TOO_FAR}"))
        self.assertIn("lib::Half::of has no clause `there`", self.flaw(KEEPS.replace("here", "there")))

    def test_a_clause_of_a_trait(self):
        source = SOURCE.replace("impl Half {",
            "pub trait Halved {\n    fn of(value: u32) -> Half\n        ensures here { 0 ≤ value };\n}\n\n"
            "impl Halved for Half {", 1)
        self.assertIn("may be lib::Halved::of or lib::Half::of", self.flaw(KEEPS.replace("Half::", ""), source))
        other = source.replace("        ensures here { result.value + result.value ≤ value }\n", "")
        self.assertIsNone(self.flaw(KEEPS, other))

    def test_an_edit_of_what_is_no_code(self):
        contract = "old:     ensures { result ≤ value }\nnew:     ensures { result + 1 ≤ value }\n"
        self.assertIn("changes the contract of lib::lower",
                      self.flaw(f"refused: lower ensures\nfile: src/lib.rt\n{contract}"))
        told = SOURCE.replace("pub fn lower(", "#[tactic(auto, unfolding(a))]\npub fn lower(")
        edit = "refused: lower ensures\nfile: src/lib.rt\nold: unfolding(a)\nnew: unfolding(b)\n"
        self.assertIn("or its proof", self.flaw(edit, told))

    def test_a_network_of_the_runs_alone_may_be_changed_in_a_definition(self):
        files = {"src/lib.rt": SOURCE, "specs/ServedChain.antt": "one = 1\n",
                 "edits.txt": "edit: one\nrefused: lower ensures\nfile: specs/ServedChain.antt\nold: 1\nnew: 2\n"}
        for name, flaw in (("low", "doesn't stand there once"), ("pim_runs", "None")):
            with repository({f"{name}/{path}": text for path, text in files.items()}) as room:
                self.assertIn(flaw, str(Crate(room / name).edits()[0].flaw()))

    def test_a_run_of_a_network_stands_on_what_is_computed_of_it(self):
        told = ("./proofs/lib/lower/Answers.antt:4:5: error: 1 declaration that depends on `computed`, which was not "
                "admitted, was not checked: returns")
        for file, is_met in (("specs/ServedChain.antt", True), ("src/lib.rt", False)):
            files = {"src/lib.rt": SOURCE, "specs/ServedChain.antt": "one = 1\n",
                     "edits.txt": f"edit: one\nrefused: lower ensures\nfile: {file}\nold: 1\nnew: 2\n"}
            with repository({f"pim_runs/{path}": text for path, text in files.items()}) as room:
                self.assertEqual(is_met, Crate(room / "pim_runs").edits()[0].meets(told))


class Reasons(unittest.TestCase):
    """Whether a line of the prover's is the refusal that an edit names."""

    def test_by_the_clause_that_it_names(self):
        self.assertTrue(edit_of(KEEPS).meets(HERE))
        self.assertTrue(edit_of(f"refused: Half::of small\n{KEEPS}").meets(HERE))
        self.assertFalse(edit_of(KEEPS).meets(HERE.replace("here", "small")))
        self.assertFalse(edit_of(KEEPS).meets(ELSE))
        self.assertEqual("lib::lower ensures", str(edit_of(KEEPS).reason(ELSE)))

    def test_by_the_requires_of_a_call(self):
        line = "note: src/lib.rt:25:29: it is not proved that what the call requires holds (`abs-requires-else-all`)"
        self.assertTrue(edit_of(f"refused: lower requires\n{TOO_FAR}").meets(line))

    def test_by_a_loop_or_its_label(self):
        code = ("pub fn sum(n: u32) -> u32\n    ensures same { result ≡ n }\n{\n"
                "    'all: for i in 0..n {\n    }\n    n\n}\n")
        goal = "note: src/lib.rt:4:5: it is not proved that the loop goes on (`all-preserved`)"
        for clause, meets in (("loop", True), ("same", False)):
            edit = edit_of(f"refused: sum {clause}\nfile: src/lib.rt\nold: 0..n\nnew: 1..n\n", code)
            self.assertEqual(meets, edit.meets(goal))

    def test_in_a_proof_by_hand(self):
        edit = edit_of("refused: number same\nfile: src/lib.rt\nold:     n\nnew:     n / 2\n",
                       NUMBER.replace("pub fn number", "pub fn same").replace("    n\n", "    n + 0\n") + NUMBER)
        line = "./proofs/lib/{}/Answers.antt:7:5: error: {}"
        standing = ("2 declarations that depend on `changed`, which was rejected, were not checked: "
                    "returns-clause-{}, auto")
        for name, told, meets in (
            ("number", "`returns-clause-same`: the two types differ", True), ("number", standing.format("same"), True),
            ("+number", standing.format("same"), True), ("same", standing.format("same"), False),
            ("number", standing.format("other"), False), ("number", "`changed`: the two types differ", False),
        ):
            self.assertEqual(meets, edit.meets(line.format(name, told)), (name, told))
        self.assertEqual("lib::number same", str(edit.reason(line.format("number", standing.format("same")))))

    def test_a_name_that_is_taken_away_and_a_limit_are_none(self):
        for told in ("./proofs/lib/Half/of/Answers.antt:3:1: error: `returns-clause-here`: `half` is not in scope",
                     HERE + "; antt ran out of the steps that the check of one declaration may take"):
            self.assertFalse(edit_of(KEEPS).meets(told), told)

    def test_a_method_in_another_module_than_its_type(self):
        block = ("impl {} {{\n    pub fn number(&self) -> u32\n        ensures same {{ result ≡ 1 }}\n    {{\n"
                 "        1\n    }}\n}}\n")
        files = {"low/src/world.rt": "pub struct World {\n}\n", "low/src/time.rt": block.format("World"),
                 "low/src/own.rt": block.format("Own"), "low/src/other.rt": block.format("Own")}
        with repository(files) as room:
            crate = Crate(room / "low")
        for folder, functions in (("world/World", ["time::World::number"]), ("own/Own", ["own::Own::number"]),
                                  ("world/Worl", [])):
            found = crate.proved_in(f"{folder}/number")
            self.assertEqual(functions, [str(one.function) for one in found], folder)


if __name__ == "__main__":
    unittest.main()
