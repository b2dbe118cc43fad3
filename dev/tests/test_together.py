"""Edits that are tried together, with a stand-in for the kit's program."""
import unittest
from contextlib import contextmanager
from pathlib import Path
from unittest import mock

from upkeep import together
from upkeep.edits import Crate
from tests.rooms import repository

NUMBER = "/// The number.\npub fn {0}(n: u32) -> u32\n    ensures same {{ result ≡ n }}\n{{\n    n {1}\n}}\n"
UNMET = ("note: src/lib.rt:{}:1: it is not proved that what the function ensures holds when it returns "
         "(`returns-clause-{}`)")


def edits_of(code, *texts, name="low"):
    """The edits of a crate, which are called a, b and so on."""
    text = "".join(f"edit: {letter}\n{it}" for letter, it in zip("abcdef", texts))
    with repository({f"{name}/src/lib.rt": code, f"{name}/edits.txt": text}) as room:
        return Crate(room / name).edits()


def change(old, new, named=""):
    return f"{named and f'refused: {named}' + chr(10)}file: src/lib.rt\nold: {old}\nnew: {new}\n"


class Batches(unittest.TestCase):
    CODE = "".join(NUMBER.format(name, f"+ {number}") for number, name in enumerate(("one", "two", "three")))

    def names(self, edits):
        return [[edit.name for edit in batch.edits] for batch in together.batches(edits)]

    def test_edits_of_functions_of_their_own_are_in_one(self):
        changes = [change(f"n + {number}", to) for number, to in ((0, "n"), (1, "n"), (1, "2"), (2, "n"))]
        edits = edits_of(self.CODE, *changes)
        self.assertEqual([["a", "b", "d"], ["c"]], self.names(edits))

    def test_functions_that_call_one_another_are_not(self):
        code = self.CODE.replace("pub fn one", "#[cycle(pair)]\npub fn one")
        code = code.replace("/// The number.\npub fn two", "#[cycle(pair)]\n/// The number.\npub fn two")
        edits = edits_of(code, change("n + 0", "n"), change("n + 1", "n"), change("n + 2", "n"))
        self.assertEqual([["a", "c"], ["b"]], self.names(edits))

    def test_what_changes_more_than_one_function_is_in_none(self):
        both = change("n + 0", "n") + "old: n + 1\nnew: n\n"
        edits = edits_of(self.CODE, both, change("n + 2", "n", "error[unknown-name]"))
        self.assertEqual([], self.names(edits))

    def test_a_constant_is_of_the_function_that_reads_it(self):
        code = "const LEAST: u32 = 1;\nconst MOST: u32 = 2;\n"
        code += NUMBER.format("number", "* LEAST + MOST - MOST") + NUMBER.format("other", "+ MOST - 2")
        for old, function in (("u32 = 1", "lib::number"), ("u32 = 2", "None"), ("- 2", "lib::other")):
            self.assertEqual(function, str(together.changed(edits_of(code, change(old, f"{old}0"))[0])))

    def test_an_edit_that_another_spoils_waits(self):
        edits = edits_of(self.CODE, change("n + 0", "n + 2"), change("n + 2", "n + 3"))
        self.assertEqual([["a"], ["b"]], self.names(edits))


class Tried(unittest.TestCase):
    CODE = NUMBER.format("one", "+ 0") + NUMBER.format("two", "+ 1")
    ONE, TWO = change("n + 0", "n / 2", "one same"), change("n + 1", "n / 3", "two same")
    GOAL_ONE, GOAL_TWO = UNMET.format(2, "same"), UNMET.format(8, "same")
    END = "only=2 proved=0"

    @contextmanager
    def prover(self, answers):
        """A prover that answers these, one after the other, with the codes that it was asked about."""
        with repository({"low/src/lib.rt": self.CODE, "low/edits.txt": ""}) as room:
            crate, codes, asked, left = Crate(room / "low"), [], [], [*answers]

            def ran(words, folder):
                codes.append((Path(folder) / "src/lib.rt").read_text())
                asked.append(words)
                return 1, left.pop(0).splitlines()

            (room / "try").mkdir()
            with mock.patch.object(together, "ran", ran), mock.patch.object(together.kit, "kit", return_value="/kit"):
                yield together.Prover(crate, room / "try", ["--extern", "std"]), codes, asked
        self.assertEqual([], left)

    def tried(self, answers, *texts):
        edits = edits_of(self.CODE, *texts)
        with self.prover(answers) as (prover, codes, asked):
            came = {edit.name: answer for edit, answer in together.all_tried(edits, prover)}
        return came, codes, asked

    def test_both_by_one_check(self):
        came, codes, asked = self.tried([f"{self.GOAL_ONE}\n{self.GOAL_TWO}\n{self.END}"], self.ONE, self.TWO)
        self.assertEqual({"a": ("refused", self.GOAL_ONE), "b": ("refused", self.GOAL_TWO)}, came)
        self.assertEqual([self.CODE.replace("+ 0", "/ 2").replace("+ 1", "/ 3")], codes)
        self.assertEqual(["/kit/bin/rattle", "check", "--crate-name", "low", "src/lib.rt", "--extern", "std"],
                         asked[0][:7])
        self.assertEqual(["--only", "one", "--only", "two"], asked[0][9:13])

    def test_one_that_is_still_proved_is_tried_alone_from_nothing(self):
        proved = f"{self.GOAL_ONE}\nfn low::two: proved\n{self.END}"
        came, codes, asked = self.tried([proved, f"fn low::two: proved\n{self.END}"], self.ONE, self.TWO)
        self.assertEqual((("refused", self.GOAL_ONE), ("STILL PROVED", "")), (came["a"], came["b"]))
        self.assertEqual(self.CODE.replace("+ 1", "/ 3"), codes[1])
        self.assertNotEqual(asked[0][-1], asked[1][-1])
        came, _, _ = self.tried([proved, f"{self.GOAL_TWO}\n{self.END}"], self.ONE, self.TWO)
        self.assertEqual(("refused", self.GOAL_TWO), came["b"])

    def test_another_clause_no_clause_and_no_goal(self):
        other = self.GOAL_ONE.replace("same", "other")
        for text, said, wanted in ((self.ONE, other, ("NOT AS IT SAYS", other)),
                                   (self.ONE.partition("\n")[2], self.GOAL_ONE, ("NAMES NO CLAUSE", self.GOAL_ONE)),
                                   (self.ONE, "fn low::one: could not tell", ("NOT AS IT SAYS", mock.ANY))):
            came, _, _ = self.tried([f"{said}\n{self.END}"], text)
            self.assertEqual(wanted, came["a"])

    def test_one_that_waits_for_another_is_tried_again(self):
        waits = "fn low::two: not proved; it calls `low::one`, which is not proved"
        came, codes, _ = self.tried([f"{self.GOAL_ONE}\n{waits}\n{self.END}", f"{self.GOAL_TWO}\n{self.END}"],
                                    self.ONE, self.TWO)
        self.assertEqual({"a": "refused", "b": "refused"}, {name: answer[0] for name, answer in came.items()})
        self.assertEqual(self.CODE.replace("+ 1", "/ 3"), codes[1])

    def test_one_that_the_front_end_refuses_is_left_out(self):
        error = "src/lib.rt:5:7: error[unknown-name]: cannot find value `m`"
        came, codes, _ = self.tried([error, f"{self.GOAL_TWO}\n{self.END}"],
                                    change("n + 0", "m", "one same"), self.TWO)
        self.assertEqual((("NOT AS IT SAYS", error), ("refused", self.GOAL_TWO)), (came["a"], came["b"]))
        self.assertEqual(self.CODE.replace("+ 1", "/ 3"), codes[1])
        came, _, _ = self.tried([error], change("n + 0", "m"))
        self.assertEqual(("NOT AS IT SAYS", error), came["a"])

    def test_one_that_no_type_allows_is_read_by_itself(self):
        error = "src/lib.rt:5:7: error[unknown-name]: cannot find value `m`"
        edit = change("n + 0", "m", "error[unknown-name]")
        came, _, asked = self.tried([error], edit)
        self.assertEqual(("refused", error), came["a"])
        self.assertEqual(["--only", ""], asked[0][9:11])
        came, _, _ = self.tried(["only=0 proved=0"], edit)
        self.assertEqual(("NOT AS IT SAYS", "only=0 proved=0"), came["a"])

    def test_one_of_two_functions_is_tried_by_itself(self):
        both = change("n + 0", "n / 2", "two same") + "old: n + 1\nnew: n / 3\n"
        came, _, asked = self.tried([f"{self.GOAL_TWO}\n{self.END}"], both)
        self.assertEqual((("refused", self.GOAL_TWO), ["--only", "two"]), (came["a"], asked[0][9:11]))
        proved = f"fn low::two: proved\n{self.END}"
        came, _, asked = self.tried([proved, proved], both)
        self.assertEqual((("STILL PROVED", ""), 2), (came["a"], len(asked)))

    def test_one_that_cannot_be_judged_is_not_asked_about(self):
        came, _, _ = self.tried([], change("n + 9", "n", "one same"), change("n + 0", "n", "one other"))
        self.assertEqual(["does not apply", "NOT AS IT SAYS"], [came[name][0] for name in "ab"])

    def test_a_prover_that_says_nothing(self):
        came, _, _ = self.tried(["rattle: killed"], self.ONE)
        self.assertEqual(("not tried", "rattle: killed"), came["a"])

    def test_a_check_that_does_not_come_to_its_end_spoils_one_edit(self):
        broken = "src/lib.rt:2:1: error[mismatched-types]: here"
        came, codes, _ = self.tried(["src/other.rt:2:1: error[mismatched-types]: there", broken,
                                     f"{self.GOAL_TWO}\n{self.END}"], self.ONE, self.TWO)
        self.assertEqual((("NOT AS IT SAYS", broken), ("refused", self.GOAL_TWO)), (came["a"], came["b"]))
        self.assertEqual(3, len(codes))

    def test_the_clause_is_told_first_that_tells_most(self):
        goals = ("requires-same", "invariant_of-self", "returns-clause-same", "slice_bounds-all")
        batch = together.Batch(edits_of(self.CODE, self.ONE))
        (told,) = together.by_prover(batch, [self.GOAL_ONE.replace("returns-clause-same", it) for it in goals]).values()
        self.assertEqual([goals[at] for at in (2, 1, 0, 3)], [reason.goal for _, reason in told])

    def test_the_front_end_alone(self):
        error = "src/lib.rt:5:7: error[unknown-name]: cannot find value `m`"
        typed = change("n + 1", "m", "error[unknown-name]")
        edits = edits_of(self.CODE, change("n + 0", "m", "one same"), self.TWO, typed)
        with self.prover([error, error, "only=0 proved=0"]) as (prover, codes, _):
            came = {edit.name: answer for edit, answer in together.read_by_front_end(edits, prover)}
        self.assertEqual({"c": ("refused", error), "a": ("NOT AS IT SAYS", error)}, came)
        self.assertEqual(3, len(codes))


class Names(unittest.TestCase):
    def test_as_a_check_prints_them(self):
        code = NUMBER.format("one", "+ 0") + "impl Show for Half {\n" + "".join(
            f"    {line}\n" for line in NUMBER.format("shown", "+ 1").splitlines()) + "}\n"
        found = map(together.changed, edits_of(code, change("n + 0", "n"), change("n + 1", "n")))
        self.assertEqual(["one", "HalfShow::shown"], [together.path_of(it) for it in found])


if __name__ == "__main__":
    unittest.main()
