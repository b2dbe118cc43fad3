"""`dev/computed_run`: which equations it makes of a scenario, and what it makes of the kernel's answers.

The kernel is a stand-in here. With KERNEL=1 in the environment the kit's own is asked too, which takes minutes; it
works in the scratch repository of `dev/computed_run`, so never beside that.
"""
import contextlib
import io
import os
import random
import re
import subprocess
import sys
import tempfile
import tomllib
import unittest
from pathlib import Path
from unittest import mock

from tests import stored
from tests.rooms import kit, repository

run = stored.tool("computed_run")
ONE_JOIN = stored.DATA / "one_join.toml"
SEED = int(os.environ.get("SEED", 1))


def cases():
    """The stored scenarios that can be put to the definitions and aren't refused: their path and case."""
    for path, _ in stored.played():
        with contextlib.suppress(run.SetAside):
            yield path, run.read_case(path)[0]


def read(text, lines):
    """The case of a scenario's text beside these lines."""
    with repository({"case.toml": text, "case.out": "".join(f"{line}\n" for line in lines)}) as room:
        return run.read_case(room / "case.toml")[0]


# ---- texts as numbers


class Numbers(unittest.TestCase):
    def test_each_printed_row_is_that_of_its_numbers(self):
        # Rows O, B, L, E, H, W and T are of what stands before a router, which the definitions' router doesn't have.
        rows = {line for _, lines in stored.played() for line in lines if re.match("[ACDFGI-KMNP-SUVX-Z] ", line)}
        self.assertGreater(len(rows), 500)
        for row in rows:
            self.assertEqual(run.row_words(run.row_numbers(row.split(" "))), row)

    def test_rows_of_what_stands_before_a_router(self):
        case = run.Case([], [], [], [], [])
        rows = {line for _, lines in stored.played() for line in lines if re.match("[OBL] ", line)}
        self.assertEqual({row[0] for row in rows}, set("OBL"))
        self.assertGreater(len(rows), 20)
        for row in rows:
            self.assertEqual(case.words(case.numbers(row), 0), row)
        self.assertEqual(case.numbers("B 10.0.0.9 64 130001"), [19, 0x0A000009, 64, 130001])
        learned = [20, 0xEF000000, 8, 0x0A000001, 5, 150001, 1]
        self.assertEqual(case.numbers("L 239.0.0.0/8 10.0.0.1 5 150001 kept"), learned)

    def test_answers(self):
        for words in ("done", "refused 24", *(f"ignored {name}" for name in run.IGNORED)):
            self.assertEqual(run.answer_words(run.answer_number(words.split(" "))), words)

    def test_texts_that_the_program_refuses_are_no_terms(self):
        for reader, texts in (
            (run.addr, ("10.0.0", "10.0.0.256", "10.0.0.01", "10.0.0.1 ", "")),
            (run.prefix, ("10.0.0.0", "10.0.0.0/", "10.0.0.0/4294967296")),
            (run.packet, ("4", "4g", " 45")), (run.numeral, ("-1", "+1", "4294967296", "1.0")),
            (run.route, ("10.0.0.0/8 10.0.0.1 0 1", "10.0.0.0/8 10.0.0.1 0 1 2 3")),
            (run.candidate, ("239.0.0.0/8 10.0.0.1 5", "239.0.0.0/8 10.0.0.1 5 30 1", "239.0.0.0/8 10.0.0.1 5 -1")),
        ):
            for text in texts:
                with self.subTest(text), self.assertRaises(ValueError):
                    reader(text)

    def test_known_terms(self):
        self.assertEqual(run.prefix("10.0.0.0/8"), "(record { address = (addr 167772160); length = 8 })")
        self.assertEqual(run.event_kind({"do": "advance", "moment": 7}), "EventKind.Advance 7")
        frame = run.event_kind({"do": "frame", "iface": 1, "hex": "AB"})
        self.assertEqual(frame, 'EventKind.Frame (record { number = 1 }) (from_hex (codes "ab"))')
        self.assertEqual(run.listing(["1", "2"]), "(1 ∷ 2 ∷ [])")
        candidates = run.event_kind({"do": "candidates", "list": ["239.0.0.0/8 10.0.0.1 5 30"]})
        self.assertEqual(candidates, "EventKind.RpCandidates (record { prefix = (record { address = (addr 4009754624); "
                         "length = 8 }); rp = (addr 167772161); priority = 5; hash_length = 30 } ∷ [])")


# ---- a scenario beside its lines


class Read(unittest.TestCase):
    def test_each_expected_line_is_in_its_case(self):
        for path, case in cases():
            printed = path.with_suffix(".out").read_text().splitlines()
            with self.subTest(path.name):
                self.assertEqual(case.shown, printed)
                self.assertEqual(case.printed(case.lines), printed)
                self.assertEqual(case.has_tables, any(line.startswith("router ") for line in printed))
                moves = tomllib.loads(path.read_text(encoding="utf-8-sig")).get("move", [])
                self.assertEqual(len(case.moves), len(moves))

    def test_each_kind_of_move_is_a_term(self):
        found = {term.split(", ", 1)[1].split(" ")[0] for _, case in cases() for term in case.moves}
        self.assertEqual(found, {"Happens", "Delivers", "Carries", "Settles", "Restarts", "Reloads"})

    def test_what_is_set_aside(self):
        aside = {}
        for path in stored.DATA.glob("*.toml"):
            try:
                run.read_case(path)
            except run.SetAside as reason:
                aside[path.name] = str(reason)
        known = "its text is refused, before|it ends with an error that no|isn't UTF-8|isn't TOML|a router stands in an"
        self.assertFalse({name: why for name, why in aside.items() if not re.search(known, why)})

    def test_a_reload_to_a_choice_for_each_group_is_set_aside(self):
        given = (stored.DATA / "bsr_and_a_reload.toml").read_text()
        with repository({"a.toml": given.replace("rp_limit = 1", 'choice = "group"')}) as room:
            with self.assertRaisesRegex(run.SetAside, "chooses RPs for each group"):
                run.read_case(room / "a.toml", is_expected=False)

    def test_a_refused_configuration(self):
        for path in stored.DATA.glob("*.err"):
            number = int(re.search(r"refused: (\d+)", path.read_text() + " refused: 0")[1])
            if number in (*run.OF_CONFIGURATIONS, run.BAD_SETS):
                case, refusal = run.read_case(path.with_suffix(".toml"))
                self.assertEqual((refusal, case.lines), (run.REFUSALS[number], []))
        with repository({"a.toml": "", "a.out": "", "a.err": "2\npimlab: scenario refused: 31\n"}) as room:
            self.assertEqual(run.refusal_of(room / "a.toml"), "InterfaceAddress")
            (room / "a.err").write_text("2\npimlab: scenario refused: 39\n")
            with self.assertRaises(run.SetAside):
                run.refusal_of(room / "a.toml")
            (room / "a.err").write_text("2\npimlab: scenario refused: 31\n")
            (room / "a.out").write_text("move 1 r done\n")
            with self.assertRaises(run.Differs):
                run.refusal_of(room / "a.toml")


def spoilt(lines, chance):
    """The lines with one of them changed, left out, doubled, put elsewhere or added."""
    lines, at = list(lines), chance.randrange(len(lines))
    match chance.randrange(5):
        case 0:
            digits = [place for place, char in enumerate(lines[at]) if char in "0123456789abcdef"]
            if digits:
                place = chance.choice(digits)
                other = chance.choice([char for char in "0123456789" if char != lines[at][place]])
                lines[at] = lines[at][:place] + other + lines[at][place + 1:]
        case 1:
            del lines[at]
        case 2:
            lines.insert(at, lines[at])
        case 3:
            lines.insert(chance.randrange(len(lines)), lines.pop(at))
        case 4:
            lines.insert(at,
                chance.choice(["", " ", lines[at] + " ", lines[at].upper(), "move 1 r done", "frame 1 n 45"]))
    return lines


class Spoilt(unittest.TestCase):
    """Another line than the stored one is never put to the kernel as the stored one."""

    def test_no_spoilt_line_is_read_as_the_right_one(self):
        chance = random.Random(SEED)
        tried = 0
        for path, case in cases():
            text, lines = path.read_text(), path.with_suffix(".out").read_text().splitlines()
            for _ in range(3 if len(lines) < 400 else 0):
                wrong = spoilt(lines, chance)
                if wrong == lines:
                    continue
                tried += 1
                with self.subTest(path.name,
                    wrong=next((pair for pair in zip(wrong, lines) if pair[0] != pair[1]), "the end")):
                    try:
                        self.assertNotEqual((read(text, wrong).lines, read(text, wrong).has_tables),
                            (case.lines, case.has_tables))
                    except (run.Differs, run.SetAside):
                        pass
        self.assertGreater(tried, 200)

    def test_lines_that_no_run_prints(self):
        path = stored.EXAMPLES / "lan_assert.toml"
        text, lines = path.read_text(), path.with_suffix(".out").read_text().splitlines()
        self.assertTrue(read(text, lines).lines)
        for more in ("", "router none", "move 24 none done", "frame 99 lan 45"):
            with self.subTest(more), self.assertRaises(run.Differs):
                read(text, [*lines, more])

    def test_a_last_line_without_its_end(self):
        with repository({"a.toml": ONE_JOIN.read_text(), "a.out": "move 1 r done"}) as room, self.assertRaises(
            run.Differs):
            run.read_case(room / "a.toml")


# ---- what is asked of the kernel


def symbols(lines):
    """The symbols of lines, as the definitions have them."""
    found = []
    for first, *rest in lines:
        is_packet = first in run.PACKETS
        for number in ([first, rest[0]] if is_packet else [first, *rest]):
            found += [*(int(digit, 16) for digit in f"{number:x}"), run.NUMBER_END]
        for byte in rest[1:] if is_packet else []:
            found += divmod(byte, 16)
        found.append(run.LINE_END)
    return [*found, run.ALL_END]


class Computing:
    """A kernel to which the computed lines are these: it says what each part of them is."""

    def __init__(self, lines):
        self.symbols, self.checks = symbols(lines), 0

    def check(self, files):
        self.checks += 1
        parts = re.findall(r"^part_(\d+) : 0 ≡ chunk (\d+) (\d+) ", files["Probe"], re.M)
        return "logic=ok\n" + "".join(self.told(*map(int, part)) for part in parts)

    def told(self, number, size, place):
        code = 1
        for symbol in self.symbols[size * place:size * place + size]:
            code = code * run.BASE + symbol
        says = f"the two types differ only where one has `{code}` (expected) and the other has `0` (found)"
        says = f"the two types are `Path ℕ 0 {code}` (expected)" if code == 1 else says
        return f"error: `part_{number}`: no\n  computed as far as they go, {says}\n"


class Asked(unittest.TestCase):
    def case(self):
        return run.read_case(ONE_JOIN)[0]

    def test_the_equations_of_a_case(self):
        text = run.equations(self.case(), None)
        self.assertIn("pub fit : all_fit nodes ≡ true\n", text)
        self.assertIn("pub configured : configs_test ", text)
        self.assertIn(" ≡ Ok tt\n", text)
        self.assertIn(f"expected = {run.listing(map(run.numbers, self.case().lines))}", text)
        self.assertIn("pub holds : move_lines nodes moves ≡ expected\n", text)
        self.assertEqual(len(re.findall(r"^move_\d+ = ", text, re.M)), len(self.case().moves))

    def test_those_of_a_refused_configuration(self):
        text = run.equations(self.case(), "Overlap")
        self.assertIn(" ≡ Err Refusal.Overlap\n", text)
        self.assertNotIn("pub holds", text)

    def test_those_of_refused_sets(self):
        text = run.equations(run.read_case(stored.DATA / "anycast_refused.toml")[0], "BadRpSet")
        self.assertIn("pub fit : all_fit nodes ≡ false\n", text)
        self.assertIn("rp_sets = (record { shared = (addr 168364297); own = (addr 167772165); ", text)
        self.assertIn(" ≡ Ok tt\n", text)
        self.assertNotIn("pub holds", text)

    def test_all_lines_are_read_of_the_kernel(self):
        for path, case in cases():
            if len(case.lines) < 200:
                with self.subTest(path.name):
                    found = list(run.lines_of(run.computed_symbols(Computing(case.lines), case)))
                    self.assertEqual(found, case.lines)

    def test_the_first_line_that_differs_is_found(self):
        case = self.case()
        for place in range(len(case.lines)):
            computed = [list(line) for line in case.lines]
            computed[place][1] += 1
            if computed[place][0] in (run.FRAME, run.COPY):
                computed[place] = [*case.lines[place][:-1], case.lines[place][-1] ^ 1]
            self.assertIn(f"line {place + 1} differs\n", run.first_difference(Computing(computed), case))

    def test_a_line_too_few_and_one_too_many(self):
        case = self.case()
        self.assertIn("computed: no line", run.first_difference(Computing(case.lines[:-1]), case))
        more = run.first_difference(Computing([*case.lines, [run.ANSWER, 1, 0, 0]]), case)
        self.assertIn(f"line {len(case.lines) + 1} differs\n    expected: no line", more)

    def test_it_is_told_in_words(self):
        case = self.case()
        computed = [list(line) for line in case.lines]
        computed[0] = [run.ANSWER, 1, 0, run.IGNORED["Already"]]
        said = run.first_difference(Computing(computed), case)
        self.assertEqual(said, "line 1 differs\n    expected: move 1 r done\n    computed: move 1 r ignored Already")

    def test_all_lines_right_is_no_verdict(self):
        with self.assertRaises(run.NoVerdict):
            run.first_difference(Computing(self.case().lines), self.case())


class Written(unittest.TestCase):
    """What --write writes is what the kernel says, whatever stood there."""

    def written(self, room, name, lines):
        report = run.Report()
        with contextlib.redirect_stdout(io.StringIO()) as out:
            run.write(room / f"{name}.toml", True, Computing(lines), report)
        return out.getvalue().strip()

    def test_the_lines_of_the_kernel_are_written(self):
        case, stored_lines = run.read_case(ONE_JOIN)[0], ONE_JOIN.with_suffix(".out").read_text()
        files = {"a.toml": ONE_JOIN.read_text(), "a.out": "move 1 r refused 1\n", "b.toml": ONE_JOIN.read_text()}
        with repository(files) as room:
            for name in ("a", "b"):
                self.assertEqual(self.written(room, name, case.lines), f"{name}: written")
                self.assertEqual((room / f"{name}.out").read_text(), stored_lines)
            self.assertEqual(self.written(room, "a", case.lines), "a: as it was")

    def test_what_cannot_be_computed_is_told(self):
        with repository({"a.toml": "", "a.out": "", "a.err": "2\npimlab: scenario refused: 39\n"}) as room:
            self.assertIn("a: set aside: its text is refused", self.written(room, "a", []))
            self.assertEqual((room / "a.out").read_text(), "")


class Kernels(unittest.TestCase):
    """What a check of the kit prints, and what it is taken for."""

    def check(self, script, seconds=20):
        with tempfile.TemporaryDirectory() as folder, kit(Path(folder), script):
            (Path(folder) / "crates").mkdir()
            kernel = run.Kernel(Path(folder), seconds)
            (Path(folder) / "crates" / "cases").mkdir()
            return kernel.check({"Case1": "text"}), sorted(path.name for path in kernel.folder.rglob("*.antt"))

    def test_it_has_to_refuse_what_is_false(self):
        told, files = self.check("echo logic=checked; echo error: Canary.antt")
        self.assertIn("logic=", told)
        self.assertEqual(files, ["Canary.antt", "Case1.antt", "Lib.antt", "Lib.antt"])
        for script in ("echo logic=checked", "echo error: Canary.antt", "true", "echo no such command; exit 127"):
            with self.subTest(script), self.assertRaises(run.NoVerdict):
                self.check(script)

    def test_a_check_that_does_not_end(self):
        with self.assertRaisesRegex(run.NoVerdict, "no end after 1 seconds"):
            self.check("sleep 30", 1)


class Scratch(unittest.TestCase):
    """The definitions as a repository of their own."""

    def test_each_module_of_definitions_is_a_file(self):
        with tempfile.TemporaryDirectory() as room:
            run.scratch_repository(Path(room), "cases")
            roots = sorted(Path(room).glob("crates/*/specs/Lib.antt"))
            self.assertIn("lab_runs", [path.parts[-3] for path in roots])
            for path in roots:
                modules = re.findall(r"^pub mod (.+)$", path.read_text(), re.M)
                files = {each.stem for each in path.parent.glob("*.antt")} - {"Lib"}
                with self.subTest(path.parts[-3]):
                    self.assertEqual(files, set(modules))


class Told(unittest.TestCase):
    """The whole tool, with a check that says what a test has it say."""

    def called(self, script, files, *words):
        out = io.StringIO()
        with repository(files) as room, kit(room, script), mock.patch.object(run, "ROOT", room):
            (room / "out" / "computed_run" / "crates" / "cases").mkdir(parents=True)
            argv = ["computed_run", *words, *(str(room / name) for name in files if name.endswith(".toml"))]
            with mock.patch.object(run, "scratch_repository"), mock.patch("sys.argv",
                argv), contextlib.redirect_stdout(out):
                with self.assertRaises(SystemExit) as end:
                    run.main()
        return end.exception.code, out.getvalue().splitlines()

    def files(self, *names):
        lines = ONE_JOIN.with_suffix(".out").read_text()
        return {f"{name}{ending}": text for name in names for ending,
            text in ((".toml", ONE_JOIN.read_text()), (".out", lines))}

    def test_what_the_kernel_proves_holds(self):
        told = self.called("echo logic=checked; echo error: Canary.antt", self.files("a", "b"))
        self.assertEqual(told, (0, ["a: holds", "b: holds", "2 hold, 0 don't, 0 set aside"]))

    def test_what_it_does_not_prove_does_not_hold(self):
        says = "echo logic=checked; echo error: Canary.antt; echo error: Case2.antt:9: '`configured`'"
        status, lines = self.called(says, self.files("a", "b"))
        self.assertEqual((status, lines[:2]), (1, ["a: holds", "b: does not hold: a configuration is refused"]))
        self.assertEqual(lines[2:], ["1 hold, 1 don't, 0 set aside"])

    def test_what_has_no_verdict_is_set_aside(self):
        status, lines = self.called("exit 1", self.files("a", "b"))
        self.assertEqual((status, lines[-1]), (0, "0 hold, 0 don't, 2 set aside"))
        self.assertTrue(lines[0].startswith("a: set aside: too large for the kernel"), lines)

    def test_lines_that_no_run_prints_are_told_without_the_kernel(self):
        files = self.files("a")
        files["a.out"] = files["a.out"].replace("move 1 r done", "move 1 r dome")
        status, lines = self.called("false", files)
        self.assertEqual((status, lines[0]),
            (1, "a: does not hold: line 1 is none that is printed there: 'move 1 r dome'"))

    def test_texts_that_are_none(self):
        status, lines = self.called("false", {"a.toml": "router = 5\n", "a.out": "", "b.toml": "= 3\n", "b.out": ""})
        self.assertEqual(status, 0)
        self.assertTrue(lines[0].startswith("a: set aside: its text isn't that of a scenario"), lines)
        self.assertTrue(lines[1].startswith("b: set aside: b.toml isn't TOML"), lines)


# Small scenarios with each kind of move, with older hosts and older queriers, RPs that share an address, are learned or
# are chosen of candidates, a guard, reloads and a restart.
SAMPLE = ("anycast_on_its_link", "bsr_a_learned_rp", "one_join", "a_restart", "two_routers", "frames_once_more",
          "a_host_of_version_one", "an_older_querier", "a_guarded_register", "a_reload_of_an_address",
          "a_reload_with_older_hosts", "candidates_of_one_range", "refused_and_ignored", "routes_that_are_refused")


class Sample(unittest.TestCase):
    def test_it_has_each_kind_of_move(self):
        moves = [move for name in SAMPLE for move in tomllib.loads((stored.DATA / f"{name}.toml").read_text())["move"]]
        self.assertEqual({move["do"] for move in moves}, {
            "advance", "candidates", "carry", "deliver", "down", "frame", "reload", "restart", "routes", "rps",
            "settle", "unicast", "up"})


@unittest.skipUnless(os.environ.get("KERNEL"), "KERNEL=1 asks the kit's kernel")
class WithTheKernel(unittest.TestCase):
    def called(self, room, *words):
        return subprocess.run([sys.executable, run.ROOT / "dev" / "computed_run", "--seconds", "1200", *words,
                               *sorted(room.glob("*.toml"))], capture_output=True, text=True)

    def test_right_lines_hold_and_wrong_ones_do_not(self):
        right = ONE_JOIN.with_suffix(".out").read_text()
        wrong = right.replace("move 5 r done", "move 5 r ignored Already", 1)
        self.assertNotEqual(right, wrong)
        text = ONE_JOIN.read_text()
        with repository({"right.toml": text, "right.out": right, "wrong.toml": text, "wrong.out": wrong}) as room:
            ran = self.called(room)
        self.assertEqual(ran.returncode, 1)
        self.assertIn("right: holds", ran.stdout)
        self.assertIn("wrong: does not hold: line ", ran.stdout)

    def test_what_is_written_of_stored_scenarios_is_stored(self):
        texts = {name: (stored.DATA / f"{name}.toml").read_text() for name in SAMPLE}
        with repository({f"{name}.toml": text for name, text in texts.items()}) as room:
            ran = self.called(room, "--write")
            self.assertEqual(ran.returncode, 0, ran.stdout + ran.stderr)
            for name in SAMPLE:
                wanted = (stored.DATA / f"{name}.out").read_text()
                found = (room / f"{name}.out").read_text()
                with self.subTest(name):
                    self.assertEqual(found if "\nrouter " in wanted else found.partition("\nrouter ")[0] + "\n", wanted)


if __name__ == "__main__":
    unittest.main()
