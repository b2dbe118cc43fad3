"""`dev/tables`: a fact that is one line of a table is written wherever it stands."""
import contextlib
import io
import shutil
import tempfile
import unittest
from pathlib import Path
from unittest import mock

from upkeep import declared

from tests import stored

tables = stored.tool("tables")
TOP = stored.TOOLS.parent
FILES = {
    *(part.path for parts in tables.PARTS.values() for part in parts), *(path for path, _, _ in tables.ABI_PLACES),
    *(str(path.relative_to(TOP)) for path in [*declared.HEADERS, declared.ABI, *(TOP / "tables").iterdir()]),
    *tables.WATCHED, *tables.read("defaults")["places"],
}
ANSWER = """
[[answer]]
number = {}
name = "BadOption"
of = "{}"
about = "{}"
core = "{}"
says = "{}"
when = "{}"
hint = "{}"
"""


class Tables(unittest.TestCase):
    def setUp(self):
        self.top = Path(self.enterContext(tempfile.TemporaryDirectory(prefix="tables-")))
        for path in FILES:
            (self.top / path).parent.mkdir(parents=True, exist_ok=True)
            shutil.copyfile(TOP / path, self.top / path)

    def ran(self, *words):
        """The status and the lines of the tool over the copies."""
        out = io.StringIO()
        with mock.patch.object(tables, "TOP", self.top), mock.patch.object(tables, "TABLES", self.top / "tables"), \
                mock.patch("sys.argv", ["tables", *words]), contextlib.redirect_stdout(out):
            return tables.main(), out.getvalue().splitlines()

    def changed(self, path, old, new):
        text = (self.top / path).read_text(encoding="utf-8")
        self.assertEqual(text.count(old), 1, old)
        (self.top / path).write_text(text.replace(old, new), encoding="utf-8")

    def holders(self, word):
        return {path for path in FILES if word in (self.top / path).read_text(encoding="utf-8")}

    def with_answer(self, number, before, of="Refusal"):
        """The table with one more answer, of a type of the core, before the answer of this number."""
        more = ANSWER.format(number, of, *(f"an odd {word}" for word in ("about", "core", "saying", "when", "hint")))
        self.changed("tables/answers.toml", f"\n[[answer]]\nnumber = {before}\n",
                     f"{more}\n[[answer]]\nnumber = {before}\n")

    def test_all_stands_as_the_tables_have_it(self):
        self.assertEqual(self.ran(), (0, []))

    def test_a_refusal_of_packets_is_written_wherever_it_stands(self):
        self.with_answer(10, 20)
        self.assertEqual(self.ran()[0], 1)
        self.assertEqual(self.ran("--write")[0], 0)
        self.assertEqual(self.ran(), (0, []))
        self.assertEqual(self.holders("BadOption = 10"), {
            "crates/pim_ip/specs/Refusal.antt", "crates/pim_ip/src/refusal.rt", "bindings/rust/src/lib.rs"})
        self.assertEqual(self.holders("BAD_OPTION = 10"), {
            "include/viqeshor/viqeshor.h", "bindings/python/src/viqeshor/__init__.py", "bindings/c/abi.txt"})
        self.assertLessEqual({"bindings/c/texts.c"}, self.holders('BAD_OPTION: return "an odd saying";'))
        self.assertLessEqual({"docs/SCENARIOS.md"}, self.holders("| 10 | BadOption | an odd when |"))
        self.assertLessEqual({"bindings/python/src/viqeshor/lab/facts.py"}, self.holders('"10": "an odd hint",'))

    def test_so_is_one_of_saved_bytes(self):
        self.with_answer(80, 101, "SavedRefusal")
        self.assertEqual(self.ran("--write")[0], 0)
        self.assertEqual(self.holders("BadOption = 80"), {
            "crates/pim_saved/specs/Refused.antt", "crates/pim_saved/src/refusal.rt", "bindings/rust/src/lib.rs"})
        self.assertEqual(self.holders("| 80 | `BadOption` | an odd when |"), {"docs/SAVED.md"})

    def test_so_is_one_of_a_saved_state(self):
        for of, crate in (("RestoreRefusal", "pim_worlds"), ("HeldRefusal", "igmp_older_saved"),
                          ("ListenerRefusal", "pim_bsr")):
            with self.subTest(of):
                self.setUp()
                self.with_answer(80, 101, of)
                self.assertEqual(self.ran("--write")[0], 0)
                self.assertEqual(self.holders(f"{of}.BadOption = 80"), {f"crates/{crate}/specs/Refused.antt"})
                self.assertEqual(self.holders(f"{of}::BadOption => 80,"), {f"crates/{crate}/src/refusal.rt"})
                self.assertEqual(self.holders("/// an odd about\n    BadOption,"), {f"crates/{crate}/src/refusal.rt"})
                self.assertEqual(self.holders("| 80 | `BadOption` | an odd when |"), {"docs/SAVED.md"})

    def test_so_is_one_of_a_configuration_above_the_numbers_of_others(self):
        self.with_answer(80, 40)
        self.assertEqual(self.ran("--write")[0], 0)
        self.assertEqual(self.holders(" answer == VIQ_BAD_OPTION;"), {"include/viqeshor/viqeshor.h"})
        self.assertEqual(self.holders(", Answer.BAD_OPTION)"), {"bindings/python/src/viqeshor/__init__.py"})
        self.assertEqual(self.holders("refusal_number Refusal.BadOption = 80"), {"crates/pim_ip/specs/Refusal.antt"})

    def test_so_is_an_answer_of_the_library_alone(self):
        text = '[[answer]]\nnumber = 58\nname = "BadCall"\nabout = "An odd call."\nsays = "an odd call"\n\n'
        self.changed("tables/answers.toml", "[[answer]]\nnumber = 60\n", f"{text}[[answer]]\nnumber = 60\n")
        self.assertEqual(self.ran("--write")[0], 0)
        self.assertEqual(self.holders("/// An odd call.\npub const BAD_CALL: u32 = 58;"), {
            "crates/pim_c/src/returned.rt"})
        self.assertEqual(self.holders('VIQ_BAD_CALL: return "an odd call";'), {"bindings/c/texts.c"})

    def test_a_table_that_lacks_something_is_told_and_nothing_is_written(self):
        for change, said in (
            (("\nnumber = 2\n", "\nnumber = 1\n"), "the number 1 stands more than once"),
            (('of = "HeldRefusal"\n', 'of = "Held"\n'), "HostsNotHeld: no type is called Held"),
            (('core = "another version"\n', ""), "BadVersion has no `core`"),
        ):
            with self.subTest(said):
                self.setUp()
                self.changed("tables/answers.toml", *change)
                status, lines = self.ran("--write")
                self.assertEqual((status, set(lines)), (1, {f"tables: answers.toml: {said}"}))

    def test_so_is_a_reason_to_ignore(self):
        path = self.top / "tables" / "answers.toml"
        more = ANSWER.format(120, "Ignored", "a", "b", "c", "d", "e")
        path.write_text(path.read_text(encoding="utf-8") + more, encoding="utf-8")
        self.assertEqual(self.ran("--write")[0], 0)
        self.assertEqual(self.holders("Ignored.BadOption = 120"), {
            "crates/pim_c/specs/Returned.antt", "crates/pim_runs/specs/Transcript.antt"})
        self.assertLessEqual({"bindings/c/texts.c"}, self.holders('return "ignored: c";'))

    def number(self):
        return declared.abi_number([(self.top / "include" / "viqeshor" / "viqeshor.h").read_text(encoding="utf-8")])

    def test_another_answer_of_the_library_raises_its_number(self):
        number = self.number()
        self.with_answer(10, 20)
        self.assertIn(f"tables: VIQ_ABI is raised to {number + 1}", self.ran("--write")[1])
        self.assertEqual(self.ran(), (0, []))
        self.assertEqual(self.holders(f"VIQ_ABI {number + 1}\n"), {
            "bindings/c/abi.txt", "include/viqeshor/viqeshor.h"})
        self.assertLessEqual({"bindings/rust/src/lib.rs"}, self.holders(f"ABI: u32 = {number + 1};"))
        self.assertLessEqual({"bindings/python/src/viqeshor/__init__.py"}, self.holders(f"\nABI = {number + 1}\n"))
        self.changed("tables/answers.toml", 'name = "BadOption"', 'name = "BadChoice"')
        self.ran("--write", "--keep-abi")
        self.assertEqual((self.ran(), self.number()), ((0, []), number + 1))

    def test_a_text_alone_raises_nothing(self):
        number = self.number()
        self.changed("tables/rows.toml", 'says = "when the Assert Timer expires"', 'says = "when it is over"')
        self.assertEqual(self.ran("--write")[0], 0)
        self.assertEqual((self.ran(), self.number()), ((0, []), number))
        self.assertEqual(self.holders("hen it is over"), {
            "bindings/python/src/viqeshor/rows.py", "bindings/rust/src/rows.rs", "crates/pim_c/src/rows.rt",
            "include/viqeshor/viqeshor.h"} | {"tables/rows.toml"})

    def test_a_column_is_written_wherever_it_stands(self):
        end = '    { name = "end", kind = "moment", from = "fact.end", says = "when the Assert Timer expires" },\n'
        more = '    { name = "metric", kind = "number", from = "fact.winner.metric", says = "an odd metric" },\n'
        self.changed("tables/rows.toml", end, end + more)
        self.assertEqual(self.ran("--write")[0], 0)
        self.assertEqual(self.ran(), (0, []))
        for text, paths in (
            ("        metric: u32,", {"crates/pim_rows/src/table.rt"}),
            ("(e.1).winner.address (e.1).end (e.1).winner.metric", {"crates/pim_rows/specs/Printed.antt"}),
            ("metric: self.winner.metric,", {"crates/pim_shown/src/line.rt"}),
            ("winner.bits ∷ end ∷ metric ∷ []", {"crates/pim_runs/specs/Transcript.antt"}),
            ("A {place} {role} {winner} {end} {metric}", {"crates/lab_parts/src/table.rt"}),
            ("row_of (Row.Assert key role winner end metric)", {
                "crates/pim_c/specs/Rows.antt", "crates/pim_c/src/rows.rt"}),
            ("winner: 0, end: 0, metric: 0 },", {"tools/pimtext/build/library.rt.in"}),
            ("metric: of.metric", {"bindings/rust/src/rows.rs"}),
            ("    metric: int  # an odd metric", {"bindings/python/src/viqeshor/rows.py"}),
            ("    metric: int\n", {"bindings/python/src/viqeshor/lab/printed.py"}),
            ("WINNER END METRIC` |", {"docs/SCENARIOS.md"}), ("METRIC is an odd metric |", {"docs/SCENARIOS.md"}),
            ("uint64_t end; uint32_t metric", {"bindings/c/abi.txt"}),
            ("row->of.asserted.metric", {"torture/refuse/library.c"}),
        ):
            with self.subTest(text):
                self.assertEqual(self.holders(text), paths)

    def test_a_count_is_written_wherever_it_stands(self):
        first = '    { name = "events_total"'
        more = '    { name = "odd_total", kind = "counter", counts = "odd things", field = "odd" },\n'
        self.changed("tables/metrics.toml", first, more + first)
        self.assertEqual(self.ran("--write")[0], 0)
        self.assertEqual(self.holders("odd_total`"), {"docs/LINUX.md"})
        self.assertEqual(self.holders("families::ODD_TOTAL, it.odd"), {"linux/src/show.rs"})
        self.assertEqual(self.holders("pub odd: u64,"), {"linux/src/counters.rs"})
        self.assertEqual(self.holders('"The number of odd things.";'), {"linux/src/metrics/families.rs"})

    def test_a_watched_metric_has_to_be_one(self):
        self.changed("tables/metrics.toml", 'name = "bfd_session_up"', 'name = "bfd_session"')
        lines = self.ran("--write")[1]
        self.assertIn("tables: linux/monitoring/alerts.yml names viqeshor_bfd_session_up, which is no metric", lines)

    def test_a_default_is_written_wherever_it_stands(self):
        for name, value in (("query_interval", 125), ("override_interval", 2500), ("priority", 1)):
            with self.subTest(name):
                self.setUp()
                places = tables.read("defaults")["places"]
                files = {path for path, texts in places.items() if any(f"@{name}" in text for text in texts)}
                self.changed("tables/defaults.toml", f"\n{name} = {value}", f"\n{name} = 471147")
                self.assertEqual(self.ran("--write")[0], 0)
                self.assertEqual(self.holders("471147"), {"tables/defaults.toml", tables.FOR_TOOLS, *files})
        self.changed("tables/defaults.toml", "query_response_interval = 100 ", "query_response_interval = 93 ")
        self.assertEqual(self.ran("--write")[0], 0)
        self.assertEqual(self.holders("query_response = 9.3 "), {"linux/viqeshord.toml"})

    def test_a_place_that_is_gone_is_told(self):
        self.changed("linux/viqeshord.toml", "# robustness = 2 ", "# robust = 2 ")
        self.changed("bindings/c/texts.c", "    switch (answer) {\n", "    switch (number) {\n")
        status, lines = self.ran("--write")
        self.assertEqual((status, len(lines)), (1, 2), lines)
        self.assertTrue(all("doesn't have" in line or "has no part" in line for line in lines), lines)


if __name__ == "__main__":
    unittest.main()
