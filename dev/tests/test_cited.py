"""`dev/cited` on a small tree, whole and spoilt."""
import contextlib
import io
import unittest
from pathlib import Path
from unittest import mock

from tests import stored
from tests.rooms import repository

cited = stored.tool("cited")
FILES = {
    "crates.txt": "# The router\n# numbers\nlow:\n# the router\npim_router: low\n",
    "crates/low/src/lib.rt": """//! Numbers.
pub mod bits;
mod inner;

pub use bits::Bits;
""",
    "crates/low/src/bits.rt": """ghost use Rattle.low.specs.Sums.{IsBelow, sum};
ghost use Rattle.low.specs.Views.{Shown};

/// Bits.
pub struct Bits {
    count: u32,
}

impl Model for Bits {
    ghost Value = { Shown };
}

impl Bits {
    /// So many.
    pub fn most(&self, least: u32) -> u32
        requires { least < 8 }
        ensures below { IsBelow result self.now }
    {
        sum(self, least)
    }

    // More of them.
    fn more(&self) -> u32
        requires { self.count < 8 }
        ensures { result ≡ sum self.now 1 }
    {
        self.count + 1
    }
}
""",
    "crates/low/src/inner.rt": "/// Hidden.\npub fn hidden(n: u32) -> u32\n    requires { n < 9 }\n    ensures "
                               "{ result ≡ n }\n{\n    n\n}\n",
    "crates/low/specs/Sums.antt": """-- sums
use Rattle.low.specs.{Views.{Shown, size as width}, Deep as deep}
use Rattle.std.specs.Prelude.{ℕ, ◌+◌}

module _ {A : Type 0} where
  -- the sum
  unfoldable pub sum : Shown → ℕ → ℕ
  sum s n = width s + n

  -- below it
  abbrev pub IsBelow : ℕ → Shown → Type 0
  IsBelow n s = deep.holds n s

-- nobody cites it
unfoldable pub idle : ℕ
idle = 0
""",
    "crates/low/specs/Views.antt": "-- views\nuse Rattle.low.specs.Other.{unit}\npub record Shown : Type 0 where\n  "
                                   "pub bits : ℕ\n\n"
                                  "unfoldable pub size : Shown → ℕ\nsize s = s.bits + unit\n\npub use "
                                  "Rattle.low.specs.Other.{passed}\n",
    "crates/low/specs/Deep.antt": "use Rattle.low.specs.Views.{passed}\n-- deep\nabbrev pub holds : ℕ → Type "
                                  "0\nholds n = passed n\n",
    "crates/low/specs/Other.antt": "unfoldable pub unit : ℕ\nunit = 1\n\n-- unit alone\nunfoldable pub passed : ℕ → "
                                   "ℕ\npassed n = n\n\nunfoldable pub far : ℕ\nfar = 2\n",
    "crates/low/specs/Laws.antt": "use Rattle.low.specs.Other.{far}\nabbrev pub NeverFar : Type 0\nNeverFar = "
                                  "far\n\nabbrev pub Lemma : Type 0\nLemma = far\n",
    "crates/pim_router/src/lib.rt": "//! The router.\npub mod router;\nmod own;\n\npub use router::Router;\n",
    "crates/pim_router/src/own.rt": "ghost use Rattle.pim_router.specs.Own.{own};\npub fn step(n: u32) -> u32\n    "
                                    "ensures { result ≡ own n }\n{\n    n\n}\n",
    "crates/pim_router/src/router.rt": """ghost use Rattle.pim_router.specs.Standing.{standing};
use low::Bits;

/// The router.
pub struct Router {
    bits: Bits,
}

impl Router {
    /// Its bits.
    pub fn bits(&self) -> &Bits
        ensures { standing self.now }
    {
        &self.bits
    }
}
""",
    "crates/pim_router/specs/Standing.antt": "unfoldable pub standing : ℕ\nstanding = 1\n",
    "crates/pim_router/specs/Own.antt": "unfoldable pub own : ℕ\nown = 1\n",
    "docs/PROVED.md": "# Proved\n\n## In short\n\n| `NeverFar` | never |\n\n## Other\n\n| `Lemma` | so |\n",
    "docs/CALLS.md": "# Calls\n\n<!-- trusted definitions -->\nx\n<!-- end -->\n\n<!-- what calls ask -->\nx\n"
                     "<!-- end -->\n\n<!-- calls -->\nx\n<!-- end -->\n",
    "docs/LIBRARY.md": "# The library\n\n## What one event can bring\n\nNothing.\n",
}


def ran(room, *words):
    """The status and what is printed."""
    out = io.StringIO()
    with mock.patch.object(cited, "TOP", room), mock.patch("sys.argv",
        ["cited", *words]), contextlib.redirect_stdout(out):
        try:
            cited.main()
        except SystemExit as end:
            return end.code, out.getvalue()
    return 0, out.getvalue()


class Walk(unittest.TestCase):
    def test_all_that_is_cited_and_no_more(self):
        with repository(FILES) as room:
            self.assertEqual({("low/specs/Sums", "IsBelow"), ("low/specs/Views", "Shown"), ("low/specs/Deep", "holds"),
                              ("low/specs/Other", "passed"), ("low/specs/Other", "far"), ("low/specs/Laws", "NeverFar"),
                              ("pim_router/specs/Standing", "standing")}, cited.trusted(room))

    def test_of_a_definition_s_own_imports(self):
        with repository({**FILES, "crates/low/src/bits.rt": FILES["crates/low/src/bits.rt"].replace("IsBelow result",
            "IsBelow (sum result)")}) as room:
            self.assertLessEqual({("low/specs/Sums", "sum"), ("low/specs/Views", "size"), ("low/specs/Other", "unit")},
                cited.trusted(room))

    def test_operators_and_the_cases_of_a_type(self):
        ways = ("\npub data Way : Type 0 where\n  Up : ℕ → Way\n  Down : Way\n\nabbrev pub ◌∪◌ : ℕ → ℕ → ℕ\n◌∪◌ a b = "
                "a\n")
        deep = FILES["crates/low/specs/Deep.antt"].replace("passed n", "Up (n ∪ n)").replace("{passed}", "{Up, ◌∪◌}")
        deep = deep.replace("specs.Views", "specs.Other")
        other = FILES["crates/low/specs/Other.antt"] + ways
        with repository({**FILES, "crates/low/specs/Deep.antt": deep, "crates/low/specs/Other.antt": other}) as room:
            self.assertLessEqual({("low/specs/Other", "Way"), ("low/specs/Other", "◌∪◌")}, cited.trusted(room))

    def test_each_law_of_networks(self):
        law = "ghost use Rattle.low.specs.Laws.{Lemma};\n\n/// It is so.\npub fn lemma()\n    ensures { Lemma }\n{}\n"
        with repository({**FILES, "crates/law_streams/src/lib.rt": law}) as room:
            self.assertIn(("low/specs/Laws", "Lemma"), cited.trusted(room))

    def test_what_is_said_of_each_call(self):
        laws = ("//! Laws.\n\n/// It is so, of\n/// (*,G). Always.\n#[tactic(auto)]\npub fn lemma()\n"
                "    ensures { Lemma }\n{}\n")
        bits = FILES["crates/low/src/bits.rt"].replace("So many.", "So many. And no more.")
        bits = bits.replace("    requires { least <", "    requires few { least <")
        files = {**FILES, "crates/low/src/bits.rt": bits, "crates/law_low/src/lib.rt": laws,
                 "crates.txt": FILES["crates.txt"].replace("low:\n", "low:\n# laws\nlaw_low: low\n")}
        with repository(files) as room:
            self.assertEqual(["### low", "- `Bits::most`: So many. (asks `few`; `below`; by `IsBelow`)",
                "### law_low", "- `Lemma`: It is so, of (\\*,G). Always.",
                "### pim_router", "- `Router::bits`: Its bits. (by `standing`)"], list(cited.call_items(room)))

    def test_each_file_of_laws_has_a_heading(self):
        law = "//! Laws.\n\n/// It is so.\npub fn lemma()\n    ensures { Lemma }\n{}\n"
        files = {**FILES, "crates/law_low/src/lib.rt": "pub mod kept;\npub mod plain;\n",
                 "crates/law_low/src/kept.rt": law, "crates/law_low/src/plain.rt": law,
                 "crates.txt": FILES["crates.txt"].replace("low:\n", "low:\n# laws\nlaw_low: low\n")}
        with repository(files) as room:
            of_laws = list(cited.call_items(room))[2:-2]
            self.assertEqual(["### law_low", "#### kept", "- `Lemma`: It is so.", "#### plain", "- `Lemma`: It is so."],
                             of_laws)

    def test_what_calls_ask(self):
        with repository(FILES) as room:
            self.assertEqual(["1 public calls below the router have a `requires` (`dev/cited --requires`)",
                "of `low` `Bits::most`"],
                             list(cited.asking_items(room)))


class Check(unittest.TestCase):
    def test_lists_that_were_written(self):
        with repository(FILES) as room:
            ran(room, "--write")
            self.assertEqual((0, ""), ran(room, "--check"))
            self.assertIn("7 definitions", (room / "docs" / "CALLS.md").read_text())

    def spoilt(self, file, old, new):
        with repository(FILES) as room:
            ran(room, "--write")
            text = (room / file).read_text()
            self.assertEqual(1, text.count(old), text)
            (room / file).write_text(text.replace(old, new))
            return ran(room, "--check")

    def test_a_clause_that_cites_more(self):
        status, printed = self.spoilt("crates/pim_router/src/router.rt", "{ standing self.now }", "{ standing own }")
        self.assertEqual((0, ""), (status, printed))
        status, printed = self.spoilt("crates/pim_router/src/router.rt", "specs.Standing.{standing};",
            "specs.Own.{own as standing};")
        self.assertEqual(1, status)
        self.assertIn("docs/CALLS.md: this is missing: of `pim_router` in `Own`", printed)

    def test_a_definition_that_cites_more(self):
        status, printed = self.spoilt("crates/low/specs/Deep.antt", "holds n = passed n",
            "holds n = passed n + far\nuse Rattle.low.specs.Other.{far}")
        self.assertEqual((0, ""), (status, printed))
        status, printed = self.spoilt("crates/low/specs/Other.antt", "passed n = n", "passed n = unit")
        self.assertEqual((1, 2), (status, len(printed.splitlines())))
        self.assertIn("8 definitions", printed)

    def test_a_file_that_the_list_leaves_out(self):
        status, printed = self.spoilt("docs/CALLS.md", "; of `pim_router` in `Standing`", "")
        self.assertEqual((1, "docs/CALLS.md: this is missing: of `pim_router` in `Standing`\n"), (status, printed))

    def test_a_law_of_the_table_that_is_another(self):
        status, printed = self.spoilt("docs/PROVED.md", "| `NeverFar`", "| `Never`")
        self.assertEqual(1, status)
        self.assertIn("docs/CALLS.md: this isn't so: 7 definitions", printed)

    def test_laws_of_each_section(self):
        for file, old, new in (
                ("docs/PROVED.md", "| so |\n", "| so |\n\n## Also\n\nBy `Lemma`.\n"),
                ("docs/PROVED.md", "| `NeverFar` | never |", "| `NeverFar` | never |\n| `Lemma` | so |"),
                ("docs/LIBRARY.md", "Nothing.", "| data | nothing | `Lemma` |")):
            status, printed = self.spoilt(file, old, new)
            self.assertEqual("Also" not in new, status == 1, printed)
            self.assertEqual("Also" not in new, "8 definitions" in printed, printed)

    def test_a_call_that_is_said_otherwise(self):
        for old, new, said in (
                ("/// So many.", "/// Some.", "- `Bits::most`: Some. (asks; `below`; by `IsBelow`)"),
                ("ensures below", "ensures least", "- `Bits::most`: So many. (asks; `least`; by `IsBelow`)")):
            status, printed = self.spoilt("crates/low/src/bits.rt", old, new)
            self.assertEqual(1, status)
            self.assertEqual(["docs/CALLS.md: this isn't so: - `Bits::most`: So many. (asks; `below`; by `IsBelow`)",
                f"docs/CALLS.md: this is missing: {said}"], printed.splitlines())

    def test_a_call_that_asks_more(self):
        status, printed = self.spoilt("crates/low/src/bits.rt", "    fn more", "    pub fn more")
        self.assertEqual(1, status)
        self.assertIn("docs/CALLS.md: this is missing: of `low` `Bits::most`, `Bits::more`", printed)

    def test_no_list_at_all(self):
        status, printed = self.spoilt("docs/CALLS.md", "<!-- trusted definitions -->", "")
        self.assertEqual(1, status)
        self.assertIn("docs/CALLS.md: it has no list", printed)

    def test_this_repository(self):
        self.assertEqual((0, ""), ran(Path(cited.__file__).resolve().parent.parent, "--check"))


if __name__ == "__main__":
    unittest.main()
