"""`dev/unused`: what it lists, and what it knows to be used though nothing names it."""
import unittest
from unittest import mock

from tests import stored
from tests.rooms import repository

unused = stored.tool("unused")
CODE = """\
//! A crate.
ghost use Rattle.kin.specs.Laws.{HoldsAlways};

/// Called below.
pub fn called() -> u32 {
    1
}

/// Nobody calls it, though `left` stands here, and left() in its own body.
pub fn left() -> u32 {
    left()
}

/// A clause alone names it.
pub fn in_a_clause() -> u32
    ensures { result ≡ 1 }
{
    called()
}

/// Its clause names another.
#[unsafe(no_mangle)]
pub extern "C" fn pim_call() -> u32
    ensures { result ≡ in_a_clause }
{
    called()
}

/// A law.
pub fn holds_always()
    ensures { HoldsAlways }
{}

impl Clone for Thing {
    fn clone(&self) -> Thing {
        *self
    }
}

#[test]
fn known_values() {
    called();
}
"""
LEMMAS = """\
use Rattle.std.specs.Prelude.{ℕ, ◌≡◌, refl}

-- a record, of which no field is named
pub record IsRoute (text : ℕ) : Type 0 where
  pub prefix_text : text ≡ text
  pub metric_text : text ≡ text

pub named : (n : ℕ) → IsRoute n
named n = shown n

-- left lemma: a comment names forgotten
pub forgotten : (n : ℕ) → n ≡ n
forgotten n = forgotten n

module _ (n : ℕ) where
  inner_forgotten : n ≡ n
  inner_forgotten = refl

  pub shown : (n : ℕ) → IsRoute n
  shown n = named n
"""


def listed(code, lemmas="", others=""):
    files = {"crates/kin/src/lib.rt": code, "crates/kin/proofs/Lemmas.antt": lemmas,
        "crates/kin/proofs/Others.antt": others}
    # What was built is no part of it.
    files["crates/kin/src/out/lib.rt"] = "fn built() {\n}\n"
    with repository(files) as room, mock.patch.object(unused, "TOP", room):
        return [line.partition(": ")[2] for line in (*unused.unused_functions(), *unused.unused_lemmas())]


class Listed(unittest.TestCase):
    def test_functions_that_nothing_calls(self):
        self.assertEqual(listed(CODE), ["function left", "function in_a_clause"])

    def test_what_is_called_from_another_crate_is_used(self):
        self.assertEqual(listed(CODE + "fn last() -> u32 {\n    left() + in_a_clause() + last()\n}\n"),
            ["function last"])

    def test_what_c_calls_is_used(self):
        self.assertNotIn("function pim_call", listed(CODE))
        self.assertIn("function pim_call", listed(CODE.replace('pub extern "C" fn', "pub fn")))

    def test_laws_are_used_and_what_has_a_body_is_no_law(self):
        self.assertNotIn("function holds_always", listed(CODE))
        with_a_body = CODE.replace("{ HoldsAlways }\n{}", "{ HoldsAlways }\n{\n    called();\n}")
        self.assertIn("function holds_always", listed(with_a_body))

    def test_lemmas_that_nothing_names(self):
        self.assertEqual(listed("", LEMMAS), ["forgotten", "inner_forgotten"])

    def test_a_lemma_that_code_names_is_used(self):
        used = "#[tactic(auto, using(crate::proofs::Lemmas::forgotten))]\npub fn law()\n    ensures { IsRoute }\n{}\n"
        self.assertEqual(listed(used, LEMMAS), ["inner_forgotten"])

    def test_what_another_file_calls_alike_is_no_use(self):
        others = "forgotten : (n : ℕ) → n ≡ n\nforgotten n = refl\n\nlast : ℕ\nlast = forgotten last\n"
        self.assertEqual(listed("", LEMMAS, others), ["forgotten", "inner_forgotten", "last"])
        imported = "use Rattle.kin.proofs.Lemmas.{forgotten}\n\nlast : ℕ\nlast = forgotten last\n"
        self.assertEqual(listed("", LEMMAS, imported), ["inner_forgotten", "last"])

    def test_what_a_third_file_passes_on_is_used(self):
        passes = "pub use Rattle.kin.proofs.Lemmas.{forgotten}\n"
        user = "use Rattle.kin.proofs.Others.{forgotten}\n\nlast : ℕ\nlast = forgotten last\n"
        with repository({"crates/kin/proofs/Lemmas.antt": LEMMAS, "crates/kin/proofs/Others.antt": passes,
                         "crates/kin/proofs/Users.antt": user}) as room, mock.patch.object(unused, "TOP", room):
            found = [line.partition(": ")[2] for line in unused.unused_lemmas()]
        self.assertEqual(found, ["inner_forgotten", "last"])

    def test_an_import_is_no_use_in_groups_of_groups_too(self):
        imports = ("use Rattle.kin.proofs.{Lemmas.{forgotten, IsRoute}, "
                   "Deep.{forgotten as old, Deeper.{inner_forgotten}}}\n")
        self.assertEqual(listed("", imports + LEMMAS), ["forgotten", "inner_forgotten"])
        self.assertEqual(listed("", imports + LEMMAS + "\nlast : ℕ\nlast = forgotten last\n"),
            ["inner_forgotten", "last"])

    def test_a_record_that_nothing_names(self):
        self.assertEqual(listed("", LEMMAS.replace("→ IsRoute n", "→ n ≡ n")),
            ["IsRoute", "forgotten", "inner_forgotten"])

    def test_places(self):
        with repository({"crates/kin/src/lib.rt": CODE}) as room, mock.patch.object(unused, "TOP", room):
            first = next(iter(unused.unused_functions()))
        self.assertEqual(first,
            f"crates/kin/src/lib.rt:{CODE[:CODE.index('pub fn left')].count(chr(10)) + 1}: function left")


class Here(unittest.TestCase):
    def test_no_call_of_the_c_library_and_no_law_of_this_repository_is_listed(self):
        found = list(unused.unused_functions())
        self.assertFalse([line for line in found if "crates/pim_c/src/calls.rt" in line or "/laws.rt" in line], found)


if __name__ == "__main__":
    unittest.main()
