"""What is told of a run of the kit's gate, by lines as the kit prints them."""
import unittest

from upkeep.told import Told

NAMES = ["pim_ip", "pim_meter", "pim_types", "pim_wire", "pimlab"]
# As the kit prints of a crate that is proved, of one that isn't, and of tests.
PROVED = """== pim_ip
by-macro: thiserror::Error blocks=4
struct pim_ip::addr::Addr: proved
fn pim_ip::addr::Addr::octets: proved
empty contracts: 0 found; tried 53 of 53 functions
logic=proved functions=53 sum=dac8208d650f15bf native=nat,char,string
rt: pim_ip proved"""
NOT_PROVED = """== pim_wire
fn pim_wire::read: proved
note: src/read.rt:13:5: it is not proved that what the function ensures holds when it returns (`returns`)
rt: pim_wire NOT PROVED"""
LIBRARY_FAILED = "rt: pimlab NOT PROVED: its library pim_wire failed"
TESTS = """== pim_meter: its tests
fn pim_meter::known: proved
logic=proved functions=7 sum=dac8208d650f15bf
rt: pim_meter: its tests are proved"""
KEPT = "rt: pim_types is kept: an earlier run on this machine proved the same files over the same libraries"
EDITS = """edit pim_ip/counts_one_more: refused: note: src/addr.rt:1:1: it is not proved
edit pim_ip/counts_none: STILL PROVED
seconds pim_ip edits 12.0 9.1"""


class Lines(unittest.TestCase):
    def setUp(self):
        self.now = 0
        self.told = self.of_limit(None)

    def of_limit(self, limit):
        return Told(NAMES, ["pim_ip", "pim_wire"], limit, lambda: self.now)

    def of(self, text, now):
        self.now = now
        return [told for line in text.splitlines() for told in self.told.of(line)]

    def test_a_line_a_crate(self):
        first = "1 of 5 crates: pim_ip proved, 53 functions; 1 min 21 s so far; left: 4 crates, edits of pim_ip " \
            "pim_wire"
        self.assertEqual([first], self.of(PROVED, 81))
        second = "2 of 5 crates: pim_types kept from an earlier run; 62 min 05 s so far; left: "
        self.assertEqual([second + "pim_meter pim_wire pimlab, edits of pim_ip pim_wire"], self.of(KEPT, 3725))

    def test_of_a_crate_that_is_not_proved_all_but_what_is_proved(self):
        _, block, note, end, *more = self.of(f"{PROVED}\n{NOT_PROVED}", 5)
        self.assertEqual(["== pim_wire", "rt: pim_wire NOT PROVED"], [block, end])
        self.assertIn("src/read.rt:13:5", note)
        last = "2 of 5 crates: pim_wire NOT PROVED; 0 min 05 s so far; left: pim_meter pim_types pimlab, " \
            "edits of pim_ip pim_wire"
        self.assertEqual([last], more)

    def test_a_crate_whose_library_failed(self):
        last = "1 of 5 crates: pimlab NOT PROVED; 0 min 07 s so far; left: 4 crates, edits of pim_ip pim_wire"
        self.assertEqual([LIBRARY_FAILED, last], self.of(LIBRARY_FAILED, 7))

    def test_tests_and_edits(self):
        self.assertEqual(["pim_meter: its tests are proved; 0 min 09 s so far"], self.of(TESTS, 9))
        told = "pim_ip: 1 of 2 edits are refused as they say; 0 min 11 s so far; left: 5 crates, edits of pim_wire"
        self.assertEqual([told], self.of(EDITS, 11))
        self.assertEqual([], self.of("seconds pim_ip proof 12.0 9.1", 11))
        self.assertEqual(["== pim_meter: its tests", "rt: pim_meter: its tests are NOT PROVED"],
                         self.of("== pim_meter: its tests\nrt: pim_meter: its tests are NOT PROVED", 12))

    def test_at_last_nothing_is_left_but_edits(self):
        told = [line for name in NAMES for line in self.of(f"== {name}\nrt: {name} proved", 60)]
        last = "5 of 5 crates: pimlab proved, 0 functions; 1 min 00 s so far; left: edits of pim_ip pim_wire"
        self.assertEqual(last, told[-1])

    def test_how_long_it_may_yet_take_and_what_is_missing(self):
        self.told = self.of_limit(600)
        self.assertIn("1 min 21 s so far, 8 min 39 s of TEST_MINUTES left; left: 4 crates", self.of(PROVED, 81)[0])
        self.assertEqual("pim_meter, pim_types, pim_wire, pimlab, edits of pim_ip pim_wire", self.told.missing())

    def test_what_is_of_no_crate_is_passed_on(self):
        waits = "rt: waiting for another rt ci in this copy of the repository to end"
        for line in ("rt: FAILED: pim_wire", waits, "a program printed this"):
            self.assertEqual([line], self.told.of(line))


if __name__ == "__main__":
    unittest.main()
