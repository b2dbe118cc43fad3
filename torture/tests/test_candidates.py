"""`torture/run candidates`: its reading of RFC 7761 by hand, and that each rule which it forgets is noticed."""
import unittest
from argparse import Namespace
from ipaddress import IPv4Address

from stress import candidates
from stress.candidates import Reading
from tests.forgetting import OfRouters
from viqeshor import Answer

# 239.0.0.0/8, of which FRR 8.4.4 prints these hash values with a mask of 30 bits; 239.0.0.3 has them too.
WIDE, LENGTH = int(IPv4Address("239.0.0.0")), 8
PRINTED = {"10.99.0.1": 2067580945, "10.88.0.9": 240866473, "10.77.0.2": 53588824}
FIRST, SECOND, THIRD = PRINTED


class Read(unittest.TestCase):
    def setUp(self):
        self.reading = Reading()

    def rp(self, group="239.0.0.3"):
        return self.reading.rp(int(IPv4Address(group)))

    def takes(self, *named):
        return self.reading.take_candidates([(WIDE, LENGTH, rp, priority, 30) for rp, priority in named])

    def test_the_greatest_value_of_those_that_another_program_prints(self):
        self.assertEqual(self.takes(*((rp, 7) for rp in PRINTED)), Answer.DONE)
        self.assertEqual((self.rp(), self.rp("238.0.0.3"), self.rp("232.0.0.3")), (FIRST, None, None))
        self.takes((THIRD, 7), (SECOND, 7))
        self.assertEqual(self.rp(), SECOND)

    def test_before_it_the_prefix_and_the_priority_and_after_it_the_address(self):
        self.takes((FIRST, 7), (SECOND, 6), (THIRD, 255))
        self.assertEqual(self.rp(), SECOND)
        self.takes(("10.99.0.1", 7), ("138.99.0.1", 7))
        self.assertEqual(self.rp(), "138.99.0.1")
        narrow = int(IPv4Address("239.0.0.0")), 16, THIRD, 255, 0
        self.reading.take_candidates([(WIDE, LENGTH, FIRST, 0, 30), narrow])
        self.assertEqual((self.rp(), self.rp("239.1.0.3")), (THIRD, FIRST))

    def test_a_range_beside_candidates(self):
        self.takes((FIRST, 0))
        self.reading.take_ranges([(WIDE, LENGTH, THIRD)])
        self.assertEqual(self.rp(), THIRD)
        self.reading.take_ranges([(int(IPv4Address("224.0.0.0")), 4, THIRD)])
        self.assertEqual((self.rp(), self.rp("225.0.0.3")), (FIRST, THIRD))

    def test_what_can_not_stand_changes_nothing(self):
        self.takes((FIRST, 0))
        for wrong in ((WIDE | 1, 8, THIRD, 0, 30), (WIDE, 3, THIRD, 0, 30), (WIDE, 8, "224.0.0.1", 0, 30),
                      (WIDE, 8, THIRD, 256, 30), (WIDE, 8, THIRD, 0, 33)):
            with self.subTest(wrong):
                self.assertEqual(self.reading.take_candidates([wrong]), Answer.BAD_CANDIDATES)
                self.assertEqual(self.rp(), FIRST)
        self.assertEqual(self.takes((THIRD, 0), (THIRD, 5)), Answer.BAD_CANDIDATES)
        many = [(f"10.0.{at >> 8}.{1 + at & 255}", 0) for at in range(257) if (1 + at) & 255]
        self.assertEqual((self.takes(*many[:256]), self.rp() in dict(many)), (Answer.DONE, True))


class Routers(OfRouters):
    def test_each_rule_that_is_forgotten_is_noticed(self):
        self.notices(candidates, candidates.RULES, Namespace(events=60))

    def test_random_runs(self):
        said = self.said(candidates.all_runs, self.library, Namespace(seconds=2, seed=1, events=50))
        self.assertRegex(said, r"^[1-9]\d* runs, [1-9]\d* lists and restarts: no divergence\n$")

    def test_a_divergence_is_told_with_its_events(self):
        differs, words = candidates.run(self.library, 1, 60, ["hash"])
        self.assertRegex(differs, r"^the RP of 2\S+: is \S+, and has to be \S+$")
        self.assertTrue(any(word.startswith("candidates [") for word in words))


if __name__ == "__main__":
    unittest.main()
