"""`torture/run bootstraps`: its reading of RFC 5059 by hand, and that each rule which it forgets is noticed."""
import unittest
from argparse import Namespace
from contextlib import redirect_stdout
from io import StringIO
from ipaddress import IPv4Address, IPv4Network

from pimtext.build.library import Library
from stress import bootstraps, listeners, rfc5059
from stress.plane import refusing
from stress.rfc5059 import Around, Listener, packet
from tests.forgetting import OfRouters
from viqeshor import Answer
from viqeshor.lab import packets
from viqeshor.lab.packets import Bootstrap, CandidateRp, RpRange, bootstrap_message

ABOVE, BSR = "10.0.0.1", "10.9.9.9"
# The RPs of 239.0.0.0/8, and the values that FRR 8.4.4 prints for them with a mask of 30 bits.
PRINTED = {"10.99.0.1": 2067580945, "10.88.0.9": 240866473, "10.77.0.2": 53588824}
FIRST, SECOND, THIRD = PRINTED


class Written(unittest.TestCase):
    ZONE = RpRange("239.0.0.1", 8, (CandidateRp(FIRST, 150, 5),), 3, is_zone=True)
    WHOLE = Bootstrap(BSR, (ZONE, RpRange("225.1.1.1", 32)), 0x0102, 30, 10, no_forward=True)
    BYTES = bytes.fromhex("2480" "c039" "0102" "1e0a" "01000a090909"
                          "01000108ef000001" "03010000" "01000a630001" "00960500"
                          "01000020e1010101" "00000000")

    def test_the_bytes_of_a_message_are_those_of_section_4_1(self):
        self.assertEqual(packets.sum16(self.BYTES), 0)
        self.assertEqual(bootstrap_message(self.WHOLE), self.BYTES)
        self.assertEqual(packets.read_bootstrap(self.BYTES), self.WHOLE)

    def test_what_can_not_be_read(self):
        lawful = [14, 36]
        for length in range(8, len(self.BYTES)):
            with self.subTest(length):
                if length in lawful:
                    packets.read_bootstrap(self.BYTES[:length])
                else:
                    self.assertRaises(packets.Refused, packets.read_bootstrap, self.BYTES[:length])
        for place, value, refusal in ((6, 33, packets.LENGTH), (8, 2, packets.ADDRESS), (10, 224, packets.ADDRESS),
                                      (17, 3, packets.LENGTH), (17, 33, packets.LENGTH), (18, 10, packets.GROUP),
                                      (28, 224, packets.ADDRESS)):
            with self.subTest(place), self.assertRaises(packets.Refused) as raised:
                packets.read_bootstrap(packets.with_number(self.BYTES, place, value, 1))
            self.assertEqual(raised.exception.args, (refusal,))


class Reading(unittest.TestCase):
    """What is known by messages that were followed by hand."""

    def setUp(self):
        self.around = Around([("10.0.0.2", 24), ("10.0.1.1", 24)], [], [("10.9.0.0/16", ABOVE, 0)], up={0, 1})
        for iface, whom in ((0, ABOVE), (0, "10.0.0.3"), (1, "10.0.1.2")):
            self.around.hello(iface, whom, 0xFFFF)
        self.listener = Listener(self.around, [("239.1.0.0/16", "10.0.0.99")], limit=3, refresh_end=60_000)

    def hear(self, rps=(), count=None, source=ABOVE, bsr=BSR, **more):
        told = RpRange("239.0.0.1", 8, tuple(CandidateRp(*each) for each in rps), len(rps) if count is None else count)
        return self.listener.hear(0, packet(source, bootstrap_message(Bootstrap(bsr, (told,), **more))))

    def rp(self, group="239.9.9.9"):
        return self.listener.rp(group)

    def test_the_hash_is_what_another_program_prints(self):
        for rp, value in PRINTED.items():
            self.assertEqual(rfc5059.hashed(30, IPv4Address("239.0.0.0"), rp), value)

    def test_fragments_and_their_ends(self):
        self.listener.pass_to(1000)
        first = self.hear([(SECOND, 150, 5), (THIRD, 150, 5)], 3)
        self.assertEqual((first.answer, first.moved, [sent[1] for sent in first.sent]), (Answer.DONE, False, [0, 1]))
        self.assertEqual((self.rp(), self.listener.next_end()), (None, None))
        self.listener.pass_to(1005)
        self.assertTrue(self.hear([(FIRST, 150, 5)], 3).moved)
        self.assertEqual((self.rp(), self.rp("239.1.1.1"), self.rp("232.1.1.1")), (FIRST, "10.0.0.99", None))
        self.assertEqual((self.listener.next_end(), self.listener.elected), (151_005, (BSR, 10, 131_005)))
        self.listener.pass_to(131_005)
        self.assertEqual((self.rp(), self.listener.elected), (FIRST, None))
        self.listener.pass_to(151_005)
        self.assertEqual((self.rp(), self.listener.kept.count()), (None, 0))

    def test_fragments_that_never_end(self):
        self.hear([(SECOND, 150)], 2)
        self.listener.pass_to(129_999)
        self.assertEqual(self.listener.kept.count(), 1)
        self.listener.pass_to(130_000)
        self.assertEqual(self.listener.kept.count(), 0)

    def test_which_messages_count(self):
        def answer(**how):
            return self.hear([(SECOND, 150)], **how).answer

        self.assertEqual(answer(bsr="10.0.0.2"), Answer.OWN_BSR)
        self.assertEqual(answer(source="10.0.0.4"), Answer.NO_NEIGHBOUR)
        self.assertEqual(answer(source="10.0.0.3"), Answer.NOT_FROM_RPF)
        self.assertEqual(answer(source="10.0.0.3", no_forward=True), Answer.DONE)
        self.assertEqual(answer(no_forward=True), Answer.LATE_REFRESH)
        self.assertEqual(answer(bsr="10.9.9.8"), Answer.NOT_PREFERRED)
        self.assertEqual(answer(bsr="10.9.9.8", priority=11), Answer.DONE)
        self.assertEqual(self.hear([(rp, 150) for rp in ("10.1.1.1", "10.1.1.2", "10.1.1.3", "10.1.1.4")],
                                   bsr="10.9.9.8", priority=11).answer, Answer.FULL)

    def test_rps_go(self):
        self.hear([(FIRST, 150), (SECOND, 150)])
        self.hear([(FIRST, 0), (SECOND, 150)], tag=8)
        self.assertEqual(self.rp(), SECOND)
        self.assertEqual(self.listener.given()[0][IPv4Network("239.0.0.0/8")], SECOND)
        self.assertTrue(self.hear([]).moved)
        self.assertIsNone(self.rp())

    def test_each_group_has_its_own_rp(self):
        """By the values that FRR prints of 239.0.0.0, 418197941, 343260749 and 974265596 of 239.0.0.5, and 612161605,
        1478452445 and 657310604 of 239.0.0.21."""
        def rps():
            return [self.rp(f"239.0.0.{last}") for last in (1, 5, 21)]

        self.hear([(rp, 150, 5) for rp in PRINTED])
        self.assertEqual(rps(), [FIRST] * 3)
        self.listener.choose("group")
        self.assertEqual((rps(), self.rp("239.1.1.1")), ([FIRST, THIRD, SECOND], "10.0.0.99"))
        self.assertIsNone(self.rp("232.1.1.1"))
        self.assertEqual(self.listener.given()[0], self.listener.static)
        self.hear([(FIRST, 150, 6), (SECOND, 150, 6), (THIRD, 150, 7)], tag=8)
        self.assertEqual(rps(), [FIRST, FIRST, SECOND])
        self.listener.configure([("239.0.0.0/24", "10.0.0.98"), ("239.0.0.0/8", "10.0.0.97")], 3)
        self.assertEqual((rps(), self.rp()), (["10.0.0.98"] * 3, "10.0.0.97"))
        self.listener.configure([], 3)
        self.assertEqual(rps(), [FIRST, FIRST, SECOND])

    def test_a_repetition_is_not_sent_on_where_it_came(self):
        def sent(moment):
            self.listener.pass_to(moment)
            return [where for _, where, _ in self.hear([(FIRST, 150)]).sent]

        self.assertEqual([sent(moment) for moment in (0, 999, 1998, 2998)], [[0, 1], [1], [1], [0, 1]])
        self.assertEqual(self.hear([(FIRST, 150)], no_forward=True, bsr="10.9.9.10").sent, ())


class Listeners(OfRouters):
    @classmethod
    def setUpClass(cls):
        cls.library = refusing(Library(is_proved=False))

    def test_each_rule_that_is_forgotten_is_noticed(self):
        self.notices(bootstraps, rfc5059.RULES, Namespace(events=100))

    def test_a_divergence_is_printed_with_its_events(self):
        lines, words = bootstraps.trial(self.library, "tags", ["fragments"])
        with redirect_stdout(StringIO()) as out:
            self.assertFalse(bootstraps.told("trial tags", lines, words))
        self.assertIn(f"{len(words)} events:\n  1 up 0\n", out.getvalue())
        self.assertIn("  whether the ranges moved:\n    is        False\n    has to be True\n", out.getvalue())

    def test_a_storm(self):
        for kind in bootstraps.STORMS:
            with self.subTest(kind):
                said = self.said(bootstraps.storm, self.library, kind, 1)
                self.assertRegex(said, r"2000 messages, .* at most \d+ allocations: no divergence\n")

    def test_memory_that_is_refused(self):
        said = self.said(listeners.is_right, self.library, 2)
        self.assertRegex(said, r"[1-9]\d* routers lost, [1-9]\d+ calls that changed nothing and \d+ done without, in "
                               r"[1-9]\d* runs: no other outcome\n")


if __name__ == "__main__":
    unittest.main()
