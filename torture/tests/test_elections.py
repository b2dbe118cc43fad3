"""`torture/run elections`: its reading of RFC 5059 by hand, and that each rule which it forgets is noticed."""
import math
import unittest
from argparse import Namespace
from ipaddress import IPv4Network

from stress import elections
from stress.advertised import (
    Advertised,
    AsBsr,
    AsRp,
    Differs,
    Sent,
    advertisement_message,
    advertisement_packet,
    content,
    override,
    read_advertisement,
)
from stress.rfc5059 import Around, Listener, packet
from stress.standing import Standing
from tests.forgetting import OfRouters
from viqeshor import Answer
from viqeshor.lab import packets
from viqeshor.lab.packets import Bootstrap, CandidateRp, RpRange, bootstrap_message

OWN, NEXT, LOWER, HIGHER = "10.0.0.9", "10.0.0.2", "10.8.0.1", "10.9.0.1"
RANGE = ("239.3.0.0", 16, False)
# What FRR 10.3 sent as a candidate RP, and then as the BSR.
FROM_FRR = bytes.fromhex("2800daf0" "01070097" "01000a5b0002" "01000010ef030000")
BSR_OF_FRR = bytes.fromhex("24004566" "68f21e40" "01000a5c0002" "01000010ef030000" "01010000" "01000a5b0002" "00970700")


class Read(unittest.TestCase):
    def standing(self, bsr=None, rp=None, own=OWN):
        around = Around([(own, 24)], routes=[("10.8.0.0/15", NEXT, 0)], up={0}, neighbours={(0, NEXT): math.inf})
        return Standing(Listener(around), bsr, rp)

    def elected(self, bsr=None, rp=None, said=None):
        """At 5 s it says that it is the BSR."""
        standing = self.standing(bsr or AsBsr(OWN, 64), rp, (bsr or AsBsr(OWN)).address)
        standing.end = 5000, 5000
        standing.listener.around.now = 5000
        body = bootstrap_message(said or Bootstrap(standing.bsr.address, (), 1, 30, standing.bsr.priority))
        standing.pass_to(5000, Sent([("frame", 0, packet(standing.bsr.address, body))]))
        return standing

    def hears(self, standing, bsr, priority, now, sends=(), **how):
        """A Bootstrap comes, and is sent on or not."""
        body = bootstrap_message(Bootstrap(bsr, priority=priority, **how))
        standing.listener.around.now = now
        sent = [("frame", 0, packet(OWN, body))] * (sends == "it")
        return standing.hear(0, packet(NEXT, body), Sent(sent or sends))[0], standing.role, standing.end

    # ---- messages

    def test_an_advertisement_of_frr(self):
        told = Advertised("10.91.0.2", (RANGE,), 7, 151)
        self.assertEqual((read_advertisement(FROM_FRR), advertisement_message(told)), (told, FROM_FRR))
        for length in range(8, len(FROM_FRR)):
            self.assertRaises(packets.Refused, read_advertisement, FROM_FRR[:length])

    def test_what_frr_says_of_it_as_the_bsr(self):
        standing = self.elected(AsBsr("10.92.0.2", 64))
        standing.take_advertised(read_advertisement(FROM_FRR))
        standing.check([BSR_OF_FRR])
        for wrong in (standing.whole(), Bootstrap("10.92.0.2", (), 9, 30, 64)):
            with self.assertRaises(Differs):
                self.elected(AsBsr("10.92.0.2", 65)).check([bootstrap_message(wrong)])
                standing.check([bootstrap_message(wrong)])
                standing.bsr = AsBsr("10.92.0.2", 65)

    def test_what_is_sent_besides_is_told(self):
        for sent in ([("frame", 0, packet(OWN, BSR_OF_FRR))], [("unicast", HIGHER, b"")]):
            with self.assertRaises(Differs):
                self.standing().pass_to(1, Sent(sent))

    # ---- delays

    def test_delays_by_the_formula_of_section_5(self):
        for own, stored, seconds in [
            (AsBsr("10.0.0.1", 10), None, 5), (AsBsr("0.0.0.0", 0), AsBsr("10.0.0.1", 255), 23),
            (AsBsr("192.0.0.1", 10), AsBsr("10.0.0.1", 13), 9.5), (AsBsr("10.0.0.1", 10), AsBsr("10.0.0.16", 10), 5.25),
        ]:
            self.assertAlmostEqual(override(own, stored), 1000 * seconds, delta=0.01)

    # ---- elections

    def test_alone_it_is_the_bsr_after_5_s_and_says_so_each_60_s(self):
        standing = self.standing(AsBsr(OWN))
        self.assertEqual((standing.role, standing.end), ("pending", (4820, 5001)))
        standing = self.elected()
        self.assertEqual((standing.role, standing.end, standing.quiet), ("elected", (65_000, 65_000), 15_000))
        self.assertEqual(standing.listener.elected, (OWN, 64, 135_000))

    def test_whom_it_yields_to(self):
        self.assertEqual(self.hears(self.elected(), HIGHER, 64, 20_000, "it"),
                         (Answer.DONE, "candidate", (150_000, 150_000)))
        self.assertEqual(self.hears(self.elected(), LOWER, 65, 20_000, "it")[:2], (Answer.DONE, "candidate"))
        standing = self.standing(AsBsr(OWN))
        self.assertEqual(self.hears(standing, LOWER, 63, 1000, "it"), (Answer.DONE, "pending", standing.end))
        self.assertEqual(self.hears(standing, HIGHER, 64, 1000, "it")[1], "candidate")
        self.assertEqual(self.hears(standing, LOWER, 64, 2000), (Answer.NOT_PREFERRED, "candidate", (131_000, 131_000)))

    def test_the_bsr_lowers_its_weight(self):
        standing = self.elected(AsBsr(OWN, 64))
        self.hears(standing, HIGHER, 200, 20_000, "it")
        self.assertEqual(self.hears(standing, HIGHER, 64, 21_000, "it"),
                         (Answer.DONE, "candidate", (151_000, 151_000)))
        self.assertEqual(self.hears(standing, HIGHER, 63, 22_000, "it")[:2], (Answer.DONE, "pending"))

    def test_it_answers_one_of_less_weight_but_not_soon_again(self):
        standing = self.elected()
        self.assertEqual(self.hears(standing, LOWER, 63, 14_999), (Answer.NOT_PREFERRED, "elected", (15_000, 15_000)))
        standing = self.elected()
        own = packet(OWN, bootstrap_message(Bootstrap(OWN, (), 2, 30, 64)))
        came = self.hears(standing, LOWER, 63, 15_000, [("frame", 0, own)])
        self.assertEqual(came[1:], ("elected", (75_000, 75_000)))

    def test_a_pending_one_waits_for_the_rest_of_10_s(self):
        standing = self.elected()
        self.hears(standing, HIGHER, 65, 5001, "it")
        self.assertEqual(self.hears(standing, HIGHER, 0, 5002, "it")[1:], ("pending", (15_000, 15_000)))

    # ---- what it holds

    def test_what_it_holds(self):
        standing = self.elected()
        told = advertisement_message(Advertised("10.91.0.2", (("239.3.4.5", 16, False), ("225.0.0.0", 8, True)), 7, 20))
        data = advertisement_packet("10.91.0.2", OWN, told)
        standing.listener.around.now = 6000
        self.assertEqual(standing.hear_unicast(data), Answer.DONE)
        net = IPv4Network("239.3.0.0/16")
        self.assertEqual(standing.held, {(net, "10.91.0.2"): (7, 20, 26_000)})
        said = {net: (CandidateRp("10.91.0.2", 150, 7),)}
        self.assertEqual((standing.said(), standing.end), (said, (15_000, 15_000)))
        standing.end = 65_000, 65_000
        standing.listener.around.now = 26_000
        gone = packet(OWN, bootstrap_message(Bootstrap(OWN, (RpRange("239.3.0.0", 16),), 9, 30, 64)))
        standing.pass_to(26_000, Sent([("frame", 0, gone)]))
        self.assertEqual((standing.said(), standing.gone, standing.end), ({net: ()}, {net: 156_000}, (86_000, 86_000)))
        standing.role = "candidate"
        self.assertEqual(standing.hear_unicast(data), Answer.NOT_ELECTED)

    def test_fragments_say_all_once_under_one_tag(self):
        standing = self.elected()
        rps = tuple(CandidateRp(f"10.91.1.{1 + at}", 150, 192) for at in range(150))
        standing.held = {(IPv4Network("239.3.0.0/16"), rp.address): (192, 150, 10**6) for rp in rps}
        first, second = RpRange("239.3.0.0", 16, rps[:143], 150), RpRange("239.3.0.0", 16, rps[143:], 150)
        parts = [bootstrap_message(Bootstrap(OWN, (one,), 9, 30, 64)) for one in (first, second)]
        other = bootstrap_message(Bootstrap(OWN, (second,), 10, 30, 64))
        standing.check(parts)
        standing.tag = None
        for wrong in (parts[:1], [parts[0], other], [*parts, parts[0]]):
            with self.subTest(len(wrong)), self.assertRaises(Differs):
                standing.check(wrong)

    # ---- a candidate RP

    def test_whom_it_tells_and_when(self):
        standing = self.standing(rp=AsRp("10.91.0.2", 7, ("239.3.0.0/16",)))
        self.hears(standing, HIGHER, 64, 1000, "it")
        self.assertEqual((standing.told, standing.told_end), (HIGHER, (1001, 4000)))
        data = advertisement_packet("10.91.0.2", HIGHER, advertisement_message(Advertised("10.91.0.2", (RANGE,), 7)))
        self.assertEqual(content(data), advertisement_message(Advertised("10.91.0.2", (RANGE,), 7, 150)))
        ends = []
        for _ in range(4):
            standing.adopt(None, standing.told_end[0])
            standing.listener.around.now = standing.told_end[0]
            standing.pass_to(standing.told_end[0], Sent([("unicast", HIGHER, data)]))
            ends.append(standing.told_end)
        self.assertEqual(ends, [(1002, 4001), (1003, 4002), (61_003, 61_003), (121_003, 121_003)])
        standing.listener.around.now = 131_000
        standing.told_end = 140_000, 140_000
        standing.pass_to(131_000, Sent([]))
        self.assertEqual((standing.told, standing.next_end()), (None, None))


class Routers(OfRouters):
    def test_each_rule_that_is_forgotten_is_noticed(self):
        self.notices(elections, elections.RULES, Namespace(events=40))

    def test_random_runs(self):
        said = self.said(elections.all_runs, self.library, Namespace(seconds=2, seed=1, events=20))
        self.assertRegex(said, r"^[1-9]\d* runs, [1-9]\d* events: no divergence\n$")


if __name__ == "__main__":
    unittest.main()
