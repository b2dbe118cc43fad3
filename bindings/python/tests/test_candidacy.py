"""Candidate BSRs and candidate RPs (RFC 5059), and what becomes of a router with a candidacy."""
import struct
import unittest
from ipaddress import IPv4Address

from test_bsr import ABOVE, BSR, FIRST, HELLOS, SECOND, bootstrap, packet, summed
from viqeshor import Answer, Closed, Refused, Router
from viqeshor.bsr import Bsr, Elected
from viqeshor.candidacy import Candidacy, CandidateBsr, CandidateRp, HeldRp, Role, Standing

OWN = "10.0.0.2"
WIDE, GROUP = "239.0.0.0/8", "239.9.9.9"
# Beside the one of `bootstrap`, of the same priority, it has the lower address.
AS_BSR, AS_RP = CandidateBsr(OWN, 10), CandidateRp(OWN, [WIDE])


def advertisement(rp: str, holdtime: int) -> bytes:
    """Of an RP of 239.0.0.0/8 with priority 5, to the router (section 4.2)."""
    message = struct.pack(">BBHBBHBB4sBBBB4s", 0x28, 0, 0, 1, 5, holdtime, 1, 0, IPv4Address(rp).packed, 1, 0, 0, 8,
                          IPv4Address("239.0.0.0").packed)
    return unicast(rp, message)


def unicast(source: str, message: bytes) -> bytes:
    head = struct.pack(">BBHIBBH4s4s", 0x45, 0xC0, 20 + len(message), 0, 64, 103, 0, IPv4Address(source).packed,
                       IPv4Address(OWN).packed)
    return summed(head, 10) + summed(message, 2)


class Candidates(unittest.TestCase):
    def begin(self, as_bsr=None, as_rp=None):
        """A router with a candidacy, 1 s after the start."""
        routes = [(f"10.{net}.0.0/16", ABOVE, 0, 110, 20) for net in (9, 77, 88, 99)]
        self.router = Router(["10.0.0.2/24", "10.0.1.1/24"], [], routes)
        self.bsr = Bsr(limit=100)
        for iface, hello in enumerate(HELLOS):
            self.router.up(iface, 7)
            self.router.frame(iface, hello, 7)
        self.bsr.run_to(self.router, 1000)
        self.candidacy = Candidacy(as_bsr, as_rp, now=1000)
        self.addCleanup(self.candidacy.end)
        self.addCleanup(self.bsr.end)
        self.addCleanup(self.router.end)
        self.run_to(1000)

    def run_to(self, moment):
        """What left of Bootstraps and advertisements: for each where, and the message."""
        sent = self.candidacy.run_to(self.bsr, self.router, moment)
        return [(kind, where, data[20:]) for kind, where, data in sent if data[9] == 103 and data[20] in (0x24, 0x28)]

    def hear(self, message):
        return self.candidacy.frame(self.bsr, self.router, 0, packet(ABOVE, message), 7)

    def rp(self):
        return self.router.tree(GROUP).rp

    def test_a_candidate_without_others_is_elected(self):
        self.begin(AS_BSR, AS_RP)
        self.assertEqual(self.candidacy.standing(), Standing(Role.PENDING, 6000, None, None))
        self.assertEqual(self.run_to(5999), [])
        said = self.run_to(6000)
        self.assertEqual([(*where, data[0]) for *where, data in said], [("frame", 0, 0x24), ("frame", 1, 0x24)])
        self.assertEqual(self.bsr.elected(), Elected(OWN, 10, 136_000))
        # Its own RP is told it straight, within 3 s, and it says that no sooner than 10 s after it said the last.
        self.run_to(9000)
        self.assertEqual(self.candidacy.standing()[:3], (Role.ELECTED, 16_000, OWN))
        self.assertEqual([row[:4] for row in self.candidacy.rps()], [(WIDE, OWN, 192, 150)])
        self.assertIsNone(self.rp())
        self.assertEqual([where for _, where, _ in self.run_to(16_000)], [0, 1])
        self.assertEqual(self.rp(), OWN)
        self.assertEqual(self.candidacy.next_moment(self.bsr, self.router), self.router.next_moment())

    def test_a_candidate_without_a_priority_says_64(self):
        self.begin(CandidateBsr(OWN))
        self.assertEqual(self.run_to(6000)[0][2][7], 64)
        self.assertEqual(self.bsr.elected(), Elected(OWN, 64, 136_000))

    def test_an_elected_bsr_is_told_of_rps(self):
        self.begin(AS_BSR)
        self.assertEqual(self.candidacy.unicast(self.router, advertisement(FIRST, 100)), Answer.NOT_ELECTED)
        self.run_to(16_000)
        self.assertEqual(self.candidacy.unicast(self.router, advertisement(FIRST, 100)), Answer.DONE)
        self.assertEqual(self.candidacy.rps(), [HeldRp(WIDE, FIRST, 5, 100, 116_000)])
        self.assertEqual((len(self.run_to(16_000)), self.rp()), (2, FIRST))
        self.assertEqual(self.candidacy.unicast(self.router, advertisement(FIRST, 0)), Answer.DONE)
        self.run_to(26_000)
        self.assertEqual((self.candidacy.rps(), self.rp()), ([], None))
        self.assertEqual(self.candidacy.unicast(self.router, unicast(FIRST, bytes([0x26, 0, 0, 0]))),
                         Answer.NOT_FOR_ME)
        self.assertEqual(self.candidacy.unicast(self.router, unicast(FIRST, bytes([0x28, 0, 0, 0, 1, 5]))),
                         Answer.SHORT)

    def test_a_candidate_yields_to_more_weight_and_answers_less(self):
        self.begin(AS_BSR, AS_RP)
        less = bootstrap(1, [(SECOND, 150)], priority=9)
        self.assertEqual((self.hear(less), self.bsr.elected()), (Answer.DONE, None))
        self.router.packets()
        self.run_to(50_000)
        self.assertEqual((self.hear(less), self.bsr.elected()[0], self.rp()), (Answer.DONE, OWN, OWN))
        self.assertEqual(len(self.router.packets()), 2)
        self.assertEqual(self.hear(less), Answer.NOT_PREFERRED)
        self.assertEqual((self.hear(bootstrap(1, [(SECOND, 150)])), self.rp()), (Answer.DONE, SECOND))
        self.assertEqual((self.candidacy.standing().role, self.candidacy.standing().told), (Role.CANDIDATE, BSR))
        told = self.run_to(60_000)
        wanted = bytes([1, 192, 0, 150, 1, 0]) + IPv4Address(OWN).packed + bytes([1, 0, 0, 8, 239, 0, 0, 0])
        self.assertEqual([(kind, where, data[4:]) for kind, where, data in told if kind == "unicast"],
                         [("unicast", BSR, wanted)] * 3)
        left = self.candidacy.leave(self.bsr, self.router)
        self.assertEqual([(kind, where, data[26:28]) for kind, where, data in left], [("unicast", BSR, bytes(2))])

    def test_what_no_candidate_can_be(self):
        for wrong in (CandidateBsr(OWN, 256), CandidateBsr(OWN, 0, 33), CandidateBsr(OWN, limit=0),
                      CandidateBsr("224.0.0.13")):
            with self.assertRaises(Refused) as raised:
                Candidacy(wrong)
            self.assertEqual(raised.exception.answer, Answer.NO_SETTING)
        for wrong in (CandidateRp(OWN, []), CandidateRp(OWN, [WIDE] * 256), CandidateRp(OWN, ["10.0.0.0/8"]),
                      CandidateRp(OWN, [WIDE], 256)):
            with self.assertRaises(Refused):
                Candidacy(None, wrong)
        with self.assertRaises(ValueError):
            Candidacy(CandidateBsr(OWN, -1))
        ended = Candidacy(AS_BSR, AS_RP)
        ended.end()
        with self.assertRaises(Closed):
            ended.standing()


if __name__ == "__main__":
    unittest.main()
