"""Bootstraps (RFC 5059), written here byte by byte, and what a listener and a router make of them. The messages and
what follows of them are those of the worked runs of `crates/pim_bsr/specs/Runs.antt`."""
import struct
import unittest
from ipaddress import IPv4Address

from viqeshor import Answer, Closed, Refused, Router
from viqeshor.bsr import Bsr, Choice, Elected, Heard, LearnedPart, LearnedRp

HELLOS = [bytes.fromhex("45C0001E000000000167CEAB0A000001E000000D2000DFFC00010002FFFF"),
          bytes.fromhex("45C0001E000000000167CDAA0A000102E000000D2000DFFC00010002FFFF")]
ABOVE, BELOW, BSR, STATIC = "10.0.0.1", "10.0.1.2", "10.9.9.9", "10.0.0.99"
# The RPs of 239.0.0.0/8: the hash prefers the first, and then the second.
FIRST, SECOND, THIRD = "10.99.0.1", "10.88.0.9", "10.77.0.2"
CONFIGURED = [("239.1.0.0/16", STATIC)]


def summed(data: bytes, place: int) -> bytes:
    """With the Internet checksum at its place."""
    padded = data + bytes(len(data) % 2)
    total = sum(struct.unpack(f">{len(padded) // 2}H", padded))
    while total >> 16:
        total = (total & 0xFFFF) + (total >> 16)
    return data[:place] + (~total & 0xFFFF).to_bytes(2, "big") + data[place + 2:]


def packet(source: str, message: bytes) -> bytes:
    """A PIM message to all PIM routers."""
    head = struct.pack(">BBHIBBH4s4s", 0x45, 0xC0, 20 + len(message), 0, 1, 103, 0, IPv4Address(source).packed,
                       IPv4Address("224.0.0.13").packed)
    return summed(head, 10) + summed(message, 2)


def bootstrap(count: int, rps, *, tag=7, priority=10, bsr=BSR, no_forward=False, zone=False) -> bytes:
    """A message of 239.0.0.0/8, said with a host bit, which has so many RPs: each of these an address and a holdtime
    (section 4.1)."""
    head = struct.pack(">BBHHBBBB4s", 0x24, 0x80 * no_forward, 0, tag, 30, priority, 1, 0, IPv4Address(bsr).packed)
    groups = struct.pack(">BBBB4sBBH", 1, 0, zone, 8, IPv4Address("239.0.0.1").packed, count, len(rps), 0)
    said = (struct.pack(">BB4sHBB", 1, 0, IPv4Address(rp).packed, holdtime, 5, 0) for rp, holdtime in rps)
    return head + groups + b"".join(said)


class Listening(unittest.TestCase):
    def setUp(self):
        routes = [(f"10.{net}.0.0/16", ABOVE, 0, 110, 20) for net in (9, 77, 88, 99)]
        self.router = Router(["10.0.0.2/24", "10.0.1.1/24"], CONFIGURED, routes)
        self.bsr = Bsr(CONFIGURED, limit=100, refresh_end=60_000)
        for iface, hello in enumerate(HELLOS):
            self.router.up(iface, 7)
            self.router.frame(iface, hello, 7)
        self.bsr.run_to(self.router, 1000)

    def tearDown(self):
        self.bsr.end()
        self.router.end()

    def hear(self, message, iface=0, source=ABOVE):
        return self.bsr.frame(self.router, iface, packet(source, message), 7)

    def rp(self, group="239.9.9.9"):
        return self.router.tree(group).rp

    def learn(self):
        """All three RPs, by two fragments, the second 5 ms after the first."""
        self.assertEqual(self.hear(bootstrap(3, [(SECOND, 150), (THIRD, 150)])), Answer.DONE)
        self.bsr.run_to(self.router, 1005)
        self.assertEqual(self.hear(bootstrap(3, [(FIRST, 150)])), Answer.DONE)
        self.router.packets()

    def test_a_fragment_is_sent_on_and_waits(self):
        self.router.packets()
        message = bootstrap(3, [(SECOND, 150), (THIRD, 150)])
        self.assertEqual(self.hear(message), Answer.DONE)
        self.assertEqual([tuple(sent) for sent in self.router.packets()],
                         [("frame", 0, packet("10.0.0.2", message)), ("frame", 1, packet("10.0.1.1", message))])
        self.assertEqual((self.bsr.rps(), self.bsr.given(), self.bsr.next_end()), ([], CONFIGURED, None))
        wanted = [LearnedPart("239.0.0.0/8", rp, 5, 150, BSR, 7, 131_000) for rp in (SECOND, THIRD)]
        self.assertEqual((self.bsr.parts(), self.rp()), (wanted, None))

    def test_a_listener_is_saved_between_two_fragments(self):
        self.assertEqual(self.hear(bootstrap(3, [(SECOND, 150), (THIRD, 150)])), Answer.DONE)
        self.router.packets()
        saved = self.bsr.save()
        self.bsr, before = Bsr.restore(saved), self.bsr
        self.assertEqual((self.bsr.save(), self.bsr.configured, self.bsr.parts()), (saved, CONFIGURED, before.parts()))
        self.assertEqual((self.bsr.elected(), self.bsr.given()), (before.elected(), CONFIGURED))
        before.end()
        self.bsr.run_to(self.router, 1005)
        self.assertEqual(self.hear(bootstrap(3, [(FIRST, 150)])), Answer.DONE)
        self.assertEqual((self.rp(), self.bsr.given()), (FIRST, [*CONFIGURED, ("239.0.0.0/8", FIRST)]))

    def test_bytes_that_are_no_listeners_are_refused(self):
        saved = self.bsr.save()
        for data, why in ((b"", Answer.CUT_SHORT), (self.router.save(), Answer.NOT_OURS),
                          (saved[:-1] + bytes([saved[-1] ^ 1]), Answer.DAMAGED),
                          (saved[:4] + bytes([0, 3]) + saved[6:], Answer.OTHER_VERSION)):
            with self.assertRaises(Refused) as caught:
                Bsr.restore(data)
            self.assertEqual(caught.exception.answer, why)

    def test_the_chosen_rp_is_the_routers_until_its_end(self):
        self.learn()
        self.assertEqual((self.rp(), self.rp("239.1.1.1")), (FIRST, STATIC))
        self.assertEqual(self.bsr.given(), [*CONFIGURED, ("239.0.0.0/8", FIRST)])
        self.assertEqual(self.bsr.elected(), Elected(BSR, 10, 131_005))
        self.assertIn(LearnedRp("239.0.0.0/8", FIRST, 5, 30, True, 151_005), self.bsr.rps())
        self.bsr.run_to(self.router, 151_004)
        self.assertEqual((self.rp(), self.bsr.elected()), (FIRST, None))
        self.bsr.run_to(self.router, 151_005)
        self.assertEqual((self.rp(), self.rp("239.1.1.1"), self.bsr.rps()), (None, STATIC, []))

    def test_each_group_has_its_rp(self):
        """By the values of the hash function that the worked run has."""
        groups = "239.0.0.1", "239.0.0.4", "239.1.0.4"
        self.learn()
        self.assertEqual((self.bsr.choice(), self.bsr.candidates()), (Choice.RANGE, []))
        self.assertEqual(self.bsr.choose(self.router, Choice.GROUP), Answer.DONE)
        self.assertEqual((self.bsr.choice(), self.bsr.given()), (Choice.GROUP, CONFIGURED))
        self.assertEqual(self.bsr.candidates(), [("239.0.0.0/8", rp, 5, 30) for rp in (SECOND, THIRD, FIRST)])
        self.assertEqual([self.rp(group) for group in groups], [FIRST, THIRD, STATIC])
        with Bsr.restore(self.bsr.save()) as again:
            self.assertEqual((again.choice(), again.save()), (Choice.GROUP, self.bsr.save()))
            self.assertEqual(again.choose(self.router, Choice.RANGE), Answer.DONE)
        self.assertEqual([self.rp(group) for group in groups], [FIRST, FIRST, STATIC])
        self.assertEqual(self.bsr.choose(self.router, Choice.GROUP), Answer.DONE)
        self.assertEqual(self.bsr.set_ranges(self.router, CONFIGURED, limit=2), Answer.DONE)
        self.assertEqual([self.rp(group) for group in groups], [SECOND, THIRD, STATIC])
        self.bsr.run_to(self.router, 151_005)
        self.assertEqual([self.rp(group) for group in groups], [None, None, STATIC])
        with self.assertRaises(Refused):
            self.bsr.choose(self.router, 2)

    def test_time_that_passes_at_once_passes_the_ends_on_the_way(self):
        self.learn()
        self.assertEqual(self.bsr.advance(self.router, 200_000), Answer.DONE)
        self.assertEqual((self.rp(), self.bsr.rps()), (None, []))
        self.assertEqual(self.bsr.advance(self.router, 199_999), Answer.MOMENT_BACK)
        self.assertEqual(self.bsr.advance(self.router, 2**62 + 1), Answer.MOMENT_FAR)

    def test_which_messages_count(self):
        whole = [(SECOND, 150), (THIRD, 150)]
        self.assertEqual(self.hear(bootstrap(2, whole), 1, BELOW), Answer.NOT_FROM_RPF)
        self.assertEqual(self.hear(bootstrap(2, whole), 0, "10.0.0.3"), Answer.NO_NEIGHBOUR)
        self.assertEqual(self.hear(bootstrap(2, whole, zone=True)), Answer.SCOPED)
        self.assertEqual(self.hear(bootstrap(2, whole)[:-1]), Answer.SHORT)
        self.assertEqual(self.hear(b"\x26\0\0\0"), Answer.OTHER_TYPE)
        self.learn()
        self.assertEqual(self.hear(bootstrap(2, whole, bsr="10.9.9.8")), Answer.NOT_PREFERRED)
        self.assertEqual(self.hear(bootstrap(2, whole, bsr="10.0.0.2")), Answer.OWN_BSR)
        self.assertEqual(self.hear(bootstrap(2, whole, no_forward=True)), Answer.LATE_REFRESH)
        self.assertEqual(self.hear(bootstrap(2, whole, bsr="10.9.9.8", priority=11)), Answer.DONE)
        self.assertEqual(self.rp(), SECOND)

    def test_rps_are_taken_away(self):
        self.learn()
        self.hear(bootstrap(3, [(SECOND, 150), (THIRD, 150), (FIRST, 0)], tag=8))
        self.assertEqual(self.rp(), SECOND)
        self.hear(bootstrap(0, [], tag=9))
        self.assertEqual((self.rp(), self.bsr.given()), (None, CONFIGURED))

    def test_other_configured_ranges(self):
        self.learn()
        wide = [("239.0.0.0/8", STATIC)]
        with self.assertRaises(Refused):
            self.bsr.set_ranges(self.router, wide, limit=0)
        self.assertEqual(self.bsr.set_ranges(self.router, wide * 2), Answer.BAD_RANGES)
        self.assertEqual((self.bsr.configured, self.rp()), (CONFIGURED, FIRST))
        self.assertEqual(self.bsr.set_ranges(self.router, wide), Answer.DONE)
        self.assertEqual((self.bsr.given(), self.rp()), (wide, STATIC))
        self.assertEqual(self.bsr.set_ranges(self.router, [], limit=2), Answer.DONE)
        self.assertEqual((len(self.bsr.rps()), self.rp()), (2, SECOND))

    def test_the_steps_one_by_one(self):
        whole = packet(ABOVE, bootstrap(2, [(SECOND, 150), (THIRD, 150)]))
        self.assertEqual(self.router.frame(0, whole), Answer.OTHER_TYPE)
        self.assertEqual(self.bsr.hear(self.router, 0, whole), Heard(Answer.DONE, True))
        self.assertEqual((self.rp(), self.bsr.give(self.router), self.rp()), (None, Answer.DONE, SECOND))
        self.assertEqual((self.bsr.pass_to(150_999), self.bsr.pass_to(151_000)), (False, True))

    def test_what_is_ended(self):
        for limit in (0, 257):
            with self.assertRaises(Refused):
                Bsr(limit=limit)
        self.bsr.end()
        with self.assertRaises(Closed):
            self.bsr.rps()


if __name__ == "__main__":
    unittest.main()
