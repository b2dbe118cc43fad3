"""Sources of other RPs (MSDP, RFC 3618): what a router is given for a message of a peer, and which are its own."""
import struct
import unittest
from ipaddress import IPv4Address

from viqeshor import Answer, Router

OWN, PEER, ABOVE = "10.0.0.2", "10.9.0.2", "10.0.0.1"
FAR, NEAR, GROUP, OTHER_GROUP = "10.9.0.50", "10.0.1.50", "239.1.1.1", "238.1.1.1"


def summed(head: bytes) -> bytes:
    """A header with its checksum."""
    total = sum(struct.unpack(">10H", head[:10] + bytes(2) + head[12:20]))
    while total >> 16:
        total = (total & 0xFFFF) + (total >> 16)
    return head[:10] + (~total & 0xFFFF).to_bytes(2, "big") + head[12:]


def data(source: str, group: str) -> bytes:
    ends = IPv4Address(source).packed + IPv4Address(group).packed
    return summed(struct.pack(">BBHIBBH", 0x45, 0, 28, 0, 16, 17, 0) + ends) + bytes(8)


def of_dr(packet: bytes) -> bytes:
    """What was given for an SA as one that a DR sent, which isn't at the end of its way."""
    return summed(packet[:8] + b"\x40" + packet[9:20]) + packet[20:]


class Sources(unittest.TestCase):
    def setUp(self):
        ranges = [("239.0.0.0/8", OWN), ("238.0.0.0/8", "10.9.0.9")]
        self.router = Router(["10.0.0.2/24", "10.0.1.1/24"], ranges, [("10.9.0.0/16", ABOVE, 0, 110, 20)])
        for iface in range(2):
            self.router.up(iface, 7)
        self.router.packets()

    def tearDown(self):
        self.router.end()

    def active(self):
        return [(row.source, row.group) for row in self.router.rows("F")]

    def test_an_sa_is_taken_as_a_null_register(self):
        self.assertEqual(self.router.source_active(PEER, OWN, FAR, GROUP), Answer.DONE)
        self.assertEqual(self.active(), [(FAR, GROUP)])
        # Nobody asks for it: a Register-Stop to the peer, which a program leaves out.
        self.assertEqual([(sent.kind, sent.where) for sent in self.router.packets()], [("unicast", PEER)])
        self.assertFalse(self.router.is_own_source(FAR, GROUP))

    def test_what_is_given_is_what_a_program_may_record(self):
        given = self.router.source_active_packet(PEER, OWN, FAR, GROUP)
        self.assertEqual((given[8:10], given[12:20]), (b"\x01\x67", IPv4Address(PEER).packed + IPv4Address(OWN).packed))
        self.assertEqual(self.router.unicast(given), Answer.DONE)
        self.assertEqual(self.active(), [(FAR, GROUP)])

    def test_a_packet_of_the_source_is_in_a_register_and_no_other(self):
        whole = data(FAR, GROUP)
        self.assertTrue(self.router.source_active_packet(PEER, OWN, FAR, GROUP, whole).endswith(whole))
        null = self.router.source_active_packet(PEER, OWN, FAR, GROUP)
        for other in (data(NEAR, GROUP), data(FAR, OTHER_GROUP), whole[:27], bytes(1501), b"?"):
            self.assertEqual(self.router.source_active_packet(PEER, OWN, FAR, GROUP, other), null)

    def test_nothing_follows_where_the_router_isnt_meant(self):
        self.assertEqual(self.router.source_active(PEER, OWN, NEAR, GROUP), Answer.NOT_FOR_ME)
        self.assertIsNone(self.router.source_active_packet(PEER, OWN, NEAR, GROUP))
        self.assertEqual(self.router.source_active(PEER, "10.0.0.9", FAR, GROUP), Answer.NOT_FOR_ME)
        self.assertEqual(self.router.source_active(PEER, OWN, FAR, "224.0.0.5"), Answer.LINK_LOCAL)
        self.router.source_active(PEER, OWN, FAR, OTHER_GROUP)
        self.assertEqual(self.active(), [])

    def test_a_drs_register_says_a_source_and_an_sa_says_none(self):
        given = self.router.source_active_packet(PEER, OWN, FAR, GROUP)
        self.assertIsNone(self.router.registered(given))
        self.assertEqual(self.router.registered(of_dr(given)), (FAR, GROUP))
        self.router.set_rp_sets([])
        other = self.router.source_active_packet(PEER, OWN, FAR, OTHER_GROUP)
        for wrong in (of_dr(other), b"", bytes(40), data(FAR, GROUP)):
            self.assertIsNone(self.router.registered(wrong))

    def test_a_source_on_its_own_link_is_its_own(self):
        self.assertFalse(self.router.is_own_source(NEAR, GROUP))
        self.router.frame(1, data(NEAR, GROUP))
        self.router.frame(1, data(NEAR, OTHER_GROUP))
        own = [self.router.is_own_source(NEAR, group) for group in (GROUP, OTHER_GROUP)]
        self.assertEqual(own, [True, False])


if __name__ == "__main__":
    unittest.main()
