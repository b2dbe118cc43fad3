"""Packets read and written, and put in words."""
import re
import unittest

from viqeshor.lab import packets, words
from tests import stored


class Written(unittest.TestCase):
    def test_a_report_is_read_as_it_was_written(self):
        records = (packets.Record(4, "239.1.1.1", ()), packets.Record(5, "232.1.1.1", ("10.0.0.9", "10.0.0.10")))
        packet = packets.read(packets.write_report("10.3.0.77", records))
        self.assertEqual((packet.source, packet.destination, packet.ttl), ("10.3.0.77", "224.0.0.22", 1))
        self.assertEqual(packet.body.records, records)

    def test_a_known_report(self):
        known = "46c0002800000000010239aa0a03004de0000016940400002200e9fb0000000104000000ef010101"
        written = packets.write_report("10.3.0.77", [packets.Record(4, "239.1.1.1", ())])
        self.assertEqual(written[20:].hex(), bytes.fromhex(known)[20:].hex())

    def test_data_is_read_as_it_was_written(self):
        for payload in (b"", b"odd", b"even"):
            packet = packets.read(packets.write_data("10.1.0.50", "239.1.1.1", payload))
            self.assertEqual(packet.body, packets.Data(payload, 5000, 5000))
        known = "4500001f000000001011b0990a010032ef010101138c138c000b0a1c6f6e65"
        self.assertEqual(packets.write_data("10.1.0.50", "239.1.1.1", b"one", port=5004).hex(), known)

    def test_odd_lengths_are_summed_with_a_zero(self):
        self.assertEqual(packets.sum16(b"\xff\xff\x12"), 0xFFFF - 0x1200)


class Documented(unittest.TestCase):
    """docs/PACKETS.md: the bytes of its tables are those of its packets."""
    TEXT = (stored.TOOLS.parent / "docs" / "PACKETS.md").read_text()

    def section(self, title):
        return self.TEXT.partition(f"\n## {title}\n")[2].partition("\n## ")[0]

    def bytes_of(self, title):
        """The bytes in the first column of a section's table."""
        return "".join(re.findall(r"^\| `([0-9a-f ]+)` \|", self.section(title), re.M)).replace(" ", "")

    def packet(self, title):
        return re.search(r"^    ([0-9a-f]+)$", self.section(title), re.M)[1]

    def test_tables_are_the_bytes_of_the_packets(self):
        header = self.bytes_of("The header of all packets")
        for title in ("A Hello", "A Join"):
            self.assertEqual(header + self.bytes_of(title), self.packet(title))
        assert_header = header.replace("0036", "002e").replace("cc91", "ce94").replace("0a000203", "0a050003")
        self.assertEqual(assert_header + self.bytes_of("An Assert"), self.packet("An Assert"))

    def test_an_older_report_and_what_it_becomes(self):
        title = "A report of IGMPv2"
        told, given = re.findall(r"^    ([0-9a-f]+)$", self.section(title), re.M)
        self.assertEqual(self.bytes_of(title), told + given)
        self.assertEqual(packets.write_older("10.8.0.77", "239.1.1.1").hex(), told)
        becomes = lambda kind: packets.write_report(
            "10.8.0.77", [packets.Record(kind, "239.1.1.1", ())], packets.ROUTING).hex()
        self.assertEqual(becomes(2), given)
        self.assertEqual(becomes(3), given.replace("ebfb", "eafb").replace("02000000ef", "03000000ef"))

    def test_they_are_written_so_and_read_back(self):
        hello = packets.Hello(105, 500, 2500, 1, 31)
        self.assertEqual(packets.write_hello("10.0.2.3", hello).hex(), self.packet("A Hello"))
        self.assertEqual(packets.read(bytes.fromhex(self.packet("A Hello"))).body, hello)
        join = packets.JoinPrune("10.0.2.2", 210, (packets.shared_join("239.1.1.1", "10.0.1.2"),))
        self.assertEqual(packets.write_join_prune("10.0.2.3", "10.0.2.2", join.groups).hex(), self.packet("A Join"))
        self.assertEqual(packets.read(bytes.fromhex(self.packet("A Join"))).body, join)
        told = packets.Assert("232.1.1.1", 32, "10.1.0.50", False, 110, 20)
        self.assertEqual(packets.write_assert("10.5.0.3", told).hex(), self.packet("An Assert"))
        self.assertEqual(packets.read(bytes.fromhex(self.packet("An Assert"))).body, told)


class Words(unittest.TestCase):
    KNOWN = {
        "45c00036000000000167b7910a001703e000000d2300aae401000a001702000100d201000020ef01010100010000010007200a000c02":
            "10.0.23.3 > 224.0.0.13: PIM Join/Prune to 10.0.23.2 for 210 s: join (*, 239.1.1.1) by 10.0.12.2",
        "45c00036000000000167b7910a001703e000000d2300b8b301000a001702000100d201000020ef01010100000001010005200a010032":
            "10.0.23.3 > 224.0.0.13: PIM Join/Prune to 10.0.23.2 for 210 s: prune (10.1.0.50, 239.1.1.1, rpt)",
        "45c0002600000000406759ae0a000c020a0100012200e1a901000020ef01010101000a010032":
            "10.0.12.2 > 10.1.0.1: PIM Register-Stop of (10.1.0.50, 239.1.1.1)",
        "46c000240000000001023a110a010001e0000001940400001164ec1e00000000027d0000":
            "10.1.0.1 > 224.0.0.1: IGMP query of all groups: answer within 10 s, robustness 2, interval 125 s",
        "45c00036000000000167b7910a001703e000000d2300b8b301000a001702000100d201000020ef01010100000001010005200a0100":
            "53 bytes, malformed: Short",
        "45c00044000000000167ce850a000001e000000d2480c03901021e0a01000a09090901000108ef0000010301000001000a630001009605"
        "0001000020e101010100000000":
            "10.0.0.1 > 224.0.0.13: PIM Bootstrap of 10.9.9.9, priority 10, not sent on: 239.0.0.0/8 {10.99.0.1} of 3, "
            "a zone; 225.1.1.1/32 {}",
        "45c00022000000000167cea70a000001e000000d2400a9dc00071e0a01000a090909":
            "10.0.0.1 > 224.0.0.13: PIM Bootstrap of 10.9.9.9, priority 10: no range",
        "45c00020000000000167cea90a000001e000000d2400b2e500071e0a01000a09":
            "10.0.0.1 > 224.0.0.13: PIM Bootstrap, malformed: Short",
    }

    def test_known_packets(self):
        for known, said in self.KNOWN.items():
            self.assertEqual(words.bytes_given(bytes.fromhex(known)), said)


if __name__ == "__main__":
    unittest.main()
