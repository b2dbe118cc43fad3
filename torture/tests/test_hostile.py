"""`torture/run hostile`: how it spoils packets, and that what it writes is what is stored."""
import tempfile
import unittest
from argparse import Namespace
from pathlib import Path
from unittest import mock

from stress import hostile
from viqeshor.lab import packets
from viqeshor.lab.packets import Entry, GroupEntries, Hello, Record, octets, refusal
from tests import stored

NEIGHBOUR, OWN = "10.0.0.1", "10.0.0.2"
HELLO = packets.write_hello(NEIGHBOUR, Hello(105, 500, 2500, 1, 9))
JOIN = packets.write_join_prune(NEIGHBOUR, OWN,
    [GroupEntries("225.1.1.1", 32, (Entry("10.9.9.9", 32, True, True),), ())])
ASSERT = packets.write_assert(NEIGHBOUR, packets.Assert("225.1.1.1", 32, "10.9.0.1", False, 110, 20))
REPORT = packets.write_report(NEIGHBOUR, [Record(4, "225.1.1.1", ("10.9.0.1",)), Record(6, "225.1.1.2", ())])
ALL = {"Hello": HELLO, "Join/Prune": JOIN, "Assert": ASSERT, "report": REPORT}
LIMIT = packets.MOST_IN_A_FRAME


class Mended(unittest.TestCase):
    def test_lawful_packets_stay_as_they_are(self):
        for name, data in ALL.items():
            with self.subTest(name):
                self.assertIsNone(refusal(data, LIMIT))
                self.assertEqual(hostile.with_header_mended(data), data)
                self.assertEqual(hostile.with_checksum_mended(data), data)

    def test_a_spoilt_header_and_a_spoilt_message(self):
        for data in ALL.values():
            wrong = data[:10] + b"\xde\xad" + data[12:]
            self.assertEqual(refusal(wrong, LIMIT), packets.CHECKSUM)
            self.assertEqual(hostile.with_header_mended(wrong), data)
            place = hostile.header_of(data) + 2
            wrong = data[:place] + b"\xde\xad" + data[place + 2:]
            self.assertEqual(refusal(hostile.with_header_mended(wrong), LIMIT), packets.CHECKSUM)
            self.assertEqual(hostile.with_checksum_mended(wrong), data)

    def test_what_has_no_header_is_left(self):
        for data in (b"", b"\x45", b"\x40" * 30):
            self.assertEqual(hostile.with_checksum_mended(data), data)


class Spoilt(unittest.TestCase):
    def test_each_cut_and_each_length_and_count(self):
        # Beside the header's two: options; groups, and a group's joins and prunes; records, and the sources of each.
        places = {"Hello": 4, "Join/Prune": 3, "Assert": 0, "report": 5}
        for name, data in ALL.items():
            with self.subTest(name):
                found = list(hostile.counts(data))
                self.assertEqual(len(found), 2 + places[name], found)
                broken = list(hostile.broken(data))
                self.assertEqual(broken[:len(data)], [data[:size] for size in range(len(data))])
                self.assertEqual(len(broken), len(data) + len(found))
                for place, size in found:
                    self.assertLessEqual(place + size, len(data))

    def test_a_mended_cut_is_refused_by_its_reading_or_lawful(self):
        """A Hello cut between two options is lawful; any other message is not."""
        for name, data in ALL.items():
            head = hostile.header_of(data)
            mended = {size: hostile.with_checksum_mended(data[:size]) for size in range(head, len(data))}
            lawful = [size for size, cut in mended.items() if refusal(cut, LIMIT) is None]
            with self.subTest(name):
                self.assertEqual(lawful, [head + 4, head + 10, head + 18, head + 26] if name == "Hello" else [])

    def test_further_messages_are_lawful_before_they_are_spoilt(self):
        for (name, place), messages in hostile.FURTHER.items():
            for message in messages:
                head = REPORT[:24] if message[:2] in ("22", "11") else HELLO[:20]
                whole = hostile.with_checksum_mended(head + bytes.fromhex(message))
                self.assertIsNone(refusal(whole, LIMIT), (name, place))


class Ignored(unittest.TestCase):
    MOVE = {"do": "frame", "iface": 0}

    def reason(self, data, heard={(0, octets(NEIGHBOUR))}, move=MOVE):
        return hostile.ignored(data, move, [octets(OWN)], heard)

    def test_by_whom_and_what_it_is(self):
        for name, data in ALL.items():
            with self.subTest(name):
                self.assertIsNone(self.reason(data))
                self.assertEqual(self.reason(hostile.with_source(data, octets(OWN))), "Own")
        for data in (JOIN, ASSERT):
            self.assertEqual(self.reason(data, heard=set()), "NoNeighbour")
        for kind in (4, 6, 8):
            self.assertEqual(self.reason(hostile.with_type(HELLO, kind)), "OtherType")

    def test_what_is_heard(self):
        moves = [{"do": "frame", "iface": 0, "hex": each.hex()} for each in (HELLO, JOIN, REPORT)]
        self.assertEqual(hostile.heard([*moves, {"do": "advance", "moment": 1}]), {(0, octets(NEIGHBOUR))})


class Stored(unittest.TestCase):
    def test_it_writes_what_is_stored(self):
        with tempfile.TemporaryDirectory() as folder:
            room = Path(folder)
            for path in stored.DATA.iterdir():
                if not path.name.startswith("hostile_"):
                    (room / path.name).write_bytes(path.read_bytes())
            with mock.patch.object(hostile, "STORED", room):
                hostile.is_right(Namespace())
            for name in hostile.SPOILT:
                for ending in (".toml", ".out"):
                    made, kept = (where / f"hostile_{name}{ending}" for where in (room, stored.DATA))
                    self.assertEqual(made.read_text(), kept.read_text(), made.name)

    def test_each_stored_answer_is_that_of_the_readings(self):
        """Each packet that is put before a stored one changes nothing: refused by its reading, or ignored."""
        for name in hostile.SPOILT:
            lines = (stored.DATA / f"hostile_{name}.out").read_text().splitlines()
            before = (stored.DATA / f"{name}.out").read_text().splitlines()
            put = [line for line in lines if line.startswith("move ") and not line.endswith(" done")]
            self.assertGreater(len(put), 40, name)
            already = [line for line in before if " ignored " in line or " refused " in line]
            self.assertEqual(len(lines), len(before) + len(put) - len(already))


if __name__ == "__main__":
    unittest.main()
