"""pimtext.files.saved reads the bytes of docs/SAVED.md, and refuses others by its numbers."""
import re
import subprocess
import sys
import tempfile
import unittest
from pathlib import Path

from pimtext.files import saved

TOP = Path(__file__).resolve().parent.parent.parent
KNOWN = TOP / "crates" / "test_bytes" / "src" / "tests" / "saved_states.rt"


def known():
    """The example's bytes, as crates/test_bytes has them."""
    text = KNOWN.read_text()
    body = re.search(r"const STATE: &\[u8\] = &\[(.*?)\];", text, re.S)[1]
    return bytes(int(byte, 16) for byte in re.findall(r"0x([0-9A-Fa-f]{2})\b", re.sub(r"//.*", "", body)))


class Saved(unittest.TestCase):
    data = known()

    def test_the_example(self):
        state = saved.read(self.data)
        self.assertEqual(state.present, 1000)
        self.assertEqual(state.interfaces, [("10.0.0.1", 24, 1, 500, 2500)])
        lines = list(saved.lines(state))
        for line in (
            "downstream 0 225.1.1.1 * 210000 -",
            "downstream 0 225.1.1.1 10.0.2.5 rpt 210000 4000",
            "register 0 225.1.1.1 10.0.2.5 2 60000",
        ):
            self.assertIn(line, lines)
        self.assertIn("D 0 225.1.1.1 10.0.2.5 rpt pending 210000 4000", list(saved.printed(state)))

    def test_what_is_refused(self):
        swapped = saved.read(self.data).tables["downstream"]
        self.assertEqual([key.source for key, _ in swapped], [None, 0x0A000205])
        star = bytes.fromhex("00000000e1010101000001000000000003345000")
        front = self.data[:-4]
        for given, number in (
            (b"", 62),
            (self.data[:5], 62),
            (b"VQSS" + self.data[4:], 60),
            (self.data[:5] + b"\1" + self.data[6:], 61),
            (self.data[:-1], 69),
            (self.data + b"\0", 69),
            (front[:10] + b"\2" + front[11:] + self.data[-4:], 69),
            (saved.summed(front[:-1]), 62),
            (saved.summed(front[:10] + b"\2" + front[11:]), 63),
            (saved.summed(front.replace(star, star.replace(b"\xe1\1\1\1", b"\xe1\1\1\2"))), 64),
            (saved.summed(front + b"\0"), 65),
        ):
            with self.assertRaises(saved.Unreadable) as caught:
                saved.read(given)
            self.assertEqual(caught.exception.number, number)

    def test_candidates(self):
        # 10.99.0.1 of priority 192 and 10.88.0.9 of priority 0, of 239.0.0.0/8 with a mask of 30 bits; no own address.
        rows = [bytes.fromhex(f"ef00000000000008 0a{rp} 000000{priority} 0000001e")
                for rp, priority in (("630001", "c0"), ("580009", "00"))]

        def with_candidates(*rows):
            lists = b"\0" * 8 + len(rows).to_bytes(8, "big") + b"".join(rows)
            return saved.summed(self.data[:5] + b"\4" + lists + self.data[6:-4])

        state = saved.read(with_candidates(*rows))
        wanted = [("239.0.0.0", 8, "10.99.0.1", 192, 30), ("239.0.0.0", 8, "10.88.0.9", 0, 30)]
        self.assertEqual(state.candidates, wanted)
        self.assertEqual((state.addresses, state.ranges), ([], saved.read(self.data).ranges))
        self.assertIn("candidate 239.0.0.0 8 10.99.0.1 192 30", list(saved.lines(state)))
        self.assertEqual(saved.read(self.data).candidates, [])
        for given, number in ((with_candidates(), 63), (with_candidates(rows[0][:-1]), 62)):
            with self.assertRaises(saved.Unreadable) as caught:
                saved.read(given)
            self.assertEqual(caught.exception.number, number)

    def test_older_hosts(self):
        # One of IGMPv1 of 239.1.1.1 on interface 3, known until 260 s.
        row = bytes.fromhex("00000003ef0101010000" "01000000000003f7a0" "00")
        other = row.replace(b"\xef\1\1\1", b"\xef\1\1\2")

        def behind(*rows, router=self.data):
            return saved.summed(b"VIQF" + len(rows).to_bytes(8, "big") + b"".join(rows) + router)

        state = saved.read(behind(row))
        self.assertEqual(state.hosts, [(saved.Key(3, 0xEF010101, None, False), (260_000, None))])
        self.assertEqual((state.present, len(saved.read(behind(row, other)).hosts)), (1000, 2))
        self.assertIn("older-hosts 3 239.1.1.1 * 260000 -", list(saved.lines(state)))
        self.assertEqual(saved.read(self.data).hosts, [])
        for given, number in (
            (b"VIQF", 71),
            (behind(), 71),
            (behind(row)[:-1], 71),
            (behind(row) + b"\0", 71),
            (behind(other, row), 71),
            (behind(row, row), 71),
            (behind(row[:10] + b"\2" + row[11:]), 71),
            (behind(row, router=self.data[:-1]), 69),
            (behind(row, router=behind(row)), 60),
            (behind(row, router=b""), 62),
        ):
            with self.assertRaises(saved.Unreadable) as caught:
                saved.read(given)
            self.assertEqual(caught.exception.number, number)

    def test_a_listener(self):
        # 10.9.9.9 is elected till 130,001 ms, and 10.99.0.1 of 239.0.0.0/8 is in force.
        known = saved.summed(b"VIQB\0\1" + bytes.fromhex(
            "0000000000000000" "0000000000000100" "01 0a090909 40 000000000001fbd1" "01" "000000000000ea60"
            "0000000000000001 ef00000000000008 1e 0a630001 05 00000000000249f1" "0000000000000000"
            "0000000000000002 beef" "00000000000003e9"))

        def behind(known, router=self.data):
            return b"VIQL" + len(known).to_bytes(8, "big") + known + router

        state = saved.read(behind(known))
        self.assertEqual(state.listener.rps, [("239.0.0.0", 8, 30, "10.99.0.1", 5, 150_001)])
        self.assertEqual([line for line in saved.lines(state) if line.startswith("listener")], [
            "listener range 256", "listener-elected 10.9.9.9 64 130001", "listener-heard 1 60000",
            "listener-rp 239.0.0.0 8 30 10.99.0.1 5 150001", "listener-last beef 1001"])
        self.assertEqual((state.present, saved.read(self.data).listener), (1000, None))
        for given, number in (
            (b"VIQL", 62),
            (behind(known)[:40], 62),
            (behind(b"x" + known[1:]), 60),
            (behind(known[:5] + b"\3" + known[6:]), 61),
            (behind(known[:-1] + b"x"), 69),
            (behind(saved.summed(known[:-4] + b"x")), 65),
            (behind(known, self.data[1:]), 60),
        ):
            with self.assertRaises(saved.Unreadable) as caught:
                saved.read(given)
            self.assertEqual(caught.exception.number, number)

    def test_the_tool(self):
        with tempfile.TemporaryDirectory() as room:
            path = Path(room) / "state"
            for given, status in ((self.data, 0), (self.data[1:], 1)):
                path.write_bytes(given)
                ran = subprocess.run([sys.executable, TOP / "tools" / "saved", path], capture_output=True, text=True)
                self.assertEqual(ran.returncode, status)
        self.assertEqual(ran.stderr, "saved: the first four bytes aren't VQST (60)\n")


if __name__ == "__main__":
    unittest.main()
