"""`tools/mend`: each broken network is told as broken, as mended where what is wrong with it is mended, and as broken
where something else is changed. The status is worked out from what is broken, and not by the tool."""
import subprocess
import sys
import tempfile
import unittest
from pathlib import Path

from viqeshor.lab import written
from tests import stored

mend = stored.tool("mend")
OWN = '"239.1.0.0/16 10.255.6.1", "239.2.0.0/16 10.255.7.1"'
OTHER = OWN.replace("10.255.6.1", "10.255.7.1")
WAY_OF_E1, OVER_E2 = '"10.0.9.0/24 10.0.3.1 0 110 30"', '"10.0.9.0/24 10.0.6.2 1 1 0"'
UP = '  { do = "up", router = "rp2", iface = 0, draw = 3366389305 },\n'
# Of each network what is replaced: what mends it, and what doesn't.
CHANGES = (
    ((OTHER, OWN), (OTHER, OTHER.replace("10.255.7.1", "10.255.7.9"))),
    (("rps = []", f"rps = [{OWN}]"), ("rps = []", 'rps = ["239.1.0.0/16 10.255.6.1"]')),
    (('fhr-lo2", address = "10.255.6.1', 'fhr-lo2", address = "10.255.8.1'), ("priority = 10", "priority = 1")),
    (('"10.255.6.0/30 10.0.3.1 0 110 20"', f'{WAY_OF_E1}, "10.255.6.0/30 10.0.3.1 0 110 20"'),
     ('"10.255.6.0/30 10.0.3.1 0 110 20"', f'{OVER_E2}, "10.255.6.0/30 10.0.3.1 0 110 20"')),
    (("10.0.3.200", "10.0.3.1"), ("10.0.3.200", "10.0.3.201")),
    ((OVER_E2, WAY_OF_E1), ('"10.0.9.0/24 10.0.6.1 1 1 0"', '"10.0.9.0/24 10.0.6.1 1 1 9"')),
    ((OVER_E2, WAY_OF_E1), (OVER_E2, '"10.0.9.0/24 10.0.6.2 1 110 30"')),
    (("10.0.9.1/28", "10.0.9.1/24"), ("10.0.9.1/28", "10.0.9.1/26")),
    ((UP, UP + UP.replace("iface = 0", "iface = 1")), ("priority = 10", "priority = 199")),
    (("232.1.1.1 join", "232.1.1.1 allow 10.0.9.101"), ("232.1.1.1 join", "232.1.1.1 allow 10.0.9.102")),
)


class Mend(unittest.TestCase):
    def setUp(self):
        self.file = Path(self.enterContext(tempfile.TemporaryDirectory(prefix="mend-"))) / "net.toml"

    def called(self, *words):
        ran = subprocess.run([sys.executable, stored.TOOLS / "mend", *words], capture_output=True, text=True)
        self.assertEqual(ran.stderr, "")
        return ran.returncode, ran.stdout

    def changed(self, number, old, new):
        """What is told of a network in which something is replaced."""
        text = self.file.read_text()
        self.assertIn(old, text)
        self.assertNotEqual(old, new)
        self.file.write_text(text.replace(old, new))
        told = self.called(str(number), self.file)
        self.file.write_text(text)
        return told

    def test_each_is_told_as_broken_and_as_mended_and_another_change_mends_nothing(self):
        self.assertEqual(len(CHANGES), len(mend.NETWORKS))
        for number, (mended, other) in enumerate(CHANGES, 1):
            with self.subTest(number):
                self.file.unlink(missing_ok=True)
                status, told = self.called(str(number), self.file)
                self.assertEqual(status, 0)
                self.assertIn("\n  camera: fhr 10.0.9.1, 10.0.9.101 (source)\n", told)
                self.assertIn("It isn't mended.", told)
                status, told = self.changed(number, *mended)
                self.assertEqual((status, told.splitlines()[-1]),
                                 (0, f"well done: it was {mend.NETWORKS[number - 1].was}"))
                status, told = self.changed(number, *other)
                self.assertEqual(status, 1)
                self.assertNotIn("well done", told)

    def test_whoever_changes_nothing_asks_no_more_or_sends_less_mends_nothing(self):
        self.called("1", self.file)
        self.assertEqual(self.called("1", self.file)[0], 1)
        text = self.file.read_text().replace(OTHER, OWN)
        for words in ("igmp v3 232.1.1.1", "data 239.2.2.2 from 10.0.9.101 port 5000 ttl 16 3"):
            with self.subTest(words):
                lines = text.splitlines(keepends=True)
                self.file.write_text("".join(line for line in lines if words not in line))
                self.assertEqual(self.called("1", self.file)[0], 1)

    def test_a_file_that_is_refused(self):
        self.file.write_text("router = 1\n")
        status, told = self.called("1", self.file)
        self.assertEqual((status, told), (1, f"{self.file} isn't taken: `viq check {self.file}` says why\n"))

    def test_it_lists_what_they_are_about(self):
        status, told = self.called()
        self.assertEqual((status, len(told.splitlines())), (0, len(mend.NETWORKS)))


class Words(unittest.TestCase):
    def test_packets_as_words_are_the_packets(self):
        for file in sorted(mend.FOLDER.glob("*.toml")):
            with self.subTest(file.stem):
                text = file.read_text()
                self.assertEqual(written.plain(written.worded(text)), text)

    def test_which_packets_have_words(self):
        for words in ("data 239.1.1.1 from 10.7.0.50 port 5004 ttl 16 hello", "igmp v3 239.1.1.1 join from 10.8.0.77",
                      "data 239.1.1.1 from 10.7.0.50 port 0 ttl 0", "igmp v3 239.1.1.1 block 10.1.0.1 from 10.8.0.7"):
            with self.subTest(words):
                self.assertEqual(written.words_of(written.packet_of(words)), words)
        for words in ("igmp v2 239.1.1.1 join from 10.8.0.77", "data 239.1.1.1 from 10.7.0.50 it's"):
            with self.subTest(words):
                self.assertIsNone(written.words_of(written.packet_of(words)))
        self.assertIsNone(written.words_of(b"\0"))


if __name__ == "__main__":
    unittest.main()
