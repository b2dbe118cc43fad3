"""Captures of all stored scenarios: there are as many packets as lines, and for tshark nothing is malformed."""
import shutil
import struct
import subprocess
import tempfile
import unittest
from collections import Counter
from pathlib import Path

from pimtext.files import pimlab
from viqeshor.lab import scenario, story
from tests import stored
from tests.networks import GROUP, SOURCE, TO_EX, Network, data, report

pcap = stored.tool("pcap")
# In this scenario a source's data claim to be PIM.
CLAIMS_TO_BE_PIM = "register_8.toml"
# What is wrong in the data of sources, which are any bytes in these scenarios, isn't the routers'.
WRONG = "(pim || igmp) && (_ws.malformed || _ws.expert.severity >= warning)"


def sent_of(path, lines):
    read = pimlab.read(path)
    return read, list(pcap.seen(story.played(read, lines)[0], False))


def blocks(content):
    """The blocks of a file: kind and body."""
    while content:
        kind, size = struct.unpack("<II", content[:8])
        yield kind, content[8:size - 4]
        assert content[size - 4:size] == content[4:8]
        content = content[size:]


def packets_in(content):
    """The interfaces' numbers, bytes and comments of a file's packets."""
    for kind, body in blocks(content):
        if kind == pcap.PACKET:
            number, _, _, size, _ = struct.unpack("<IIIII", body[:20])
            rest = body[20 + size + -size % 4:]
            yield number, body[20:20 + size], rest[4:4 + struct.unpack("<HH", rest[:4])[1]].decode()


class Written(unittest.TestCase):
    def network(self, *said):
        network = Network(*said)
        read = scenario.scenario_of({"router": network.routers, "move": network.moves()})
        return read, story.played(read, pimlab.run_text(network.text()))[0]

    def test_what_routers_and_hosts_sent(self):
        read, steps = self.network()
        written = list(packets_in(b"".join(pcap.capture(read, pcap.seen(steps, True)))))
        hosts = [(list(read.links())[number], comment) for number, _,
            comment in written if comment.startswith("given to")]
        self.assertEqual([link for link, _ in hosts], ["home", "studio"])
        self.assertIn(f"TO_EX {GROUP}", hosts[0][1])
        self.assertIn(f"{SOURCE} > {GROUP}: data", hosts[1][1])
        self.assertEqual(len(written) - len(hosts), sum(len(step.sent) for step in steps))
        self.assertIn(bytes.fromhex(data()["hex"]), [content for _, content, _ in written])

    def test_what_several_routers_take_is_one_packet(self):
        both = [report(TO_EX, GROUP, router=name, iface=number, host="10.0.2.77") for name,
            number in (("hub", 1), ("east", 0))]
        for said, count in ((both, 1), (both + both, 2), (both[:1] * 3, 3)):
            read, steps = self.network(*said)
            self.assertEqual(sum(each.comment.startswith("given to") for each in pcap.seen(steps, True)), count)

    def test_bytes_that_are_no_packet(self):
        for text in ("", "ff", "45000021" * 500):
            read, steps = self.network({"do": "frame", "router": "east", "iface": 1, "hex": text})
            (given,) = [each for each in pcap.seen(steps, True) if each.comment.startswith("given to")]
            self.assertIn("malformed", given.comment)
            self.assertIn(bytes.fromhex(text),
                [content for _, content, _ in packets_in(b"".join(pcap.capture(read, [given])))])

    def test_a_file_that_cannot_be_written(self):
        words = [stored.TOOLS / "pcap", stored.EXAMPLES / "one_join.toml", "/nowhere/run.pcapng"]
        ran = subprocess.run(words, capture_output=True, text=True)
        self.assertEqual((ran.returncode, ran.stderr),
            (1, "/nowhere/run.pcapng can't be written: No such file or directory\n"))


def fields(path, *names, where="frame"):
    """These fields of each packet, as tshark reads them; it doesn't look into UDP."""
    wanted = [word for name in names for word in ("-e", name)]
    words = ["tshark", "-n", "--disable-protocol", "udp", "-r", path, "-Y", where, "-T", "fields", *wanted]
    read = subprocess.run(words, capture_output=True, text=True, check=True).stdout
    return [line.split("\t") for line in read.splitlines()]


@unittest.skipUnless(shutil.which("tshark"), "tshark isn't installed")
class Captured(unittest.TestCase):
    def setUp(self):
        self.out = Path(self.enterContext(tempfile.TemporaryDirectory())) / "run.pcapng"

    def test_all_stored_scenarios_as_sections_of_one_file(self):
        count = 0
        with self.out.open("wb") as out:
            for path, lines in stored.played():
                if path.name != CLAIMS_TO_BE_PIM:
                    read, sent = sent_of(path, lines)
                    count += sum(line.startswith(("frame ", "copy ", "unicast ")) for line in lines)
                    out.writelines(pcap.capture(read, sent))
        self.assertEqual(len(fields(self.out, "frame.number")), count)
        self.assertEqual(fields(self.out, "frame.comment", where=WRONG), [])

    def test_interfaces_and_moments_of_an_example(self):
        path = stored.EXAMPLES / "ssm_television.toml"
        read, sent = sent_of(path, path.with_suffix(".out").read_text().splitlines())
        self.out.write_bytes(b"".join(pcap.capture(read, sent)))
        rows = fields(self.out, "frame.interface_name", "frame.time_epoch", "ip.src")
        self.assertEqual(Counter(row[0] for row in rows), Counter(each.link for each in sent))
        self.assertEqual([round(float(row[1]) * 1000) for row in rows], [each.moment for each in sent])


if __name__ == "__main__":
    unittest.main()
