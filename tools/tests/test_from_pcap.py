"""Captures of stored scenarios agree wholly with what their routers sent; a capture of FRR's router differs where
the docs say."""
import struct
import subprocess
import tempfile
import unittest
from pathlib import Path

from pimtext.files import capture, captured, frr, frr_lab, matched, pimlab
from viqeshor.lab import packets, story
from tests import stored

pcap = stored.tool("pcap")
FRR = Path(__file__).resolve().parent / "frr"


def looks_whole(data):
    return len(data) >= 20 and data[0] >> 4 == 4


def is_local_data(data):
    """Data that stay on their link, which from_pcap leaves out."""
    is_speech = data[9] == packets.IGMP or (data[9] == packets.PIM and data[16:20] == packets.ALL_PIM_ROUTERS)
    return data[16:19] == bytes((224, 0, 0)) and not is_speech


def taken(steps, router):
    """What a router took, in its order: interface, moment and bytes."""
    own = [step for step in steps if step.router == router.name and step.taken() is not None]
    found = [(step.iface, step.moment, step.taken()) for step in own]
    return [each for each in found if looks_whole(each[2]) and not is_local_data(each[2])]


def shown(read, steps, router):
    """What the capture shows that others sent to a router, as a list of the same kind."""
    found = []
    for seen in pcap.seen(steps, True):
        is_own = seen.comment.startswith("packet ") and f" of {router.name}, move " in seen.comment
        ports = [each.number for each in router.on(seen.link)] if seen.link else []
        is_unicast = seen.link is None and looks_whole(seen.data) and router.has(packets.dotted(seen.data[16:20]))
        if looks_whole(seen.data) and not is_own and (ports or is_unicast) and not is_local_data(seen.data):
            found.append((ports[0] if ports else None, seen.moment, seen.data))
    return found


def unfit(read, steps, router):
    """Why a capture can't tell what a router did, None where it can."""
    own = [step for step in steps if step.router == router.name]
    if any(step.did["do"] in ("down", "routes", "rps", "candidates", "reload") for step in own):
        return "interfaces, routes, RPs or settings change"
    if not any(step.sent for step in own):
        return "it sends nothing"
    if any(step.did.get("draw") and step.did["do"] != "up" for step in own):
        return "its delays are drawn"
    if begins_late(read, steps, router):
        return "what was sent before an interface was up reaches it"
    if any(looks_whole(data) and router.has(packets.dotted(data[12:16])) for _, _, data in taken(steps, router)):
        return "it is given what has its own address"
    if taken(steps, router) != shown(read, steps, router):
        return "it doesn't take what is on its links when it is sent"
    return None


def begins_late(read, steps, router):
    """Whether others' packets on a link of the router are in the capture before its own."""
    spoken = set()
    for seen in pcap.seen(steps, True):
        if seen.comment.startswith("packet ") and f" of {router.name}, move " in seen.comment:
            spoken.add(seen.link)
        elif seen.link and router.on(seen.link) and seen.link not in spoken:
            return True
    return False


def written(read, steps):
    """The capture of a run, read again."""
    with tempfile.TemporaryDirectory() as room:
        path = Path(room) / "run.pcapng"
        path.write_bytes(b"".join(pcap.capture(read, pcap.seen(steps, True))))
        return capture.read(path)


def rows_of(read, steps, router):
    seen = written(read, steps)
    sorter = captured.sorter_of(router, seen)
    events = captured.events_of(sorter, seen)
    return matched.compared(events, captured.run_of(sorter, events, 0))


class Stored(unittest.TestCase):
    def test_what_routers_of_stored_scenarios_sent(self):
        """Where the capture has all that its router took, and no delay of it is drawn, both send the same packets."""
        fit = 0
        for path, lines in stored.played():
            read = pimlab.read(path)
            steps, _ = story.played(read, lines)
            for router in read.routers:
                if unfit(read, steps, router) is None:
                    fit += 1
                    rows = rows_of(read, steps, router)
                    others = [row for row in rows if row.verdict != matched.AGREE]
                    self.assertEqual(others, [], f"{path.name}, {router.name}")
                    self.assertEqual(len({row.theirs.packet for row in rows}), sent_by(steps, router))
        self.assertGreater(fit, 40)


def sent_by(steps, router):
    """How many packets a router sent on links and as unicasts."""
    return sum(len(step.sent) for step in steps if step.router == router.name)


ROUTER, PEER, HOST = "10.0.1.1", "10.0.1.2", "10.0.1.77"
GROUP, FAR = "239.1.1.1", "10.9.0.50"
OWN, OTHER = b"\2\0\0\0\0\1", b"\2\0\0\0\0\2"


def own_query():
    return packets.write_igmp(ROUTER, "224.0.0.1", bytes.fromhex("1164000000000000027d0000"), 0xC0)


def own_hello(priority=1):
    return packets.write_hello(ROUTER, packets.Hello(105, 500, 2500, priority, 0))


def report():
    return packets.write_report(HOST, [packets.Record(4, GROUP, ())])


def ethernet(hardware, data, tag=b""):
    return b"\1\0\x5e\0\0\1" + hardware + tag + b"\x08\0" + data + b"\0\0\0"


def cooked(way, data):
    return struct.pack(">HHH8sH", way, 1, 6, OTHER + b"\0\0", 0x0800) + data


def cooked_2(way, data):
    return struct.pack(">HHIHBB8s", 0x0800, 0, 3, 1, way, 6, OTHER + b"\0\0") + data


def classic(kind, frames, order="<", magic=0xA1B2C3D4, ticks=10**6):
    """A pcap file of frames with their seconds."""
    content = struct.pack(order + "IHHiIII", magic, 2, 4, 0, 0, 65535, kind)
    for moment, frame in frames:
        part = round(moment % 1 * ticks)
        content += struct.pack(order + "IIII", int(moment), part, len(frame), len(frame)) + frame
    return content


class Files(unittest.TestCase):
    def setUp(self):
        self.path = Path(self.enterContext(tempfile.TemporaryDirectory())) / "run.pcap"

    def compared(self, content, *words):
        self.path.write_bytes(content)
        ran = subprocess.run([stored.TOOLS / "from_pcap", self.path, *words], capture_output=True, text=True)
        return ran.returncode, ran.stdout, ran.stderr

    def test_kinds_of_frames(self):
        """A querier that knows a host's group, in each kind of frame, and in both orders of bytes."""
        said = [(1.0, own_query(), True), (1.5, own_hello(), True), (2.0, report(), False)]
        kinds = {
            1: lambda data, is_own: ethernet(OWN if is_own else OTHER, data), 101: lambda data, is_own: data,
            113: lambda data, is_own: cooked(4 if is_own else 0, data),
            276: lambda data, is_own: cooked_2(4 if is_own else 2, data),
        }
        for kind, frame in kinds.items():
            for order, magic, ticks in (("<", 0xA1B2C3D4, 10**6), (">", 0xA1B23C4D, 10**9)):
                frames = [(moment, frame(data, is_own)) for moment, data, is_own in said]
                content = classic(kind, frames, order, magic, ticks)
                status, told, wrong = self.compared(content, "--router", f"{ROUTER}/24")
                self.assertEqual((status, wrong), (0, ""), told)
                self.assertIn("2 agree, 0 differ, 0 only in the capture, 0 only ours", told)
                self.assertIn("+0.400 s beside ours (Triggered_Hello_Delay: up to 5 s)", told)

    def test_a_tag_of_a_vlan(self):
        content = classic(1, [(1.0, ethernet(OWN, own_query(), b"\x81\0\0\5"))])
        self.assertIn("1 agree", self.compared(content, "--router", f"{ROUTER}/24")[1])

    def test_differences(self):
        won = packets.write_assert(ROUTER, packets.Assert(GROUP, 32, FAR, False, 0, 0))
        frames = [(1.0, own_query()), (1.5, own_hello(7)), (2.0, won)]
        frames += [(9.0, packets.write_hello(PEER, packets.Hello(105)))]
        status, told, _ = self.compared(classic(101, frames), "--router", f"{ROUTER}/24", "--differences")
        self.assertEqual(status, 1)
        self.assertIn("1 agree, 1 differ, 1 only in the capture", told)
        self.assertIn("DR priority 7, generation 0, propagation delay 500 ms, override interval 2500 ms: packet 2 at "
                      "0.500 s; ours: Hello for 105 s, DR priority 1", told)
        self.assertIn(f"Assert of ({FAR}, {GROUP}), preference 0, metric 0: packet 3 at 1.000 s", told)
        self.assertNotIn("agree\n", told)

    def test_the_moves_are_a_scenario(self):
        out = self.path.with_suffix(".toml")
        frames = [(1.0, own_query()), (2.0, report())]
        self.compared(classic(101, frames), "--router", f"{ROUTER}/24", "--step", "0", "--scenario", out)
        moves = [(move["do"], move.get("moment", move.get("hex"))) for move in pimlab.read(out).moves]
        self.assertEqual(moves, [("up", None), ("advance", 1000), ("frame", report().hex())])

    def test_what_cannot_be_compared(self):
        for content, words, text in (
            (b"no capture at all, but long enough to be", ["--router", f"{ROUTER}/24"], "neither pcap nor pcapng"),
            (classic(105, []), ["--router", f"{ROUTER}/24"], "frames of the kind 105 aren't read"),
            (classic(101, []), ["--router", f"{ROUTER}/24"], "no PIM, IGMP or multicast data"),
            (classic(101, [(1.0, own_query())]), ["--router", ROUTER], "has no length"),
        ):
            status, _, wrong = self.compared(content, *words)
            self.assertEqual(status, 1)
            self.assertIn(text, wrong)


class OfFrr(unittest.TestCase):
    def test_what_its_router_sent(self):
        """The capture is of r3 in tools/tests/frr/line, on both its links; docs say why what differs does."""
        from_frr = stored.tool("from_frr")
        plan = frr_lab.Plan(frr.routers_of(FRR / "line"))
        with tempfile.TemporaryDirectory() as room:
            table = Path(room) / "line.toml"
            table.write_text(from_frr.played(frr_lab.text_of(plan, "line")).scenario())
            words = [FRR / "line" / "r3.pcapng", "--router", "10.2.0.3", "--table", table]
            ran = subprocess.run([stored.TOOLS / "from_pcap", *words], capture_output=True, text=True)
        self.assertEqual((ran.returncode, ran.stderr), (1, ""))
        self.assertIn("74 agree, 6 differ, 2 only in the capture, 6 only ours", ran.stdout)
        differing = ran.stdout.partition("\ndiffer\n")[2].splitlines()
        lines = [line.strip() for line in differing if line.startswith("  ")]
        texts = [line.partition(", packet ")[0].partition(": packet ")[0] for line in lines]
        asked = "query of all groups: answer within 5 s, robustness 2, interval 20 s"
        delays = "propagation delay 500 ms, override interval 2500 ms"
        self.assertEqual([text.partition(", at ")[0] for text in texts], [
            f"r3-home: {asked}, suppressed: 6 times",
            f"r2-r3: Hello for 105 s, DR priority 1, generation 377427461, {delays}",
            "r2-r3: Join/Prune to 10.2.0.2 for 210 s: join (*, 239.1.1.1) by 10.255.0.2", f"r2-r3: {asked}: 6 times",
        ])


if __name__ == "__main__":
    unittest.main()
