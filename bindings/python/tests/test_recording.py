"""What a recorder keeps of a router, and that it plays once more."""
import errno
import ipaddress
import os
import random
import struct
import tempfile
import unittest
import zlib
from pathlib import Path

from viqeshor import Answer, Refused, Router, hosts, recording
from viqeshor.lab import packets
from viqeshor.recording import Recorder

LINKS = [("10.0.0.2", 24), ("10.0.1.1", 24)]
GROUP = "239.1.1.1"
CANDIDATES = [("239.0.0.0/9", "10.0.0.2", 5, 30), ("239.0.0.0/9", "10.0.1.1", 5, 30)]


class Recordings(unittest.TestCase):
    def setUp(self):
        self.now, self.path = 0, Path(self.enterContext(tempfile.TemporaryDirectory())) / "router"
        self.router = Router(LINKS, [("224.0.0.0/4", "10.0.0.2")], [("10.9.0.0/16", "10.0.0.1", 0, 110, 20)])
        self.addCleanup(self.router.end)

    def use(self, count=1):
        """Each call that a recorder is told of."""
        router = self.router
        router.up(0)
        router.up(1)
        for number in range(count):
            router.advance(1000 * number)
            router.frame(1, hosts.join("10.0.1.9", GROUP))
            router.frame(0, hosts.data("10.0.0.7", GROUP, b"word"))
            router.unicast(b"")
            router.seen(0, "10.0.0.7", GROUP)
            router.keep("10.0.0.7", GROUP, 1000 * number)
        router.set_routes([("10.8.0.0/16", "10.0.1.2", 1, 110, 20)])
        router.set_ranges([])
        router.reload(LINKS, [("239.0.0.0/8", "10.0.1.1")], [("10.8.0.0/16", "10.0.1.2", 1, 110, 20)], robustness=3)
        router.down(0)

    def played(self, path):
        """The records that differ where a file is played."""
        told = recording.read(path)
        with recording.restored(told) as router:
            return [
                record for record in told.records if recording.take(router, record) != (record.answer, record.total)
            ], told

    def test_it_plays_once_more(self):
        with Recorder(self.router, self.path):
            self.router.set_older_hosts(1, "all")
            self.router.set_query_version(1, 2)
            self.router.set_guard(False)
            self.router.set_rp_sets([("10.0.0.2", "10.0.1.1", ["10.0.3.7", "10.0.3.8"])])
            self.use()
            self.router.set_candidates(CANDIDATES)
            self.router.reload(LINKS[::-1], places=[1, 0])
        self.router.up(0)
        differ, told = self.played(f"{self.path}.0")
        self.assertEqual((differ, len(told.records), told.older_groups), ([], 18, 0))
        self.assertEqual({record.name for record in told.records}, set(recording.KINDS))
        self.assertEqual(told.records[6].answer, Answer.DONE)
        self.assertTrue(any(record.total for record in told.records))

    def test_the_library_writes_what_is_read(self):
        with Recorder(self.router, self.path):
            self.router.set_older_hosts(1, "all")
            self.router.set_rp_sets([("10.0.0.2", "10.0.1.1", ["10.0.3.7", "10.0.3.8"])])
            self.use()
            self.router.set_rp_sets([])
            self.router.set_candidates(CANDIDATES)
            self.router.reload(LINKS[:1], places=[None, 0])
        told = recording.read(f"{self.path}.0")
        head = b"VQRC" + struct.pack(">HIQ", 7, 0, len(told.state))
        head += struct.pack(">I", zlib.crc32(head)) + told.state
        written = b"".join(map(self.text_of, told.records))
        self.assertEqual(Path(f"{self.path}.0").read_bytes(), head + written)

    def text_of(self, record):
        """The bytes of a record, by what the document says of them."""
        letter, numbers = recording.KINDS[record.name]
        given = letter.encode() + (b"" if record.name in recording.QUIET else struct.pack(">I", record.draw))
        for name, value in zip(numbers, record.numbers):
            given += struct.pack(">Q" if name == "moment" else ">I", value)
        if record.name in ("frame", "unicast"):
            given += struct.pack(">Q", len(record.data)) + record.data
        elif record.name in recording.LISTS:
            width = {"routes": 24, "ranges": 12, "candidates": 20}[record.name]
            given += struct.pack(">Q", len(record.data) // width) + record.data
        elif record.name == "anycast":
            given += struct.pack(">Q", len(record.numbers))
            at = 0
            for count in record.numbers:
                given += record.data[at:at + 8] + struct.pack(">Q", count) + record.data[at + 8:at + 8 + 4 * count]
                at += 8 + 4 * count
        elif record.name in recording.RELOADS:
            limit, robustness, *times, stays = struct.unpack(">6I", record.data[:24])
            given += struct.pack(">IB4I", limit, stays, robustness, *times)
            at = 24
            for count, width in zip(record.numbers, (20, 4, 24, 12, 4)):
                given += struct.pack(">Q", count) + record.data[at:at + count * width]
                at += count * width
        given += struct.pack(">II", record.answer, record.total)
        return given + struct.pack(">I", zlib.crc32(given))

    def test_the_sum_is_of_what_is_sent(self):
        for number in (0, 1):
            self.router.up(number)
        self.router.frame(1, hosts.join("10.0.1.9", GROUP))
        self.router.packets()
        data, totals = hosts.data("10.0.0.7", GROUP, b"word"), []
        with Recorder(self.router, self.path):
            for happens in (lambda: self.router.frame(0, data), lambda: self.router.advance(40_000)):
                happens()
                sent = self.router.packets()
                self.assertTrue(sent)
                totals.append(self.total_of(sent))
        self.assertEqual([record.total for record in recording.read(f"{self.path}.0").records], totals)

    def total_of(self, sent):
        total = 0
        for kind, where, packet in sent:
            place = int(ipaddress.ip_address(where)) if kind == "unicast" else where
            letter = b"u" if kind == "unicast" else b"f"
            total = zlib.crc32(letter + struct.pack(">IQ", place, len(packet)) + packet, total)
        return total

    def test_version_1_is_read_and_played(self):
        state, packet = self.router.save(), hosts.join("10.0.1.9", GROUP)
        records = []
        for letter, numbers, call, data in (
            (b"+", (1,), lambda: self.router.up(1, draw=7), b""),
            (b"f", (1,), lambda: self.router.frame(1, packet, draw=7), packet),
            (b"a", (0, 40_000), lambda: self.router.advance(40_000, draw=7), b""),
        ):
            answer, total = call(), recording.sum_of(self.router, 1)
            form = f">I{len(numbers)}II"
            given = letter + struct.pack(form, 7, *numbers, len(data)) + data
            records.append(given + struct.pack(">II", answer, total))
        self.path.write_bytes(b"VQRC" + struct.pack(">HIQ", 1, 0, len(state)) + state + b"".join(records))
        told = recording.read(self.path)
        self.assertEqual((told.version, [record.name for record in told.records]), (1, ["up", "frame", "advance"]))
        self.assertTrue(any(record.total for record in told.records))
        with Router.restore(told.state) as router:
            for record in told.records:
                self.assertEqual(recording.take(router, record, 1), (record.answer, record.total))

    def test_it_begins_at_any_time(self):
        self.use(3)
        with Recorder(self.router, self.path):
            self.use(2)
        self.assertEqual(self.played(f"{self.path}.0")[0], [])

    def test_a_reload_is_kept_whole(self):
        with Recorder(self.router, self.path):
            self.router.up(0)
            links = [("10.0.0.3", 24, 7, 400, 2400), *LINKS[1:], ("10.0.2.1", 24)]
            self.router.reload(links, stays_on_shared_tree=True, addresses=["10.255.0.1", "10.255.0.2"])
            self.assertTrue(self.router.packets())
            self.assertRaises(Refused, self.router.reload, [])
        differ, told = self.played(f"{self.path}.0")
        self.assertEqual((differ, [record.name for record in told.records]), ([], ["up", "reload", "reload"]))
        self.assertEqual([record.numbers for record in told.records[1:]], [(3, 2, 0, 0), (0, 0, 0, 0)])
        self.assertEqual([record.answer for record in told.records[1:]], [Answer.DONE, Answer.INTERFACE_COUNT])
        cut = told.records[1]._replace(data=told.records[1].data[:-4])
        with Router.restore(told.state) as router:
            self.assertRaises(recording.Unreadable, recording.take, router, cut)

    def test_a_reload_by_places_is_kept_whole(self):
        with Recorder(self.router, self.path):
            self.router.up(0)
            self.router.reload(LINKS[::-1], places=[1, 0], draw=7)
            for places in ([], [0], [0, 0], [0, 2], [0, 2**32 - 1], [0, None, 1]):
                self.assertRaises(Refused, self.router.reload, LINKS, places=places, draw=7)
            self.router.reload(LINKS[:1], places=[None, 0], draw=7)
        differ, told = self.played(f"{self.path}.0")
        done, refused = Answer.DONE, Answer.PLACES_DONT_FIT
        self.assertEqual((differ, [each.answer for each in told.records]), ([], [done, done, *[refused] * 6, done]))
        self.assertEqual([each.numbers for each in told.records[1::7]], [(2, 0, 0, 0, 2), (1, 0, 0, 0, 2)])
        self.assertEqual(list(map(recording.places_of, told.records[1::7])), [[1, 0], [None, 0]])
        cut = told.records[1]._replace(data=told.records[1].data[:-4])
        with Router.restore(told.state) as router:
            self.assertRaises(recording.Unreadable, recording.take, router, cut)

    def test_no_reload_by_places_is_older_than_version_5(self):
        with Recorder(self.router, self.path):
            self.router.up(0)
            self.router.reload(LINKS[::-1], places=[1, 0])
        told = recording.read(f"{self.path}.0")
        head = recording.summed(b"VQRC" + struct.pack(">HIQ", 4, 0, len(told.state))) + told.state
        self.path.write_bytes(head + b"".join(map(self.text_of, told.records)))
        again = recording.read(self.path)
        self.assertEqual((again.version, again.records), (4, told.records[:1]))
        self.assertEqual(again.rest, len(self.text_of(told.records[1])))

    def test_settings_go_with_their_links(self):
        with Recorder(self.router, self.path, most=4096):
            self.router.set_older_hosts(0, "v2")
            self.router.set_older_hosts(1, "all")
            self.router.reload(LINKS[::-1], places=[1, 0])
            self.router.reload(LINKS[:1], places=[None, 0])
            self.use(200)
        for path in recording.newest(self.path):
            differ, told = self.played(path)
            self.assertEqual((differ, told.records[0][:3]), ([], ("older", 0, (0, 1))))
            self.assertNotEqual(told.records[1].name, "older")

    def test_settings_of_interfaces_that_are_removed_are_forgotten(self):
        with Recorder(self.router, self.path, most=4096):
            self.router.set_older_hosts(0, "v2")
            self.router.set_older_hosts(1, "v2")
            self.router.reload(LINKS[:1])
            self.use(200)
        for path in recording.newest(self.path):
            differ, told = self.played(path)
            self.assertEqual((differ, told.records[0].name), ([], "older"))
            self.assertNotEqual(told.records[1].name, "older")

    def test_another_outcome_is_noticed(self):
        with Recorder(self.router, self.path):
            self.use()
        told = recording.read(f"{self.path}.0")
        changed = [record for record in told.records if record.data != hosts.join("10.0.1.9", GROUP)]
        wanted = [(record.answer, record.total) for record in changed]
        with Router.restore(told.state) as router:
            results = [recording.take(router, record) for record in changed]
        self.assertEqual(len(changed), len(told.records) - 1)
        self.assertNotEqual(results, wanted)

    def test_two_files_in_turn(self):
        with Recorder(self.router, self.path, most=4096):
            self.router.set_older_hosts(1, "v2")
            self.use(200)
        files = recording.newest(self.path)
        self.assertEqual(len(files), 2)
        self.assertEqual(len(os.listdir(self.path.parent)), 2)
        for path in files:
            differ, told = self.played(path)
            self.assertEqual(differ, [])
            self.assertEqual(told.records[0].name, "older")
            self.assertLess(path.stat().st_size, 2 * 4096)

    def test_what_is_cut_off(self):
        with Recorder(self.router, self.path):
            self.use()
        path = Path(f"{self.path}.0")
        whole, data = recording.read(path).records, path.read_bytes()
        path.write_bytes(data[:-1])
        cut = recording.read(path)
        self.assertEqual((cut.records, recording.read(path).rest), (whole[:-1], len(self.text_of(whole[-1])) - 1))
        for given in (b"", data[:10], b"other" + data, data[:4] + struct.pack(">H", 8) + data[6:]):
            path.write_bytes(given)
            self.assertRaises(recording.Unreadable, recording.read, path)
        path.write_bytes(data + b"?")
        self.assertEqual((recording.read(path).records, recording.read(path).rest), (whole, 1))

    def test_candidates_are_as_they_were(self):
        with Recorder(self.router, self.path, most=4096):
            self.router.set_candidates(CANDIDATES * 2)
            self.router.set_candidates(CANDIDATES)
            self.use(200)
        self.assertEqual(self.router.tree(GROUP).rp, "10.0.0.2")
        for path in recording.newest(self.path):
            self.assertEqual(self.played(path)[0], [])
            with recording.restored(recording.read(path)) as router:
                self.assertEqual(router.tree(GROUP).rp, "10.0.0.2")

    def test_no_candidates_are_older_than_version_7(self):
        with Recorder(self.router, self.path):
            self.router.up(0)
            self.router.set_candidates(CANDIDATES)
        told = recording.read(f"{self.path}.0")
        head = recording.summed(b"VQRC" + struct.pack(">HIQ", 6, 0, len(told.state))) + told.state
        self.path.write_bytes(head + b"".join(map(self.text_of, told.records)))
        again = recording.read(self.path)
        self.assertEqual((again.version, again.records), (6, told.records[:1]))

    def test_sets_of_rps_are_as_they_were(self):
        inner = hosts.data("10.0.3.5", GROUP)
        register = packets.write(103, "10.0.3.1", "10.0.0.2", 60, b"\x21\0\xde\xff\0\0\0\0" + inner)
        for first in (True, False):
            self.router.set_rp_sets([("10.0.0.2", "10.0.1.1", ["10.0.3.7"])] if first else [])
            with Recorder(self.router, self.path, most=4096):
                if not first:
                    self.router.set_rp_sets([("10.0.0.2", "10.0.1.1", ["10.0.3.8"])])
                for moment in range(100):
                    self.router.advance(self.now + moment)
                    self.router.unicast(register)
            self.now += 100
            for path in recording.newest(self.path):
                differ, told = self.played(path)
                self.assertEqual((differ, told.records[0].name, told.records[0].numbers), ([], "anycast", (1,)))
                self.assertTrue(all(record.total for record in told.records if record.name == "unicast"))
        with recording.restored(told) as router:
            recording.take(router, told.records[0])
            self.assertEqual(router.rp_sets, [("10.0.0.2", "10.0.1.1", ("10.0.3.8",))])

    def test_the_guard_is_as_it_was(self):
        """A recording begins with a router that has a guard, unless it says otherwise or is of a version before 4."""
        stopped = packets.write(103, "10.0.1.5", GROUP, 9, bytes(8))
        with Recorder(self.router, self.path, most=4096):
            self.router.set_guard(False)
            self.use(200)
        for path in recording.newest(self.path):
            differ, told = self.played(path)
            self.assertEqual((differ, told.records[0][:3]), ([], ("guard", 0, (0,))))
        for version, has_guard in ((4, True), (3, False)):
            with recording.restored(told._replace(version=version)) as router:
                self.assertEqual(router.has_guard, has_guard)
                self.assertEqual(router.frame(1, stopped) == Answer.GUARDED, has_guard)
                recording.take(router, told.records[0])
                self.assertFalse(router.has_guard)

    def test_version_2_is_read_and_played(self):
        with Recorder(self.router, self.path):
            self.use()
        told = recording.read(f"{self.path}.0")
        head = b"VQRC" + struct.pack(">HIQ", 2, 0, len(told.state)) + told.state
        self.path.write_bytes(head + b"".join(self.text_before(record) for record in told.records))
        differ, again = self.played(self.path)
        self.assertEqual((differ, again), ([], told._replace(version=2)))

    def test_version_3_is_read_and_played(self):
        with Recorder(self.router, self.path):
            self.use()
        told = recording.read(f"{self.path}.0")
        head = recording.summed(b"VQRC" + struct.pack(">HIQ", 3, 0, len(told.state))) + told.state
        self.path.write_bytes(head + b"".join(recording.summed(self.text_before(record)) for record in told.records))
        differ, again = self.played(self.path)
        self.assertEqual((differ, again), ([], told._replace(version=3)))

    def text_before(self, record):
        """A record without its sum, as before version 4: a reload had no list of addresses."""
        text = self.text_of(record)[:-4]
        if record.name != "reload":
            return text
        at = 1 + 4 + 21 + 8 + 20 * record.numbers[0]
        self.assertEqual(text[at:at + 8], bytes(8))
        return text[:at] + text[at + 8:]

    def test_a_length_that_is_damaged(self):
        with Recorder(self.router, self.path):
            self.use()
        path = Path(f"{self.path}.0")
        told, data = recording.read(path), bytearray(path.read_bytes())
        first = next(number for number, record in enumerate(told.records) if record.name == "frame")
        begun = len(data) - sum(len(self.text_of(record)) for record in told.records[first:])
        data[begun + 9] ^= 0x80  # behind a letter, the draw and the interface: the length's most significant bit
        path.write_bytes(data)
        damaged = recording.read(path)
        self.assertEqual((damaged.records, damaged.rest), (told.records[:first], len(data) - begun))

    def test_each_flip_is_told(self):
        with Recorder(self.router, self.path):
            self.router.set_older_hosts(1, "all")
            self.use(2)
            self.router.reload(LINKS[::-1], places=[1, 0])
        path, chance = Path(f"{self.path}.0"), random.Random(7)
        whole, kinds = path.read_bytes(), set()
        for _ in range(400):
            data = bytearray(whole)
            data[chance.randrange(len(data))] ^= 1 << chance.randrange(8)
            path.write_bytes(data)
            kinds.add(self.outcome(path))
        self.assertEqual(kinds, {"Unreadable", "Refused", "cut short"})

    def outcome(self, path):
        """What became of a file; what is neither played nor refused is raised."""
        try:
            differ, told = self.played(path)
            return "cut short" if told.rest else "differs" if differ else "played"
        except (recording.Unreadable, Refused) as error:
            return type(error).__name__

    def test_version_1_has_reloads(self):
        state, links, first = self.router.save(), [(*LINKS[0], 7, 400, 2400)], (65536, 2, 125, 100, 10, 0)
        self.router.reload(links, draw=7)
        interface = int(ipaddress.ip_address(LINKS[0][0])), 24, 7, 400, 2400
        data = struct.pack(">11I", *first, *interface)
        record = b"c" + struct.pack(">5I", 7, 1, 0, 0, len(data)) + data
        record += struct.pack(">II", 0, recording.sum_of(self.router, 1))
        head = b"VQRC" + struct.pack(">HIQ", 1, 0, len(state)) + state
        self.path.write_bytes(head + record)
        self.assertEqual([each.name for each in self.played_as(1)], [])
        self.path.write_bytes(head + record.replace(struct.pack(">I", len(data)), struct.pack(">I", len(data) - 4), 1))
        told = recording.read(self.path)
        self.assertEqual((told.records, told.rest), ([], len(record)))

    def played_as(self, version):
        told = recording.read(self.path)
        with Router.restore(told.state) as router:
            return [
                record
                for record in told.records
                if recording.take(router, record, version) != (record.answer, record.total)
            ]


class Part:
    """A file that takes a few bytes at a time, and none once it has so many."""

    def __init__(self, file, most):
        self.file, self.left = file, most

    def write(self, data):
        count = min(3, len(data), self.left)
        if not count:
            raise OSError(errno.ENOSPC, "no space left")
        self.left -= count
        return self.file.write(data[:count])

    def __getattr__(self, name):
        return getattr(self.file, name)


class Disks(unittest.TestCase):
    """A disk that fails ends the recording, and harms no call of the router."""

    def setUp(self):
        self.now, self.path = 0, Path(self.enterContext(tempfile.TemporaryDirectory())) / "router"
        self.router = Router(LINKS)
        self.addCleanup(self.router.end)

    def advance(self, count, first=1):
        for moment in range(first, first + count):
            self.assertEqual(self.router.advance(moment), Answer.DONE)

    def test_writes_that_take_a_part(self):
        with Recorder(self.router, self.path) as recorder:
            recorder._file = Part(recorder._file, 10_000)
            self.advance(20)
        told = recording.read(f"{self.path}.0")
        self.assertEqual((recorder.error, len(told.records), told.rest), (None, 20, 0))

    def test_a_disk_that_is_full_amid_a_record(self):
        with Recorder(self.router, self.path) as recorder:
            self.advance(3)
            recorder._file = Part(recorder._file, 50)
            self.advance(20, first=4)
            self.assertEqual(recorder.error.errno, errno.ENOSPC)
            self.assertIsNone(self.router._took)
        told = recording.read(f"{self.path}.0")
        self.assertEqual((len(told.records), told.rest), (3 + 50 // 21, 0))
        with Recorder(self.router, self.path) as recorder:
            self.advance(1, first=50)
        self.assertIsNone(recorder.error)

    @unittest.skipUnless(os.path.exists("/dev/full"), "there is no /dev/full")
    def test_dev_full(self):
        os.symlink("/dev/full", f"{self.path}.new")
        self.assertRaises(OSError, Recorder, self.router, self.path)
        self.assertFalse(os.path.lexists(f"{self.path}.new"))
        with Recorder(self.router, self.path, most=1) as recorder:
            self.assertIsNone(recorder.error)
            os.symlink("/dev/full", f"{self.path}.new")
            self.advance(5)
            self.assertEqual(recorder.error.errno, errno.ENOSPC)
        told = recording.read(f"{self.path}.0")
        self.assertEqual((len(told.records), told.rest), (1, 0))
        self.assertEqual(os.listdir(self.path.parent), ["router.0"])


if __name__ == "__main__":
    unittest.main()
