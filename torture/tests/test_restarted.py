"""`torture/run restarted`: a router that is saved and restored after each event does what an unbroken one does, and one
that is restored of other bytes doesn't."""
import os
import random
import shutil
import unittest
from argparse import Namespace
from unittest import mock

from pimtext.files import saved as by_document
from pimtext.build.library import Library
from stress import restarted
from viqeshor.lab.facts import REFUSED_BYTES, REFUSED_STATES

CC = os.environ.get("CC", "cc")

# Which numbers of a row are times, of the tables that have some.
TIMES = {
    "up": [1], "neighbour": [0], "querier": [1], "group-record": [0], "source-record": [0], "group-queries": [0],
    "source-queries": [0], "downstream": [0, 1], "assert": [5], "join-timer": [0], "override-timer": [0], "source": [0],
    "register": [1],
}


class Places(by_document.Reader):
    """Reads as ever, and keeps where each key and each time begins."""

    def __init__(self, data):
        super().__init__(data)
        self.keys, self.times = [], []

    def key(self):
        self.keys.append(self.at)
        return super().key()

    def time(self):
        self.times.append(self.at)
        return super().time()


def rows_of(data):
    """The state of saved bytes, and of each row its table, what it says, and where its key and its times begin."""
    made = []
    with mock.patch.object(by_document, "Reader", lambda given: made.append(Places(given)) or made[0]):
        state = by_document.read(data)
    # The count of a list is read as a time is, here of own addresses of no interface and of candidate RPs, where there
    # are some, of interfaces, routes and ranges, and before each table.
    counts = 6 if state.candidates else 5 if state.addresses else 4
    keys, times, rows = iter(made[0].keys), iter(made[0].times[counts:]), []
    for name, table in state.tables.items():
        next(times)
        for _, row in table:
            places = [next(times) for column in TIMES.get(name, []) if row[column] is not None]
            rows.append((name, row, next(keys), places))
    return state, rows


def with_number(data, place, number, count):
    """The bytes with another number at a place, and with their sum."""
    return by_document.summed(data[:place] + number.to_bytes(count, "big") + data[place + count:-4])


def latest(name, row):
    """The longest time that a timer of a row has, in ms; None for one of no known period."""
    if name == "querier":
        return None if row[0] else 1000 * row[-1]
    return {"up": 30_000, "register": 85_000, "assert": 180_000}.get(name)


@unittest.skipUnless(shutil.which(CC) and shutil.which("rt"), "there is no C compiler, or no kit")
class Restarted(unittest.TestCase):
    asked = Namespace(seed=1, runs=20, events=80, spoilt=20)

    @classmethod
    def setUpClass(cls):
        cls.tool = restarted
        cls.library = Library(is_proved=False).shared()
        cls.runs = cls.tool.random_runs(cls.library, cls.asked)
        cls.stored = cls.tool.stored(cls.library)

    def test_random_runs(self):
        self.assertEqual((self.runs.wrong, self.runs.routers, self.runs.restarts), ([], 20, 1600))

    def test_the_routers_of_the_stored_scenarios(self):
        self.assertEqual(self.stored.wrong, [])
        self.assertGreater(self.stored.routers, 150)
        self.assertGreater(self.stored.restarts, self.stored.events * 0.99)

    def test_spoilt_bytes(self):
        for saved in self.runs.saved[:5]:
            for given in self.tool.spoilt(saved, 20, random.Random(1)):
                self.assertIn(self.tool.taken(self.library, given), [0, *REFUSED_BYTES, *REFUSED_STATES])
            self.assertEqual(self.tool.taken(self.library, saved), 0)

    def test_each_flipped_bit_is_told(self):
        draws = random.Random(2)
        for given in (self.tool.flipped(saved, draws) for saved in self.runs.saved[:10] for _ in range(1000)):
            self.assertNotEqual(self.tool.taken(self.library, given), 0)

    def test_a_timer_past_its_period_is_told(self):
        seen = set()
        for saved in self.runs.saved + self.stored.saved:
            given = by_document.opened(saved)[1]
            state, rows = rows_of(given)
            for name, row, _, places in rows:
                for place in places if latest(name, row) else []:
                    seen.add(name)
                    last = state.present + latest(name, row)
                    both = (with_number(given, place, end, 8) for end in (last, last + 1))
                    self.assertEqual([self.tool.taken(self.library, other) for other in both], [0, 72], name)
        self.assertEqual(seen, {"up", "querier", "register", "assert"})

    def test_a_fact_where_none_can_be_is_told(self):
        """The last neighbour with a group in its key, and the last source under a group without a record, where no
        assert or register goes by them."""
        seen = set()
        for given in self.runs.saved:
            for name, _, key, _ in {row[0]: row for row in rows_of(given)[1]}.values():
                if name in ("neighbour", "source-record"):
                    seen.add((name, self.tool.taken(self.library, with_number(given, key + 4, 0xEFFFFFFF, 4))))
        self.assertLess({("neighbour", 72), ("source-record", 72)}, seen)
        self.assertLessEqual({number for _, number in seen}, {68, 72})

    def test_older_hosts_that_no_router_has_are_told(self):
        saved = next(each for each in self.stored.saved if by_document.opened(each)[0])
        ((key, _), *_), router = by_document.opened(saved)
        now = by_document.read(saved).present

        def text(key, *ends):
            source = b"\0" if key.source is None else b"\1" + key.source.to_bytes(4, "big")
            times = (b"\0" if end is None else b"\1" + end.to_bytes(8, "big") for end in ends)
            place = key.iface.to_bytes(4, "big") + key.group.to_bytes(4, "big")
            return place + source + bytes([key.is_rpt]) + b"".join(times)

        for number, other, *ends in (
            (0, key, now + 1, None),
            (0, key, None, now + 225_382_400),
            (0, key, now + 7, now + 8),
            (71, key, now, None),
            (71, key, now + 7, now),
            (71, key, None, now + 225_382_401),
            (71, key, None, None),
            (71, key._replace(source=1), now + 7, None),
            (71, key._replace(is_rpt=True), now + 7, None),
            (71, key._replace(iface=119), now + 7, None),
            (71, key._replace(group=0xE8010101), now + 7, None),
            (71, key._replace(group=0xEFFFFFFF), now + 7, None),
        ):
            given = by_document.summed(b"VIQF" + (1).to_bytes(8, "big") + text(other, *ends) + router)
            self.assertEqual(self.tool.taken(self.library, given), number, (other, ends))

    def test_an_older_state_is_noticed(self):
        """A router that is restored of what was saved before its last event."""
        before = {}

        def stale(library, router, table):
            saved = router.save()
            router.end()
            given, before["saved"] = before.get("saved", saved), saved
            return self.tool.Router.restore(given, library=library)

        with mock.patch.object(self.tool, "restarted", stale):
            came = self.tool.random_runs(self.library, Namespace(seed=1, runs=3, events=30))
        self.assertEqual(len(came.wrong), 3)

    def test_a_router_that_saves_other_bytes_is_noticed(self):
        saved = self.runs.saved[0]
        with mock.patch.object(self.tool.Router, "save", lambda router: saved + b"\0"):
            self.assertRaises(AssertionError, self.tool.taken, self.library, saved)

    def test_another_number_is_noticed(self):
        with mock.patch.object(self.tool.by_document, "read", side_effect=self.tool.by_document.Unreadable(60, "")):
            self.assertRaises(AssertionError, self.tool.taken, self.library, self.runs.saved[0])
            self.assertRaises(AssertionError, self.tool.taken, self.library, b"VQST")


if __name__ == "__main__":
    unittest.main()
