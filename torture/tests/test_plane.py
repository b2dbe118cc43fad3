"""`torture/run plane`: a plane that keeps its duties sends what the router alone sends, and one that forgets any of
them doesn't."""
import os
import shutil
import unittest

from pimtext.build.library import Library
from stress import plane

CC = os.environ.get("CC", "cc")


@unittest.skipUnless(shutil.which(CC) and shutil.which("rt"), "there is no C compiler, or no kit")
class Planes(unittest.TestCase):
    EVENTS, MOST_RUNS = 120, 60

    @classmethod
    def setUpClass(cls):
        cls.tool = plane
        cls.library = cls.tool.refusing(Library(is_proved=False))

    def diverging(self, *forgets):
        """The first run of a plane that forgets these duties in which something differs."""
        found = (self.tool.run(self.library, seed, self.EVENTS, forgets)[0] for seed in range(1, self.MOST_RUNS + 1))
        return next((each for each in found if each), None)

    def test_a_plane_that_keeps_its_duties(self):
        decided = 0
        for seed in range(1, 31):
            found, _, by_itself = self.tool.run(self.library, seed, self.EVENTS)
            self.assertIsNone(found, seed)
            decided += by_itself
        self.assertGreater(decided, 500)

    def test_the_routers_of_the_stored_scenarios(self):
        found, routers, _, decided = self.tool.stored(self.library)
        self.assertIsNone(found)
        self.assertGreater(routers, 150)
        self.assertGreater(decided, 0)

    def test_each_duty_that_is_forgotten_is_noticed(self):
        for duty in self.tool.DUTIES:
            with self.subTest(duty):
                self.assertIsNotNone(self.diverging(duty))

    def test_a_seed_has_one_run(self):
        found = self.diverging("moments")
        again, _, _ = self.tool.run(self.library, int(found.run.removeprefix("seed ")), self.EVENTS, ["moments"])
        self.assertEqual(again, found)

    def test_a_divergence_ends_with_the_event_after_which_something_differs(self):
        found = self.diverging("up")
        self.assertTrue(found.events[-1].words.startswith("on "))
        self.assertEqual(found.lines, ("alone:", "answer 23 (INTERFACE_DOWN)", "behind the plane:", "answer 0 (DONE)"))


if __name__ == "__main__":
    unittest.main()
