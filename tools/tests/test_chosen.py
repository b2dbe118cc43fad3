"""Which RP a group has of several, and what tools say of it. The hash values are those that FRR 8.4.4 printed of
239.0.0.0/8 with a mask of 30 bits, which 239.0.0.1 has too: 2067580945 of 10.99.0.1, 240866473 of 10.88.0.9 and
53588824 of 10.77.0.2."""
import subprocess
import tempfile
import unittest

from pimtext.causes.chosen import Choices
from pimtext.causes.diagnosis import Diagnosis
from pimtext.causes.notes import Lines
from pimtext.causes.run import Run
from pimtext.files import pimlab
from pimtext.ways.namings import namings
from viqeshor.lab import scenario, toml_lines
from viqeshor.lab.faults import faults_of
from viqeshor.lab.rps import candidates_of
from tests import stored
from tests.networks import TO_EX, Network, report

GROUP = "239.0.0.1"
HASHED = ["239.0.0.0/8 10.77.0.2 192 30", "239.0.0.0/8 10.99.0.1 192 30", "239.0.0.0/8 10.88.0.9 192 30"]


def told(router, *texts):
    return {"do": "candidates", "router": router, "list": list(texts)}


def network(**lists):
    """A network without RP ranges whose host asks for a group, after each router was told of these candidates."""
    made = Network(*(told(name, *texts) for name, texts in lists.items()), report(TO_EX, GROUP))
    for router in made.routers:
        router["rps"] = []
    return made


def ran(text):
    judge, number = faults_of(text)
    assert not number, judge.faults
    played = scenario.scenario_of(toml_lines.plain(toml_lines.read(text)))
    return judge, played, pimlab.run_text(text)


def lines(text, group=GROUP):
    judge, played, printed = ran(text)
    return list(Choices(Run(played, printed, Lines(judge)), group).lines())


class Order(unittest.TestCase):
    def why(self, first, second, ranges=()):
        """Why the first of two candidates has the group before the second, in any order."""
        for texts in ([first, second], [second, first]):
            one, *others = namings(GROUP, ranges, candidates_of(texts))
            self.assertEqual(f"{one.prefix} {one.rp}", " ".join(first.split()[:2]))
            yield one.why_before(others[-1])

    def test_each_step_of_the_choice(self):
        for first, second, why in (
            ("239.0.0.0/16 10.77.0.2 255 0", "239.0.0.0/8 10.99.0.1 0 30", "its prefix is longer"),
            ("239.0.0.0/8 10.77.0.2 0 30", "239.0.0.0/8 10.99.0.1 1 30", "its priority is the lower number"),
            (HASHED[1], HASHED[2], "its hash value is 2067580945, and the other's 240866473"),
            (HASHED[2], HASHED[0], "its hash value is 240866473, and the other's 53588824"),
        ):
            with self.subTest(why):
                self.assertEqual(list(self.why(first, second)), [why, why])

    def test_a_range_and_a_candidate(self):
        candidates = candidates_of(["239.0.0.0/8 10.0.0.1 0 30", "239.0.0.0/24 10.0.0.2 255 30"])
        ranges = [(each.prefix, "10.0.0.9") for each in candidates]
        found = [(it.rp, str(it.prefix)) for it in namings(GROUP, ranges, candidates)]
        self.assertEqual(found, [("10.0.0.9", "239.0.0.0/24"), ("10.0.0.2", "239.0.0.0/24"),
                                 ("10.0.0.9", "239.0.0.0/8"), ("10.0.0.1", "239.0.0.0/8")])
        one, other, *_ = namings(GROUP, ranges, candidates)
        self.assertEqual(one.why_before(other), "of one prefix the range has the RP")


class Told(unittest.TestCase):
    def test_why_a_router_has_an_rp(self):
        text = network(east=HASHED, hub=HASHED, west=HASHED).text()
        found = lines(text)
        start = found.index(next(line for line in found if line.startswith("  east: ")))
        self.assertRegex(found[start], r"^  east: 10\.99\.0\.1, a candidate of 239\.0\.0\.0/8 with priority 192: since "
                                       r"5\.000 s, by move \d+ \(candidates\), line \d+; before there was none$")
        self.assertEqual(found[start + 1:], [
            "    before 10.88.0.9, a candidate of 239.0.0.0/8 with priority 192: its hash value is 2067580945, and the "
            "other's 240866473",
            "    before 10.77.0.2, a candidate of 239.0.0.0/8 with priority 192: its hash value is 2067580945, and the "
            "other's 53588824",
        ])

    def test_routers_that_disagree(self):
        other = ["239.0.0.0/8 10.99.0.1 193 30", "239.0.0.0/8 10.88.0.9 192 24"]
        found = lines(network(west=HASHED, hub=HASHED[2:], east=other).text())
        at = found.index("  the routers disagree: 10.99.0.1 at west; 10.88.0.9 at hub and east")
        self.assertEqual(found[at + 1:], ["    hub doesn't have the candidate 10.99.0.1 of 239.0.0.0/8"])
        found = lines(network(west=HASHED, hub=HASHED, east=other).text())
        at = found.index("  the routers disagree: 10.99.0.1 at west and hub; 10.88.0.9 at east")
        whose = "the candidate {} of 239.0.0.0/8 has "
        self.assertEqual(found[at + 1:], [
            f"    {whose.format('10.99.0.1')}priority 192 at west, and priority 193 at east",
            f"    {whose.format('10.88.0.9')}a hash mask of 30 bits at west, and a hash mask of 24 bits at east",
        ])

    def test_a_router_that_has_none(self):
        found = lines(network(west=HASHED).text())
        self.assertIn("  east: none: no RP range and no candidate has the group", found)
        self.assertIn("  the routers disagree: 10.99.0.1 at west; none at hub and east", found)
        self.assertEqual(lines(network(west=HASHED).text(), "232.1.1.1")[1:],
                         [f"  {name}: none: a group of SSM has none" for name in ("west", "hub", "east")])

    def test_an_rp_that_is_learned(self):
        found = lines((stored.DATA / "bsr_here_and_not_there.toml").read_text(), "239.1.1.1")
        self.assertIn("    learned of Bootstraps, until 150.001 s", found)
        self.assertIn("    r2 doesn't have the range 239.0.0.0/8 with the RP 10.0.0.1", found)

    def test_the_tool(self):
        with tempfile.NamedTemporaryFile("w", suffix=".toml") as file:
            def called(*words):
                ran = subprocess.run([stored.TOOLS / "why", file.name, *words], capture_output=True, text=True)
                return ran.returncode, ran.stdout + ran.stderr

            file.write(network(east=HASHED, hub=HASHED, west=HASHED).text())
            file.flush()
            status, out = called("--rp", GROUP, "232.1.1.1")
            self.assertEqual((status, "disagree" in out, "\n232.1.1.1\n" in out), (0, False, True))
            self.assertEqual(called("--rp", GROUP, "224.0.0.0")[0], 1)
            self.assertEqual(called("--rp", "10.0.0.1"), (1, "tools/why: 10.0.0.1 is no group's address\n"))


class Causes(unittest.TestCase):
    def notes(self, made):
        return Diagnosis(*ran(made.text())).lines()

    def test_another_candidate_than_other_routers_have(self):
        made = network(west=HASHED, hub=HASHED, east=HASHED[2:])
        wanted = ": the RP of 239.0.0.1 is 10.88.0.9 here, and 10.99.0.1 at router west ("
        (note,) = [note for note in self.notes(made) if wanted in note]
        self.assertTrue(note.startswith(f"{made.said_line(2)}: router east{wanted}"), note)
        self.assertIn("; east doesn't have the candidate 10.99.0.1 of 239.0.0.0/8: since ", note)

    def test_candidates_that_are_refused(self):
        notes = self.notes(network(west=HASHED, hub=HASHED, east=[HASHED[0], HASHED[0], "239.0.0.0/8 0.0.0.0 0 30"]))
        said = ": it was refused 76 (BadCandidates): "
        (note,) = [note for note in notes if said in note]
        twice, host = note.partition(said)[2].splitlines()[0].split("; ")
        self.assertRegex(twice, f'^"{HASHED[0]}": this RP stands twice for its prefix: in line \\d+ already$')
        self.assertEqual(host, '"239.0.0.0/8 0.0.0.0 0 30": the RP 0.0.0.0 is no host\'s address')


if __name__ == "__main__":
    unittest.main()
