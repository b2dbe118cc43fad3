"""No tool stops at what `pimlab` plays: every stored scenario, with moves put in that change what its routers are told,
goes through every tool that reads a scenario.

The moves are `reload` (interfaces added, removed, moved to other links, other addresses; other routes and ranges), and
`routes`, `rps` and `restart`, at places that are drawn. SEED in the environment draws others, ROUNDS more of each. """
import copy
import os
import random
import tempfile
import unittest
from pathlib import Path

from pimtext.files import pimlab
from pimtext.shown import playpage, view_text, views
from viqeshor.lab import scenario, story, toml_lines
from pimtext.causes.diagnosis import Diagnosis
from viqeshor.lab.faults import faults_of
from pimtext.causes.notes import Notes
from tests import stored

SEED, ROUNDS = int(os.environ.get("SEED", 1)), int(os.environ.get("ROUNDS", 1))
# How many moves are put into one scenario.
CHANGES = 4
# The page and the pictures of each so manyth scenario are made too.
PAGES = 6
# Another link comes before `ab` while the first packets of a and b wait.
SHIFTED = """
router = [
  { name = "a", iface = [{ link = "ab", address = "10.0.1.1/24" }] },
  { name = "b", iface = [{ link = "ab", address = "10.0.1.2/24" }] },
  { name = "c", iface = [{ link = "ac", address = "10.0.2.2/24" }] },
]
move = [
  { do = "up", router = "b", iface = 0 },
  { do = "up", router = "c", iface = 0 },
  { do = "settle" },
  { do = "up", router = "a", iface = 0 },
  { do = "reload", router = "a", config = { iface = [
    { link = "ac", address = "10.0.2.1/24" }, { link = "ab", address = "10.0.1.1/24" } ] } },
  { do = "settle" },
]
"""
MISTAKES = stored.TOOLS / "tests" / "mistakes"


class Changes:
    """Moves that change what the routers of a scenario are told."""

    def __init__(self, played, draws):
        self.draws, self.tables = draws, {router.name: router.table for router in played.routers}
        self.links = list(played.links()) + ["another"]

    def table(self, name):
        """A router's configuration as it was told last."""
        return copy.deepcopy({key: value for key, value in self.tables[name].items() if key != "name"})

    def move(self):
        name = self.draws.choice(list(self.tables))
        kind = self.draws.choice(("reload", "reload", "reload", "routes", "rps", "restart"))
        if kind == "restart":
            return {"do": "restart", "router": name}
        if kind != "reload":
            return {"do": kind, "router": name, "list": self.some(self.tables[name].get(kind, [])), "draw": 1}
        config = self.config(name)
        self.tables[name] = config
        return {"do": "reload", "router": name, "draw": self.draws.randrange(1000), "config": config}

    def some(self, texts):
        return [text for text in texts if self.draws.random() < 0.7]

    def config(self, name):
        config = self.table(name)
        for _ in range(self.draws.randint(1, 3)):
            self.draws.choice((self.insert, self.insert, self.remove, self.relink, self.shuffle, self.readdress))(
                config["iface"])
        if self.draws.random() < 0.5:
            config["rps"] = self.some(config.get("rps", []))
        routes = [text for text in config.get("routes", []) if int(text.split()[2]) < len(config["iface"])]
        own = {row["address"].split("/")[0] for row in config["iface"]}
        config["routes"] = [text for text in routes if text.split()[1] not in own or self.draws.random() < 0.1]
        return config

    def insert(self, rows):
        number = self.draws.randrange(200, 250)
        row = {"link": self.draws.choice(self.links), "address": f"10.{number}.0.{self.draws.randrange(1, 9)}/24"}
        rows.insert(self.draws.randint(0, len(rows)), row)

    def remove(self, rows):
        if len(rows) > 1 or self.draws.random() < 0.1:
            rows.pop(self.draws.randrange(len(rows)))

    def relink(self, rows):
        if rows:
            self.draws.choice(rows)["link"] = self.draws.choice(self.links)

    def shuffle(self, rows):
        self.draws.shuffle(rows)

    def readdress(self, rows):
        if rows:
            number = self.draws.choice((*range(200, 250), 300))
            self.draws.choice(rows)["address"] = f"10.{min(number, 255)}.0.3/{self.draws.choice((24, 30, 33))}"


def changed(path, seed):
    """The text of a scenario with moves put in, and a move at which to look."""
    played, draws = pimlab.read(path), random.Random(f"{path.name} {seed}")
    changes = Changes(played, draws)
    moves = list(played.moves)
    places = sorted(draws.randrange(len(moves) + 1) for _ in range(CHANGES))
    for before, at in enumerate(places):
        moves.insert(at + before, changes.move())
    # What was sent before a change comes after it.
    moves.append({"do": "settle", "draw": 5})
    return scenario.text_of([router.table for router in played.routers], moves), draws.randrange(len(moves))


def paths():
    return [*(path for path, _ in stored.played()), *sorted(MISTAKES.glob("*.toml"))]


class Changed(unittest.TestCase):
    def setUp(self):
        self.file = Path(self.enterContext(tempfile.TemporaryDirectory())) / "changed.toml"

    def through(self, text, at, is_page):
        """A scenario through all tools; what `why` tells."""
        self.file.write_text(text)
        lines = pimlab.run_text(text)
        played = pimlab.read(self.file)
        list(stored.tool("show").shown(lines, played))
        steps, _ = story.played(played, lines)
        pcap, mroute = stored.tool("pcap"), stored.tool("mroute")
        list(pcap.capture(played, pcap.seen(steps, True)))
        for number in (at, len(played.moves)):
            for state in mroute.known(played, number).values():
                list(view_text.text(views.router(state)))
        told = self.why(text, played, lines)
        draw = stored.tool("draw")
        list(draw.graph(draw.end_of(self.file)))
        if is_page:
            playpage.page([playpage.Told("changed", text)])
            for moment in draw.moments_of(played, max(1, len(played.moves) // 3)):
                list(draw.graph(draw.picture(moment)))
        return told

    @staticmethod
    def why(text, played, lines):
        judge, number = faults_of(text)
        if number:
            return []
        diagnosis = Diagnosis(judge, played, lines)
        for host in {host for host, *_ in diagnosis.run.hosts.told}:
            list(diagnosis.run.watch.answers(host))
        return diagnosis.lines()

    def test_every_tool_takes_what_the_program_plays(self):
        for number, path in enumerate(paths()):
            for seed in range(SEED, SEED + ROUNDS):
                text, at = changed(path, seed)
                with self.subTest(path.stem, seed=seed):
                    try:
                        pimlab.run_text(text)
                    except pimlab.Refused:
                        continue
                    self.through(text, at, (number + seed) % PAGES == 0)

    def test_packets_that_wait_while_interfaces_shift(self):
        told = self.through(SHIFTED, 3, True)
        refused, = (note for note in told if "27 (BadMove)" in note)
        self.assertIn("moves interface 0 from ab to ac: interfaces are known by their numbers", refused)
        # What a sends on ab before it moves away reaches b no more; nothing else is lost.
        self.assertFalse([note for note in told if "came to c" in note])

    def test_why_a_settle_could_not_bring_a_packet(self):
        judge, _ = faults_of(SHIFTED)
        played = scenario.scenario_of(toml_lines.plain(toml_lines.read(SHIFTED)))
        notes = Notes(judge, Diagnosis(judge, played, pimlab.run_text(SHIFTED)).run)
        whys = [each.alone for each in notes.odd() if each.cause == "27"]
        for number, why in zip((3, 4, 5), whys, strict=True):
            self.assertIn(f"packet {number} left interface 0 of a on the link ab, and a `reload` put that interface on "
                          "ac before the settle: it reaches nobody on ab", why)


if __name__ == "__main__":
    unittest.main()
