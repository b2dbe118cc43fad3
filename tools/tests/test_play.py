"""The page of a run: what it is made of, and that a browser opens and plays it."""
import json
import re
import subprocess
import tempfile
import unittest
from pathlib import Path

from lab import Network
from pimtext.files import labfile, pimlab
from pimtext.shown import playpage, recorded
from viqeshor.lab import colours, printed, scenario, story
from tests import browser, networks, stored

EXAMPLE = stored.EXAMPLES / "shared_to_source_tree.toml"
CAME, TWICE, MISSED = 2, 3, 4


def run(text, **more):
    return playpage.run_of(playpage.Told("test", text, **more))


def last_state(told, host):
    """What the last event of a host says of its stream, and in which words."""
    events = next(each for each in told["hosts"] if each["address"] == host)["events"]
    _, _, state, text = events[-1]
    return state, told["texts"][text]


def large_network():
    """A ring of 30 routers with three sources and six viewers; after 15 s a link fails for good."""
    net = Network()
    names = [f"r{number}" for number in range(30)]
    net.ring(*names)
    net.rp("r15")
    cameras = [net.host(f"camera{number}", f"r{number}") for number in range(3)]
    viewers = [net.host(f"viewer{number}", f"r{5 * number + 4}") for number in range(6)]
    net.run(10)
    for number, viewer in enumerate(viewers):
        viewer.join(f"239.1.1.{number % 3}")
    net.run(5)
    for number, camera in enumerate(cameras):
        camera.stream(f"239.1.1.{number}", times=5)
    net.links["r0-r1"].down()
    net.run(5)
    return net


class TablesOfEachAnswer(unittest.TestCase):
    def test_they_are_those_of_the_run_up_to_there(self):
        """After each move that is no settle the tables are those at the end of a run of the moves up to it."""
        read = pimlab.read(EXAMPLE)
        parts = list(story.Teller(read).tell(pimlab.run_text(read.text(), ["--tables-each"])))
        self.assertEqual(len([part for part in parts if isinstance(part, story.Step)]), len(parts) / 2)
        for number, did in enumerate(read.moves, 1):
            cut = scenario.Scenario(read.routers, read.moves[:number])
            _, tables = story.played(cut, pimlab.run_text(cut.text()))
            for name in {part.router for part in parts if isinstance(part, story.Step) and part.move == number}:
                here = [part for step, part in zip(parts[::2], parts[1::2]) if step.move <= number
                        and part.router == name]
                self.assertEqual(here[-1].rows, tables[name].rows, (number, name, did))

    def test_nothing_else_is_printed_otherwise(self):
        text = EXAMPLE.read_text()
        plain = pimlab.run_text(text, ())
        each = [line for line in pimlab.run_each(text) if line.split(" ")[0] in ("move", *printed.PACKETS)]
        self.assertEqual(plain, each)
        self.assertEqual(pimlab.run_text(text)[:len(plain)], plain)

    def test_both_kinds_of_tables_follow_one_another(self):
        text = EXAMPLE.read_text()
        end = pimlab.run_text(text)[len(pimlab.run_text(text, ())):]
        self.assertEqual(pimlab.run_each(text), pimlab.run_text(text, ["--tables-each"]) + end)


class Recorded(unittest.TestCase):
    def test_a_shape_and_ends_are_the_rows(self):
        """Of each step the rows in words are those that the run printed, and its ends are theirs."""
        read = pimlab.read(EXAMPLE)
        lines = pimlab.run_each(read.text())
        told = run(read.text())
        tables = [part for part in story.Teller(read).tell(lines) if isinstance(part, story.Tables)]
        now = {}
        for step, table in zip(told["steps"], tables):
            router, shape, _, ends = step[:4]
            if shape >= 0:
                now[router] = [shape, list(ends)]
            else:
                for at in range(0, len(ends), 2):
                    now[router][1][ends[at]] = ends[at + 1]
            rows = [told["texts"][row] for row in told["shapes"][router][now[router][0]]["rows"]]
            self.assertEqual(rows, list(dict.fromkeys(recorded.row_words(read.routers[router], row)
                                                      for row in table.rows)))
            wanted = [end for row in table.rows for end in recorded.parted(row)[1].values()]
            self.assertEqual(now[router][1], wanted)

    def test_what_came_to_a_host(self):
        told = run(networks.Network().text())
        self.assertEqual(last_state(told, networks.HOST), (CAME, "packet 1 came by west hub east"))

    def test_what_did_not_come_and_why(self):
        net = networks.Network()
        net.router("hub")["rps"] = []
        state, text = last_state(run(net.text()), networks.HOST)
        self.assertEqual(state, MISSED)
        self.assertIn("hub has no RP for 239.1.1.1", text)

    def test_what_came_twice(self):
        """The copy of the first packet is brought to the last router once more."""
        net = networks.Network()
        moves = net.moves()
        read = scenario.scenario_of({"router": net.routers, "move": moves})
        steps, _ = story.played(read, pimlab.run_text(read.text()))
        copy = next(sent for step in steps for sent in step.sent if sent.kind == "copy" and sent.where == "hub-east")
        again = {"do": "deliver", "router": "east", "iface": 0, "frame": copy.number}
        told = run(scenario.text_of(net.routers, [*moves, again]))
        state, text = last_state(told, networks.HOST)
        self.assertEqual(state, TWICE)
        self.assertIn("packet 1 came twice", text)

    def test_moves_of_one_time_are_one(self):
        told = run(networks.Network().text(), is_by_time=True)
        self.assertEqual([move[3] for move in told["moves"]], [0, 5000])
        self.assertEqual(sum(move[2] for move in told["moves"]), len(told["steps"]))
        self.assertIn("10.8.0.77 reports", told["texts"][told["moves"][1][0]])


class Colours(unittest.TestCase):
    def test_a_tree_has_its_own_whatever_else_is_there(self):
        tree = ("239.1.1.1", "10.0.0.1")
        alone = colours.colours([tree])[tree]
        self.assertEqual(alone, colours.PALETTE[colours.place_of(tree)])
        many = [(f"239.1.1.{number}", "*") for number in range(24)]
        found = colours.colours(many)
        self.assertEqual(len(set(found.values())), 24)


@unittest.skipUnless(browser.CHROMIUM, "chromium isn't installed")
class Browsed(unittest.TestCase):
    """Each page is opened by a browser, and its console has to stay empty."""

    def page_of(self, *tolds):
        path = Path(self.enterContext(tempfile.TemporaryDirectory(prefix="play-"))) / "page.html"
        path.write_text(playpage.page(tolds))
        return path

    def test_it_opens_slides_and_plays(self):
        path = self.page_of(playpage.Told("shared_to_source_tree", EXAMPLE.read_text()))
        with browser.opened(path) as page:
            self.assertEqual(page.value("document.querySelectorAll('#moves > div').length"), 21)
            self.assertEqual(page.value("document.querySelectorAll('#maps .pick').length"), 3)
            page.value("byId('slider').value = 14; byId('slider').dispatchEvent(new Event('input'))")
            self.assertIn("Move 14. settle: 2 deliveries", page.value("byId('caption').textContent"))
            self.assertIn("joined upstream (*, 239.1.1.1)", page.value("byId('side').textContent"))
            page.press("n")
            self.assertIn("Move 15", page.value("byId('caption').textContent"))
            page.press("End")
            self.assertIn("came by first last", page.value("byId('side').textContent"))
            page.click("#first")
            self.assertIn("before the first move", page.value("byId('caption').textContent"))
            page.value("for (let move = 0; move <= 20; move++) go(move, null, true)")
            self.assertEqual(page.troubles, [])

    def test_single_deliveries_search_and_trees(self):
        path = self.page_of(playpage.Told("shared_to_source_tree", EXAMPLE.read_text()))
        with browser.opened(path) as page:
            page.value("go(16)")
            page.press("d")
            self.assertEqual(page.value("document.querySelectorAll('#moves .one').length"), 6)
            self.assertIn("rp takes as a unicast", page.value("byId('caption').textContent"))
            page.press("ArrowRight")
            self.assertEqual(page.value("shown.at - runs[0].before(16)"), 2)
            page.press("d")
            page.value("byId('search').value = 'register-stop'; search(true)")
            self.assertEqual(page.value("shown.move"), 18)
            page.press("t")
            self.assertEqual(page.value("shown.alone"), "(*, 239.1.1.1)")
            page.press("?")
            self.assertFalse(page.value("byId('keys').hidden"))
            self.assertEqual(page.troubles, [])

    def test_two_runs_and_a_note_that_leads_to_its_move(self):
        broken = networks.Network()
        broken.router("east")["rps"] = ["239.0.0.0/8 10.0.2.2"]
        path = self.page_of(playpage.Told("broken", broken.text()), playpage.Told("good", networks.Network().text()))
        with browser.opened(path) as page:
            self.assertEqual(page.value("document.querySelectorAll('#maps figure').length"), 2)
            page.press("x")
            self.assertGreater(page.value("shown.move"), 0)
            page.press("End")
            self.assertIn("Where the runs differ", page.value("byId('side').textContent"))
            self.assertIn("0 came, 1 missed1 came", page.value("byId('side').textContent"))
            self.assertEqual(page.troubles, [])

    def test_a_note_leads_to_its_move(self):
        net = networks.Network(networks.report(networks.TO_EX, networks.GROUP), {**networks.data(), "hex": "45"})
        with browser.opened(self.page_of(playpage.Told("odd", net.text()))) as page:
            number = page.value("runs[0].notes.find(([move]) => move)[0]")
            page.click("#side [data-move]:not([data-move='0'])")
            self.assertEqual(page.value("shown.move"), number)
            self.assertTrue(page.value("document.querySelector('#moves .odd.now') !== null"))
            self.assertEqual(page.troubles, [])

    SIZES = [(1280, 800), (1600, 900)]
    # The least height in pixels of the letters on the map, and whether no map goes beyond its figure or its pane.
    LETTERS = """Math.min(...[...document.querySelectorAll('#maps svg text')].map(each =>
        parseFloat(getComputedStyle(each).fontSize) * each.getScreenCTM().a))"""
    INSIDE = """[...document.querySelectorAll('#maps svg')].every(each => {
        const [own, pane] = [each, byId('packets')].map(one => one.getBoundingClientRect());
        return own.bottom <= pane.top && own.height > 100 })"""

    def test_thirty_routers(self):
        told = labfile.told(large_network(), "large")
        for paths in ([told], [told, told]):
            path = self.page_of(*paths)
            for wide, high in self.SIZES:
                with self.subTest(runs=len(paths), size=wide), browser.opened(path, f"{wide},{high}") as page:
                    page.value("go(runs[0].moves.length)")
                    self.assertGreaterEqual(page.value(self.LETTERS), 10.99)
                    self.assertTrue(page.value(self.INSIDE))
                    page.value("KEYS[0][2]()")
                    self.assertGreaterEqual(page.value(self.LETTERS), 10.99)
                    self.assertEqual(page.troubles, [])

    def test_a_large_map_is_zoomed_moved_and_filtered(self):
        path = self.page_of(labfile.told(large_network(), "large"))
        with browser.opened(path, "1280,800") as page:
            page.value("go(runs[0].moves.length)")
            page.press("+")
            wide = page.value("view.box[2]")
            self.assertLess(wide, page.value("DATA.box[2]"))
            x = page.value("view.box[0]")
            page.drag("#maps svg", 60, 0)
            self.assertLess(page.value("view.box[0]"), x)
            page.value("byId('filter').value = 'viewer3'; filter()")
            self.assertEqual(page.value("document.querySelector('#side td b').textContent"), "viewer3")
            self.assertGreater(page.value("document.querySelectorAll('#maps .pick.faded').length"), 0)
            page.value("byId('filter').value = ''; filter()")
            self.assertEqual(page.value("document.querySelectorAll('#maps .faded').length"), 0)
            width = page.value("byId('side').clientWidth")
            page.drag("#right", -80, 0)
            self.assertAlmostEqual(page.value("byId('side').clientWidth"), width + 80, delta=5)
            self.assertEqual(page.troubles, [])

    def test_failures_come_first_and_hellos_are_folded(self):
        path = self.page_of(labfile.told(large_network(), "large"))
        with browser.opened(path, "1280,800") as page:
            titles = page.value("runs[0].moves.map((_, n) => runs[0].title(n + 1))")
            (failed,) = [title for title in titles if " down" in title]
            self.assertRegex(failed, r"^15 s: r0 \S+ r0-r1, r1 \S+ r0-r1 down; .*3 sources send")
            page.value("go(runs[0].moves.findIndex((_, n) => runs[0].title(n + 1).startsWith('5 s')) + 1)")
            self.assertIn("Hellos and queries", page.value("document.querySelector('#packets summary').textContent"))
            self.assertEqual(page.value("document.querySelectorAll('#packets details[open]').length"), 0)

    def test_the_page_stands_alone(self):
        text = playpage.page([playpage.Told("x", EXAMPLE.read_text())])
        self.assertEqual(re.findall(r"(?:src|href)=|https?://(?!www\.w3\.org/2000/svg)", text), [])
        data = re.search(r'<script id="data" type="application/json">(.*?)</script>', text, re.S)[1]
        self.assertEqual(len(json.loads(data)["runs"]), 1)


class Command(unittest.TestCase):
    def test_it_writes_a_page_of_a_scenario_and_of_a_network(self):
        with tempfile.TemporaryDirectory(prefix="play-") as folder:
            for source in (EXAMPLE, stored.TOOLS / "networks" / "examples" / "three_in_a_line.py"):
                out = Path(folder) / "out.html"
                ran = subprocess.run([stored.TOOLS / "play", source, "-o", out], capture_output=True, text=True)
                self.assertEqual((ran.returncode, ran.stderr), (0, ""))
                self.assertIn("<!doctype html>", out.read_text())


if __name__ == "__main__":
    unittest.main()
