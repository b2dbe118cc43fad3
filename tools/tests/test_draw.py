"""Pictures."""
import re
import shutil
import unittest

from pimtext.files import pimlab
from viqeshor.lab import colours, scenario, story, toml_lines
from viqeshor.lab.known import known_after
from tests import networks, stored

draw = stored.tool("draw")
FIRST_SCENARIO = stored.EXAMPLES / "shared_to_source_tree.toml"


SHARED, SOURCE = ("239.1.1.1", "*"), ("239.1.1.1", "10.1.0.50")


def edges(text, tail, head):
    """What stands in brackets at the arrows from one node to another."""
    return re.findall(rf'^  "{tail}" -> "{head}" \[(.*)\]$', text, re.M)


class Drawn(unittest.TestCase):
    def drawn(self, text):
        read = scenario.scenario_of(toml_lines.plain(toml_lines.read(text)))
        steps, tables = story.played(read, pimlab.run_text(text))
        end = draw.Moment(read, known_after(read, steps, tables), [], "the end", draw.hosts_of(steps))
        return "\n".join(draw.graph(draw.picture(end)))

    def test_the_trees_of_an_example(self):
        text = self.drawn(FIRST_SCENARIO.read_text())
        found = colours.colours([SHARED, SOURCE])
        source, = edges(text, "router first", "router last")
        self.assertIn(f'color="{found[SOURCE]}"', source)
        self.assertNotIn("dashed", source)
        shared, = edges(text, "router rp", "router last")
        self.assertIn(f'color="{found[SHARED]}" style=dashed', shared)
        self.assertIn("pruned off 1", text)
        self.assertEqual([each[:11] for each in edges(text, "router first", "router rp")], ["dir=none co"])

    def test_hosts_sources_and_the_dr(self):
        text = self.drawn(FIRST_SCENARIO.read_text())
        self.assertIn('label="10.3.0.77\\nwants (*, 239.1.1.1)"', text)
        self.assertIn('label="10.1.0.50\\nsource"', text)
        self.assertIn('label="2: 10.3.0.1 DR"', text)

    def test_what_is_expected_and_nobody_sends_is_marked(self):
        net = networks.Network(networks.report(networks.TO_EX, networks.GROUP))
        self.assertNotIn("odot", self.drawn(net.text()))
        net.router("east")["rps"] = ["239.0.0.0/8 10.0.2.2"]
        net.router("hub")["rps"] = ["239.0.0.0/8 10.0.9.9"]
        marked, = edges(self.drawn(net.text()), "router hub", "router east")
        self.assertIn("dir=both arrowtail=odot", marked)

    def test_a_neighbour_that_is_missed_is_told(self):
        net = networks.Network()
        moves = [move for move in net.moves() if move["do"] != "settle"]
        self.assertIn("no neighbour hub", self.drawn(scenario.text_of(net.routers, moves)))

    def test_a_large_network_is_laid_out_by_distance(self):
        self.assertNotIn("layout=neato", self.drawn(FIRST_SCENARIO.read_text()))
        routers = [networks.router(f"r{number}", [("a", f"10.0.0.{number + 1}/24")]) for number in range(30)]
        routers[0]["rps"] = ["239.0.0.0/8 10.0.0.1"]
        text = self.drawn(scenario.text_of(routers, []))
        self.assertIn("layout=neato", text)
        self.assertIn('label="r0\\nRP"', text)


@unittest.skipUnless(shutil.which("neato"), "Graphviz isn't installed")
class Pictures(unittest.TestCase):
    def test_frames_have_one_layout(self):
        read = pimlab.read(FIRST_SCENARIO)
        frames = draw.frames(read, 8)
        self.assertEqual(len(frames), 3)
        self.assertEqual(len({re.search('viewBox="[^"]+"', frame)[0] for frame in frames}), 1)
        self.assertIn("after move 8 of 20", frames[0].replace("&#160;", " "))
        self.assertEqual("\n".join(draw.animated(frames)).count("<animate "), 3)

    def test_the_pictures_in_docs_are_those_of_the_examples(self):
        for name, of in draw.PICTURES.items():
            kept = (draw.ROOT / "docs" / f"{name}.svg").read_text()
            drawn = draw.svg(draw.end_of(draw.ROOT / of))
            texts = [re.findall(r">([^<>]+)</text>", picture) for picture in (kept, drawn)]
            self.assertEqual(texts[0], texts[1])


if __name__ == "__main__":
    unittest.main()
