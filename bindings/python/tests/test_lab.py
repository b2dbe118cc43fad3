"""Networks of scenario files, their pictures and their tables. VIQESHOR_LIBRARY names the library."""
import subprocess
import sys
import tempfile
import types
import unittest
from pathlib import Path
from unittest import mock
from xml.etree import ElementTree

import viqeshor
from viqeshor.lab import Mistake, Network

GROUP, CAMERA, VIEWER = "239.1.1.1", "10.1.0.50", "10.2.0.77"
# Two routers in a line, the first of them the RP; the viewer joins at 5 s, the camera sends at 10 s.
FILE = f"""# host {CAMERA} camera
# host {VIEWER} viewer
[[router]]
name = "west"
iface = [{{ link = "studio", address = "10.1.0.1/24" }}, {{ link = "between", address = "10.0.0.1/24" }}]
routes = ["10.2.0.0/24 10.0.0.2 1 110 10"]
rps = ["239.0.0.0/8 10.0.0.1"]
[[router]]
name = "east"
iface = [{{ link = "between", address = "10.0.0.2/24" }}, {{ link = "home", address = "10.2.0.1/24" }}]
routes = ["10.1.0.0/24 10.0.0.1 0 110 10"]
rps = ["239.0.0.0/8 10.0.0.1"]
""" + "".join(f"[[move]]\n{move}\n" for move in (
    'do = "up"\nrouter = "west"\niface = 0',
    'do = "up"\nrouter = "west"\niface = 1',
    'do = "up"\nrouter = "east"\niface = 0',
    'do = "up"\nrouter = "east"\niface = 1',
    'do = "advance"\nrouter = "west"\nmoment = 5000',
    'do = "advance"\nrouter = "east"\nmoment = 5000',
    'do = "settle"',
    f'do = "frame"\nrouter = "east"\niface = 1\nhex = "igmp v3 {GROUP} join from {VIEWER}"',
    'do = "settle"',
    'do = "advance"\nrouter = "west"\nmoment = 10000',
    'do = "advance"\nrouter = "east"\nmoment = 10000',
    f'do = "frame"\nrouter = "west"\niface = 0\nhex = "data {GROUP} from {CAMERA} port 5004 hello"',
    'do = "settle"',
))


class Files(unittest.TestCase):
    def setUp(self):
        self.path = Path(self.enterContext(tempfile.TemporaryDirectory(prefix="lab-"))) / "line.toml"
        self.path.write_text(FILE)

    def test_moves_come_as_time_passes(self):
        net = Network.read(self.path)
        self.assertEqual(net.run_to(4).routers["east"].neighbours(), set())
        self.assertEqual(net.run_to(5).routers["east"].neighbours(), {"west"})
        self.assertEqual(net.tree(GROUP).path(net.hosts["viewer"]), ["west", "east"])
        self.assertEqual(net.hosts["viewer"].received, [])
        (came,) = net.play().hosts["viewer"].received
        self.assertEqual((came.moment, came.source, came.payload, came.path),
            (10_000, CAMERA, b"hello", ("west", "east")))

    def test_the_moves_of_the_file_come_first(self):
        net = Network.read(self.path).run_to(5)
        for act in (net.links["between"].down, lambda: net.hosts["viewer"].leave(GROUP)):
            with self.assertRaisesRegex(Mistake, "^the moves of line.toml come first"):
                act()
        self.assertTrue(net.links["between"].is_up)
        with self.assertRaisesRegex(Mistake, "those of its file"):
            net.rp("east")

    def test_a_link_fails_once_they_are_played(self):
        net = Network.read(self.path, until=5).run_to(8)
        net.links["between"].down()
        net.run(1)
        self.assertEqual(net.routers["east"].neighbours(), set())
        self.assertEqual(net.hosts["viewer"].received, [])
        net.links["between"].up()
        net.run(10)
        net.hosts["camera"].send(GROUP, b"again")
        self.assertEqual(net.run(5).hosts["viewer"].payloads(), [b"again"])

    def test_hosts_go_on_by_themselves(self):
        """A membership lasts 260 s where nobody answers a query."""
        net = Network.read(self.path).play().run(600)
        self.assertEqual([row.group for row in net.routers["east"].rows("G")], [GROUP])
        net.hosts["viewer"].answers = False
        self.assertEqual(net.run(600).routers["east"].rows("G"), [])

    def test_all_mistakes_are_told_with_their_lines(self):
        text = FILE.replace('"10.0.0.2/24"', '"10.0.0.300/24"').replace('do = "settle"', 'do = "setle"', 1)
        self.path.write_text(text)
        lines = text.splitlines()
        with self.assertRaises(Mistake) as raised:
            Network.read(self.path)
        told = str(raised.exception).splitlines()
        numbers = [1 + next(at for at, line in enumerate(lines) if part in line) for part in ("10.0.0.300", '"setle"')]
        self.assertEqual([line.partition(": ")[0] for line in told], [f"{self.path}:{number}" for number in numbers])
        self.assertIn("`settle` meant", told[1])

    def test_a_file_that_is_none(self):
        self.path.write_text('hex = "data 10.1.1.1 from 10.0.0.1"')
        for path, said in ((self.path, ":1: `10.1.1.1` is no group"), (self.path / "x", "can't be read")):
            with self.assertRaisesRegex(Mistake, said):
                Network.read(path)


class Shown(unittest.TestCase):
    def setUp(self):
        self.net = Network()
        self.net.line("r1", "r2", "r3")
        self.net.rp("r1")
        self.viewer = self.net.host("viewer", "r2")
        self.net.run(10)
        self.viewer.join(GROUP)
        self.net.run(5)

    def parts(self, svg, look):
        return [one for one in ElementTree.fromstring(svg).iter() if look in one.get("class", "").split()]

    def test_a_tree_has_an_arrow_for_each_link(self):
        """From r1 to r2, and to the viewer; the link to r3 has none."""
        svg = self.net.tree(GROUP)._repr_svg_()
        self.assertEqual((len(self.parts(svg, "arrow")), len(self.parts(svg, "line")), len(self.parts(svg, "box"))),
            (2, 1, 3))
        self.assertEqual(self.parts(self.net.tree("239.9.9.9")._repr_svg_(), "arrow"), [])
        self.assertIn("nobody has joined it", self.net.tree("239.9.9.9")._repr_svg_())

    def test_what_is_down_is_marked(self):
        self.assertEqual(self.parts(self.net._repr_svg_(), "off"), [])
        self.net.links["r2-r3"].down()
        self.assertEqual(len(self.parts(self.net._repr_svg_(), "off")), 1)

    def test_a_network_that_has_not_run(self):
        self.assertEqual(len(self.parts(Network()._repr_svg_(), "box")), 0)
        self.assertEqual(repr(Network()), "<network of 0 routers and 0 hosts at 0.000 s>")

    def test_its_links_as_a_text(self):
        self.net.links["r2-r3"].down()
        lines = ["r1-r2 10.0.1.0/24: r1 10.0.1.1, r2 10.0.1.2", "r2-r3 10.0.2.0/24: r2 10.0.2.1 down, r3 10.0.2.2 down"]
        self.assertEqual(str(self.net).splitlines()[:2], lines)
        self.assertIn("viewer 10.0.4.0/24: r2 10.0.4.1, host viewer 10.0.4.101", str(self.net).splitlines())

    def test_a_table_of_all_routers(self):
        table = self.net.table("U")
        self.assertEqual([row[:3] for row in table], [("r1", GROUP, "*"), ("r2", GROUP, "*")])
        self.assertEqual(repr(table).splitlines()[0].split(), ["router", "group", "source", "end"])
        self.assertEqual(table._repr_html_().count("<tr>"), 3)
        with self.assertRaisesRegex(Mistake, "table of a router"):
            self.net.table("X")

    def test_frames_are_of_pandas_where_it_is(self):
        made = types.SimpleNamespace(DataFrame=lambda rows, columns: ("frame", rows, columns))
        with mock.patch.dict(sys.modules, pandas=made):
            columns = ["router", "iface", "address", "end"]
            self.assertEqual(self.net.frames()["N"], ("frame", list(self.net.table("N")), columns))
        with mock.patch.dict(sys.modules, pandas=None):
            self.assertEqual(self.net.frames()["N"], self.net.table("N"))

    def test_lines_are_those_that_pimlab_prints(self):
        lines = self.net.lines()
        self.assertEqual(lines[0], "move 1 r1 done")
        self.assertEqual(lines.count("router r2"), 1)
        self.assertNotIn("router r2", self.net.lines(False))


class Alone(unittest.TestCase):
    def test_it_stands_on_the_package_alone(self):
        code = ("import sys; sys.path = [sys.argv[1], *sys.path]; import viqeshor.lab; "
                "print(*{name.split('.')[0] for name in sys.modules} - sys.stdlib_module_names)")
        ran = subprocess.run([sys.executable, "-I", "-S", "-c", code, Path(viqeshor.__file__).parents[1]],
            stdout=subprocess.PIPE, text=True, check=True)
        self.assertEqual(set(ran.stdout.split()) - {"__main__"}, {"viqeshor"})


if __name__ == "__main__":
    unittest.main()
