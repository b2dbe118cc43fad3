"""`tools/converge`: its times against those that RFC 7761 and RFC 3376 give by hand, and premises that a file doesn't
meet."""
import re
import subprocess
import sys
import tempfile
import unittest
from pathlib import Path

from pimtext import converging
from tests import stored
from viqeshor.lab.packets import Record, write_data, write_report

GROUP, SOURCE = "239.1.1.1", "10.1.0.50"
RPS = '"224.0.0.0/4 10.5.0.3"'
# A source at `up`, which is the RP, a LAN of three, and a host at `low`: the tree is a hop long.
ROUTERS = f"""
[[router]]
name = "up"
rps = [{RPS}]
iface = [{{ link = "lan", address = "10.5.0.3/24" }}, {{ link = "studio", address = "10.1.0.1/24" }}]
[[router]]
name = "mid"
rps = [{RPS}]
routes = ["10.1.0.0/24 10.5.0.3 0 110 20"]
iface = [{{ link = "lan", address = "10.5.0.2/24" }}]
[[router]]
name = "low"
rps = [{RPS}]
routes = ["10.1.0.0/24 10.5.0.3 0 110 20"]
iface = [{{ link = "lan", address = "10.5.0.1/24" }}, {{ link = "home", address = "10.2.0.1/24" }}]
"""
REPORT = write_report("10.2.0.77", [Record(4, GROUP, ())]).hex()
DATA = write_data(SOURCE, GROUP, b"one").hex()


def move(**keys):
    return "[[move]]\n" + "".join(f"{key} = {value if isinstance(value, int) else repr(value)}\n"
                                  for key, value in keys.items())


UP = "".join(move(do="up", router=router, iface=iface)
             for router, iface in (("up", 0), ("up", 1), ("mid", 0), ("low", 0), ("low", 1)))
ASKED = UP + move(do="frame", router="low", iface=1, hex=REPORT)


def converge(text, *words, name="net.toml"):
    with tempfile.TemporaryDirectory(prefix="converge-") as folder:
        path = Path(folder) / name
        path.write_text(text)
        return subprocess.run([sys.executable, stored.TOOLS / "converge", path, *words], capture_output=True, text=True)


def rows(told):
    """The rows of the table: of each term on its links what it says."""
    cells = (re.split(r"  +", line.strip()) for line in told.splitlines() if line.startswith("    "))
    return {(part, links): (within, total, routers) for part, within, total, routers, links, _ in cells}


class Times(unittest.TestCase):
    """With d = 10 ms and e = 30 ms; the laws' bound is the greater one."""

    def rows(self, text):
        ran = converge(text, "--delay", "10", "--late", "30")
        self.assertEqual((ran.returncode, ran.stderr), (0, ""), ran.stdout)
        return rows(ran.stdout)

    def test_the_usual_values(self):
        found = {key: within for key, (within, _, _) in self.rows(ROUTERS + ASKED).items()}
        self.assertEqual(found, {
            ("Term", "Links"): "Within",
            ("neighbours known", "lan"): "30.06 s",
            ("neighbours gone", "lan"): "105.04 s",
            ("one DR", "lan"): "105.04 s",
            ("one querier", "lan"): "255.07 s",
            ("members known", "home"): "135.05 s",
            ("members gone", "home"): "260.04 s",
            ("Joins held", "lan"): "84.06 s",
            ("Joins gone", "lan"): "210.04 s",
            ("one sender", "lan"): "180.05 s",
            ("a tree joined", "low > up"): "84.06 s",
            ("all", "low > up"): "263.06 s",
        })

    def test_configured_values_with_the_router_that_has_them(self):
        """[Other Querier Present Interval] is 3 x 60 + 5 / 2 s, [Group Membership Interval] 3 x 60 + 5 s at home, and
        2 x 125 + 10 s where no `qi` is; a Prune waits 700 + 4,000 ms."""
        text = ROUTERS.replace('name = "low"', 'name = "low"\nrv = 3\nqi = 60\nqri = 50')
        text = text.replace('"10.5.0.1/24"', '"10.5.0.1/24", propagation = 700').replace(
            '"10.5.0.2/24"', '"10.5.0.2/24", override = 4000')
        found = self.rows(text + ASKED)
        self.assertEqual(found["members gone", "home"], ("185.04 s", "rv 3 x qi 60 s + qri 5 s + d + e", "each"))
        self.assertEqual(found["members known", "home"], ("65.05 s", "qi 60 s + qri 5 s + 2d + e", "each"))
        self.assertEqual(found["one querier", "lan"],
                         ("255.07 s", "rv 2 x qi 125 s + qri 10 s / 2 + d + 2max(d,e)", "up, mid"))
        self.assertEqual(found["all", "low > up"], ("259.79 s", "one querier + 1 x (4.7 s + 2d)", "up, mid"))

    def test_members_of_a_lan_wait_for_the_next_querier(self):
        found = self.rows(ROUTERS + UP + move(do="frame", router="mid", iface=0,
                                              hex=write_report("10.5.0.77", [Record(4, GROUP, ())]).hex()))
        self.assertEqual(found["members known", "lan"][0], "265.06 s")
        self.assertNotIn(("members known", "home"), found)

    def test_who_is_left_alone_takes_over(self):
        """`mid` and `up` go down on the LAN: `low` knows them for their holdtimes, takes `up` for the querier for 2 x
        1,000 s + 10 / 2 s, and then asks; nobody is there to whom Joins go."""
        asked = write_report("10.5.0.77", [Record(4, GROUP, ())]).hex()
        alone = UP + move(do="frame", router="low", iface=0, hex=asked)
        alone += move(do="down", router="mid", iface=0) + move(do="down", router="up", iface=0)
        text = ROUTERS.replace('name = "up"', 'name = "up"\nqi = 1000')
        ran = converge(text + alone, "--delay", "10", "--late", "30")
        found = {part: within for (part, links), (within, _, _) in rows(ran.stdout).items() if links == "lan"}
        self.assertEqual(found, {
            "neighbours gone": "105.04 s", "one DR": "105.04 s", "one querier": "2005.07 s",
            "members known": "2015.06 s", "members gone": "2010.04 s", "Joins gone": "210.04 s",
            "one sender": "180.05 s",
        })

    def test_values_before_a_reload_and_after_it(self):
        """A group's timer may have been set by either: 2 x 125 s + 10 s, or 2 x 130 s + 10 s. An interface that never
        was up counts for nothing."""
        config = ROUTERS[ROUTERS.index('rps', ROUTERS.index('"low"')):]
        for interval, within in ((100, "260.04 s"), (130, "270.04 s")):
            again = ASKED + move(do="reload", router="low") + f"[move.config]\nqi = {interval}\n" + config
            self.assertEqual(self.rows(ROUTERS + again)["members gone", "home"][0], within)
        alone = "".join(move(do="up", router="low", iface=iface) for iface in (0, 1))
        self.assertEqual([links for _, links in rows(converge(ROUTERS + alone).stdout) if links == "lan"], [])

    def test_a_scenario_that_is_refused(self):
        for text in ("x = 1\n", "[[router]]\n", ROUTERS + move(do="up", router="nobody", iface=0),
                     ROUTERS + move(do="frame", router="up", iface=0, hex="zz"), ROUTERS + move(do="up", router="up"),
                     ROUTERS.replace('name = "low"', 'name = "low"\nqi = 0')):
            ran = converge(text)
            self.assertEqual((ran.returncode, ran.stdout), (1, ""))
            self.assertRegex(ran.stderr, r"net\.toml(:\d+: | is refused; tools/why ).*\n$")

    def test_without_reports_any_link_has_hosts_and_nothing_up_is_nothing(self):
        found = self.rows(ROUTERS + UP)
        self.assertEqual({links for part, links in found if part == "members known"}, {"lan", "studio, home"})
        self.assertIn("no interface is up", converge(ROUTERS + move(do="down", router="up", iface=0)).stdout)


class Premises(unittest.TestCase):
    def unmet(self, text, *words, **kind):
        ran = converge(text, *words, **kind)
        found = [line.removeprefix("not met") for line in ran.stdout.splitlines() if line.startswith("not met")]
        self.assertEqual((ran.returncode, "no time is promised" in ran.stdout), (bool(found), bool(found)), ran)
        return found

    def test_the_delays(self):
        """2d + e below 500 ms; d below 1.5 s, 37.5 s, 42 s and 65 s: a ms below each is, and each isn't."""
        self.assertEqual(self.unmet(ROUTERS + ASKED, "--delay", "200", "--late", "99"), [])
        limits = {(200, 100): 1, (1499, 0): 1, (1500, 0): 2, (37499, 0): 2, (37500, 0): 3, (41999, 0): 3, (42000, 0): 4,
                  (64999, 0): 4, (65000, 0): 5}
        for (delay, late), count in limits.items():
            with self.subTest(delay):
                self.assertEqual(len(self.unmet(ROUTERS + ASKED, "--delay", str(delay), "--late", str(late))),
                                 count)
        self.assertEqual(len(self.unmet(ROUTERS.replace('"10.5.0.1/24"', '"10.5.0.1/24", propagation = 501') + ASKED,
                                        "--delay", "200", "--late", "100")), 0)

    def test_order_of_deliveries(self):
        path = stored.DATA / "override_before_prune.toml"
        self.assertEqual(self.unmet(path.read_text()),
                         [" on lan: frames don't come in order: frame 17 comes to rp after frame 20"])
        late = (stored.DATA / "override_too_late.toml").read_text()
        self.assertEqual(self.unmet(late), [])
        (told,) = self.unmet(late, "--delay", "300", "--late", "0")
        self.assertIn(" on lan: 2d + e = 0.6 s isn't below the propagation delay, 0.5 s of each", told)

    def test_routes_and_rps(self):
        lost = ROUTERS.replace('"10.1.0.0/24 10.5.0.3 0 110 20"', '"10.1.0.0/24 10.5.0.1 0 110 20"', 1).replace(
            '"10.1.0.0/24 10.5.0.3 0 110 20"', '"10.1.0.0/24 10.5.0.2 0 110 20"')
        sent = ASKED + move(do="frame", router="up", iface=1, hex=DATA)
        self.assertEqual(self.unmet(lost + sent), [f": the routes to {SOURCE} lead in a circle by {name}"
                                                   for name in ("mid", "low")])
        nobody = ROUTERS.replace('"10.1.0.0/24 10.5.0.3 0 110 20"', '"10.1.0.0/24 10.5.0.9 0 110 20"')
        self.assertEqual(self.unmet(nobody + sent), [f": no router has 10.5.0.9, the next hop of mid to {SOURCE}",
                                                     f": no router has 10.5.0.9, the next hop of low to {SOURCE}"])
        no_rp = ASKED + move(do="rps", router="mid") + "list = []\n"
        self.assertEqual(self.unmet(ROUTERS + no_rp), [": mid: other RP ranges than up has"])
        named = ASKED + move(do="candidates", router="mid") + 'list = ["239.0.0.0/8 10.6.6.6 192 30"]\n'
        self.assertEqual(self.unmet(ROUTERS + named), [": mid has no route to 10.6.6.6",
                                                       ": mid: other candidate RPs than up has"])

    def test_a_source_that_is_silent(self):
        def sends(later):
            send = move(do="frame", router="up", iface=1, hex=DATA)
            return ASKED + send + move(do="advance", router="up", moment=later) + send
        self.assertEqual(self.unmet(ROUTERS + sends(200_000)), [])
        self.assertEqual(self.unmet(ROUTERS + sends(200_001)),
                         [f": ({SOURCE}, {GROUP}) is silent for 200.001 s, which is above 200 s"])

    def test_a_network_of_python(self):
        text = ("from lab import Network\nnet = Network(delay=(0.01, 0.02), step=0.1)\nprint('seen')\n"
                "net.link('a', 'b', 'c', name='lan', loss=LOSS)\nnet.rp('a')\n"
                "net.host('deaf', 'b', answers=False)\nnet.run(1)\n")
        found = self.unmet(text.replace("LOSS", "0.1"), name="net.py")
        self.assertEqual([line.partition(":")[0] for line in found], [" on lan", " on lan", " on deaf"])
        self.assertIn("d = 20 ms, e = 100 ms", converge(text.replace("LOSS", "0.0"), name="net.py").stdout)
        same = text.replace("LOSS", "0.0").replace("0.01,", "0.02,").replace(", answers=False", "")
        self.assertEqual(self.unmet(same, name="net.py"), [])


class Claims(unittest.TestCase):
    def test_each_law_that_is_named_is_listed(self):
        calls = (stored.TOOLS.parent / "docs" / "CALLS.md").read_text()
        named = {law for _, told in converging.PROVED.values() for law in re.findall(r"\b[A-Z]\w*[a-z][A-Z]\w+", told)}
        self.assertIn("JoinsComeToBeHeld", named)
        self.assertEqual([law for law in named if f"- `{law}`: " not in calls], [])

    def test_only_what_names_a_law_is_said_to_be_proved(self):
        for part, (how, told) in converging.PROVED.items():
            self.assertEqual(how == "no", told == "", part)
        self.assertEqual(converging.PROVED["all"][0], "in part")


if __name__ == "__main__":
    unittest.main()
