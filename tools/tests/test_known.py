"""What a router is asked for is what it does: where data leave, and with which RP they are registered.

PLACES and SEED in the environment ask for another number of the stored scenarios' packets (40) and for others.
"""
import os
import random
import subprocess
import sys
import tempfile
import unittest
from concurrent.futures import ThreadPoolExecutor
from unittest.mock import patch

from pimtext.build import shared
from pimtext.files import pimlab
from pimtext.shown import playpage
from pimtext.ways import served
from pimtext.build.kept import cache
from viqeshor.lab import asked, packets, printed, scenario, story, twin
from viqeshor.lab.known import begun, copied, follow, known_after
from pimtext.ways.moments import after_moves
from viqeshor.lab.older import read_heard
from tests import stored
from tests.networks import GROUP, SOURCE, Network

PLACES, SEED = int(os.environ.get("PLACES", 40)), int(os.environ.get("SEED", 1))


def is_taken(step, kind):
    """Whether a move of its own brought a packet of this kind, which was taken."""
    if step.verdict != "done" or step.is_settle() or step.taken() is None:
        return False
    return isinstance(packet_of(step).body, kind)


def packet_of(step):
    return packets.read(step.taken()) if step.iface is None else read_heard(step.taken())


def found(kind):
    """The stored scenarios' moves that bring a packet of this kind: (scenario, step)."""
    for path, lines in stored.played():
        played = pimlab.read(path)
        yield from ((played, step) for step in story.played(played, lines)[0] if is_taken(step, kind))


def before(played, step):
    """What the router of a step knows just before it."""
    cut = scenario.Scenario(played.routers, played.moves[:step.move - 1])
    steps, tables = story.played(cut, pimlab.run_text(cut.text()))
    return known_after(cut, steps, tables)[step.router]


def told(state, packet, iface):
    """The links on which its data is to leave, and the RP to which Registers are to go."""
    inner = packet.body.inner if isinstance(packet.body, packets.Register) else packet
    group, source = inner.destination, inner.source
    is_rp = packet.destination == asked.rp_of(state, group)
    what = served.taken(state, group, source, iface) if iface is not None else served.registered(state, group, source)
    out = what.out if iface is not None or is_rp else ()
    return (sorted(map(state.link, out)), [what.rp] if what.rp else []) if inner.ttl > 1 else ([], [])


class Told(unittest.TestCase):
    def compare(self, kind, is_wanted):
        places = [(played, step) for played, step in found(kind) if is_wanted(packet_of(step))]
        chosen = random.Random(SEED).sample(places, min(PLACES, len(places)))
        with ThreadPoolExecutor(2) as pool:
            for (_, step), state in zip(chosen, pool.map(lambda place: before(*place), chosen)):
                left = sorted(sent.where for sent in step.sent if sent.kind == "copy")
                registers = [sent.where for sent in step.sent if sent.is_unicast() and step.iface is not None]
                with self.subTest(step.answer(), move=step.move, router=step.router):
                    self.assertEqual(told(state, packet_of(step), step.iface), (left, registers))

    def test_data_leave_where_it_is_told(self):
        self.compare(packets.Data, lambda packet: True)

    def test_data_in_registers_leave_where_it_is_told(self):
        self.compare(packets.Register, lambda packet: not packet.body.is_null)


class Drs(unittest.TestCase):
    """Two routers on a link: who is its DR."""

    def dr(self, **options):
        network = Network()
        network.routers[2]["iface"][0].update(options)
        played = scenario.scenario_of({"router": network.routers, "move": network.moves()})
        known = known_after(played, *story.played(played, pimlab.run_text(network.text())))
        return {asked.dr_of(known["hub"], 1), asked.dr_of(known["east"], 0)}

    def test_the_higher_address(self):
        self.assertEqual(self.dr(), {"10.0.2.3"})

    def test_the_higher_priority(self):
        self.assertEqual(self.dr(priority=0), {"10.0.2.2"})

    def test_a_neighbour_that_tells_none(self):
        network = Network()
        hello = packets.write_hello("10.8.0.9", packets.Hello(105))
        network.said = [{"do": "frame", "router": "east", "iface": 1, "hex": hello.hex()}]
        network.routers[2]["iface"][1]["priority"] = 100
        played = scenario.scenario_of({"router": network.routers, "move": network.moves()})
        known = known_after(played, *story.played(played, pimlab.run_text(network.text())))
        self.assertEqual(asked.dr_of(known["east"], 1), "10.8.0.9")


class Joined(unittest.TestCase):
    def test_the_trees_of_a_network(self):
        network = Network()
        played = scenario.scenario_of({"router": network.routers, "move": network.moves()})
        known = known_after(played, *story.played(played, pimlab.run_text(network.text())))
        found = {(name, branch.source): branch for name, state in known.items() for branch in asked.branches(state)}
        shared = {name: (branch.incoming, set(branch.outgoing)) for (name, source),
            branch in found.items() if source == "*"}
        self.assertEqual(shared, {"hub": (None, {1}), "east": (0, {1})})
        self.assertEqual({name for name, source in found if source == SOURCE}, {"west", "hub", "east"})


class Twins(unittest.TestCase):
    """A router of the library after some of the events that it is to take."""

    def network(self):
        network = Network()
        played = scenario.scenario_of({"router": network.routers, "move": network.moves()})
        return played, story.played(played, pimlab.run_text(network.text()))[0]

    def told(self, state):
        """All rows, and what is asked most."""
        facts = state.tree(GROUP), state.source_tree(GROUP, SOURCE), [state.port(each) for each in (0, 1)]
        return [*map(str, state.core().tables()), facts]

    def test_a_state_is_the_same_whichever_is_asked_first(self):
        played, steps = self.network()
        known, states = begun(played), []
        for step in steps:
            follow(known[step.router], step)
            states.append(copied(known[step.router]))
        with patch.object(twin, "APART", 3):
            forward = [self.told(state) for state in states]
            again = [self.told(copied(state)) for state in reversed(states)]
        self.assertEqual(forward, again[::-1])
        self.assertTrue(any(state.twin.saved for state in known.values()))
        self.assertGreater(len({str(told) for told in forward}), 10)

    def test_the_rows_are_those_that_are_printed(self):
        network = Network()
        played = scenario.scenario_of({"router": network.routers, "move": network.moves()})
        lines = pimlab.run_text(network.text())
        known = known_after(played, *story.played(played, lines))
        rows = lines[lines.index("router west"):]
        self.assertEqual([line for state in known.values() for line in (f"router {state.router.name}",
                          *map(str, state.core().tables()))], rows)

    def test_a_copy_takes_events_by_itself(self):
        played, steps = self.network()
        state = known_after(played, steps, {})["east"]
        before = self.told(state)
        with state.copy_of_core() as other:
            other.down(1, draw=0)
            self.assertFalse(other.link(1).is_up)
        state.kept.clear()
        self.assertEqual(self.told(state), before)


class Reloads(unittest.TestCase):
    """Routers that get other configurations, and one that is made anew of its bytes."""

    def after_moves(self, name):
        """What each router knows after each move: (number of moves, known)."""
        path = stored.DATA / f"{name}.toml"
        for number, _, known in after_moves(pimlab.read(path), pimlab.run_each(path.read_text())):
            yield number, {router: copied(state) for router, state in known.items()}

    def test_the_rows_are_those_that_are_printed_after_each_move(self):
        for name in ("a_reload", "a_reload_with_older_hosts", "a_reload_without_the_first_interface", "a_restart"):
            for number, known in self.after_moves(name):
                for state in known.values():
                    rows = [row for row in state.rows if not isinstance(row, printed.OlderHosts)]
                    with self.subTest(name, move=number, router=state.router.name):
                        self.assertEqual([printed.parsed(str(row)) for row in state.core().tables()], rows)

    def test_what_a_reload_changes(self):
        told = {number: known["r"] for number, known in self.after_moves("a_reload")}
        self.assertEqual([asked.is_dr(told[number], 1) for number in (5, 6)], [False, True])
        self.assertEqual([told[number].port(2) is None for number in (6, 7, 11)], [True, False, True])
        self.assertEqual([sorted(told[number].up) for number in (7, 8, 11)], [[0, 1], [0, 1, 2], [0]])
        group, source = "225.1.1.1", "10.0.3.5"
        outgoing = [asked.outgoing(told[number], group, source) for number in (10, 11)]
        self.assertEqual(outgoing, [{1, 2}, frozenset()])
        self.assertEqual(served.taken(told[10], group, source, 0).out, {1, 2})
        self.assertEqual(told[15].router.table["limit"], 1)

    def test_what_a_reload_by_places_changes(self):
        told = {number: known["r"] for number, known in self.after_moves("a_reload_without_the_first_interface")}
        group, source = "225.1.1.1", "10.0.3.5"
        outgoing = [asked.outgoing(told[number], group, source) for number in (7, 8, 12)]
        self.assertEqual(outgoing, [{2}, {1}, {1}])
        self.assertEqual([sorted(told[number].up) for number in (7, 8)], [[0, 1, 2], [0, 1]])
        self.assertEqual([told[number].configured()[1].address for number in (7, 8)], ["10.0.0.2", "10.0.1.1"])

    def test_it_is_shown_drawn_and_put_on_a_page(self):
        path, draw, show = stored.DATA / "a_reload.toml", stored.tool("draw"), stored.tool("show")
        read = pimlab.read(path)
        drawn = [draw.picture(moment) for moment in draw.moments_of(read, 1)]
        self.assertEqual(len(drawn), len(read.moves))
        self.assertIn("move 6 r: gets another configuration, of 2 interfaces: done",
                      list(show.shown(pimlab.run_file(path), read)))
        page = playpage.run_of(playpage.Told(path.name, path.read_text()))
        self.assertEqual([router["name"] for router in page["routers"]], ["r"])
        self.assertEqual([shape["dr"] for shape in page["shapes"][0] if len(shape["up"]) == 3][-1], [0, 1, 2])


class Libraries(unittest.TestCase):
    """Which library is asked, and what is said where there is none."""

    def mroute(self, **environment):
        path = stored.EXAMPLES / "lan_assert.toml"
        ran = subprocess.run([sys.executable, stored.TOOLS / "mroute", path], capture_output=True, text=True,
                             env=os.environ | environment)
        return ran.returncode, ran.stdout, ran.stderr.splitlines()[-1:]

    def test_one_that_is_named(self):
        status, out, _ = self.mroute(VIQESHOR_LIBRARY=str(shared.shared()))
        self.assertEqual(status, 0)
        self.assertIn("router attic", out)

    def test_one_that_is_none(self):
        named = str(stored.TOOLS / "mroute")
        status, out, said = self.mroute(VIQESHOR_LIBRARY=named)
        self.assertEqual((status, out), (1, ""))
        self.assertIn(f"library: {named}, which VIQESHOR_LIBRARY names, can't be taken: ", said[0])

    def test_no_compiler(self):
        kept = os.environ.get("VIQESHOR_BUILDS") or str(cache())
        with tempfile.TemporaryDirectory() as folder:
            status, out, said = self.mroute(XDG_CACHE_HOME=folder, VIQESHOR_BUILDS=kept, CC="no-compiler",
                                            PIMLAB_BUILD="unproved")
        self.assertEqual((status, out), (1, ""))
        self.assertEqual(said, ["library: there is no C compiler `no-compiler`, which puts it together; "
                                "CC may name another one"])


if __name__ == "__main__":
    unittest.main()
