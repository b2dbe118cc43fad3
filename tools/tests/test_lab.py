"""Networks in Python: routes, hosts, lossy links, and the examples."""
import inspect
import subprocess
import tempfile
import tomllib
import unittest
from pathlib import Path
from unittest import mock

from lab import Downstream, GroupRecord, Network
from viqeshor.lab import hosts, topology
from viqeshor.lab.hosts import ALLOW, BLOCK, IS_EX, IS_IN, TO_EX, TO_IN, Wish
from pimtext.files import pimlab
from viqeshor.lab import packets, scenario, story, twin
from viqeshor.lab.printed import OlderHosts
from tests import stored

GROUP = "239.1.1.1"


def small(**words):
    """A camera, two routers of which the second is the RP, and a viewer; the viewer has joined."""
    net = Network(**words)
    net.line("r1", "r2")
    net.rp("r2")
    camera, viewer = net.host("camera", "r1"), net.host("viewer", "r2")
    net.run(10)
    viewer.join(GROUP)
    net.run(5)
    return net, camera, viewer


def received(**words):
    """The numbers of a stream's packets that a viewer received, in their order, and when the first one came after it
    was sent.
    """
    net = Network(**words)
    net.line("r1", "r2")
    camera, viewer = net.host("camera", "r1"), net.host("viewer", "r2")
    net.run(10)
    viewer.join("232.1.1.1", camera.address)
    net.run(5)
    camera.stream("232.1.1.1", every=0.05, times=20)
    net.run(5)
    return [int(payload) for payload in viewer.payloads()], viewer.received[0].moment - 15_000


def wish(is_exclude, *sources):
    return Wish(is_exclude, frozenset(sources))


class Routes(unittest.TestCase):
    def test_shortest_paths(self):
        net = Network()
        net.link("a", "b", cost=1)
        net.link("b", "c", cost=1)
        net.link("a", "c", cost=5)
        net.host("far", "c")
        self.assertEqual(topology.routes(net.routers["a"]),
            ["10.0.2.0/24 10.0.1.2 0 110 2", "10.0.4.0/24 10.0.1.2 0 110 12"])

    def test_fixed_routes_take_the_place_of_others(self):
        net = Network()
        net.line("a", "b", "c")
        net.routes("a", "10.0.2.0/24 10.0.1.9 0 1 1", "10.9.0.0/16 10.0.1.2 0 1 1")
        self.assertEqual(net.routes_of(net.routers["a"]), ["10.0.2.0/24 10.0.1.9 0 1 1", "10.9.0.0/16 10.0.1.2 0 1 1"])

    def test_wrong_networks_are_told(self):
        net = Network()
        net.link("a", "b")
        with self.assertRaises(ValueError):
            net.link("a", "b")
        with self.assertRaises(ValueError):
            net.tables()
        net.run(1)
        with self.assertRaises(ValueError):
            net.host("late", "a")


class Hosts(unittest.TestCase):
    def test_changes_are_told_as_the_rfc_has_it(self):
        self.assertEqual(hosts.change(wish(False), wish(True)), [(TO_EX, frozenset())])
        self.assertEqual(hosts.change(wish(True, "1"), wish(False, "2")), [(TO_IN, {"2"})])
        self.assertEqual(hosts.change(wish(False, "1", "2"), wish(False, "2", "3")), [(ALLOW, {"3"}), (BLOCK, {"1"})])
        self.assertEqual(hosts.change(wish(True, "1", "2"), wish(True, "2", "3")), [(ALLOW, {"1"}), (BLOCK, {"3"})])
        self.assertEqual(hosts.change(wish(True), wish(True)), [])

    def test_answers_are_those_of_the_rfc(self):
        general = packets.Query("0.0.0.0", (), 100, False, 2, 125)
        some = packets.Query(GROUP, ("1", "2"), 10, False, 2, 125)
        self.assertEqual(hosts.answer(wish(True, "1"), general), (IS_EX, {"1"}))
        self.assertEqual(hosts.answer(wish(False, "1"), some), (IS_IN, {"1"}))
        self.assertEqual(hosts.answer(wish(True, "1"), some), (IS_IN, {"2"}))
        self.assertIsNone(hosts.answer(wish(False, "3"), some))

    def test_a_host_that_stays_is_served_for_ever(self):
        net, camera, viewer = small(step=5)
        net.run(600)
        camera.send(GROUP, b"late")
        net.run(5)
        self.assertEqual(viewer.payloads(), [b"late"])

    def test_one_host_leaves_and_another_one_on_its_link_stays(self):
        net = Network()
        net.line("r1", "r2")
        net.rp("r2")
        camera, viewer = net.host("camera", "r1"), net.host("viewer", "r2")
        second = net.host("second", "viewer")
        net.run(10)
        viewer.join(GROUP)
        second.join(GROUP)
        net.run(5)
        viewer.leave(GROUP)
        net.run(10)
        camera.send(GROUP, b"one")
        net.run(1)
        self.assertEqual((viewer.payloads(), second.payloads()), ([], [b"one"]))
        second.leave(GROUP)
        net.run(10)
        self.assertEqual(net.routers["r2"].rows(GroupRecord), [])

    def test_several_rps_of_a_range(self):
        """A router doesn't know of the candidate that the others prefer, and another one comes to know another."""
        net = Network()
        net.line("r1", "r2", "r3")
        net.candidate("r1", "239.0.0.0/8", priority=7)
        net.candidate("r3", "239.0.0.0/8", priority=6, at="r2")
        rp1, rp3 = (net.loopback(net.routers[name]) for name in ("r1", "r3"))
        viewer = net.host("viewer", "r2")
        net.run(10)
        viewer.join(GROUP)
        net.run(1)

        def rps():
            return {name: state.tree(GROUP).rp for name, state in net.player.known(net.now).items()}

        self.assertEqual(rps(), {"r1": rp1, "r2": rp3, "r3": rp1})
        self.assertEqual(len(net.routers["r3"].rows(Downstream)), 0)
        net.candidate("r3", "239.0.0.0/8", priority=5)
        # By then its Join, which r3 dropped, is repeated.
        net.run(61)
        self.assertEqual((set(rps().values()), len(net.routers["r3"].rows(Downstream))), ({rp3}, 1))

    def test_a_group_but_for_a_source(self):
        net, camera, viewer = small()
        viewer.leave(GROUP, camera.address)
        net.run(5)
        camera.send(GROUP, b"unwanted")
        net.run(5)
        self.assertEqual(viewer.received, [])


class Links(unittest.TestCase):
    LOSSY = {"seed": 3, "loss": 0.2, "delay": (0.001, 0.03), "reorder": 0.3}

    def test_what_is_saved_plays_the_same(self):
        for words in ({}, self.LOSSY):
            net, camera, viewer = small(**words)
            camera.stream(GROUP, every=0.25, times=8)
            net.run(20)
            read = scenario.scenario_of(tomllib.loads(net.scenario()))
            steps, tables = story.played(read, pimlab.run_text(net.scenario()))
            again = [(sent.number, sent.where, sent.data, sent.move) for step in steps for sent in step.sent]
            self.assertEqual(again, [(sent.number, sent.where, sent.data, sent.move) for sent in net.sent])
            self.assertEqual({name: table.rows for name, table in tables.items()},
                {n: t.rows for n, t in net.tables().items()})

    def test_a_seed_says_it_all(self):
        seen = []
        for seed in (1, 1, 2):
            net, camera, viewer = small(**{**self.LOSSY, "seed": seed})
            camera.stream(GROUP, every=0.1, times=20)
            net.run(5)
            seen.append([(packet.moment, packet.payload) for packet in viewer.received])
        self.assertEqual(seen[0], seen[1])
        self.assertNotEqual(seen[0], seen[2])

    def test_all_is_lost(self):
        net, camera, viewer = small(loss=1.0)
        camera.stream(GROUP, times=3)
        net.run(5)
        self.assertEqual((viewer.received, net.routers["r1"].neighbours()), ([], set()))

    def test_packets_are_late_and_keep_their_order(self):
        numbers, first = received(delay=(0.01, 0.2))
        self.assertEqual(numbers, list(range(1, 21)))
        self.assertTrue(10 <= first <= 200, first)

    def test_some_are_overtaken(self):
        numbers, _ = received(delay=(0.01, 0.1), reorder=0.5)
        self.assertNotEqual(numbers, list(range(1, 21)))
        self.assertEqual(sorted(numbers), list(range(1, 21)))


class Calls(unittest.TestCase):
    def test_each_event_of_a_ring_of_20_is_taken_once(self):
        net, names = Network(), [f"r{number}" for number in range(20)]
        net.ring(*names)
        net.rp("r10")
        camera, viewers = net.host("camera", "r0"), [net.host(f"viewer{at}", names[at]) for at in (3, 7, 12, 17)]
        played = mock.patch.object(pimlab, "run_text", side_effect=AssertionError("the program is called"))
        with mock.patch.object(twin, "take", wraps=twin.take) as taken, played:
            net.run(10)
            for viewer in viewers:
                viewer.join(GROUP)
            net.run(5)
            camera.stream(GROUP, times=20)
            net.run(60)
        self.assertEqual([set(viewer.payloads()) for viewer in viewers],
            4 * [{str(number).encode() for number in range(1, 21)}])
        self.assertEqual(taken.call_count, len(net.player.steps))

    def test_time_passes_where_something_is_due(self):
        net, _, _ = small()
        before = len(net.player.moves)
        for _ in range(1000):
            net.run(0.001)
        told = [move for move in net.player.moves[before:] if move["do"] == "advance"]
        self.assertLess(len(told), 20)
        self.assertEqual({table.moment for table in net.tables().values()}, {16_000})


class Large(unittest.TestCase):
    def test_more_routers_than_the_program_takes(self):
        net, names = Network(), [f"r{number}" for number in range(80)]
        net.ring(*names)
        net.rp("r3")
        camera, viewer = net.host("camera", "r0"), net.host("viewer", "r5")
        net.run(10)
        viewer.join(GROUP)
        net.run(5)
        camera.stream(GROUP, times=3)
        net.run(5)
        self.assertEqual(set(viewer.payloads()), {b"1", b"2", b"3"})
        self.assertTrue(viewer.served(GROUP, camera))
        self.assertFalse([note for note in net.notes() if "missed" in note])
        with self.assertRaisesRegex(pimlab.Refused, "39"):
            pimlab.run_text(net.scenario())

    def test_a_thousand_and_no_more(self):
        net = Network()
        for number in range(1000):
            net.router(f"r{number}")
        with self.assertRaisesRegex(ValueError, "at most 1000 routers"):
            net.router("one more")


class Odd(unittest.TestCase):
    """What is odd in a network's run, with the line of this file that made it so."""

    def test_nothing_is_odd_in_a_good_network(self):
        self.assertEqual(small()[0].notes(), [])

    def test_data_that_nobody_asked_for(self):
        net, camera, _ = small()
        camera.send("239.1.1.2")
        line = inspect.currentframe().f_lineno - 1
        net.run(5)
        (note,) = net.notes()
        self.assertTrue(note.startswith(f"test_lab.py:{line}: "), note)
        self.assertIn(f"nobody asks for 239.1.1.2 in this run; asked for is {GROUP}", note)

    def test_a_router_with_another_rp(self):
        net = Network()
        net.router("r1", rps=["239.0.0.0/8 10.9.9.9"])
        line = inspect.currentframe().f_lineno - 1
        net.line("r1", "r2")
        net.rp("r2")
        net.host("viewer", "r2").join(GROUP)
        net.run(5)
        wanted = f"test_lab.py:{line}: router r1: the RP of {GROUP} is 10.9.9.9"
        self.assertTrue(any(note.startswith(wanted) for note in net.notes()))

    def test_a_host_is_served(self):
        net, camera, viewer = small()
        how = viewer.served(GROUP, camera)
        self.assertTrue(how)
        self.assertEqual(str(how).splitlines()[-1], f"{viewer.address} would be served")
        how = viewer.served("239.1.1.2", camera)
        self.assertFalse(how)
        self.assertIn("it has not asked for 239.1.1.2 of", str(how))


def broken(how, times=3, **host):
    """The payloads that come to a viewer behind three routers, the RP in the middle, and the network: `how` breaks
    it.
    """
    net = Network()
    net.line("a", "b", "c")
    net.rp("b")
    camera, viewer = net.host("camera", "a"), net.host("viewer", "c", **host)
    how(net)
    net.run(10)
    viewer.join(GROUP)
    net.run(5)
    camera.stream(GROUP, times=times)
    net.run(10)
    return viewer.payloads(), net


def older(igmp, other=3, heard="all"):
    """A viewer of an older version beside another host of the last router, which leaves the viewer's group: the network
    and the viewer, once a packet was sent after that.
    """
    net = Network()
    net.router("b", older_hosts=heard)
    net.line("a", "b")
    net.rp("a")
    lan = net.link("b", name="lan")
    camera, viewer, beside = net.host("camera", "a"), net.host("viewer", lan, igmp=igmp), net.host("x", lan, igmp=other)
    net.run(10)
    for host in (viewer, beside):
        host.join(GROUP)
    net.run(5)
    beside.leave(GROUP)
    net.run(10)
    camera.send(GROUP, b"one")
    net.run(5)
    return net, viewer


class Older(unittest.TestCase):
    """Hosts of IGMPv1 and IGMPv2, where routers hear them."""

    def left(self, net, viewer, seconds):
        """The modes of groups, and how many groups there are, so long after the viewer left."""
        viewer.leave(GROUP)
        net.run(seconds)
        rows = net.routers["b"].rows
        return [row.mode for row in rows(OlderHosts)], len(rows(GroupRecord))

    def test_one_of_version_two_is_served_until_it_leaves(self):
        net, viewer = older(2)
        self.assertEqual(viewer.payloads(), [b"one"])
        self.assertEqual([row.mode for row in net.routers["b"].rows(OlderHosts)], ["v2"])
        self.assertEqual(self.left(net, viewer, 5), ([], 0))

    def test_one_of_version_one_is_served_and_leaves_by_silence(self):
        net, viewer = older(1)
        self.assertEqual(viewer.payloads(), [b"one"])
        self.assertEqual(self.left(net, viewer, 100), (["v1"], 1))
        self.assertEqual(self.left(net, viewer, 170), ([], 0))

    def test_a_version_that_is_not_heard(self):
        net, viewer = older(1, heard="v2")
        self.assertEqual(viewer.payloads(), [])
        self.assertIn("speaks IGMPv1, which `older_hosts` of b doesn't hear: refused", "\n".join(net.notes()))

    def test_a_leave_beside_a_host_of_version_one(self):
        net, viewer = older(1, other=2)
        self.assertEqual(viewer.payloads(), [b"one"])
        self.assertIn("isn't heard: a host of IGMPv1 wants the group", "\n".join(net.notes()))

    def test_what_they_tell(self):
        net, viewer = older(2)
        self.assertEqual(viewer.told([hosts.record(IS_EX, GROUP, ())]), [packets.write_older(viewer.address, GROUP)])
        self.assertEqual(viewer.told([hosts.record(TO_IN, GROUP, ())])[0][20:].hex(), "940400001700f8fcef010101")
        viewer.igmp = 1
        self.assertEqual([viewer.told([hosts.record(kind, GROUP, ())]) for kind in (TO_EX, TO_IN)],
            [[packets.write_older(viewer.address, GROUP, 1)], []])


class Broken(unittest.TestCase):
    """What people get wrong, made on purpose."""

    def test_a_host_that_speaks_igmpv2(self):
        payloads, net = broken(lambda net: None, igmp=2)
        self.assertEqual(payloads, [])
        self.assertTrue(any("refused 7" in trouble for trouble in net.troubles()))
        self.assertIn("speaks IGMPv2", net.notes()[0])

    def test_a_host_that_answers_no_query(self):
        net = Network()
        net.line("a", "b")
        net.rp("a")
        camera, viewer = net.host("camera", "a"), net.host("viewer", "b", answers=False)
        net.run(10)
        viewer.join(GROUP)
        net.run(300)
        camera.send(GROUP, b"late")
        net.run(5)
        self.assertEqual((viewer.payloads(), net.routers["b"].rows(GroupRecord)), ([], []))

    def test_one_interface_that_is_down(self):
        payloads, net = broken(lambda net: net.links["b-c"].port("c").down())
        self.assertEqual((payloads, net.routers["c"].neighbours()), ([], set()))
        self.assertIn("interface 0 (link b-c) never goes up", net.notes()[0])

    def test_an_interface_that_is_down_for_a_while(self):
        net, camera, viewer = small()
        port = net.links["r1-r2"].port("r2")
        camera.stream(GROUP, times=6)
        net.run(2)
        port.down()
        net.run(2)
        port.up()
        net.run(10)
        (stream,) = viewer.watch(GROUP)
        missed = [packet.number for run in stream.missing() for packet in run]
        self.assertEqual(viewer.payloads(), [str(number).encode() for number in range(1, 7) if number not in missed])
        self.assertEqual((stream.sent, stream.came, stream.twice), (6, 6 - len(missed), 0))
        self.assertEqual(stream.longest_gap, 1.0 + len(missed))
        self.assertTrue(missed)
        self.assertIn("was down from 17.000 s to 19.000 s", net.notes()[0])

    def test_a_wrong_mask(self):
        payloads, net = broken(lambda net: net.links["a-b"].configure("b", length=28))
        self.assertEqual(len(payloads), 3)
        self.assertIn("two masks on one link", net.notes()[0])

    def test_an_address_twice(self):
        _, net = broken(lambda net: net.links["a-b"].configure("b", address="10.0.1.1"))
        self.assertEqual(net.routers["a"].neighbours(), set())
        self.assertIn("10.0.1.1 is the address of two interfaces", net.notes()[0])

    def test_loss_of_one_kind(self):
        kinds = {packets.Hello: "aren't neighbours", packets.JoinPrune: "Joins and Prunes", packets.Data: "of data"}
        for kind, told in kinds.items():
            with self.subTest(kind):
                payloads, net = broken(lambda net: net.links["b-c"].lose(1.0, kind))
                self.assertEqual(payloads, [])
                self.assertEqual(net.routers["c"].neighbours(), set() if kind is packets.Hello else {"b"})
                self.assertIn(told, net.notes()[0])

    def test_loss_one_way(self):
        payloads, net = broken(lambda net: net.links["b-c"].lose(1.0, sender="c"))
        self.assertEqual((payloads, net.routers["b"].neighbours(), net.routers["c"].neighbours()), ([], {"a"}, {"b"}))
        self.assertIn("nothing that c sent on b-c came to b", net.notes()[0])

    def test_registers_are_lost_on_any_link_of_their_way(self):
        """The source is at a, the RP is c: until a Register-Stop comes all data go in Registers, by way of b."""
        sent = {}
        for link in (None, "a-b", "b-c", "c-d"):
            net = Network()
            net.line("a", "b", "c", "d")
            net.rp("c")
            camera, viewer = net.host("camera", "a"), net.host("viewer", "d")
            net.run(10)
            viewer.join(GROUP)
            net.run(5)
            if link:
                net.links[link].lose(1, packets.Register)
            camera.send(GROUP, b"one")
            net.run(5)
            sent[link] = viewer.payloads()
        self.assertEqual(sent, {None: [b"one"], "a-b": [], "b-c": [], "c-d": [b"one"]})

    def test_unicasts_are_lost_one_way(self):
        for sender, wanted in (("a", []), ("b", [b"one"])):
            net = Network()
            net.line("a", "b")
            net.rp("b")
            camera, viewer = net.host("camera", "a"), net.host("viewer", "b")
            net.run(10)
            viewer.join(GROUP)
            net.run(5)
            net.links["a-b"].lose(1, packets.Register, sender=sender)
            camera.send(GROUP, b"one")
            net.run(5)
            self.assertEqual(viewer.payloads(), wanted)

    def test_loss_that_ends(self):
        net, camera, viewer = small()
        link = net.links["r1-r2"]
        link.lose(1.0, packets.Data)
        camera.send(GROUP, b"lost")
        net.run(2)
        link.lose(0, packets.Data)
        camera.send(GROUP, b"comes")
        net.run(2)
        self.assertEqual(viewer.payloads()[-1:], [b"comes"])


# What somebody gets wrong in a file, and the sentence.
WRONG = [
    ('net.rp("hubb")', "there is no router hubb; is hub meant?"),
    ("net.rp(camera)", "the host camera is no router, nor the name of one"),
    ('net.rp("hub", address=camera)', 'the host camera is no address of an RP: it is one as "10.0.1.1"'),
    ('net.rp("hub", groups="239.1")', "'239.1' is no range of groups: it is one as \"239.0.0.0/8\""),
    ('net.candidate("hub", priority=256)', "256 is no priority of an RP: it is a whole number from 0 to 255"),
    ('net.candidate("hub", "239.0.0.1/8")', "239.0.0.1/8 has host bits set: 239.0.0.0/8 is the prefix"),
    ('net.router("far", sqt="never")', "sqt is no setting of a router; is spt meant?"),
    ('net.router("far", spt="no")', 'router "far": `spt` is the text "no"'),
    ('net.links["west-hub"].configure("hub", prority=3)', "prority is no setting of an interface; is priority meant?"),
    ('net.links["west-hub"].configure("east", priority=3)', "east is not on the link west-hub"),
    ('net.host("third", "wset")', "there is no router or link wset; is west meant?"),
    ('net.host("camera", "west")', "there is a 'camera' already"),
    ('net.link("west", "hub", name="second", subnet="10.0.1/24")', "the subnet '10.0.1/24' is none: "),
    ('Network(los=0.1)', "Network.__init__() got an unexpected keyword argument 'los'"),
    ('viewer.joins("239.1.1.1")', "'Host' object has no attribute 'joins'; is join meant?"),
    ('viewer.join("10.1.1.1")', "'10.1.1.1' is no group: it is an address from 224.0.0.0 to 239.255.255.255"),
    ("viewer.join(camera)", "the host camera is no group"),
    ('viewer.join("224.0.0.5")', "224.0.0.5 is in 224.0.0.0/24, and no router forwards its packets"),
    ('viewer.join("232.1.1.1", "239.1.1.1")', "'239.1.1.1' is no source: it is a host, or the address of one"),
    ('camera.send("239.1.1")', "'239.1.1' is no group"),
    ('net.routers["west"].rows(net)', " is no table of a router"),
    ('net.routers["west"].rows("Neighbor")', "'Neighbor' is no table of a router; is Neighbour meant?"),
    ('net.run(1); net.routers["west"].rows(Neighbour, ifcae=0)', "Neighbour has no column ifcae; is iface meant?"),
    ('net.run(1); net.packets("Hello")', "'Hello' is no kind of packet: it is the class of this name, without quotes"),
    ('net.run(1); net.packets("Helo")', "'Helo' is no kind of packet; is Hello meant?"),
    ('net.run(1); net.tree("239.1.1.1", "somebody")', "'somebody' is no source"),
    ('net.run(1); viewer.served("239.1.1.1", "10.99.0.1")',
        "the source 10.99.0.1 is in the subnet of no link that is up"),
    ('net.tables()', "nothing has run yet"),
    ('net.save("net.toml")', "nothing has run yet"),
    ('net.run(1); net.save("/nowhere/net.toml")', "/nowhere/net.toml can't be written: No such file or directory"),
    ('net.routers["wset"].neighbours()', "there is no router wset; is west meant?"),
    ('net.links["west-hubb"].down()', "there is no link west-hubb; is west-hub meant?"),
    ('net.run("5")', "'5' is no number of seconds: it is a number from 0 on"),
    ("net.run(-5)", "-5 is no number of seconds: it is a number from 0 on"),
    ('Network(loss=3)', "3 is no share of the packets that are lost: it is a number from 0 to 1"),
    ('Network(delay=3)', "3 is no delay: it is the least and the most seconds, as (0.01, 0.05)"),
    ('Network(delay=(2, 1))', "the delay (2, 1) begins with the longer one"),
    ('Network(step=0)', "0 is no step: it is a number from 0.001 on"),
    ('net.link("a", "b", cost="x")', "'x' is no cost of a link: it is a whole number from 1 on"),
    ('net.link("a", "b", "c", subnet="10.9.9.0/30")',
        "the subnet 10.9.9.0/30 is too small: c would have its address 3"),
    ('net.host("x", net.link("a", subnet="10.9.9.0/26"))',
        "the subnet 10.9.9.0/26 is too small: x would have its address 101"),
    ('net.ring("a")', "a line has two routers or more, and a ring too"),
    ('camera.send("239.1.1.1", "one")', "'one' is no payload: it is bytes, as b\"one\""),
    ('camera.send("239.1.1.1", bytes(1473))', "a payload of 1473 bytes is too long: a packet takes 1472"),
    ('camera.send("239.1.1.1", b"one", ttl=256)', "256 is no TTL: it is a whole number from 0 to 255"),
    ('camera.stream("239.1.1.1", every=-1)', "-1 is no number of seconds"),
    ('net.host("x", "west", igmp=4)', "4 is no version of IGMP: it is a whole number from 1 to 3"),
    ('net.host("x", "west", igmp=2).join("239.1.1.1", camera)', "x speaks IGMPv2, by which no source can be named"),
    ('net.links["west-hub"].lose(2)', "2 is no share of the packets that are lost: it is a number from 0 to 1"),
    ('net.links["west-hub"].lose(1, "Hello")', "'Hello' is no kind of packet: it is the class of this name"),
    ('net.links["west-hub"].lose(1, sender="east")', "east is not on the link west-hub"),
    ('net.links["west-hub"].configure("hub", length=32)', "32 is no length of a subnet: it is a whole number"),
    ('net.links["west-hub"].configure("hub", address="10.1")', "'10.1' is no address of a host or a router"),
    ('net.run(1); net.router("late")', "late: routers, links and hosts are made before the first run"),
]
BEFORE = """\
from lab import Neighbour, Network
net = Network()
net.line("west", "hub", "east")
camera, viewer = net.host("camera", "west"), net.host("viewer", "east")
"""


class Mistakes(unittest.TestCase):
    def setUp(self):
        self.path = Path(self.enterContext(tempfile.TemporaryDirectory())) / "net.py"

    def ran(self, text, *words):
        self.path.write_text(text)
        ran = subprocess.run([stored.TOOLS / "lab", *words, self.path], capture_output=True, text=True)
        return ran.returncode, ran.stdout, ran.stderr

    def test_each_is_a_sentence_with_its_line(self):
        for line, wanted in WRONG:
            with self.subTest(line):
                status, _, err = self.ran(BEFORE + line + ("\nnet.run(1)\n" if "spt=" in line else "\n"))
                self.assertEqual((status, err.count("\n")), (1, 1), err)
                self.assertTrue(err.startswith(f"{self.path}:{6 if 'spt=' in line else 5}: "), err)
                self.assertIn(wanted, err)

    def test_an_assert_that_fails_is_pythons(self):
        status, _, err = self.ran(BEFORE + "assert False, 'as it should be'\n")
        self.assertEqual(status, 1)
        self.assertIn("Traceback", err)
        self.assertIn("AssertionError: as it should be", err)

    def test_a_file_that_is_not_there(self):
        ran = subprocess.run([stored.TOOLS / "lab", "nowhere.py"], capture_output=True, text=True)
        self.assertEqual((ran.returncode, ran.stderr),
            (1, "tools/lab: nowhere.py can't be read: No such file or directory\n"))

    def test_what_is_odd_is_told_where_it_is_asked(self):
        text = BEFORE + 'net.rp("hub")\nnet.run(10)\ncamera.send("239.1.1.1")\nnet.run(1)\n'
        self.assertEqual(self.ran(text), (0, "", ""))
        status, out, err = self.ran(text, "--why")
        self.assertEqual((status, out), (0, ""))
        self.assertRegex(err,
            r"\Anet.py:7: move [0-9]+ \(frame\), router west: nobody asks for 239.1.1.1 in this run\n\Z")


class Examples(unittest.TestCase):
    def test_each_example(self):
        for path in sorted((stored.TOOLS / "networks" / "examples").glob("*.py")):
            with self.subTest(path=path.name):
                ran = subprocess.run([stored.TOOLS / "lab", path], capture_output=True, text=True)
                self.assertEqual((ran.returncode, ran.stderr), (0, ""))


if __name__ == "__main__":
    unittest.main()
