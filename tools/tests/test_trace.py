"""A run traced: which routers took each packet of data, what they sent of it, and what the routers knew before a
step."""
import unittest

from pimtext.files import pimlab
from pimtext.ways import past, trace, watched, wire
from viqeshor.lab import packets, printed, scenario, story
from tests.networks import GROUP, HOST, RP, SETTLE, SOURCE, TO_EX, Network, data, report, router


def played(network):
    """A network with its steps and its tables."""
    made = scenario.scenario_of({"router": network.routers, "move": network.moves()})
    return made, *story.played(made, pimlab.run_text(made.text()))


def packets_of(network):
    made, steps, _ = played(network)
    return trace.traced(made, steps)


def ways(packet):
    """The routers by which the copies of a packet came to the host's link, each with its interface."""
    return [[(taken.router, taken.iface) for taken in copy.by.way()] for copy in packet.on("home")]


class Traced(unittest.TestCase):
    def test_a_packet_goes_by_a_register_and_then_by_the_tree(self):
        first, second = packets_of(Network(report(TO_EX, GROUP), data(), data()))
        self.assertEqual((first.source, first.group, first.link, first.number), (SOURCE, GROUP, "studio", 1))
        self.assertEqual(first.ttl, 16)
        self.assertEqual(ways(first), [[("west", 0), ("hub", None), ("east", 0)]])
        self.assertEqual(ways(second), [[("west", 0), ("hub", 0), ("east", 0)]])

    def test_a_packet_that_two_routers_of_its_link_take_is_one(self):
        network = Network(report(TO_EX, GROUP))
        network.routers.append(router("spare", [("studio", "10.7.0.2/24")]))
        network.said += [data(), data()]
        moves = network.moves()
        moves.insert(-1, data(router="spare"))
        made = scenario.scenario_of({"router": network.routers, "move": moves})
        first, second = trace.traced(made, story.played(made, pimlab.run_text(made.text()))[0])
        self.assertEqual([taken.router for taken in first.began], ["west"])
        self.assertEqual([taken.router for taken in second.began], ["west", "spare"])

    def test_a_packet_that_is_refused_is_one_too(self):
        wrong = data()
        wrong["hex"] = wrong["hex"][:20] + "0000" + wrong["hex"][24:]
        (packet,) = packets_of(Network(report(TO_EX, GROUP), wrong))
        self.assertEqual([taken.step.answer() for taken in packet.taken()], ["refused 3"])
        self.assertEqual(packet.copies(), [])

    def test_where_a_packet_goes_no_further(self):
        low = data()
        low["hex"] = packets.write_data(SOURCE, GROUP, b"x", ttl=2).hex()
        (packet,) = packets_of(Network(report(TO_EX, GROUP), low))
        silent, unheard = packet.ends()
        self.assertEqual([(taken.router, taken.iface) for taken in silent], [("hub", None)])
        self.assertEqual(unheard, [])

    def test_a_register_that_comes_to_nobody(self):
        network = Network(report(TO_EX, GROUP), data())
        made = scenario.scenario_of({"router": network.routers, "move": network.moves()[:-1]})
        (packet,) = trace.traced(made, story.played(made, pimlab.run_text(made.text()))[0])
        (copy,) = packet.ends()[1]
        self.assertEqual((copy.is_register(), copy.sent.where), (True, RP))


class Before(unittest.TestCase):
    def test_what_a_router_knew_before_a_delivery_of_a_settle(self):
        made, steps, _ = played(Network(report(TO_EX, GROUP), data()))
        at = next(at for at, step in enumerate(steps) if step.router == "hub" and step.brought
                  and packets.is_pim(step.brought.data, packets.JOIN_PRUNE))
        before = past.Past(made, steps)
        self.assertEqual(before.known(at)["hub"].of(printed.Downstream), [])
        self.assertEqual([row.group for row in before.known(at + 1)["hub"].of(printed.Downstream)], [GROUP])


class Came(unittest.TestCase):
    def stream(self, network):
        made, steps, tables = played(network)
        return watched.Watch(made, steps, tables).stream(HOST, GROUP, SOURCE)

    def test_numbers_of_a_stream(self):
        stream = self.stream(Network(data(), report(TO_EX, GROUP), data(), data()))
        self.assertEqual((stream.sent, stream.came, stream.twice, stream.missing()), (2, 2, 0, []))
        self.assertEqual((stream.longest_gap, stream.first_after), (0.0, 0.0))

    def test_what_is_sent_before_the_join_or_after_the_leave_counts_for_nothing(self):
        stream = self.stream(Network(data(), report(TO_EX, GROUP), data(), report(3, GROUP), data()))
        self.assertEqual([packet.number for packet in stream.packets], [2])

    def test_a_packet_that_comes_twice(self):
        network = Network(report(TO_EX, GROUP), data())
        made, steps, _ = played(network)
        copy = next(sent for step in steps for sent in step.sent if sent.kind == "copy" and sent.where == "hub-east")
        # The same copy comes once more, before east has the SPTbit.
        network.said.append({"do": "deliver", "router": "east", "iface": 0, "frame": copy.number})
        stream = self.stream(network)
        self.assertEqual((stream.sent, stream.came, stream.twice, stream.senders()), (1, 1, 1, ["east"]))


class Lost(unittest.TestCase):
    def test_ways_on_which_nothing_comes(self):
        network = Network(report(TO_EX, GROUP))
        moves = [move for move in network.moves() if move != SETTLE]
        made = scenario.scenario_of({"router": network.routers, "move": moves})
        steps, _ = story.played(made, pimlab.run_text(made.text()))
        # Hub's Hello comes to east; west's come to nobody.
        hello = next(sent for step in steps for sent in step.sent if sent.router == "hub" and sent.where == "hub-east"
                     and packets.is_pim(sent.data, packets.HELLO))
        moves.append({"do": "deliver", "router": "east", "iface": 0, "frame": hello.number})
        made = scenario.scenario_of({"router": network.routers, "move": moves})
        steps, _ = story.played(made, pimlab.run_text(made.text()))
        lost = wire.Wire(made, steps)
        self.assertTrue(lost.way("west", "hub", "west-hub").is_dead())
        self.assertFalse(lost.way("hub", "east", "hub-east").is_dead())


if __name__ == "__main__":
    unittest.main()
