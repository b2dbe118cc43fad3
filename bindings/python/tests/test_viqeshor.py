"""Each call of the package once, and what it answers: a Join of 10.0.1.2 comes and a packet of its source, as in
examples/library."""
import gc
import ipaddress
import os
import random
import shutil
import subprocess
import tempfile
import threading
import unittest
import weakref
import zlib
from unittest import mock

import viqeshor
from viqeshor import Answer, Candidate, Closed, DownstreamRow, NeighbourRow, Refused, Router, hosts
from viqeshor.lab import facts, packets
from viqeshor.lab import rps as lab_rps

HELLO_ABOVE = "45C0001E000000000167CEAB0A000001E000000D2000DFFC00010002FFFF"
HELLO_BELOW = "45C0001E000000000167CDAA0A000102E000000D2000DFFC00010002FFFF"
JOIN = "45C00036000000000167CD920A000102E000000D2300DBB301000A0001010001000101000020E101010100010000010004200A000305"
DATA = "4500001C0000000040118BCA0A000305E10101010001000200030004"
INTERFACES = [("10.0.0.2", 24), ("10.0.1.1", 24), ("10.0.2.1", 24)]
ROUTES = [("10.9.9.0/24", "10.0.0.1", 0, 110, 20), ("10.0.3.0/24", "10.0.0.1", 0, 110, 20)]
RANGES = [("224.0.0.0/4", "10.9.9.9")]


class Routers(unittest.TestCase):
    def router(self):
        router = Router(INTERFACES, RANGES, ROUTES)
        self.addCleanup(router.end)
        return router

    def joined(self):
        """With all interfaces up, and the Join of 10.0.3.5 to 225.1.1.1 on the second one."""
        router = self.router()
        answers = [router.up(iface, draw=7) for iface in range(3)]
        answers += [router.frame(iface, bytes.fromhex(text)) for iface, text in enumerate((HELLO_ABOVE, HELLO_BELOW))]
        answers.append(router.frame(1, bytes.fromhex(JOIN)))
        self.assertEqual(answers, [Answer.DONE] * 6)
        return router

    def test_configurations_that_are_refused(self):
        with self.assertRaises(Refused) as caught:
            Router([])
        self.assertEqual(caught.exception.answer, Answer.INTERFACE_COUNT)
        with self.assertRaisesRegex(Refused, r"the limit isn't 1 to 1,000,000 \(34\)"):
            Router(INTERFACES, limit=0)

    def test_an_address_with_its_length(self):
        ways = ["10.0.0.2/24", ("10.0.0.2/24",), ("10.0.0.2", 24), ("10.0.0.2/24", 1, 500, 2500)]
        told = {bytes(viqeshor.interface_of(way)) for way in [*ways, ipaddress.ip_interface("10.0.0.2/24")]}
        self.assertEqual(len(told), 1)
        with Router(["10.0.0.2/24", ("10.0.1.1/24", 7, 400, 2400)]) as router:
            self.assertEqual([router.up(0), router.up(1)], [Answer.DONE] * 2)
            self.assertEqual([router.link(iface).dr for iface in range(2)], ["10.0.0.2", "10.0.1.1"])
        for wrong in ("10.0.0.2/", "10.0.0.2/24/1", "10.0.0.2", ("10.0.0.2/24", 24)):
            self.assertRaises(ValueError, Router, [wrong])
        self.assertRaisesRegex(ValueError, "10.0.0.0$", Router, INTERFACES, [("10.0.0.0", "10.0.0.2")])

    def test_events_that_are_refused_or_ignored(self):
        router = self.router()
        self.assertEqual(router.frame(0, b""), Answer.INTERFACE_DOWN)
        self.assertEqual(router.up(3), Answer.BAD_INTERFACE)
        self.assertEqual(router.down(0), Answer.ALREADY)
        self.assertTrue(router.down(0).is_ignored)
        self.assertEqual(router.unicast(b""), Answer.SHORT)
        self.assertTrue(router.unicast(b"").is_refused)
        self.assertEqual(router.advance(5), Answer.DONE)
        self.assertEqual(router.advance(4), Answer.MOMENT_BACK)
        self.assertEqual(router.set_routes(ROUTES[:1] * 2), Answer.BAD_ROUTES)
        self.assertEqual(router.set_ranges([("224.0.0.0/3", "10.9.9.9")]), Answer.BAD_RANGES)

    def test_lists_are_replaced(self):
        router = self.router()
        answers = router.set_routes([]), router.set_ranges([]), router.set_candidates([])
        self.assertEqual(answers, (Answer.DONE,) * 3)

    def test_a_range_has_several_rps(self):
        """By RFC 7761, 4.7.2, Value(239.1.1.1, M, C) is 1,909,564,438 of 10.8.8.8 and 458,221,737 of 10.9.9.9 with a
        mask of 30 bits, 464,069,967 and 1,219,757,756 with one of 32."""
        eight, nine, other, router = "10.8.8.8", "10.9.9.9", "10.0.3.9", self.router()
        eight_of_30 = Candidate("239.0.0.0/8", eight, 7)
        for candidates, wanted in (
            ([("239.0.0.0/8", nine, 7, 30), eight_of_30], eight),
            ([("239.0.0.0/8", nine, 7, 32), ("239.0.0.0/8", eight, 7, 32)], nine),
            ([("239.0.0.0/8", nine, 6, 30), eight_of_30], nine),
            ([("239.0.0.0/8", nine, 7, 30), eight_of_30, ("239.0.0.0/12", other, 9, 0)], other),
            ([("224.0.0.0/4", eight, 0, 30)], nine),
        ):
            self.assertEqual((router.set_candidates(candidates), router.tree("239.1.1.1").rp), (Answer.DONE, wanted))
        kept = [eight_of_30, ("239.0.0.0/8", other, 7, 30)]
        self.assertEqual((router.set_candidates(kept), router.set_ranges([])), (Answer.DONE, Answer.DONE))
        self.assertEqual(router.set_candidates(kept[:1] * 2), Answer.BAD_CANDIDATES)
        router.reload(INTERFACES, RANGES, ROUTES)
        self.assertEqual(router.tree("239.1.1.1").rp, eight)
        saved = router.save()
        self.assertEqual(saved[:6], b"VQST\0\4")
        with Router.restore(saved) as again:
            self.assertEqual((again.tree("239.1.1.1").rp, again.save()), (eight, saved))
        self.assertEqual((router.set_candidates([]), router.tree("239.1.1.1").rp), (Answer.DONE, nine))

    def test_the_rp_is_that_of_the_rfc(self):
        """Random ranges and candidates, against a reading of RFC 7761, 4.7.1 and 4.7.2, that is written apart."""
        draws, router, told = random.Random(4711), self.router(), set()
        prefixes = list(map(ipaddress.IPv4Network, ("224.0.0.0/4", "239.0.0.0/8", "239.1.0.0/16", "239.1.1.0/30")))
        rps = ["10.8.8.8", "10.9.9.9", "10.0.3.9", "10.77.0.2"]
        for _ in range(100):
            ranges = [(net, draws.choice(rps)) for net in prefixes if draws.random() < 0.3]
            named = draws.sample([(net, rp) for net in prefixes for rp in rps], draws.randint(0, 12))
            candidates = [lab_rps.Candidate(*each, draws.choice((0, 5, 5, 5)), draws.choice((0, 24, 30, 30, 32)))
                          for each in named]
            router.set_ranges([(str(net), rp) for net, rp in ranges])
            router.set_candidates([(str(net), *rest) for net, *rest in candidates])
            for group in ("239.1.1.1", "239.1.1.9", "239.1.7.1", "239.9.1.1", "225.1.1.1", "232.1.1.1"):
                found = lab_rps.rp_among(ranges, candidates, group)
                self.assertEqual(router.tree(group).rp, found[1] if found else None, (group, ranges, candidates))
                told.add(found)
        self.assertEqual((len(told) > 12, None in told), (True, True))
        # As FRR 8.4.4 printed them (`show ip pim bsrp-info`).
        printed = {"10.99.0.1": 2067580945, "10.88.0.9": 240866473, "10.77.0.2": 53588824}
        self.assertEqual({rp: lab_rps.hashed(30, ipaddress.IPv4Address("239.0.0.0"), rp) for rp in printed}, printed)

    def test_another_configuration(self):
        router = self.joined()
        router.frame(0, bytes.fromhex(DATA))
        before, _ = list(router.tables()), router.packets()
        self.assertIsNone(router.reload(INTERFACES, RANGES, ROUTES, draw=7))
        self.assertEqual((router.packets(), list(router.tables())), ([], before))
        router.reload([("10.0.0.2", 24, 9, 500, 2500), *INTERFACES[1:], ("10.0.4.1", 24)], RANGES, ROUTES, limit=7)
        self.assertEqual([(one.kind, one.where) for one in router.packets()], [("frame", 0)])
        self.assertEqual(router.changed(), [("10.0.3.5", "225.1.1.1")])
        self.assertTrue(router.may_differ("10.0.3.6", "225.1.1.2"))
        self.assertEqual((list(router.tables()), router.up(3)), (before, Answer.DONE))
        router.reload(INTERFACES[:1], RANGES, ROUTES)
        self.assertEqual((router.link(1), [row.table for row in router.rows("D")]), (None, []))
        self.assertEqual(router.up(1), Answer.BAD_INTERFACE)

    def test_another_configuration_by_places(self):
        router = self.joined()
        turned = [(net, hop, len(INTERFACES) - 1 - iface, *rest) for net, hop, iface, *rest in ROUTES]
        router.packets()
        router.reload(INTERFACES[::-1], RANGES, turned, places=[2, 1, 0])
        self.assertEqual((router.packets(), [row.iface for row in router.rows("D")]), ([], [1]))
        less = [(net, hop, 1, *rest) for net, hop, _, *rest in ROUTES]
        router.reload([INTERFACES[1], INTERFACES[0]], RANGES, less, places=[None, 0, 1])
        self.assertEqual((router.packets(), [row.iface for row in router.rows("D")]), ([], [0]))
        self.assertEqual(router.frame(1, bytes.fromhex(DATA)), Answer.DONE)
        self.assertEqual([(one.kind, one.where) for one in router.packets()], [("copy", 0)])
        before = router.save()
        for places in ([], [0], [0, 1, None], [0, 0], [0, 2], [2**32 - 1, 0]):
            with self.assertRaisesRegex(Refused, r"a map of places that doesn't name each interface once \(73\)"):
                router.reload([INTERFACES[1], INTERFACES[0]], RANGES, less, places=places)
        for places, wrong in (([0, -1], ValueError), ([0, "1"], TypeError), (7, TypeError)):
            self.assertRaises(wrong, router.reload, INTERFACES, places=places)
        self.assertEqual((router.save(), router.packets()), (before, []))

    def test_kinds_of_answers(self):
        for answer in Answer:
            self.assertEqual(answer.is_refused, answer in facts.REFUSALS, answer)
            self.assertEqual(answer.is_ignored, answer in facts.IGNORED.values(), answer)

    def test_another_configuration_that_is_refused(self):
        router = self.joined()
        before, sent = router.save(), router.packets()
        for given, answer in (
            (([],), Answer.INTERFACE_COUNT),
            ((INTERFACES, RANGES, [("10.9.9.0/24", "10.0.0.1", 3, 110, 20)]), Answer.CONFIGURED_ROUTES),
        ):
            with self.assertRaises(Refused) as caught:
                router.reload(*given)
            self.assertEqual(caught.exception.answer, answer)
        self.assertEqual((len(sent), router.save(), router.packets()), (5, before, []))
        with self.assertRaises(TypeError):
            router.reload(INTERFACES, limits=7)

    def test_addresses_of_no_interface(self):
        """They are the router's, and no interface has them."""
        own, group, to_it = "10.255.0.1", "225.1.1.1", [("10.255.0.1/32", "10.0.0.1", 0, 110, 20)]
        router = Router(INTERFACES, [("224.0.0.0/4", own)], to_it, addresses=[own])
        self.addCleanup(router.end)
        router.up(0)
        self.assertEqual((router.tree(group).rp, router.tree(group).path), (own, None))
        for addresses in ([own, own], ["0.0.0.0"], ["239.1.1.1"], ["10.0.1.1"], ["10.0.1.9"],
                          [f"10.255.0.{n}" for n in range(1, 18)]):
            for call in (Router, router.reload):
                with self.assertRaises(Refused) as caught:
                    call(INTERFACES, [("224.0.0.0/4", own)], to_it, addresses=addresses)
                self.assertEqual(caught.exception.answer, Answer.OWN_ADDRESSES)
                self.assertTrue(caught.exception.answer.is_refused)
        elsewhere = [("10.8.0.0/16", "10.9.0.1", 0, 110, 20)]
        with self.assertRaisesRegex(Refused, r"number 0, its next hop is the router's own \(37\)"):
            router.reload(INTERFACES, RANGES, elsewhere, addresses=["10.9.0.1"])
        router.reload(INTERFACES, [("224.0.0.0/4", own)], to_it)
        self.assertEqual(router.tree(group).path.iface, 0)

    def test_which_item_of_a_configuration_is_refused(self):
        to_itself = ("10.1.0.0/16", "10.0.1.1", 0, 110, 20)
        text = r"configured routes that can't stand: number 2, its next hop is the router's own \(37\)"
        with self.assertRaisesRegex(Refused, text):
            Router(INTERFACES, RANGES, [*ROUTES, to_itself])
        with self.assertRaisesRegex(Refused, text):
            self.router().reload(INTERFACES, RANGES, [*ROUTES, to_itself])
        with self.assertRaisesRegex(Refused, r"number 1, one before it has the same prefix \(38\)"):
            Router(INTERFACES, RANGES * 2)

    def test_older_hosts_stay_in_another_configuration(self):
        router = self.joined()
        router.set_older_hosts(2, "all")
        router.frame(2, hosts.older_join("10.0.2.9", "239.1.1.1"))
        rows = router.older_rows()
        router.reload([*INTERFACES, ("10.0.4.1", 24)], RANGES, ROUTES)
        router.up(3)
        self.assertEqual((len(rows), router.older_rows()), (1, rows))
        self.assertEqual(router.frame(3, hosts.older_join("10.0.4.9", "239.1.1.1")), Answer.OLD_VERSION)
        router.reload(INTERFACES[:2], RANGES, ROUTES)
        router.reload(INTERFACES, RANGES, ROUTES)
        router.up(2)
        self.assertEqual(router.older_rows(), [])
        self.assertEqual(router.frame(2, hosts.older_join("10.0.2.9", "239.1.1.1")), Answer.OLD_VERSION)

    def test_a_join_a_packet_and_its_copy(self):
        router = self.joined()
        sent = [(one.kind, one.where) for one in router.packets()]
        self.assertEqual(sent, [("frame", 0), ("frame", 1), ("frame", 2), ("frame", 0), ("frame", 0)])
        self.assertEqual(router.frame(0, bytes.fromhex(DATA)), Answer.DONE)
        copy, = router.packets()
        self.assertEqual((copy.kind, copy.where, copy.packet[8]), ("copy", 1, 63))
        self.assertGreaterEqual(router.probes(), 1)
        router.frame(0, bytes.fromhex(DATA))
        self.assertEqual(router.touched(), 0)

    def given_both(self, received, draws):
        """The same packets, each by a call of its own at one router, and all by one at another: what became of both."""
        one, other = self.router(), self.router()
        for router in (one, other):
            self.assertEqual([router.up(iface, draw=7) for iface in range(3)], [Answer.DONE] * 3)
        with mock.patch.object(other, "_call", wraps=other._call) as calls:
            told = other.frames(received, draws), other.packets(), other.save()
        each = [one.frame(iface, packet, draw) for (iface, packet), draw in zip(received, draws)]
        self.assertEqual(told, (each, one.packets(), one.save()))
        return told[0], [call.args[2] for call in calls.call_args_list if call.args[0] == "frames"]

    def test_many_frames(self):
        """Something leaves after the Join and each packet, and a row changes by the first report: a call ends there."""
        above, below, join, data = (bytes.fromhex(text) for text in (HELLO_ABOVE, HELLO_BELOW, JOIN, DATA))
        report = hosts.join("10.0.2.9", "225.1.1.1", "10.0.3.5")
        received = [(0, above), (1, below), (1, b""), (3, above), (1, bytearray(join)), (1, join), (0, data), (1, join),
                    (2, report), (2, report), (0, memoryview(data))]
        answers, left = self.given_both(received, range(7, 18))
        wanted = [Answer.DONE] * 11
        wanted[2:4] = Answer.SHORT, Answer.BAD_INTERFACE
        self.assertEqual((answers, left), (wanted, [11, 6, 4, 2]))
        self.assertEqual(self.given_both([], []), ([], []))

    def test_many_frames_of_any_order(self):
        chance = random.Random(7)
        texts = [bytes.fromhex(text) for text in (HELLO_ABOVE, HELLO_BELOW, JOIN, JOIN, DATA, "")]
        reports = [said("10.0.2.9", "225.1.1.1", "10.0.3.5") for said in (hosts.join, hosts.leave)]
        for _ in range(20):
            received = [(chance.randrange(4), chance.choice([*texts, *reports])) for _ in range(50)]
            self.given_both(received, [chance.getrandbits(32) for _ in received])

    def test_draws_of_many_frames(self):
        """Those that are given, or as `frame` draws them. A new neighbour is sent a Hello 1 ms and its draw's later."""
        received = [(0, bytes.fromhex(HELLO_ABOVE)), (1, bytes.fromhex(HELLO_BELOW))]

        def next_moment(give):
            router = self.router()
            for iface in range(2):
                router.up(iface, draw=7)
            router.run_to(100)
            random.seed(7)
            give(router)
            return router.next_moment()

        for draws, first in (([1_200, 3_400], 1_200), ([3_400, 1_200], 1_200), ([3_400, 2_400], 2_400)):
            self.assertEqual(next_moment(lambda router, draws=draws: router.frames(received, draws)), 100 + 1 + first)
        each = next_moment(lambda router: [router.frame(*one) for one in received])
        self.assertEqual(next_moment(lambda router: router.frames(received)), each)

    def test_many_frames_that_are_wrong(self):
        router = self.router()
        data = bytes.fromhex(DATA)
        for received, draws, wrong in (
            ([(2**32, data)], None, ValueError), ([(-1, data)], None, ValueError), ([("0", data)], None, TypeError),
            ([(0, data)], [2**32], ValueError), ([(0, data)], [], ValueError), ([(0, data)], [1, 2], ValueError),
            ([(0, "data")], None, TypeError), ([(0, 7)], None, TypeError), ([(0, data), (0,)], None, ValueError),
        ):
            self.assertRaises(wrong, router.frames, received, draws)
        router.end()
        self.assertRaises(Closed, router.frames, [(0, data)])

    def test_what_the_router_knows(self):
        router = self.joined()
        self.assertEqual([len(router.rows(letter)) for letter in viqeshor.TABLES], [2, 0, 0, 1, 0, 1, 0, 0])
        self.assertIn("U 225.1.1.1 10.0.3.5", " ".join(router.tables()))
        self.assertIsNotNone(router.next_moment())
        with self.assertRaises(Refused):
            router.rows("X")

    def test_how_data_goes(self):
        router = self.joined()
        router.frame(0, bytes.fromhex(DATA))
        told = router.cached("10.0.3.5", "225.1.1.1")
        self.assertEqual((told.rpf, told.shared_rpf, told.has_spt_bit, told.has_tunnel), (0, 0, True, False))
        self.assertEqual((told.immediate, told.inherited, told.shared_tree), ({1}, {1}, set()))
        self.assertIsNone(router.cached("10.0.3.6", "225.1.1.1"))
        router.set_routes([("10.9.9.0/24", "10.0.1.2", 1, 110, 20), ROUTES[1]])
        told = router.cached("10.0.3.5", "225.1.1.1")
        self.assertEqual((told.rpf, told.shared_rpf), (0, 1))
        router.set_ranges([])
        self.assertIsNone(router.cached("10.0.3.5", "225.1.1.1").shared_rpf)

    def test_what_the_trees_are(self):
        router = self.joined()
        tree = router.tree("225.1.1.1")
        self.assertEqual((tree.rp, tree.rpf_neighbour, tree.rpf_cause), ("10.9.9.9", (0, "10.0.0.1"), "next hop"))
        self.assertEqual((tree.path.iface, tree.path.is_connected, tree.join_desired), (0, False, False))
        self.assertEqual((tree.joins, tree.immediate_olist, tree.lost_assert), (set(), set(), set()))
        self.assertEqual(router.tree("232.1.1.1")[:4], (None, None, None, "no rp"))
        source = router.source_tree("10.0.3.5", "225.1.1.1")
        self.assertEqual((source.joins, source.immediate_olist, source.inherited_olist), ({1}, {1}, {1}))
        self.assertEqual((source.rpf_neighbour, source.rpt_state), ((0, "10.0.0.1"), "notjoined"))
        self.assertEqual((source.join_desired, source.spt_bit, source.has_tunnel), (True, False, False))
        self.assertIs(router.source_tree("10.0.1.1", "225.1.1.1").rpf_cause, viqeshor.Cause.OWN)
        self.assertIs(tree.rpf_cause, viqeshor.Cause.NEXT_HOP)

    def test_what_the_links_are(self):
        router = self.joined()
        link = router.link(1)
        self.assertEqual((link.is_up, link.is_dr, link.dr), (True, False, "10.0.1.2"))
        self.assertEqual((link.querier.role, link.querier.robustness, link.querier.query_interval), ("own", 2, 125))
        self.assertIsNone(router.link(9))
        self.assertIsNotNone(router.neighbour(1, "10.0.1.2"))
        self.assertIsNone(router.neighbour(1, "10.0.1.3"))
        router.down(1)
        self.assertEqual(router.link(1)[:3], (False, False, None))

    def test_what_a_data_plane_is_told(self):
        router, name = self.joined(), ("10.0.3.5", "225.1.1.1")
        unknown = router.offload(*name)
        self.assertFalse(unknown.is_known)
        self.assertIn(0, unknown.to_core)
        self.assertEqual((router.keep(*name, 0), len(router.packets())), (Answer.NO_TIMER, 5))
        self.assertEqual(router.seen(0, *name), Answer.DONE)
        self.assertEqual((router.packets(), router.changed()), ([], [name]))
        self.assertEqual((router.may_differ(*name), router.may_differ("10.0.3.6", "225.1.1.2")), (True, False))
        self.assertEqual(router.offload(*name), (True, 0, {1}, {0}, {1}))

    def test_what_a_data_plane_tells(self):
        router, name = self.joined(), ("10.0.3.5", "225.1.1.1")
        router.frame(0, bytes.fromhex(DATA))
        self.assertEqual(router.keep(*name, 1000), Answer.DONE)
        self.assertEqual([row.keepalive for row in router.rows("F")], [211000])
        self.assertEqual((router.seen(0, *name), router.changed()), (Answer.DONE, []))
        self.assertEqual(router.seen(3, *name), Answer.BAD_INTERFACE)

    def test_a_router_without_room_offers_nothing(self):
        router = Router(INTERFACES, RANGES, ROUTES, limit=1)
        self.addCleanup(router.end)
        router.up(2)
        self.assertIsNotNone(router.offload("10.0.3.6", "225.1.1.1"))
        self.assertEqual(router.seen(2, "10.0.2.7", "225.1.1.1"), Answer.DONE)
        self.assertIsNone(router.offload("10.0.3.6", "225.1.1.1"))
        self.assertIsNotNone(router.offload("10.0.2.7", "225.1.1.1"))

    def test_after_its_end(self):
        with Router(INTERFACES) as router:
            self.assertIsNone(router.next_moment())
        for call in (
            lambda: router.up(0),
            lambda: router.seen(0, "10.0.3.5", "225.1.1.1"),
            router.packets,
            router.next_moment,
        ):
            self.assertRaises(Closed, call)
        router.end()

    def test_it_ends_with_its_last_reference(self):
        router = Router(INTERFACES)
        finalizer, gone = router._finalizer, weakref.ref(router)
        del router
        gc.collect()
        self.assertEqual((gone(), finalizer.alive), (None, False))

    def test_numbers_are_taken_whole(self):
        router = self.router()
        for call in (
            lambda: router.up(2**32 + 1),
            lambda: router.up(-1),
            lambda: router.advance(2**64),
            lambda: router.up(0, draw=2**32),
            lambda: router.set_routes([("10.9.9.0/24", "10.0.0.1", 2**32, 110, 20)]),
            lambda: Router(INTERFACES, limit=2**32 + 5),
            lambda: Router([("10.0.0.2", 2**32 + 24)]),
            lambda: router.keep("10.0.3.5", "225.1.1.1", 2**64),
        ):
            self.assertRaises(ValueError, call)
        for call in (
            lambda: router.up("0"),
            lambda: router.up(0.5),
            lambda: Router(INTERFACES, limt=1),
            lambda: router.frame(0, "00"),
            lambda: router.frame(0, 5),
        ):
            self.assertRaises(TypeError, call)
        self.assertRaises(ValueError, router.set_routes, [("10.9.9.0/24", "10.0.0.1", 0)])
        self.assertEqual(router.keep("10.0.3.5", "225.1.1.1", 2**62 + 1), Answer.MOMENT_FAR)

    def test_packets_as_any_bytes(self):
        for kind in (bytes, bytearray, memoryview):
            router = self.router()
            self.assertEqual([router.up(0), router.frame(0, kind(bytes.fromhex(HELLO_ABOVE)))], [Answer.DONE] * 2)
            self.assertEqual(len(router.rows("N")), 1)

    def test_rows_compare(self):
        router = self.joined()
        join, = router.rows("D")
        self.assertEqual(join, router.rows("D")[0])
        self.assertEqual(join, DownstreamRow(1, "225.1.1.1", "10.0.3.5", False, "join", join.end, None))
        self.assertEqual((join.table, join.kind()), ("D", "sg"))
        above, below = router.rows("N")
        self.assertEqual([above, below], [NeighbourRow(0, "10.0.0.1", None), NeighbourRow(1, "10.0.1.2", None)])
        self.assertNotEqual(above, below)

    def test_no_packet_is_lost_or_given_twice(self):
        router, (*others, last) = self.router(), [self.router() for _ in range(3)]
        for number in (0, 1):
            router.up(number, draw=7)
            others[number].up(number, draw=7)
        alone = [one for other in others for one in other.packets()]
        self.assertEqual(len(alone), 2)
        self.assertEqual((router.packets(), router.packets()), (alone, []))
        for number in (0, 1):
            last.up(number, draw=7)
        sent = last.run_to(0)
        self.assertEqual((sent[:2], last.packets()), (alone, []))
        self.assertTrue(any(packet[9] == 2 for _, _, packet in sent))
        router.frame(0, b"")
        self.assertEqual(router.packets(), [])
        router.end()
        self.assertRaises(Closed, router.packets)

    def test_time_passes_timer_by_timer(self):
        router = self.joined()
        sent = router.run_to(100_000)
        self.assertEqual(sum(kind == "frame" and where == 2 and packet[9] == 103 for kind, where, packet in sent), 4)
        self.assertGreater(router.next_moment(), 100_000)
        self.assertRaises(Refused, router.run_to, 99_999)

    def test_two_threads_lose_no_event(self):
        router, each, copies = self.joined(), 3000, []
        router.frame(0, bytes.fromhex(DATA))
        router.packets()

        def feed():
            for _ in range(each):
                with router.lock:
                    answer, sent = router.frame(0, bytes.fromhex(DATA)), router.packets()
                copies.append((answer, [one.kind for one in sent]))

        threads = [threading.Thread(target=feed) for _ in range(2)]
        for thread in threads:
            thread.start()
        for thread in threads:
            thread.join()
        self.assertEqual(copies, [(Answer.DONE, ["copy"])] * 2 * each)

    def test_two_threads_without_the_lock(self):
        router, group_count, answers = self.router(), 400, []
        router.up(2)

        def ask(first):
            for number in range(first, first + group_count):
                group = f"232.1.{number // 200}.{number % 200}"
                answers.append(router.frame(2, hosts.join("10.0.2.7", group, "10.0.3.5")))

        threads = [threading.Thread(target=ask, args=[first]) for first in (0, group_count)]
        for thread in threads:
            thread.start()
        for thread in threads:
            thread.join()
        self.assertEqual(answers, [Answer.DONE] * 2 * group_count)
        self.assertEqual(len(router.rows("S")), 2 * group_count)

    def test_packets_of_hosts(self):
        router = self.router()
        router.up(2)
        self.assertEqual(router.frame(2, hosts.join("10.0.2.7", "225.1.1.1")), Answer.DONE)
        self.assertEqual([str(row) for row in router.rows("G")], ["G 2 225.1.1.1 exclude 260000"])
        self.assertEqual(router.frame(2, hosts.data("10.0.2.9", "225.1.1.1", b"odd")), Answer.DONE)
        self.assertEqual([row.source for row in router.rows("F")], ["10.0.2.9"])
        self.assertEqual(router.frame(2, hosts.leave("10.0.2.7", "225.1.1.1")), Answer.DONE)
        self.assertEqual([row.end for row in router.rows("G")], [2000])

    def test_the_guard_stops_igmp_and_pim(self):
        """A Register with IGMP or PIM inside, or for 224.0.0.0/24, and PIM on a link to another group."""
        def registered(protocol, group):
            inner = packets.write(protocol, "10.0.3.5", group, 9, bytes(8))
            return packets.write(103, "10.0.3.1", "10.0.1.1", 60, b"\x21\0\xde\xff\0\0\0\0" + inner)

        links = [("10.0.0.2", 24), ("10.0.1.1", 24)]
        router = Router(links, [("224.0.0.0/4", "10.0.1.1")], [("10.0.3.0/24", "10.0.0.1", 0, 110, 20)])
        self.addCleanup(router.end)
        router.up(0), router.up(1)
        router.frame(1, hosts.join("10.0.1.9", "225.1.1.1"))
        router.packets()
        stopped = [(2, "225.1.1.1"), (103, "225.1.1.1"), (17, "224.0.0.5")]
        on_link = packets.write(103, "10.0.3.5", "225.1.1.1", 9, bytes(8))
        answers = [router.unicast(registered(*each)) for each in stopped] + [router.frame(0, on_link)]
        self.assertEqual((answers, router.packets(), router.changed()), ([Answer.GUARDED] * 4, [], []))
        self.assertTrue(Answer.GUARDED.is_ignored)
        router.set_guard(False)
        self.assertFalse(router.has_guard)
        self.assertEqual([router.unicast(registered(*each)) for each in stopped],
                         [Answer.DONE, Answer.DONE, Answer.LINK_LOCAL])
        copies = [one.packet[9] for one in router.packets() if one.kind == "copy"]
        self.assertEqual(copies, [2, 103])
        router.set_guard(True)
        self.assertEqual(router.unicast(registered(2, "225.1.1.1")), Answer.GUARDED)
        self.assertEqual(router.unicast(registered(17, "225.1.1.1")), Answer.DONE)
        self.assertEqual([one.kind for one in router.packets()], ["copy"])

    def test_rps_share_an_address(self):
        def registered(host, to):
            inner = packets.write(17, "10.0.3.5", "225.1.1.1", 9, bytes(8))
            return packets.write(103, host, to, 60, b"\x21\0\xde\xff\0\0\0\0" + inner)

        shared, own, other = "10.9.9.9", "10.0.0.2", "10.0.3.7"
        router = Router(INTERFACES, RANGES, addresses=[shared])
        self.addCleanup(router.end)
        others = [f"10.0.4.{last}" for last in range(1, 18)]
        for wrong in ((shared, shared, [other]), (shared, own, [other, other]), (shared, own, others)):
            with self.assertRaises(Refused) as caught:
                router.set_rp_sets([wrong])
            self.assertEqual((caught.exception.answer, router.rp_sets), (Answer.BAD_RP_SET, []))
        self.assertRaises(ValueError, router.set_rp_sets, [(shared, own, ["10.0.3"])])
        self.assertTrue(Answer.BAD_RP_SET.is_refused)
        router.set_rp_sets([(shared, own, [other])])
        self.assertEqual(router.rp_sets, [viqeshor.RpSet(shared, own, (other,))])
        self.assertEqual(router.next_moment(), 60_000)
        self.assertEqual(router.unicast(registered("10.0.3.1", shared)), Answer.DONE)
        copy, stop = router.packets()
        self.assertEqual(copy[:2], ("unicast", other))
        self.assertEqual((copy.packet[8], copy.packet[12:16]), (59, b"\n\0\0\2"))
        self.assertEqual((stop.where, copy.packet[20:]), ("10.0.3.1", registered("10.0.3.1", shared)[20:]))
        # One of the other's is answered, and goes on to nobody.
        self.assertEqual(router.unicast(registered(other, own)), Answer.DONE)
        self.assertEqual([each.where for each in router.packets()], [other])
        with self.assertRaises(Refused) as caught:
            router.reload(INTERFACES, RANGES)
        self.assertEqual(caught.exception.answer, Answer.BAD_RP_SET)
        with Router.restore(router.save()) as again:
            again.unicast(registered("10.0.3.1", shared))
            self.assertEqual(([each.where for each in again.packets()], again.rp_sets), (["10.0.3.1"], []))
        router.set_rp_sets([])
        router.reload(INTERFACES, RANGES)

    def test_a_source_on_a_link_is_announced(self):
        router = Router([("10.0.0.2", 24), ("10.0.1.1", 24)], RANGES, addresses=["10.9.9.9"])
        self.addCleanup(router.end)
        router.set_rp_sets([("10.9.9.9", "10.0.0.2", ["10.0.3.7", "10.0.3.8"])])
        router.up(0), router.up(1)
        router.run_to(10_000)
        data = hosts.data("10.0.1.7", "225.1.1.1", b"word")
        router.frame(1, data)
        told = [(each.where, each.packet[20], each.packet[24]) for each in router.packets() if each.kind == "unicast"]
        self.assertEqual(told, [("10.0.3.7", 0x21, 0x40), ("10.0.3.8", 0x21, 0x40)])
        router.frame(1, data)
        self.assertEqual([each.kind for each in router.packets()].count("unicast"), 0)
        sent = [each.where for each in router.run_to(60_000) if each.kind == "unicast"]
        self.assertEqual((sent, router.next_moment() <= 120_000), (["10.0.3.7", "10.0.3.8"], True))

    def test_hosts_of_older_versions(self):
        router, group = self.router(), "239.1.1.1"
        router.up(2)
        join, leave = hosts.older_join("10.0.2.7", group), hosts.older_leave("10.0.2.7", group)
        self.assertEqual(router.frame(2, join), Answer.OLD_VERSION)
        with self.assertRaises(Refused) as caught:
            router.set_older_hosts(3, "all")
        self.assertEqual(caught.exception.answer, Answer.BAD_INTERFACE)
        self.assertRaises(ValueError, router.set_older_hosts, 2, "v1")
        router.set_older_hosts(2, "all")
        self.assertEqual(router.frame(2, join), Answer.DONE)
        self.assertEqual(router.older_rows(), [(2, group, 2, None, 260000)])
        self.assertEqual([str(row) for row in router.rows("G")], [f"G 2 {group} exclude 260000"])
        # a host of IGMPv3 can't cut the older one off
        self.assertEqual(router.frame(2, hosts.leave("10.0.2.8", group, "10.0.2.9")), Answer.DONE)
        self.assertEqual(router.rows("S"), [])
        self.assertEqual(router.frame(2, hosts.older_join("10.0.2.6", group, version=1)), Answer.DONE)
        self.assertEqual(router.older_rows(), [(2, group, 1, 260000, 260000)])
        self.assertEqual(router.frame(2, leave), Answer.OLD_VERSION)
        router.set_older_hosts(2, "v2")
        self.assertEqual(router.older_rows(), [])
        self.assertEqual(router.frame(2, hosts.older_join("10.0.2.6", group, version=1)), Answer.OLD_VERSION)
        router.packets()
        self.assertEqual(router.frame(2, leave), Answer.DONE)
        self.assertEqual([len(one.packet) for one in router.packets()], [36])
        router.run_to(2000)
        self.assertEqual(router.rows("G"), [])

    def test_older_hosts_are_saved(self):
        router, group = self.router(), "239.1.1.1"
        router.up(2)
        router.set_older_hosts(2, "all")
        without = router.save()
        router.frame(2, hosts.older_join("10.0.2.6", group, version=1))
        router.frame(2, hosts.older_join("10.0.2.7", group))
        saved, known = router.save(), [(2, group, 1, 260000, 260000)]
        self.assertEqual((router.older_rows(), without[:4], saved[:4]), (known, b"VQST", b"VIQF"))
        for heard, rows, answer in (
            ("all", known, Answer.OLD_VERSION),
            ("v2", [(2, group, 2, None, 260000)], Answer.DONE),
            ("none", [], Answer.OLD_VERSION),
        ):
            with Router.restore(saved) as other:
                self.assertEqual((other.older_rows(), other.save()), (known, saved))
                other.set_older_hosts(2, heard)
                self.assertEqual(other.older_rows(), rows)
                self.assertEqual(other.frame(2, hosts.older_leave("10.0.2.7", group)), answer)
        with self.assertRaises(Refused) as caught:
            Router.restore(saved[:-1])
        self.assertEqual(caught.exception.answer, Answer.HOSTS_NOT_HELD)

    def test_queries_of_version_2(self):
        router = self.router()
        router.set_query_version(2, 2)
        router.up(2)
        self.assertIn(32, [len(one.packet) for one in router.packets()])
        with self.assertRaises(Refused) as caught:
            router.set_query_version(2, 1)
        self.assertEqual(caught.exception.answer, Answer.NO_SETTING)

    def test_it_goes_on_from_saved_bytes(self):
        router = self.joined()
        router.frame(0, bytes.fromhex(DATA))
        saved = router.save()
        with Router.restore(saved) as other:
            self.assertEqual((other.packets(), other.changed(), other.older_rows()), ([], [], []))
            self.assertEqual(list(other.tables()), list(router.tables()))
            self.assertEqual((other.next_moment(), other.save()), (router.next_moment(), saved))
            self.assertEqual(other.cached("10.0.3.5", "225.1.1.1"), router.cached("10.0.3.5", "225.1.1.1"))
            router.packets()
            answers = [one.advance(100_000, draw=9) for one in (router, other)]
            self.assertEqual(answers, [Answer.DONE] * 2)
            self.assertEqual((router.packets(), router.save()), (other.packets(), other.save()))
            self.assertNotEqual(router.save(), saved)
        for kind in (bytearray, memoryview):
            Router.restore(kind(saved)).end()
        self.assertRaises(Closed, other.save)

    def test_bytes_of_no_router(self):
        saved = self.joined().save()
        front = saved[:-4]

        def summed(given):
            return given + zlib.crc32(given).to_bytes(4, "big")

        self.assertEqual(summed(front), saved)
        for given, answer in (
            (b"", Answer.CUT_SHORT),
            (saved[:-1], Answer.DAMAGED),
            (saved + b"\0", Answer.DAMAGED),
            (saved[:30] + bytes([saved[30] ^ 4]) + saved[31:], Answer.DAMAGED),
            (b"other" + saved, Answer.NOT_OURS),
            (saved[:4] + b"\0\1" + saved[6:], Answer.OTHER_VERSION),
            (summed(front[:-1]), Answer.CUT_SHORT),
            (summed(front[:10] + b"\2" + front[11:]), Answer.OUT_OF_RANGE),
            (summed(front + b"\0"), Answer.LEFT_OVER),
            (summed(front[:6] + bytes(4) + front[10:]), Answer.NOT_HELD),
        ):
            with self.assertRaises(Refused) as caught:
                Router.restore(given)
            self.assertEqual(caught.exception.answer, answer)
        self.assertRaises(TypeError, Router.restore, "00")

    def test_texts(self):
        self.assertIn(viqeshor.version(), [f"{viqeshor.__version__} {how}" for how in ("proved", "not proved")])
        self.assertEqual(viqeshor.answer_text(0), "done")
        self.assertEqual(len({viqeshor.answer_text(answer) for answer in Answer}), len(Answer))


class Libraries(unittest.TestCase):
    def test_looking_for_it_starts_no_process(self):
        with mock.patch.dict(os.environ), mock.patch("subprocess.Popen", side_effect=AssertionError):
            os.environ.pop("VIQESHOR_LIBRARY", None)
            self.assertEqual(viqeshor.found(), "libviqeshor.so.0.9")

    def test_its_version_is_the_package_s(self):
        self.assertEqual(viqeshor.version().split()[0], viqeshor.__version__)

    @unittest.skipUnless(shutil.which("cc"), "there is no C compiler")
    def test_other_libraries_are_told_as_such(self):
        older = 'unsigned viq_abi(void) { return 4; } const char *viq_version(void) { return "0.0.9 proved"; }'
        for text, told in ((older, "0.0.9 proved, of ABI 4"), ("int other;", "doesn't say which version")):
            with tempfile.TemporaryDirectory() as room:
                made = f"{room}/libviqeshor.so"
                subprocess.run(["cc", "-shared", "-fPIC", "-xc", "-", "-o", made], input=text, text=True, check=True)
                self.assertRaisesRegex(viqeshor.OtherVersion, told, Router, INTERFACES, library=made)

    def test_an_answer_of_a_later_library_is_one(self):
        later = viqeshor.Answer(99)
        self.assertEqual((later, str(later.name), later.is_refused, later.is_ignored), (99, "UNKNOWN_99", False, False))
        self.assertRaises(ValueError, viqeshor.Answer, "99")


if __name__ == "__main__":
    unittest.main()
