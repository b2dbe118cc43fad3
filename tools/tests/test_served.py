"""Whether a host is served: where its stream ends, and why.

TRIALS and SEED in the environment ask for another number of random networks (8) and for others.
"""
import os
import random
import subprocess
import sys
import tempfile
import unittest
from pathlib import Path

import lab
from pimtext.files import pimlab
from pimtext.ways import watched
from viqeshor.lab import packets, scenario, story
from tests import stored
from tests.networks import ALLOW, GROUP, HOST, RP, SOURCE, SSM, TO_EX, Network, data, report, router

TRIALS, SEED = int(os.environ.get("TRIALS", 8)), int(os.environ.get("SEED", 1))


def answer(network, *asked):
    played = scenario.scenario_of({"router": network.routers, "move": network.moves()})
    steps, tables = story.played(played, pimlab.run_text(network.text()))
    ((verdict, lines),) = watched.Watch(played, steps, tables).answers(*(asked or (HOST, GROUP, SOURCE)))
    return lines, bool(verdict and verdict.is_served)


class Served(unittest.TestCase):
    def ends(self, network, why, *before, asked=()):
        """The stream ends: the last line says why, and lines before it say these."""
        lines, is_served = answer(network, *asked)
        self.assertFalse(is_served, lines)
        self.assertIn(f"{HOST} isn't served: {why}", lines[-1])
        for text in before:
            self.assertTrue(any(text in line for line in lines), (text, lines))

    def test_hop_by_hop_to_a_host_that_is_served(self):
        lines, is_served = answer(Network(), HOST)
        self.assertTrue(is_served)
        self.assertEqual(lines[0], f"({SOURCE}, {GROUP}) from studio to {HOST} on home")
        came = "1 sent since it asked, 1 came, none of them twice; the first came 0 s after the Join"
        self.assertEqual(lines[1].strip(), came)
        way = [line.strip() for line in lines[2:-1]]
        self.assertEqual(way[0], f"west took it on 0 studio, TTL 16; registered it with hub ({RP})")
        self.assertEqual(way[1], "hub took it in a Register, TTL 15; sent it on hub-east")
        self.assertEqual(way[2], "east took it on 0 hub-east, TTL 14; sent it on home")

    def test_by_a_register_and_the_shared_tree(self):
        network = Network(report(TO_EX, GROUP))
        for made in network.routers:
            made["spt"] = "never"
        lines, is_served = answer(network, HOST, GROUP, SOURCE)
        self.assertTrue(is_served, lines)
        self.assertEqual(lines[1], "  nobody has sent since it asked")
        self.assertIn(f"registers it with hub ({RP})", lines[3])
        self.assertIn("hub takes it in a Register; sends it on 1 hub-east", lines[4])
        self.assertEqual(lines[-1], f"{HOST} would be served")

    def test_by_a_source_tree(self):
        lines, is_served = answer(Network(report(ALLOW, SSM, SOURCE)), HOST)
        self.assertTrue(is_served, lines)

    def test_nobody_asked(self):
        self.ends(Network(data()), f"it has not asked for {GROUP} of {SOURCE} in this run")
        lines, is_served = answer(Network(data()), HOST)
        self.assertEqual((lines, is_served), ([f"{HOST} has asked for no group in this run"], False))

    def test_another_source_was_asked_for(self):
        network = Network(report(ALLOW, SSM, "10.7.0.51"))
        self.ends(network, f"it has not asked for {SSM} of {SOURCE} in this run", asked=(HOST, SSM, SOURCE))

    def test_the_source_is_blocked(self):
        network = Network(report(TO_EX, GROUP, SOURCE), data())
        self.ends(network, f"it asks for all sources of {GROUP} but {SOURCE}")

    def test_no_rp_at_the_hosts_router(self):
        network = Network()
        network.router("east")["rps"] = []
        self.ends(network, f"east has no RP for {GROUP}", "west took it on 0 studio")

    def test_no_rp_at_the_sources_router(self):
        network = Network()
        network.router("west")["rps"] = []
        self.ends(network, f"west, the DR of {SOURCE}, has no RP for {GROUP}", "hub waits for it")

    def test_an_rp_that_does_not_know_that_it_is_one(self):
        network = Network()
        network.router("hub")["rps"] = []
        registered = f"west took it on 0 studio, TTL 16; registered it with hub ({RP})"
        self.ends(network, f"hub has no RP for {GROUP}, and drops the Joins of east", registered, "east waits for it")

    def test_no_route(self):
        network = Network()
        network.router("east")["routes"] = []
        self.ends(network, f"east has no route to the RP {RP}")

    def test_no_neighbour(self):
        network = Network()
        network.router("east")["routes"][0] = "10.0.1.0/24 10.0.2.9 0 110 10"
        self.ends(network, f"10.0.2.9 on hub-east, the next hop of east towards the RP {RP}, is no neighbour of it")

    def test_an_interface_that_is_down(self):
        network = Network(report(TO_EX, GROUP), data(), {"do": "down", "router": "hub", "iface": 1})
        self.ends(network, "hub has no interface on hub-east that is up", "nobody has sent since the network changed")

    def test_not_the_dr(self):
        network = Network()
        network.routers.append(router("spare", [("home", "10.8.0.2/24")]))
        self.ends(network, f"spare, the DR of home, knows of no host that wants {GROUP}")

    def test_pruned(self):
        prune = packets.GroupEntries(GROUP, 32, (), (packets.Entry(SOURCE, 32, False, True),))
        hexes = packets.write_join_prune("10.0.2.3", "10.0.2.2", [prune]).hex()
        network = Network(report(TO_EX, GROUP), {"do": "frame", "router": "hub", "iface": 1, "hex": hexes})
        network.routers[1]["spt"] = network.routers[2]["spt"] = "never"
        network.said += [{"do": "advance", "router": "hub", "moment": 9000}]
        self.ends(network, f"hub, on 1 hub-east: Prune ({SOURCE}, {GROUP}, rpt)", "hub takes it in a Register")

    def test_no_join(self):
        network = Network(report(TO_EX, GROUP), {"do": "advance", "router": "hub", "moment": 400_000})
        self.ends(network, f"hub, on 1 hub-east: no Join for {GROUP} of east is there")

    def test_a_lost_assert(self):
        network = Network(report(TO_EX, GROUP), data())
        network.routers[1]["spt"] = network.routers[2]["spt"] = "never"
        hello = packets.write_hello("10.0.2.9", packets.Hello(105, 500, 2500, 1, 9))
        wins = packets.write_assert("10.0.2.9", packets.Assert(GROUP, 32, SOURCE, False, 0, 0))
        network.said += [{"do": "frame", "router": "hub", "iface": 1, "hex": each.hex()} for each in (hello, wins)]
        self.ends(network, f"hub, on 1 hub-east: it lost the assert of ({SOURCE}, {GROUP}) to 10.0.2.9")

    def test_a_register_from_outside_that_comes_to_another_router_than_the_rp(self):
        spare = router("spare", [("studio", "10.7.0.2/24")])
        for kept, why in (([f"239.0.0.0/8 {RP}"], f"has {RP} as the RP of {GROUP}"), ([], f"has no RP for {GROUP}")):
            network = Network(report(TO_EX, GROUP), registered("10.7.0.2", "spare"))
            network.routers.append({**spare, "rps": kept})
            lost = f"packet 1 didn't come: it came in a Register to spare, which {why}, and forwards nothing of it"
            with self.subTest(kept=kept):
                self.ends(network, f"it came in a Register to spare, which {why}", lost)

    def test_a_register_from_outside_that_comes_to_the_rp_where_the_source_is_asked_for_by_its_own_tree(self):
        network = Network(report(ALLOW, GROUP, SOURCE), registered("10.9.0.1", "far"))
        network.routers.append({**router("far", [("attic", "10.9.0.1/24")]), "rps": ["239.0.0.0/8 10.9.0.1"]})
        lost = f"packet 1 didn't come: it came in a Register to far alone, and on no link of {SOURCE}"
        lines, _ = answer(network, HOST, GROUP, SOURCE)
        self.assertTrue(any(lost in line for line in lines), lines)


def registered(destination, name):
    """A Register from outside the scenario, with a packet of the source."""
    inner = packets.write_data(SOURCE, GROUP, b"hello")
    outer = packets.write_pim(packets.REGISTER, "10.99.0.1", destination, 60, bytes(4) + inner)
    return {"do": "unicast", "router": name, "hex": outer.hex()}


def network_of(chance):
    """A network of some routers with what may be wrong in one, a source, and two hosts."""
    net = lab.Network(seed=chance.random(), step=2)
    names = [f"r{number}" for number in range(chance.randint(3, 6))]
    for name in names:
        wrong = {"rps": chance.choice([[], ["239.0.0.0/8 10.77.7.7"]])} if chance.random() < 0.12 else {}
        net.router(name, **wrong, **({"spt": "never"} if chance.random() < 0.25 else {}))
    for number, name in enumerate(names[1:], 1):
        net.link(name, names[chance.randrange(number)])
    net.link(*chance.sample(names, 2), name="lan")
    if chance.random() < 0.85:
        net.rp(chance.choice(names))
    for name in names:
        if chance.random() < 0.1:
            net.routes(name, "0.0.0.0/0 10.0.1.200 0 1 1")
    source, *hosts = (net.host(name, chance.choice([*names, "lan"])) for name in ("camera", "first", "second"))
    return net, source, hosts


def run_a_while(net, source, hosts, group, chance):
    """Hosts ask for the group or for the source, and a link may fail."""
    net.run(10)
    for host in hosts:
        if chance.random() < 0.85:
            host.join(group, source if group.startswith("232") or chance.random() < 0.2 else None)
    net.run(6)
    if chance.random() < 0.3:
        source.send(group)
        net.run(4)
    if chance.random() < 0.3:
        chance.choice([link for link in net.links.values() if link is not source.link]).down()
        net.run(2)


class Received(unittest.TestCase):
    def test_what_is_told_of_a_host_is_what_comes_of_the_next_packet(self):
        for seed in range(SEED, SEED + TRIALS):
            chance = random.Random(seed)
            net, source, hosts = network_of(chance)
            group = chance.choice([GROUP, GROUP, SSM])
            run_a_while(net, source, hosts, group, chance)
            told = [host.served(group, source) for host in hosts]
            before = [len(host.received) for host in hosts]
            source.send(group, b"the next one")
            net.run(2)
            for host, how, count in zip(hosts, told, before):
                # On the source's own link no router is between; and a host hears what another one on its link wants.
                if host.link is not source.link and (host.wants(group, source.address) or not how):
                    with self.subTest(str(how), seed=seed):
                        self.assertEqual(bool(how), len(host.received) > count)
                self.counted(host, source, group, seed)

    def counted(self, host, source, group, seed):
        """The trace counts what the host received."""
        received = [each for each in host.received if (each.group, each.source) == (group, source.address)]
        for stream in host.watch(group, source):
            with self.subTest("counts", seed=seed):
                arrivals = [each for each in stream.arrivals.values() if each]
                self.assertEqual((stream.came, sum(map(len, arrivals))), (len(arrivals), len(received)))


class Asked(unittest.TestCase):
    """`tools/why FILE --served`."""

    def called(self, network, *words):
        with tempfile.TemporaryDirectory() as room:
            path = Path(room) / "net.toml"
            path.write_text(network.text())
            ran = subprocess.run([sys.executable, stored.TOOLS / "why", path, "--served", *words], capture_output=True,
                text=True)
        return ran.returncode, ran.stdout, ran.stderr

    def test_status_and_last_line(self):
        status, out, err = self.called(Network(), HOST)
        self.assertEqual((status, out.splitlines()[-1], err), (0, f"{HOST} is served", ""))
        status, out, _ = self.called(Network(data()), HOST, GROUP)
        self.assertEqual((status, out.splitlines()[-1]), (1, f"{HOST} has not asked for {GROUP} in this run"))
        network = Network()
        network.router("east")["rps"] = []
        status, out, _ = self.called(network, HOST, GROUP)
        self.assertEqual(status, 1)
        self.assertIn(f"{HOST} isn't served: east has no RP for {GROUP}\n  cause: ", out)

    def test_words_that_are_no_addresses(self):
        for words, told in ((["home"], "home is no host's address"),
            ([HOST, SOURCE], f"{SOURCE} is no group's address")):
            status, _, err = self.called(Network(), *words)
            self.assertEqual((status, err), (1, f"tools/why: {told}\n"))


if __name__ == "__main__":
    unittest.main()
