"""What `tools/why --run` says where a stream doesn't come though nothing is refused: each mistake with its line."""
import unittest

from pimtext.files import pimlab
from viqeshor.lab import scenario, toml_lines
from pimtext.causes.diagnosis import Diagnosis
from viqeshor.lab.faults import faults_of
from tests import stored
from tests.networks import ALLOW, GROUP, HOST, RP, SOURCE, SSM, TO_EX, Network, data, report, router


def noted(network):
    text = network.text()
    judge, number = faults_of(text)
    assert number == 0, judge.faults
    played = scenario.scenario_of(toml_lines.plain(toml_lines.read(text)))
    return Diagnosis(judge, played, pimlab.run_text(text)).lines()


class Mistakes(unittest.TestCase):
    def told(self, network, line, text):
        said = noted(network)
        self.assertTrue(any(note.startswith(f"{line}: ") and text in note for note in said), said)
        return said

    def test_nothing_is_odd_in_a_good_network(self):
        self.assertEqual(noted(Network()), [])
        self.assertEqual(noted(Network(report(ALLOW, SSM, SOURCE), data(SSM))), [])

    def test_another_rp_than_the_other_routers_have(self):
        network = Network()
        network.router("east")["rps"] = ["239.0.0.0/8 10.0.1.1"]
        self.told(network, network.line("east"),
            f"the RP of {GROUP} is 10.0.1.1 here, and {RP} at router west (line 2)")

    def test_a_dr_without_an_rp(self):
        network = Network()
        network.router("west")["rps"] = []
        self.told(network, network.line("west"), f"has no RP for {GROUP}, which other routers have")
        network = Network()
        network.router("east")["rps"] = []
        self.told(network, network.line("east"), f"has no RP for {GROUP}, which other routers have")

    def test_an_rp_that_one_router_learned_and_another_did_not(self):
        """The first router hears Bootstraps and the second doesn't; the RP is there by move 9, for 150 s."""
        path = stored.DATA / "bsr_here_and_not_there.toml"
        text = path.read_text()
        judge, number = faults_of(text)
        self.assertEqual(number, 0)
        played = scenario.scenario_of(toml_lines.plain(toml_lines.read(text)))
        notes = Diagnosis(judge, played, pimlab.run_text(text)).lines()
        line = next(at for at, it in enumerate(text.splitlines(), 1) if 'name = "r2"' in it)
        told = (f"{line}: router r2 has no RP for 239.1.1.1, which other routers have: r1 learned 10.0.0.1 by move 9 "
                "(frame), line 29, until 150.001 s\n")
        self.assertTrue(any(note.startswith(told) for note in notes), notes)

    def test_an_rp_that_does_not_know_that_it_is_one(self):
        network = Network()
        network.router("hub")["rps"] = []
        said = self.told(network, network.line("hub"), f"is the RP of {GROUP} to other routers, by its address {RP}")
        self.assertEqual(len(said), 1)

    def test_a_router_on_the_way_without_an_rp(self):
        network = Network()
        for made in network.routers:
            made["rps"] = ["239.0.0.0/8 10.0.1.1"]
        network.router("hub")["rps"] = []
        self.told(network, network.line("hub"), f"has no RP for {GROUP}, and drops the Joins of east to 10.0.1.1")

    def test_a_report_at_a_router_that_is_not_dr(self):
        network = Network()
        network.routers.append(router("spare", [("home", "10.8.0.2/24")]))
        self.told(network, network.said_line(0), f"the reports of {HOST} came to east and not to spare, the DR of home")
        network.said.append(report(TO_EX, GROUP, router="spare", iface=0))
        self.assertFalse([note for note in noted(network) if "the reports of" in note])

    def test_a_source_outside_its_links_subnet(self):
        network = Network(report(TO_EX, GROUP), data(source="10.70.0.50"))
        self.told(network, network.said_line(1), "the source 10.70.0.50 isn't in 10.7.0.0/24, the subnet of studio")

    def test_data_that_nobody_asked_for(self):
        network = Network(report(TO_EX, GROUP), data("239.1.1.2"))
        self.told(network, network.said_line(1), f"nobody asks for 239.1.1.2 in this run; asked for is {GROUP}")

    def test_ssm_data_of_another_source(self):
        network = Network(report(ALLOW, SSM, "10.7.0.51"), data(SSM))
        self.told(network, network.said_line(0), f"{HOST} asks for {SSM} of 10.7.0.51, which has sent nothing")

    def test_an_ssm_group_without_a_source(self):
        network = Network(report(TO_EX, SSM))
        self.told(network, network.said_line(0), f"{HOST} asks for {SSM} without a source")

    def test_two_subnets_or_masks_on_a_link(self):
        for address, what in (("10.0.3.3/24", "subnets"), ("10.0.2.3/25", "masks")):
            network = Network()
            network.router("east")["iface"][0]["address"] = address
            self.told(network, network.line("east"), f"two {what} on one link")

    def test_a_dr_without_a_route_to_its_rp(self):
        network = Network()
        network.router("east")["routes"] = []
        self.told(network, network.line("east"), f"east has no route to the RP {RP}")
        network = Network()
        for made in network.routers:
            made["rps"] = ["239.0.0.0/8 10.0.2.2"]
        network.router("west")["routes"] = []
        told = f"is the DR of the source {SOURCE} and has no route to 10.0.2.2, the RP of {GROUP}"
        self.told(network, network.line("west"), told)

    def test_the_name_of_a_link_that_is_almost_another_one(self):
        for name in ("hub-eats", "Hub-East", "elsewhere"):
            network = Network()
            network.router("east")["iface"][0]["link"] = name
            self.told(network, network.line("east"), f"no other interface is on the link {name}; is hub-east meant?")

    def test_names_that_differ_in_digits_are_no_slips(self):
        network = Network()
        network.routers[0]["iface"].append({"link": "home1", "address": "10.9.1.1/24"})
        network.routers[1]["iface"].append({"link": "home2", "address": "10.9.2.1/24"})
        self.assertEqual(noted(network), [])

    def test_bytes_with_an_ethernet_header(self):
        for header, size in (("01005e01010102420a07003208" "00", 14), ("01005e01010102420a070032810000070800", 18)):
            framed = data()
            framed["hex"] = header + framed["hex"]
            network = Network(report(TO_EX, GROUP), framed)
            self.told(network, network.said_line(1), f"begin with an Ethernet header: leave out its {size} bytes")


if __name__ == "__main__":
    unittest.main()
