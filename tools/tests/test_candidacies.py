"""The stored scenarios of candidate BSRs and candidate RPs: what RFC 5059 has them say and know, computed by hand."""
import unittest

from viqeshor.lab import packets
from viqeshor.lab.faults import faults_of
from tests import stored

# Of each scenario the Bootstraps that their BSRs send themselves: BSR, priority, tag, and each range with its RPs.
C1, C2 = "10.0.0.1", "10.0.0.2"
WIDE = "239.0.0.0/8"
SENT = {
    # Both send one after 5 s; c2, of more weight, again 10 s later.
    "the_lower_yields": [(C1, 10, 1, {}), (C2, 20, 1, {}), (C2, 20, 2, {})],
    # Without a priority c1 has 64; again 10 s later.
    "usual_priority": [(C1, 64, 1, {}), (C2, 63, 1, {}), (C1, 64, 2, {})],
    # c1 takes over: its second.
    "take_over": [(C1, 10, 1, {}), (C2, 20, 1, {}), (C1, 10, 2, {})],
    # c1 says nothing at 5 s, and at 15 s both RPs, r2 first, since it heard r2 at 5 s and itself at 6 s.
    "two_rps": [(C1, 10, 1, {}), (C1, 10, 2, {WIDE: [C2, C1]})],
    # After they went both ranges are said without RPs, at 25 s and 85 s; at 145 s they are not said.
    "an_rp_goes": [
        (C1, 10, 1, {}), (C1, 10, 2, {WIDE: [C2], "238.1.0.0/16": [C2]}), (C1, 10, 3, {WIDE: [], "238.1.0.0/16": []}),
        (C1, 10, 4, {WIDE: [], "238.1.0.0/16": []}), (C1, 10, 5, {}),
    ],
    # c2 begins again at 5 s: its tag counts from 5000.
    "a_priority_falls": [(C1, 10, 1, {}), (C2, 20, 1, {}), (C2, 5, 5001, {}), (C1, 10, 2, {})],
    "a_stream": [(C1, 10, 1, {}), (C1, 10, 2, {WIDE: [C1]})],
    # Of five ranges that a host says there is room for the first two.
    "hostile": [(C1, 10, 1, {}), (C1, 10, 2, {"239.1.0.0/16": ["10.88.0.9"], "239.2.0.0/16": ["10.88.0.9"]})],
    # Restarted at 15 s, it counts from 15000; the one of 80 s leaves nowhere.
    "a_restart": [(C1, 10, 1, {}), (C1, 10, 2, {WIDE: [C2]}), (C1, 10, 15001, {}), (C1, 10, 15003, {WIDE: [C2]})],
}
# What routers know of them at the end. The last message of a BSR is good for 130 s, to itself too.
KNOWN = {
    "the_lower_yields": {"c1": ["B 10.0.0.2 20 145000", "E candidate 145000"],
                         "c2": ["B 10.0.0.2 20 145000", "E elected 75000"]},
    "usual_priority": {"c1": ["B 10.0.0.1 64 145000", "E elected 75000"],
                       "c2": ["B 10.0.0.1 64 145000", "E candidate 145000"]},
    # 135 s, and 5 + 6.75 + 1.922 s: 148,672 ms, and then 60 and 130 s.
    "take_over": {"c1": ["B 10.0.0.1 10 278672", "E elected 208672"], "r3": ["B 10.0.0.1 10 278672"]},
    # r2 told c1 at 5 s, for 150 s, and c1 itself at 6, 7 and 8 s; said at 15 s, for 150 s.
    "two_rps": {
        "c1": ["B 10.0.0.1 10 145000", "L 239.0.0.0/8 10.0.0.2 192 165000 given",
               "L 239.0.0.0/8 10.0.0.1 192 165000 kept", "E elected 75000", "H 239.0.0.0/8 10.0.0.2 192 150 155000",
               "H 239.0.0.0/8 10.0.0.1 192 150 158000", "T 10.0.0.1 68000"],
        "r3": ["B 10.0.0.1 10 145000", "L 239.0.0.0/8 10.0.0.2 192 165000 given",
               "L 239.0.0.0/8 10.0.0.1 192 165000 given"],
        "r4": ["B 10.0.0.1 10 145000", "L 239.0.0.0/8 10.0.0.2 192 165000 given",
               "L 239.0.0.0/8 10.0.0.1 192 165000 kept"],
    },
    "an_rp_goes": {"c1": ["B 10.0.0.1 10 275000", "E elected 205000"], "r2": ["B 10.0.0.1 10 215000"],
                   "r3": ["B 10.0.0.1 10 215000"]},
    # 10 s, and the same 13.672 s.
    "a_priority_falls": {"c1": ["B 10.0.0.1 10 153672", "E elected 83672"],
                         "c2": ["B 10.0.0.1 10 153672", "E candidate 153672"]},
    "a_stream": {"r2": ["B 10.0.0.1 10 145000", "L 239.0.0.0/8 10.0.0.1 192 165000 given"]},
    "hostile": {"c1": ["B 10.0.0.1 10 145000", "L 239.1.0.0/16 10.88.0.9 3 165000 given",
                       "L 239.2.0.0/16 10.88.0.9 3 165000 given", "E elected 75000",
                       "H 239.1.0.0/16 10.88.0.9 3 150 155000", "H 239.2.0.0/16 10.88.0.9 3 150 155000"], "r2": []},
    "a_restart": {"c1": ["B 10.0.0.1 10 220000", "L 239.0.0.0/8 10.0.0.2 192 240000 given", "E elected 150000",
                         "H 239.0.0.0/8 10.0.0.2 192 150 230001"],
                  "r2": ["B 10.0.0.1 10 145000", "L 239.0.0.0/8 10.0.0.2 192 165000 given", "T 10.0.0.1 120001"]},
}
# The answers to the moves that bring advertisements by hand: cut twice, a count of 255, a mask of 33 bits, no group.
HOSTILE = ["ignored NotElected", "ignored NotForMe", "done", "refused 1", "refused 1", "refused 1", "refused 4",
           "refused 6", "ignored NotForMe", "done", "done", "done"]


def lines_of(name):
    return (stored.DATA / f"candidacy_{name}.out").read_text().splitlines()


def packets_of(lines, kind):
    """The PIM packets of a type, each with where it goes."""
    for words in map(str.split, lines):
        if words[0] in ("frame", "unicast"):
            data = bytes.fromhex(words[3])
            body = data[4 * (data[0] & 15):]
            if data[9] == packets.PIM and body[0] & 15 == kind:
                yield words[0], packets.dotted(data[12:16]), packets.dotted(data[16:20]), body


def own_bootstraps(lines):
    """Those that leave from the address of their own BSR."""
    for _, source, _, body in packets_of(lines, packets.BOOTSTRAP):
        told = packets.read_bootstrap(body)
        if told.bsr == source:
            ranges = {str(each.prefix()): [rp.address for rp in each.rps] for each in told.ranges}
            yield told.bsr, told.priority, told.tag, ranges


def known_by(lines):
    """The rows of each router that are of an election."""
    made = {}
    for line in lines:
        if line.startswith("router "):
            rows = made.setdefault(line.split()[1], [])
        elif line[:2] in ("B ", "L ", "E ", "H ", "W ", "T "):
            rows.append(line)
    return made


class Candidates(unittest.TestCase):
    def test_the_bootstraps_that_bsrs_send(self):
        for name, sent in SENT.items():
            with self.subTest(name):
                self.assertEqual(list(own_bootstraps(lines_of(name))), sent)

    def test_what_routers_know_at_the_end(self):
        for name, known in KNOWN.items():
            with self.subTest(name):
                found = known_by(lines_of(name))
                self.assertEqual({router: found[router] for router in known}, known)

    def test_what_a_candidate_rp_tells(self):
        """Two ranges thrice, and then that it goes, from its own address, by 3.2 and 4.2: byte by byte."""
        told = bytes.fromhex("0207" "0096" "01000a000002" "01000008ef000000" "01000010ee010000")
        gone = told[:2] + bytes(2) + told[4:]
        found = list(packets_of(lines_of("an_rp_goes"), 8))
        self.assertEqual([each[:3] for each in found], [("unicast", C2, C1)] * 4)
        self.assertEqual([body[4:] for *_, body in found], [told] * 3 + [gone])
        self.assertEqual([packets.sum16(body) for *_, body in found], [0] * 4)

    def test_which_rp_each_chooses(self):
        """By the greater hash value of 10.0.0.1 and 10.0.0.2 for a group at r3, for the range at r4."""
        sent = packets_of(lines_of("two_rps"), packets.JOIN_PRUNE)
        joins = [(source, packets.read_pim(body)) for _, source, _, body in sent]
        self.assertEqual(
            [(source, told.upstream, told.groups[0].group) for source, told in joins],
            [("10.0.0.3", C2, "239.0.0.1"), ("10.0.0.3", C1, "239.0.0.4"), ("10.0.0.4", C2, "239.0.0.1"),
             ("10.0.0.4", C2, "239.0.0.4")])

    def test_when_another_takes_over(self):
        """Nothing of the BSR leaves 1 ms earlier."""
        for name, before, at in (("take_over", "move 17 ", "move 18 "), ("a_priority_falls", "move 13 ", "move 14 ")):
            lines = lines_of(name)
            first, second = (next(i for i, it in enumerate(lines) if it.startswith(start)) for start in (before, at))
            self.assertEqual(list(own_bootstraps(lines[first:second])), [])
            self.assertEqual(len(list(own_bootstraps(lines[second:second + 6]))), 1)

    def test_what_is_not_taken(self):
        answers = [line.split(" ", 3)[3] for line in lines_of("hostile") if line.startswith("move ")]
        self.assertEqual(answers[-12:], HOSTILE)

    def test_a_stream_comes_by_the_learned_rp(self):
        lines = lines_of("a_stream")
        registers = [each[1:3] for each in packets_of(lines, packets.REGISTER)]
        self.assertEqual(registers, [("10.0.2.1", C1)] * 2)
        copies = [line.split()[2] for line in lines if line.startswith("copy ")]
        self.assertEqual(copies, ["lan1", "net", "lan1"])

    def test_what_the_checker_says_of_candidates_that_can_not_stand(self):
        for name, told in (
            ("without_bsr", "the router hears no Bootstraps: a candidate needs bsr = true beside it"),
            ("of_another_address", '`address` is "10.0.0.2", and none of the router\'s'),
            ("of_no_range", "there are 0 ranges, and wanted are 1 to 183"),
            ("of_too_many_ranges", "there are 184 ranges, and wanted are 1 to 183"),
        ):
            with self.subTest(name):
                judge, number = faults_of((stored.DATA / f"candidacy_{name}.toml").read_text())
                self.assertEqual((number, [fault.what for fault in judge.faults]), (39, [told]))
        for name in SENT:
            self.assertEqual(faults_of((stored.DATA / f"candidacy_{name}.toml").read_text())[1], 0, name)
        text = 'router = [{ name = "r", bsr = true, iface = [{ link = "l", address = "10.0.0.1/24" }], %s }]'
        for keys in ('candidate_bsr = { address = "10.0.0.1", priority = 256 }',
                     'candidate_bsr = { address = "10.0.0.1", hash_length = 33 }',
                     'candidate_bsr = { address = "10.0.0.1", limit = 0 }', 'candidate_bsr = { priority = 1 }',
                     'candidate_rp = { address = "10.0.0.1" }', 'choice = "both"', "candidate_rp = 1",
                     'candidate_rp = { address = "10.0.0.1", ranges = ["10.0.0.0/8"] }',
                     'candidate_rp = { address = "10.0.0.1", ranges = ["224.0.0.0/3"] }'):
            with self.subTest(keys):
                self.assertEqual(faults_of(text % keys)[1], 39)


if __name__ == "__main__":
    unittest.main()
