"""`tools/why` against the program: good scenarios broken in many ways, and runs with something odd in them.

FILES and SEED in the environment ask for another number of random breaks (300) and for others.
"""
import os
import random
import re
import subprocess
import sys
import tempfile
import unittest
from collections import Counter
from concurrent.futures import ThreadPoolExecutor

from pimtext.causes import notes
from pimtext.files import pimlab
from viqeshor.lab import scenario, toml_lines
from pimtext.causes.diagnosis import Diagnosis
from viqeshor.lab.faults import faults_of
from tests import stored

GOOD = """\
[[router]]
name = "edge"
limit = 1000
spt = "never"
rv = 2
qi = 125
qri = 100
lmqi = 10
routes = [
  "10.9.0.0/16 10.0.0.2 0 110 20",
  "10.8.0.0/16 10.0.0.2 0 110 20",
]
rps = [
  "239.0.0.0/8 10.0.0.2",
  "224.0.0.0/4 10.0.0.2",
]
addresses = [
  "10.255.0.1",
]
anycast = [
  "10.255.0.1 10.0.0.1 10.0.0.2",
]
[[router.iface]]
link = "lan"
address = "10.0.0.1/24"
priority = 7
propagation = 500
override = 2500
[[router.iface]]
link = "home"
address = "10.1.0.1/24"
[[router]]
name = "rp"
[[router.iface]]
link = "lan"
address = "10.0.0.2/24"
[[move]]
do = "up"
router = "edge"
iface = 0
draw = 3
[[move]]
do = "advance"
router = "edge"
moment = 5000
[[move]]
do = "frame"
router = "edge"
iface = 1
hex = "46c0"
[[move]]
do = "unicast"
router = "rp"
hex = ""
[[move]]
do = "routes"
router = "edge"
list = ["10.7.0.0/16 10.0.0.2 0 110 20"]
[[move]]
do = "rps"
router = "edge"
list = ["239.0.0.0/8 10.0.0.2"]
[[move]]
do = "deliver"
router = "rp"
iface = 0
frame = 1
[[move]]
do = "carry"
router = "rp"
frame = 1
[[move]]
do = "reload"
router = "rp"
draw = 9
[move.config]
limit = 77
[[move.config.iface]]
link = "other"
address = "10.0.0.3/24"
[[move]]
do = "settle"
draw = 1
"""

# A line of GOOD, what stands there instead, and the number; None for what is accepted.
BREAKS = [
    ("draw = 9", 'draw = 9\nplaces = ["none", "0"]', None),
    ("draw = 9", "draw = 9\nplaces = []", None),
    ("draw = 9", 'draw = 9\nplaces = ["None"]', 39),
    ("draw = 9", 'draw = 9\nplaces = ["-1"]', 39),
    ("draw = 9", 'draw = 9\nplaces = ["4294967296"]', 39),
    ("draw = 9", "draw = 9\nplaces = [0]", 39),
    ("draw = 9", 'draw = 9\nplaces = "0"', 39),
    ("draw = 9", "draw = 9\nplace = []", 39),
    ('name = "edge"', 'nmae = "edge"', 39),
    ('name = "edge"', "name = edge", 39),
    ('name = "edge"', 'name = "edge', 39),
    ('name = "edge"', "name = 'edge'", None),
    ('name = "edge"', 'name = """edge"""', None),
    ('name = "edge"', 'name = "\\u0065dge"', None),
    ('name = "edge"', 'name = "\\xgdge"', 39),
    ('name = "edge"', '"name" = "edge" # a comment', None),
    ('name = "edge"', 'name = "edge" "edge"', 39),
    ('name = "edge"', 'name "edge"', 39),
    ('name = "edge"', 'name.first = "edge"', 39),
    ('name = "rp"', 'name = "edge"', 39),
    ('name = "rp"', 'name = "rp"\nname = "rp"', 39),
    ("limit = 1000", "limit = 0", 34),
    ("limit = 1000", "limit = 1_000_000", None),
    ("limit = 1000", "limit = 1000001", 34),
    ("limit = 1000", "limit = 4294967296", 39),
    ("limit = 1000", "limit = -1", 39),
    ("limit = 1000", "limit = 0x10", None),
    ("limit = 1000", "limit = +10", None),
    ("limit = 1000", "limit = 010", 39),
    ("limit = 1000", "limit = 1_", 39),
    ("limit = 1000", "limit = 10.0", 39),
    ("limit = 1000", "limit = 1e3", 39),
    ("limit = 1000", 'limit = "1000"', 39),
    ("limit = 1000", "limit = true", 39),
    ("limit = 1000", "limit = 2026-01-01", 39),
    ("limit = 1000", "limit = 9223372036854775808", 39),
    ('spt = "never"', 'spt = "Always"', 39),
    ('spt = "never"', "spt = 1", 39),
    ('spt = "never"', 'older_hosts = "none"', None),
    ('spt = "never"', 'older_hosts = "v2"', None),
    ('spt = "never"', 'older_hosts = "all"', None),
    ('spt = "never"', 'older_hosts = "v1"', 39),
    ('spt = "never"', "older_hosts = true", 39),
    ('spt = "never"', 'old_hosts = "all"', 39),
    ("rv = 2", "rv = 1", 35),
    ("rv = 2", "rv = 8", 35),
    ("qi = 125", "qi = 0", 35),
    ("qri = 100", "qri = 1250", 35),
    ("qri = 100", "qri = 1249", None),
    ("lmqi = 10", "lmqi = 256", 35),
    ("lmqi = 10", "lqmi = 10", 39),
    ('  "10.9.0.0/16 10.0.0.2 0 110 20",', '  "10.9.0.0/16 10.0.0.2 0 110",', 39),
    ('  "10.9.0.0/16 10.0.0.2 0 110 20",', '  "10.9.0.0/16\\t10.0.0.2  0 110 20 ",', None),
    ('  "10.9.0.0/16 10.0.0.2 0 110 20",', '  "10.9.0.0/16 10.0.0.2 0 110 20"', 39),
    ('  "10.9.0.0/16 10.0.0.2 0 110 20",', '  "10.9.0.0 10.0.0.2 0 110 20",', 39),
    ('  "10.9.0.0/16 10.0.0.2 0 110 20",', '  "10.9.0.1/16 10.0.0.2 0 110 20",', 37),
    ('  "10.9.0.0/16 10.0.0.2 0 110 20",', '  "10.9.0.0/33 10.0.0.2 0 110 20",', 37),
    ('  "10.9.0.0/16 10.0.0.2 0 110 20",', '  "10.9.0.0/16 10.0.0.1 0 110 20",', 37),
    ('  "10.9.0.0/16 10.0.0.2 0 110 20",', '  "10.9.0.0/16 224.0.0.1 0 110 20",', 37),
    ('  "10.9.0.0/16 10.0.0.2 0 110 20",', '  "10.9.0.0/16 10.0.0.2 2 110 20",', 37),
    ('  "10.9.0.0/16 10.0.0.2 0 110 20",', '  "10.9.0.0/16 10.0.0.2 0 2147483647 20",', 37),
    ('  "10.9.0.0/16 10.0.0.2 0 110 20",', '  "10.9.0.0/16 10.0.0.2 0 -1 20",', 39),
    ('  "10.9.0.0/16 10.0.0.2 0 110 20",', '  "10.9.0.0/16 10.0.0.2 0 007 20",', None),
    ('  "10.8.0.0/16 10.0.0.2 0 110 20",', '  "10.9.0.0/16 10.0.0.2 1 110 20",', 37),
    ('  "239.0.0.0/8 10.0.0.2",', '  "239.0.0.0/8",', 39),
    ('  "239.0.0.0/8 10.0.0.2",', '  "239.0.0.0/8 0.0.0.0",', 38),
    ('  "239.0.0.0/8 10.0.0.2",', '  "239.0.0.1/8 10.0.0.2",', 38),
    ('  "224.0.0.0/4 10.0.0.2",', '  "224.0.0.0/3 10.0.0.2",', 38),
    ('  "224.0.0.0/4 10.0.0.2",', '  "10.0.0.0/8 10.0.0.2",', 38),
    ('  "224.0.0.0/4 10.0.0.2",', "  5,", 39),
    ('  "10.9.0.0/16 10.0.0.2 0 110 20",', '  "10.9.0.0/16 10.255.0.1 0 110 20",', 37),
    ('  "10.255.0.1",', '  "0.0.0.0",', 70),
    ('  "10.255.0.1",', '  "239.1.1.1",', 70),
    ('  "10.255.0.1",', '  "10.255.0.1", "10.255.0.1",', 70),
    ('  "10.255.0.1",', '  "10.0.0.1",', 70),
    ('  "10.255.0.1",', '  "10.0.0.77",', 70),
    ('  "10.255.0.1",', f"  {', '.join(repr(f'10.255.0.{n}') for n in range(16))},", None),
    ('  "10.255.0.1",', f"  {', '.join(repr(f'10.255.0.{n}') for n in range(17))},", 70),
    ('  "10.255.0.1",', '  "10.255.0.1/32",', 39),
    ('  "10.255.0.1",', '  "10.255.0.256",', 39),
    ('  "10.255.0.1",', '  " 10.255.0.1",', 39),
    ('  "10.255.0.1",', "  10,", 39),
    ("addresses = [", "address = [", 39),
    ("limit = 77", 'addresses = ["10.255.0.2"]', None),
    ("limit = 77", 'addresses = "10.255.0.2"', 39),
    ('  "10.255.0.1 10.0.0.1 10.0.0.2",', '  "10.255.0.9 10.0.0.1 10.0.0.2",', 74),
    ('  "10.255.0.1 10.0.0.1 10.0.0.2",', '  "10.255.0.1 10.0.0.9 10.0.0.2",', 74),
    ('  "10.255.0.1 10.0.0.1 10.0.0.2",', '  "10.255.0.1 10.255.0.1 10.0.0.2",', 74),
    ('  "10.255.0.1 10.0.0.1 10.0.0.2",', '  "10.255.0.1 10.0.0.1 10.1.0.1",', 74),
    ('  "10.255.0.1 10.0.0.1 10.0.0.2",', '  "10.255.0.1 10.0.0.1 224.0.0.1",', 74),
    ('  "10.255.0.1 10.0.0.1 10.0.0.2",', '  "10.255.0.1 10.0.0.1 10.0.0.2 10.0.0.2",', 74),
    ('  "10.255.0.1 10.0.0.1 10.0.0.2",', '  "10.255.0.1 10.0.0.1", "10.255.0.1 10.1.0.1 10.0.0.2",', 74),
    ('  "10.255.0.1 10.0.0.1 10.0.0.2",', '  "10.255.0.1 10.0.0.1 10.0.0.2", "10.1.0.1 10.0.0.1",', None),
    ('  "10.255.0.1 10.0.0.1 10.0.0.2",', '  "10.255.0.1 10.0.0.1",', None),
    ('  "10.255.0.1 10.0.0.1 10.0.0.2",',
     f"  '10.255.0.1 10.0.0.1{''.join(f' 10.2.0.{n}' for n in range(16))}',", None),
    ('  "10.255.0.1 10.0.0.1 10.0.0.2",', f"  '10.255.0.1 10.0.0.1{''.join(f' 10.2.0.{n}' for n in range(17))}',", 74),
    ('  "10.255.0.1 10.0.0.1 10.0.0.2",', '  "10.255.0.1",', 39),
    ('  "10.255.0.1 10.0.0.1 10.0.0.2",', '  "10.255.0.1 10.0.0.1 10.0.0",', 39),
    ('  "10.255.0.1 10.0.0.1 10.0.0.2",', "  10,", 39),
    ("anycast = [", "anycst = [", 39),
    ("limit = 77", 'anycast = ["10.255.0.1 10.0.0.1 10.0.0.2"]', None),
    ("limit = 77", "anycast = 7", 39),
    ('link = "lan"', "link = 1", 39),
    ('link = "lan"', 'lnk = "lan"', 39),
    ('address = "10.0.0.1/24"', 'address = "10.0.0.1"', 39),
    ('address = "10.0.0.1/24"', 'address = "10.0.0.256/24"', 39),
    ('address = "10.0.0.1/24"', 'address = "10.0.0.01/24"', 39),
    ('address = "10.0.0.1/24"', 'address = "10.0.0.1/ 24"', 39),
    ('address = "10.0.0.1/24"', 'address = "0.0.0.0/24"', 31),
    ('address = "10.0.0.1/24"', 'address = "224.0.0.1/24"', 31),
    ('address = "10.0.0.1/24"', 'address = "10.0.0.1/32"', 32),
    ('address = "10.0.0.1/24"', 'address = "10.0.0.1/0"', 32),
    ('address = "10.0.0.1/24"', 'adress = "10.0.0.1/24"', 39),
    ('address = "10.1.0.1/24"', 'address = "10.0.0.9/16"', 33),
    ("priority = 7", "priority = 4294967295", None),
    ("priority = 7", "priorty = 7", 39),
    ("propagation = 500", "propagation = 32768", 36),
    ("override = 2500", "override = 65536", 36),
    ("override = 2500", "override = 65535", None),
    ('do = "up"', 'do = "upp"', 39),
    ('do = "up"', 'do = "settle"', 39),
    ('do = "up"', "do = 1", 39),
    ("draw = 3", "draw = 4294967296", 39),
    ("draw = 3", "draws = 3", 39),
    ("draw = 3", "moment = 3", 39),
    ("moment = 5000", "moment = -1", 39),
    ("moment = 5000", "moment = 9223372036854775807", None),
    ("moment = 5000", "moment = 5 000", 39),
    ("moment = 5000", "time = 5000", 39),
    ('hex = "46c0"', 'hex = "46c"', 39),
    ('hex = "46c0"', 'hex = "46 c0"', 39),
    ('hex = "46c0"', 'hex = "46Cf"', None),
    ('hex = "46c0"', 'hex = "46cg"', 39),
    ('list = ["10.7.0.0/16 10.0.0.2 0 110 20"]', 'list = "10.7.0.0/16 10.0.0.2 0 110 20"', 39),
    ('list = ["10.7.0.0/16 10.0.0.2 0 110 20"]', 'list = ["10.7.0.0/16 10.0.0.2 9 110 20"]', None),
    ('list = ["239.0.0.0/8 10.0.0.2"]', "list = []", None),
    ('list = ["239.0.0.0/8 10.0.0.2"]', "list = [[]]", 39),
    ("frame = 1", "frame = -1", 39),
    ("draw = 1", 'router = "rp"', 39),
    ("draw = 9", "draw = -9", 39),
    ("draw = 9", "iface = 0", 39),
    ("[move.config]", "[move.setting]", 39),
    ("limit = 77", "limit = -77", 39),
    ("limit = 77", 'name = "rp"', 39),
    ("limit = 77", 'older_hosts = "v1"', 39),
    # A configuration is refused in the run.
    ("limit = 77", "limit = 0", None),
    ('link = "other"', 'lnk = "other"', 39),
    ('address = "10.0.0.3/24"', 'address = "10.0.0.3"', 39),
    ('address = "10.0.0.3/24"', 'address = "224.0.0.3/24"', None),
]
# Whole files.
FILES = [
    ("", 0),
    ("# nothing\n", 0),
    ("router = []\nmove = []\n", 0),
    ("routers = []\n", 39),
    ("router = 5\n", 39),
    ('[router]\nname = "a"\n', 39),
    ('[[router]]\nname = "a"\niface = []\n', 30),
    ('[[router]]\nname = "a"\n', 39),
    ('[[router]]\nname = "a"\n[router.iface]\nlink = "x"\naddress = "10.0.0.1/24"\n', 39),
    ('router = [{ name = "a", iface = [{ link = "x",\n address = "10.0.0.1/24", }] }] # a table over lines\n', 0),
    ('move = [{ do = "settle" }, 5]\n', 39),
    ("move = [{ do = \"settle\" } { do = \"settle\" }]\n", 39),
    ("\ufeff[[move]]\ndo = 'settle'\r\n", 0),
    ("[[move]]\rdo = 'settle'\n", 39),
    ("[[move]]\ndo = '''\nsettle'''\n", 0),
    ('[[move]]\ndo = """\\\n   settle"""\n', 0),
    ("[[move]]\ndo = 'settle'\n[move]\ndraw = 1\n", 39),
    ("move.do = 'settle'\n", 39),
    ("[[move]]\n do = 'settle'\n[[move.do]]\n", 39),
    ("move = [" + "[" * 90 + "]" * 90 + "]\n", 39),
    (
        "".join(
            f'[[router]]\nname = "r{n}"\niface = [{{ link = "l{n}", address = "10.{n}.0.1/24" }}]\n' for n in range(64)
        ),
        0,
    ),
    (
        "".join(
            f'[[router]]\nname = "r{n}"\niface = [{{ link = "l{n}", address = "10.{n}.0.1/24" }}]\n' for n in range(65)
        ),
        39,
    ),
    (
        '[[router]]\nname = "a"\niface = ['
        + "".join(f'{{ link = "x", address = "10.{n}.0.1/24" }},' for n in range(120))
        + "]\n",
        0,
    ),
    (
        '[[router]]\nname = "a"\niface = ['
        + "".join(f'{{ link = "x", address = "10.{n}.0.1/24" }},' for n in range(121))
        + "]\n",
        30,
    ),
    (
        '[[router]]\nname = "a"\nlimit = 0\niface = [{ link = "x", address = "10.0.0.1/24" }]\n'
        '[[router]]\nname = "b"\niface = []\n',
        34,
    ),
]


def program_says(text):
    """The number with which `pimlab check` refuses a text, 0 where it takes it."""
    with tempfile.NamedTemporaryFile("w", suffix=".toml", newline="", encoding="utf-8") as file:
        file.write(text)
        file.flush()
        ran = subprocess.run([pimlab.playing(), "check", file.name], capture_output=True, text=True)
    told = re.fullmatch(r"pimlab: scenario refused: (\d+)\n", ran.stderr)
    if ran.returncode and not told:
        raise RuntimeError(f"pimlab check fails: {ran.stderr}")
    return int(told[1]) if told else 0


def breaks():
    """The known breaks as (text, number, line)."""
    lines = GOOD.splitlines()
    for before, after, number in BREAKS:
        at = lines.index(before)
        yield "\n".join([*lines[:at], after, *lines[at + 1 :]]) + "\n", number or 0, at + 1
    for text, number in FILES:
        yield text, number, None
    # Each line left out: most are keys that must be there, some aren't.
    for at in range(len(lines)):
        yield "\n".join([*lines[:at], *lines[at + 1 :]]) + "\n", None, None


VALUES = [
    '"up"',
    '""',
    "0",
    "-1",
    "4294967295",
    "4294967296",
    "1.5",
    "true",
    "[]",
    "{}",
    "2026-01-01",
    "01",
    '"10.0.0.1/24"',
    "[1]",
    "nothing",
    "",
]


def broken(text, random_of):
    """A random break of a text."""
    how = random_of.randrange(8)
    lines = text.splitlines(True)
    at = random_of.randrange(len(lines))
    if how == 0:
        del lines[at]
    elif how == 1:
        lines.insert(at, lines[random_of.randrange(len(lines))])
    elif how == 2:
        pairs = list(re.finditer(r'= ("[^"\n]*"|[0-9]+)', text))
        pair = random_of.choice(pairs)
        return text[: pair.start(1)] + random_of.choice(VALUES) + text[pair.end(1) :]
    elif how in (3, 4):
        marks = [found.start() for found in re.finditer(r'["\[\]{}=,.#/]', text)]
        at = random_of.choice(marks)
        return text[:at] + ("" if how == 3 else random_of.choice('"[]{}=,#. \n')) + text[at + 1 :]
    elif how == 5:
        words = list(re.finditer(r"\b[a-z]+(?= =)", text))
        word = random_of.choice(words)
        other = random_of.choice([word[0][:-1], word[0] + "s", word[0].upper(), random_of.choice(words)[0]])
        return text[: word.start()] + other + text[word.end() :]
    elif how == 6:
        digits = [found.start() for found in re.finditer(r"[0-9a-f]", text)]
        at = random_of.choice(digits)
        return text[:at] + random_of.choice("0123456789abcdefxyz -") + text[at + 1 :]
    else:
        other = random_of.randrange(len(lines))
        lines[at], lines[other] = lines[other], lines[at]
    return "".join(lines)


def random_breaks(count, seed):
    random_of = random.Random(seed)
    good = [GOOD] + [path.read_text() for path in sorted(stored.EXAMPLES.glob("*.toml"))]
    for at in range(count):
        text = good[at % len(good)]
        for _ in range(random_of.choice((1, 1, 1, 2))):
            text = broken(text, random_of)
        yield text, None, None


def judged(case):
    """What is wrong with the answer of `why`, if anything, and the program's number."""
    text, number, line = case
    judge, answer = faults_of(text)
    wanted = program_says(text)
    lines = [fault.line for fault in judge.faults]
    if number is not None and wanted != number:
        return f"the program says {wanted}, and {number} was thought", wanted
    if answer != wanted:
        return f"why says {answer}, the program {wanted}", wanted
    if bool(judge.faults) != bool(wanted):
        return f"{len(judge.faults)} faults, and {wanted}", wanted
    if lines and not 1 <= min(lines) <= max(lines) <= text.count("\n") + 1:
        return f"the lines {lines} aren't in the file", wanted
    if wanted and line is not None and not any(line <= at <= line + 1 for at in lines):
        return f"the break is in line {line}, and told are {lines}", wanted
    return None, wanted


class Refused(unittest.TestCase):
    def compare(self, cases):
        """Every case is judged as the program does; answers how many have which number."""
        # The first call may build.
        program_says("")
        with ThreadPoolExecutor(2) as pool:
            answers = list(pool.map(judged, cases))
        for (text, _, _), (wrong, _) in zip(cases, answers):
            with self.subTest(wrong):
                self.assertIsNone(wrong, text)
        return Counter(number for _, number in answers)

    def test_known_breaks_are_found_in_their_lines(self):
        numbers = self.compare(list(breaks()))
        self.assertEqual(set(numbers), {0, *range(30, 40), 70, 74})
        self.assertGreater(sum(numbers.values()) - numbers[0], 130)

    def test_random_breaks_are_found_where_the_program_refuses(self):
        count, seed = int(os.environ.get("FILES", 300)), int(os.environ.get("SEED", 1))
        numbers = self.compare(list(random_breaks(count, seed)))
        print(f"{count} files: {dict(sorted(numbers.items()))}", file=sys.stderr)
        self.assertGreater(sum(numbers.values()) - numbers[0], count // 3)

    def test_stored_scenarios_are_judged_as_stored(self):
        for path in sorted(stored.DATA.glob("*.toml")):
            told = path.with_suffix(".err")
            number = re.search(r"scenario refused: (\d+)", told.read_text()) if told.exists() else None
            try:
                text = path.read_bytes().decode()
            except UnicodeDecodeError:
                continue
            with self.subTest(path.name):
                self.assertEqual(faults_of(text)[1], int(number[1]) if number else 0)


# A run in which everything is as it should be: two routers, and a host that asks for a group.
RUN = """\
router = [
  { name = "hub", rps = ["239.0.0.0/8 10.0.0.2"], iface = [{ link = "lan", address = "10.0.0.2/24" }] },
  { name = "edge", rps = ["239.0.0.0/8 10.0.0.2"], iface = [
    { link = "lan", address = "10.0.0.1/24" },
    { link = "home", address = "10.3.0.1/24" },
  ] },
]
move = [
  { do = "up", router = "hub", iface = 0, draw = 1 },
  { do = "up", router = "edge", iface = 0, draw = 2 },
  { do = "up", router = "edge", iface = 1, draw = 3 },
  { do = "advance", router = "hub", moment = 5000 },
  { do = "advance", router = "edge", moment = 5000 },
  { do = "settle" },
  { do = "frame", router = "edge", iface = 1, \
hex = "46c0002800000000010239aa0a03004de0000016940400002200e9fb0000000104000000ef010101" },
  { do = "settle" },
]
"""
# What is changed in it, and what is noted then.
ODD = [
    ('{ do = "advance", router = "hub", moment = 5000 },\n', "", "2: router hub is never advanced"),
    (
        '{ do = "advance", router = "hub", moment = 5000 },\n',
        "",
        "hub (10.0.0.2) on lan, the next hop of edge towards the RP 10.0.0.2, is no neighbour",
    ),
    (
        '"hub", moment = 5000',
        '"hub", moment = 1',
        "no Hello has left interface 0: it leaves by moment 5000, and the router was advanced to 1",
    ),
    ('{ do = "up", router = "edge", iface = 1, draw = 3 },\n', "", "interface 1 (link home) never goes up"),
    (
        '{ do = "up", router = "edge", iface = 1, draw = 3 },\n',
        "",
        "move 6 (frame), router edge: it was refused 23 (InterfaceDown)",
    ),
    ('iface = 1, draw = 3', "iface = 0, draw = 3", "it was ignored (Already)"),
    (
        'iface = 1, draw = 3',
        "iface = 2, draw = 3",
        "refused 22 (NoInterface): the router has no interface of this number; they are counted from 0, and it has 2",
    ),
    (
        '"edge", rps = ["239.0.0.0/8',
        '"edge", rps = ["238.0.0.0/8',
        "router edge has no RP for 239.1.1.1, which other routers have",
    ),
    (
        '"edge", rps = ["239.0.0.0/8 10.0.0.2',
        '"edge", rps = ["239.0.0.0/8 10.9.9.9',
        "no router has the address 10.9.9.9, and edge no route to it",
    ),
    (
        '  { do = "settle" },\n]',
        '  { do = "deliver", router = "hub", iface = 0, frame = 99 },\n]',
        "there is no packet 99 yet: 8 were sent before",
    ),
    (
        '  { do = "settle" },\n]',
        '  { do = "deliver", router = "hub", iface = 0, frame = 3 },\n]',
        "packet 3 was sent on the link home, and interface 0 is on lan",
    ),
    ('  { do = "settle" },\n]', "]", "2 packets reach nobody"),
    (
        '  { do = "settle" },\n]',
        '  { do = "routes", router = "hub", list = ["10.3.0.1/24 10.0.0.1 0 1 1"] },\n]',
        "10.3.0.1/24 has host bits set: 10.3.0.0/24 is the prefix",
    ),
    (
        '  { do = "settle" },\n]',
        '  { do = "rps", router = "hub", list = ["10.0.0.0/8 10.0.0.2"] },\n]',
        "10.0.0.0/8 isn't inside 224.0.0.0/4",
    ),
]


class Odd(unittest.TestCase):
    def noted(self, text):
        judge, number = faults_of(text)
        self.assertEqual(number, 0)
        played = scenario.scenario_of(toml_lines.plain(toml_lines.read(text)))
        return Diagnosis(judge, played, pimlab.run_text(text)).lines()

    def test_nothing_is_odd_in_a_good_run(self):
        self.assertEqual(self.noted(RUN), [])

    def test_what_is_odd_is_noted(self):
        for before, after, wanted in ODD:
            self.assertEqual(RUN.count(before), 1, before)
            said = self.noted(RUN.replace(before, after))
            with self.subTest(wanted):
                self.assertTrue(any(wanted in note for note in said), said)

    def test_a_settle_that_stops_at_its_limit_is_noted(self):
        names = [f"r{number}" for number in range(1, 65)]
        links = [[{"link": "lan", "address": f"10.0.0.{number}/24"}] for number in range(1, 65)]
        routers = [{"name": name, "iface": link} for name, link in zip(names, links)]
        moves = [{"do": "up", "router": name, "iface": 0} for name in names]
        moves += [{"do": "advance", "router": name, "moment": 40_000} for name in names]
        said = self.noted(scenario.text_of(routers, [*moves, {"do": "settle"}]))
        self.assertTrue(
            any("move 129 (settle) stopped at its limit of 10000 deliveries" in note for note in said), said
        )

    def test_what_a_refusal_by_the_limit_took_along_is_noted(self):
        wanted = {
            "a_join_that_names_too_much": "(*, 239.1.1.1) until 30.000 s, (*, 239.1.1.2) until 30.000 s",
            "a_report_that_names_too_much": "(*, 239.1.1.1) until 25.000 s, (*, 239.1.1.2) until 25.000 s",
            "a_stream_without_a_fact_is_cut": None,
        }
        for name, rows in wanted.items():
            said = [
                note for note in self.noted((stored.DATA / f"{name}.toml").read_text()) if "refused 24 (Full)" in note
            ]
            with self.subTest(name):
                self.assertEqual(len(said), 1)
                self.assertEqual(said[0].splitlines()[0].partition("as if it hadn't come: ")[2], rows or "")

    def test_each_stored_run_can_be_noted(self):
        for path, lines in stored.played():
            text = path.read_text()
            judge, _ = faults_of(text)
            with self.subTest(path.name):
                Diagnosis(judge, scenario.scenario_of(toml_lines.plain(toml_lines.read(text))), lines).lines()


class Words(unittest.TestCase):
    def test_every_refusal_and_reason_of_a_move_has_its_meaning(self):
        scenarios = (stored.TOOLS.parent / "docs" / "SCENARIOS.md").read_text()
        refusals = scenarios.partition("## Refusals")[2].partition("## Reasons")[0]
        # Those of a packet, of a timestamp and of an interface; of reloads those of a map of places and of sets.
        numbers = {number for number in re.findall(r"^\| (\d+) \|", refusals, re.M) if int(number) < 25}
        numbers |= {"73", "74"}
        reasons = set(
            re.findall(r"^\| `([A-Z]\w+)` \| ", scenarios.partition("## Reasons to ignore")[2].partition("##")[0], re.M)
        )
        self.assertEqual(set(notes.MEANINGS), numbers | reasons)


if __name__ == "__main__":
    unittest.main()
