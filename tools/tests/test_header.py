"""The headers declare what the library's crate does: its calls, and each value's size, places and types. What a
compiled program and a library have to agree on has a number, which is another one wherever any of it changes. The
headers stand beside FRR's."""
import os
import re
import shutil
import subprocess
import tempfile
import unittest
from pathlib import Path

from upkeep import declared

CC = os.environ.get("CC", "cc")
# Where FRR's own headers are: those that its package for developers installs, or its sources.
FRR = [Path(path) for path in (os.environ.get("FRR_SOURCES", ""), "/usr/include/frr", "/usr/src/frr") if path]
FRR_HEADERS = "\n".join(f"#include <{name}>" for name in ("zebra.h", "pimd/pim_instance.h", "pimd/pim_iface.h"))
BESIDE_FRR = """
#include <viqeshor/viqeshor.h>
#include <viqeshor/plane.h>
{headers}
struct viq_router *ours;
struct viq_interface our_interface;
struct pim_interface *theirs;
struct pim_router *their_router;
"""
# As FRR's pimd/pim_iface.h, pim_instance.h, pim_str.h and pim_rp.h name them.
NAMES_OF_FRR = """
struct pim_interface { int pim_enable; };
struct pim_router { int vrf_id; };
struct pim_instance { struct pim_router *router; };
struct pim_neighbor;
struct pim_rpf;
#define PIM_VERSION 2
#define PIM_NEVER 1
enum pim_rpf_result { PIM_RPF_OK = 0 };
extern struct pim_router *router;
"""


def complaint(header=None, plane=None, core=None):
    """What a compiler says of the assertions over the headers; nothing where they hold."""
    texts = {"viqeshor/viqeshor.h": header, "viqeshor/plane.h": plane, "core.h": core}
    kept = dict(zip(texts, [*declared.HEADERS, declared.CORE]))
    with tempfile.TemporaryDirectory() as room:
        (Path(room) / "viqeshor").mkdir()
        for name, text in texts.items():
            (Path(room) / name).write_text(text or kept[name].read_text())
        (Path(room) / "holds.c").write_text(declared.assertions())
        words = [CC, "-std=c11", "-Wall", "-Werror", "-I", room, "-fsyntax-only", f"{room}/holds.c"]
        return subprocess.run(words, capture_output=True, text=True).stderr


def compiled(text, *flags):
    with tempfile.TemporaryDirectory() as room:
        (Path(room) / "program.c").write_text(text)
        words = [
            CC,
            "-std=gnu11",
            *flags,
            "-I",
            declared.TOP / "include",
            "-c",
            "-o",
            f"{room}/program.o",
            f"{room}/program.c",
        ]
        return subprocess.run(words, capture_output=True, text=True)


@unittest.skipUnless(shutil.which(CC), "there is no C compiler")
class Header(unittest.TestCase):
    header, plane = (path.read_text() for path in declared.HEADERS)
    core = declared.CORE.read_text()

    def test_it_declares_what_the_crate_does(self):
        self.assertEqual(complaint(), "")

    def test_it_has_the_same_calls(self):
        self.assertEqual(declared.called(self.core), {name for name, _ in declared.calls()})

    def test_each_call_of_the_crate_has_one_of_the_header(self):
        for name in declared.called(self.core):
            self.assertIn(name.replace("viq_core_", "viq_") + "(", self.header + self.plane)

    def test_each_other_header_is_found(self):
        changes = [
            ("core", "uint32_t draw, uint32_t iface, const uint8_t", "uint32_t draw, uint64_t iface, const uint8_t"),
            ("core", "bool viq_core_cached(", "uint32_t viq_core_cached("),
            (
                "core",
                "draw, const struct viq_range *ranges, size_t count",
                "draw, struct viq_range *ranges, size_t count",
            ),
            ("header", "uint32_t prefix; /* with", "uint64_t prefix; /* with"),
            ("header", "    bool has_tunnel;                   /*", "    uint8_t has_tunnel;                /*"),
            ("header", "        struct viq_rpt_row rpt; ", "        struct viq_source_row rpt; "),
            ("plane", "    bool is_known;  ", "    uint8_t is_known;  "),
        ]
        for where, old, new in changes:
            with self.subTest(new):
                text = getattr(self, where)
                self.assertEqual(text.count(old), 1)
                self.assertIn("static assertion failed", complaint(**{where: text.replace(old, new)}))

    def test_each_kind_of_row_is_handed_on(self):
        row = re.search(r"^struct viq_row \{\n(.*?)^\};", self.header, re.M | re.S)[1]
        members = re.findall(r"struct viq_\w+ (\w+); +/\* ([A-Z]) \*/", row)
        self.assertEqual([name for name, _ in members], [name for name, _ in declared.row_members()])
        text = (declared.CORE.parent / "calls.c").read_text()
        for name, letter in members:
            self.assertIn(f"case '{letter}': row->of.{name} = told.{name}; break;", text)

    def test_fields_that_changed_places_are_found(self):
        low, high = (
            "    uint64_t low;  /* 0 to 63, the lowest bit first */\n",
            "    uint64_t high; /* 64 to 119, the lowest bit first */\n",
        )
        self.assertIn(low + high, self.header)
        self.assertIn("static assertion failed", complaint(self.header.replace(low + high, high + low)))


class Abi(unittest.TestCase):
    headers = [path.read_text() for path in declared.HEADERS]

    def test_the_number_stands_for_what_the_headers_have(self):
        """Where it fails: `dev/tables --write` raises VIQ_ABI, and writes what it stands for."""
        self.assertEqual(declared.abi_text(self.headers), declared.ABI.read_text())

    def test_the_bindings_have_the_same_number(self):
        number = declared.abi_number(self.headers)
        self.assertIn(f"\nABI = {number}\n", (declared.TOP / "bindings/python/src/viqeshor/__init__.py").read_text())
        self.assertIn(f"pub const ABI: u32 = {number};", (declared.TOP / "bindings/rust/src/lib.rs").read_text())

    def test_each_change_is_found(self):
        header, plane = self.headers
        for old, new in (
            ("    uint32_t rpf;  ", "    uint64_t rpf;  "),
            ("VIQ_FULL = 24", "VIQ_FULL = 29"),
            ("#define VIQ_MOST_BYTES 1528", "#define VIQ_MOST_BYTES 1600"),
            (
                "struct viq_router *router, uint32_t iface, struct viq_draw draw);",
                "struct viq_router *router, uint64_t iface, struct viq_draw draw);",
            ),
            ("    bool is_rpt; ", "    bool is_tree; "),
            ("struct viq_rpt_row rpt; ", "struct viq_rpt_row tree; "),
        ):
            with self.subTest(new):
                self.assertIn(old, header)
                self.assertNotEqual(declared.abi_text([header.replace(old, new), plane]), declared.ABI.read_text())

    def test_comments_are_no_change(self):
        header, plane = self.headers
        self.assertEqual(
            declared.abi_text([header.replace("/* An interface goes up, or down. */", "/* Up, or down. */"), plane]),
            declared.ABI.read_text(),
        )

    def test_the_version_is_the_three_numbers(self):
        numbers = (
            self.headers[0].partition(f"VIQ_VERSION_{part} ")[2].split()[0] for part in ("MAJOR", "MINOR", "PATCH")
        )
        self.assertIn(f'#define VIQ_VERSION "{".".join(numbers)}"', self.headers[0])


@unittest.skipUnless(shutil.which(CC), "there is no C compiler")
class BesideFrr(unittest.TestCase):
    def test_the_names_of_frr_are_free(self):
        for order in (NAMES_OF_FRR + BESIDE_FRR.format(headers=""), BESIDE_FRR.format(headers=NAMES_OF_FRR)):
            self.assertEqual(compiled(order, "-Wall", "-Werror").stderr, "")

    def test_the_headers_of_frr_stand_beside(self):
        top = next((path for path in FRR if (path / "pimd" / "pim_iface.h").exists()), None)
        if top is None:
            self.skipTest(
                "there are no headers of FRR's pimd; FRR_SOURCES may name a folder that has them, "
                "and FRR_CFLAGS what they want"
            )
        flags = [
            "-I",
            top,
            "-I",
            top / "lib",
            "-I",
            top / "pimd",
            "-include",
            top / "config.h",
            "-DHAVE_CONFIG_H",
            "-D_GNU_SOURCE",
            "-DPIM_IPV=4",
            *os.environ.get("FRR_CFLAGS", "").split(),
        ]
        alone = compiled(FRR_HEADERS, *flags)
        if alone.returncode:
            self.skipTest(f"FRR's headers don't compile by themselves: {alone.stderr[:300]}")
        for text in (FRR_HEADERS + BESIDE_FRR.format(headers=""), BESIDE_FRR.format(headers=FRR_HEADERS)):
            beside = compiled(text, *flags)
            self.assertEqual(beside.returncode, 0, beside.stderr)


@unittest.skipUnless(shutil.which(CC), "there is no C compiler")
class Misused(unittest.TestCase):
    """What a compiler has to say of calls that are wrong."""

    def said(self, call, before="return "):
        body = f"{before}{call}; return iface + draw;"
        text = f"uint32_t f(struct viq_router *router, uint32_t iface, uint32_t draw) {{ {body} }}"
        return compiled(f"#include <viqeshor/plane.h>\n{text}", "-Wall", "-Werror").stderr

    def test_a_draw_is_no_interface(self):
        self.assertEqual(self.said("viq_up(router, iface, viq_draw(draw))"), "")
        self.assertIn("incompatible type", self.said("viq_up(router, draw, iface)"))
        self.assertIn("incompatible type", self.said("viq_frame(router, viq_draw(draw), NULL, 0, iface)"))
        self.assertIn("incompatible type", self.said("viq_seen(router, viq_draw(draw), 1, 2, iface)"))

    def test_an_answer_is_read(self):
        self.assertIn("unused", self.said("viq_up(router, iface, viq_draw(draw))", before=""))


if __name__ == "__main__":
    unittest.main()
