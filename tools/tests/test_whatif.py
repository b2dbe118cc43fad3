"""Failures of a network, one after the other, and the lab's prompt."""
import io
import json
import os
import shutil
import signal
import subprocess
import sys
import tempfile
import time
import unittest
from pathlib import Path

from tests import stored

sys.path.append(str(stored.TOOLS / "networks"))
from pimtext import failing  # noqa: E402
from pimtext.shown import live  # noqa: E402

LAN = """
from lab import Network
net = Network()
net.link("core", "east"); net.link("core", "west")
net.link("east", "west", name="lan").configure("east", priority=10)
net.rp("core")
camera, viewer = net.host("camera", "core"), net.host("viewer", "lan")
net.run(10)
viewer.join("239.1.1.1")
net.run(5)
camera.stream("239.1.1.1", times=3)
net.run(5)
"""


def whatif(text, *words):
    with tempfile.TemporaryDirectory(prefix="whatif-") as folder:
        path = Path(folder) / "net.py"
        path.write_text(text)
        return subprocess.run([stored.TOOLS / "whatif", path, *words], capture_output=True, text=True)


class Outages(unittest.TestCase):
    def outage(self, came):
        return failing.Outage("host", failing.Stream("source", "239.1.1.1"), list(range(len(came))), came)

    def test_runs_of_lost_packets(self):
        outage = self.outage([1, 0, 0, 1, 2, 0, 1])
        self.assertEqual(outage.gaps(), [(1, 3), (5, 6)])
        self.assertEqual(outage.served_again(), 6)
        self.assertEqual((outage.lost, outage.twice, outage.longest(), outage.is_for_good()), (3, 1, (2, False), False))

    def test_what_does_not_come_again(self):
        outage = self.outage([1, 1, 0, 0])
        self.assertEqual(outage.gaps(), [(2, None)])
        self.assertTrue(outage.is_for_good())

    def test_no_loss(self):
        self.assertEqual(self.outage([1, 1]).longest(), (0, False))

    def test_all_are_served_again_by_the_last_that_has_a_way(self):
        """A host without a way doesn't count, nor does when one that is lost for good was served in between."""
        some, cut_off = self.outage([1, 0, 1, 0, 1]), self.outage([1, 0, 0, 0, 0])
        cut_off.is_cut_off = True
        self.assertEqual(failing.Effect(None, [some, self.outage([0, 1, 1]), cut_off]).served_again(), 4)
        self.assertIsNone(failing.Effect(None, [some, self.outage([0, 1, 0])]).served_again())
        self.assertEqual(failing.Effect(None, [cut_off]).served_again(), 0)


class WhatIf(unittest.TestCase):
    def test_the_failures_of_a_network_with_two_routers_on_a_lan(self):
        """The DR of the hosts' LAN falls silent: its neighbour waits 105 s from its last Hello on, and no longer."""
        ran = whatif(LAN, "--each", "--kind", "router")
        self.assertEqual((ran.returncode, ran.stderr), (0, ""))
        self.assertIn("3 failures; 1 streams to hosts come without one", ran.stdout)
        east = next(line for line in ran.stdout.splitlines() if line.strip().startswith("router east"))
        seconds, again = (int(east.split()[place]) for place in (-6, -4))
        self.assertTrue(75 <= seconds <= again <= 105, east)
        self.assertIn("nobody loses anything by 1: router west", ran.stdout)
        self.assertRegex(ran.stdout, r"router core \(RP of 224.0.0.0/4\) +- +- +- +- +- +viewer")
        self.assertIn("router core (RP of 224.0.0.0/4): viewer is cut off", ran.stdout)

    def test_a_stream_that_never_came_is_no_failures_doing(self):
        ran = whatif(LAN.replace('net.rp("core")', 'net.rp("core", "238.0.0.0/8")'), "--kind", "link")
        self.assertIn("without any failure", ran.stdout)
        self.assertIn("no host gets a whole stream even without a failure", ran.stderr)

    def test_nobody_has_sent(self):
        ran = whatif(LAN.replace("camera.stream", "# camera.stream"))
        self.assertEqual(ran.returncode, 1)
        self.assertIn("no host of", ran.stderr)

    def test_a_page_of_the_worst(self):
        with tempfile.TemporaryDirectory(prefix="whatif-") as folder:
            out = Path(folder) / "worst.html"
            ran = whatif(LAN, "--kind", "router", "--for", "30", "-o", out)
            self.assertIn("has the worst: router east", ran.stdout)
            self.assertIn("<title>router east beside no failure</title>", out.read_text())


    def test_each_is_told_as_it_ends_and_what_is_left(self):
        lines = whatif(LAN, "--kind", "router").stdout.splitlines()
        self.assertEqual([line[:8] for line in lines[:3]], ["1 of 3: ", "2 of 3: ", "3 of 3: "])
        self.assertRegex(lines[0], r"; 2 left, about [0-9]+ s$")
        self.assertTrue(lines[2].endswith("; none left"), lines[2])

    def test_ctrl_c_tells_the_worst_so_far(self):
        with tempfile.TemporaryDirectory(prefix="whatif-") as folder:
            path = Path(folder) / "net.py"
            path.write_text(LAN)
            words = [stored.TOOLS / "whatif", path, "--jobs", "1", "--for", "2000"]
            # What a shell runs beside itself ignores ctrl-c, and so would what it starts.
            heeds = lambda: signal.signal(signal.SIGINT, signal.SIG_DFL)
            with subprocess.Popen(words, stdout=subprocess.PIPE, text=True, start_new_session=True,
                                  preexec_fn=heeds) as running:
                first = running.stdout.readline()
                os.killpg(running.pid, signal.SIGINT)
                lines = [first, *running.stdout]
        self.assertRegex(first, r"^1 of ([0-9]+): ")
        (ended,) = [line for line in lines if line.startswith("ended after ")]
        count = int(ended.split()[2])
        self.assertLess(count, int(first.split()[2].rstrip(":")))
        self.assertIn(f"{count} failures; 1 streams to hosts come without one\n", lines)


@unittest.skipUnless(shutil.which("dask-scheduler"), "python3-distributed isn't installed")
class Dask(unittest.TestCase):
    """A scheduler and two workers on this machine."""

    def started(self, *words):
        running = subprocess.Popen(words, stdout=subprocess.DEVNULL, stderr=subprocess.DEVNULL)
        self.addCleanup(running.wait)
        self.addCleanup(running.terminate)
        return running

    def address(self, told):
        """Where the scheduler is, once it has told it."""
        end = time.monotonic() + 60
        while time.monotonic() < end:
            if told.exists() and told.read_text().strip():
                return json.loads(told.read_text())["address"]
            time.sleep(0.1)
        self.fail("the scheduler doesn't start")

    def test_a_worker_that_ends_in_the_middle_changes_nothing(self):
        folder = tempfile.TemporaryDirectory(prefix="whatif-")
        self.addCleanup(folder.cleanup)
        path, told = Path(folder.name) / "net.py", Path(folder.name) / "scheduler.json"
        path.write_text(LAN)
        host = ["--host", "127.0.0.1", "--no-dashboard"]
        self.started("dask-scheduler", *host, "--port", "0", "--scheduler-file", told)
        worker = ["dask-worker", self.address(told), *host, "--nthreads", "1", "--no-nanny"]
        workers = [self.started(*worker, "--local-directory", folder.name) for _ in range(2)]
        words = [stored.TOOLS / "whatif", path, "--dask", self.address(told)]
        with subprocess.Popen(words, stdout=subprocess.PIPE, stderr=subprocess.PIPE, text=True) as running:
            lines = [running.stdout.readline()]
            workers[0].kill()
            lines += running.stdout
            self.assertEqual(running.wait(), 0, running.stderr.read())
        own = whatif(LAN).stdout.splitlines()
        count = int(own[0].split()[2].rstrip(":"))
        each = [[line.split(": ")[1] for line in all_of[:count]] for all_of in (lines, own)]
        self.assertEqual(len(set(each[0])), count)
        self.assertEqual(sorted(each[0]), sorted(each[1]))
        here, there = ([line.strip() for line in all_of[count:] if line[:6] != "nobody"] for all_of in (lines, own))
        self.assertEqual(sorted(here), sorted(there))


class Prompt(unittest.TestCase):
    def said(self, *lines):
        out = io.StringIO()
        prompt = live.Prompt(out=Path(self.folder.name) / "live.html",
                             stdin=io.StringIO("\n".join([*lines, "quit", ""])), stdout=out)
        prompt.use_rawinput, prompt.intro, prompt.prompt = False, "", ""
        prompt.cmdloop()
        return out.getvalue()

    def setUp(self):
        self.folder = tempfile.TemporaryDirectory(prefix="live-")
        self.addCleanup(self.folder.cleanup)

    BEGIN = "line r1 r2 r3 / rp r2 / host camera r1 / host viewer r3 / run 10 / join viewer 239.1.1.1"

    def test_a_network_is_built_run_and_broken(self):
        told = self.said(self.BEGIN, "stream camera 239.1.1.1 5", "run 6", "tree 239.1.1.1 camera", "down r2-r3",
                         "stream camera 239.1.1.1 3", "run 5", "served viewer 239.1.1.1 camera", "why", "show r3")
        self.assertIn("viewer: 5 packets, the last one of 10.0.4.101 by r1 r2 r3", told)
        self.assertIn("r3: from r2-r3 to viewer", told)
        self.assertIn("isn't served", told)
        self.assertIn("the link r2-r3 is down", told)
        self.assertIn("show ip mroute", told)

    def test_packets_of_one_kind_are_lost(self):
        """All Joins of the last router are lost from the beginning: nothing comes, and it is told that they are."""
        told = self.said("line r1 r2 r3 / rp r2 / host camera r1 / host viewer r3 / run 10",
                         "lose 100% of Joins on r2-r3 from r3",
                         "join viewer 239.1.1.1 / stream camera 239.1.1.1 3", "run 5", "served viewer 239.1.1.1 camera",
                         "lose 0% of Joins on r2-r3 from r3", "run 60", "send camera 239.1.1.1 late", "run 2",
                         "lose 5% of jam on r2-r3")
        self.assertIn("isn't served", told)
        self.assertIn("viewer: 1 packet, the last one of 10.0.4.101 by r1 r2 r3", told)
        self.assertIn("jam is no kind", told)

    def test_one_interface_goes_down(self):
        told = self.said(self.BEGIN, "stream camera 239.1.1.1 3", "down r3 r2-r3", "run 4",
                         "served viewer 239.1.1.1 camera", "up r3 r2-r3",
                         "run 40", "send camera 239.1.1.1", "run 2")
        self.assertIn("isn't served", told)
        self.assertIn("viewer: 1 packet", told)

    def test_look_writes_the_page_and_keeps_it_new(self):
        told = self.said(self.BEGIN, "look", "stream camera 239.1.1.1 2", "run 3")
        self.assertIn("live.html#9999", told)
        page = (Path(self.folder.name) / "live.html").read_text()
        self.assertIn("packet 2 came by r1 r2 r3", page)

    def test_what_is_wrong_with_a_line_is_told(self):
        told = self.said("line r1 r2", "dance", "down r7", "join", "host h", "lose half", "run x",
                         "join nobody 239.1.1.1")
        for text in ("dance is no command", "there is no router or link r7",
                     "it is called so: join HOST GROUP [SOURCE]",
                     "it is called so: host NAME", "say it as: lose 30%", "'x' is no number of seconds",
                     "there is no host nobody"):
            self.assertIn(text, told)


if __name__ == "__main__":
    unittest.main()
