"""`torture/run`: it names all that it runs, and each says what it does."""
import subprocess
import unittest

from tests import stored

RUN = stored.TORTURE / "run"


def ran(*words):
    done = subprocess.run([RUN, *words], capture_output=True, text=True)
    return done.returncode, done.stdout, done.stderr


class Torture(unittest.TestCase):
    NAMES = stored.tool("run").NAMES

    def test_it_lists_all_with_what_they_do(self):
        status, said, _ = ran()
        self.assertEqual(status, 0)
        listed = [line.split(None, 1) for line in said.splitlines() if line[:2] == "  " and line[2] != " "]
        self.assertEqual([name for name, _ in listed], list(self.NAMES))
        self.assertTrue(all(about.endswith(".") for _, about in listed), listed)

    def test_each_says_how_it_is_called(self):
        for name in self.NAMES:
            with self.subTest(name):
                status, said, complaint = ran(name, "--help")
                self.assertEqual((status, complaint), (0, ""))
                self.assertIn(f"    torture/run {name}", said)

    def test_what_is_not_there(self):
        status, said, complaint = ran("plain")
        self.assertEqual((status, said), (1, ""))
        self.assertIn("there is no plain; there are plane, restarted, memory", complaint)


if __name__ == "__main__":
    unittest.main()
