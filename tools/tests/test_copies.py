"""Scenarios that are wanted in two places stand in both, since the kit takes no links."""
import unittest

from tests.stored import DATA, EXAMPLES, TOOLS

PROGRAM = TOOLS.parent / "crates" / "pimlab" / "data"


class Copies(unittest.TestCase):
    def test_they_are_alike(self):
        copies = [*EXAMPLES.glob("*.toml"), *EXAMPLES.glob("*.out"), *PROGRAM.iterdir()]
        self.assertTrue(copies)
        for path in copies:
            with self.subTest(path):
                self.assertEqual(path.read_bytes(), (DATA / path.name).read_bytes())


if __name__ == "__main__":
    unittest.main()
