"""`dev/lint`: which lines it says are too long, and which functions it says have no type hints."""
import tempfile
import unittest
from pathlib import Path

from tests import stored

lint = stored.tool("lint")
HINTED = """\
class One:
    def __init__(self, given):
        self.given = given

    def whole(self, first: int, *others: int, last: int = 1, **more: int) -> int:
        return first + last

    @classmethod
    def made(cls) -> "One":
        def _inner(it):
            return it

        return cls(_inner)


def _private(it):
    return it
"""
UNHINTED = """\
def some(a, /, b: int, c=1, *d, e, **f) -> None:
    pass


class One:
    async def none(self):
        def inner(it: int):
            return it

        return inner
"""


class Lint(unittest.TestCase):
    def said(self, check, text, name="file.py"):
        with tempfile.TemporaryDirectory() as room:
            path = Path(room) / name
            path.parent.mkdir(exist_ok=True)
            path.write_text(text, encoding="utf-8")
            return [line.removeprefix(f"{path}:") for line in check(path)]

    def test_hints_of_public_functions(self):
        self.assertEqual(self.said(lint.missing_hints, HINTED), [])
        self.assertEqual(self.said(lint.missing_hints, UNHINTED), [
            "1: the parameter a of some has no type hint",
            "1: the parameter c of some has no type hint",
            "1: the parameter e of some has no type hint",
            "1: the parameter d of some has no type hint",
            "1: the parameter f of some has no type hint",
            "6: the result of none has no type hint",
            "7: the result of inner has no type hint",
        ])

    def test_tests_need_no_hints(self):
        self.assertEqual(self.said(lint.missing_hints, UNHINTED, "tests/file.py"), [])
        self.assertTrue(lint.is_test(lint.TOP / "dev" / "tests" / "test_lint.py"))
        self.assertFalse(lint.is_test(lint.TOP / "dev" / "lint"))

    def test_what_is_no_python(self):
        (line,) = self.said(lint.missing_hints, "def one(:\n")
        self.assertTrue(line.startswith("1: it is no Python: "), line)

    def test_long_lines(self):
        self.assertEqual(self.said(lint.long_lines, f"{'é' * 120}\n"), [])
        self.assertEqual(self.said(lint.long_lines, f"\n{'x' * 121}\n"), ["2: 121 columns; at most 120"])

    def test_what_is_named_and_is_not_there(self):
        text = "dev/lint, `tools/viq`: torture/bench/.\n/dev/nul $room/dev/nul dev/nul\n"
        self.assertEqual(self.said(lint.not_there, text), ["2: there is no dev/nul"])
        self.assertEqual(self.said(lint.not_there, text, "tests/file.py"), [])

    def test_shell_and_c(self):
        self.assertEqual(self.said(lint.unread, "#!/bin/bash\nif true; then echo; fi\n", "file.bash"), [])
        self.assertIn("syntax error", self.said(lint.unread, "#!/bin/bash\nif true; then echo\n", "file.bash")[0])
        self.assertEqual(self.said(lint.unread, "int one(void) { return 1; }\n", "file.c"), [])
        self.assertIn("error", "".join(self.said(lint.unread, "int one(void) { return two; }\n", "file.c")))

    def test_languages(self):
        wanted = {"test": "bash", "dev/lint": "python", "torture/bench/memory.c": "c", "HANDLES": None}
        self.assertEqual({name: lint.language(lint.TOP / name) for name in wanted}, wanted)


if __name__ == "__main__":
    unittest.main()
