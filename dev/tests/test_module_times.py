"""dev/module_times: of the files that a check wrote, the time between two is of the second."""
import contextlib
import io
import os
import tempfile
import unittest
from pathlib import Path

from tests import stored

module_times = stored.tool("module_times")
# The files of a check, each with when it was written.
FILES = {"0-plan.txt": 100, "a/1-pim_bsr.table.learn.Lts.oantt": 101.5, "a/2-pim_bsr.table.learn.Proof.oantt": 111.5,
         "3-pim_bsr.specs.Table.decls.oantt": 112}


class Times(unittest.TestCase):
    def said(self, *words):
        with contextlib.redirect_stdout(io.StringIO()) as out, contextlib.redirect_stderr(out):
            return module_times.main([*map(str, words)]), out.getvalue().splitlines()

    def test_modules_and_the_functions_that_they_are_of(self):
        with tempfile.TemporaryDirectory() as folder:
            for name, moment in FILES.items():
                path = Path(folder, name)
                path.parent.mkdir(exist_ok=True)
                path.write_text("")
                os.utime(path, (moment, moment))
            self.assertEqual(self.said(folder, 2), (0, [
                "    11.5 function pim_bsr.table.learn",
                "     0.5 function pim_bsr.specs.Table",
                "    10.0 module pim_bsr.table.learn.Proof",
                "     1.5 module pim_bsr.table.learn.Lts",
            ]))

    def test_what_is_no_crate_and_no_number(self):
        for words in ([], ["no_crate"], ["pim_bsr", "many"], ["pim_bsr", "1", "2"]):
            with self.subTest(words):
                status, said = self.said(*words)
                self.assertEqual((status, said[0]), (2, "Which modules of a crate take long to prove?"))


if __name__ == "__main__":
    unittest.main()
