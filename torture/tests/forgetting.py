"""What the tests have in common of tools that compare routers with a reading which may be told to forget a rule."""
import os
import shutil
import unittest
from contextlib import redirect_stdout
from io import StringIO

from pimtext.build.library import Library

CC = os.environ.get("CC", "cc")


@unittest.skipUnless(shutil.which(CC) and shutil.which("rt"), "there is no C compiler, or no kit")
class OfRouters(unittest.TestCase):
    @classmethod
    def setUpClass(cls):
        cls.library = Library(is_proved=False).shared()

    def said(self, call, *values):
        with redirect_stdout(StringIO()) as out:
            self.assertTrue(call(*values), out.getvalue())
        return out.getvalue()

    def notices(self, tool, rules, asked):
        for rule in rules:
            with self.subTest(rule):
                self.said(tool.is_noticed, self.library, rule, asked)
