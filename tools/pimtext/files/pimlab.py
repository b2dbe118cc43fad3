"""The program `pimlab`: it plays scenarios of any kind of file (pimtext.files.kinds), and prints lines."""
from __future__ import annotations

import functools
import subprocess
import sys
from collections.abc import Iterable
from pathlib import Path

from pimtext.build import program
from viqeshor.lab import toml_lines
from viqeshor.lab.scenario import Scenario, scenario_of

PIMLAB = Path(__file__).resolve().parent.parent.parent.parent / "pimlab"


def read(path: str | Path) -> Scenario:
    """The scenario of a file of any kind (pimtext.files.kinds); ends the program with a line where it makes none."""
    from pimtext.files import kinds
    try:
        return scenario_of(toml_lines.plain(toml_lines.read(kinds.text_of(path))))
    except toml_lines.Unreadable as reason:
        sys.exit(f"{path} isn't TOML: {reason}")
    except (KeyError, ValueError, TypeError) as reason:
        sys.exit(f"{path} is no scenario ({reason}); tools/why {path} says what is wrong")


class Refused(Exception):
    """The program didn't play the scenario; the text is its own line."""


@functools.cache
def playing() -> str | Path:
    """What plays a scenario: the program, which is looked for once, or `./pimlab`, where none can be kept."""
    return program.chosen() or PIMLAB


def run_text(text: str, words: Iterable[str] = ("--tables",)) -> list[str]:
    """The lines that the program prints of a scenario's text, with tables."""
    ran = subprocess.run([playing(), "run", "-", *words], input=text, capture_output=True, text=True)
    if ran.returncode:
        raise Refused(ran.stderr.strip())
    return ran.stdout.splitlines()


def run_each(text: str) -> list[str]:
    """The same, with the tables of its router after each answer, and those of all at the end."""
    return run_text(text, ("--tables", "--tables-each"))


def run_file(path: str | Path) -> list[str]:
    """The same of a file of any kind. What the program says on standard error stands there; its status ends this
    program."""
    from pimtext.files import kinds
    words = [playing(), "run", "-", "--tables"]
    ran = subprocess.run(words, input=kinds.text_of(path), stdout=subprocess.PIPE, text=True)
    if ran.returncode:
        sys.exit(ran.returncode)
    return ran.stdout.splitlines()
