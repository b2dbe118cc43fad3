"""The kit's command `rt`, with two of its questions answered once in each call, and not once for each path of libraries
(`dev/rt` says why)."""
from __future__ import annotations

import functools
import importlib.machinery
import importlib.util
import os
import shutil
import sys
import threading
from collections.abc import Callable
from pathlib import Path
from typing import TYPE_CHECKING, Any

from upkeep import beside

if TYPE_CHECKING:
    from types import ModuleType

QUESTIONS = ("below", "stamp")


def command() -> Path:
    """The kit's command."""
    return Path(os.path.realpath(shutil.which("rt") or sys.exit("there is no command `rt`, the Rattle kit's")))


def loaded() -> ModuleType | None:
    """The command as a module, with quick answers; None where it asks no such questions."""
    path = command()
    if not (path.parent / "rtlib.py").exists():
        return None
    loader = importlib.machinery.SourceFileLoader("rt", str(path))
    made = importlib.util.module_from_spec(importlib.util.spec_from_loader("rt", loader))
    loader.exec_module(made)
    crate = getattr(getattr(made, "rtlib", None), "Crate", None)
    if crate is None or not hasattr(made, "main"):
        return None
    for name in QUESTIONS:
        if asked := getattr(crate, name, None):
            setattr(crate, name, once_in_a_call(asked))
    return made


def once_in_a_call(asked: Callable[[Any], Any]) -> Callable[[Any], Any]:
    """A crate's method that calls itself of the crates below: a call of it from without asks each crate once."""
    here = threading.local()

    @functools.wraps(asked)
    def answer(crate: Any) -> Any:
        is_first = getattr(here, "known", None) is None
        if is_first:
            here.known = {}
        try:
            if crate.folder not in here.known:
                here.known[crate.folder] = asked(crate)
            return here.known[crate.folder]
        finally:
            if is_first:
                here.known = None

    return answer


def main(words: list[str]) -> int:
    """Runs the command with these words; the status."""
    made = loaded()
    if made is None:
        os.execvp("rt", ["rt", *words])
    if words[:1] == ["ci"] and hasattr(made, "in_lanes"):
        beside.added(made, "--anew" in words)
    return made.main(words)
