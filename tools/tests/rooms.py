"""Small repositories of a test's own, and a stand-in for the kit's command."""
import os
import tempfile
from contextlib import contextmanager
from pathlib import Path
from unittest import mock


@contextmanager
def repository(files):
    """A folder with these files, by their names and texts."""
    with tempfile.TemporaryDirectory(prefix="tools-") as folder:
        room = Path(folder)
        for name, text in files.items():
            (room / name).parent.mkdir(parents=True, exist_ok=True)
            (room / name).write_text(text)
        yield room


@contextmanager
def kit(room, script):
    """Within it the command `rt` is this shell script, which finds the words that it is called with in `$*`."""
    command = room / "bin" / "rt"
    command.parent.mkdir(exist_ok=True)
    command.write_text(f"#!/bin/sh\n{script}\n")
    command.chmod(0o755)
    with mock.patch.dict(os.environ, {"PATH": f"{command.parent}:{os.environ['PATH']}"}):
        yield
