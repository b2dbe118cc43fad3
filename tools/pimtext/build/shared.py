"""The shared library that the tools ask, in the place of one that the system has."""
from __future__ import annotations

import functools
import hashlib
import os
import shutil
import sys
import tempfile
from pathlib import Path

import viqeshor
from pimtext.build import library, program
from pimtext.build.builds import keep
from pimtext.build.kept import TOP, cache, released


@functools.cache
def shared() -> Path:
    """The shared library that is asked. It is the one that VIQESHOR_LIBRARY in the environment names, or that of a
    release; else it is put together once, and kept, of the same build as the program: of the proved archive where that
    is newer than its sources, else of an unproved one. This process ends with a line where there can be none."""
    if given := os.environ.get("VIQESHOR_LIBRARY"):
        return usable(Path(given))
    if released():
        return TOP / "lib" / "libviqeshor.so"
    is_proved = program.wanted() == "proved" and library.PROVED.exists() and program.is_newer(library.PROVED)
    try:
        router = library.PROVED if is_proved else library.unproved_router(None)
        made = cache() / f"libviqeshor-{sum_of(router)}.so"
        if not made.exists():
            put_together(router, made)
    except OSError as error:
        sys.exit(f"library: it can't be kept: {error}")
    return made


def usable(given: Path) -> Path:
    """A library that is of this version; the end of the process where it isn't."""
    try:
        viqeshor.version(given)
    except (OSError, viqeshor.Error) as error:
        sys.exit(f"library: {given}, which VIQESHOR_LIBRARY names, can't be taken: {error}")
    return given


def sum_of(router: Path) -> str:
    """A sum of all that a shared library is made of."""
    here = [router, library.BINDINGS / "c", library.INCLUDE / "viqeshor"]
    files = (file for path in here for file in (sorted(path.iterdir()) if path.is_dir() else [path]))
    total = hashlib.sha256()
    for file in files:
        total.update(file.read_bytes())
    return total.hexdigest()[:32]


def put_together(router: Path, made: Path) -> None:
    """Makes a shared library of a router's archive, and keeps it."""
    if shutil.which(library.CC) is None:
        sys.exit(f"library: there is no C compiler `{library.CC}`, which puts it together; CC may name another one")
    made.parent.mkdir(parents=True, exist_ok=True)
    with tempfile.TemporaryDirectory(prefix="shared-", dir=made.parent) as room:
        keep(library.Library(router, room=Path(room)).shared(), made)
