"""Which build of the program is run: that of a release, the proved binary where it is newer than its sources, else an
unproved one that was brought along or is kept."""
from __future__ import annotations

import os
import sys
from pathlib import Path
from typing import TYPE_CHECKING

from pimtext.build.kept import TOP, brought, kept_program, released

if TYPE_CHECKING:
    from pimtext.build.builds import Progress

PROVED = TOP / "crates" / "pimlab" / "out" / "pimlab"
# The same, compiled by Rattle's own compiler in the place of LLVM.
BY_RATTLE = PROVED.with_name("pimlab.by-rattle")
# What PIMLAB_BUILD may say.
BUILDS = ["proved", "by-rattle", "unproved", "sanitized"]


def is_proved(build: Path = PROVED) -> bool:
    """A proved binary is there, and newer than every source."""
    return os.access(build, os.X_OK) and is_newer(build)


def is_newer(build: Path) -> bool:
    """A build is newer than every source."""
    built = build.stat().st_mtime
    for folder, folders, files in os.walk(TOP / "crates"):
        folders[:] = [name for name in folders if name != "out"]
        sources = [os.path.join(folder, name) for name in files if name.endswith((".rt", ".antt"))]
        if any(os.stat(source).st_mtime > built for source in sources):
            return False
    return True


def have_kept(path: Path, is_sanitized: bool) -> None:
    """Has an unproved program kept."""
    # This takes a while to load, and most calls don't build.
    from pimtext.build import builds, kit, unproved
    try:
        if is_sanitized:
            def build(room: Path, progress: Progress) -> None:
                unproved.build_sanitized(room, progress, path)
            builds.build_once(path, path.name, "pimlab", build)
        else:
            unproved.have_kept(path, "pimlab")
    except kit.Failed as failed:
        sys.stderr.write(str(failed))
        sys.exit("pimlab: it couldn't be built")


def unproved_program(is_sanitized: bool) -> str | None:
    """Where the unproved program is; None where it can't be kept."""
    path = kept_program()
    path = path.with_name(f"{path.name}-sanitized") if is_sanitized else path
    found = brought(path, "pimlab") or path
    if os.access(found, os.X_OK):
        return str(found)
    if found != path:
        sys.exit(f"pimlab: {found} can't be run: it isn't executable")
    import shutil
    if shutil.which("rt") is None:
        sys.exit("pimlab: it isn't built, and there is no command `rt`, the Rattle kit's, that could build it")
    try:
        how_long = "in one to two minutes" if is_sanitized else "in about a minute if the machine is idle"
        text = f"pimlab: building once, {how_long}; the build isn't proved (./test builds and proves)"
        print(text, file=sys.stderr, flush=True)
        have_kept(path, is_sanitized)
    except OSError as error:
        print(f"pimlab: a build can't be kept: {error}", file=sys.stderr, flush=True)
        return None
    return str(path)


def wanted() -> str:
    """What PIMLAB_BUILD says."""
    build = os.environ.get("PIMLAB_BUILD", "proved")
    if build not in BUILDS:
        sys.exit(f"pimlab: PIMLAB_BUILD is {build!r}, and should be one of {', '.join(BUILDS)}")
    return build


def chosen() -> str | None:
    """Where the program is that is to be run, built where it isn't there; None where none can be kept."""
    build = wanted()
    if released():
        return str(TOP / "bin" / "pimlab")
    if build == "by-rattle":
        return str(BY_RATTLE) if is_proved(BY_RATTLE) else sys.exit(f"pimlab: there is no {BY_RATTLE}: ./test makes it")
    return str(PROVED) if build == "proved" and is_proved() else unproved_program(build == "sanitized")


def kept() -> str:
    """The same; this process ends where none can be kept."""
    return chosen() or sys.exit(1)


def run_once(words: list[str]) -> int:
    """Builds and runs where nothing can be kept; answers the status."""
    import subprocess
    import tempfile
    with tempfile.TemporaryDirectory(prefix="pimlab-") as folder:
        os.environ["XDG_CACHE_HOME"] = folder
        return subprocess.run([unproved_program(wanted() == "sanitized"), *words]).returncode


def version() -> str:
    """The version of the repository, as `include/viqeshor/viqeshor.h` has it."""
    return (
        (TOP / "include" / "viqeshor" / "viqeshor.h")
        .read_text()
        .partition('#define VIQ_VERSION "')[2]
        .partition('"')[0]
    )


def how() -> str:
    """How what would be run is built: proved, or not proved."""
    if said := released():
        return said
    proved = {"proved": PROVED, "by-rattle": BY_RATTLE}.get(wanted())
    return "proved" if proved and is_proved(proved) else "not proved"


def run(words: list[str]) -> None:
    """Becomes the program with these words, or says the version."""
    if words == ["--version"]:
        print(f"pimlab {version()}, {how()}")
        return
    path = chosen()
    if path is None:
        sys.exit(run_once(words))
    if sys.stderr.isatty():
        from pimtext.build import hints
        sys.exit(hints.run(path, words))
    os.execv(path, [path, *words])
