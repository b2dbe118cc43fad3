"""Builds that are kept: each is made by one call at a time, for which others that want the same build wait, and no
others."""
import contextlib
import fcntl
import os
import shutil
import sys
import time
from collections.abc import Callable
from pathlib import Path

# How many builds of one kind are kept, of the present sources and of others: those that were asked for last.
MOST_KEPT = 40


def say(text: str) -> None:
    print(text, file=sys.stderr, flush=True)


class Progress:
    """Tells on standard error what is done, and how long that has taken: each second on a terminal, else every five
    seconds."""

    def __init__(self, who: str) -> None:
        self.who, self.what, self.began = who, "", time.monotonic()
        self.on_terminal, self.told = sys.stderr.isatty(), 0

    def seconds(self) -> int:
        return int(time.monotonic() - self.began)

    def step(self, what: str) -> None:
        """Begins something else."""
        self.what = what
        self.tell()

    def tick(self) -> None:
        """Is called again and again while something is done."""
        if self.what and self.seconds() - self.told >= (1 if self.on_terminal else 5):
            self.tell()

    def tell(self) -> None:
        self.told = self.seconds()
        start, end = ("\r\033[K", "") if self.on_terminal else ("", "\n")
        print(f"{start}{self.who}: {self.what}; {self.told} s so far", end=end, file=sys.stderr, flush=True)

    def over(self, text: str | None = None) -> None:
        """Nothing more is done; what is told then, if anything."""
        if self.on_terminal and self.what:
            print("\r\033[K", end="", file=sys.stderr, flush=True)
        if text:
            say(f"{self.who}: {text}")


class Lock:
    """A file that one process holds at a time. The system lets go of it where the process ends, however it ends."""

    def __init__(self, path: Path) -> None:
        self.path, self.file = path, None

    def is_held(self) -> bool:
        """Tries to hold it, without waiting."""
        file = os.open(self.path, os.O_RDWR | os.O_CREAT, 0o666)
        with contextlib.suppress(BlockingIOError, FileNotFoundError):
            fcntl.flock(file, fcntl.LOCK_EX | fcntl.LOCK_NB)
            # Who let go of it removed it: then this may be a file that nobody else sees.
            if os.fstat(file).st_ino == os.stat(self.path).st_ino:
                self.file = file
                return True
        os.close(file)
        return False

    def let_go(self) -> None:
        os.unlink(self.path)
        os.close(self.file)


def removed(room: Path) -> None:
    """Removes a folder in which a build was made, where there is one."""
    shutil.rmtree(room, ignore_errors=True)


def remove_left(folder: Path) -> None:
    """Removes what builds left that were killed."""
    for path in folder.glob("building-*.lock"):
        lock = Lock(path)
        if lock.is_held():
            removed(path.with_suffix(""))
            lock.let_go()


def build_once(path: Path, name: str, who: str, build: Callable[[Path, Progress], None]) -> None:
    """Has a build kept at a path. Builds of one name are made by one call at a time, which others wait for, until the
    build is there. `build` is given an empty folder to work in, and a progress; it keeps what it makes."""
    if path.exists():
        return os.utime(path)
    path.parent.mkdir(parents=True, exist_ok=True)
    lock, progress = Lock(path.parent / f"building-{name}.lock"), Progress(who)
    while not lock.is_held():
        if not progress.what:
            progress.step("another call builds it")
        time.sleep(0.2)
        progress.tick()
        if path.exists():
            return progress.over()
    try:
        if not path.exists():
            build_alone(path, name, progress, build)
    finally:
        lock.let_go()


def build_alone(path: Path, name: str, progress: Progress, build: Callable[[Path, Progress], None]) -> None:
    """The same where no other call builds."""
    room = path.parent / f"building-{name}"
    removed(room)
    room.mkdir()
    try:
        build(room, progress)
        progress.over(f"built in {progress.seconds()} s, and kept in {path.parent}")
    finally:
        removed(room)
    remove_left(path.parent)


def keep(made: Path, path: Path) -> None:
    """Puts what was built in a folder beside it where it is kept: whole or not at all."""
    os.replace(made, path)
    forget_old(path.parent, path.name.partition("-")[0])


def forget_old(folder: Path, kind: str) -> None:
    """Removes the builds of a kind that were not asked for longest, where there are many."""
    builds = sorted(folder.glob(f"{kind}-*"), key=lambda path: path.stat().st_mtime)
    for path in builds[:-MOST_KEPT]:
        path.unlink(missing_ok=True)
