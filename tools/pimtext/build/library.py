"""The library: one archive of the router, the kit's few lines of C around malloc and our own (bindings/c), and what is
made of it."""
from __future__ import annotations

import hashlib
import os
import re
import shutil
import subprocess
import sys
import tempfile
from collections.abc import Iterator, Sequence
from pathlib import Path
from typing import TYPE_CHECKING, Any

from pimtext.build import checks, kit, unproved
from pimtext.build.kept import brought, crates_of, kept_library

if TYPE_CHECKING:
    import argparse

TOP = Path(__file__).resolve().parent.parent.parent.parent
CRATE = TOP / "crates" / "pim_c"
INCLUDE = TOP / "include"
BINDINGS = TOP / "bindings"
ROOM = TOP / "out" / "library"
CC = os.environ.get("CC", "cc")
HEADERS = ["viqeshor.h", "plane.h"]
DOCS = TOP / "docs"
VERSION = re.search(r'#define VIQ_VERSION "(.*)"', (INCLUDE / "viqeshor" / "viqeshor.h").read_text())[1]
# What stays the same where a newer library may take an older one's place: while the first number is 0, the second one
# too.
SERIES = ".".join(VERSION.split(".")[:2 if VERSION.startswith("0.") else 1])
# What the shared library is called by the programs that are linked with it.
SONAME = f"libviqeshor.so.{SERIES}"


def ran(words: Sequence[object], **how: Any) -> bytes:
    """Runs a command; ends the program with what it says where it fails."""
    done = subprocess.run([str(word) for word in words], stdout=subprocess.PIPE, stderr=subprocess.STDOUT, **how)
    if done.returncode:
        sys.stderr.buffer.write(done.stdout[-4000:])
        sys.exit(f"{words[0]} failed")
    return done.stdout


# ---- the router


# The archive of the proved crate, and of what sources it is.
PROVED, PROVED_OF = CRATE / "out" / "libpim_c.a", CRATE / "out" / "libpim_c.sum"


def sum_of_proved() -> str:
    """A sum of the archive, and of all that its proof reads."""
    total = hashlib.sha256(PROVED.read_bytes() + ran(["rt", "version"]))
    for name, below in crates_of("pim_c").items():
        total.update(f"{name}: {' '.join(below)}\n".encode())
        parts = [TOP / "crates" / name / part for part in ("src", "specs", "proofs")]
        for source in sorted(path for part in parts for path in part.rglob("*") if path.suffix in {".rt", ".antt"}):
            total.update(f"{source.relative_to(TOP)} {source.stat().st_size}\n".encode() + source.read_bytes())
    return total.hexdigest()


def proved_router() -> Path:
    """The archive of the proved crate: as it is there, where the sources are the same, else it is built."""
    if not (PROVED.exists() and PROVED_OF.exists() and PROVED_OF.read_text() == sum_of_proved()):
        print("library: it is proved first, which takes an hour where nothing is proved yet; --unproved uses one that "
              "isn't proved", file=sys.stderr, flush=True)
        ran(["rt", "lib"], cwd=CRATE)
        PROVED_OF.write_text(sum_of_proved())
    return PROVED


def prove_over_gate() -> None:
    """Proves and builds the archive over the libraries that `rt ci` has proved just now. It keeps them for no other
    command of its own, which would prove them again. Where a clone has older ones they are left to `rt lib`, which
    knows which are up to date."""
    crates = crates_of("pim_c")
    if not checks.are_of_gate(checks.below("pim_c", crates), TOP):
        return
    where = kit.kit()
    words = [*checks.over_proved("pim_c", crates, TOP), *checks.logic(), "--jobs", str(len(os.sched_getaffinity(0)))]
    words += ["--links", "pim_c=", "--crate-type", "staticlib", "--toolchain", where / "toolchain", "-o", PROVED]
    ran([where / "bin" / "rattle", "build", "--crate-name", "pim_c", "src/lib.rt", *words], cwd=CRATE)
    PROVED_OF.write_text(sum_of_proved())


def unproved_router(folder: Path | None) -> Path:
    """An archive of the same sources before any proof: brought along in a folder, or built once a machine."""
    path = kept_library()
    if found := brought(path, "library", folder):
        return found
    if path.exists():
        os.utime(path)
        return path
    if shutil.which("rt") is None:
        sys.exit("library: it isn't built, and there is no command `rt`, the Rattle kit's, that could build it")
    print("library: building once, about a minute; the build isn't proved", file=sys.stderr, flush=True)
    try:
        unproved.have_kept(path, "library")
    except kit.Failed as failed:
        sys.exit(f"{failed}\nlibrary: it couldn't be built")
    return path


# ---- one archive

# The kit's object of the allocator, and the object that the archive consists of.
HEAP, WHOLE = "heap.pic.o", "viqeshor.o"


def written_in_c(how: str, room: Path) -> Iterator[Path]:
    """What of the library is C: what it says of itself, and its calls, which make those that are proved."""
    for name in ("texts", "calls", "refused", "messages"):
        made = room / f"{name}.o"
        ran([CC, "-std=c99", "-Wall", "-Wextra", "-Werror", "-O2", "-fPIC", f'-DVIQ_HOW="{how}"', "-I", INCLUDE, "-c",
             BINDINGS / "c" / f"{name}.c", "-o", made])
        yield made


def archiver() -> Path | str:
    """The kit's program for archives, or the C compiler's."""
    return kit.kit() / "toolchain" / "bin" / "llvm-ar" if shutil.which("rt") else os.environ.get("AR", "ar")


def archive(router: Path, how: str, room: Path) -> Path:
    """The archive, of a router's, that says how it was built, in a folder. The kit's few lines of C around malloc are
    in it, or are put there. One that was made before is taken as it is."""
    made, tool = room / "libviqeshor.a", archiver()
    if ran([tool, "t", router]).decode().split() == [WHOLE]:
        put_other(made, router.read_bytes())
        return made
    with tempfile.TemporaryDirectory(dir=room) as folder:
        parts, whole = Path(folder) / "parts.a", Path(folder) / made.name
        shutil.copyfile(router, parts)
        if HEAP not in ran([tool, "t", parts]).decode().split():
            ran([tool, "x", kit.kit() / "c" / "liblibc_c.a", HEAP], cwd=folder)
            ran([tool, "r", parts, Path(folder) / HEAP])
        ran([tool, "rs", parts, *written_in_c(how, Path(folder))])
        ran([tool, "rcs", whole, with_calls_alone(parts, Path(folder))])
        put_other(made, whole.read_bytes())
    return made


def with_calls_alone(parts: Path, folder: Path) -> Path:
    """An archive's parts as one object, in which the library's calls are the only names that others are linked with. So
    a program may have another archive of the kit's beside it."""
    made, names = folder / WHOLE, folder / "names"
    names.write_text("".join(f"{name}\n" for name in names_of_calls()))
    ran([CC, "-r", "-nostdlib", "-o", made, "-Wl,--whole-archive", parts, "-Wl,--no-whole-archive"])
    ran([os.environ.get("OBJCOPY", "objcopy"), f"--keep-global-symbols={names}", made])
    return made


def names_of_calls() -> list[str]:
    """The library's calls, as its headers declare them."""
    headers = "".join((INCLUDE / "viqeshor" / name).read_text() for name in HEADERS)
    code = re.sub(r"/\*.*?\*/|^static inline.*?$", "", headers, flags=re.S | re.M)
    return sorted(set(re.findall(r"^[a-z].*?\b(viq_\w+)\(", code, re.M)))


def global_names(archive: Path) -> list[str]:
    """The names of an archive that others may be linked with."""
    told = ran([os.environ.get("NM", "nm"), "-P", "-g", "--defined-only", archive]).decode()
    return sorted(line.split()[0] for line in told.splitlines() if line and not line.endswith(":"))


class Library:
    """The library in a folder, out/library as a rule; proved unless another archive of the router is given, or the
    unproved one is asked for, which is taken from a folder that is named if it is there."""

    def __init__(
        self, given: Path | None = None, is_proved: bool = True, folder: Path | None = None, room: Path | None = None
    ) -> None:
        self.room = room or ROOM
        self.room.mkdir(parents=True, exist_ok=True)
        if given:
            self.archive = archive(given.resolve(), "not proved", self.room)
        elif is_proved:
            self.archive = archive(proved_router(), "proved", self.room)
        else:
            self.archive = archive(unproved_router(folder), "not proved", self.room)

    def shared(self) -> Path:
        """A shared library of all of it."""
        made = self.room / "libviqeshor.so"
        with tempfile.TemporaryDirectory(dir=self.room) as folder:
            whole, names = Path(folder) / made.name, Path(folder) / "names"
            names.write_text(f"{{ global: {'; '.join(names_of_calls())}; local: *; }};\n")
            flags = [
                f"-Wl,-soname,{SONAME}",
                f"-Wl,--version-script={names}",
                "-Wl,--whole-archive",
                self.archive,
                "-Wl,--no-whole-archive",
            ]
            ran([CC, "-shared", "-o", whole, *flags])
            # The kit takes no links below the repository, not even in what is built.
            for path in (made, self.room / SONAME):
                put_other(path, whole.read_bytes(), 0o755)
        return made

    def program(self, source: Path, *flags: str) -> Path:
        """A C program with it."""
        made = self.room / f"{source.parent.name}_{source.stem}"
        ran(
            [
                CC,
                "-std=c99",
                "-Wall",
                "-Wextra",
                "-Werror",
                "-O2",
                "-I",
                INCLUDE,
                "-o",
                beside(made),
                source,
                self.archive,
                *flags,
            ]
        )
        return beside(made).replace(made)

    def rust_program(self, source: Path) -> Path:
        """A Rust program with it, by the Rust crate."""
        made, crate = self.room / f"{source.stem}_rs", self.room / "libviqeshor.rlib"
        words = ["rustc", "--edition", "2021", "-O"]
        ran([*words, "--crate-name", "viqeshor", "--crate-type", "rlib", "-o", crate, BINDINGS / "rust/src/lib.rs"])
        ran([*words, "-o", made, source, "--extern", f"viqeshor={crate}", "-C", f"link-arg={self.archive}"])
        return made


# ---- which library a tool takes


def add_choice(parser: argparse.ArgumentParser) -> argparse._MutuallyExclusiveGroup:
    """The words that choose a build of the library: the proved one where there is none."""
    which = parser.add_mutually_exclusive_group()
    which.add_argument("--unproved", action="store_true", help="of the same sources, before any proof")
    which.add_argument("--from", type=Path, metavar="FOLDER", dest="folder", help="the same, made elsewhere")
    which.add_argument("--archive", type=Path, metavar="FILE")
    return which


def chosen(asked: argparse.Namespace) -> tuple[Library, str]:
    """The library that the words choose, and what it is called."""
    is_proved = not (asked.unproved or asked.folder)
    library = Library(asked.archive, is_proved=is_proved, folder=asked.folder)
    return library, str(asked.archive or ("the proved one" if is_proved else "the unproved one"))


# ---- installed


def beside(path: Path) -> Path:
    """A name beside a path, by which nobody looks for anything."""
    return path.with_name(f".{path.name}.{os.getpid()}")


def put(path: Path, content: bytes, mode: int = 0o644) -> None:
    """Writes a file beside its path, and gives it its name then. What runs by an older file of that name goes on by
    it."""
    made = beside(path)
    made.write_bytes(content)
    made.chmod(mode)
    made.replace(path)


def put_other(path: Path, content: bytes, mode: int = 0o644) -> None:
    """The same where the file has another content, so that what was made of it stays up to date."""
    if not (path.exists() and path.read_bytes() == content):
        put(path, content, mode)


def link(target: str, path: Path) -> None:
    made = beside(path)
    made.unlink(missing_ok=True)
    made.symlink_to(target)
    made.replace(path)


def named_docs() -> list[str]:
    """The documents that the headers name."""
    named = "".join((INCLUDE / "viqeshor" / name).read_text() for name in HEADERS)
    return sorted(set(re.findall(r"\b[A-Z]+\.md\b", named)))


# Both say where the rest lies from where they lie themselves, so that what is installed may be moved.
PKG_CONFIG = """prefix=${pcfiledir}/@UP_FROM_PC@
includedir=${prefix}/include
libdir=${prefix}/@LIBDIR@

Name: viqeshor
Description: A multicast router core: PIM Sparse Mode and IGMPv3
Version: @VERSION@
Cflags: -I${includedir}
Libs: -L${libdir} -lviqeshor
"""

CMAKE = """get_filename_component(VIQ_PREFIX "${CMAKE_CURRENT_LIST_DIR}/@UP_FROM_CMAKE@" ABSOLUTE)
foreach(kind STATIC SHARED)
  string(TOLOWER ${kind} name)
  if(NOT TARGET viqeshor::${name})
    add_library(viqeshor::${name} ${kind} IMPORTED)
    set_target_properties(viqeshor::${name} PROPERTIES INTERFACE_INCLUDE_DIRECTORIES "${VIQ_PREFIX}/include")
  endif()
endforeach()
set_target_properties(viqeshor::static PROPERTIES IMPORTED_LOCATION "${VIQ_PREFIX}/@LIBDIR@/libviqeshor.a")
set_target_properties(viqeshor::shared PROPERTIES
    IMPORTED_LOCATION "${VIQ_PREFIX}/@LIBDIR@/libviqeshor.so" IMPORTED_SONAME "@SONAME@")
"""

# A newer version takes the place of an older one with the same first number, and second one while the first is 0.
CMAKE_VERSION = """set(PACKAGE_VERSION "@VERSION@")
set(asked "${PACKAGE_FIND_VERSION_MAJOR}.${PACKAGE_FIND_VERSION_MINOR}")
if(NOT "@SERIES@" MATCHES "^0")
  set(asked "${PACKAGE_FIND_VERSION_MAJOR}")
endif()
if("@VERSION@" VERSION_LESS "${PACKAGE_FIND_VERSION}" OR (PACKAGE_FIND_VERSION AND NOT asked STREQUAL "@SERIES@"))
  set(PACKAGE_VERSION_COMPATIBLE FALSE)
else()
  set(PACKAGE_VERSION_COMPATIBLE TRUE)
  if("@VERSION@" VERSION_EQUAL "${PACKAGE_FIND_VERSION}")
    set(PACKAGE_VERSION_EXACT TRUE)
  endif()
endif()
"""


def filled(text: str, **more: str) -> bytes:
    values = {"SONAME": SONAME, "VERSION": VERSION, "SERIES": SERIES} | more
    return re.sub(r"@(\w+)@", lambda found: values[found[1]], text).encode()


def install(library: Library, prefix: Path, libdir: str = "lib", root: str = "") -> None:
    """The header, the archive, the shared library, and what pkg-config and CMake find them by: below a prefix, of which
    the libraries have a folder. With a root all is put below that, as it is to lie below the prefix."""
    prefix = Path(root + str(Path(os.path.abspath(prefix)))) if root else prefix.resolve()
    lib, named = prefix / libdir, f"libviqeshor.so.{VERSION}"
    headers, docs = prefix / "include" / "viqeshor", prefix / "share" / "doc" / "viqeshor"
    pkg_config, cmake = lib / "pkgconfig", lib / "cmake" / "viqeshor"
    for folder in (headers, docs, pkg_config, cmake):
        folder.mkdir(parents=True, exist_ok=True)
    for name in HEADERS:
        put(headers / name, (INCLUDE / "viqeshor" / name).read_bytes())
    for name in named_docs():
        put(docs / name, (DOCS / name).read_bytes())
    put_other(lib / "libviqeshor.a", library.archive.read_bytes())
    put(lib / named, library.shared().read_bytes(), 0o755)
    link(named, lib / SONAME)
    link(SONAME, lib / "libviqeshor.so")
    ways = {"LIBDIR": libdir, "UP_FROM_PC": os.path.relpath(prefix, pkg_config)}
    put(pkg_config / "viqeshor.pc", filled(PKG_CONFIG, **ways))
    put(cmake / "viqeshor-config.cmake", filled(CMAKE, LIBDIR=libdir, UP_FROM_CMAKE=os.path.relpath(prefix, cmake)))
    put(cmake / "viqeshor-config-version.cmake", filled(CMAKE_VERSION))
    ran([sys.executable, TOP / "tools" / "man", prefix / "share" / "man", "3"])
