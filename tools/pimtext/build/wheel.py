"""A wheel of the Python package with the shared library inside, for machines like this one."""
from __future__ import annotations

import base64
import ctypes
import hashlib
import platform
import re
import zipfile
from pathlib import Path
from typing import TYPE_CHECKING

from pimtext.build.library import BINDINGS, SONAME, VERSION, ran

if TYPE_CHECKING:
    from collections.abc import Iterator

PACKAGE = BINDINGS / "python" / "src" / "viqeshor"
INFO = f"viqeshor-{VERSION}.dist-info"
METADATA = f"""Metadata-Version: 2.1
Name: viqeshor
Version: {VERSION}
Summary: A multicast router core: PIM Sparse Mode and IGMPv3; the library in it is {{}}
Requires-Python: >=3.11
"""
# What a library may need of the system by the rule of the tag (PEP 600), of what ours could.
ALLOWED = {"libc.so.6"}
# The oldest C library that such a tag is in use for.
OLDEST = (2, 17)


def platform_tag(shared: Path) -> str:
    """The tag of the oldest C library that has what the shared library asks for. It is the machine's own tag where the
    library needs others too."""
    said = ran(["readelf", "-dVW", shared]).decode()
    needed = set(re.findall(r"NEEDED.*\[(.*)\]", said))
    asked = [tuple(map(int, found.split("."))) for found in re.findall(r"GLIBC_([0-9.]+)", said)]
    if not asked or needed - ALLOWED:
        return f"linux_{platform.machine()}"
    major, minor = max([OLDEST, *(number[:2] for number in asked)])
    return f"manylinux_{major}_{minor}_{platform.machine()}"


def how(shared: Path) -> str:
    """How a shared library says that it was built: proved, or not proved."""
    told = ctypes.CDLL(str(shared.resolve())).viq_version
    told.restype = ctypes.c_char_p
    return told().decode().partition(" ")[2]


def parts(shared: Path, tag: str) -> Iterator[tuple[str, bytes]]:
    """The names of the wheel's files, and what is in them."""
    for file in [*sorted(PACKAGE.rglob("*.py")), PACKAGE / "py.typed"]:
        yield f"viqeshor/{file.relative_to(PACKAGE)}", file.read_bytes()
    yield f"viqeshor/{SONAME}", shared.read_bytes()
    yield f"{INFO}/METADATA", METADATA.format(how(shared)).encode()
    yield f"{INFO}/WHEEL", f"Wheel-Version: 1.0\nGenerator: viqeshor\nRoot-Is-Purelib: false\nTag: {tag}\n".encode()


def line_of(name: str, content: bytes) -> str:
    """What the wheel's list of files says of one."""
    digest = base64.urlsafe_b64encode(hashlib.sha256(content).digest()).rstrip(b"=").decode()
    return f"{name},sha256={digest},{len(content)}\n"


def write_wheel(shared: Path, folder: Path) -> Path:
    """Writes the wheel into a folder. The same parts give the same bytes."""
    tag = f"py3-none-{platform_tag(shared)}"
    made, record = folder / f"viqeshor-{VERSION}-{tag}.whl", f"{INFO}/RECORD"
    content = dict(parts(shared, tag))
    listed = "".join(line_of(*part) for part in content.items()) + f"{record},,\n"
    folder.mkdir(parents=True, exist_ok=True)
    with zipfile.ZipFile(made, "w", zipfile.ZIP_DEFLATED) as wheel:
        for name, data in [*content.items(), (record, listed.encode())]:
            # A file's rights stand in the upper half.
            about = zipfile.ZipInfo(name)
            about.external_attr, about.compress_type = 0o644 << 16, zipfile.ZIP_DEFLATED
            wheel.writestr(about, data)
    return made
