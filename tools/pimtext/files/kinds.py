"""What a file is that a tool is given, and the scenario that it makes: a scenario itself, a file of tools/lab, or a
folder with configurations of FRR's routers, containerlab's too. Of a capture tools/from_pcap makes one."""
from __future__ import annotations

import sys
from contextlib import redirect_stdout
from io import StringIO
from pathlib import Path
from typing import TYPE_CHECKING

from viqeshor.lab import written

if TYPE_CHECKING:
    from viqeshor.lab.network import Network

# How files of pcap and pcapng begin.
CAPTURES = [bytes.fromhex(each) for each in ("d4c3b2a1", "a1b2c3d4", "4d3cb2a1", "a1b23c4d", "0a0d0d0a")]
LABS = Path(__file__).resolve().parent.parent.parent / "networks"


def kind_of(path: Path) -> str:
    """`folder`, `lab`, `capture` or `scenario`: any other file is tried as that. Raises OSError."""
    if path.is_dir():
        return "folder"
    if path.suffix == ".py":
        return "lab"
    with path.open("rb") as file:
        return "capture" if file.read(4) in CAPTURES else "scenario"


def text_of(name: str | Path) -> str:
    """The text of a file's scenario, with all packets in hexadecimal; ends the program with a line where it makes
    none."""
    path = Path(name)
    try:
        kind = kind_of(path)
        if kind == "scenario":
            return written.plain(path.read_text("utf-8"))
    except OSError as reason:
        sys.exit(f"{path} can't be read: {reason.strerror}")
    except UnicodeDecodeError:
        sys.exit(f"{path} is no scenario: it isn't UTF-8")
    except written.Wrong as wrong:
        sys.exit(f"{path}:{wrong.line}: {wrong}")
    if kind == "capture":
        sys.exit(f"{path} is a capture: `tools/from_pcap {path} --scenario OUT.toml` makes a scenario of it")
    if str(LABS) not in sys.path:
        sys.path.insert(1, str(LABS))
    return network_of_folder(path).scenario() if kind == "folder" else of_lab(path)


def of_lab(path: Path) -> str:
    """What the network of a file of tools/lab played. What the file prints isn't printed."""
    from pimtext.files import labfile
    words, printed = list(sys.argv), StringIO()
    try:
        with redirect_stdout(printed):
            return labfile.network(path).scenario()
    finally:
        sys.argv[:] = words


def network_of(path: Path) -> Network:
    """The network of a file of tools/lab or of a folder, for what has to go on from it; ends the program with a line
    where it is of another kind."""
    from pimtext.files import labfile
    try:
        kind = kind_of(path)
    except OSError as reason:
        sys.exit(f"{path} can't be read: {reason.strerror}")
    if kind in ("capture", "scenario"):
        sys.exit(f"{path} is no file of tools/lab (FILE.py), and no folder of FRR's configurations")
    return network_of_folder(path) if kind == "folder" else labfile.network(path)


def network_of_folder(path: Path) -> Network:
    """The network of FRR's configurations, with the hosts that these have, once it has run."""
    from lab import Mistake
    from pimtext.files import frr, frr_lab
    names = {}
    try:
        plan = frr_lab.Plan(frr.routers_of(path, frr.DEFAULT), [])
        with redirect_stdout(StringIO()):
            exec(compile(frr_lab.text_of(plan, path), "from_frr", "exec"), names)
    except (frr.Unreadable, Mistake) as reason:
        sys.exit(f"{path} is a folder, and no network is made of it: {reason}")
    return names["net"]
