"""What the tools for people share, beside the package `viqeshor.lab`, on which they stand: packets, scenario files, the
lines of `pimlab run` and the networks of tools/lab are read and written there.

`build` has the program and the library, `files` what a tool is given, `ways` what came of the packets of a run,
`causes` why a stream didn't come, and `shown` what people see. None imports what stands behind it in this list, but
where a file of tools/lab is opened. `failing`, `farmed` and `converging` are of networks as a whole.
"""
import sys
from pathlib import Path

PACKAGE = Path(__file__).resolve().parent.parent.parent / "bindings" / "python" / "src"
if str(PACKAGE) not in sys.path:
    sys.path.insert(0, str(PACKAGE))
import viqeshor  # noqa: E402


def found() -> str:
    """The shared library that is meant where none is named: that of these tools, which is built first where it has to
    be."""
    from pimtext.build import shared
    return str(shared.shared())


viqeshor.found = found
