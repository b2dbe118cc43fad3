"""Tests of the tools, those of dev and of torture among them; `dev/try_tools` runs them."""
import sys
from pathlib import Path

from pimtext import PACKAGE

# The packages `lab`, `viqeshor`, `upkeep` and `stress` are there.
TOP = Path(__file__).resolve().parent.parent.parent
sys.path += [str(TOP / "tools" / "networks"), str(PACKAGE), str(TOP / "dev"), str(TOP / "torture")]
__path__ += [str(TOP / house / "tests") for house in ("dev", "torture")]
