"""What the programs of `dev` share: how the gate runs and is told of, the edits, what is read of the crates' text, the
facts of tables/, and the parts of the quick tier. It stands on the tools' package `pimtext`."""
import sys
from pathlib import Path

sys.path.append(str(Path(__file__).resolve().parent.parent.parent / "tools"))
