"""How a tool is called: what it prints may be cut off, and ctrl-c ends it, without a traceback."""
from __future__ import annotations

import os
import sys
from collections.abc import Callable

# The statuses of a program that a closed pipe or ctrl-c ended.
CUT_OFF, STOPPED = 141, 130


def run(main: Callable[[], None]) -> None:
    """Calls a tool's main."""
    try:
        main()
        sys.stdout.flush()
    except BrokenPipeError:
        # Nobody reads on: what is left isn't written at the end either.
        os.dup2(os.open(os.devnull, os.O_WRONLY), sys.stdout.fileno())
        sys.exit(CUT_OFF)
    except KeyboardInterrupt:
        sys.exit(STOPPED)
