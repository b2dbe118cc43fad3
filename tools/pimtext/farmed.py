"""Runs that processes on other machines are handed, by a scheduler of Dask.

A run is a call of a tool that is in the same folder on each machine. The scheduler has each run once: it gives that of
a worker that ended to another one, and what came is what was asked for.
"""
from __future__ import annotations

import importlib.util
import os
import subprocess
import sys
from collections.abc import Iterator, Sequence

# Debian's python3-distributed is for this Python.
SYSTEMS = "/usr/bin/python3"


def with_distributed() -> None:
    """Goes on in a Python that has Dask's `distributed`; the end of the program where there is none."""
    if importlib.util.find_spec("distributed") is None:
        if os.path.realpath(sys.executable) != os.path.realpath(SYSTEMS) and os.path.exists(SYSTEMS):
            os.execv(SYSTEMS, [SYSTEMS, *sys.argv])
        sys.exit("--dask wants Python's `distributed`: Debian's package is python3-distributed")


def each_elsewhere(address: str, calls: Sequence[Sequence[str]]) -> Iterator[tuple[int, str]]:
    """What each call prints, with the call's place, as soon as it is there. Raises what a call failed with."""
    import distributed
    try:
        client = distributed.Client(address, timeout=20)
    except (OSError, ValueError) as error:
        sys.exit(f"--dask: no scheduler answers at {address}: {error}")
    with client:
        asked = {client.submit(subprocess.check_output, list(call), text=True, pure=False): place
                 for place, call in enumerate(calls)}
        for future in distributed.as_completed(asked):
            yield asked[future], future.result()
            future.release()
