"""Refuses memory to the library, one allocation at a time, and looks at what it says then.

    torture/run memory [--seconds N] [--unproved | --from FOLDER | --archive FILE] [FILE.toml ..]

Each router of a scenario is played through the static library: its moves, and the packets that by its stored lines
(FILE.out) were delivered to it. It is played once more as behind a data plane, which reports each packet of data by
viq_seen and viq_keep. Each run is played once in full, and then once for each allocation of that run, which is refused.
Each such run must be as the full one up to the call at which memory was refused: packets, forwarding cache, next
moment, costs. That call gives one of two answers. VIQ_LOST: then each later call answers that the router is lost, and
only the rows that were read before can be read. VIQ_MEMORY, only by viq_new, viq_read, viq_routes, viq_ranges and
viq_candidates, and by viq_save and viq_restore at the end of the run: then nothing has changed, and the call is made
again. Where the router can do without the memory, such as room that it keeps for later packets, the whole run is as the
full one. An event that is ignored, or refused for its bytes, its timestamp or its interface, never loses the router. In
the end no block is left. Without files the stored scenarios are played, the small ones first, for at most N seconds
(300). A line for each router and a sum are printed.

Then come the calls of a listener for Bootstraps, in random runs and in the trials of `torture/run bootstraps`, as many
as begin in N seconds more: each call is made once for each of its allocations, which is refused, and then with none
refused. It answers VIQ_MEMORY, and nothing has changed, or VIQ_LOST, and the listener is as it was; what comes then has
to be what the reading of RFC 5059 says. A message that doesn't count takes no memory. Last come those of candidacies,
in the same way, in random runs of `torture/run elections`. The exit status is 1 where anything else came.
"""
import argparse
import re
import subprocess
import time
from collections import Counter
from collections.abc import Iterable, Iterator
from pathlib import Path
from typing import Any

from pimtext.build.library import add_choice, chosen
from stress import candidacies, listeners
from stress.plane import refusing
from stress.stored import STORED, Stored, routers
from viqeshor.lab import fed, story
from viqeshor.lab.addresses import address_in, prefix_in

PLAYER = Path(__file__).resolve().parent.parent / "refuse" / "library.c"
SUM = re.compile(r"(\d+) routers lost, (\d+) calls that changed nothing, (\d+) done without, (\d+) other")
# What its numbers are: lost, nothing changed, done without, and anything else.
CAME = ("lost", "unchanged", "without", "other")
WRAPS = [f"-Wl,--wrap={name}" for name in ("malloc", "realloc", "free")]


def prefix(text: str) -> str:
    return " ".join(map(str, prefix_in(text)))


def route_lines(texts: Iterable[str]) -> Iterator[str]:
    for net, hop, *rest in fed.routes(texts):
        yield " ".join(map(str, ["route", prefix(net), address_in(hop), *rest]))


def range_lines(texts: Iterable[str]) -> Iterator[str]:
    for net, rp in fed.ranges(texts):
        yield f"range {prefix(net)} {address_in(rp)}"


def candidate_lines(texts: Iterable[str]) -> Iterator[str]:
    for net, rp, *rest in fed.candidates(texts):
        yield " ".join(map(str, ["candidate", prefix(net), address_in(rp), *rest]))


LISTS = {"routes": route_lines, "ranges": range_lines, "candidates": candidate_lines}


def config_lines(table: dict[str, Any]) -> Iterator[str]:
    """A router's table in the file, as the player reads it."""
    for own, *rest in fed.interfaces(table):
        yield " ".join(map(str, ["interface", address_in(own), *rest]))
    yield from route_lines(table.get("routes", []))
    yield from range_lines(table.get("rps", []))
    *settings, addresses = fed.settings(table).values()
    yield from (f"address {address_in(own)}" for own in addresses)
    yield " ".join(map(str, ["new", *map(int, settings)]))


def event_lines(step: story.Step) -> Iterator[str]:
    """What a router took in a step."""
    event = fed.event(step)
    if event is None:
        return
    values = event.values
    if event.name in LISTS:
        yield from LISTS[event.name](*values)
        values = ()
    words = [value.hex() if isinstance(value, bytes) else value for value in values]
    yield " ".join(map(str, [event.name, event.draw, *words]))


def played(router: Stored) -> str:
    """The lines that play a router; none where nothing came to it."""
    events = [line for step in router.steps for line in event_lines(step)]
    return "\n".join([*config_lines(router.table), *events]) + "\n" if events else ""


def stored() -> list[Path]:
    return sorted(STORED.glob("*.toml"), key=lambda path: path.with_suffix(".out").stat().st_size)


def refused(player: Path, router: Stored, lines: str) -> Counter[str]:
    """What came of the runs of a router, which is printed."""
    said = subprocess.run([player], input=lines, capture_output=True, text=True).stdout
    print(f"{router.scenario} {router.name}: {said.strip()}", flush=True)
    if (found := SUM.search(said)) is None:
        return Counter(other=1, routers=1)
    return Counter(dict(zip(CAME, map(int, found.groups())))) + Counter(routers=1)


def add_words(parser: argparse.ArgumentParser) -> None:
    parser.add_argument("--seconds", type=int, default=300, metavar="N")
    add_choice(parser)
    parser.add_argument("files", nargs="*", type=Path, metavar="FILE.toml")


def is_right(asked: argparse.Namespace) -> bool:
    library = chosen(asked)[0]
    player = library.program(PLAYER, *WRAPS)
    end, scenarios, sums = time.monotonic() + asked.seconds, 0, Counter()
    for path in asked.files or stored():
        if time.monotonic() > end:
            break
        scenarios += 1
        for router in routers([path]):
            if lines := played(router):
                sums += refused(player, router, lines)
    print(f"{sums['lost']} routers lost, {sums['unchanged']} calls that changed nothing and {sums['without']} done "
          f"without, in runs of {sums['routers']} routers of {scenarios} scenarios, {sums['other']} with another "
          "outcome")
    fronts = [front.is_right(refusing(library), asked.seconds) for front in (listeners, candidacies)]
    return all(fronts) and not sums["other"]
