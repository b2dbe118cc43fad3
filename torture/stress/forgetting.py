"""What the tools have in common that compare routers with a reading in random runs, which may be told to forget a
rule."""
import argparse
import time
from collections.abc import Callable, Iterable
from pathlib import Path

from pimtext.build.library import add_choice


def add_runs(parser: argparse.ArgumentParser, seconds: float, events: int, of: str = "of a random run") -> None:
    parser.add_argument("--seconds", type=float, default=seconds, metavar="N", help="of random runs")
    parser.add_argument("--seed", type=int, default=1, metavar="N")
    parser.add_argument("--events", type=int, default=events, metavar="N", help=of)


def add_rules(
    parser: argparse.ArgumentParser, rules: Iterable[str], one: str = "rule", all_of: str = "rules"
) -> argparse._MutuallyExclusiveGroup:
    """What is forgotten, and the library."""
    what = parser.add_mutually_exclusive_group()
    what.add_argument("--forget", choices=sorted(rules), metavar=one.upper())
    what.add_argument("--each", action="store_true", help=f"try every {one}")
    what.add_argument(f"--{all_of}", action="store_true", help="list them", dest="is_listed")
    return add_choice(parser)


def is_right(
    asked: argparse.Namespace, rules: dict[str, str], library: Callable[[argparse.Namespace], Path],
    is_noticed: Callable[[Path, str, argparse.Namespace], bool], compare: Callable[[Path, argparse.Namespace], bool],
) -> bool:
    """Lists the rules, tries whether it is noticed that one is forgotten, or compares."""
    if asked.is_listed:
        print("\n".join(f"{rule}: {words}" for rule, words in rules.items()))
        return True
    found = library(asked)
    if asked.forget or asked.each:
        return all([is_noticed(found, rule, asked) for rule in ([asked.forget] if asked.forget else rules)])
    return compare(found, asked)


def all_runs(asked: argparse.Namespace, run: Callable[[int], int | None], events: str = "events") -> bool:
    """Random runs, for so many seconds. A run says by its seed how many events it had; None where something differs."""
    end, seed, count = time.monotonic() + asked.seconds, asked.seed, 0
    while time.monotonic() < end:
        if (more := run(seed)) is None:
            return False
        seed, count = seed + 1, count + more
    print(f"{seed - asked.seed} runs, {count} {events}: no divergence", flush=True)
    return True


def said_of(rule: str, rules: dict[str, str], seed: int | None, trial: str | None = None) -> bool:
    """Whether it is noticed that a rule is forgotten, which is printed."""
    came = f"in trial {trial}" if trial else f"with seed {seed}" if seed else "nowhere"
    print(f"{rule} ({rules[rule]}): differs {came}", flush=True)
    return bool(trial or seed)
