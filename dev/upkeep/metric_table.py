"""The metrics of the daemon, of tables/metrics.toml: what dev/tables writes of them."""
from __future__ import annotations

import re
import textwrap
from collections.abc import Iterator
from typing import Any

WIDTH = 120

Metric = dict[str, Any]


def metrics(table: dict[str, Any]) -> list[Metric]:
    return [it for group in table["group"] for it in group["metrics"]]


def constant(it: Metric) -> str:
    return it["name"].upper()


def help_of(it: Metric) -> str:
    return f"The number of {it['counts']}." if "counts" in it else it["help"]


def families(table: dict[str, Any]) -> Iterator[str]:
    """A constant for each metric."""
    for it in metrics(table):
        first, second = f'    {constant(it)} {it["kind"].capitalize()} "{it["name"]}"', f'"{help_of(it)}";'
        one = f"{first} {second}"
        yield from [one] if len(one) <= WIDTH else [first, f"        {second}"]


def counters(table: dict[str, Any]) -> Iterator[str]:
    """The daemon's counters."""
    for it in metrics(table):
        if "field" in it:
            yield from (f"    /// {help_of(it)}", f"    pub {it['field']}: u64,")


def counts(table: dict[str, Any]) -> Iterator[str]:
    """Where each count is read."""
    for it in metrics(table):
        if "counts" in it:
            value = f"it.{it['field']}" if "field" in it else it["value"]
            yield f"        count(&families::{constant(it)}, {value}{' as u64' * (it['kind'] == 'gauge')}),"


def documented(table: dict[str, Any]) -> Iterator[str]:
    """The metrics of each group, with their labels."""
    for group in table["group"]:
        names = ", ".join(map(documented_name, group["metrics"]))
        yield from textwrap.wrap(f"- {group['says']}: {names}", WIDTH, subsequent_indent="  ")


def documented_name(it: Metric) -> str:
    more = ["a histogram"] * (it["kind"] == "histogram")
    if "by" in it:
        more.append(f"by {' and '.join(f'`{label}`' for label in it['by'])}")
    return f"`{it['name']}`" + (f" ({', '.join(more)})" if more else "")


def unknown(table: dict[str, Any], text: str) -> list[str]:
    """The metrics that a text names, and that there aren't."""
    known = {it["name"] + end for it in metrics(table)
             for end in ("", *(["_bucket", "_sum", "_count"] if it["kind"] == "histogram" else []))}
    return sorted(set(re.findall(r"\bviqeshor_([a-z_]+)", text)) - known)
