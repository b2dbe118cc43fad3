"""What `pimtext.shown.views` has of a router, as tables for people."""
from collections.abc import Iterable, Iterator
from typing import Any

from viqeshor.lab import words


def table(title: str, heads: list[str], rows: list[list[Any]]) -> Iterator[str]:
    """A table with its columns below one another; nothing where it has no rows."""
    if not rows:
        return
    cells = [heads, *[[("-" if cell is None else str(cell)) for cell in row] for row in rows]]
    widths = [max(map(len, column)) for column in zip(*cells)]
    yield f"  {title}"
    for row in cells:
        yield "    " + "  ".join(text.ljust(width) for text, width in zip(row, widths)).rstrip()


def at(told: dict[str, Any] | None) -> str:
    return "-" if told is None else f"{told['interface']} {told['link']}"


def until(moment: float | str | None) -> str:
    return "never" if moment == "never" else words.seconds(moment)


def outgoing_words(entry: dict[str, Any]) -> list[str]:
    """Each interface of the list with its reasons, then those that are kept off it."""
    said = [f"{at(each)} ({', '.join(each['why'])})" for each in entry["outgoing"]]
    said += ["register"] * entry["registers"]
    return said + [f"not {at(each)} ({'; '.join(each['kept_off'])})" for each in entry["kept_off"]]


def coming_words(entry: dict[str, Any]) -> str:
    """Where packets come from; at the RP, what isn't taken from a source's tree comes in Registers."""
    return "Registers" if entry["is_rp"] and entry["by"] == "shared tree" else at(entry["incoming"])


def mroute_rows(entries: Iterable[dict[str, Any]]) -> Iterator[list[Any]]:
    """A row for each interface that an entry names; the entry's own columns stand in the first."""
    for entry in entries:
        head = [entry["source"], entry["group"], entry["flags"], coming_words(entry), entry["rpf_neighbour"]]
        first, *rest = outgoing_words(entry) or ["none"]
        yield [*head, first]
        yield from (["", "", "", "", "", each] for each in rest)


def upstream_row(entry: dict[str, Any]) -> list[Any]:
    joined = "joined" if entry["joined"] else "not joined"
    neighbour = entry["rpf_neighbour"] and entry["rpf_neighbour"] + " (assert winner)" * entry["by_assert"]
    leaves = f"none: {entry['why_none']}"
    if entry["sends_joins"]:
        leaves = f"to {entry['rpf_neighbour']} at {until(entry['next_join'])}"
    head = [entry["source"], entry["group"], at(entry["rpf"]), neighbour, joined, leaves]
    return [*head, until(entry["kept_alive_until"]), entry["rpt"]]


def interface_row(entry: dict[str, Any]) -> list[Any]:
    if not entry["is_up"]:
        return [at(entry), entry["address"], "down", None, None]
    others = [("itself" if entry[mine] else entry[name]) for name, mine in (("dr", "is_dr"), ("querier", "is_querier"))]
    return [at(entry), entry["address"], "up", *others]


def neighbour_row(entry: dict[str, Any]) -> list[Any]:
    options = [entry[name] for name in ("priority", "generation", "propagation", "override")]
    return [at(entry), entry["address"], "DR" if entry["is_dr"] else "", until(entry["until"]), *options]


def group_row(entry: dict[str, Any]) -> list[Any]:
    sources = [("not " if each["is_excluded"] else "") + each["source"] for each in entry["sources"]]
    whose = "yes" if entry["is_served"] else "no"
    return [at(entry), entry["group"], entry["mode"], until(entry["until"]), ", ".join(sources) or None,
        entry["querier"], whose]


def rp_row(entry: dict[str, Any]) -> list[Any]:
    priority = "" if entry["priority"] is None else f", priority {entry['priority']}"
    towards = "itself" if entry["is_own"] else at(entry["rpf"])
    groups = ", ".join(entry["groups"]) or None
    return [entry["range"], entry["rp"], f"{entry['named_by']}{priority}", towards, groups]


def tables(view: dict[str, Any]) -> Iterator[tuple[str, list[str], list[list[Any]]]]:
    """What a router knows as tables: a title, headings and rows of each."""
    yield "show ip mroute", ["Source", "Group", "Flags", "Incoming", "From",
        "Outgoing"], list(mroute_rows(view["mroute"]))
    heads = ["Source", "Group", "RPF", "RPF'", "State", "Join", "Kept alive until", "(S,G,rpt)"]
    yield "show ip pim upstream", heads, list(map(upstream_row, view["upstream"]))
    heads = ["Interface", "Address", "State", "DR", "IGMP querier"]
    yield "show ip pim interface", heads, list(map(interface_row, view["interfaces"]))
    heads = ["Interface", "Neighbour", "DR", "Until", "Priority", "Generation", "Propagation", "Override"]
    yield "show ip pim neighbor", heads, list(map(neighbour_row, view["neighbours"]))
    heads = ["Interface", "Group", "Mode", "Until", "Sources", "Querier", "Served here"]
    yield "show ip igmp groups", heads, list(map(group_row, view["groups"]))
    yield "show ip pim rp-info", ["Range", "RP", "Named by", "Towards", "Groups"], list(map(rp_row, view["rps"]))


def text(view: dict[str, Any]) -> Iterator[str]:
    """The lines of a router."""
    yield f"router {view['router']} at {words.seconds(view['moment'])}"
    for each in tables(view):
        yield from table(*each)
