"""A run, or two beside one another, as one HTML page that needs no server and no network."""
from __future__ import annotations

import html
import json
import re
import shutil
import subprocess
import tempfile
from collections import defaultdict
from collections.abc import Callable, Iterable, Iterator
from dataclasses import dataclass, field
from pathlib import Path
from typing import TYPE_CHECKING, Any

from pimtext.causes import diagnosis
from pimtext.files import pimlab
from pimtext.shown import layout, recorded
from viqeshor.lab import colours, faults, places, scenario, story, toml_lines

if TYPE_CHECKING:
    from viqeshor.lab.lines import Lines

FOLDER = Path(__file__).resolve().parent / "page"
# The scripts of the page, in their order.
SCRIPTS = ["run.js", "map.js", "panels.js", "play.js"]
# A map is so many times as wide as it is high; two share the height.
WIDE = 1.7
# A run of more moves is shown by time, where nothing else is asked for.
MANY_MOVES = 500


@dataclass
class Told:
    """A run to be shown: its name, the text of its scenario, and of a network of tools/lab the names of hosts by
    address, the lines of its file, what hosts didn't hear, and what was played. Where it is by time, a stop of the
    slider is all moves of one time; where that is None, in a run of many moves."""
    name: str
    text: str
    hosts: dict = field(default_factory=dict)
    places: Lines | None = None
    unheard: frozenset = frozenset()
    is_by_time: bool | None = None
    played: tuple[scenario.Scenario, story.Story] | None = None

    def read(self) -> tuple[faults.Judge | faults.LateJudge, scenario.Scenario, story.Story]:
        """What judged the text, the scenario, and its run. Raises pimlab.Refused where it isn't played."""
        if self.played:
            return faults.LateJudge(self.text), *self.played
        lines = pimlab.run_text(self.text)
        judge = faults.faults_of(self.text)[0]
        played = scenario.scenario_of(toml_lines.plain(judge.root))
        return judge, played, story.played(played, lines)


def notes_of(found: diagnosis.Diagnosis, numbers: dict[int, int], named: Callable[[str], str]) -> Iterator[list[Any]]:
    """The causes of a diagnosis: the stop at which each shows first, 0 for none, its text, and its symptoms."""
    for cause in found.ordered():
        head, *symptoms = cause.lines()
        text = head.partition(": ")[2]
        number = re.match(r"move (\d+)", text)
        places = [found.run.steps[each.at].move for each in cause.symptoms if each.at is not None
                  and each.at < len(found.run.steps)]
        move = int(number[1]) if number else min(places, default=0)
        yield [numbers.get(move, 0), named(text), [named(symptom.strip()) for symptom in symptoms]]


def run_of(told: Told) -> dict[str, Any]:
    """What the page has of a run. Raises pimlab.Refused where the program doesn't play it."""
    judge, played, run = told.read()
    found = diagnosis.Diagnosis(judge, played, run, told.places, told.unheard)
    is_by_time = len(played.moves) > MANY_MOVES if told.is_by_time is None else told.is_by_time
    recording = recorded.Recording(played, told.hosts, is_by_time).record(run.steps)
    shown = recording.told(found)
    return {"name": told.name, "notes": list(notes_of(found, shown.pop("numbers"), recording.named)), **shown}


def together(runs: list[dict[str, Any]]) -> tuple[list[str], dict[str, list[str]], list[dict[str, str]]]:
    """Routers, links with the routers on them, and hosts of all runs, by their names."""
    routers, ports, hosts = {}, defaultdict(list), {}
    for run in runs:
        for router in run["routers"]:
            if router["name"] not in routers:
                routers[router["name"]] = router
                for link, _ in router["ifaces"]:
                    ports[link].append(router["name"])
        for host in run["hosts"]:
            hosts.setdefault(host["address"], {key: host[key] for key in ("name", "address", "link")})
    return list(routers), ports, list(hosts.values())


def data(runs: list[dict[str, Any]], start: int) -> dict[str, Any]:
    """All that the page needs, ready for JSON."""
    routers, ports, hosts = together(runs)
    by_link = defaultdict(list)
    for host in hosts:
        by_link[host["link"]].append(host["address"])
    kinds = places.kinds(list(ports), ports, by_link)
    sources = [run["hosts"][host]["address"] for run in runs for move in run["moves"] for host, at in move[4]
               if is_data(run, at)]
    ratio = WIDE if len(runs) == 1 else 2 * WIDE
    where, box = layout.places(routers, kinds, ports, by_link, list(dict.fromkeys(sources))[:3], ratio)
    trees = [tuple(tree) for run in runs for tree in run["trees"] + run["streams"]]
    names = {f"({source}, {group})": colour for (group, source), colour in colours.colours(trees).items()}
    return {"runs": runs, "places": where, "box": box, "kinds": kinds, "hosts": hosts, "colours": names, "start": start}


def is_data(run: dict[str, Any], at: int) -> bool:
    return ": data" in run["texts"][run["steps"][at][9]]


def page(tolds: Iterable[Told], start: int = 0) -> str:
    """The text of the page; it opens at the move `start` of the first run."""
    runs = [run_of(told) for told in tolds]
    told = json.dumps(data(runs, start), separators=(",", ":"), ensure_ascii=False).replace("</", "<\\/")
    title = html.escape(" beside ".join(run["name"] for run in runs))
    script = "".join((FOLDER / name).read_text() for name in SCRIPTS)
    text = (FOLDER / "play.html").read_text().replace("TITLE", title)
    text = text.replace("/*STYLE*/", (FOLDER / "play.css").read_text()).replace("/*SCRIPT*/", script)
    return text.replace("/*DATA*/", told)


def picture(text: str, out: str | Path, size: tuple[int, int] = (1500, 860)) -> bool:
    """A picture of a page as a browser shows it, as PNG. Answers whether there is a browser."""
    browser = shutil.which("chromium") or shutil.which("chromium-browser")
    if browser is None:
        return False
    with tempfile.TemporaryDirectory(prefix="play-", ignore_cleanup_errors=True) as folder:
        page = Path(folder) / "page.html"
        page.write_text(text)
        words = ["--headless", "--no-sandbox", "--disable-gpu", "--hide-scrollbars",
                 f"--user-data-dir={folder}/browser",
                 f"--window-size={size[0]},{size[1]}", "--virtual-time-budget=3000", f"--screenshot={out}"]
        subprocess.run([browser, *words, page.as_uri()], capture_output=True, check=True, timeout=120)
    return True
