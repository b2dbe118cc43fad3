"""What a diagnosis is made of: causes, and the symptoms that follow from them."""
from __future__ import annotations

from collections import Counter
from collections.abc import Callable, Iterable
from dataclasses import dataclass, field
from typing import TYPE_CHECKING

if TYPE_CHECKING:
    from viqeshor.lab.lines import Line

# How many refusals are told below a cause.
MOST_ODD = 4


@dataclass(frozen=True)
class Symptom:
    """Something that a reader sees: `kind` is one of pimtext.ways.ends, or "odd" for a refused or ignored packet, or
    "unheard" for packets that nobody took. What it concerns is None where it concerns nothing of the kind; `cause` is a
    refusal's number or reason."""
    kind: str
    line: int | Line
    text: str
    router: str | None = None
    link: str | None = None
    address: str | None = None
    cause: str | None = None
    group: str | None = None
    source: str | None = None
    host: str | None = None
    # How it is told where no cause explains it, and the step of the first packet that it concerns.
    alone: str | None = None
    at: int | None = None
    # The link on which the host asks.
    place: str | None = None
    # Where packets that came twice were sent twice: a link, and the two routers.
    pairs: tuple = ()


@dataclass(eq=False)
class Cause:
    """`covers` says of a symptom whether it follows from the cause. A hint is told only where it explains something."""
    line: int | Line
    text: str
    covers: Callable[[Symptom], bool] = lambda symptom: False
    symptoms: list = field(default_factory=list)
    is_hint: bool = False

    def weight(self) -> tuple[int, int]:
        """How many streams of hosts it explains, and then how many other symptoms."""
        streams = sum(symptom.host is not None and symptom.kind != "odd" for symptom in self.symptoms)
        return streams, len(self.symptoms)

    def lines(self) -> list[str]:
        """The cause, and below it each of its symptoms once, with how often it is there."""
        counts = Counter(map(self.told, sorted(self.symptoms, key=lambda symptom: symptom.kind == "odd")))
        new = [(text, count) for text, count in counts.items() if text not in self.text]
        told = [f"    {text}" + (f" ({count} times)" if count > 1 else "") for text, count in new]
        odd = len({symptom.text for symptom in self.symptoms if symptom.kind == "odd"} & {text for text, _ in new})
        if odd > MOST_ODD:
            told = [*told[:len(told) - odd + MOST_ODD], f"    and {odd - MOST_ODD} more like the last"]
        return [f"{self.line}: {self.text}", *told]

    def told(self, symptom: Symptom) -> str:
        """A symptom with its own reason, where the cause doesn't say that itself."""
        is_said = symptom.alone is None or symptom.alone == self.text or symptom.kind == "odd"
        return symptom.text if is_said else f"{symptom.text}: {symptom.alone}"


def attached(causes: list[Cause], symptoms: Iterable[Symptom]) -> list[Symptom]:
    """Puts each symptom under the first cause that covers it. Answers those that none does."""
    left = []
    for symptom in symptoms:
        found = next((cause for cause in causes if cause.covers(symptom)), None)
        (found.symptoms if found else left).append(symptom)
    return left


def grouped(symptoms: Iterable[Symptom]) -> list[Cause]:
    """Symptoms without a cause: those of one end or refusal are told once, each a cause of its own."""
    found = {}
    for symptom in symptoms:
        key = symptom.alone or symptom.text
        cause = found.setdefault(key, Cause(symptom.line, key))
        if symptom.alone:
            cause.symptoms.append(symptom)
    return list(found.values())
