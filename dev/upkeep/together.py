"""Many edits in one check: those of a crate that change functions of their own, put to the prover at once.

A function is proved by the contracts of those that it calls; its code and its proof are private to it (`rattle check
--help`). So what the prover says of one function tells of the edit that changed it alone. Functions that call one
another have one proof (`#[cycle(NAME)]`), so no two edits of a cycle are in one check."""
from __future__ import annotations

import re
import shutil
import signal
from collections.abc import Iterable, Iterator
from pathlib import Path
from typing import TYPE_CHECKING

from pimtext.build import kit
from pimtext.build.checks import ran
from upkeep.edits import ERROR, KINDS, Crate, Edit, Reason, clause_of

if TYPE_CHECKING:
    from upkeep.functions import Found, Function

PARTS = ("src", "specs", "proofs")
# The lines on each edit that is refused, each with the reason that it tells, if it tells one.
Told = dict[Edit, list[tuple[str, "Reason | None"]]]
# What came of an edit, and what there is to say.
Answer = tuple[str, str]
# What the front end says of a line of the code: then no function is put to the prover.
BY_FRONT_END = re.compile(r"(src/\S+?):(\d+):\d+: error\[[\w-]+\]")
# What the prover says of a function, and of one that it doesn't try.
PROVED = re.compile(r"fn (\S+): proved")
WAITS = re.compile(r"fn (\S+): (?:not proved|no proof)[;:] it calls `")
# A function that was asked for by a name that the kit doesn't give it.
UNKNOWN = re.compile(r"has no function `([^`]+)`")
SEVERAL = re.compile(r"several functions are named `\w+`: help: write one of (.*)")
# The last line of a check of some functions.
ENDED = re.compile(r"only=\d+ ")
CONSTANT = re.compile(r"\s*(?:pub(?:\([a-z]+\))? )?const (\w+):")
CYCLE = re.compile(r"\s*#\[cycle\((\w+)\)\]")


class Batch(Edit):
    """Edits that change functions of their own, as one edit of all."""

    def __init__(self, edits: list[Edit]) -> None:
        super().__init__("together", [line for edit in edits for line in edit.lines], edits[0].crate)
        self.edits, self.of = edits, {changed(edit): edit for edit in edits}


def last_line(lines: list[str], first: int) -> int:
    """The number of the line on which the function ends that begins on this one."""
    head = lines[first - 1]
    closing = " " * (len(head) - len(head.lstrip())) + "}"
    return next(number for number, line in enumerate(lines[first:], first + 1) if line == closing)


def lines_changed(edit: Edit) -> Iterator[tuple[str, int]]:
    """The files and the numbers of the lines that an edit changes."""
    at = ""
    for line in edit.lines:
        if line.startswith("file: "):
            at = line.removeprefix("file: ").strip()
        elif line.startswith("old: "):
            before, old, _ = edit.crate.files[at].partition(line.removeprefix("old: "))
            # Else it is what the edit itself has put in.
            if old:
                yield at, before.count("\n") + 1


def function_on(crate: Crate, file: str, number: int) -> Function | None:
    """The function whose lines this one is among."""
    lines = crate.files[file].splitlines()
    above = [one for one in crate.found[file] if one.line <= number]
    return above[-1].function if above and number <= last_line(lines, above[-1].line) else None


def function_with(crate: Crate, line: str) -> Function | None:
    """The function that reads the constant which this line gives its value; None where none does, or several do."""
    if not (constant := CONSTANT.match(line)):
        return None
    found = {function_on(crate, file, number) for file, text in crate.files.items()
        for number, its in enumerate(text.splitlines(), 1) if re.search(rf"\b{constant[1]}\b", its)}
    found.discard(None)
    return found.pop() if len(found) == 1 else None


def changed(edit: Edit) -> Function | None:
    """The one function that an edit changes the body of, or a constant of; None where it changes more than that."""
    if not edit.files() <= set(edit.crate.files) or edit.error():
        return None
    found = {function_on(edit.crate, file, number)
        or function_with(edit.crate, edit.crate.files[file].splitlines()[number - 1])
             for file, number in lines_changed(edit)}
    return found.pop() if len(found) == 1 else None


def proved_with(edit: Edit) -> object:
    """What has one proof: the function that an edit changes, or the cycle of calls that it is in."""
    function = changed(edit)
    for file, found in edit.crate.found.items():
        lines = edit.crate.files[file].splitlines()
        for at in (one.line - 2 for one in found if one.function == function):
            while at >= 0 and lines[at].lstrip().startswith(("#[", "//")):
                if cycle := CYCLE.match(lines[at]):
                    return cycle[1]
                at -= 1
    return function


def batches(edits: Iterable[Edit], most: int = 40) -> Iterator[Batch]:
    """The edits that change one function each, in as few checks as their functions allow."""
    left = [edit for edit in edits if changed(edit)]
    while left:
        taken, functions, texts = [], set(), dict(left[0].crate.files)
        for edit in left:
            if len(taken) < most and proved_with(edit) not in functions and edit.applies(texts):
                taken.append(edit)
                functions.add(proved_with(edit))
        if not taken:
            return
        yield Batch(taken)
        left = [edit for edit in left if edit not in taken]


def without_block(path: str) -> str:
    """A path without the types by which the kit tells apart the blocks of a type (`Timed+R`)."""
    return re.sub(r"\+\w+::", "::", path)


class Prover:
    """The kit's program on a crate, in a copy of its files. The words name what stands below it; those before them hold
    the program, where it isn't to outlive what runs it."""

    def __init__(self, crate: Crate, room: Path, words: list[str], before: Iterable[str] = ()) -> None:
        self.folder, self.room = room / crate.name, room
        for part in PARTS:
            if (crate.folder / part).is_dir():
                shutil.copytree(crate.folder / part, self.folder / part)
        root = next(it for it in ("src/lib.rt", "src/main.rt") if (self.folder / it).exists())
        program = f"{kit.kit()}/bin/rattle"
        self.command = [*before, program, "check", "--crate-name", crate.name, root, *words, "--jobs", "1"]

    def says(self, edit: Edit, only: Iterable[str], anew: bool = False) -> list[str]:
        """What it says of some functions with an edit in the crate, over what it kept of earlier checks, or anew."""
        over = self.room / ("anew" if anew else "kept")
        shutil.rmtree(self.room / "anew", ignore_errors=True)
        over.mkdir(exist_ok=True)
        words = [*self.command, *(word for one in only for word in ("--only", one)), "--incremental", str(over)]
        for file in edit.files():
            (self.folder / file).write_text(edit.edited(file), encoding="utf-8")
        status, lines = ran(words, self.folder)
        if unknown := next(filter(None, map(UNKNOWN.search, lines)), None):
            words = self.by_its_end(words, unknown[1])
            status, lines = ran(words, self.folder)
        if status == -signal.SIGKILL:
            # Most likely for memory.
            status, lines = ran(words, self.folder)
        for file in edit.files():
            (self.folder / file).write_text(edit.crate.texts[file], encoding="utf-8")
        return lines

    def by_its_end(self, words: list[str], name: str) -> list[str]:
        """The command where the kit doesn't know a function by its type, which has several blocks: by its name alone,
        or by that of the names that the kit offers for it."""
        end = name.rpartition("::")[2]
        shorter = [end if word == name else word for word in words]
        for found in filter(None, map(SEVERAL.search, ran(shorter, self.folder)[1])):
            whole = (it for it in re.findall(r"`([^`]+)`", found[1]) if without_block(it).endswith(f"::{name}"))
            return [next(whole, end) if word == name else word for word in words]
        return shorter


def by_front_end(batch: Batch, lines: list[str]) -> Told:
    """The front end's line on each edit that it refuses."""
    found: Told = {}
    for line in lines:
        told = BY_FRONT_END.match(line.removeprefix("note: "))
        if told and told[1] in batch.crate.files:
            one: Found | None = batch.function_at(told[1], int(told[2]))
            if one and one.function in batch.of:
                found.setdefault(batch.of[one.function], [(line, None)])
    return found


def by_prover(batch: Batch, lines: list[str]) -> Told:
    """The prover's lines on each edit that it refuses, with the reasons that they tell, first those that an edit may
    name: what the function ensures, and then what else it has to keep."""
    found: Told = {}
    for line in lines:
        for reason in batch.reasons(line):
            if reason.found.function in batch.of:
                found.setdefault(batch.of[reason.found.function], []).append((line, reason))
    for told in found.values():
        told.sort(key=lambda it: rank(batch, it[1]))
    return found


def rank(batch: Batch, reason: Reason) -> int:
    """How well a reason tells why its function is refused, the best first."""
    clause = clause_of(reason.goal)
    kinds = ["ensures", "loop", "invariant", *sorted(KINDS - {"ensures", "loop", "invariant"})]
    if not batch.crate.can_name(reason):
        return len(kinds)
    return kinds.index(clause) if clause in kinds else 0


def path_of(function: Function) -> str:
    """A function's path below its crate as a check prints it, of a method without the modules."""
    modules = [it for it in function.module if it not in ("lib", "main", "mod")]
    owner = function.owner[:1].upper() + function.owner[1:] + function.trait + function.types
    return "::".join([*([owner] if function.owner else modules), function.name])


def in_state(batch: Batch, lines: list[str], state: re.Pattern[str]) -> set[Edit]:
    """The edits of those functions of which the prover says this."""
    paths = [without_block(told[1]) for told in map(state.match, lines) if told]
    crate = batch.crate.name
    return {edit for one, edit in batch.of.items() for path in paths
            if path == f"{crate}::{path_of(one)}" or one.owner and path.endswith(f"::{path_of(one)}")}


def put_together(batch: Batch, prover: Prover, anew: bool = False) -> Iterator[tuple[Edit, Answer]]:
    """What comes of each edit of a batch. Where the front end refuses some, the others are checked again without these;
    so are those that the prover hasn't tried, since another edit of the batch was refused. Where the check doesn't come
    to its end each is checked by itself."""
    while True:
        lines = prover.says(batch, sorted(map(path_of, batch.of)), anew)
        told, left = by_front_end(batch, lines), []
        if told:
            left = [edit for edit in batch.edits if edit not in told]
        elif not any(map(ENDED.match, lines)):
            if len(batch.edits) == 1:
                yield batch.edits[0], ("not tried", front_line(lines))
            for edit in batch.edits if len(batch.edits) > 1 else ():
                yield from put_together(Batch([edit]), prover, anew)
            return
        else:
            told = by_prover(batch, lines)
            left = [edit for edit in in_state(batch, lines, WAITS) if edit not in told]
        proved = in_state(batch, lines, PROVED)
        for edit in batch.edits:
            if edit not in left or len(left) == len(batch.edits):
                lines_on = told.get(edit, [])
                yield edit, ("STILL PROVED", "") if edit in proved and not lines_on else answer(edit, lines_on)
        if not left or len(left) == len(batch.edits):
            return
        batch = Batch(left)


def answer(edit: Edit, told: list[tuple[str, Reason | None]]) -> Answer:
    """What came of an edit that isn't proved, by the lines on its function and the reasons that they tell."""
    if not told:
        return "NOT AS IT SAYS", "the prover tells no goal that isn't met"
    if not edit.wanted and told[0][1]:
        return "NAMES NO CLAUSE", told[0][0]
    met = (line for line, reason in told for name, clause in edit.wanted
        if reason and reason.found.function.is_named(name) and reason.is_of(clause))
    line = next(met, None)
    return ("refused", line) if line else ("NOT AS IT SAYS", told[0][0])


def by_itself(edit: Edit, prover: Prover, anew: bool = False) -> Answer:
    """What comes of an edit that changes more than one function, which none other is tried with."""
    named = [one.function for words in edit.wanted for one in edit.crate.named(words[0])]
    lines = prover.says(edit, sorted({path_of(one) for one in named}), anew)
    if met := next(filter(edit.meets, lines), None):
        return "refused", met
    if "only=" not in (lines or [""])[-1]:
        return ("NOT AS IT SAYS" if any(map(BY_FRONT_END.search, lines)) else "not tried"), front_line(lines)
    paths = [told[1] for told in map(PROVED.match, lines) if told]
    is_proved = all(any(path.endswith(f"::{path_of(one)}") for path in paths) for one in named)
    return ("STILL PROVED", "") if is_proved else ("NOT AS IT SAYS", front_line(lines))


def front_line(lines: list[str]) -> str:
    """The line of a check with an error, or else its last."""
    return next(filter(ERROR.search, lines), lines[-1] if lines else "it said nothing")


def by_types(edit: Edit, prover: Prover) -> Answer:
    """What the front end says of an edit that no type allows."""
    line = front_line(prover.says(edit, [""]))
    return ("refused" if edit.error() in ERROR.findall(line) else "NOT AS IT SAYS"), line


def all_tried(edits: list[Edit], prover: Prover) -> Iterator[tuple[Edit, Answer]]:
    """What comes of each of these edits of a crate. One that is still proved is tried once more, alone and from
    nothing."""
    flaws = {edit: flaw for edit in edits if (flaw := edit.flaw())}
    yield from ((edit, ("NOT AS IT SAYS" if edit.applies() else "does not apply", it)) for edit, it in flaws.items())
    whole = [edit for edit in edits if edit not in flaws]
    yield from ((edit, by_types(edit, prover)) for edit in whole if edit.error())
    for batch in batches(whole):
        for edit, came in put_together(batch, prover):
            again = put_together(Batch([edit]), prover, anew=True) if came[0] == "STILL PROVED" else ()
            yield next(iter(again), (edit, came))
    for edit in (it for it in whole if not it.error() and not changed(it)):
        if not edit.wanted:
            yield edit, ("NAMES NO CLAUSE", "it changes more than one function, so it is tried where it names a clause")
            continue
        came = by_itself(edit, prover)
        yield edit, by_itself(edit, prover, anew=True) if came[0] == "STILL PROVED" else came


def read_by_front_end(edits: list[Edit], prover: Prover) -> Iterator[tuple[Edit, Answer]]:
    """Those edits of a crate that the front end alone judges or spoils: it is to refuse those that no type allows, and
    no other. Over sources a crate may name each library below it, so that is left to the gate."""
    flaws = {edit: flaw for edit in edits if (flaw := edit.flaw())}
    yield from ((edit, ("does not apply", it)) for edit, it in flaws.items())
    whole = [edit for edit in edits if edit not in flaws and edit.error() != "error[unknown-library]"]
    yield from ((edit, by_types(edit, prover)) for edit in whole if edit.error())
    for batch in batches(whole):
        left = batch.edits
        while left:
            told = by_front_end(batch := Batch(left), prover.says(batch, [""]))
            yield from ((edit, ("NOT AS IT SAYS", lines[0][0])) for edit, lines in told.items())
            left = [edit for edit in left if edit not in told] if told else []
