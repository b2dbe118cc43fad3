"""Edits that must fail: what each changes, and whether what the prover says is the refusal that it names.

Those of a crate stand in its `edits.txt`, with an empty line between two. An edit has a line `edit: NAME`, lines
`refused: FUNCTION CLAUSE`, and for each file a line `file: PATH` with pairs of lines `old: TEXT` and `new: TEXT`. A
line that begins with `#` is for readers."""
from __future__ import annotations

import re
from collections import Counter
from dataclasses import dataclass
from itertools import zip_longest
from pathlib import Path
from typing import TYPE_CHECKING

from upkeep.functions import clauses, functions, notes_beside

if TYPE_CHECKING:
    from upkeep.functions import Found, Function

# What the front end is to say of an edit that no type allows.
ERROR = re.compile(r"error\[[\w-]+\]")
LINE = re.compile(r"(?:edit: \w+|(?:refused|file|old): .+|new:(?: .*)?|#.*|)")
UNNAMED = "it names no reason in a line `refused: FUNCTION CLAUSE`"
# What the prover says that is no refusal by a clause: a limit of its own, and a proof by hand that names what an edit
# takes away.
NO_REFUSAL = re.compile(r"antt ran out of |outgrew the memory limit|stopped at the step limit"
                        r"|^(?:note: )?(?:\./)?proofs/.*(?:has no field|is not in scope|has no `|was not admitted)")
# What a goal without a clause's name may be about.
KINDS = {"ensures", "invariant", "requires", "loop", "overflow"}
# These edits are of the network of which the runs are, and a run's premise refuses them.
OF_NETWORKS = {"pim_runs": ("specs/ServedChain.antt",)}
# Where a goal isn't met: in a proof by hand, whose path ends with the function's name, or in the code.
IN_PROOF = re.compile(r"\./proofs/(\S*)/(?:Answers|Invariants|Proof)\.antt:\d+:\d+: error: "
                      r"(?:\d+ declarations? that depends? on )?`([^`]*)`(.*)")
# The goals of a proof by hand that stand on a declaration that is rejected, or on one of another file of proofs.
STANDING_ON = re.compile(r", which was (?:rejected|not admitted), (?:was|were) not checked: (.*)")
IN_CODE = re.compile(r"(?:note: )?(src/\S+?):(\d+):\d+: (?:error: )?(.*)")
GOAL = re.compile(r"\(`([^`]*)`")


@dataclass(frozen=True)
class Reason:
    """Why an edit is refused: the function whose contract isn't met, and the goal."""

    found: Found
    goal: str

    def __str__(self) -> str:
        return f"{self.found.function} {clause_of(self.goal)}"

    def is_of(self, clause: str) -> bool:
        """Whether the clause is this."""
        told = clause_of(self.goal)
        return told == clause or (clause == "loop" and told in self.found.labels)


def clause_of(goal: str) -> str:
    """The clause that a goal of the prover's is about: its name, or its kind where it has none."""
    if re.search(r"(^|-)requires\b", goal):
        return "requires"
    if kind := re.match(r"invariant|loop", goal):
        return kind[0]
    if named := re.search(r"-clause-(\w+?)(?:-\d+)?$", goal):
        return named[1]
    return "ensures" if goal.startswith("returns") else re.split(r"[-_]", goal)[0]


class AnyClause:
    """The clauses of a trait of another crate, which aren't looked up."""

    def __contains__(self, clause: object) -> bool:
        return True


def texts_of(folder: Path) -> dict[str, list[str]]:
    """The lines of each edit of the crate in a folder, by its name."""
    path, found, lines = folder / "edits.txt", {}, None
    if not path.is_file():
        return found
    for number, line in enumerate(path.read_text(encoding="utf-8").splitlines(), 1):
        name = line.removeprefix("edit: ")
        if name in found:
            raise SystemExit(f"{path}:{number}: a second edit of that name")
        if name != line and LINE.fullmatch(line):
            lines = found[name] = []
        elif line and not line.startswith("#"):
            if lines is None or not LINE.fullmatch(line):
                raise SystemExit(f"{path}:{number}: no line of an edit")
            lines.append(line)
    return found


class Crate:
    """A crate's folder, with the functions of its source."""

    def __init__(self, folder: Path) -> None:
        self.folder, self.name = folder, folder.name
        self.files = {str(path.relative_to(folder)): path.read_text(encoding="utf-8")
                      for path in sorted((folder / "src").rglob("*.rt"))}
        self.found = {path: functions(path, text) for path, text in self.files.items()}
        others = {path: folder / path for path in OF_NETWORKS.get(self.name, ()) if (folder / path).is_file()}
        self.texts = {**self.files, **{path: it.read_text(encoding="utf-8") for path, it in others.items()}}

    def edits(self) -> list[Edit]:
        return [Edit(name, lines, self) for name, lines in texts_of(self.folder).items()]

    def all(self) -> list[Found]:
        return [one for found in self.found.values() for one in found]

    def named(self, words: str) -> list[Found]:
        """The functions that a name is of. A type's own goes before those of its traits, whose names have these."""
        found = [one for one in self.all() if one.function.is_named(words)]
        own = [one for one in found if not one.function.trait]
        return own if len({(it.function.module, it.function.owner) for it in found}) == 1 and own else found

    def clauses_of(self, one: Found) -> set[str] | AnyClause:
        """What a refusal by a function can be about: its clauses, or those of its trait, and what no clause names."""
        trait = one.function.trait
        above = [it for it in self.all() if trait and it.function.owner == trait
            and it.function.name == one.function.name]
        return KINDS.union(clauses(one), *map(clauses, above)) if above or not trait else AnyClause()

    def can_name(self, reason: Reason) -> bool:
        """Whether an edit may name this reason: it is of what the function's contract says."""
        return clause_of(reason.goal) in self.clauses_of(reason.found)

    def proved_in(self, path: str) -> list[Found]:
        """The functions whose proof stands in a folder below proofs/: its modules, its type with its trait, its
        name, after a `+` where a module has that name too. The modules of a method may be those of its type."""
        *parts, name = path.split("/")
        found = [one for one in self.all() if one.function.name == name.removeprefix("+")
            and stands_in(one.function, parts)]
        beside = [one for one in found if one.function.owner and list(one.function.module) == parts[:-1]]
        return beside or found


def stands_in(function: Function, parts: list[str]) -> bool:
    """Whether a function has a folder of these modules, or, if it is a method, one that ends with this type with its
    trait and what tells it apart."""
    if not function.owner:
        return parts == list(function.module)
    return bool(parts) and parts[-1].partition("+")[0].startswith(function.owner + function.trait)


class Edit:
    """An edit that must fail, with the reasons that it names."""

    def __init__(self, name: str, lines: list[str], crate: Crate) -> None:
        self.name, self.lines, self.crate = name, lines, crate
        self.wanted = [tuple(line.split()[1:]) for line in self.lines if line.startswith("refused: ")]

    def edited(self, file: str) -> str:
        """A file of the crate as the edit leaves it."""
        text, at, old = self.crate.texts[file], "", ""
        for line in self.lines:
            if line.startswith("file: "):
                at = line.removeprefix("file: ").strip()
            elif line.startswith("old: "):
                old = line.removeprefix("old: ")
            elif line.startswith("new:") and at == file:
                text = text.replace(old, line.removeprefix("new:").removeprefix(" "))
        return text

    def applies(self, texts: dict[str, str] | None = None) -> bool:
        """Whether each text that it changes stands in its file once, where those before it are changed. It is then
        changed in these texts, if some are given."""
        at, old, left = "", "", dict(self.crate.texts if texts is None else texts)
        for line in self.lines:
            if line.startswith("file: "):
                at = line.removeprefix("file: ").strip()
            elif line.startswith("old: "):
                old = line.removeprefix("old: ")
                if left.get(at, "").count(old) != 1:
                    return False
            elif line.startswith("new:"):
                left[at] = left[at].replace(old, line.removeprefix("new:").removeprefix(" "))
        if texts is not None:
            texts.update(left)
        return True

    def files(self) -> set[str]:
        return {line.removeprefix("file: ").strip() for line in self.lines if line.startswith("file: ")}

    def misnames(self) -> str | None:
        """What is wrong with the lines `refused:`; None where each is of one function."""
        if not self.wanted:
            return UNNAMED
        for words in self.wanted:
            found = self.crate.named(words[0]) if len(words) == 2 else []
            if len(words) != 2 or not found:
                return f"`refused: {' '.join(words)}` names no function of {self.crate.name} and a clause"
            if len(found) > 1:
                return f"`{words[0]}` may be {' or '.join(str(one.function) for one in found)}"
            if words[1] not in self.crate.clauses_of(found[0]):
                return f"{found[0].function} has no clause `{words[1]}`"
        return None

    def changes_a_contract(self) -> str | None:
        """What the edit changes but code: a definition, a contract, a proof. None where it changes none."""
        for file in sorted(self.files()):
            if file not in self.crate.files:
                if file in OF_NETWORKS.get(self.crate.name, ()):
                    continue
                return f"it changes {file}, which isn't code"
            after, before = self.edited(file), self.crate.found[file]
            now = [(one.function, one.contract) for one in functions(file, after)]
            kept = [it for it in now if it[0] in {one.function for one in before}]
            for one, it in zip_longest(before, kept):
                if one is None or it != (one.function, one.contract):
                    return f"it changes the contract of {one.function if one else it[0]}, or its proof"
            if Counter(notes_beside(self.crate.files[file])) != Counter(notes_beside(after)):
                return f"it changes what {file} says of its types"
        return None

    def function_at(self, file: str, number: int) -> Found | None:
        """The function that a line of the edited file stands in: the kit tells of a whole function by its first line,
        which may be an attribute above it."""
        text = self.edited(file)
        is_above = text.splitlines()[number - 1].lstrip().startswith("#[")
        found = functions(file, text)
        below, above = ([one for one in found if (one.line > number) == after] for after in (True, False))
        near = below[:1] if is_above else above[-1:]
        return near[0] if near else None

    def reasons(self, told: str) -> list[Reason]:
        """The reasons that the prover's line tells. Of a proof by hand these are the declaration that is rejected, and
        the goals that stand on it."""
        if NO_REFUSAL.search(told) and not self.is_of_network(told):
            return []
        if found := IN_PROOF.match(told):
            near = self.crate.proved_in(found[1])
            if len(near) != 1:
                return []
            left = STANDING_ON.match(found[3])
            return [Reason(near[0], goal) for goal in (found[2], *(left[1].split(", ") if left else []))]
        found = IN_CODE.match(told)
        if not found or found[1] not in self.crate.files:
            return []
        one, goals = self.function_at(found[1], int(found[2])), GOAL.findall(found[3])
        if one and "`invariant`" in found[3]:
            return [Reason(one, "invariant")]
        return [Reason(one, goals[-1])] if one and goals else []

    def is_of_network(self, told: str) -> bool:
        """Whether the edit is of a network, and the line tells of a run that stands on what is computed of it: such an
        edit takes no name away."""
        return self.files() <= set(OF_NETWORKS.get(self.crate.name, ())) and bool(STANDING_ON.search(told))

    def reason(self, told: str) -> Reason | None:
        """The reason that the prover's line tells: one of a clause that the function has, if there is any. None where
        the line tells no reason."""
        found = self.reasons(told)
        return next(filter(self.crate.can_name, found), found[0] if found else None)

    def meets(self, told: str) -> bool:
        """Whether the prover's line tells one of the reasons that the edit names."""
        return any(reason.found.function.is_named(name) and reason.is_of(clause)
            for reason in self.reasons(told) for name, clause in self.wanted)

    def error(self) -> str | None:
        """The error of the front end that is to refuse the edit; None where the prover is to."""
        words = [word for words in self.wanted for word in words]
        return words[0] if len(words) == 1 and ERROR.fullmatch(words[0]) else None

    def flaw(self) -> str | None:
        """What is wrong with the edit itself, so that it tells nothing; None where nothing is."""
        if not self.applies():
            return "a text that it changes doesn't stand there once"
        return None if self.error() else self.wanted and self.misnames() or self.changes_a_contract()
