"""The lemmas of a file of proofs, as lines: where each stands, its equations, its arguments, and which lemmas it cites.

Lines of a file go from 0; the end of a part is the line behind its last one.
"""
import re
from collections.abc import Iterator
from typing import NamedTuple

from upkeep.definitions import imported, leaves

SIGNATURE = re.compile(r"^( *)((?:(?:private|unfoldable|abbrev|pattern|pub) )*)([^\s:(){}]\S*) : ")
NO_LEMMA = re.compile(r"^\s*(?:let|in|use|record|data|module)\b")
IMPORT = re.compile(r"^(?:pub |unfoldable )*use ")
OPENED = re.compile(r"(?m)^\s*unfolding (.*)$|\bunfold ([^\n]*?) in\b")
TERM_WORD = re.compile(r"[^\s(){},;.\[\]]+")
VARIABLE = re.compile(r"^[a-z][\w']*$")
# Words of proofs that aren't lemmas, though a library of proofs has them.
NO_FACTS = {"refl", "sym", "ap", "subst", "arith", "rules", "true", "false", "zero", "suc", "cond", "length", "is_some",
    "common_steps"}
# The lemmas of the kit's list of usual names, of which most are types and operators; those with a dash are lemmas too.
COMMON_FACTS = {"append_assoc", "nat_tests"}


class Lemma(NamedTuple):
    """A declaration with its marks, as `pub `, and the lines from its signature to its end."""
    name: str
    marks: str
    indent: int
    start: int
    end: int

    def is_open(self) -> bool:
        """Whether its value can be computed with by whoever names it."""
        return any(mark in self.marks for mark in ("abbrev", "unfoldable", "pattern"))


def indent_of(line: str) -> int:
    return len(line) - len(line.lstrip())


def opens_section(lines: list[str], at: int) -> bool:
    """Whether a line belongs to the head of a section, which may have several lines."""
    indent = indent_of(lines[at])
    while at >= 0 and lines[at].strip():
        if lines[at].lstrip().startswith("module "):
            return True
        if indent_of(lines[at]) < indent - 4 or SIGNATURE.match(lines[at]):
            return False
        at -= 1
    return False


def stands_in(lines: list[str], at: int) -> int:
    """The line in which the block that holds a line begins: the last one above that is indented less; -1 at the top."""
    indent, above = indent_of(lines[at]), at - 1
    while above >= 0:
        line = lines[above]
        if line.strip() and indent_of(line) < indent and not line.lstrip().startswith("--"):
            return above
        above -= 1
    return -1


def end_of(lines: list[str], start: int, indent: int, name: str) -> int:
    """The line behind a declaration: its equations begin with its name, and all else in it is indented further."""
    at = start + 1
    while at < len(lines):
        text = lines[at].strip()
        goes_on = text.startswith((name + " ", "unfolding ", "]", ")", "}")) or text == "where"
        if text and indent_of(lines[at]) <= indent and not goes_on:
            break
        at += 1
    while not lines[at - 1].strip():
        at -= 1
    return at


def lemmas(lines: list[str]) -> list[Lemma]:
    """The declarations at the top of a file and in its sections, but not those in a `where`, and no fields."""
    found = []
    for at, line in enumerate(lines):
        said = SIGNATURE.match(line)
        if not said or NO_LEMMA.match(line):
            continue
        above = stands_in(lines, at) if said[1] else -1
        if not said[1] or above >= 0 and opens_section(lines, above):
            end = end_of(lines, at, len(said[1]), said[3])
            found.append(Lemma(said[3], said[2], len(said[1]), at, end))
    return found


def equations(lines: list[str], lemma: Lemma) -> list[tuple[int, int]]:
    """The first line and the end of each equation of a lemma."""
    begins = re.compile(" " * lemma.indent + re.escape(lemma.name) + r"(?: |=|$)")
    starts = [at for at in range(lemma.start + 1, lemma.end) if begins.match(lines[at])]
    found = []
    for start, end in zip(starts, [*starts[1:], lemma.end]):
        while not lines[end - 1].strip() or lines[end - 1].lstrip().startswith("--"):
            end -= 1
        found.append((start, end))
    return found


def sides(text: str) -> tuple[str, str] | None:
    """An equation's left side and what stands behind its `=`; None where it has none."""
    depth = 0
    for at, letter in enumerate(text):
        depth += (letter in "({[") - (letter in ")}]")
        alone = text[at - 1:at] in (" ", "\n") and text[at + 1:at + 2] in ("", " ", "\n")
        if letter == "=" and depth == 0 and alone:
            return text[:at].rstrip(), text[at + 1:]
    return None


def arguments(text: str) -> list[str]:
    """The words of a text at its top level, each with the parentheses that belong to it."""
    found, depth, word = [], 0, ""
    for letter in text + " ":
        depth += (letter in "({[") - (letter in ")}]")
        if letter.isspace() and depth == 0:
            found += [word] if word else []
            word = ""
        else:
            word += letter
    return found


def binders(signature: str) -> list[str | None]:
    """The names that a signature gives to its explicit arguments, None for one without a name."""
    found, depth, part = [], 0, ""
    parts = []
    for letter in signature.partition(" : ")[2] + "→":
        depth += (letter in "({[") - (letter in ")}]")
        if letter == "→" and depth == 0:
            parts.append(part)
            part = ""
        else:
            part += letter
    for part in parts:
        words = arguments(part)
        named = [word[1:-1].partition(" : ")[0].split() for word in words if word[0] == "(" and " : " in word]
        if words and all(word[0] in "({" and " : " in word for word in words):
            found += [name for names in named for name in names]
        else:
            found.append(None)
    return found


def given_names(lefts: list[list[str]], signature: str, taken: set[str]) -> list[str]:
    """Names for a lemma's arguments: those that its equations give them, else those of its signature, else new ones."""
    said, found, used = binders(signature), [], set()
    named_so = {word for left in lefts for word in left if VARIABLE.match(word)}
    for at, first in enumerate(lefts[0]):
        if first[0] in "{_":
            found.append(first)
            continue
        said.insert(at, None) if first[0] == "{" else None
        choices = [left[at] for left in lefts if at < len(left) and VARIABLE.match(left[at])]
        choices += [said[at]] if at < len(said) and said[at] and said[at] not in named_so else []
        choices += [name for name in "xyzuvwpq" if name not in taken | named_so]
        name = next(it for it in [*choices, f"given{at}"] if it not in used and it not in ("true", "false", "zero"))
        used.add(name)
        found.append(name)
    return found


def is_fact(name: str, path: list[str]) -> bool:
    """Whether an imported name may be a lemma's."""
    if path[1:2] != ["proofs"] or name in NO_FACTS or re.match(r"^[A-Z]\w*$", name):
        return False
    return path[2:3] != ["Common"] or "-" in name or name in COMMON_FACTS


def facts(text: str) -> set[str]:
    """The names of a file that may be lemmas': its own, and those that it imports from libraries of proofs."""
    own = {it.name for it in lemmas(text.split("\n")) if not it.is_open()}
    return own | {name for name, path in imported(text)[0].items() if is_fact(name, path)}


def cited(body: str, known: set[str], own: str) -> list[str]:
    """Which of these names a proof cites, in its order."""
    words = TERM_WORD.findall(re.sub(r"λ [^.]*\.", " ", body))
    return [word for word in dict.fromkeys(words) if word in known and word != own and "◌" not in word]


def opened(texts: Iterator[str]) -> set[str]:
    """The names that texts unfold: what they stand for matters, and not only that they have a proof."""
    found = set()
    for text in texts:
        for alone, within in OPENED.findall(text):
            found.update(f"{alone} {within}".split())
    return found


def nested(paths: list[tuple[list[str], str]]) -> list[str]:
    """Paths with what each is called as nested groups."""
    below, order = {}, []
    for path, name in paths:
        head = path[0] if len(path) > 1 or name == path[0] else f"{path[0]} as {name}"
        order += [head] if head not in below else []
        below.setdefault(head, []).extend([(path[1:], name)] if len(path) > 1 else [])
    found = []
    for head in order:
        inner = nested(below[head])
        found.append(head if not inner else f"{head}.{inner[0]}" if len(inner) == 1 else
            f"{head}.{{{', '.join(inner)}}}")
    return found


def with_import(lines: list[str], path: str) -> list[str]:
    """The lines with the import of a name, as `Rattle.std.proofs.Common.arith`, in the group of its library."""
    words = path.split(".")
    if imported("\n".join(lines))[0].get(words[-1]) == words[1:]:
        return lines
    head = f"use {words[0]}.{words[1]}."
    for at, line in enumerate(lines):
        if line.startswith(head) and line.endswith("}"):
            group = nested([*leaves([], line.removeprefix(head)), (words[2:], words[-1])])
            return [*lines[:at], f"{head}{{{', '.join(group)}}}", *lines[at + 1:]]
    at = next((at for at, line in enumerate(lines) if IMPORT.match(line)), 0)
    return [*lines[:at], f"{head}{{{'.'.join(words[2:])}}}", *lines[at:]]
