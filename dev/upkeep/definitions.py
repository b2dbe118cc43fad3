"""The definitions of the crates' `specs/`, and which of them a text cites, by its imports."""
import re
from collections.abc import Iterable, Iterator
from dataclasses import dataclass, field
from pathlib import Path

WORD = re.compile(r"[A-Za-z_][\w-]*(?:\.[A-Za-z_][\w-]*)*")
# A definition's signature, or a record's first line: what it is made of stands in the lines below, indented further or
# under its name.
NAME = r"([^\s:(){}]+)"
HEAD = re.compile(
    rf"^( *)(?:private )?(?:(?:unfoldable |abbrev )?(?:pub )?{NAME} : |(?:pub )?(?:record|data|class) {NAME})")
# A case of a data type, or a field of a record.
INNER = re.compile(r"(?m)^ +(?:pub )?([A-Za-z_][\w-]*)(?: \([^)]*\))* : ")
USE = re.compile(r"(?m)^\s*(pub )?(?:ghost )?use Rattle\.")


@dataclass
class Module:
    """A file of definitions: their texts by their names, of which one a case is, what it imports, and what it passes
    on."""

    crate: str
    path: str
    texts: dict = field(default_factory=dict)
    cases: dict = field(default_factory=dict)
    imports: dict = field(default_factory=dict)
    passes: dict = field(default_factory=dict)

    def __str__(self) -> str:
        return f"{self.crate}/specs/{self.path}"


def closed(text: str, start: int) -> int:
    """Where the braces are closed that open at a place."""
    depth = 0
    for at in range(start, len(text)):
        depth += (text[at] == "{") - (text[at] == "}")
        if depth == 0:
            return at + 1
    return len(text)


def parts(text: str) -> list[str]:
    """The parts of a group of imports, at its own commas."""
    found, depth, begun = [], 0, 0
    for at, letter in enumerate(text + ","):
        depth += (letter == "{") - (letter == "}")
        if letter == "," and depth == 0:
            found.append(text[begun:at].strip())
            begun = at + 1
    return [part for part in found if part]


def leaves(path: list[str], text: str) -> Iterator[tuple[list[str], str]]:
    """The names that an import brings in, each as a path and what it is called here."""
    head, brace, group = text.partition("{")
    if brace:
        below = [*path, *(it for it in head.strip().strip(".").split(".") if it)]
        for part in parts(group.rpartition("}")[0]):
            yield from leaves(below, part)
        return
    words = text.split(" as ")
    whole = [*path, *words[0].strip().split(".")]
    yield whole, words[1].strip() if len(words) > 1 else whole[-1]


def imported(text: str) -> tuple[dict[str, list[str]], dict[str, list[str]]]:
    """The imports of a text from the repository's crates and the kit's: what each name here is elsewhere, and which
    names are passed on."""
    found, passes = {}, {}
    for use in USE.finditer(text):
        line = text[use.end():].partition("\n")[0]
        if "{" in line:
            start = use.end() + line.index("{")
            line = text[use.end():closed(text, start)] + text[closed(text, start):].partition("\n")[0]
        for path, name in leaves([], line.strip().rstrip(";")):
            found[name] = path
            if use[1]:
                passes[name] = path
    return found, passes


def blocks(text: str) -> dict[str, str]:
    """The definitions of a file, each by its name with its signature and its body; a record has its fields."""
    found, name, depth = {}, None, 0
    for line in (re.sub(r"--.*", "", line) for line in text.splitlines()):
        said = HEAD.match(line)
        if said and (name is None or len(said[1]) <= depth):
            name, depth = said[2] or said[3], len(said[1])
            found[name] = ""
        elif line.lstrip().startswith("module "):
            name = None
        if name:
            found[name] += line + "\n"
    return found


def modules(top: Path) -> dict[tuple[str, str], Module]:
    """Each file of definitions of the repository, by its crate and its name."""
    found = {}
    for path in sorted(top.glob("crates/*/specs/**/*.antt")):
        folder = next(it for it in path.parents if it.name == "specs")
        text = path.read_text(encoding="utf-8")
        module = Module(folder.parent.name, ".".join(path.relative_to(folder).with_suffix("").parts), blocks(text))
        module.imports, module.passes = imported(text)
        module.cases = {case: name for name, body in module.texts.items() for case in INNER.findall(body)
                        if re.match(r" *(?:pub )?data ", body)}
        found[module.crate, module.path] = module
    return found


def place_of(path: list[str], known: dict[tuple[str, str], Module]) -> tuple[Module, str] | None:
    """The file and the name that an imported path leads to; None where it is no definition of the repository."""
    if len(path) < 4 or path[1] != "specs":
        return None
    module, name = known.get((path[0], ".".join(path[2:-1]))), path[-1]
    if module is None or name in module.texts:
        return module and (module, name)
    if name in module.cases:
        return module, module.cases[name]
    return place_of(module.passes[name], known) if name in module.passes else None


def names_in(text: str, own: Module | None, imports: dict[str, list[str]]) -> Iterator[str]:
    """The names in a text. An operator stands there as what its name has between its gaps."""
    yield from WORD.findall(text)
    for name in {*imports, *(own.texts if own else ())}:
        if "◌" in name and all(part in text for part in name.split("◌")):
            yield name


def cited(
    text: str, own: Module | None, imports: dict[str, list[str]], known: dict[tuple[str, str], Module]
) -> Iterator[tuple[Module, str]]:
    """The definitions that a text names, as pairs of a file and a name."""
    for word in names_in(text, own, imports):
        name, _, rest = word.partition(".")
        if own and (name in own.texts or name in own.cases):
            yield own, name if name in own.texts else own.cases[name]
        elif name in imports:
            path = imports[name]
            # A name of a whole file goes before one of its definitions.
            at = place_of(path, known) or (place_of([*path, rest.partition(".")[0]], known) if rest else None)
            if at:
                yield at


def closure(roots: Iterable[tuple[Module, str]], known: dict[tuple[str, str], Module]) -> set[tuple[str, str]]:
    """All definitions on which these stand, with them."""
    found, left = set(), list(roots)
    while left:
        module, name = left.pop()
        if (str(module), name) not in found:
            found.add((str(module), name))
            left += cited(module.texts[name], module, module.imports, known)
    return found
