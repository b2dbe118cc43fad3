"""The functions of a crate, each with its type and its contract, as they stand in the texts of `src/`."""
import re
from dataclasses import dataclass, field

# A function's first line.
HEAD = re.compile(r"\s*(?:pub(?:\([a-z]+\))? )?(?:const )?(?:unsafe )?(?:extern \"C\" )?fn (\w+)")
BLOCK = re.compile(r"(?:pub(?:\([a-z]+\))? )?(?:unsafe )?(impl|trait)\b(.*)")
CLAUSE = re.compile(r"\s*(requires|ensures|decreases|follows\w*)\*?(?: (\w+))? \{")
# The label of a loop, by which the prover names its goals.
LABEL = re.compile(r"\s*'(\w+): (?:for|while|loop)\b")
NOTES = re.compile(r"\s*(?:#!?\[tactic|ghost\b)")


@dataclass(frozen=True)
class Function:
    """A function of a crate: where it stands, and what it is called. `owner` is its type, or its trait where it
    declares one; `trait` the trait whose impl it stands in, and `types` those that the trait is given there, as the kit
    writes them behind it."""

    module: tuple
    owner: str
    trait: str
    name: str
    types: str = ""

    def __str__(self) -> str:
        return "::".join([*self.module, *([self.owner] if self.owner else []), self.name])

    def is_named(self, words: str) -> bool:
        """Whether a name that may leave out the modules, and then the type, is its own."""
        wanted = words.split("::")
        paths = [[*self.module, *([owner] if owner else []), self.name]
            for owner in (self.owner, self.owner + self.trait)]
        return any(path[-len(wanted):] == wanted for path in paths)


@dataclass
class Found:
    """A function in a text, with its first line, its contract and its notes for the prover, and the labels of its
    loops."""

    function: Function
    line: int
    contract: list = field(default_factory=list)
    labels: set = field(default_factory=set)


def without_bounds(text: str) -> str:
    """A text without what stands in angle brackets."""
    while (less := re.sub(r"<[^<>]*>", "", text.replace("->", "→"))) != text:
        text = less
    return text


def block_of(line: str) -> tuple[str, str] | None:
    """The type and the trait of the block that a line opens, or None where it opens none."""
    found = BLOCK.match(line)
    if not found:
        return None
    named = without_bounds(found[2]).split("{")[0].split(" where ")[0]
    trait, _, owner = named.rpartition(" for ") if found[1] == "impl" else ("", "", named.split(":")[0])
    last = lambda path: re.findall(r"\w+", path.rpartition("::")[2] or path)[:1]
    return "".join(last(owner)), "".join(last(trait))


def types_of(line: str) -> str:
    """The types that a line gives the trait of its impl, but for those that are the impl's own parameters."""
    found = re.match(r"(?:unsafe )?impl(?:<(.*?)>)? [\w:]+<(.*)> for ", line)
    if not found:
        return ""
    own = set(re.findall(r"\w+", found[1] or ""))
    given = [it.strip() for it in without_bounds(found[2]).split(",")]
    return "".join(part[:1].upper() + part[1:] for it in given if it not in own for part in re.findall(r"\w+", it))


def module_of(path: str) -> tuple[str, ...]:
    """The modules of a file of src/, from its path in the crate."""
    return tuple(path.removeprefix("src/").removesuffix(".rt").split("/"))


def braced(lines: list[str], at: int) -> str:
    """The text from a line to where its first brace is closed, or to the line's end where it opens none."""
    text, depth = " ".join(line.strip() for line in lines[at:at + 60]), 0
    if "{" not in lines[at]:
        return lines[at].strip()
    for place, letter in enumerate(text):
        depth += (letter == "{") - (letter == "}")
        if letter == "}" and depth == 0:
            return text[:place + 1]
    return text


def functions(path: str, text: str) -> list[Found]:
    """The functions of a file of src/, each with its clauses and the notes for the prover above it."""
    found, block, types, notes, lines = [], ("", ""), "", [], text.splitlines()
    for at, line in enumerate(lines):
        if line[:1].strip():
            block = block_of(line) or (("", "") if line.startswith("}") or HEAD.match(line) else block)
            types = types_of(line) if block_of(line) else types
        if head := HEAD.match(line):
            found.append(Found(Function(module_of(path), *block, head[1], types * bool(block[1])), at + 1, notes))
            notes = []
        elif line.lstrip().startswith("#[tactic"):
            notes = [*notes, line.strip()]
        elif found and CLAUSE.match(line):
            found[-1].contract.append(braced(lines, at))
        elif found and (label := LABEL.match(line)):
            found[-1].labels.add(label[1])
    return found


def notes_beside(text: str) -> list[str]:
    """What a file says to the prover beside the contracts of its functions: of its types, and what their parts stand
    for."""
    lines = text.splitlines()
    return [braced(lines, at) for at, line in enumerate(lines) if NOTES.match(line) and "[tactic" not in line]


def clauses(found: Found) -> set[str]:
    """The names of a function's clauses; one without a name goes by its kind."""
    named = filter(None, map(CLAUSE.match, found.contract))
    return {clause[2] or clause[1] for clause in named}
