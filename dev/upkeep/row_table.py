"""The columns of printed rows in each language, of tables/rows.toml: what dev/tables writes of them."""
from __future__ import annotations

import re
from collections.abc import Iterable, Iterator
from dataclasses import dataclass, field
from typing import Any, NamedTuple

WIDTH, WIDTH_OF_RATTLE, WIDTH_OF_LINES = 120, 100, 110
KEY = ("iface", "group", "source", "is_rpt")
CAPITALS = re.compile(r"\b[A-Z][A-Z0-9]+\b")


class Kind(NamedTuple):
    """How values of a kind of column stand in each language; {} is the value, {n} the column's name."""
    core: str               # its type in pim_rows
    c: str
    rust: str
    python: str
    tools: str
    is_c: str               # what pim_c makes of it
    spec: str               # what the definition of that says
    of_rust: str
    of_python: str
    line: str               # the number in the definitions' line
    written: str            # what the line of text has, and of which type the parameter is
    parameter: str = ""
    let: str = ""
    shown: str = "{n}"      # in the line that Python prints
    none: dict[str, str] = {}


def plain(core: str, c: str, rust: str, **more: Any) -> Kind:
    """A number or a flag that is the same everywhere."""
    return Kind(**{
        "core": core, "c": c, "rust": rust, "python": "int", "tools": "int", "is_c": "{}", "spec": "{}",
        "of_rust": "{}", "of_python": "{}", "line": "{}", "written": "{n}", "shown": "self.{n}", **more,
    })


NUMBER, LONG = ("u32", "uint32_t", "u32"), ("u64", "uint64_t", "u64")
NEVER = {"c": "VIQ_NEVER", "pim_c": "`NEVER`", "rust": "`None`", "python": "None"}
KINDS = {
    "iface": plain("IfaceId", *NUMBER[1:], is_c="{}.number", spec="{}.number", line="{}.number",
                   let="let {n} = {n}.number;"),
    "address": plain("Addr", "uint32_t", "Ipv4Addr", python="str", tools="str", is_c="{}.bits", spec="{}.bits",
                     of_rust="{}.into()", of_python="dotted({})", line="{}.bits"),
    "source": plain("Option<Addr>", "uint32_t", "Option<Ipv4Addr>", python="str | None", tools="str",
                    is_c="source_or_zero({})", spec="source_or_zero {}", of_rust="source_of({})",
                    of_python="source_of({})", line="optional (option_map (λ a. a.bits) {})", parameter="Source",
                    shown='self.{n} or "*"', none={"c": "0", "pim_c": "0", "rust": "`None`", "python": "None"}),
    "flag": plain("bool", "bool", "bool", python="bool", tools="str", line="flag {}"),
    "number": plain(*NUMBER),
    "moment": plain(*LONG, tools="float | None"),
    "end": plain("Option<u64>", "uint64_t", "Option<u64>", python="int | None", tools="float | None",
                 is_c="{}.unwrap_or(NEVER)", spec="unwrap_or {} never", of_rust="ends({})", of_python="there({})",
                 line="optional {}", none=NEVER),
    "tree": plain("bool", "bool", "bool", python="bool", tools="str", let="let kind = kind_of(key);", written="kind",
                  shown="self.kind()"),
    "downstream": plain("DownstreamState", "uint32_t", "DownstreamState", python="str", tools="str",
                        is_c="downstream_number({})", spec="downstream_number {}", of_rust="downstream_state({})",
                        of_python="DOWNSTREAM_STATES[{}]", line="printed_downstream {}",
                        let="let {n} = downstream_name({n});"),
    "register": plain("Option<RegisterName>", "uint32_t", "Option<RegisterState>", python="str | None", tools="str",
                      is_c="register_number({})", spec="register_number {}", of_rust="register_state({})",
                      of_python="REGISTER_STATES[{}]", line="printed_register {}",
                      let="let {n} = register_name({n});", shown='self.{n} or "-"', none=NEVER),
    "role": plain("AssertRole", "bool", "bool", python="bool", tools="str", is_c="is_loser({})",
                  spec="is_loser_role {}", line="printed_role {}", let="let {n} = role_name({n});"),
    "version": plain(*NUMBER, tools="str"),
    "prefix": plain(*NUMBER, tools="str"),
    "standing": plain(*NUMBER, tools="str"),
}
# What a column is, where nothing is said of it.
USUAL = {"iface": "the interface", "group": "G", "source": "S"}
CTYPES = {"uint32_t": "c_uint32", "uint64_t": "c_uint64", "bool": "c_bool"}


@dataclass
class Column:
    name: str
    kind: str
    core: str = ""
    rust: str = ""
    tools: str = ""
    shown: str = ""
    words: list[str] = field(default_factory=list)
    says: str = ""
    c: str = ""
    spec: str = ""
    code: str = ""

    def __post_init__(self) -> None:
        self.core, self.rust, self.tools = (it or self.name for it in (self.core, self.rust, self.tools))
        self.shown = self.shown or self.tools.upper()
        self.of = KINDS[self.kind]

    def is_time(self) -> bool:
        return self.of.c == "uint64_t"

    def about(self, language: str) -> str:
        """What it is, for a language."""
        return (self.says or USUAL[self.name]).replace("NONE", self.of.none.get(language, ""))

    def sentence(self, language: str) -> str:
        """The same as a comment of Rust or Rattle."""
        text = self.c if self.c and language == "pim_c" else self.about(language)
        if self.is_time():
            text = re.sub(r"(, or |; |: |$)", r", in ms\1", text, count=1)
        if language == "rust":
            text = text.replace("(*,G)", r"(\*,G)")
        return sentence(text)

    def c_line(self) -> tuple[str, str]:
        """The line of C's value, and its comment."""
        says = self.c or (self.about("c") if self.says else "")
        return f"    {self.of.c} {self.name};", f"{'ms, ' * self.is_time()}{says}" if says else ""


@dataclass
class Row:
    letter: str
    line: int
    name: str
    tools: str
    says: str
    means: str
    columns: list[Column]
    whose: str = ""
    library: str = ""
    member: str = ""
    keyed: bool = False
    only_printed: bool = False

    def __post_init__(self) -> None:
        self.library = self.library or self.name
        self.member = self.member or self.library.lower()

    def core(self) -> list[Column]:
        """The columns of pim_rows' Row, but its key."""
        return [it for it in self.columns if not (self.keyed and it.name in KEY)]

    def names(self) -> list[str]:
        return ["key"] * self.keyed + [it.core for it in self.core()]

    def value(self, it: Column) -> str:
        """The value of a column, by the columns of pim_rows' Row."""
        if self.keyed and it.name in KEY:
            return f"key.{it.name.removeprefix('is_')}"
        return it.core

    def types(self) -> list[tuple[str, str]]:
        return [("key", "Key")] * self.keyed + [(it.core, it.of.core) for it in self.core()]


def rows_of(table: dict[str, Any]) -> list[Row]:
    found = []
    for row in table["row"]:
        place, fact = row.pop("place", "key"), row.pop("fact", "self")
        columns = [column_of(dict(it), place, fact) for it in row.pop("columns")]
        found.append(Row(**row, columns=columns))
    return found


def column_of(it: dict[str, Any], place: str, fact: str) -> Column:
    """A column, with where it is read, in the definition and in the code."""
    match it.pop("from", "").split(".", 1):
        case ["address"]:
            it |= {"spec": "(addr (source_in e.0))", "code": f"{place}.address()"}
        case ["key", part]:
            it |= {"spec": f"(e.0).{part}", "code": f"{place}.{part}"}
        case ["fact", part]:
            it |= {"spec": f"(e.1).{part}", "code": f"{fact}.{part}"}
    return Column(**it)


# ---- the core


def listed(items: Iterable[str], head: str, tail: str, indent: str, most: int = WIDTH_OF_RATTLE) -> Iterator[str]:
    """A list as the formatter has it: in one line, or with a line for each item."""
    items = list(items)
    if len(line := f"{indent}{head}{', '.join(items)}{tail}") <= most:
        yield line
    else:
        yield f"{indent}{head}"
        yield from (f"{indent}    {it}," for it in items)
        yield f"{indent}{tail}"


def fields(pairs: Iterable[tuple[str, str]], indent: str) -> Iterator[str]:
    return (f"{indent}{name}," if name == value else f"{indent}{name}: {value}," for name, value in pairs)


def core_rows(rows: list[Row]) -> Iterator[str]:
    for row in rows:
        yield f"    {row.name} {{"
        yield from (f"        {name}: {kind}," for name, kind in row.types())
        yield "    },"


def printed_spec(row: Row, head: str) -> Iterator[str]:
    """The definition of a row by its fact."""
    terms = [f"Row.{row.name}", *["e.0"] * row.keyed, *(it.spec for it in row.core())]
    if len(line := f"{head} {' '.join(terms)}") <= WIDTH:
        yield line
        return
    yield head
    line = "   "
    for term in terms:
        if len(line) + len(term) + 1 > WIDTH:
            yield line
            line = "   "
        line += f" {term}"
    yield line


def printed_code(row: Row, indent: str) -> Iterator[str]:
    yield from fields([("key", "key")] * row.keyed + [(it.core, it.code) for it in row.core()], indent)


def transcript(rows: list[Row]) -> Iterator[str]:
    for row in rows:
        short = {"iface": "i", "next_join": "next", "is_exclude": "mode", "is_pruned": "pruned", "key": "k"}
        names = [short.get(name, name) for name in row.names()]
        terms = [it.of.line.replace("{}", short.get(it.core, it.core)) for it in row.core()]
        if row.keyed:
            line = f"{row.line} ∷ key_numbers k ++ ({' ∷ '.join([*terms, '[]'])})"
        else:
            line = " ∷ ".join([str(row.line), *terms, "[]"])
        head = f"row_line (Row.{row.name} {' '.join(names)}) ="
        yield from [f"{head} {line}"] if len(head) + len(line) < WIDTH_OF_LINES else [head, f"    {line}"]


# ---- pim_c


def c_structs(row: Row) -> Iterator[str]:
    for it in row.columns:
        if it.says:
            yield f"    /// {it.sentence('pim_c')}"
        yield f"    pub {it.name}: {it.of.c.replace('uint32_t', 'u32').replace('uint64_t', 'u64')},"


def zero(it: Column) -> str:
    return "false" if it.of.c == "bool" else "0"


def blank_code(rows: list[Row]) -> Iterator[str]:
    for row in rows:
        yield f"        {row.member}: {row.library}Columns {{"
        yield from (f"            {it.name}: {zero(it)}," for it in row.columns)
        yield "        },"


def blank_call(rows: list[Row]) -> Iterator[str]:
    """A blank row in the program that names the library's calls."""
    for row in rows:
        columns = ", ".join(f"{it.name}: {zero(it)}" for it in row.columns)
        yield f"        {row.member}: {row.library}Columns {{ {columns} }},"


def blank_spec(rows: list[Row]) -> Iterator[str]:
    for row in rows:
        yield from record(row.member, [(it.name, zero(it)) for it in row.columns])


def record(name: str, pairs: list[tuple[str, str]]) -> list[str]:
    line = f"  {name} = record {{ {'; '.join(f'{key} = {value}' for key, value in pairs)} }};"
    if len(line) <= WIDTH:
        return [line]
    return [f"  {name} = record {{", *(f"    {key} = {value};" for key, value in pairs), "  };"]


def c_spec(rows: list[Row]) -> Iterator[str]:
    for row in rows:
        yield f"row_of (Row.{row.name} {' '.join(row.names())}) = record (blank {ord(row.letter)}) {{"
        yield from record(row.member, [(it.name, it.of.spec.replace("{}", row.value(it))) for it in row.columns])
        yield "}"


def c_functions(rows: list[Row]) -> Iterator[str]:
    """A blank row, and behind it a function for each kind of row."""
    yield from (*blank_code(rows), "    }", "}", "")
    for row in rows:
        yield f"// {row.whose} as C reads it."
        yield from listed([f"{key}: {kind}" for key, kind in row.types()], f"fn {row.member}_row(", ") -> CRow", "")
        yield f"    ensures {{ result ≡ row_of (Row.{row.name} {' '.join(row.names())}) }}"
        yield from ("{", f"    let {row.member} = {row.library}Columns {{")
        values = [(it.name, it.of.is_c.replace("{}", row.value(it))) for it in row.columns]
        yield from (*fields(values, "        "), "    };")
        if len(inner := f"{row.member}, ..blank(b'{row.letter}')") <= 18:
            yield f"    CRow {{ {inner} }}"
        else:
            yield from ("    CRow {", f"        {row.member},", f"        ..blank(b'{row.letter}')", "    }")
        yield from ("}", "")


def c_cases(rows: list[Row]) -> Iterator[str]:
    for row in rows:
        yield f"        Row::{row.name} {{"
        yield from fields(zip(row.names(), row.names()), "            ")
        yield f"        }} => {row.member}_row({', '.join(row.names())}),"


# ---- lines


def parameter(it: Column) -> str:
    """The type by which a column is written."""
    if it.kind == "end":
        return {"never": "End", "-": "Absent"}[it.words[0]]
    return it.of.parameter


def writer(row: Row) -> str:
    return f"write_{row.name.lower()}"


def line_cases(rows: list[Row]) -> Iterator[str]:
    for row in rows:
        yield f"            Row::{row.name} {{"
        yield from (f"                {name}," for name in row.names())
        given = ["key"] * row.keyed + [f"{parameter(it)}({it.core})" if parameter(it) else it.core
                                       for it in row.core()]
        yield f"            }} => {writer(row)}({', '.join(['f', *given])}),"


def line_functions(rows: list[Row]) -> Iterator[str]:
    for row in rows:
        takes = [("key", "Key")] * row.keyed + [(it.core, parameter(it) or it.of.core) for it in row.core()]
        texts = ["f: &mut fmt::Formatter<W>", *(f"{name}: {kind}" for name, kind in takes)]
        yield from listed(texts, f"fn {writer(row)}<W: fmt::Write>(", ") -> fmt::Result {", "")
        words = []
        if row.keyed:
            yield "    let place = Place(key);"
            words.append("place")
        for it in row.columns:
            if row.keyed and it.name in KEY and it.kind != "tree":
                continue
            yield from (f"    {line}" for line in line_lets(it))
            words.append(it.tools if it.kind in ("flag", "tree") else it.core)
        yield from (f'    write!(f, "{row.letter} {" ".join(f"{{{word}}}" for word in words)}")', "}", "")


def line_lets(it: Column) -> list[str]:
    if it.kind == "flag":
        no, yes = it.words
        return [f'let {it.tools} = if {it.core} {{ "{yes}" }} else {{ "{no}" }};']
    return [it.of.let.replace("{n}", it.core)] if it.of.let else []


# ---- C


def aligned(lines: list[tuple[str, str]]) -> Iterator[str]:
    """Lines with their comments, those of lines that follow one another below each other."""
    run: list[tuple[str, str]] = []
    for line, comment in [*lines, ("", "")]:
        if comment:
            run.append((line, comment))
            continue
        width = max((len(text) for text, _ in run), default=0)
        yield from (f"{text:{width}} /* {said} */" for text, said in run)
        run = []
        if line:
            yield line


def c_columns(row: Row) -> Iterator[str]:
    return aligned([it.c_line() for it in row.columns])


def mixed_columns(rows: list[Row]) -> Iterator[str]:
    """What torture/refuse adds up of each row."""
    for row in rows:
        columns = [f"row->of.{row.member}.{it.name}" for it in row.columns]
        yield from wrapped(f"    case '{row.letter}': return MIXED(", ["sum", *columns], ");")


# ---- Rust


def rust_columns(row: Row) -> Iterator[str]:
    for it in row.columns:
        yield from (f"    /// {it.sentence('rust')}", f"    pub {it.rust}: {it.of.rust},")


def rust_reading(rows: list[Row]) -> Iterator[str]:
    for row in rows:
        yield from ("", f"impl {row.library}Row {{", f"    fn from_c(of: raw::{row.library}) -> {row.library}Row {{")
        items = [f"{it.rust}: {it.of.of_rust.replace('{}', f'of.{it.name}')}" for it in row.columns]
        yield from one_or_more_lines(f"{row.library}Row", items, "        ")
        yield from ("    }", "}")
    yield ""


def one_or_more_lines(name: str, items: list[str], indent: str) -> list[str]:
    line = f"{indent}{name} {{ {', '.join(items)} }}"
    if len(line) <= WIDTH:
        return [line]
    return [f"{indent}{name} {{", *(f"{indent}    {it}," for it in items), f"{indent}}}"]


def rust_raw(row: Row) -> Iterator[str]:
    return (f"        pub {it.name}: {it.of.c.replace('uint32_t', 'u32').replace('uint64_t', 'u64')},"
            for it in row.columns)


# ---- Python


def python_raw(rows: list[Row]) -> Iterator[str]:
    for row in rows:
        yield f"class C{row.library}(Structure):"
        columns = [f'("{it.name}", {CTYPES[it.of.c]})' for it in row.columns]
        yield from (*wrapped("    _fields_ = [", columns, "]"), "", "")


KIND = ("", "    def kind(self) -> str:", '        """`g` for (*,G), `sg` for (S,G) and `rpt` for (S,G,rpt)."""',
        '        return "g" if self.source is None else "rpt" if self.is_rpt else "sg"')


def python_rows(rows: list[Row]) -> Iterator[str]:
    for row in rows:
        yield from ("@dataclass(frozen=True)", f"class {row.library}Row:", f'    """{sentence(row.says)}"""')
        yield f'    table: ClassVar[str] = "{row.letter}"'
        yield from (f"    {it.name}: {it.of.python}  # {it.about('python')}" for it in row.columns)
        yield from KIND if any(it.kind == "tree" for it in row.columns) else ()
        yield from ("", "    def __str__(self) -> str:")
        yield from (*wrapped("        return line(", [f'"{row.letter}"', *map(python_word, row.columns)], ")"), "", "")


def sentence(text: str) -> str:
    return f"{text[0].upper()}{text[1:]}."


def python_word(it: Column) -> str:
    """How a column is printed."""
    if it.kind == "end":
        return f'ends(self.{it.name}, "{it.words[0]}")'
    if it.kind in ("flag", "role"):
        return f'"{it.words[1]}" if self.{it.name} else "{it.words[0]}"'
    return it.of.shown.replace("{n}", it.name)


def wrapped(head: str, items: list[str], tail: str) -> list[str]:
    """A call in lines that aren't too long."""
    lines = [head]
    for at, it in enumerate(items):
        text = it + (tail if at + 1 == len(items) else ",")
        if len(lines[-1]) + 1 + len(text) > WIDTH:
            lines.append(" " * len(head) + text)
        else:
            lines[-1] += text if lines[-1] == head else f" {text}"
    return lines


def python_reading(rows: list[Row]) -> Iterator[str]:
    for row in rows:
        name = row.library.lower()
        yield f"def {name}_row(of: C{row.library}) -> {row.library}Row:"
        items = [it.of.of_python.replace("{}", f"of.{it.name}") for it in row.columns]
        yield from (*wrapped(f"    return {row.library}Row(", items, ")"), "", "")


# ---- tools and documents


def tools_columns(rows: list[Row]) -> Iterator[str]:
    for row in rows:
        yield from (f"class {row.tools}(NamedTuple):", f'    """{sentence(row.says)}"""')
        yield from (f"    {it.tools}: {it.of.tools}" for it in row.columns)
        yield from ("", "")
    yield from ("ROWS = {", *wrapped("    ", [f'"{row.letter}": {row.tools}' for row in rows], ","), "}")
    for name, about, is_so in (("ENDS", "moments", Column.is_time), ("NUMBERS", "numbers", is_number)):
        found = dict.fromkeys(it.tools for row in rows for it in row.columns if is_so(it))
        names = ", ".join(f'"{it}"' for it in found) + "," * (len(found) == 1)
        yield from (f"# The columns that are {about}.", f"{name} = ({names})")


def is_number(it: Column) -> bool:
    return it.kind in ("iface", "number")


def numbers_for_tools(rows: list[Row]) -> Iterator[str]:
    """How each row of the definitions' network is printed of its numbers."""
    yield "# The rows of the definitions: the first number of each, and its columns, each a kind with its words."
    yield "ROWS = {"
    for row in rows:
        kinds = [(it.kind, it.words) for it in row.columns]
        if row.keyed and not any(kind == "tree" for kind, _ in kinds):
            kinds.insert(3, ("nothing", []))
        texts = [f'("{kind}", {words})'.replace("'", '"') for kind, words in kinds]
        yield from wrapped(f'    "{row.letter}": ({row.line}, [', texts, "]),")
    yield "}"


def documented(rows: list[Row]) -> Iterator[str]:
    for row in rows:
        means = row.means
        for it in row.columns:
            if it.name not in KEY and it.shown not in CAPITALS.findall(means):
                means += f"; {it.shown} is {it.about('python')}"
        yield f"| `{row.letter} {' '.join(it.shown for it in row.columns)}` | {means} |"
