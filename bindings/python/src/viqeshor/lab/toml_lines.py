"""Reads TOML 1.1 and keeps the line of each key and value, which the standard library's `tomllib` (TOML 1.0) doesn't.

`read(text)` gives the document as a `Value` of kind "table", or raises `Unreadable` with the line and what is wrong
there. Decimal numbers, dates and times are told from one another by their looks alone: no scenario has any.
"""
from __future__ import annotations

import re
from bisect import bisect_left
from collections.abc import Callable
from dataclasses import dataclass, field
from typing import Any, NoReturn

# The most parts of a key, and the most lists and inline tables in one another.
DEPTH = 80
BARE = re.compile(r"[A-Za-z0-9_-]+")
WORD = re.compile(r"[A-Za-z0-9_+.:-]+")
# Characters that are themselves in every text.
ORDINARY = re.compile(r"[^\"'\\\x00-\x1f\x7f]+")
BLANKS = re.compile(r"[ \t]*")
# White space, ends of lines and comments.
GAP = re.compile(r"(?:[ \t]|\r?\n|#[^\x00-\x08\x0a-\x1f\x7f]*(?=\r?\n|\Z))*")
DECIMAL = re.compile(r"[+-]?(?:0|[1-9][0-9]*(?:_[0-9]+)*)\Z")
BASES = {"0x": (16, "0-9A-Fa-f"), "0o": (8, "0-7"), "0b": (2, "01")}
FLOAT = re.compile(r"[+-]?(?:inf|nan|(?:0|[1-9][0-9_]*)(?=[.eE])(?:\.[0-9][0-9_]*)?(?:[eE][+-]?[0-9_]+)?)\Z")
DATE_OR_TIME = re.compile(r"[0-9]+[-:]")
ESCAPES = {"b": "\b", "e": "\x1b", "f": "\f", "n": "\n", "r": "\r", "t": "\t", '"': '"', "\\": "\\"}
HEX_DIGITS = {"x": 2, "u": 4, "U": 8}


class Unreadable(Exception):
    """The text is no TOML: the line, counted from 1, and what is wrong there."""

    def __init__(self, line: int, what: str) -> None:
        super().__init__(f"line {line}: {what}")
        self.line, self.what = line, what


@dataclass
class Value:
    """A value and the line where it begins. `key_lines` has the line of each key of a table."""

    kind: str  # "text", "number", "list", "table", "decimal", "date or time" or "truth value"
    held: Any
    line: int
    key_lines: dict = field(default_factory=dict)
    # What made a table that isn't inline: a header that passed through it, a dotted key, or its own header.
    origin: str = ""

    def get(self, key: str) -> Value | None:
        return self.held.get(key)


def table(line: int, origin: str = "") -> Value:
    return Value("table", {}, line, origin=origin)


class Reader:
    def __init__(self, text: str) -> None:
        self.text, self.at = text.removeprefix("\ufeff"), 0
        self.ends = [found.start() for found in re.finditer("\n", self.text)]

    # ---- places

    def line(self, at: int | None = None) -> int:
        return bisect_left(self.ends, self.at if at is None else at) + 1

    def fail(self, what: str, at: int | None = None) -> NoReturn:
        raise Unreadable(self.line(at), what)

    def first(self) -> str:
        return self.text[self.at : self.at + 1]

    def starts(self, what: str) -> bool:
        return self.text.startswith(what, self.at)

    def skip(self, pattern: re.Pattern[str]) -> None:
        self.at = pattern.match(self.text, self.at).end()

    def seen(self) -> str:
        """What stands here, in words."""
        if self.at >= len(self.text):
            return "the end of the file"
        if self.starts("\n") or self.starts("\r\n"):
            return "the end of the line"
        return repr(self.first()) if self.first().isprintable() else f"the character {ord(self.first()):#04x}"

    def take(self, what: str, after: str) -> None:
        if not self.starts(what):
            self.fail(f"`{what}` is wanted after {after}, and there is {self.seen()}")
        self.at += len(what)

    # ---- texts

    def text_value(self) -> str:
        mark = self.first() * 3
        if self.starts(mark):
            begin = self.at
            self.at += 3
            self.at += 2 if self.starts("\r\n") else 1 if self.starts("\n") else 0
            return self.body(mark, begin)
        return self.one_line()

    def one_line(self) -> str:
        begin = self.at
        self.at += 1
        return self.body(self.text[begin], begin)

    def body(self, mark: str, begin: int) -> str:
        """The characters up to the closing mark."""
        found = []
        while not self.closes(mark, begin):
            if run := ORDINARY.match(self.text, self.at):
                self.at = run.end()
                found.append(run[0])
            elif self.starts("\\") and mark[0] == '"':
                found.append(self.escape(len(mark) == 3))
            else:
                found.append(self.plain(mark, begin))
        return "".join(found)

    def closes(self, mark: str, begin: int) -> bool:
        if len(mark) == 1 or not self.starts(mark):
            found = self.starts(mark)
        else:
            run = len(self.text) - self.at - len(self.text[self.at :].lstrip(mark[0]))
            if run > 5:
                self.fail("too many quotes stand together", begin)
            found = run == 3
        self.at += len(mark) if found else 0
        return found

    def plain(self, mark: str, begin: int) -> str:
        char = self.first()
        ends_line = char == "\n" or self.starts("\r\n")
        if not char or (ends_line and len(mark) == 1):
            what = f"a text that begins with {mark} isn't closed on its line"
            self.fail(what if len(mark) == 1 else f"{mark} isn't closed", begin)
        if not ends_line and char != "\t" and (ord(char) < 32 or ord(char) == 127):
            self.fail(f"a text has the control character {ord(char):#04x}")
        self.at += 1
        return char

    def escape(self, multi: bool) -> str:
        self.at += 1
        after = BLANKS.match(self.text, self.at).end()
        if multi and re.compile(r"\r?\n").match(self.text, after):
            self.skip(re.compile(r"(?:[ \t]|\r?\n)*"))
            return ""
        letter = self.first()
        self.at += 1
        if letter in ESCAPES and letter:
            return ESCAPES[letter]
        digits = self.text[self.at : self.at + HEX_DIGITS.get(letter, 0)]
        if not re.fullmatch(r"[0-9A-Fa-f]+", digits) or len(digits) != HEX_DIGITS[letter]:
            self.fail(f"a text has an unknown escape, `\\{letter}`: write a backslash as `\\\\`", self.at - 1)
        code = int(digits, 16)
        if 0xD800 <= code < 0xE000 or code > 0x10FFFF:
            self.fail(f"`\\{letter}{digits}` is no character", self.at - 1)
        self.at += len(digits)
        return chr(code)

    # ---- keys and values

    def key(self) -> list[tuple[str, int]]:
        """The parts of a key, as [(text, line)]."""
        parts = []
        while len(parts) < DEPTH:
            line = self.line()
            if self.first() in ('"', "'") and self.first():
                parts.append((self.one_line(), line))
            elif bare := BARE.match(self.text, self.at):
                self.at = bare.end()
                parts.append((bare[0], line))
            else:
                self.fail(f"a key is wanted, and there is {self.seen()}")
            self.skip(BLANKS)
            if not self.starts("."):
                return parts
            self.at += 1
            self.skip(BLANKS)
        self.fail(f"a key has more than {DEPTH} parts")

    def pair(self, depth: int) -> tuple[list[tuple[str, int]], Value]:
        key = self.key()
        self.take("=", f"the key `{'.'.join(part for part, _ in key)}`")
        self.skip(BLANKS)
        return key, self.value(depth)

    def value(self, depth: int) -> Value:
        line = self.line()
        if self.first() in ('"', "'") and self.first():
            return Value("text", self.text_value(), line)
        if self.starts("[") or self.starts("{"):
            if not depth:
                self.fail(f"lists and tables stand more than {DEPTH} deep in one another")
            return self.items(depth - 1) if self.starts("[") else self.inline(depth - 1)
        return self.word(line)

    def separated(self, closing: str, what: str, one: Callable[[], object]) -> None:
        """Reads what stands between brackets with commas: calls `one` for each."""
        begin = self.at
        self.at += 1
        self.skip(GAP)
        while not self.starts(closing):
            one()
            self.skip(GAP)
            if self.at >= len(self.text):
                self.fail(f"{what} isn't closed by `{closing}`", begin)
            if not self.starts(closing):
                if not self.starts(","):
                    self.fail(f"`,` or `{closing}` is wanted after a value of {what}, and there is {self.seen()}")
                self.at += 1
                self.skip(GAP)
        self.at += 1

    def items(self, depth: int) -> Value:
        found = Value("list", [], self.line())
        self.separated("]", "a list", lambda: found.held.append(self.value(depth)))
        return found

    def inline(self, depth: int) -> Value:
        found = table(self.line(), "header")

        def one() -> None:
            key, value = self.pair(depth)
            self.put(found, key, value)

        self.separated("}", "a table in braces", one)
        # Nothing can be added to it later.
        close(found)
        return found

    def word(self, line: int) -> Value:
        found = WORD.match(self.text, self.at)
        if not found:
            self.fail(f"a value is wanted, and there is {self.seen()}")
        word = found[0]
        self.at = found.end()
        if word in ("true", "false"):
            return Value("truth value", word == "true", line)
        if DATE_OR_TIME.match(word):
            self.skip(re.compile(r"(?: (?=[0-9])[A-Za-z0-9_+.:-]+)?"))
            return Value("date or time", word, line)
        number = integer(word)
        if number is not None:
            if not -(2**63) <= number < 2**63:
                self.fail(f"the number {word} is too large: TOML's are below 2^63")
            return Value("number", number, line)
        if FLOAT.match(word):
            return Value("decimal", word, line)
        if re.fullmatch(r"[0-9]+(?:\.[0-9]+){3}(?:/[0-9]+)?", word) or not re.match(r"[0-9+-]", word):
            self.fail(f"`{word}` is no value: a text stands in quotes, as \"{word}\"")
        if re.fullmatch(r"[+-]?0[0-9_]+", word):
            self.fail(f"`{word}` is no number: it has a 0 in front")
        self.fail(f"`{word}` is no value")

    # ---- what keys and headers define

    def put(self, inside: Value, key: list[tuple[str, int]], value: Value) -> None:
        """A pair, by a key that may have dots."""
        for part, line in key[:-1]:
            found = inside.get(part)
            if found is None:
                found = inside.held[part] = table(line, "dotted")
                inside.key_lines[part] = line
            elif found.kind != "table" or found.origin not in ("implicit", "dotted"):
                raise Unreadable(line,
                    f"`{part}` stands in line {inside.key_lines[part]} already, and can't be added to")
            found.origin = "dotted"
            inside = found
        part, line = key[-1]
        if part in inside.held:
            raise Unreadable(line, f"the key `{part}` stands twice: in line {inside.key_lines[part]} already")
        inside.held[part] = value
        inside.key_lines[part] = line

    def along(self, root: Value, path: list[tuple[str, int]]) -> Value:
        """The table to which the headers of a path lead."""
        inside = root
        for part, line in path:
            found = inside.get(part)
            if found is None:
                found = inside.held[part] = table(line, "implicit")
                inside.key_lines[part] = line
            if found.kind == "list" and found.origin == "header":
                found = found.held[-1]
            elif found.kind != "table" or found.origin == "closed":
                raise Unreadable(line,
                    f"`{part}` is a value in line {inside.key_lines[part]}, and can't be a header's table")
            inside = found
        return inside

    def header(self, root: Value) -> list[tuple[str, int]]:
        many = self.starts("[[")
        self.at += 2 if many else 1
        self.skip(BLANKS)
        path = self.key()
        self.take("]]" if many else "]", "a header's name")
        inside = self.along(root, path[:-1])
        part, line = path[-1]
        found = inside.get(part)
        if found is None:
            inside.key_lines[part] = line
            inside.held[part] = Value("list", [table(line, "header")], line, origin="header") if many else table(line,
                "header")
        elif many and found.kind == "list" and found.origin == "header":
            found.held.append(table(line, "header"))
        elif not many and found.kind == "table" and found.origin == "implicit":
            found.origin, found.line = "header", line
        else:
            since = f"since line {inside.key_lines[part]}"
            is_many = found.kind == "list" and found.origin == "header"
            if many:
                raise Unreadable(line, f"`{part}` is a {found.kind} {since}, and [[{part}]] wants a list of tables")
            raise Unreadable(line, f"`{part}` is "
                + (f"a list of tables {since}: write [[{part}]]" if is_many else f"there {since} already"))
        return path

    def document(self) -> Value:
        root, section = table(1, "header"), []
        self.skip(GAP)
        while self.at < len(self.text):
            if self.starts("["):
                section = self.header(root)
            else:
                key, value = self.pair(DEPTH)
                self.put(self.along(root, section), key, value)
            self.skip(BLANKS)
            if self.first() not in ("", "#", "\n", "\r"):
                self.fail(f"the line should end here, and there is {self.seen()}")
            before = self.at
            self.skip(GAP)
            if self.at == before and self.at < len(self.text):
                self.fail(f"the line should end here, and there is {self.seen()}")
        return root


def close(value: Value) -> None:
    """An inline table is whole: neither a header nor a dotted key adds to it."""
    if value.kind == "table":
        value.origin = "closed"
        for inner in value.held.values():
            close(inner)


def integer(word: str) -> int | None:
    """The number that a word writes, or None."""
    if word[:2] in BASES:
        base, digits = BASES[word[:2]]
        if re.fullmatch(f"[{digits}]+(?:_[{digits}]+)*", word[2:]):
            return int(word[2:].replace("_", ""), base)
        return None
    return int(word.replace("_", "")) if DECIMAL.match(word) else None


def read(text: str) -> Value:
    """The document of a text, as a table."""
    return Reader(text).document()


def plain(value: Value) -> Any:
    """A value as `tomllib` has it."""
    match value.kind:
        case "table":
            return {key: plain(held) for key, held in value.held.items()}
        case "list":
            return [plain(held) for held in value.held]
    return value.held
