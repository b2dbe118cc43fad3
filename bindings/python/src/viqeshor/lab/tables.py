"""The rows of a table of all routers, for people, notebooks and pandas."""
from __future__ import annotations

import html
from typing import TYPE_CHECKING, Any

from viqeshor.lab.mistakes import table_given
from viqeshor.lab.printed import NEVER

if TYPE_CHECKING:
    from collections.abc import Mapping, Sequence


class Table(list):
    """Rows as tuples: the name of the router, and then its row. Times are in ms; `never` is infinite."""

    def __init__(self, name: str, columns: Sequence[str], rows: list[tuple[Any, ...]]) -> None:
        super().__init__(rows)
        self.name, self.columns = name, tuple(columns)

    def frame(self) -> Any:
        """A frame of pandas; the table itself where pandas isn't there."""
        try:
            from pandas import DataFrame
        except ImportError:
            return self
        return DataFrame(list(self), columns=list(self.columns))

    def texts(self) -> list[list[str]]:
        """The names of the columns, and the values of each row."""
        return [list(self.columns), *([said(value) for value in row] for row in self)]

    def __repr__(self) -> str:
        texts = self.texts()
        widths = [max(map(len, column)) for column in zip(*texts)]
        return "\n".join("  ".join(map(str.ljust, row, widths)).rstrip() for row in texts)

    def _repr_html_(self) -> str:
        head, *rows = ([html.escape(text) for text in row] for row in self.texts())
        body = "".join(f"<tr><td>{'</td><td>'.join(row)}</td></tr>" for row in rows)
        return f"<table><tr><th>{'</th><th>'.join(head)}</th></tr>{body}</table>"


def said(value: object) -> str:
    return "-" if value is None else "never" if value == NEVER else str(value)


def table_of(kind: type | str, rows: Mapping[str, list[tuple[Any, ...]]]) -> Table:
    """The table of rows by routers' names."""
    kind = table_given(kind, ())
    return Table(kind.__name__, ("router", *kind._fields), [(name, *row) for name, its in rows.items() for row in its])
