"""Runs the cells of a notebook as Jupyter would, without it, and compares or writes what they print and show.

    python3 -m tests.notebook FILE.ipynb        in tools: writes the outputs into the file
"""
import ast
import contextlib
import io
import json
import sys
from pathlib import Path

FORMS = {"text/html": "_repr_html_", "image/svg+xml": "_repr_svg_"}


def lines(text):
    return text.splitlines(True)


def shown(value):
    """An output of the value that a cell ends with."""
    forms = {kind: getattr(value, name)() for kind, name in FORMS.items() if hasattr(value, name)}
    return {"output_type": "execute_result", "execution_count": None, "metadata": {},
            "data": {kind: lines(text) for kind, text in {**forms, "text/plain": repr(value)}.items()}}


def run_cell(source, names):
    """The outputs of a cell: what it prints, and the value of its last line, where that has one."""
    tree, out, value = ast.parse(source), io.StringIO(), None
    last = tree.body.pop() if tree.body and isinstance(tree.body[-1], ast.Expr) else None
    with contextlib.redirect_stdout(out):
        exec(compile(tree, "cell", "exec"), names)
        if last is not None:
            value = eval(compile(ast.Expression(last.value), "cell", "eval"), names)
    printed = [{"name": "stdout", "output_type": "stream", "text": lines(out.getvalue())}] if out.getvalue() else []
    return printed + ([] if value is None else [shown(value)])


def run(path):
    """The notebook with the outputs that its cells have now, each run in the folder where it stands."""
    book, names = json.loads(path.read_text(encoding="utf-8")), {"__name__": "__main__"}
    with contextlib.chdir(path.parent):
        for cell in book["cells"]:
            if cell["cell_type"] == "code":
                cell["outputs"] = run_cell("".join(cell["source"]), names)
    return book


def text_of(book):
    return json.dumps(book, indent=1, ensure_ascii=False) + "\n"


if __name__ == "__main__":
    for name in sys.argv[1:]:
        Path(name).write_text(text_of(run(Path(name))), encoding="utf-8")
