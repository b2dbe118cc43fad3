"""What `./pimlab` adds on a terminal to a complaint of the program: what its words are, and what says more."""
from __future__ import annotations

import subprocess
import sys
from collections.abc import Sequence
from difflib import get_close_matches

USAGE = """\
usage: pimlab run FILE [--wire memory|udp] [--tables] [--tables-each] [--from ROUTER=IN ..]
                       [--save ROUTER=OUT ..]
       pimlab check FILE"""
WORDS = ["run", "check", "--wire", "--tables", "--tables-each", "--from", "--save", "--help", "--version"]


def nearest(words: Sequence[str]) -> str | None:
    """What the first word that is none of the program's was probably to be."""
    for place, word in enumerate(words):
        near = get_close_matches(word.partition("=")[0], WORDS, 1, 0.6)
        if (place == 0 or word.startswith("-")) and word.partition("=")[0] not in WORDS and near:
            return f"`{word}` is no word of it; is `{near[0]}` meant?"
    return None


def hints(complaint: str, words: Sequence[str]) -> list[str]:
    """The lines that are added to a complaint."""
    if "command line refused" in complaint:
        return [*filter(None, [nearest(words)]), USAGE]
    if "scenario refused" in complaint:
        files = [word for word in words[1:2] if word != "-"] or ["FILE"]
        return [f"tools/why {files[0]} says where"]
    return []


def run(path: str, words: Sequence[str]) -> int:
    """Runs the program, whose complaints are read. Answers its status."""
    with subprocess.Popen([path, *words], stderr=subprocess.PIPE) as running:
        complaint = running.stderr.read()
        sys.stderr.buffer.write(complaint)
        for line in hints(complaint.decode(errors="replace"), words):
            print(line, file=sys.stderr)
    return running.returncode if running.returncode >= 0 else 128 - running.returncode
