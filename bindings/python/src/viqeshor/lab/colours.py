"""Colours of trees: they follow of the group and the source, so that a tree has the same one in each run and each
picture."""
from collections.abc import Iterable
from zlib import crc32

# Twenty-four colours that are read on white, neighbours in the list far from one another.
PALETTE = [
    "#1f6fb4", "#c0392b", "#2e9a47", "#8e44ad", "#c77700", "#0f8b8d", "#d6336c", "#6b4f1d", "#3f51b5", "#7a8b00",
    "#a0522d", "#00838f",
    "#6a1b9a", "#b71c1c", "#33691e", "#0277bd", "#ad1457", "#ef6c00", "#4527a0", "#00695c", "#827717", "#5d4037",
    "#455a64", "#e0529c",
]


def place_of(tree: tuple[str, str]) -> int:
    """Where a tree, a pair of a group and a source, would be in the palette."""
    return crc32(" ".join(tree).encode()) % len(PALETTE)


def colours(trees: Iterable[tuple[str, str]]) -> dict[tuple[str, str], str]:
    """The colour of each tree: its own place in the palette, or the next that is free where another one has that.
    Beyond the palette colours come again."""
    found, taken = {}, set()
    for tree in sorted(set(trees)):
        if len(taken) == len(PALETTE):
            taken = set()
        place = place_of(tree)
        while place in taken:
            place = (place + 1) % len(PALETTE)
        taken.add(place)
        found[tree] = PALETTE[place]
    return found
