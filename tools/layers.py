#!/usr/bin/env python3
"""Draws docs/layers.svg: the layers of crates.txt as boxes with their crates, and arrows from each layer to those that it stands on.
tests/sources checks that the picture is that of crates.txt.
"""
import os
import sys

sys.path.insert(0, os.path.dirname(os.path.realpath(__file__)))
from atlas.checks import layers_of
from atlas.files import ROOT, text_of

PICTURE = "docs/layers.svg"
# In points: the width of the picture, of a letter and of a gap, the height of a line and of a row of arrows.
WIDTH, LETTER, GAP, LINE, ARROWS = 900, 6.3, 14, 17, 34
INK, FILL, EDGE = "#333333", "#f4f7fa", "#7a8ea3"


def used_layers(layers):
    """Returns for each layer the layers that its crates use, without those that another of these uses."""
    of = {crate: name for name, crates in layers for crate, _ in crates}
    direct = {name: {of[it] for _, uses in crates for it in uses if it in of} - {name} for name, crates in layers}
    every = {}
    for name, _ in layers:
        every[name] = direct[name].union(*(every[it] for it in direct[name]))
    return {name: {it for it in direct[name] if not any(it in every[other] for other in direct[name])} for name, _ in layers}


def rows_of(layers, used):
    """Returns the layers in rows, the lowest first: each stands above all that it uses."""
    level = {}
    for name, _ in layers:
        level[name] = 1 + max((level[it] for it in used[name]), default=-1)
    return [[it for it in layers if level[it[0]] == number] for number in range(max(level.values()) + 1)]


def wrapped(crates, width):
    """Returns the names of crates in lines of this width."""
    lines = [""]
    for crate, _ in crates:
        if lines[-1] and (len(lines[-1]) + len(crate) + 3) * LETTER > width:
            lines.append("")
        lines[-1] += ("   " if lines[-1] else "") + crate
    return lines


class Box:
    """A layer in the picture: its place, its size and its lines."""

    def __init__(self, name, crates, left, width):
        self.name, self.left, self.width, self.top = name, left, width, 0
        self.lines = wrapped(crates, width - GAP)
        self.height = (len(self.lines) + 1) * LINE + 10

    def drawn(self):
        """Yields the elements of the box."""
        yield f'<rect x="{self.left}" y="{self.top}" width="{self.width}" height="{self.height}" rx="4" fill="{FILL}" stroke="{EDGE}"/>'
        for number, line in enumerate([self.name, *self.lines]):
            look = ' font-weight="bold"' if not number else ' xml:space="preserve"'
            yield f'<text x="{self.left + 8}" y="{self.top + LINE * (number + 1)}"{look}>{line}</text>'


def boxes_of(rows):
    """Returns the boxes by the names of their layers, and the height of the picture. The highest row is at the top."""
    found, top = {}, GAP
    for row in reversed(rows):
        whole = sum(len(crates) ** 0.7 for _, crates in row)
        room, left = WIDTH - GAP * (len(row) + 1), GAP
        placed = []
        for name, crates in row:
            width = round(room * len(crates) ** 0.7 / whole)
            placed.append(Box(name, crates, left, width))
            left += width + GAP
        for it in placed:
            it.top, it.height = top, max(other.height for other in placed)
            found[it.name] = it
        top += placed[0].height + ARROWS
    return found, top - ARROWS + GAP


def arrow(above, below):
    """Returns an arrow between two boxes."""
    middle = lambda it: it.left + it.width / 2
    begin, end = middle(above), middle(below)
    low, high = max(above.left, below.left) + 20, min(above.left + above.width, below.left + below.width) - 20
    if low <= high:
        # Straight down, where the boxes are above one another.
        begin = end = min(max(begin, low), high)
    top, bottom = above.top + above.height, below.top - 1
    bend = (bottom - top) / 2
    return f'<path d="M{begin:.0f} {top} C{begin:.0f} {top + bend:.0f} {end:.0f} {bottom - bend:.0f} {end:.0f} {bottom}" fill="none" stroke="{EDGE}" marker-end="url(#head)"/>'


def picture():
    """Returns the picture."""
    layers = layers_of(text_of("crates.txt"))
    used = used_layers(layers)
    boxes, height = boxes_of(rows_of(layers, used))
    lines = [
        f'<svg xmlns="http://www.w3.org/2000/svg" viewBox="0 0 {WIDTH} {height}" font-family="sans-serif" font-size="12" fill="{INK}">',
        f'<defs><marker id="head" viewBox="0 0 8 8" refX="7" refY="4" markerWidth="7" markerHeight="7" orient="auto"><path d="M0 0 L8 4 L0 8 z" fill="{EDGE}"/></marker></defs>',
        *(arrow(boxes[name], boxes[it]) for name, _ in layers for it in sorted(used[name])),
        *(line for name, _ in layers for line in boxes[name].drawn()),
        "</svg>",
    ]
    return "\n".join(lines) + "\n"


def is_drawn():
    """Returns whether the picture is that of crates.txt."""
    return os.path.exists(f"{ROOT}/{PICTURE}") and text_of(PICTURE) == picture()


if __name__ == "__main__":
    with open(f"{ROOT}/{PICTURE}", "w", encoding="utf-8") as file:
        file.write(picture())
