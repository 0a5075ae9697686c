"""Inputs of `upc eval`."""

from . import cells, layout, programs
from .mutations import mutated


def make(rng):
    lines = [program_line(rng)] + [cell_line(rng) for _ in range(rng.randrange(1, 8))]
    if rng.random() < 0.01:
        lines = []
    text = layout.text_of(rng, lines)
    return mutated(rng, text) if rng.random() < 0.25 else text


def program_line(rng):
    word = cells.digits(rng, programs.octets_of(rng, programs.any_program(rng)))
    return word + b" 00" if rng.random() < 0.01 else word


def cell_line(rng):
    """A cell of 52 octets, a header alone, or a line that is no cell."""
    head = bytes(rng.randrange(256) for _ in range(4))
    way = rng.random()
    if way < 0.7:
        return cells.digits(rng, cells.cell(rng, head, rng.choice((None, 0, 1, 4, 52, 255))))
    if way < 0.85:
        return cells.digits(rng, head)
    if way < 0.95:
        return cells.wrong(rng)
    return cells.digits(rng, head) + b" " + cells.digits(rng, head)
