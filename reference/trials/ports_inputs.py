"""Inputs of `upc ports` whose answers are known: all cells come after all commands."""

from policer.ports_dialogue import Open, ported

from . import layout
from .mutations import mutated
from .run_inputs import FIRST_LINES
from .scripts import Script


def make(rng):
    """A script for a running card. One whose answers are open is thrown away."""
    while True:
        text = layout.text_of(rng, lines_of(rng))
        if rng.random() < 0.15:
            text = mutated(rng, text)
        try:
            ported(text)
        except Open:
            continue
        return text


def lines_of(rng):
    """The lines of a script, cells last; of the commands that end something only a few stay."""
    first, *rest = Script(rng).lines
    if rng.random() < 0.04:
        first = rng.choice(FIRST_LINES)
    cells = [line for line in rest if line.startswith(b"cell")]
    setting_up = [
        line
        for line in rest
        if not line.startswith(b"cell") and (line.split(b" ")[0] in (b"load", b"setup") or rng.random() < 0.2)
    ]
    return [first] + setting_up + cells
