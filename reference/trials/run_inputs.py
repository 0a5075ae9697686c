"""Inputs of `upc run`."""

from . import layout
from .mutations import mutated
from .scripts import Script

FIRST_LINES = [
    b"", b"card", b"card 1 1 1", b"card 1 1 1 1 1", b"card 1 1 1 1 UNI", b"card 1 1 1 1 uni nni", b"Card 1 1 1 1",
    b"card 1 1 1 -1", b"card 1 1 1 +1", b"card 1 1 1 0x1", b"card 1 1 1 18446744073709551616", b"cardx 1 1 1 1",
    b"cut 1 1", b"load 0006000000000001", b"cell 0 00000000", b"card 0 0 0 0", b"card 1025 1 1 1", b"card 1 4097 1 1",
    b"card 1 1 17 1", b"card 1 1 1 65537", b"card 1 0 1 1", b"card 1 1 0 1", b"card 1 1 1 0", b"card 1 0 17 0",
    b"card 18446744073709551615 1 1 1", b"card 1 1 1 18446744073709551615", b"card 1024 4096 16 65536 nni",
    b"card 0001 00000000000000000000000000001 1 01 uni", b"card 1 1 1 1 \x80", b"card 1 1 1 1 paths", b"card 1 1 1 1 uni Paths",
    b"card 1 1 1 1 uni path", b"card 1 1 1 1 nni paths paths", b"card 1 1 1 1 paths uni", b"card 1 1 1 uni paths", b"card 1 0 1 1 uni paths",
]


def make(rng):
    if rng.random() < 0.06:
        lines = [rng.choice(FIRST_LINES)] + Script(rng).lines[1:]
    else:
        lines = Script(rng).lines
    text = layout.text_of(rng, lines)
    return mutated(rng, text) if rng.random() < 0.25 else text
