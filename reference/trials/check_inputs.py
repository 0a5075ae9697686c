"""Inputs of `upc check`."""

from . import programs, sources
from .mutations import mutated

MOST_SOURCE_OCTETS = 1_048_576


def make(rng):
    way = rng.random()
    if way < 0.05:
        text = sources.soup(rng)
    elif way < 0.12:
        text = sources.far(rng)
    elif way < 0.14:
        text = rng.choice((b"", b"\n", b"; nothing\n", b"\r\n\t\n", b"here:\n", b"a: b: neg\n"))
    else:
        text = sources.source(rng, source_program(rng))
    if rng.random() < 0.3:
        text = mutated(rng, text)
    if rng.random() < 0.004:
        text = as_long_as_it_may_be(rng, text)
    return text


def source_program(rng):
    """A program that a source can mean: jumps go to places of the program."""
    while True:
        program = programs.any_program(rng)
        if sources.stays_inside(program):
            return program


def as_long_as_it_may_be(rng, text):
    wanted = MOST_SOURCE_OCTETS + rng.choice((-1, 0, 1, 1))
    filler = rng.choice((b";", b"\n", b" "))
    return text + b";" + filler * (wanted - len(text) - 1)
