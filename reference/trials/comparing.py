"""The program as built and the reference, on one input."""

import random
import subprocess
from functools import lru_cache

from policer.ports_dialogue import Open
from policer.subcommands import SUBCOMMANDS

from . import check_inputs, eval_inputs, ports_inputs, run_inputs
from .edges import EDGES

MAKERS = {"check": check_inputs.make, "eval": eval_inputs.make, "run": run_inputs.make, "ports": ports_inputs.make}

SECONDS = 120


@lru_cache(maxsize=1)
def edges_of(subcommand):
    """The fixed inputs of a subcommand."""
    return list(EDGES[subcommand]())


def input_of(subcommand, seed, number):
    """The input of this number, which a seed determines for good. The fixed ones have the numbers below 0."""
    if number < 0:
        return edges_of(subcommand)[number]
    return MAKERS[subcommand](random.Random("%s %s %s" % (seed, subcommand, number)))


def of_program(program, subcommand, text):
    """What the program writes, its exit status, and what it writes to standard error."""
    try:
        ended = subprocess.run([program, subcommand], input=text, capture_output=True, timeout=SECONDS, check=False)
    except subprocess.TimeoutExpired:
        return b"", -1, b"no end in %d seconds" % SECONDS
    return ended.stdout, ended.returncode, ended.stderr


def of_reference(subcommand, text):
    """The same of the reference, which writes nothing to standard error."""
    return (*SUBCOMMANDS[subcommand](text), b"")


def differs(program, subcommand, text):
    """Whether the two answer differently; an input whose answers are open makes no difference."""
    try:
        return of_program(program, subcommand, text) != of_reference(subcommand, text)
    except Open:
        return False


def shortened(text, is_found, tries=1000):
    """A shorter text for which `is_found` holds too: lines are left out, and then octets, as long as it does."""
    for parts in (text.splitlines(keepends=True), None):
        if parts is None:
            parts = [text[at : at + 1] for at in range(len(text))]
        size, left = len(parts) // 2 or 1, tries
        while size and left > 0:
            at = 0
            while at < len(parts) and left > 0:
                left -= 1
                fewer = parts[:at] + parts[at + size :]
                if is_found(b"".join(fewer)):
                    parts = fewer
                else:
                    at += size
            size //= 2
        text = b"".join(parts)
    return text


def first_difference(ours, theirs):
    """The first line in which two answers differ, or the statuses."""
    for number, (left, right) in enumerate(zip(lines_of(ours), lines_of(theirs)), start=1):
        if left != right:
            return "line %d: upc: %s, reference: %s" % (number, shown(left), shown(right))
    return "status: upc: %d, reference: %d; errors: %s" % (ours[1], theirs[1], shown(ours[2]))


def lines_of(answer):
    """The lines of the text, and an empty one after the last."""
    return answer[0].splitlines(keepends=True) + [b""]


def shown(octets):
    text = repr(octets)[1:]
    return text if len(text) <= 120 else text[:117] + "..."
