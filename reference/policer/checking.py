"""The check: which instructions are a program."""

from .faults import Fault
from .instructions import successors, targets, word_read, word_stored

MOST_INSTRUCTIONS = 4096
SCRATCH_WORDS = 16
REGISTER_BITS = 32


def check(program):
    """Refuses what is no program, by the first of its faults in the order of the rules."""
    if not program:
        raise Fault("verify", "Empty")
    if len(program) > MOST_INSTRUCTIONS:
        raise Fault("verify", "TooLong")
    for place, instruction in enumerate(program):
        check_alone(instruction, place, len(program))
    if program[-1].mnemonic != "ret":
        raise Fault("verify", "NoReturn")
    check_scratch(program)


def check_alone(instruction, place, length):
    """The rules for an instruction by itself, even if no path reaches it."""
    constant = instruction.k if instruction.form == "#k" else None
    if instruction.form == "M[k]" and instruction.k >= SCRATCH_WORDS:
        raise Fault("verify", "BadScratch", place)
    if instruction.mnemonic in ("div", "mod") and constant == 0:
        raise Fault("verify", "ZeroDivisor", place)
    if instruction.mnemonic in ("lsh", "rsh") and constant is not None and constant >= REGISTER_BITS:
        raise Fault("verify", "BadShift", place)
    if any(target >= length for target in targets(instruction, place)):
        raise Fault("verify", "JumpOutside", place)


def check_scratch(program):
    """On every path from place 0 a scratch word is stored before it is read.

    Jumps go forward, so each place is after all that lead to it: going once from the first place to the
    last, what every path to a place has stored is what all of its ways in have stored.
    """
    stored = [None] * len(program)
    stored[0] = frozenset()
    for place, instruction in enumerate(program):
        if stored[place] is None:
            continue  # no path reaches it
        word = word_read(instruction)
        if word is not None and word not in stored[place]:
            raise Fault("verify", "Unwritten", place, word)
        after = stored[place]
        if word_stored(instruction) is not None:
            after = after | {word_stored(instruction)}
        for successor in successors(instruction, place):
            known = stored[successor]
            stored[successor] = after if known is None else known & after
