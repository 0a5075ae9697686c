"""The instruction table: how each code is spelled."""

from typing import NamedTuple


class Instruction(NamedTuple):
    """A code with its fields; those that it doesn't use are 0."""

    code: int
    jt: int = 0
    jf: int = 0
    k: int = 0

    @property
    def mnemonic(self):
        """The name in the table."""
        return TABLE[self.code][0]

    @property
    def form(self):
        """What follows the name."""
        return TABLE[self.code][1]


ARITHMETIC = {
    "add": 0x00,
    "sub": 0x10,
    "mul": 0x20,
    "div": 0x30,
    "or": 0x40,
    "and": 0x50,
    "lsh": 0x60,
    "rsh": 0x70,
    "mod": 0x90,
    "xor": 0xA0,
}

BRANCHES = {"jeq": 0x10, "jgt": 0x20, "jge": 0x30, "jset": 0x40}

# Each code's mnemonic, and the form of what follows it.
TABLE = {
    0x20: ("ld", "[k]"),
    0x28: ("ldh", "[k]"),
    0x30: ("ldb", "[k]"),
    0x40: ("ld", "[x+k]"),
    0x48: ("ldh", "[x+k]"),
    0x50: ("ldb", "[x+k]"),
    0x00: ("ld", "#k"),
    0x60: ("ld", "M[k]"),
    0x80: ("ld", "#len"),
    0x01: ("ldx", "#k"),
    0x61: ("ldx", "M[k]"),
    0x81: ("ldx", "#len"),
    0xB1: ("ldxb", "4*([k]&0xf)"),
    0x02: ("st", "M[k]"),
    0x03: ("stx", "M[k]"),
    0x84: ("neg", ""),
    0x05: ("ja", "L"),
    0x06: ("ret", "#k"),
    0x16: ("ret", "a"),
    0x07: ("tax", ""),
    0x87: ("txa", ""),
}
TABLE.update({high + 0x04: (name, "#k") for name, high in ARITHMETIC.items()})
TABLE.update({high + 0x0C: (name, "x") for name, high in ARITHMETIC.items()})
TABLE.update({high + 0x05: (name, "#k") for name, high in BRANCHES.items()})
TABLE.update({high + 0x0D: (name, "x") for name, high in BRANCHES.items()})

CODES = {spelling: code for code, spelling in TABLE.items()}

# The forms that name k, and `ja`, whose k is an offset.
FORMS_WITH_K = ("[k]", "[x+k]", "#k", "M[k]", "4*([k]&0xf)", "L")


def targets(instruction, place):
    """The places to which a jump or a branch at this place goes; none for the other instructions."""
    if instruction.mnemonic == "ja":
        return [place + 1 + instruction.k]
    if instruction.mnemonic in BRANCHES:
        return [place + 1 + instruction.jt, place + 1 + instruction.jf]
    return []


def successors(instruction, place):
    """The places to which an instruction at this place may lead; none for a return."""
    if instruction.mnemonic == "ret":
        return []
    return targets(instruction, place) or [place + 1]


def word_read(instruction):
    """The scratch word that the instruction reads, or None."""
    return instruction.k if instruction.form == "M[k]" and instruction.mnemonic in ("ld", "ldx") else None


def word_stored(instruction):
    """The scratch word that the instruction stores, or None."""
    return instruction.k if instruction.mnemonic in ("st", "stx") else None
