"""Octets of a program: eight for each instruction, big-endian."""

from .faults import Fault
from .instructions import BRANCHES, FORMS_WITH_K, TABLE, Instruction

OCTETS = 8


def decoded(octets):
    """The instructions that the octets spell. Fields that aren't in use are ignored."""
    if len(octets) % OCTETS != 0:
        raise Fault("decode", "Ragged")
    return [
        decoded_one(octets[begin : begin + OCTETS], begin // OCTETS)
        for begin in range(0, len(octets), OCTETS)
    ]


def decoded_one(eight, place):
    """The instruction that eight octets spell: the code (16 bits), jt (8), jf (8) and k (32)."""
    code = int.from_bytes(eight[:2], "big")
    if code not in TABLE:
        raise Fault("decode", "UnknownCode", place, "%04x" % code)
    mnemonic, form = TABLE[code]
    is_branch = mnemonic in BRANCHES
    has_k = form in FORMS_WITH_K
    return Instruction(
        code,
        eight[2] if is_branch else 0,
        eight[3] if is_branch else 0,
        int.from_bytes(eight[4:], "big") if has_k else 0,
    )


def encoded(program):
    """The octets of instructions, with 0 in the fields that aren't in use."""
    return b"".join(
        instruction.code.to_bytes(2, "big")
        + bytes([instruction.jt, instruction.jf])
        + instruction.k.to_bytes(4, "big")
        for instruction in program
    )
