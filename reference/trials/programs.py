"""Random programs: accepted ones, and ones that break a rule."""

from policer.instructions import (
    ARITHMETIC,
    BRANCHES,
    CODES,
    FORMS_WITH_K,
    TABLE,
    Instruction,
    successors,
    word_stored,
)

from .numbers_at_limits import WORD, near, word

ARITHMETIC_SPELLINGS = [(name, form) for name in ARITHMETIC for form in ("#k", "x")]
BRANCH_SPELLINGS = [(name, form) for name in BRANCHES for form in ("#k", "x")]
PACKET_SPELLINGS = [spelling for spelling in CODES if spelling[1] in ("[k]", "[x+k]", "4*([k]&0xf)")]
STORES = [("st", "M[k]"), ("stx", "M[k]")]
RECALLS = [("ld", "M[k]"), ("ldx", "M[k]")]
MOVES = [("ld", "#k"), ("ldx", "#k"), ("ld", "#len"), ("ldx", "#len"), ("tax", ""), ("txa", ""), ("neg", "")]
RETURNS = [("ret", "#k"), ("ret", "a")]

# Groups of spellings, each with how often a program has one of them.
GROUPS = (
    (PACKET_SPELLINGS, 20),
    (ARITHMETIC_SPELLINGS, 25),
    (BRANCH_SPELLINGS, 14),
    (STORES, 10),
    (RECALLS, 12),
    (MOVES, 16),
    ([("ja", "L")], 3),
    (RETURNS, 2),
)


# What a program may begin with, so that its registers aren't 0.
BEGINNINGS = (
    [],
    [("ldx", "#k"), ("ld", "[k]")],
    [("ldb", "[k]"), ("tax", ""), ("ldh", "[k]")],
    [("ldxb", "4*([k]&0xf)"), ("ldb", "[x+k]")],
    [("ldb", "[k]"), ("and", "#k"), ("jeq", "#k")],
    [("ld", "#k"), ("jeq", "#k"), ("ldx", "#k")],
)


def length(rng):
    """How many instructions a program has: mostly few, seldom as many as there may be."""
    way = rng.random()
    if way < 0.3:
        return rng.randrange(1, 6)
    if way < 0.9:
        return rng.randrange(2, 40)
    if way < 0.99:
        return rng.randrange(200, 600)
    return rng.choice((4095, 4096))


def accepted(rng, count=None):
    """A program that the check accepts."""
    count = count or length(rng)
    stored = [None] * count
    stored[0] = frozenset()
    program = []
    begin = rng.choice(BEGINNINGS)
    for place in range(count):
        if place < min(len(begin), count - 1):
            instruction = filled(rng, begin[place], place, count, stored[place])
        else:
            instruction = next_instruction(rng, place, count, stored[place])
        if instruction.mnemonic in BRANCHES and program:
            instruction = instruction._replace(k=compared_after(rng, program[-1], instruction))
        program.append(instruction)
        lead(instruction, place, stored)
    return program


def lead(instruction, place, stored):
    """Carries what is stored on to the later places."""
    if stored[place] is None:
        return
    word_of = word_stored(instruction)
    after = stored[place] | ({word_of} if word_of is not None else set())
    for successor in successors(instruction, place):
        if successor < len(stored):
            known = stored[successor]
            stored[successor] = after if known is None else known & after


def next_instruction(rng, place, count, stored):
    """An instruction that may be at the place; a return at the last."""
    if place == count - 1:
        return filled(rng, rng.choice(RETURNS), place, count, stored)
    group = rng.choices([names for names, _ in GROUPS], [weight for _, weight in GROUPS])[0]
    if group is RECALLS and stored is not None and not stored:
        group = STORES
    return filled(rng, rng.choice(group), place, count, stored)


def filled(rng, spelling, place, count, stored):
    """The instruction of this spelling with valid fields."""
    mnemonic, form = spelling
    code = CODES[spelling]
    room = count - place - 2  # the greatest offset, to the last place
    if mnemonic in BRANCHES:
        return Instruction(code, offset(rng, min(room, 255)), offset(rng, min(room, 255)), compared(rng))
    if mnemonic == "ja":
        return Instruction(code, k=offset(rng, room))
    if form not in FORMS_WITH_K:
        return Instruction(code)
    return Instruction(code, k=operand(rng, mnemonic, form, stored))


def compared_after(rng, before, branch):
    """What a branch compares with, often about what the instruction before it leaves in A."""
    if branch.form != "#k" or rng.random() < 0.3:
        return branch.k
    if before.mnemonic == "ld" and before.form == "#k":
        return near(rng, before.k, WORD - 1)
    if before.mnemonic == "ld" and before.form == "#len":
        return near(rng, 52, WORD - 1)
    if before.mnemonic in ("and", "mod") and before.form == "#k":
        return rng.randint(0, min(before.k, 16))
    return branch.k


def offset(rng, most):
    """An offset of at most this number: often 0, seldom the greatest."""
    way = rng.random()
    if way < 0.35:
        return 0
    if way < 0.85:
        return rng.randint(0, min(most, 6))
    return most if way < 0.9 else rng.randint(0, most)


def compared(rng):
    """What a branch compares with: what a cell or arithmetic often gives."""
    return rng.randrange(8) if rng.random() < 0.3 else word(rng)


def operand(rng, mnemonic, form, stored):
    """The k of a form that names it."""
    if form == "M[k]":
        if mnemonic in ("st", "stx") or stored is None:
            return rng.randrange(16)
        return rng.choice(sorted(stored))
    if form in ("[k]", "4*([k]&0xf)"):
        return rng.randrange(49) if rng.random() < 0.9 else word(rng)
    if form == "[x+k]":
        return rng.randrange(8) if rng.random() < 0.7 else word(rng)
    if mnemonic in ("lsh", "rsh"):
        return rng.randrange(32)
    if mnemonic in ("div", "mod"):
        return word(rng) or 1
    return word(rng)


def broken(rng):
    """A program with one instruction changed, which often breaks a rule."""
    program = accepted(rng, rng.choice((1, 2, 3, 5, 12, 40)))
    return rng.choice(BREAKS)(rng, program)


def scratch_outside(rng, program):
    return with_one(rng, program, rng.choice(STORES + RECALLS), rng.choice((15, 16, 17, 255, 1 << 31)))


def zero_divisor(rng, program):
    return with_one(rng, program, rng.choice((("div", "#k"), ("mod", "#k"))), rng.choice((0, 0, 1)))


def shift_outside(rng, program):
    return with_one(rng, program, rng.choice((("lsh", "#k"), ("rsh", "#k"))), rng.choice((31, 32, 33, 1 << 31)))


def jump_outside(rng, program):
    """A jump to the last place or past it."""
    at = rng.randrange(len(program))
    reach = max(0, len(program) - at - 2 + rng.choice((0, 1, 1, 2)))
    if rng.random() < 0.4:
        jump = Instruction(CODES["ja", "L"], k=rng.choice((reach, (1 << 32) - 1, (1 << 32) - 1 - at)))
    else:
        offsets = [min(reach, 255), 0]
        rng.shuffle(offsets)
        jump = Instruction(CODES[rng.choice(BRANCH_SPELLINGS)], offsets[0], offsets[1], word(rng))
    return program[:at] + [jump] + program[at + 1 :]


def without_return(rng, program):
    last = rng.choice((("neg", ""), ("ja", "L"), ("ld", "#len"), ("jeq", "x"), ("add", "#k")))
    return program[:-1] + [Instruction(CODES[last])]


def unwritten(rng, program):
    """A load of a scratch word that perhaps nothing stores on some path."""
    return with_one(rng, program, rng.choice(RECALLS), rng.randrange(16))


def diamonds(rng, _):
    """Branches, each of whose arms may store a word, and loads after them."""
    program = []
    for _ in range(rng.randrange(1, 5)):
        arms = [[Instruction(CODES[rng.choice(STORES)], k=rng.randrange(3))] for _ in range(2)]
        if rng.random() < 0.3:
            arms[0].append(Instruction(CODES["ret", "a"]))
        else:
            arms[0].append(Instruction(CODES["ja", "L"], k=len(arms[1])))
        program.append(Instruction(CODES[rng.choice(BRANCH_SPELLINGS)], 0, len(arms[0]), word(rng)))
        program += arms[0] + arms[1]
        if rng.random() < 0.6:
            program.append(Instruction(CODES[rng.choice(RECALLS)], k=rng.randrange(3)))
    return program + [Instruction(CODES["ret", "a"])]


def about_longest(rng):
    """A program with as many instructions as there may be, or one more."""
    return [Instruction(CODES["tax", ""])] * rng.choice((4095, 4096, 4096)) + [Instruction(CODES["ret", "a"])]


BREAKS = [
    scratch_outside,
    zero_divisor,
    shift_outside,
    jump_outside,
    jump_outside,
    without_return,
    unwritten,
    unwritten,
    diamonds,
    diamonds,
]


def with_one(rng, program, spelling, k):
    """The program with one instruction of this spelling in place of another."""
    at = rng.randrange(len(program))
    return program[:at] + [Instruction(CODES[spelling], k=k)] + program[at + 1 :]


def any_program(rng):
    """A program, accepted or not."""
    way = rng.random()
    if way < 0.6:
        return accepted(rng)
    if way < 0.985:
        return broken(rng)
    return about_longest(rng)


def octets_of(rng, program):
    """The octets of a program, with anything in the fields that aren't in use, and seldom with a bit turned."""
    fills_unused = rng.random() < 0.3
    octets = bytearray()
    for instruction in program:
        mnemonic, form = TABLE[instruction.code]
        jt, jf, k = instruction.jt, instruction.jf, instruction.k
        if fills_unused and mnemonic not in BRANCHES:
            jt, jf = rng.randrange(256), rng.randrange(256)
        if fills_unused and form not in FORMS_WITH_K:
            k = word(rng)
        octets += instruction.code.to_bytes(2, "big") + bytes([jt, jf]) + k.to_bytes(4, "big")
    if rng.random() < 0.15:
        turned(rng, octets)
    return bytes(octets)


def turned(rng, octets):
    """Turns a bit, writes a field anew, or takes or adds some octets."""
    way = rng.random()
    at = rng.randrange(len(octets))
    if way < 0.4:
        octets[at] ^= 1 << rng.randrange(8)
    elif way < 0.6:
        octets[at] = rng.choice((0, 1, 15, 16, 31, 32, 255))
    elif way < 0.8:
        octets[at - at % 8 : at - at % 8 + 2] = rng.choice(list(TABLE) + [0x70, 0x8C, 0xAC, 0x100]).to_bytes(2, "big")
    elif way < 0.9:
        del octets[len(octets) - rng.randrange(1, min(9, len(octets) + 1)) :]
        octets += b"" if octets else b"\0"
    else:
        octets += bytes(rng.randrange(256) for _ in range(rng.randrange(1, 9)))
