"""Fixed inputs of each subcommand: what is just at a limit, one below and one above. Each run compares them."""

from policer.instructions import BRANCHES, CODES, Instruction

from . import programs

MOST_INPUT_LINES = 1_000_000
MOST_LINE_OCTETS = 70_000
MOST_SOURCE_OCTETS = 1_048_576
MOST_INSTRUCTIONS = 4096

RETURN = b"0006000000000001"


def octets_of(program):
    """The digits of a program with plain fields."""
    return b"".join(
        b"%04x%02x%02x%08x" % (one.code, one.jt, one.jf, one.k) for one in program
    )


def one(mnemonic, form, k=0, jt=0, jf=0):
    return Instruction(CODES[mnemonic, form], jt, jf, k)


# Lines, for `eval` and `run`.


def long_lines(first, last):
    """The input with lines about as long as a line may be: blanks, remarks, words, with and without a return."""
    for filler in (b" ", b"#", b"0", b"\r"):
        for wanted in (MOST_LINE_OCTETS - 1, MOST_LINE_OCTETS, MOST_LINE_OCTETS + 1):
            for end in (b"\n", b"\r\n", b""):
                yield first + filler * wanted + end + last
    for wanted in (MOST_LINE_OCTETS - 1, MOST_LINE_OCTETS, MOST_LINE_OCTETS + 1):
        line = first.splitlines()[0]
        yield line + b" " * (wanted - len(line)) + b"\n" + last
        yield last + line + b" " * (wanted - len(line))


def many_lines(first, last):
    """The input with about as many lines as there may be, after its first lines."""
    begun = first.count(b"\n")
    for count in (MOST_INPUT_LINES - 1, MOST_INPUT_LINES, MOST_INPUT_LINES + 1):
        yield first + b"\n" * (count - begun - 1) + last.split(b"\n")[0]
        yield first + b"\n" * (count - begun)
    yield first + b"\n" * (MOST_INPUT_LINES - begun) + b"0" * (MOST_LINE_OCTETS + 1)
    yield b"\n" * MOST_INPUT_LINES


def ends():
    """Inputs that end in odd places."""
    for text in (b"", b"\n", b"\r", b"\r\n", b" ", b"\t\n", b"#", b"# x", b"\0", b"\n\n", b"#\r", b"\xff\n"):
        yield text


# `upc eval`.


def eval_edges():
    """Lines, words of cells and programs, and programs themselves."""
    first, last = RETURN + b"\n", b"00000000\n"
    yield from ends()
    yield from long_lines(first, last)
    yield from many_lines(first, last)
    yield first + b"".join(b"0" * digits + b"\n" for digits in range(1, 111))
    for at in (0, 7):
        yield first + b"".join(b"0" * at + bytes([octet]) + b"0" * (7 - at) + b"\n" for octet in range(256))
    for digits in range(1, 35):
        yield (RETURN * 3)[:digits] + b"\n" + last
    for program in sized_programs():
        yield octets_of(program) + b"\n" + last
    for program in jumping_programs():
        yield octets_of(program) + b"\n" + last


def sized_programs():
    """Programs about as long as they may be: plain ones, and ones that store and load what paths share."""
    for count in (MOST_INSTRUCTIONS - 1, MOST_INSTRUCTIONS, MOST_INSTRUCTIONS + 1):
        yield [one("tax", "")] * (count - 1) + [one("ret", "a")]
        yield [one("tax", "")] * count
        for words in (15, 16):
            yield ladder(count, words)


def ladder(count, words):
    """Branches over stores of one word after another, and loads of all words at the end.

    A branch with an even number skips its store, so that of half the words some path has no store.
    """
    program = [one("st", "M[k]", word) for word in range(words)]
    while len(program) < count - 18:
        word = len(program) % 16
        program += [one("jset", "x", 0, 0, 1), one("stx", "M[k]", word)]
    program = program[: count - 17] + [one("neg", "")] * max(0, count - 17 - len(program))
    return program + [one("ld", "M[k]", word) for word in range(16)] + [one("ret", "a")]


def jumping_programs():
    """Jumps to the last place and just past it, from the first place, and in code that no path reaches."""
    for between in (0, 1, 253, 254, 255):
        for reach in (between, between + 1):
            tail = [one("neg", "")] * between + [one("ret", "a")]
            if reach < 256:
                for name, form in programs.BRANCH_SPELLINGS[::3]:
                    yield [one(name, form, 0, reach, 0)] + tail
                    yield [one(name, form, 1, 0, reach)] + tail
            yield [one("ja", "L", reach)] + tail
            yield [one("ret", "a"), one("ja", "L", reach)] + tail
    for k in (MOST_INSTRUCTIONS - 2, MOST_INSTRUCTIONS - 1, (1 << 32) - 1, (1 << 32) - 2):
        yield [one("ja", "L", k)] + [one("ret", "a")] * (MOST_INSTRUCTIONS - 1)


# `upc check`.


def check_edges():
    """Sources of all sizes, each octet alone, jumps and numbers."""
    yield from ends()
    for octet in range(256):
        yield bytes([octet])
        yield b"ret #1" + bytes([octet]) + b"\n"
    for wanted in (MOST_SOURCE_OCTETS - 1, MOST_SOURCE_OCTETS, MOST_SOURCE_OCTETS + 1):
        for filler in (b";", b"\n", b" "):
            yield (b"ret a;" if filler == b";" else b"ret a\n") + filler * (wanted - 6)
    for wanted in (MOST_SOURCE_OCTETS, MOST_SOURCE_OCTETS + 1):
        yield (b"neg\n" * wanted)[:wanted]
        yield b"ret #" + b"0" * (wanted - 6) + b"1"
        yield b"a" * (wanted - 7) + b":ret a\n"
        yield b"ret a\n" + b"x" * (wanted - 6)
        yield b"ret a\n" + b"[" * (wanted - 6)
    for count in (MOST_INSTRUCTIONS - 1, MOST_INSTRUCTIONS, MOST_INSTRUCTIONS + 1):
        yield b"neg\n" * (count - 1) + b"ret a\n"
        yield b"neg\n" * count
        yield b"ja end\n" + b"neg\n" * (count - 2) + b"end: ret a\n"
    yield from far_labels()
    yield from numbers()


def far_labels():
    """Branches over 254 to 256 instructions, on each side."""
    for between in (254, 255, 256):
        for branch in list(BRANCHES) + ["jne", "jneq", "jlt", "jle"]:
            sides = [b"far"] if branch not in BRANCHES else [b"far", b"far, near", b"near, far", b"far, far"]
            for side in sides:
                head = branch.encode() + b" #1, " + side + b"\n"
                yield head + b"near: neg\n" + b"neg\n" * (between - 1) + b"far: ret a\n"


def numbers():
    """Numbers about the greatest, in each spelling, and in each place where a number may be."""
    spelled = [b"4294967294", b"4294967295", b"4294967296", b"00004294967295", b"42949672950"]
    spelled += [b"0xfffffffe", b"0XFFFFFFFF", b"0x100000000", b"0x0ffffffff"]
    spelled += [b"0", b"00", b"0x0", b"0x", b"0X", b"1x", b"0b1", b"08", b"1_", b"0xg"]
    places = [b"ld #%s", b"ld #-%s", b"ld [%s]", b"ldh [x+%s]", b"ldxb 4*([%s]&0xf)", b"ldx %s*([0]&0xf)"]
    places += [b"ldxb 4*([0]&%s)", b"st M[%s]", b"add #%s", b"lsh #%s", b"div #-%s", b"ret #%s"]
    places += [b"jeq #%s, here\nhere:"]
    for place in places:
        for number in spelled:
            yield place % number + b"\nret a\n"


# `upc run`.


def run_edges():
    """Lines, words of cells, all codes, programs, shapes, names and moments."""
    first = b"card 2 2 1 4\nload " + RETURN + b"\nsetup 1 1 p1 cbr1:1/0\n"
    last = b"cell 1 00100010\n"
    yield from ends()
    yield from long_lines(first, last)
    yield from many_lines(first, last)
    yield first + b"".join(b"cell 1 " + b"0" * digits + b"\n" for digits in range(0, 111))
    yield b"card 2 2 1 4\n" + b"".join(b"load %04x00000000000f%s\n" % (code, RETURN) for code in range(1 << 16))
    yield first + (b"cell 1 00100010\ncut 1 1\n" * 100_000)
    for program in sized_programs():
        yield b"card 2 2 1 4\nload " + octets_of(program) + b"\n"
    yield full_card()
    yield from shapes()
    for name in (b"p0", b"p1", b"p01", b"p18446744073709551615", b"p18446744073709551616", b"p" + b"0" * 60_000 + b"1"):
        yield first + b"retire %s\nreload 1 1 %s\nsetup 2 2 %s cbr1:1/1\n" % (name, name, name)
    yield from moments(first)


def shapes():
    """Each number of a card line about its limits."""
    for place, most in enumerate((1024, 4096, 16, 65536)):
        for number in (0, 1, most, most + 1, 2**64 - 1, 2**64):
            sizes = [1, 1, 1, 1]
            sizes[place] = number
            yield b"card %d %d %d %d\ncut 0 0\n" % tuple(sizes)


def full_card():
    """As many programs and connections as a card may have, and one more of each, between nodes of the network."""
    lines = [b"card 1024 4096 16 65536 nni"]
    lines += [b"load 00060000%08x" % (number % 4) for number in range(1025)]
    for number in range(4097):
        lines.append(b"setup %d %d p%d cbr1:2/1" % (number % 4096, number * 16 % 65536, number % 1024 + 1))
    lines += [b"cell 5 %08x" % (number << 20 | (number * 16 % 65536) << 4) for number in range(0, 4096, 5)]
    lines += [b"cut %d %d" % (number, number * 16 % 65536) for number in range(0, 4096, 3)]
    return b"\n".join(lines) + b"\n"


def moments(first):
    """Moments about the greatest, and buckets about the largest."""
    greatest = 2**62
    for moment in (greatest - 1, greatest, greatest + 1, 2**63, 2**64 - 1, 2**64):
        yield first + b"cell %d 00100010\ncell %d 00100010\ncell 0 00100010\n" % (moment, greatest)
    most = 2**48
    for increment in (most - 1, most, most + 1):
        for limit in (0, most - 1, most, most + 1):
            yield (
                b"card 1 1 1 9\nload %s\nsetup 1 1 p1 cbr1:%d/%d\n" % (RETURN, increment, limit)
                + b"".join(
                    b"cell %d 00100010\n" % moment
                    for moment in (0, max(0, increment - limit - 1), max(0, increment - limit), most, most, 2 * most)
                )
            )


def ports_edges():
    """Inputs that end in odd places, and lines at the limits, which have their fault line alone."""
    first = b"card 2 2 4 4\nload " + RETURN + b"\nsetup 1 1 p1 cbr1:1/0\n"
    yield from ends()
    yield from many_lines(first, b"cell 1 00100010\n")
    yield from shapes()


EDGES = {"check": check_edges, "eval": eval_edges, "run": run_edges, "ports": ports_edges}
