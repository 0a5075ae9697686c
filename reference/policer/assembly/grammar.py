"""The grammar of a line: `[ name ":" ] [ instruction ]`."""

from typing import NamedTuple, Optional

from ..instructions import ARITHMETIC, BRANCHES


class NoLine(Exception):
    """The tokens are none of the grammar."""


class Statement(NamedTuple):
    """The statement of an instruction line: a row of the instruction table, and the labels of a jump or a branch.

    A side of a branch without a label continues after it.
    """

    mnemonic: str
    form: str
    k: int = 0
    target: Optional[bytes] = None
    on_true: Optional[bytes] = None
    on_false: Optional[bytes] = None


# The branches that continue after themselves if their test is true, and the test that is their opposite.
INVERSES = {"jne": "jeq", "jneq": "jeq", "jlt": "jge", "jle": "jgt"}

PACKET_LOADS = ("ld", "ldh", "ldb")


class Reader:
    """The tokens of a line that aren't read yet."""

    def __init__(self, tokens):
        self.tokens = tokens
        self.at = 0

    def next(self):
        return self.tokens[self.at] if self.at < len(self.tokens) else None

    def is_mark(self, mark):
        return self.next() == ("mark", mark)

    def is_name(self, name):
        return self.next() == ("name", name)

    def take(self, kind):
        """The value of the next token, which has to be of this kind."""
        token = self.next()
        if token is None or token.kind != kind:
            raise NoLine
        self.at += 1
        return token.value

    def marks(self, marks):
        """These marks, one after another."""
        for mark in marks:
            if self.take("mark") != mark.encode():
                raise NoLine

    def word(self, name):
        """This name."""
        if self.take("name") != name:
            raise NoLine

    def value(self, value):
        """A number of this value, in any spelling."""
        if self.take("number") != value:
            raise NoLine


def line_of(tokens):
    """The label and the statement of a line, each None if there is none."""
    reader = Reader(tokens)
    label = None
    if len(tokens) >= 2 and tokens[0].kind == "name" and tokens[1] == ("mark", b":"):
        label = reader.take("name")
        reader.marks(":")
    statement = statement_of(reader) if reader.next() else None
    if reader.next():
        raise NoLine
    return label, statement


def statement_of(reader):
    """An instruction, by its mnemonic."""
    mnemonic = reader.take("name").decode("ascii")
    if mnemonic in ("ld", "ldh", "ldb", "ldx", "ldxb"):
        return load(reader, mnemonic)
    if mnemonic in ("st", "stx"):
        return Statement(mnemonic, "M[k]", scratch(reader))
    if mnemonic in ARITHMETIC:
        return Statement(mnemonic, *operand(reader))
    if mnemonic in BRANCHES:
        return branch(reader, mnemonic)
    if mnemonic in INVERSES:
        return inverse_branch(reader, INVERSES[mnemonic])
    if mnemonic in ("ja", "jmp"):
        return Statement("ja", "L", target=reader.take("name"))
    if mnemonic == "ret":
        return return_with(reader)
    if mnemonic in ("neg", "tax", "txa"):
        return Statement(mnemonic, "")
    raise NoLine


def load(reader, mnemonic):
    """A load into A or X: of octets of the cell, a number, a scratch word, the length, or a header."""
    if mnemonic in PACKET_LOADS and reader.is_mark(b"["):
        return packet_load(reader, mnemonic)
    if mnemonic == "ldxb" or (mnemonic == "ldx" and reader.next() and reader.next().kind == "number"):
        return Statement("ldxb", "4*([k]&0xf)", header(reader))
    if mnemonic not in ("ld", "ldx"):
        raise NoLine
    if reader.is_name(b"M"):
        return Statement(mnemonic, "M[k]", scratch(reader))
    reader.marks("#")
    if reader.is_name(b"len"):
        reader.word(b"len")
        return Statement(mnemonic, "#len")
    return Statement(mnemonic, "#k", constant(reader))


def packet_load(reader, mnemonic):
    """`[k]` or `[x+k]`."""
    reader.marks("[")
    form = "[k]"
    if reader.is_name(b"x"):
        reader.word(b"x")
        reader.marks("+")
        form = "[x+k]"
    k = reader.take("number")
    reader.marks("]")
    return Statement(mnemonic, form, k)


def scratch(reader):
    """`M[k]`."""
    reader.word(b"M")
    reader.marks("[")
    k = reader.take("number")
    reader.marks("]")
    return k


def header(reader):
    """`4*([k]&0xf)`, with both numbers in any spelling."""
    reader.value(4)
    reader.marks("*([")
    k = reader.take("number")
    reader.marks("]&")
    reader.value(15)
    reader.marks(")")
    return k


def constant(reader):
    """What follows `#`: a number, or `-` and a number n for 2^32 - n modulo 2^32."""
    if reader.is_mark(b"-"):
        reader.marks("-")
        return -reader.take("number") % 2**32
    return reader.take("number")


def operand(reader):
    """The form and the number of an operand: `#k` or `x`."""
    if reader.is_name(b"x"):
        reader.word(b"x")
        return "x", 0
    reader.marks("#")
    return "#k", constant(reader)


def branch(reader, mnemonic):
    """A branch with the label of its test, and perhaps one for when the test is false."""
    form, k = operand(reader)
    reader.marks(",")
    on_true = reader.take("name")
    on_false = None
    if reader.is_mark(b","):
        reader.marks(",")
        on_false = reader.take("name")
    return Statement(mnemonic, form, k, on_true=on_true, on_false=on_false)


def inverse_branch(reader, mnemonic):
    """A branch that continues after itself if its test is true."""
    form, k = operand(reader)
    reader.marks(",")
    return Statement(mnemonic, form, k, on_false=reader.take("name"))


def return_with(reader):
    """A return of a number or of A."""
    if reader.is_name(b"a"):
        reader.word(b"a")
        return Statement("ret", "a")
    reader.marks("#")
    return Statement("ret", "#k", constant(reader))
