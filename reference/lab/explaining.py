"""Where `upc-lab explain` finds the fault of a source: its line, its column, and a path without a store, but no sentence."""
import re

from policer.assembly.grammar import NoLine, Reader, line_of, statement_of
from policer.assembly.assembler import MOST_BRANCH, assembled, parsed, places_of
from policer.assembly.tokens import BadNumber, Token, number_of, tokens_of, without_comment
from policer.check_source import checked
from policer.instructions import CODES, successors, word_read, word_stored
from policer.text_lines import source_lines

PIECES = re.compile(rb"[A-Za-z0-9_]+|[^ \t]")
MNEMONICS = {mnemonic for mnemonic, _ in CODES} | {"jne", "jneq", "jlt", "jle", "jmp", "ldx"}


class Stopping(Reader):
    """A reader that stops at the first token that it doesn't take."""

    def expect(self, is_there):
        if not is_there:
            raise NoLine
        self.at += 1

    def marks(self, marks):
        for mark in marks:
            self.expect(self.is_mark(mark.encode()))

    def word(self, name):
        self.expect(self.is_name(name))

    def value(self, value):
        self.expect(self.next() == ("number", value))


def pieces_of(line):
    """Returns the words and the other octets of a line, each with its column."""
    return [(found.group(), found.start() + 1) for found in PIECES.finditer(without_comment(line))]


def is_bad(word):
    """Returns whether a word begins with a digit and is no number."""
    try:
        return word[:1].isdigit() and number_of(word) is None
    except BadNumber:
        return True


def token_of(piece):
    """Returns the token of a word, or of an octet, which may be one that the grammar lacks."""
    if piece[:1].isdigit():
        return Token("number", number_of(piece))
    return Token("name" if re.fullmatch(rb"\w+", piece, re.ASCII) else "mark", piece)


def after_label(pieces):
    """Returns the pieces after the label of a line."""
    is_label = len(pieces) > 1 and token_of(pieces[0][0]).kind == "name" and pieces[1][0] == b":"
    return pieces[2:] if is_label else pieces


def wrong_column(pieces):
    """Returns the column at which a line leaves the grammar, or None if it ends too early."""
    pieces = after_label(pieces)
    if pieces[0][0].decode("latin-1") not in MNEMONICS:
        return pieces[0][1]
    reader = Stopping([token_of(piece) for piece, _ in pieces])
    try:
        statement_of(reader)
    except NoLine:
        pass
    return pieces[reader.at][1] if reader.at < len(pieces) else None


def operand_column(source, number, kind):
    """Returns the column of the first label operand of a line that has the fault."""
    lines = parsed(source_lines(source))
    places, place = places_of(lines), sum(statement is not None for _, statement in lines[: number - 1])
    pieces = after_label(pieces_of(source_lines(source)[number - 1]))
    for (before, _), (label, column) in zip(pieces, pieces[1:]):
        if before != b"," and before not in (b"ja", b"jmp"):
            continue
        target = places.get(label)
        if kind == "UnknownLabel" and target is None:
            return column
        if kind == "Backward" and target is not None and target <= place:
            return column
        if kind == "TooFar" and target is not None and target > place + 1 + MOST_BRANCH:
            return column
    return None


def place_in_source(source, kind, number):
    """Returns the line and the column of a fault of the assembler."""
    pieces = pieces_of(source_lines(source)[number - 1])
    if kind == "BadLine":
        return number, wrong_column(pieces)
    if kind == "BadNumber":
        return number, next(column for piece, column in pieces if is_bad(piece))
    if kind in ("LabelTwice", "DanglingLabel"):
        return number, pieces[0][1]
    return number, operand_column(source, number, kind)


def instruction_lines(source):
    """Returns the numbers of the lines that have an instruction."""
    lines = source_lines(source)
    return [number for number, line in enumerate(lines, start=1) if line_of(tokens_of(line))[1] is not None]


def place_in_code(source, kind, at):
    """Returns the line and the column of a fault of the check."""
    numbers = instruction_lines(source)
    number = numbers[{"TooLong": 4096, "NoReturn": -1}.get(kind, at)]
    pieces = after_label(pieces_of(source_lines(source)[number - 1]))
    if kind in ("TooLong", "NoReturn", "JumpOutside"):
        return number, pieces[0][1]
    return number, next(column for piece, column in pieces if piece[:1].isdigit())


def wrong_path(source, at, word, numbers):
    """Returns whether these lines aren't a path to the instruction at a place without a store of a scratch word."""
    program, lines = assembled(source), instruction_lines(source)
    path = [lines.index(number) for number in numbers]
    steps = all(after in successors(program[before], before) for before, after in zip(path, path[1:]))
    stores = any(word_stored(program[place]) == word for place in path[:-1])
    return not (path[:1] == [0] and path[-1] == at and word_read(program[at]) == word and steps and not stores)


def hints_of(source):
    """Returns how the hints about a source without a fault begin: those about loads from outside of the 52 octets of a cell."""
    begins, lines, numbers = [], source_lines(source), instruction_lines(source)
    for instruction, number in zip(assembled(source), numbers):
        many = {"ld": 4, "ldh": 2, "ldb": 1, "ldxb": 1}.get(instruction.mnemonic)
        if instruction.form not in ("[k]", "[x+k]", "4*([k]&0xf)") or instruction.k + many <= 52:
            continue
        pieces = after_label(pieces_of(lines[number - 1]))
        column = pieces[0][1] if many == 1 and instruction.mnemonic == "ldxb" else next(at for piece, at in pieces if piece[:1].isdigit())
        begins.append(b"hint line %d column %d: " % (number, column))
    return begins


def wrong_explanation(source, ours):
    """Returns what is wrong with the answer to a source, its status and messages, or None."""
    answer, status = checked(source)
    lines = ours[0].split(b"\n")
    if ours[1:] != (status, b"") or lines[0] != answer.split(b"\n", maxsplit=1)[0]:
        return f"{ours} in place of {answer}"
    words = answer.decode().split()
    if status == 0:
        begins = hints_of(source)
        is_hinted = len(lines) == len(begins) + 2 and all(line.startswith(it) for line, it in zip(lines[1:], begins))
        return None if is_hinted and lines[-1] == b"" else f"{ours} has not the hints {begins}"
    if words[1] == "script":
        return None if lines[1:] == [b""] else f"{ours} goes on"
    kind, numbers = words[3], [int(word) for word in words[4:]]
    if kind == "Empty":
        return None if lines[1].startswith(b"no line") and lines[2:] == [b""] else f"{ours} about an empty source"
    number, column = (place_in_source if words[1] == "asm" else place_in_code)(source, kind, *(numbers[:1] or [0]))
    begins = f"line {number}: " if column is None else f"line {number} column {column}: "
    if not lines[1].startswith(begins.encode()) or lines[2:] != [b""]:
        return f"{lines[1]} in place of {begins}"
    path = [int(one) for one in lines[1].rpartition(b"lines")[2].split()] if kind == "Unwritten" else []
    if kind == "Unwritten" and wrong_path(source, *numbers, path):
        return f"{lines[1]} names no such path"
    return None
