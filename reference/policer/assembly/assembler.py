"""The code that a source means, or its one fault."""

from ..faults import Fault
from ..instructions import CODES, Instruction
from ..text_lines import source_lines
from .grammar import NoLine, line_of
from .tokens import BadNumber, NoToken, tokens_of

MOST_JUMP = 4294967295
MOST_BRANCH = 255


def assembled(source):
    """The instructions that a source means.

    Faults of lines come first, by lines; then a label without an instruction; then faults of operands.
    """
    lines = parsed(source_lines(source))
    refuse_dangling(lines)
    places = places_of(lines)
    program = []
    for number, (_, statement) in enumerate(lines, start=1):
        if statement is not None:
            program.append(instruction_of(statement, len(program), places, number))
    return program


def parsed(lines):
    """The label and the statement of each line. In a line a bad number goes before all else, a label last."""
    labels = set()
    pairs = []
    for number, line in enumerate(lines, start=1):
        try:
            label, statement = line_of(tokens_of(line))
        except BadNumber:
            raise Fault("asm", "BadNumber", number) from None
        except (NoToken, NoLine):
            raise Fault("asm", "BadLine", number) from None
        if label in labels:
            raise Fault("asm", "LabelTwice", number)
        if label is not None:
            labels.add(label)
        pairs.append((label, statement))
    return pairs


def refuse_dangling(lines):
    """An instruction follows each label, in its line or later."""
    last = max((at for at, (_, statement) in enumerate(lines) if statement is not None), default=-1)
    for at, (label, _) in enumerate(lines):
        if label is not None and at > last:
            raise Fault("asm", "DanglingLabel", at + 1)


def places_of(lines):
    """A label means the number of instructions in the lines before it."""
    places = {}
    count = 0
    for label, statement in lines:
        if label is not None:
            places[label] = count
        if statement is not None:
            count += 1
    return places


def instruction_of(statement, place, places, number):
    """The instruction of a statement at this place, in the line of this number."""

    def offset(label, most):
        """The label's place less this place less one; 0 for a side that continues after the branch."""
        if label is None:
            return 0
        if label not in places:
            raise Fault("asm", "UnknownLabel", number)
        if places[label] <= place:
            raise Fault("asm", "Backward", number)
        if places[label] - place - 1 > most:
            raise Fault("asm", "TooFar", number)
        return places[label] - place - 1

    code = CODES[statement.mnemonic, statement.form]
    if statement.mnemonic == "ja":
        return Instruction(code, k=offset(statement.target, MOST_JUMP))
    jt = offset(statement.on_true, MOST_BRANCH)
    jf = offset(statement.on_false, MOST_BRANCH)
    return Instruction(code, jt, jf, statement.k)
