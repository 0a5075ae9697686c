"""`upc eval`: the first line with words is a program, each later one a cell."""

from .checking import check
from .decoding import decoded
from .faults import Fault
from .hexadecimal import cell_of, octets_of
from .machine import value_and_steps


def program_of(word):
    """The accepted program that a hexadecimal word spells."""
    program = decoded(octets_of(word))
    check(program)
    return program


class EvalDialogue:
    """No program yet, or the program that runs on each further cell."""

    def __init__(self):
        self.program = None

    @property
    def is_open(self):
        return self.program is not None

    def answer(self, words):
        """Each line has one word: the first one's is a program, the others' are cells."""
        if len(words) != 1:
            raise Fault("script", "BadLine")
        if not self.is_open:
            self.program = program_of(words[0])
            return "accepted %d" % len(self.program)
        return "value %d steps %d" % value_and_steps(self.program, cell_of(words[0]))

    def refuse_end(self):
        """What is wrong with an input that ends without a program."""
        raise Fault("script", "NoProgram")
