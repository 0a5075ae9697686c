"""The steps of a program on a cell, as `upc-lab trace` prints them, without the spelling of the instruction."""
from policer.eval_dialogue import EvalDialogue
from policer.hexadecimal import cell_of
from policer.machine import Ended, Machine


def shown(machine, instruction):
    """Returns what the machine holds after an instruction."""
    written = ""
    if instruction.mnemonic in ("st", "stx"):
        written = f" m{instruction.k} {machine.scratch[instruction.k]:08x}"
    return f"a {machine.a:08x} x {machine.x:08x}{written}"


def steps(program, cell):
    """Yields for each instruction begun its place, and what the machine holds after it."""
    machine = Machine(program, cell)
    while True:
        place = machine.place
        try:
            machine.step()
        except Ended as ended:
            yield f"L{place} ; ends {ended.value:08x}"
            return
        yield f"L{place} ; {shown(machine, program[place])}"


class TraceDialogue(EvalDialogue):
    """The dialogue of `upc eval`, with the steps before each value."""

    def answer(self, words):
        """Returns the answer to a line of these words."""
        program = self.program
        value = super().answer(words)
        if program is None:
            return value
        return "\n".join([*steps(program, cell_of(words[0])), value])
