"""Inputs whose lines are answered one by one."""

from .faults import Fault
from .text_lines import asks_nothing, limited_lines, words_of


def answered(text, dialogue):
    """The answers to a whole input, and the exit status: 1 if a fault line ended the run, else 0.

    A dialogue answers the words of a line, and refuses them by a Fault. Until it is open a fault ends the run;
    later only a line over the limits does. `refuse_end` raises the fault of an
    input that ends before the dialogue is open.
    """
    answers = []
    try:
        for line in limited_lines(text):
            words = words_of(line)
            if asks_nothing(words):
                continue
            try:
                answers.append(dialogue.answer(words))
            except Fault as fault:
                if not dialogue.is_open:
                    raise
                answers.append(fault.line())
        if not dialogue.is_open:
            dialogue.refuse_end()
        status = 0
    except Fault as fault:
        answers.append(fault.line())
        status = 1
    return "".join(answer + "\n" for answer in answers).encode("ascii"), status
