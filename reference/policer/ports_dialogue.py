"""`upc ports`, as far as its answers are fixed: if no desk line follows the first cell, they are those of `upc run`."""

from .dialogue import answered
from .run_dialogue import RunDialogue
from .text_lines import asks_nothing, source_lines, words_of

VERDICTS = ("pass", "tag", "discard", "refuse")


class Open(Exception):
    """Cells and desk lines meet, and which answers they get is open."""


def ported(text):
    """The answers and the totals, or the one line with the reason why the script can't be run."""
    answers, status = answered(text, RunDialogue())
    lines = answers.decode("ascii").splitlines()
    if status != 0:
        return (lines[-1] + "\n").encode("ascii"), status
    refuse_meeting(text)
    return with_totals(answers), 0


def with_totals(answers):
    """The answers, and then the totals of their cells."""
    given = [line.split(" ")[0] for line in answers.decode("ascii").splitlines()]
    totals = "totals %d %d %d %d\n" % tuple(given.count(verdict) for verdict in VERDICTS)
    return answers + totals.encode("ascii")


def refuse_meeting(text):
    """The first line whose first word is `cell` ends the part that is answered one by one."""
    has_begun = False
    for line in source_lines(text):
        words = words_of(line)
        if asks_nothing(words):
            continue
        if words[0] == b"cell":
            has_begun = True
        elif has_begun:
            raise Open
