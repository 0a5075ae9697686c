"""Compares `upc-lab differ` with the evaluator: pairs of texts of rules, of which the second was made of the first by a change of some
lines. Each line of an answer must be true of its cell, no smaller cell near it may show the same, and no cell at the bounds of what the
texts compare may differ without a line.

    python3 -m rules.differing PROGRAM [COUNT] [SEED]      PROGRAM is upc-lab

The last line is 'N passed, M failed'.
"""
import random
import re
import subprocess
import sys
import tempfile

from rules.__main__ import with_deep_stack
from rules.making import cells_for, definitions, joined, lines, mutated
from rules.meaning import decision_of
from rules.reader import Fault, place_words, read_rules

SAME = "same on every cell"
NOT_DECIDED = "not decided: too many cases\n"
# Few pairs of texts may have so many cases that nothing is decided.
MOST_UNDECIDED = 0.1
LINE = re.compile(
    r"old (line \d+(?::\d+)?|otherwise|program) value (\d+), new (line \d+(?::\d+)?|otherwise|program) value (\d+): ([a-z0-9 ]*): ([0-9a-f]{104})\n")
NUMBER = re.compile(r"\d+")


class OfRules:
    """A side of a comparison: the rules of a text."""

    def __init__(self, text):
        self.reader = read_rules(text)
        self.nni = self.reader.nni

    def given(self, cell):
        """Returns what decides the cell, in words, and its value."""
        line, value = decision_of(self.reader, cell)
        return (f"line {place_words(line)}" if line else "otherwise"), value


def compared(program, old, new, words):
    """Returns the answer of the program to two texts, and its status."""
    with tempfile.NamedTemporaryFile(suffix=".rules") as file:
        file.write(old)
        file.flush()
        run = subprocess.run([program, "differ", *words, file.name], input=new, stdout=subprocess.PIPE, stderr=subprocess.PIPE, check=False)
    return run.stdout.decode() + run.stderr.decode(), run.returncode


def changed(source, text):
    """Returns a text of rules with a change of some of its lines."""
    made = text.split("\n")
    for _ in range(source.choice([0, 1, 1, 2, 4])):
        at = source.randrange(len(made))
        kind = source.random()
        if kind < 0.3:
            other = source.randrange(len(made))
            made[at], made[other] = made[other], made[at]
        elif kind < 0.45:
            del made[at]
        elif kind < 0.6:
            made[at:at] = lines(source, 1, 0)
        else:
            found = list(NUMBER.finditer(made[at]))
            if found:
                one = source.choice(found)
                value = max(0, int(one.group()) + source.choice([-1, 1, 1, 7]))
                made[at] = f"{made[at][:one.start()]}{value}{made[at][one.end():]}"
        made = made or [""]
    return "\n".join(made)


def fields_in(nni, cell):
    """Returns the fields of the header, as `differ` shows them."""
    header = int.from_bytes(cell[:4], "big")
    path = f"vpi {header >> 20}" if nni else f"gfc {header >> 28} vpi {header >> 20 & 0xFF}"
    return f"{path} vci {header >> 4 & 0xFFFF} pti {header >> 1 & 7} clp {header & 1}"


def lower_cells(cell):
    """Returns the cells in which one bit less is set."""
    for at in range(52):
        for bit in range(8):
            if cell[at] >> bit & 1:
                yield cell[:at] + bytes([cell[at] ^ 1 << bit]) + cell[at + 1:]


def is_listed(was, becomes, every):
    """Returns whether two decisions have a line."""
    return was[1] != becomes[1] or (every and (was[0] != becomes[0] or was[0] == "program"))


def shown_nni(old, new):
    """Returns whether the fields are those between nodes: at the side of the new rules, or of the old ones. A program has none."""
    return old.nni if new.nni is None else new.nni


def fault_of_line(old, new, every, found, before):
    """Returns what is wrong with a line of an answer, or None. `before` is the line before it."""
    cell = bytes.fromhex(found[5])
    was, becomes = old.given(cell), new.given(cell)
    if [(found[0], int(found[1])), (found[2], int(found[3]))] != [was, becomes]:
        return f"{found} and not {was} and {becomes}"
    if not is_listed(was, becomes, every):
        return f"{found} is no change"
    if found[4] != fields_in(shown_nni(old, new), cell):
        return f"the fields {found[4]!r} of {found[5]}"
    if before and before[5] >= found[5]:
        return f"{found[5]} after {before[5]}"
    for lower in lower_cells(cell):
        if (old.given(lower), new.given(lower)) == (was, becomes):
            return f"{lower.hex()} is less than {found[5]}"
    return None


def fault_of_answer(old, new, every, answer, cells):
    """Returns what is wrong with the answer to two sides, or None."""
    is_same = answer.startswith(f"{SAME}\n")
    rest = answer[len(SAME) + 1:] if is_same else answer
    found = LINE.findall(rest)
    if "".join(one.group() for one in LINE.finditer(rest)) != rest:
        return f"the form of {rest[:300]!r}"
    for before, one in zip([None, *found], found):
        fault = fault_of_line(old, new, every, one, before)
        if fault:
            return fault
    if is_same == any(one[1] != one[3] for one in found):
        return f"it begins with {answer[:40]!r}"
    listed = {one[:4]: one[5] for one in found}
    if len(listed) != len(found):
        return "two lines for the same"
    for cell in cells:
        was, becomes = old.given(cell), new.given(cell)
        key = (was[0], str(was[1]), becomes[0], str(becomes[1]))
        if is_listed(was, becomes, every) and listed.get(key, "g") > cell.hex():
            return f"{was} and {becomes} of {cell.hex()} have no line of a cell up to it"
    return None


def text_of(source):
    """Returns a text of rules, some of them with names."""
    source.tests, source.lists, source.contracts = [], [], []
    made = [source.choice(["side nni", "side uni"])] if source.random() < 0.1 else []
    made += definitions(source) if source.random() < 0.2 else []
    return "\n".join(joined(source, made + lines(source, source.choice([1, 2, 5, 12]), 3))) + source.choice(["", "\notherwise -> 7"])


def difference(program, source):
    """Returns what is wrong with the answer to a pair of texts, or None; and whether nothing was decided."""
    text = text_of(source)
    texts = [text, changed(source, text)]
    if source.random() < 0.05:
        at = source.randrange(2)
        texts[at] = mutated(source, texts[at])
    old, new = (it.encode() for it in texts)
    every = source.random() < 0.3
    answer, status = compared(program, old, new, ["--lines", "all"] if every else [])
    sides = []
    for name, it in (("old", old), ("new", new)):
        try:
            sides.append(OfRules(it))
        except Fault as fault:
            wanted = f"{name}: {fault.shown()}"
            return (None if (answer, status) == (wanted, 1) else f"{answer!r} with status {status} and not {wanted!r}"), False
    if (answer, status) == (NOT_DECIDED, 3):
        return None, True
    if status != (0 if answer.startswith(SAME) else 1):
        return f"the status {status} of {answer[:40]!r}", False
    cells = [cell for side in sides for cell in cells_for(side.reader, source, 60)]
    return fault_of_answer(*sides, every, answer, cells), False


def main():
    """Compares, and returns the exit status."""
    program = sys.argv[1]
    count = int(sys.argv[2]) if len(sys.argv) > 2 else 200
    seed = int(sys.argv[3]) if len(sys.argv) > 3 else 1
    passed = failed = undecided = 0
    for number in range(count):
        found, is_undecided = difference(program, random.Random(f"{seed} {number}"))
        undecided += is_undecided
        if found:
            failed += 1
            print(f"{seed} {number}: {found}")
        else:
            passed += 1
    if undecided > MOST_UNDECIDED * count + 1:
        failed += 1
        print(f"{undecided} of {count} pairs aren't decided")
    print(f"{passed} passed, {failed} failed")
    return 1 if failed else 0


if __name__ == "__main__":
    sys.exit(with_deep_stack(main))
