"""Compares `upc-lab unused` with the evaluator: no rule that is named may decide one of many cells at the bounds of what the text compares,
and each rule that decides none of the cells of a small text, of which all headers that differ are tried, must be named. The rules that take
the cells of a named rule must be those that decide the tried cells of which it holds.

    python3 -m rules.unused PROGRAM [COUNT] [SEED]      PROGRAM is upc-lab

The last line is 'N passed, M failed'.
"""
import random
import re
import subprocess
import sys

from rules.__main__ import with_deep_stack
from rules.differing import text_of as any_text
from rules.making import cells_for, joined, mutated
from rules.meaning import decision_of, is_met
from rules.reader import Fault, place_of, read_rules

ALL_DECIDE = "every rule decides some cell\n"
NOT_DECIDED = "not decided: too many cases\n"
# Few texts may have so many cases that nothing is decided.
MOST_UNDECIDED = 0.1
LINE = re.compile(r"line (\d+(?::\d+)?) decides no cell: (?:it holds of none|taken by (line \d+(?::\d+)?(?:, line \d+(?::\d+)?)*))\n")


def searched(program, text):
    """Returns the answer of the program to a text, and its status."""
    run = subprocess.run([program, "unused"], input=text, stdout=subprocess.PIPE, stderr=subprocess.PIPE, check=False)
    return run.stdout.decode() + run.stderr.decode(), run.returncode


def holding(reader, cell):
    """Returns the places of the rules that hold of a cell: their tests, and those of the blocks that they are in."""
    found, around = set(), []
    for line in reader.rules:
        if line[0] == "block":
            around.append(is_met(reader.nni, line[1], cell))
        elif line[0] == "end":
            around.pop()
        elif all(around) and is_met(reader.nni, line[1], cell):
            found.add(line[3])
    return found


def small_text(source):
    """Returns a text that compares only the payload type and the priority, so that 16 cells are all that differ."""
    def one():
        kind = source.randrange(4)
        if kind == 0:
            low = source.randrange(8)
            return f"pti {low}..{source.randrange(low, 8)}"
        if kind == 1:
            return f"clp {source.randrange(2)}"
        if kind == 2:
            return source.choice(["any", "user", "oamf5", "rm", "not rm", "not user"])
        return f"not (pti {source.randrange(8)} and clp {source.randrange(2)})"

    made, depth = [], 0
    for _ in range(source.choice([1, 3, 6, 10])):
        test = source.choice([" and ", " or "]).join(one() for _ in range(source.choice([1, 1, 2])))
        if depth and source.random() < 0.3:
            made.append("}")
            depth -= 1
        if source.random() < 0.2:
            made.append(f"{test} {{")
            depth += 1
        else:
            made.append(f"{test} -> {source.randrange(9)}")
    return "\n".join(joined(source, made + ["}"] * depth)) + source.choice(["", "\notherwise -> 7"])


def text_of(source):
    """Returns a text of rules, and whether all of its cells that differ can be tried."""
    if source.random() < 0.5:
        return small_text(source), True
    text = any_text(source)
    return (mutated(source, text) if source.random() < 0.1 else text), False


def fault_of_answer(reader, answer, cells, is_all):
    """Returns what is wrong with the answer to a text that has rules, or None."""
    named = {place_of(one[0]): {place_of(words) for words in re.findall(r"[\d:]+", one[1])} for one in LINE.findall(answer)}
    if answer != ALL_DECIDE and "".join(one.group() for one in LINE.finditer(answer)) != answer:
        return f"the form of {answer[:300]!r}"
    if list(named) != sorted(named) or (answer == ALL_DECIDE) != (not named):
        return f"the order of {answer[:300]!r}"
    rules = {line[3] for line in reader.rules if line[0] == "rule"}
    decided, takers = set(), {number: set() for number in rules}
    for cell in cells:
        line = decision_of(reader, cell)[0]
        decided.add(line)
        for number in holding(reader, cell):
            takers[number].add(line)
    if not set(named) <= rules - decided:
        return f"{answer[:300]!r}, but {sorted(decided - {None})} decide cells"
    if is_all and set(named) != rules - decided:
        return f"{answer[:300]!r}, and not {sorted(rules - decided)}"
    for number, by in named.items():
        if not takers[number] <= by or (is_all and takers[number] != by):
            return f"line {number} is taken by {sorted(by)} and not {sorted(takers[number])}"
        if any(other >= number for other in by):
            return f"line {number} is taken by a line that isn't before it"
    return None


def difference(program, source):
    """Returns what is wrong with the answer to a text, or None; and whether nothing was decided."""
    text, is_all = text_of(source)
    answer, status = searched(program, text.encode())
    try:
        reader = read_rules(text.encode())
    except Fault as fault:
        wanted = fault.shown()
        return (None if (answer, status) == (wanted, 1) else f"{answer!r} with status {status} and not {wanted!r}"), False
    if (answer, status) == (NOT_DECIDED, 3):
        return None, True
    if status != (0 if answer == ALL_DECIDE else 1):
        return f"the status {status} of {answer[:40]!r}", False
    cells = [bytes([0, 0, 0, low]) + bytes(48) for low in range(16)] if is_all else cells_for(reader, source, 120)
    return fault_of_answer(reader, answer, cells, is_all), False


def main():
    """Compares, and returns the exit status."""
    program = sys.argv[1]
    count = int(sys.argv[2]) if len(sys.argv) > 2 else 200
    seed = int(sys.argv[3]) if len(sys.argv) > 3 else 1
    passed = failed = undecided = 0
    for number in range(count):
        found, is_undecided = difference(program, random.Random(f"{seed} {number}"))
        undecided += is_undecided
        if found:
            failed += 1
            print(f"{seed} {number}: {found}")
        else:
            passed += 1
    if undecided > MOST_UNDECIDED * count + 1:
        failed += 1
        print(f"{undecided} of {count} texts aren't decided")
    print(f"{passed} passed, {failed} failed")
    return 1 if failed else 0


if __name__ == "__main__":
    sys.exit(with_deep_stack(main))
