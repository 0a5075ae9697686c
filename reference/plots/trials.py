"""Compares the levels that pictures show with those of the buckets at each tick, on random cells; and what is said where none is drawn.

    python3 -m plots.trials [COUNT] [SEED]

The last line is 'N passed, M failed'.
"""
import random
import sys
from bisect import bisect_right
from copy import deepcopy

from captures.policing import HEADING, RULE, TABLE, row
from plots.chosen import NotDrawn, drawn
from plots.levels import Plan
from plots.verdicts import NUMBERS, Cells
from policer.contract import Contract

VC = 1, 100


def contract_of(random_):
    """Returns a contract, of which some have had cells."""
    kind = random_.choice(["cbr1", "vbr1", "vbr2", "vbr3"])
    rates = [(random_.randint(1, 9), random_.randint(0, 9)), (random_.randint(1, 30), random_.randint(0, 60))]
    contract = Contract(kind, rates[: 1 if kind == "cbr1" else 2])
    for moment in random_.choice([[], [5, 5, 8, 8, 20]]):
        contract.judge(moment, 0)
    return contract


def cells_of(random_, contract):
    """Returns cells with the verdicts of a contract."""
    cells, moment = Cells(), random_.randint(20, 40)
    for _ in range(random_.choice([3, 30, 200])):
        moment += random_.choice([0, 0, 1, 2, 5, 9, random_.randint(0, 150)])
        priority = random_.randint(0, 1)
        cells.add(moment, priority, 1, contract.judge(moment, priority))
    return cells


def levels_of(contract, cells, end):
    """Returns for each tick and bucket the greatest level at it, and the level after the cells at it."""
    coming, known = list(cells.each()), []
    for moment in range(end + 1):
        levels = [[bucket.level_at(moment) if bucket.last <= moment else 0] for bucket in contract.buckets]
        while coming and coming[0][0] == moment:
            contract.judge(moment, coming.pop(0)[1])
            for seen, bucket in zip(levels, contract.buckets):
                seen.append(bucket.level_at(moment))
        known.append([(max(seen), seen[-1]) for seen in levels])
    return known


def is_right(plan, fill, known, is_few):
    """Returns whether a bucket has the levels that are known."""
    at = fill.bucket - 1
    if not is_few:
        ends = [min(moment + plan.span, plan.end + 1) for moment in fill.moments]
        return all(level == max(it[at][0] for it in known[begin:end]) for begin, end, level in zip(fill.moments, ends, fill.levels))
    for moment in range(plan.begin, plan.end + 1):
        corner = bisect_right(fill.moments, moment) - 1
        if max(0, fill.levels[corner] - (moment - fill.moments[corner])) != known[moment][at][1]:
            return False
    return True


def is_drawn_right(random_):
    """Returns whether the levels of a connection are right, and the counts of its verdicts."""
    contract = contract_of(random_)
    cells = cells_of(random_, deepcopy(contract))
    last, few = cells.moments[-1], random_.choice([0, 10**6])
    begin, end = random_.choice([None, None, random_.randint(0, last)]), random_.choice([None, None, last, last + 50])
    plan = Plan({VC: cells}, {VC: [deepcopy(contract)]}, begin, end, few)
    known, shown = levels_of(contract, cells, plan.end), plan.shown[0]
    counts = [sum(v == number and plan.begin <= m <= plan.end for m, _, _, v in cells.each()) for number in NUMBERS.values()]
    return counts == shown.counts == [sum(it) for it in shown.spans] and all(is_right(plan, it, known, shown.is_few) for it in shown.fills)


LINES = [row(HEADING), row((1, 5, 1, 100, 0, 1, "pass", "-", "-")), row((2, 9, 1, 101, 0, "-", "NoConnection", "-", "-"))]
COUNTS = ["\n", row(TABLE), row((1, 100, 1, 0, 0, 0)), "# 1 not judged: no connection; first record 2\n"]
SETUP = b"card 1 1 1 1\nrules any.rules\nsetup 1 100 p1 cbr1:10/5\n"
# The same with the column of the rule.
RULE_LINES = [f"{line[:-1]}\t{it}\n" for line, it in zip(LINES, (RULE, "any.rules:1", "-"))]
# The same of a virtual path.
PATH_LINES = [row(HEADING), row((1, 5, 1, "*", 0, 1, "pass", "-", "-"))]
PATH_SETUP = b"card 1 1 1 1 uni paths\nrules any.rules\nsetup 1 * p1 cbr1:10/5\n"

# Verdicts, a setup, connections, a time, and what is said of them; nothing of the first one.
SAID = [
    (LINES + COUNTS, SETUP, None, None, None, None),
    (RULE_LINES + COUNTS, SETUP, None, None, None, None),
    (LINES + COUNTS + ["fault capture 1 CutOff 40\n"], None, None, None, None, "fault capture 1 CutOff 40"),
    (LINES + ["fault capture 2 Several 0 1\n"], SETUP, None, None, None, "fault capture 2 Several 0 1"),
    (LINES + COUNTS, None, None, 6, 8, "no cell of 1/100 is from 6 to 8: the first is at 5, the last at 5"),
    (LINES + COUNTS, None, None, 9, 4, "no cell of 1/100 is from 9 to 4: the first is at 5, the last at 5"),
    (LINES + COUNTS, None, [(7, 7)], None, None, "no line has a cell of 7/7"),
    (LINES + COUNTS, SETUP, [(1, 101)], None, None, "the setup has no connection 1/101"),
    (LINES + COUNTS, SETUP.replace(b"100", b"99"), None, None, None, "the setup has no connection 1/100"),
    (LINES + COUNTS, SETUP + b"cell 0 00100640\n", None, None, None, "a setup with rules and cells of its own can't be drawn"),
    (LINES + COUNTS, SETUP + b"set\n", None, None, None, "a line of the setup has a fault: upc-lab police says which"),
    (PATH_LINES + ["\n", row(TABLE), row((1, "*", 1, 0, 0, 0))], PATH_SETUP, [(1, "*")], None, None, None),
    (PATH_LINES, PATH_SETUP.replace(b"1 *", b"2 *"), None, None, None, "the setup has no connection 1/*"),
    (PATH_LINES, None, None, 9, None, "no cell of 1/* is from 9 to 5: the first is at 5, the last at 5"),
    ([row(HEADING), LINES[2]], None, None, None, None, "no line has a cell that was judged; --connection names one to draw"),
    (COUNTS[1:], None, None, None, None, "no cell has a line: police the capture with --lines all"),
    ([LINES[0], *COUNTS], None, [(1, 100)], None, None, "no line has a cell of 1/100"),
]


def said(lines, *asked):
    """Returns what is said of verdicts."""
    try:
        return drawn(iter(lines), *asked)[1]
    except NotDrawn as fault:
        return str(fault)


def main(count="100", seed="1"):
    """Compares, and returns the exit status."""
    wrong = [f"the levels of picture {number} of seed {seed}" for number in range(int(count)) if not is_drawn_right(random.Random(f"{seed} {number}"))]
    wrong += [f"{said(*asked)!r} is said, and not {known!r}" for *asked, known in SAID if said(*asked) != known]
    for it in wrong:
        print(f"otherwise: {it}")
    print(f"{int(count) + len(SAID) - len(wrong)} passed, {len(wrong)} failed")
    return 1 if wrong else 0


if __name__ == "__main__":
    sys.exit(main(*sys.argv[1:]))
