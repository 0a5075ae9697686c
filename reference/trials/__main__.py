"""`bin/compare`: see its `--help`."""

import argparse
import os
import random
import sys
import tempfile
from collections import Counter
from multiprocessing import Pool

from .comparing import MAKERS, differs, edges_of, first_difference, input_of, of_program, of_reference, shortened
from .coverage import Coverage, table

# How many inputs a worker takes at a time.
BATCH = 20

COVERAGE = Coverage()


def arguments():
    """What the words ask for."""
    parser = argparse.ArgumentParser(
        prog="bin/compare",
        description="Compares N random and mutated inputs of each subcommand, and fixed ones at the limits, between "
        "the program as built and the reference in Python. The last line is 'N passed, M failed', one for each "
        "subcommand.",
    )
    parser.add_argument("count", metavar="N", type=int, help="how many inputs of each subcommand")
    parser.add_argument("seed", metavar="SEED", nargs="?", help="repeats the run that printed this seed")
    parser.add_argument("--only", choices=tuple(MAKERS), help="one subcommand alone")
    parser.add_argument("--coverage", action="store_true", help="prints what the inputs have reached")
    parser.add_argument("--workers", type=int, default=2, help="how many inputs are tried at once (2)")
    parser.add_argument("--show", type=int, metavar="I", help="writes input I of --only, and compares nothing")
    return parser.parse_args()


def tried(task):
    """The first number of a batch whose input makes a difference, or None, and what was reached."""
    program, subcommand, seed, numbers = task
    COVERAGE.counts.clear()
    found = None
    for number in numbers:
        text = input_of(subcommand, seed, number)
        COVERAGE.is_on = True
        theirs = of_reference(subcommand, text)
        COVERAGE.note_text(subcommand, theirs[0])
        COVERAGE.is_on = False
        if of_program(program, subcommand, text) != theirs:
            found = number
            break
    return found, Counter(COVERAGE.counts)


def compared(pool, program, subcommand, seed, count):
    """The number of the first input that makes a difference, or None, and what was reached."""
    batches = [range(begin, min(begin + BATCH, count)) for begin in range(-len(edges_of(subcommand)), count, BATCH)]
    tasks = [(program, subcommand, seed, numbers) for numbers in batches]
    reached = Counter()
    for found, counts in pool.imap(tried, tasks):
        reached += counts
        if found is not None:
            return found, reached
    return None, reached


def report_difference(program, subcommand, seed, number):
    """Prints the difference, and keeps the input, whole and shortened."""
    text = input_of(subcommand, seed, number)
    folder = tempfile.mkdtemp(prefix="upc-compare-")
    less = shortened(text, lambda shorter: differs(program, subcommand, shorter))
    for name, octets in (("whole", text), ("short", less)):
        with open(os.path.join(folder, name), "wb") as file:
            file.write(octets)
    difference = first_difference(of_program(program, subcommand, less), of_reference(subcommand, less))
    print("otherwise: upc %s, input %d of the seed %s" % (subcommand, number, seed))
    print("  %s" % difference)
    print("  bin/upc %s < %s/short" % (subcommand, folder))
    print("  (cd reference && python3 -m policer %s < %s/short)" % (subcommand, folder))
    print("  The whole input is %s/whole" % folder)


def main():
    """Compares each subcommand up to its first difference."""
    asked = arguments()
    seed = asked.seed or str(random.SystemRandom().randrange(10**9))
    subcommands = [asked.only] if asked.only else list(MAKERS)
    if asked.show is not None:
        sys.stdout.buffer.write(input_of(subcommands[0], seed, asked.show))
        return 0
    program = os.environ["UPC_PROGRAM"]
    print("seed %s" % seed)
    passed, reached = 0, Counter()
    if asked.coverage:
        COVERAGE.watch()
    for subcommand in subcommands:
        with Pool(asked.workers) as pool:
            found, counts = compared(pool, program, subcommand, seed, asked.count)
        reached += counts
        if found is None:
            passed += 1
            tried_inputs = (subcommand, asked.count, len(edges_of(subcommand)))
            print("upc %s: %d random inputs and %d at the limits, no difference" % tried_inputs, flush=True)
        else:
            report_difference(program, subcommand, seed, found)
    if asked.coverage:
        lines, missed = table(reached, subcommands)
        print("\n".join(lines))
        print("%d things were to be reached, %d were missed" % (len(lines), missed))
    failed = len(subcommands) - passed
    print("%d passed, %d failed" % (passed, failed))
    return 1 if failed else 0


sys.exit(main())
