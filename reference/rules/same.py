"""Says whether programs have the value of rules, on cells at the bounds of what the rules compare.

    python3 -m rules.same RULES ANSWER ..      ANSWER is what `upc check` or `upc-lab rules` printed
"""
import random
import sys

from policer.decoding import decoded
from policer.machine import value_and_steps

from rules.making import cells_for
from rules.meaning import value_of
from rules.reader import read_rules


def main():
    """Compares."""
    with open(sys.argv[1], "rb") as text:
        reader = read_rules(text.read())
    failed = 0
    for path in sys.argv[2:]:
        with open(path, encoding="ascii") as answer:
            code = decoded(bytes.fromhex(answer.read().split("\n")[1]))
        for cell in cells_for(reader, random.Random(1), 2000):
            value, wanted = value_and_steps(code, cell)[0], value_of(reader, cell)
            if value != wanted:
                print(f"{path}: {value} and not {wanted} on {cell.hex()}")
                failed = 1
                break
    return failed


if __name__ == "__main__":
    sys.exit(main())
