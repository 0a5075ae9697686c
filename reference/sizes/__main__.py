"""Answers contracts, makes random ones, and compares the program with these answers.

    python3 -m sizes answer < INPUT                  prints the answers
    python3 -m sizes make COUNT [SEED]               prints COUNT random lines
    python3 -m sizes compare PROGRAM [COUNT] [SEED]  compares; PROGRAM is upc-lab

The last line of a comparison is 'N passed, M failed'.
"""
import random
import subprocess
import sys

from sizes.answers import answers
from sizes.making import text_of

# How many lines a comparison gives the program at once.
AT_ONCE = 50


def shown(text):
    """Returns the whole output for an input."""
    return "".join(line + "\n" for line in answers(text))


def compare(program, count, seed):
    """Compares, and returns the exit status."""
    failed = 0
    for number in range(count):
        text = text_of(random.Random(f"{seed} {number}"), AT_ONCE)
        run = subprocess.run([program, "size"], input=text, stdout=subprocess.PIPE, stderr=subprocess.PIPE, check=False)
        if (run.stdout.decode(), run.stderr, run.returncode) != (shown(text), b"", 0):
            failed += 1
            wanted, given = shown(text).split("\n"), run.stdout.decode().split("\n")
            found = next((pair for pair in zip(given, wanted) if pair[0] != pair[1]), (f"another number of lines, or the status {run.returncode}", ""))
            print(f"{seed} {number}: {found[0]!r} and not {found[1]!r}")
    print(f"{count - failed} passed, {failed} failed")
    return 1 if failed else 0


def main(words):
    """Does what the words ask for, and returns the exit status."""
    numbers = [int(word) for word in words[1:] if word.isdigit()] + [None, None]
    if words[:1] == ["answer"]:
        sys.stdout.write(shown(sys.stdin.buffer.read()))
        return 0
    if words[:1] == ["make"]:
        sys.stdout.buffer.write(text_of(random.Random(str(numbers[1] or 1)), numbers[0] or 100))
        return 0
    return compare(words[1], numbers[0] or 100, numbers[1] or 1)


if __name__ == "__main__":
    sys.exit(main(sys.argv[1:]))
