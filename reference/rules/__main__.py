"""Compares the compiled code of random rules with the evaluator, on cells at the bounds of their comparisons, and the
answers of `why`, which name the rule that decides each. Each ends with the status 1 if its text has a fault, else with 0. Before that the
words of docs/RULES.md, and tcpdump's with the word `tcpdump`.

    python3 -m rules PROGRAM [COUNT] [SEED] [tcpdump]      PROGRAM is upc-lab

The last line is 'N passed, M failed'.
"""
import random
import subprocess
import sys
import threading

from policer.decoding import decoded
from policer.machine import value_and_steps

from rules.making import cells_for, padded, text_of
from rules.meaning import decision_of, value_of
from rules.reader import Fault, place_words, read_rules
from rules.words import outcomes


# A code has at most this many instructions, and far fewer than this for a comparison, a number of a list, or a rule.
MOST_CODE = 4096
MOST_OF_ONE = 8
# A text has at most this many octets, and the line `cells` too.
MOST_OCTETS = 1048576
MOST_LINE_OCTETS = 70000
OVER_LIMIT = "fault script 5 TooLong\n"
LONG_CODE = "fault rules 8 TooLong 0 0\n"


def answered(program, text, *words):
    """Returns what a subcommand of the program answers to a text, that of `rules` if no words say another, and its status. It prints no message; of
    `rules` the hints are left out, which `lab` compares."""
    run = subprocess.run([program, *(words or ["rules"])], input=text, stdout=subprocess.PIPE, stderr=subprocess.PIPE, check=False)
    messages = run.stderr.decode() if words else "".join(it for it in run.stderr.decode().splitlines(keepends=True) if not it.startswith("# hint"))
    return run.stdout.decode() + messages, run.returncode


def comparisons_in(test):
    """Returns how many comparisons, words and numbers of lists a test has."""
    if test[0] in ("and", "or", "not"):
        return sum(comparisons_in(it) for it in test[1:])
    return 1 + len(test[3]) if test[0] == "among" else 1


def may_be_too_long(reader):
    """Returns whether the code of the rules may have too many instructions."""
    tests = [line[1] for line in reader.rules if line[0] in ("rule", "block")]
    return sum(MOST_OF_ONE * (1 + comparisons_in(it)) for it in tests) > MOST_CODE


def shown(decision):
    """Returns the answer of `why` to a cell."""
    place, value = decision
    return f"otherwise value {value}\n" if place is None else f"line {place_words(place)} value {value}\n"


def counted(reader, decisions):
    """Returns the answer of `why --count` to cells that were decided so: a line for each rule, in order, and one for the others."""
    decided = [place for place, _ in decisions]
    places = [line[3] for line in reader.rules if line[0] == "rule"]
    rules = "".join(f"line {place_words(place)} cells {decided.count(place)}\n" for place in places)
    return f"{rules}otherwise cells {decided.count(None)}\n"


def wanted_of_why(program, text, after, random_source):
    """Returns the cells after a text of rules and what follows it, the answers of `why` and of `why --count` that are wanted, and their status."""
    if len(text) > MOST_OCTETS:
        return [], OVER_LIMIT, OVER_LIMIT, 1
    try:
        reader = read_rules(text)
    except Fault as fault:
        return [], fault.shown(), fault.shown(), 1
    if may_be_too_long(reader) and answered(program, text)[0] == LONG_CODE:
        return [], LONG_CODE, LONG_CODE, 1
    cells = cells_for(reader, random_source) if after else []
    decisions = [decision_of(reader, cell) for cell in cells]
    return cells, "".join(shown(decision) for decision in decisions), counted(reader, decisions), 0


def line_of(cell, random_source):
    """Returns a line with a cell: its digits, or the line that a script has."""
    moment = random_source.choice(["", "cell 0 ", f" cell\t{random_source.randrange(2**70)}  "])
    return f"{moment}{cell.hex()}\n"


def difference_of_why(program, text, random_source):
    """Returns what differs between `why` and the reference, or None."""
    # The line feed ends the last line, if none does. Without a line `cells` there are no cells, and the text may end as it is.
    after = random_source.choice([b" cells # of the rules\n", b"cells\r\n", b"cells\n", b"", b"cells # " + b"." * (MOST_LINE_OCTETS - 8) + b"\n"])
    if after and text and not text.endswith(b"\n"):
        text += b"\n"
    if random_source.random() < 0.02:
        text, after = text + b"cells # " + b"." * (MOST_LINE_OCTETS - 7) + b"\n", b""
    cells, wanted, counts, status = wanted_of_why(program, text, after, random_source)
    octets = text + after + "".join(line_of(cell, random_source) for cell in cells).encode()
    answer, ended = answered(program, octets, "why")
    if answer == wanted and ended == status:
        is_counted = answered(program, octets, "why", "--count") == (counts, status)
        return None if is_counted else f"the counts are not {counts!r}"
    if answer == wanted:
        return f"the status {ended} of why"
    at = next((at for at, (one, other) in enumerate(zip(answer.split("\n"), wanted.split("\n"))) if one != other), 0)
    return f"{answer.split(chr(10))[at]!r} and not {wanted.split(chr(10))[at]!r}" + (f" on {cells[at].hex()}" if at < len(cells) else "")


def difference(program, text, random_source):
    """Returns what differs between the program and the reference, or None."""
    answer, ended = answered(program, text)
    if len(text) > MOST_OCTETS:
        return None if (answer, ended) == (OVER_LIMIT, 1) else f"{answer!r} with status {ended} of a text over the limit"
    try:
        reader = read_rules(text)
    except Fault as fault:
        return None if (answer, ended) == (fault.shown(), 1) else f"{answer!r} with status {ended} and not {fault.shown()!r}"
    if ended or not answer.startswith("accepted "):
        is_right = (answer, ended) == (LONG_CODE, 1) and may_be_too_long(reader)
        return None if is_right else f"{answer!r} with status {ended}"
    digits = answer.split("\n")[1]
    code = decoded(bytes.fromhex(digits))
    if answer != f"accepted {len(code)}\n{digits}\n":
        return f"{answer!r} about {len(code)} instructions"
    for cell in cells_for(reader, random_source):
        value, wanted = value_and_steps(code, cell)[0], value_of(reader, cell)
        if value != wanted:
            return f"{value} and not {wanted} on {cell.hex()}"
    return None


def main():
    """Compares, and returns the exit status."""
    program = sys.argv[1]
    count = int(sys.argv[2]) if len(sys.argv) > 2 else 200
    seed = int(sys.argv[3]) if len(sys.argv) > 3 else 1
    passed = failed = 0
    for name, is_same in outcomes(program, len(sys.argv) > 4):
        if not is_same:
            print(f"{name}: the word isn't as the table has it")
        passed, failed = passed + is_same, failed + (not is_same)
    for number in range(count):
        random_source = random.Random(f"{seed} {number}")
        text = text_of(random_source)
        if random_source.random() < 0.02:
            text = padded(random_source, text, MOST_OCTETS)
        found = difference(program, text, random_source) or difference_of_why(program, text, random_source)
        if found:
            failed += 1
            print(f"{seed} {number}: {found}\n{text[:5000].decode(errors='replace')}")
        else:
            passed += 1
    print(f"{passed} passed, {failed} failed")
    return 1 if failed else 0


def with_deep_stack(call):
    """Calls where a test of 4096 parts may be as deep as that, and returns what it returns."""
    sys.setrecursionlimit(100000)
    threading.stack_size(512 * 1024 * 1024)
    returned = []
    thread = threading.Thread(target=lambda: returned.append(call()))
    thread.start()
    thread.join()
    return returned[0] if returned else 1


if __name__ == "__main__":
    sys.exit(with_deep_stack(main))
