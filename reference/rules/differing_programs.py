"""Compares `upc-lab differ --program` with the evaluators: pairs of texts of which one or both are a program in hexadecimal. Most are the
code of random rules, some with changed instructions; a table has programs by hand, with the answer that each has.

    python3 -m rules.differing_programs PROGRAM [COUNT] [SEED]      PROGRAM is upc-lab

The last line is 'N passed, M failed'.
"""
import random
import subprocess
import sys

from policer.assembly.assembler import assembled
from policer.decoding import encoded
from policer.eval_dialogue import program_of
from policer.faults import Fault as ProgramFault
from policer.instructions import BRANCHES, CODES
from policer.machine import value_and_steps
from rules.__main__ import with_deep_stack
from rules.differing import MOST_UNDECIDED, NOT_DECIDED, SAME, OfRules, changed, compared, fault_of_answer, text_of
from rules.making import cells_for
from rules.reader import Fault

# Sources, the rules with which each is compared as the new text, and how the answer begins.
BY_HAND = [
    ("ldb [4]\njeq #7, t, f\nt: ret #1\nf: ret #0\n", "octet 4 = 7 -> 1\n", SAME),
    ("ldb [4]\njeq #7, t, f\nt: ret #1\nf: ret #0\n", "octet 4 = 6 -> 1\n", "old program value 0, new line 1 value 1: "),
    ("ldh [8]\nand #0xff0\nrsh #4\njgt #3, t, f\nt: ret #1\nf: ret #0\n", "half 8 & 0xff0 > 0x30 and half 8 & 0xff0 != 0x30 -> 1\n", SAME),
    ("ld [48]\njge #0x80000000, t, f\nt: ret #9\nf: ret #0\n", "word 48 >= 0x80000000 -> 9\n", SAME),
    ("ld [49]\nret #1\n", "otherwise -> 0\n", SAME),
    ("ldx #4\nldb [x + 0]\njset #1, t, f\nt: ret #1\nf: ret #0\n", "octet 4 & 1 = 1 -> 1\n", SAME),
    ("ldb [4]\ntax\nldb [x + 5]\nret a\n", "otherwise -> 0\n", "old: not decided at instruction 2\n"),
    ("ld [0]\nadd #1\nret a\n", "otherwise -> 0\n", "old: not decided at instruction 1\n"),
    ("ld [0]\nret a\n", "otherwise -> 0\n", "old: not decided at instruction 1\n"),
    ("ldb [4]\nldx #3\njgt x, t, f\nt: ret #1\nf: ret #0\n", "octet 4 > 3 -> 1\n", SAME),
    ("ld #9\nlsh #1\nsub #1\nret a\n", "otherwise -> 17\n", SAME),
]
# Texts that are no program, and their faults.
NO_PROGRAMS = [
    ("", "fault script 4 NoProgram"),
    ("# a remark\n\n", "fault script 4 NoProgram"),
    ("0006000000000000 00\n", "fault script 1 BadLine"),
    ("0006000000000000\n00000000\n", "fault script 1 BadLine"),
    ("00060000000000zz\n", "fault script 3 BadHex"),
    ("00060000\n", "fault decode 1 Ragged"),
    ("ffff000000000000\n", "fault decode 2 UnknownCode 0 ffff"),
    ("0034000000000000 \n", "fault verify 4 ZeroDivisor 0"),
    ("a" * 1048577, "fault script 5 TooLong"),
]


class OfProgram:
    """A side of a comparison: a program."""

    nni = None

    def __init__(self, digits):
        self.program = program_of(digits)

    def given(self, cell):
        """Returns what decides the cell, in words, and its value."""
        return "program", value_and_steps(self.program, cell)[0]


def code_of(program, text):
    """Returns the digits of the code of a text of rules, or those of a program that returns 0 if it has none."""
    run = subprocess.run([program, "rules"], input=text.encode(), stdout=subprocess.PIPE, stderr=subprocess.DEVNULL, check=False)
    return run.stdout.decode().split("\n")[1] if run.returncode == 0 else "0006000000000000"


def changed_code(source, digits):
    """Returns the digits of a program with some instructions changed, and whether it may be one that isn't followed."""
    code = [it for it in program_of(digits.encode())]
    is_odd = False
    for _ in range(source.choice([1, 1, 2])):
        at = source.randrange(len(code))
        it = code[at]
        kind = source.random()
        if kind < 0.7:
            code[at] = it._replace(k=max(0, it.k + source.choice([-1, 1, 16, 1 << 20])) % 2 ** 32) if it.form != "L" else it
        elif kind < 0.9 and it.mnemonic in BRANCHES:
            code[at] = it._replace(jt=it.jf, jf=it.jt)
        else:
            spelling = source.choice([("add", "#k"), ("and", "#k"), ("xor", "#k"), ("or", "#k"), ("lsh", "#k"), ("neg", ""), ("ldb", "[k]")])
            code[at] = type(it)(CODES[spelling], 0, 0, it.k % 32 if spelling[1] else 0)
            is_odd = True
    return encoded(code).hex(), is_odd


def side_text(program, source, text, is_program):
    """Returns a text of rules, or of the program of these rules or one that was made of it; and whether it may be one that isn't followed."""
    if not is_program:
        return text, False
    digits, is_odd = code_of(program, text), False
    if source.random() < 0.5:
        digits, is_odd = changed_code(source, digits)
    return source.choice(["", "# a program\n", "\n"]) + source.choice([digits, digits.upper()]) + source.choice(["", "\n", "\r\n", "\n\n# end\n"]), is_odd


def sides_of(texts, which):
    """Returns the sides of two texts, or the fault line of the first that has one."""
    sides = []
    for name, it in zip(("old", "new"), texts):
        try:
            if which in (name, "both"):
                words = [line.split() for line in it.split("\n")]
                sides.append(OfProgram(next(each[0] for each in words if each and each[0][0] != "#").encode()))
            else:
                sides.append(OfRules(it.encode()))
        except Fault as fault:
            return None, f"{name}: {fault.shown()}"
        except ProgramFault as fault:
            return None, f"{name}: {fault.line()}\n"
    return sides, None


def difference(program, source):
    """Returns what is wrong with the answer to a pair of texts, or None; and whether nothing was decided."""
    text = text_of(source)
    rules = [text, changed(source, text)]
    which = source.choice(["old", "new", "both"])
    made = [side_text(program, source, it, which in (name, "both")) for name, it in zip(("old", "new"), rules)]
    texts = [it[0] for it in made]
    every = source.random() < 0.3
    answer, status = compared(program, *(it.encode() for it in texts), ["--program", which, *(["--lines", "all"] if every else [])])
    sides, fault = sides_of(texts, which)
    if fault:
        return (None if (answer, status) == (fault, 1) else f"{answer!r} with status {status} and not {fault!r}"), False
    if status == 3:
        stops = [f"{name}: not decided at instruction " for name, it in zip(("old", "new"), made) if it[1]]
        if answer == NOT_DECIDED or any(answer.startswith(it) for it in stops):
            return None, answer == NOT_DECIDED
    if status != (0 if answer.startswith(SAME) else 1):
        return f"the status {status} of {answer[:80]!r}", False
    readers = []
    for it in rules:
        try:
            readers.append(OfRules(it.encode()).reader)
        except Fault:
            pass
    cells = [cell for reader in readers for cell in cells_for(reader, source, 60)] + [source.randbytes(52) for _ in range(20)]
    return fault_of_answer(*sides, every, answer, cells), False


def faults_by_hand(program):
    """Yields what is wrong with the answer to each program by hand, or None."""
    for written, rules, begins in BY_HAND:
        digits = encoded(assembled(written.encode())).hex().encode()
        answer, status = compared(program, digits, rules.encode(), ["--program", "old"])
        wanted = 0 if begins == SAME else 3 if "not decided" in begins else 1
        yield None if answer.startswith(begins) and status == wanted else f"{answer[:80]!r} with status {status} for {written!r} and {rules!r}"
        cells = [bytes(52), bytes([255] * 52)]
        sides, _ = sides_of([digits.decode(), rules], "old")
        yield None if status == 3 else fault_of_answer(*sides, False, answer, cells)
    for text, fault in NO_PROGRAMS:
        for words, name, old, new in (("old", "old", text, "any -> 1\n"), ("new", "new", "any -> 1\n", text), ("both", "old", text, text)):
            answer = compared(program, old.encode(), new.encode(), ["--program", words])
            yield None if answer == (f"{name}: {fault}\n", 1) else f"{answer} and not {fault}"


def main():
    """Compares, and returns the exit status."""
    program = sys.argv[1]
    count = int(sys.argv[2]) if len(sys.argv) > 2 else 200
    seed = int(sys.argv[3]) if len(sys.argv) > 3 else 1
    undecided = 0
    found = list(faults_by_hand(program))
    for number in range(count):
        fault, is_undecided = difference(program, random.Random(f"programs {seed} {number}"))
        undecided += is_undecided
        found.append(fault and f"{seed} {number}: {fault}")
    if undecided > MOST_UNDECIDED * count + 1:
        found.append(f"{undecided} of {count} pairs aren't decided")
    for fault in filter(None, found):
        print(fault)
    print(f"{found.count(None)} passed, {len(found) - found.count(None)} failed")
    return 1 if len(found) > found.count(None) else 0


if __name__ == "__main__":
    sys.exit(with_deep_stack(main))
