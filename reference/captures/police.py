"""Compares `upc-lab police` with the reference.

    python3 -m captures.police UPC_LAB [COUNT] [SEED]

Where a line of the script has a fault, the output is that of `upc-lab explain`. Some scripts name files of rules: then the output is
that for the script with the programs that `upc-lab rules` makes of them, or the fault of the first file that has one, with what `upc-lab explain`
says of it; and standard error has the comments of `upc-lab rules`, with the names of the files. With `--why` the rule of each cell is the one that
rules/ finds in their texts. The last line is 'N passed, M failed'.
"""
import os
import random
import shlex
import subprocess
import sys
import tempfile

from captures.named_rules import Setup
from captures.police_cases import Case, case_of, edges, long_case
from captures.policing import policed, tick_of
from captures.timing import TimedScript

# A script and a capture, and words that are refused.
ONE = Case(b"card 1 1 1 1\n", b"", 100, None, "all")
WRONG_WORDS = [
    "", "''", "{} {}", "{} --lines", "{} --lines some", "{} --lines=", "{} --tick 0us", "{} --tick 10", "{} --link 8", "{} --link 0/1", "{} --link x:0", "{} --side nni",
    "{} --threads", "{} --threads 0", "{} --threads 3", "{} --time late", "{} --threads all", "{} --every", "{} --every 0s", "{} --every 1", "{} --every=",
    "{} --every 18446744074s", "--why", "{} --why=1", "{} --why rules", "{} --why --why", "{} --whys",
]
# Other subcommands, which have no `--why`.
WITHOUT_WHY = [["cells"], ["fit", "--increment", "1"], ["forward", "a.setup"]]
THREADS = [[], [], ["--threads", "1"], ["--threads=2"], ["--threads", "2"]]
UNREADABLE = ["{}.missing", "/"]


class Program:
    """The program, and a file for its scripts."""

    def __init__(self, path, folder):
        self.path = path
        self.setup = os.path.join(folder, "a setup")
        self.source = None

    def ran(self, words, octets):
        """Returns the output, the messages and the status of a subcommand."""
        given = {"stdin": self.source} if self.source else {"input": octets}
        ran = subprocess.run([self.path, *words], **given, stdout=subprocess.PIPE, stderr=subprocess.PIPE)
        return ran.stdout, ran.stderr, ran.returncode

    def police(self, case, threads=()):
        """Returns what it answers to a case. Options with their default are left out where that is what is asked."""
        with open(self.setup, "wb") as it:
            it.write(case.script)
        words = ["police"] if case.tick in (None, 100) else ["police", "--tick", f"{case.tick}ns"]
        # The setup may come between the options.
        words += [self.setup] if case.link is None else [self.setup, f"--link={case.link}"]
        words += [] if case.lines == "all" else ["--lines", case.lines]
        words += [] if case.every is None else ["--every", f"{case.every}ns"]
        words += ["--why"] * case.why
        return self.ran([*words, *threads], case.octets)

    def police_file(self, case, threads):
        """Returns what it answers to a case whose capture is a file. Its reading fills the buffer, and that of a pipe does not."""
        with open(f"{self.setup} and a capture", "wb") as it:
            it.write(case.octets)
        with open(f"{self.setup} and a capture", "rb") as self.source:
            answer = self.police(case, threads)
        self.source = None
        return answer

    def refused(self, words):
        """Returns what it answers to these words, of which {} is the file."""
        with open(self.setup, "wb") as it:
            it.write(ONE.script)
        return self.ran(["police", *shlex.split(words.format(*[shlex.quote(self.setup)] * 2))], ONE.octets)


def hints_of(program, script, files=None):
    """Returns the comments about a setup without a fault: the hints that `upc-lab explain` has."""
    timed = TimedScript(tick_of(script)[1], files)
    if timed.falls is not None:
        return b""
    explained, _, status = program.ran(["explain"], timed.plain)
    hints = b"".join(b"# " + line for line in explained.splitlines(keepends=True) if line.startswith(b"hint "))
    return hints if status == 0 and hints and program.ran(["explain"], timed.before)[2] == 0 else b""


def wanted(program, case):
    """Returns what the program has to answer to a case."""
    given = policed(*case) if case.tick != 100 else policed(*case._replace(tick=None))
    if given is None:
        return program.ran(["explain"], TimedScript(tick_of(case.script)[1], case.files).faulty())
    return given[0], hints_of(program, case.script, case.files), given[1]


def wrong_lines(ours, theirs):
    """Returns the first line in which two outputs differ, and how they end."""
    for number, (one, other) in enumerate(zip(ours[0].split(b"\n"), theirs[0].split(b"\n")), 1):
        if one != other:
            return f"line {number} is {one[:200]}, not {other[:200]}"
    return f"{len(ours[0])} octets {ours[1:]}, not {len(theirs[0])} octets {theirs[1:]}"


def compared(program, cases):
    """Yields for each case what is wrong with its answer, or None."""
    for number, case in cases:
        ours, theirs = program.police(case, THREADS[number % len(THREADS)]), wanted(program, case)
        asked = f"a tick of {case.tick} ns, link {case.link}, lines {case.lines}, spans of {case.every} ns{', --why' * case.why}"
        yield None if ours == theirs else f"capture {number} ({asked}): {wrong_lines(ours, theirs)}"


def wanted_of_setup(program, setup):
    """Returns what the program has to answer to a case whose setup names files of rules."""
    output, hints, status = wanted(program, setup.case)
    if output.startswith(b"fault at 1 "):
        # No file is read.
        return output, b"", status
    if setup.fault:
        # Ticks that differ are said first.
        output, hints, status = output if output.startswith(b"fault tick 1 ") else setup.fault, b"", 1
    return output, setup.comments + hints, status


def rules_cases(seed, count):
    """Returns cases in which files of rules take the place of some programs."""
    return [it for it in edges() if it.script.count(b"load ") > 1] + [case_of(seed, number) for number in range(count)]


def rules_tried(program, seed, count):
    """Yields for each case with rules what is wrong with its answer, or None."""
    for number, case in enumerate(rules_cases(seed, count)):
        setup = Setup(program, case, random.Random(f"{seed} rules {number}"))
        ours, theirs = program.police(setup.case), wanted_of_setup(program, setup)
        yield None if ours == theirs else f"rules of capture {number}{', --why' * setup.case.why}: {wrong_lines(ours, theirs)}"


def long_ones(program, seed, count):
    """Yields for long captures, each read from a file on one thread and on two, what is wrong with the answer, or None. Every other one has rules."""
    for number in range(count):
        setup = Setup(program, long_case(seed, number), random.Random(f"{seed} long rules {number}"), 0.6 * (number % 2))
        theirs = wanted_of_setup(program, setup)
        for threads in (["--threads", "1"], ["--threads", "2"]):
            ours = program.police_file(setup.case, threads)
            yield None if ours == theirs else f"long capture {number} ({' '.join(threads)}): {wrong_lines(ours, theirs)}"


def words_tried(program):
    """Yields what is wrong with the answers to words that the program refuses, or None."""
    for status, some in ((2, WRONG_WORDS), (3, UNREADABLE)):
        for words in some:
            output, messages, ended = program.refused(words)
            yield None if not output and messages and ended == status else f"police {words} ends with {ended}: {messages}"
    for words in WITHOUT_WHY:
        output, messages, ended = program.ran([*words, "--why"], b"")
        yield None if not output and messages and ended == 2 else f"{words} with --why ends with {ended}: {messages}"
    output, _, ended = program.ran(["police", "--help"], b"")
    is_whole = all(word in output for word in (b"--tick <TIME>", b"--link <LINK>", b"--lines <", b"[default: all]", b"`tick TIME`", b"--every <TIME>", b"--threads <N>", b"[default: 2]", b"--why"))
    yield None if is_whole and ended == 0 else f"police --help prints {output}"


def main(path, count="200", seed="1"):
    """Compares, and returns the exit status."""
    cases = list(enumerate(edges(), -len(edges()))) + [(number, case_of(seed, number)) for number in range(int(count))]
    with tempfile.TemporaryDirectory() as folder:
        program = Program(os.path.abspath(path), folder)
        found = [*words_tried(program), *compared(program, cases), *rules_tried(program, seed, int(count)), *long_ones(program, seed, max(4, int(count) // 50))]
    wrong = [it for it in found if it]
    for it in wrong:
        print(f"seed {seed}, {it}")
    print(f"{len(found) - len(wrong)} passed, {len(wrong)} failed")
    return 1 if wrong else 0


if __name__ == "__main__":
    sys.exit(main(*sys.argv[1:]))
