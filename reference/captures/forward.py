"""Compares `upc-lab forward` with the reference.

    python3 -m captures.forward UPC_LAB [COUNT] [SEED]

Output, messages and status are compared octet for octet. Where a line of the script has a fault, the messages are the output of `upc-lab explain`;
otherwise they begin with its hints.
Then what was forwarded is policed by the same script: no cell of it is discarded or tagged. The last line is 'N passed, M failed'.
"""
import os
import random
import subprocess
import sys
import tempfile

from captures import making
from captures.forwarding import forwarded
from captures.police_cases import TICKS, Traffic, capture_of, case_of, edges, usual_lines, without_faults
from captures.police import hints_of
from captures.policing import card_of, tick_of
from captures.fit_cases import as_pcap
from captures.making import in_pcapng
from captures.reading import link_for, records_of
from captures.timing import TimedScript
from captures.formats import Block

TABLE_COLUMNS = 6


class Program:
    """The program, and a file for its scripts."""

    def __init__(self, path, folder):
        self.path = path
        self.setup = os.path.join(folder, "a setup")

    def ran(self, words, octets):
        """Returns the output, the messages and the status of a subcommand."""
        ran = subprocess.run([self.path, *words], input=octets, stdout=subprocess.PIPE, stderr=subprocess.PIPE)
        return ran.stdout, ran.stderr, ran.returncode

    def asked(self, name, script, octets, tick, link, more):
        """Returns what a subcommand with a setup answers."""
        with open(self.setup, "wb") as it:
            it.write(script)
        words = [name, self.setup, *more] + ([] if tick is None else ["--tick", f"{tick}ns"]) + ([] if link is None else ["--link", link])
        return self.ran(words, octets)

    def forward(self, script, octets, tick, link, others):
        return self.asked("forward", script, octets, tick, link, [] if others == "pass" else ["--others", others])

    def police(self, script, octets, tick, link):
        return self.asked("police", script, octets, tick, link, ["--lines", "none"])


def wanted(program, script, octets, tick, link, others):
    """Returns what the program has to answer."""
    given = forwarded(script, octets, tick, link, others)
    if given is None:
        explained = program.ran(["explain"], TimedScript(tick_of(script)[1]).faulty())
        return b"", explained[0], explained[2]
    return given[0], hints_of(program, script) + given[1], given[2]


def difference(ours, theirs):
    """Returns how two answers differ."""
    for what, one, other in zip(("the output", "the report"), ours, theirs):
        if one != other:
            at = next((place for place, (a, b) in enumerate(zip(one, other)) if a != b), min(len(one), len(other)))
            return f"{what} differs at octet {at}: {one[at:at + 60]}, not {other[at:at + 60]} ({len(one)} octets, not {len(other)})"
    return f"status {ours[2]}, not {theirs[2]}"


def cases(seed, count):
    """Yields scripts and captures with a tick, a link and what becomes of other records: those of `police`, and random captures of all formats."""
    draw = random.Random(f"{seed} forward")
    for case in edges() + [case_of(seed, number) for number in range(count)]:
        yield case.script, case.octets, case.tick, case.link, draw.choice(["pass", "drop"])
    for _ in range(count):
        script = b"\n".join(without_faults(usual_lines(draw))) + b"\n"
        octets = making.capture_of(draw)
        yield script, octets, draw.choice(TICKS), link_for(draw, octets), draw.choice(["pass", "drop"])
    yield from cut_packets(draw, count)


def cut_packets(draw, count):
    """Yields captures whose packets were cut short of their records, so that zeros are written in place of the rest."""
    for _ in range(count // 4):
        script = b"\n".join(without_faults(usual_lines(draw))) + b"\n"
        traffic = Traffic(draw, card_of(script), 1000)
        made = [traffic.record() for _ in range(draw.randrange(20))]
        made = [it[: max(16, len(it) - draw.choice([0, 0, 1, 4, 60]))] for it in made]
        octets = draw.choice([as_pcap(made, draw), in_pcapng(draw, made)])
        yield script, octets, 1000, None, draw.choice(["pass", "drop"])


def compared(program, seed, count):
    """Yields what is wrong with each answer, or None."""
    for number, case in enumerate(cases(seed, count)):
        ours, theirs = program.forward(*case), wanted(program, *case)
        yield None if ours == theirs else f"capture {number} (tick {case[2]} ns, link {case[3]}, others {case[4]}): {difference(ours, theirs)}"


def first_cell(octets):
    """Returns the time and the link of the first cell of a capture, or None."""
    for it in records_of(octets):
        if not isinstance(it, Block) and it.cell is not None:
            return it.time, it.link
    return None


def losses(table):
    """Returns how many cells are tagged, discarded or refused, by the table of `police`."""
    rows = [line.split(b"\t") for line in table.split(b"\n") if line.count(b"\t") == TABLE_COLUMNS - 1]
    return sum(int(number) for row in rows[1:] for number in row[3:])


def policed_again(program, seed, count):
    """Yields what is wrong with the policing of what was forwarded, or None.

    Moments are counted from the first cell of a capture, so only captures count whose first cell goes on: else they are rounded otherwise."""
    draw = random.Random(f"{seed} again")
    for number in range(count):
        script = b"\n".join(without_faults(usual_lines(draw))) + b"\n"
        tick = draw.choice(TICKS)
        octets = capture_of(draw, script, tick, draw.choice([10, 60, 200]))
        link = "0"
        on = program.forward(script, octets, tick, link, "drop")
        if on[2] != 0 or not on[0] or first_cell(octets)[0] != first_cell(on[0])[0]:
            continue
        again = program.police(script, on[0], tick, link)
        lost = losses(again[0]) if again[2] == 0 else None
        yield None if lost == 0 else f"what was forwarded of capture {number} of again loses {lost} cells: {again}"


def words_tried(program):
    """Yields what is wrong with the answers to words that the program refuses, or None."""
    for words in (["forward"], ["forward", program.setup, "--others"], ["forward", program.setup, "--others", "all"], ["forward", program.setup, program.setup]):
        output, messages, status = program.ran(words, b"")
        yield None if not output and messages and status == 2 else f"{words} ends with {status}: {messages}"


def main(path, count="200", seed="1"):
    """Compares, and returns the exit status."""
    with tempfile.TemporaryDirectory() as folder:
        program = Program(os.path.abspath(path), folder)
        found = [*words_tried(program), *compared(program, seed, int(count)), *policed_again(program, seed, int(count))]
    wrong = [it for it in found if it]
    for it in wrong:
        print(f"seed {seed}, {it}")
    print(f"{len(found) - len(wrong)} passed, {len(wrong)} failed")
    return 1 if wrong else 0


if __name__ == "__main__":
    sys.exit(main(*sys.argv[1:]))
