"""What `upc-lab police` prints of a script and a capture, and its exit status.

    python3 -m captures.policing SETUP [--tick NANOSECONDS] [--link LINK] [--lines all|refused|none] [--every NANOSECONDS] [--why]
        [--compiler UPC_LAB] < CAPTURE

The first line of SETUP with words may be `tick TIME`. Lines `at TIME COMMAND` and those after them are carried out while cells arrive. A line
`rules NAME` loads the program that `UPC_LAB rules` makes of that file; without --compiler it is no command.
"""
import argparse
import os
import subprocess
import sys

from captures.counting import Capture
from captures.rule_column import NONE, RulesFile, rules_by_number
from captures.timing import Commands, TimedScript, command_of, dialogue_of, is_rules
from policer.cell import channel_name, connection_of, priority_of
from policer.faults import Fault
from policer.text_lines import asks_nothing, raw_lines, source_lines, without_return, words_of
from sizes.contract import SizeFault, time

HEADING = ("record", "moment", "vpi", "vci", "clp", "value", "verdict", "bucket", "excess")
# The last column, if it is asked for.
RULE = "rule"
SPAN_HEADING = ("span", "moment", "vpi", "vci", "passed", "tagged", "discarded", "refused")
TABLE = ("vpi", "vci", "passed", "tagged", "discarded", "refused")
VERDICTS = ("pass", "tag", "discard", "refuse")

# What is said of a time before that of an earlier line.
FALLS = "this time is before that of an earlier line; the times of a setup don't fall"

# Why cells aren't judged, in the order of the comments.
REASONS = {
    "NoConnection": "no connection",
    "MomentBack": "a moment before the last one of its connection",
    "MomentTooLate": "a moment above 2^62",
    "JournalFull": "a full journal",
}


def tick_of(script):
    """Returns the nanoseconds of the tick that a script names, or None, and the script with blanks in place of that line."""
    place = 0
    for line, is_fed in raw_lines(script):
        words = words_of(without_return(line, is_fed))
        if not asks_nothing(words):
            try:
                named = time(words[1]) if len(words) == 2 and words[0] == b"tick" else 0
            except SizeFault:
                named = 0
            return (named, script[:place] + b" " * len(line) + script[place + len(line) :]) if named else (None, script)
        place += len(line) + 1
    return None, script


def card_of(script):
    """Returns the card after a script, or None if a line of it has a fault."""
    dialogue = dialogue_of(script)
    return dialogue and dialogue.card


def arrived(card, vc, moment, cell):
    """Returns the value and the verdict of a cell. A full journal is cut first."""
    try:
        _, _, value, verdict, _ = card.arrive(moment, cell)
    except Fault as fault:
        if fault.name != "JournalFull":
            raise
        card.cut(vc)
        _, _, value, verdict, _ = card.arrive(moment, cell)
    return value, verdict


def judged(card, vc, moment, cell):
    """Returns the value, the verdict, the bucket and the excess of a cell, as its line has them."""
    contracts = card.connections[vc].contracts if vc in card.connections else []
    # The levels are those before the cell.
    excesses = [contract.excess(moment, priority_of(cell)) for contract in contracts]
    try:
        value, verdict = arrived(card, vc, moment, cell)
    except Fault as fault:
        return "-", fault.name, "-", "-"
    excess = excesses[value - 1] if 1 <= value <= len(excesses) else None
    return value, verdict, *(excess or ("-", "-"))


def row(fields):
    """Returns a line with these fields."""
    return "\t".join(str(field) for field in fields) + "\n"


def run_comments(tick, capture):
    """Returns the comments about the tick and about losses."""
    lost = capture.marks["losses"]
    losses = [f"# verdicts from record {lost[0]} on may be wrong: cells before it may be lost\n"] if lost else []
    return "".join([f"# a tick is {tick} ns\n", *losses])


def columns_of(vc, side):
    """Returns the columns of a connection."""
    path, channel = vc
    return path, channel_name(channel, side)


def spans_of(judged_cells, ticks, side):
    """Returns for the beginning of each span with judged cells the lines of its connections."""
    verdicts = {}
    for vc, moment, verdict in judged_cells:
        verdicts.setdefault(moment // ticks * ticks, {}).setdefault(vc, []).append(verdict)
    return {begin: [("span", begin, *columns_of(vc, side), *(of.count(it) for it in VERDICTS)) for vc, of in sorted(its.items())] for begin, its in verdicts.items()}


class Policed:
    """The cells of a capture on a card with commands: the lines of those that have one, and the records of those that aren't judged."""

    def __init__(self, commands, lines, ticks=None, rules=None):
        self.commands = commands
        self.card = commands.card
        self.lines = lines
        # The rules of programs by their numbers, or None if lines don't say which rule gave a value.
        self.rules = rules
        # The lines of commands, each with the moment of the cell before it.
        self.of_commands = []
        # How many ticks a span has, or None.
        self.ticks = ticks
        # The lines of cells, each with its moment.
        self.of_cells = []
        # The connection, the moment and the verdict of each judged cell.
        self.judged_cells = []
        # The moment of the latest cell.
        self.latest = None
        self.unjudged = {reason: [] for reason in REASONS}

    def take(self, counted):
        """Brings a cell to the card, after the commands whose moment has come."""
        before = -1 if self.latest is None else self.latest
        self.of_commands += [(before, ("command", *it)) for it in self.commands.due(counted.moment)]
        self.latest = counted.moment
        vc = connection_of(counted.cell, self.card.side)
        value, verdict, bucket, excess = judged(self.card, vc, counted.moment, counted.cell)
        if verdict in REASONS:
            self.unjudged[verdict].append(counted.number)
        else:
            self.judged_cells.append((vc, counted.moment, verdict))
        if self.lines == "all" or self.lines == "refused" and verdict != "pass":
            line = (counted.number, counted.moment, *columns_of(vc, self.card.side), priority_of(counted.cell), value, verdict, bucket, excess)
            self.of_cells.append((counted.moment, line + self.rule(vc, counted.cell, value)))

    def rule(self, vc, cell, value):
        """Returns the last column of a cell to which its program gave this value, if that column is asked for."""
        if self.rules is None:
            return ()
        rules = None if value == "-" else self.rules.get(self.card.connections[vc].program)
        return (NONE if rules is None else rules.shown(cell, value),)

    def rows(self, is_whole):
        """Returns the lines of cells, of commands and of spans, each span after the cells before its end, and before the first cell and the first
        span its heading. If the run was ended, the last span has none."""
        lines = [(moment, 1, line) for moment, line in self.of_cells] + [(moment, 2, line) for moment, line in self.of_commands]
        spans = spans_of(self.judged_cells, self.ticks, self.card.side) if self.ticks else {}
        latest = self.latest // self.ticks * self.ticks if self.ticks and self.latest is not None else 0
        lines += [(begin + self.ticks, 0, line) for begin, its in spans.items() for line in its if is_whole or begin < latest]
        # Sorting keeps the order of lines at one place.
        rows = [line for _, _, line in sorted(lines, key=lambda it: it[:2])]
        of_cells = HEADING if self.rules is None else (*HEADING, RULE)
        for heading, is_span in ((of_cells, False), (SPAN_HEADING, True)):
            first = next((place for place, line in enumerate(rows) if line[0] != "command" and (line[0] == "span") == is_span), None)
            if first is not None:
                rows.insert(first, heading)
        return rows

    def table(self):
        """Returns the counts of each connection, and the comments about cells that weren't judged."""
        connections = sorted(self.card.connections.items())
        counts = [(*columns_of(vc, self.card.side), *(it.judged[verdict] for verdict in VERDICTS)) for vc, it in connections]
        comments = [
            f"# {len(self.unjudged[reason])} not judged: {why}; first record {self.unjudged[reason][0]}\n"
            for reason, why in REASONS.items()
            if self.unjudged[reason]
        ]
        return "\n" * bool(self.rows(True)) + "".join(row(it) for it in [TABLE] + counts) + "".join(comments)


def policed(script, octets, asked, link, lines, every=None, why=False, files=None):
    """Returns the output and the exit status, or None if `upc-lab explain` has a fault line for the script without its tick and its times. Neither
    a tick nor spans need be asked for. `why` asks for the rule that gave each cell its value. `files` has the files of rules by their names; without
    it lines `rules NAME` are no commands."""
    named, script = tick_of(script)
    if None not in (named, asked) and named != asked:
        return f"fault tick 1 Differs {named} {asked}\n".encode(), 1
    tick = named or asked or 100
    timed = TimedScript(script, files)
    if timed.falls:
        return f"fault at 1 Falls {timed.falls}\nline {timed.falls}: {FALLS}\n".encode(), 1
    if timed.faulty() is not None:
        return None
    capture = Capture(octets, tick, link)
    if capture.refused:
        return capture.refused.encode(), 1
    cells = Policed(Commands(timed, tick), lines, every and max(1, every // tick), rules_by_number(timed.loads, files) if why else None)
    for counted in capture.cells:
        cells.take(counted)
    # A cell of a second link ends the run at once.
    ended = capture.several or cells.table() + cells.commands.comment() + run_comments(tick, capture) + capture.closing()
    rows = "".join(row(it) for it in cells.rows(not capture.several))
    return (rows + ended).encode(), 1 if capture.several or capture.fault else 0


def compiled_files(script, folder, compiler):
    """Returns the files of rules that a script names, from this folder, with the programs that a compiler makes of them."""
    files = {}
    for line in source_lines(script):
        words = command_of(words_of(line))
        if is_rules(words):
            with open(os.path.join(folder, os.fsdecode(words[1])), "rb") as it:
                text = it.read()
            answer = subprocess.run([compiler, "rules"], input=text, stdout=subprocess.PIPE, stderr=subprocess.DEVNULL, check=True).stdout
            files[words[1]] = RulesFile(text, answer.split(b"\n")[1])
    return files


def main():
    """Prints, and returns the exit status."""
    reader = argparse.ArgumentParser(description=__doc__.split("\n", 1)[0])
    reader.add_argument("setup", type=argparse.FileType("rb"))
    reader.add_argument("--tick", type=int)
    reader.add_argument("--link")
    reader.add_argument("--lines", choices=("all", "refused", "none"), default="all")
    reader.add_argument("--every", type=int)
    reader.add_argument("--why", action="store_true")
    reader.add_argument("--compiler", metavar="UPC_LAB")
    asked = reader.parse_args()
    script = asked.setup.read()
    files = asked.compiler and compiled_files(script, os.path.dirname(asked.setup.name), asked.compiler)
    given = policed(script, sys.stdin.buffer.read(), asked.tick, asked.link, asked.lines, asked.every, asked.why, files)
    if given is None:
        print("a line of the script has a fault: upc-lab explain says where", file=sys.stderr)
        return 1
    sys.stdout.buffer.write(given[0])
    return given[1]


if __name__ == "__main__":
    sys.exit(main())
