"""The lines of a setup script that are carried out while cells arrive: `at TIME COMMAND`, and the lines after it."""
import re

from policer.faults import Fault
from policer.run_dialogue import RunDialogue
from policer.text_lines import asks_nothing, limited_lines, raw_lines, without_return, words_of
from sizes.contract import SizeFault, time

# The commands that are taken between cells, and those that end a journal.
TAKEN = (b"load", b"retire", b"setup", b"reload")
ENDS = {b"release": "released", b"cut": "cut"}
VERDICTS = ("pass", "tag", "discard", "refuse")
FIRST_WORDS = re.compile(rb"[ \t]*[^ \t]+[ \t]+[^ \t]+")


def own_time(words):
    """Returns the nanoseconds that a line names, or None."""
    if len(words) < 3 or words[0] != b"at":
        return None
    try:
        return time(words[1])
    except SizeFault:
        return None


def command_of(words):
    """Returns the words of a line without its time."""
    return words if own_time(words) is None else words[2:]


def is_rules(words):
    """Returns whether these are the words of a line `rules NAME`."""
    return len(words) == 2 and words[0] == b"rules"


class TimedScript:
    """A script without its times.

    `falls` is the number of the first line whose time is before one that an earlier line names, or None. `before` are the lines before the first
    time, and `later` the nanoseconds and the line of each later one. If there are files of rules, by their names, each line `rules NAME` is replaced by
    the line that loads the program of the file. `loads` has for each line that loads a program the name of its file, or None."""

    def __init__(self, script, files=None):
        self.falls, self.plain, self.before, self.later = None, b"", b"", []
        self.files, self.loads = files, []
        present, plain, before = None, [], []
        for number, (line, is_fed) in enumerate(raw_lines(script), 1):
            own = own_time(words_of(without_return(line, is_fed)))
            if own is not None and present is not None and own < present:
                self.falls = number
                return
            if own is not None:
                line = FIRST_WORDS.sub(lambda it: b" " * len(it[0]), line, count=1)
            present = present if own is None else own
            line, is_fed = self.loading(line, is_fed)
            octets = line + b"\n" * is_fed
            plain.append(octets)
            if present is None:
                before.append(octets)
            elif not asks_nothing(words_of(without_return(line, is_fed))):
                self.later.append((present, without_return(line, is_fed)))
        self.plain, self.before = b"".join(plain), b"".join(before)

    def loading(self, line, is_fed):
        """Notes a line that loads a program. Returns it, or what replaces it, and whether a line feed follows."""
        words = words_of(without_return(line, is_fed))
        if self.files is not None and is_rules(words):
            self.loads.append(words[1])
            return b"load " + self.files[words[1]].digits, True
        self.loads += [None] * (words[:1] == [b"load"])
        return line, is_fed

    def faulty(self):
        """Returns the script whose fault `upc-lab explain` explains, or None if there is none."""
        return next((script for script in (self.plain, self.before) if dialogue_of(script) is None), None)


def dialogue_of(script):
    """Returns the dialogue with the card after a script, or None if a line of it has a fault."""
    dialogue = RunDialogue()
    try:
        for line in limited_lines(script):
            words = words_of(line)
            if not asks_nothing(words):
                dialogue.answer(words)
    except Fault:
        return None
    return dialogue if dialogue.is_open else None


class Commands:
    """A card, and the commands that wait for their moments."""

    def __init__(self, timed, tick):
        self.dialogue = dialogue_of(timed.before)
        self.waiting = [(-(-nanoseconds // tick), line) for nanoseconds, line in timed.later]

    @property
    def card(self):
        return self.dialogue.card

    def answer(self, line):
        """Returns the answer to a command between cells."""
        words = words_of(line)
        try:
            if words[0] in ENDS and len(words) == 3:
                return self.ended(words)
            if words[0] not in TAKEN:
                raise Fault("script", "BadLine")
            return self.dialogue.answer(words)
        except Fault as fault:
            return fault.line()

    def ended(self, words):
        """Returns the answer to a command that ends a journal: the counts of the connection before it."""
        vc = self.dialogue.vc(*words[1:])
        connection = self.card.connections.get(vc)
        counts = connection and [connection.judged[verdict] for verdict in VERDICTS]
        given = self.dialogue.answer(words)
        name = given.split(" ")[1]
        return " ".join([ENDS[words[0]], name, *map(str, counts)])

    def due(self, moment):
        """Carries out the commands whose moment has come, and returns the moment and the answer of each."""
        carried = []
        while self.waiting and self.waiting[0][0] <= moment:
            at, line = self.waiting.pop(0)
            carried.append((at, self.answer(line)))
        return carried

    def comment(self):
        """Returns the comment about commands whose moment no cell reached."""
        if not self.waiting:
            return ""
        return f"# not carried out: {len(self.waiting)} commands, the first at moment {self.waiting[0][0]}\n"
