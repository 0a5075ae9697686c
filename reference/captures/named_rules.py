"""Setups of `upc-lab police` that name files of rules in place of some of their programs."""
import os
import unicodedata

from captures.policing import tick_of
from captures.rule_column import RulesFile, escaped
from captures.rules_texts import text_of
from captures.timing import command_of, is_rules
from policer.faults import Fault
from policer.run_dialogue import card_of
from policer.text_lines import asks_nothing, without_return, words_of

# Names of files: as they are in the folder of the setup, or by a path, or with octets that the column of a rule escapes.
NAMES = [b"%d.rules", b"%d.rules", b"./%d.rules", "\xfc%d.rules".encode(), b"a\\%d.rules", b"\x7f%d.rules"]
# The program of a file that has a fault or isn't read. It is loaded by no card.
NO_PROGRAM = b"0006000000000000"


def shown(name):
    """Returns the name of a file as messages have it: escaped if it has control characters."""
    is_text = not any(unicodedata.category(it) == "Cc" for it in name.decode())
    return name if is_text else escaped(name).encode()


class Room:
    """How many programs a card may have room for, line by line of its script. Where it has none, files of rules aren't read."""

    def __init__(self):
        self.is_open, self.free, self.most = False, 0, 0

    def take(self, words):
        """Takes the words of a line."""
        if not self.is_open:
            if not asks_nothing(words):
                self.open(words)
        elif words[:1] == [b"retire"]:
            self.free = min(self.free + 1, self.most)
        elif is_rules(words):
            self.free = max(self.free - 1, 0)

    def open(self, words):
        """Takes the words of the first line. If they open no card, there is no room."""
        self.is_open = True
        try:
            self.free = self.most = card_of(words).most_programs
        except Fault:
            pass


class Setup:
    """A case whose setup names files of rules in place of some of its programs, by this chance. `comments` are those about the files, and `fault` is
    what is printed of the first one with a fault."""

    def __init__(self, program, case, random_, chance=0.6):
        self.program, self.random = program, random_
        self.comments, self.fault, self.files = b"", None, {}
        # The text of each file, and what `upc-lab rules` answers to it; and the names of the files that are read.
        self.answers, self.read = {}, set()
        room = Room()
        lines = case.script.split(b"\n")
        for number, line in enumerate(tick_of(case.script)[1].split(b"\n"), 1):
            words = words_of(without_return(line, number < len(lines)))
            if command_of(words)[:1] == [b"load"] and random_.random() < chance:
                name = self.named(number)
                words = [*words[: -len(command_of(words))], b"rules", name]
                lines[number - 1] = random_.choice([b" ", b"", b"\t"]) + random_.choice([b" ", b"  "]).join(words)
                if room.free:
                    self.note(number, name)
            room.take(command_of(words))
        self.case = case._replace(script=b"\n".join(lines), why=random_.random() < 0.5, files=self.files)

    def named(self, number):
        """Returns the name of an earlier file, or writes one."""
        if self.files and self.random.random() < 0.15:
            return self.random.choice(sorted(self.files))
        name, text = self.random.choice(NAMES) % number, text_of(self.random)
        with open(os.path.join(os.fsencode(os.path.dirname(self.program.setup)), name), "wb") as it:
            it.write(text)
        output, comments, status = self.program.ran(["rules"], text)
        self.answers[name] = text, output, comments, status
        self.files[name] = RulesFile(b"", NO_PROGRAM) if status else RulesFile(text, output.split(b"\n")[1])
        return name

    def note(self, number, name):
        """Notes what is said of a file that is read for the line of this number."""
        text, output, comments, status = self.answers[name]
        if name not in self.read:
            self.read.add(name)
            self.comments += b"".join(b"# %s: %s" % (shown(name), it[2:]) for it in comments.splitlines(keepends=True))
        if status and self.fault is None:
            _, reason = self.program.ran(["explain"], b"rules\n" + text)[0].split(b"\n", 1)
            self.fault = output + b"line %d: in the rules of `%s`: %s" % (number, name, reason)
