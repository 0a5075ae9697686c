"""Where `upc-lab explain` finds the faults of a script: their lines and columns, but no sentences. And its hints, whole."""
import re

from policer.cell import has_paths
from policer.faults import Fault
from policer.run_dialogue import COMMANDS, RunDialogue, card_of
from policer.script_words import connection_of, contract_of, contracts_of, number_of, program_of
from policer.text_lines import asks_nothing, limited_lines

WORDS = re.compile(rb"[^ \t]+")

# Words that complete each command.
GOOD = {
    b"card": [b"1", b"1", b"1", b"1"],
    b"cell": [b"0", b"00"],
    b"load": [b"00"],
    b"retire": [b"p1"],
    b"setup": [b"0", b"0", b"p1", b"cbr1:1/1"],
    b"reload": [b"0", b"0", b"p1"],
    b"release": [b"0", b"0"],
    b"cut": [b"0", b"0"],
}

# The place of the word for a channel in each command that has one.
CHANNEL_PLACE = 2

# The word, from 0, that a fault is about; -1 is the last one.
BLAMED = {
    ("script", "BadHex"): -1,
    ("cell", "WrongLength"): -1,
    ("shape", "Programs"): 1,
    ("shape", "Lines"): 2,
    ("shape", "Ports"): 3,
    ("shape", "Journal"): 4,
    ("desk", "NoConnection"): 1,
    ("desk", "Taken"): 1,
    ("desk", "NoLine"): 0,
    ("desk", "InUse"): 1,
    ("desk", "ProgramsFull"): 0,
    ("arrive", "NoConnection"): 2,
    ("arrive", "MomentBack"): 1,
    ("arrive", "MomentTooLate"): 1,
    ("arrive", "JournalFull"): 0,
}


def is_command(words, side):
    """Returns whether the words spell a command on a card of this side, whatever the card then answers."""
    command, *rest = words
    try:
        if command == b"setup":
            contracts_of(rest[3:])
        elif (command, len(rest)) not in COMMANDS:
            return False
        if command in (b"setup", b"reload", b"release", b"cut"):
            connection_of(*rest[:2], side)
        if command in (b"setup", b"reload"):
            program_of(rest[2])
        if command == b"retire":
            program_of(rest[0])
        if command == b"cell":
            number_of(rest[0])
    except Fault:
        return False
    return True


def opens_card(words, _side):
    """Returns whether the words spell the line of a card, perhaps of a shape that no card has."""
    try:
        card_of(words)
    except Fault as fault:
        return fault.family == "shape"
    return True


def good_words(command, side):
    """Returns words that complete a command on a card of this side."""
    words = list(GOOD.get(command, []))
    if has_paths(side) and command in (b"setup", b"reload", b"release", b"cut"):
        words[CHANNEL_PLACE - 1] = b"*"
    return words


def wrong_place(words, side, is_line):
    """Returns the first word that no further words make right, or None if the line ends too early."""
    good = good_words(words[0], side)
    for place in range(len(words)):
        begun = words[: place + 1]
        if not is_line(begun + good[place:], side):
            return place
    return None


def blamed_place(fault, words, side):
    """Returns the place of the word that a fault is about, or None."""
    if (fault.family, fault.name) == ("script", "BadLine"):
        return wrong_place(words, side, is_command)
    if (fault.family, fault.name) == ("script", "NoCard"):
        return wrong_place(words, side, opens_card)
    if fault.family in ("decode", "verify"):
        return 1
    if fault.family == "gcra":
        limits = [min(increment < 1, 1) or max(increment, limit) > 2**48 for word in words[4:] for increment, limit in contract_of(word)[1]]
        counts = [len(contract_of(word)[1]) for word in words[4:]]
        return next(4 + at for at in range(len(counts)) if any(limits[sum(counts[:at]) : sum(counts[: at + 1])]))
    if (fault.family, fault.name) == ("desk", "NoProgram"):
        return 1 if words[0] == b"retire" else 3
    return BLAMED[fault.family, fault.name]


def may_name(instruction, count):
    """Returns whether an instruction may return the number of one of this many contracts."""
    return instruction.mnemonic == "ret" and (instruction.form == "a" or 1 <= instruction.k <= count)


def hint_of(program, count):
    """Returns the hint about a program under this many contracts, or None."""
    if any(may_name(instruction, count) for instruction in program):
        return None
    numbers = "1, the number of the contract" if count == 1 else "1 to %d, the numbers of the contracts" % count
    return "this program never returns %s, so each cell of the connection is refused" % numbers


# How an explanation ends if the fault may come from an earlier line that was not carried out, and the faults that may.
FOLLOWS = "; an earlier line with a fault may be the reason"
MAY_FOLLOW = ("fault desk 1 ", "fault desk 2 ", "fault arrive 1 ")


class Explained:
    """The wanted lines: each is whole, or has a beginning and an end."""

    def __init__(self):
        self.lines, self.is_faulty = [], False

    def add_whole(self, line):
        """Adds a line."""
        self.lines.append((line, None))

    def add_fault(self, fault, start):
        """Adds a fault line, and how its explanation begins and ends."""
        self.add_whole(fault)
        self.lines.append((start, FOLLOWS if self.is_faulty and fault.startswith(MAY_FOLLOW) else ""))
        self.is_faulty = True


def place_of(number, found, place):
    """Returns the line and the column of the word at a place, if there is one."""
    column = "" if place is None else " column %d" % (found[place].start() + 1)
    return "line %d%s: " % (number, column)


def add_answer(explained, dialogue, number, found):
    """Adds the lines about a line with these words."""
    words = [it.group() for it in found]
    side = dialogue.card.side if dialogue.is_open else "uni"
    try:
        dialogue.answer(words)
    except Fault as fault:
        explained.add_fault(fault.line(), place_of(number, found, blamed_place(fault, words, side)))
        return
    if words[0] == b"setup":
        hint = hint_of(dialogue.card.programs[program_of(words[3])], len(words) - 4)
        if hint:
            explained.add_whole("hint " + place_of(number, found, 3) + hint)


def explained_script(text):
    """Returns the wanted lines of a script."""
    explained, dialogue, number = Explained(), RunDialogue(), 0
    try:
        for number, line in enumerate(limited_lines(text), start=1):
            found = list(WORDS.finditer(line))
            if asks_nothing([it.group() for it in found]):
                continue
            add_answer(explained, dialogue, number, found)
            if not dialogue.is_open:
                return explained
    except Fault as fault:
        explained.add_fault(fault.line(), "a line has at most ")
        return explained
    if not dialogue.is_open:
        explained.add_fault("fault script 2 NoCard", "no line opens a card")
    elif not explained.is_faulty:
        explained.add_whole("no fault in %d line%s" % (number, "" if number == 1 else "s"))
    return explained


def is_wanted(line, want, end):
    """Returns whether a line is the wanted one, or begins so, goes on with a sentence and has this end."""
    if end is None:
        return line == want.encode()
    if line.endswith(FOLLOWS.encode()) != bool(end):
        return False
    return line.startswith(want.encode()) and len(line) > len(want) + len(end) + 8


def wrong_script_explanation(text, ours):
    """Returns what is wrong with the answer to a script, its status and messages, or None."""
    explained = explained_script(text)
    status = int(explained.is_faulty)
    if ours[1:] != (status, b""):
        return f"status {ours[1:]} in place of {status}"
    lines = ours[0].split(b"\n")
    wanted = explained.lines + [("", None)]
    if len(lines) != len(wanted):
        return f"{len(lines)} lines in place of {len(wanted)}"
    for line, (want, end) in zip(lines, wanted):
        if not is_wanted(line, want, end):
            return f"{line} in place of {want}"
    return None
