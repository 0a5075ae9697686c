"""What inputs have reached: each kind of answer and fault, each verdict of each contract, each instruction."""

from collections import Counter

from policer.contract import Contract
from policer.faults import NUMBERS
from policer.instructions import BRANCHES, TABLE
from policer.machine import Machine

ANSWERS = {
    "check": ["accepted"],
    "eval": ["accepted", "value"],
    "run": ["ready", "loaded", "retired", "set", "reloaded", "cut", "released", "pass", "tag", "discard", "refuse"],
    "ports": ["ready", "loaded", "set", "pass", "tag", "discard", "refuse", "totals"],
}

FAMILIES = {
    "check": {"script": ["TooLong"], "asm": None, "verify": None},
    "eval": {"script": ["BadLine", "BadHex", "NoProgram", "TooLong"], "cell": None, "decode": None, "verify": None},
    "run": {
        "script": ["BadLine", "NoCard", "BadHex", "TooLong"],
        "cell": None,
        "decode": None,
        "verify": None,
        "shape": None,
        "gcra": None,
        "desk": None,
        "arrive": None,
    },
    "ports": {"script": ["BadLine", "NoCard", "BadHex", "TooLong"], "cell": None, "shape": None, "arrive": None},
}

# What no input of this kind can reach, and why.
NEVER = {
    ("check", "fault verify 6 JumpOutside"): "a label is that of an instruction",
    ("eval", "fault verify 1 Empty"): "a word has a digit at least",
    ("run", "fault verify 1 Empty"): "a word has a digit at least",
    ("run", "fault desk 7 Exhausted"): "2^62 connections would have to be set up",
    ("verdict", "cbr1 tag 0"): "only vbr3 tags",
    ("verdict", "cbr1 tag 1"): "only vbr3 tags",
    ("verdict", "vbr1 tag 0"): "only vbr3 tags",
    ("verdict", "vbr1 tag 1"): "only vbr3 tags",
    ("verdict", "vbr2 tag 0"): "only vbr3 tags",
    ("verdict", "vbr2 tag 1"): "only vbr3 tags",
    ("verdict", "vbr3 tag 1"): "a cell with priority 1 doesn't meet the second bucket",
}


def wanted():
    """Each thing that is to be reached."""
    keys = []
    for subcommand, families in FAMILIES.items():
        keys += [(subcommand, answer) for answer in ANSWERS[subcommand]]
        for family, names in families.items():
            for name in names or NUMBERS[family]:
                keys.append((subcommand, "fault %s %d %s" % (family, NUMBERS[family][name], name)))
    for kind in ("cbr1", "vbr1", "vbr2", "vbr3"):
        for verdict in ("pass", "tag", "discard"):
            keys += [("verdict", "%s %s %d" % (kind, verdict, priority)) for priority in (0, 1)]
    for mnemonic, form in TABLE.values():
        for way in (" holds", " fails") if mnemonic in BRANCHES else ("",):
            keys.append(("machine", (mnemonic + " " + form).strip() + way))
    return keys


class Coverage:
    """Counts, while it is on, what the reference reaches."""

    def __init__(self):
        self.counts = Counter()
        self.is_on = False

    def count(self, part, name):
        if self.is_on:
            self.counts[part, name] += 1

    def note_text(self, subcommand, text):
        """Counts the answers and the faults of a text."""
        for line in text.decode("ascii").splitlines():
            words = line.split(" ")
            if words[0] == "fault":
                self.count(subcommand, " ".join(words[:4]))
            elif subcommand != "check" or words[0] == "accepted":
                self.count(subcommand, words[0])

    def watch(self):
        """From here on each judgement of a contract and each step of the machine is counted."""
        judge, step = Contract.judge, Machine.step

        def counted_judge(contract, moment, priority):
            verdict = judge(contract, moment, priority)
            self.count("verdict", "%s %s %d" % (contract.kind, verdict, priority))
            return verdict

        def counted_step(machine):
            place = machine.place
            instruction = machine.program[place]
            name = (instruction.mnemonic + " " + instruction.form).strip()
            if instruction.mnemonic not in BRANCHES:
                self.count("machine", name)
                return step(machine)
            step(machine)
            # A branch whose offsets are equal doesn't show whether its test holds.
            if instruction.jt != instruction.jf:
                holds = machine.place == place + 1 + instruction.jt
                self.count("machine", name + (" holds" if holds else " fails"))

        Contract.judge, Machine.step = counted_judge, counted_step


def table(counts, subcommands):
    """The lines of the table, and how many things were missed."""
    lines, missed = [], 0
    for key in wanted():
        if key[0] in FAMILIES and key[0] not in subcommands:
            continue
        count = counts[key]
        remark = ""
        if count == 0 and key in NEVER:
            remark = "  (never: %s)" % NEVER[key]
        elif count == 0:
            remark = "  MISSED"
            missed += 1
        lines.append("%-8s %-32s %9d%s" % (*key, count, remark))
    return lines, missed
