"""Which cells of a capture count, and at which moments; the comments about the records that were passed over."""
from collections import namedtuple

from captures.formats import ENTRIES, Block, Broken, Refused
from captures.reading import OtherType, records_of

# A cell that counts: the number of its record, its moment in ticks, and its octets.
Counted = namedtuple("Counted", "number moment cell")

# Why records are passed over that are of a type with cells, in the order of the comments.
REASONS = {
    "errored": "received with an error",
    "cut short": "fewer than 52 octets of a cell",
    "back": "a time before that of an earlier cell",
    "other link": "another link",
}


# The blocks of each kind, and the marks of records, in the order of the comments.
BLOCKS = {3: "simple packets", 2: "obsolete packets", "other link": "packets of another link type"}
MARKS = {
    "losses": "with losses before them",
    "truncated": "cut off by the card",
    "lost octet": "with a lost octet",
    "corrected header": "with a corrected header",
    "wrong CRC-10": "with a wrong CRC-10",
}


class Capture:
    """The cells of a capture that count, for a tick in nanoseconds and the word of a link or None, by the times of records or of their packets."""

    def __init__(self, octets, tick, link, by_packet=False):
        self.tick = tick
        self.asked = link
        # The numbers of the records that were passed over, by the type that holds no cell, and by reason.
        self.other_types = {}
        self.passed = {reason: [] for reason in REASONS}
        # The places of the blocks of each kind, the types and places of those of unknown types, and the records with each mark.
        self.blocks = {kind: [] for kind in BLOCKS}
        self.unknown = []
        self.marks = {mark: [] for mark in MARKS}
        self.fault = None
        # The line about a file that isn't read.
        self.refused = None
        # The line about a cell of a second link, if none was asked for. The reading ends there.
        self.several = None
        self.cells = []
        try:
            self.read(records_of(octets, by_packet))
        except Refused as fault:
            self.refused = f"fault file {fault}\n"
        except Broken as fault:
            self.fault = f"fault capture {fault.why} {fault.place}\n"

    def read(self, records):
        """Sorts the records into those whose cells count and those that are passed over."""
        begun, chosen, latest = None, self.asked, 0
        for record in records:
            if isinstance(record, Block):
                self.pass_block(record)
                continue
            self.note(record)
            if record.cell is None:
                continue
            begun = record.time if begun is None else begun
            latest = max(latest, begun)
            if chosen is None:
                chosen = record.link
            if record.link != chosen:
                if self.asked is None:
                    self.several = f"fault link 1 Several {chosen} {record.link}\n"
                    return
                self.passed["other link"].append(record.number)
            elif record.time < latest:
                self.passed["back"].append(record.number)
            else:
                latest = record.time
                moment = ((record.time - begun) * 10**9 + 2**31 * self.tick) // (2**32 * self.tick)
                self.cells.append(Counted(record.number, moment, record.cell))

    def note(self, record):
        """Notes the marks of a record, and why it has no cell."""
        for mark in record.marks:
            self.marks[mark].append(record.number)
        if isinstance(record.reason, OtherType):
            self.other_types.setdefault(record.reason.kind, []).append(record.number)
        elif record.reason:
            self.passed[record.reason].append(record.number)

    def pass_block(self, block):
        """Notes a block that has no record."""
        if block.what in self.blocks:
            self.blocks[block.what].append(block.place)
        elif block.what not in ENTRIES:
            self.unknown.append(block)

    def closing(self):
        """Returns the comments, and the fault if there is one."""
        why_passed = [(f"type {kind}, not ATM", numbers) for kind, numbers in sorted(self.other_types.items())]
        why_passed += [(why, self.passed[reason]) for reason, why in REASONS.items()]
        lines = [
            f"# {len(numbers)} passed over: {why}; first record {numbers[0]}\n" for why, numbers in why_passed if numbers
        ]
        lines += [f"# {len(self.blocks[kind])} passed over: {why}; first at octet {self.blocks[kind][0]}\n" for kind, why in BLOCKS.items() if self.blocks[kind]]
        if self.unknown:
            first = self.unknown[0]
            lines.append(f"# {len(self.unknown)} passed over: blocks of unknown types, the first of type {first.what}; first at octet {first.place}\n")
        lines += [f"# {len(self.marks[mark])} {what}; first record {self.marks[mark][0]}\n" for mark, what in MARKS.items() if self.marks[mark]]
        return "".join(lines) + (self.fault or "")
