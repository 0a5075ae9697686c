"""Scripts for a card: what a desk and a line may ask, with small numbers, and with numbers at the limits.

A script is written line by line beside a card of the reference that has taken the lines so far, so that lines
name what there is, or just what there isn't, and cells come just when a bucket begins to conform.
"""

from policer import run_dialogue
from policer.cell import PATH_BITS, channel_name, has_paths
from policer.decoding import encoded
from policer.faults import Fault
from policer.instructions import CODES, Instruction
from policer.text_lines import words_of

from . import cells, programs
from .numbers_at_limits import near

MOST_NUMBER = 2**64 - 1
LAST_MOMENT = 2**62
MOST_TICKS = 2**48

KINDS = ("cbr1", "vbr1", "vbr2", "vbr3")

ODD_LINES = [
    b"load", b"load 00 00", b"load 0", b"load 00", b"load xx", b"load 0006000000000001 ", b"LOAD 0006000000000001",
    b"retire", b"retire 1", b"retire p", b"retire p-1", b"retire P1", b"retire p1 p1", b"retire p0", b"retire p0001",
    b"retire p18446744073709551615", b"retire p18446744073709551616", b"retire p99999999999999999999999999999999",
    b"setup", b"setup 1 1", b"setup 1 1 p1", b"setup 1 1 cbr1:1/1", b"setup 256 1 p1 cbr1:1/1",
    b"setup 4095 1 p1 cbr1:1/1", b"setup 4096 1 p1 cbr1:1/1", b"setup 1 65535 p1 cbr1:1/1",
    b"setup 1 65536 p1 cbr1:1/1", b"setup 1 1 p1 cbr1:1", b"setup 1 1 p1 cbr1:1/1:1/1", b"setup 1 1 p1 vbr1:1/1",
    b"setup 1 1 p1 vbr2:1/1:1/1:1/1", b"setup 1 1 p1 cbr1", b"setup 1 1 p1 cbr1:", b"setup 1 1 p1 cbr1:/",
    b"setup 1 1 p1 cbr1:1/", b"setup 1 1 p1 cbr1:/1", b"setup 1 1 p1 cbr1:1//1", b"setup 1 1 p1 CBR1:1/1",
    b"setup 1 1 p1 cbr1;1/1", b"setup 1 1 p1 cbr2:1/1", b"setup 1 1 p1 vbr4:1/1:1/1", b"setup 1 1 p1 :1/1",
    b"setup 1 1 p1 cbr1:1/1 x", b"setup 1 1 p1 " + b" ".join([b"cbr1:1/1"] * 5),
    b"setup 1 1 p1 cbr1:18446744073709551615/0", b"setup 1 1 p1 cbr1:18446744073709551616/0",
    b"setup 1 1 p1 cbr1:+1/0", b"reload", b"reload 1 1", b"reload 1 1 1", b"reload 1 1 p1 p1", b"reload 300 1 p1",
    b"reload -1 1 p1", b"cut", b"cut 1", b"cut 1 1 1", b"cut 0x1 1", b"cut 256 1", b"cut 1 65536", b"release",
    b"release 1", b"release 1 1 p1", b"release 4096 0", b"Release 1 1", b"cell", b"cell 1", b"cell 1 00000000 0",
    b"cell x 00000000", b"cell -1 00000000", b"cell 18446744073709551615 00000000",
    b"cell 18446744073709551616 00000000", b"cell 18446744073709551616 0", b"cell 1 0000000", b"cell 1 000000",
    b"cell 1 0x000000", b"cell 01 00000000", b"card 1 1 1 1", b"cards", b"p1", b"\x80", b"setup 1 * p1 cbr1:1/1",
    b"setup * 1 p1 cbr1:1/1", b"setup 1 ** p1 cbr1:1/1", b"setup 1 1* p1 cbr1:1/1", b"reload 1 * p1", b"reload 1 0 p1", b"cut 1 *", b"cut 1 0",
    b"cut * *", b"cut 1 * *", b"release 1 *", b"release 1/*", b"release 256 *", b"release 1 0",
]


class Script:
    """A card line, programs, connections, and then cells and commands as they come."""

    def __init__(self, rng):
        self.rng = rng
        self.lines = []
        self.answers = run_dialogue.RunDialogue()
        self.is_large = rng.random() < 0.15
        self.moment = rng.choice((0, 0, 0, 3, rng.getrandbits(61) if self.is_large else 7))
        self.open_card()
        for _ in range(rng.choice((1, 1, 2))):
            self.add(self.load(0.03))
        for _ in range(rng.randrange(1, 5)):
            self.add(self.setup(0.1))
        for _ in range(rng.choice((0, 5, 15, 30, 60))):
            self.add(self.next_line())

    @property
    def card(self):
        """The card that has taken the lines so far."""
        return self.answers.card

    def add(self, line):
        """Adds the line, and has the reference's card take it."""
        self.lines.append(line)
        try:
            self.answers.answer(words_of(line))
        except Fault:
            pass

    def open_card(self):
        """A small card, or seldom the largest, of any side."""
        rng = self.rng
        numbers = ((1, 2, 3, 4), (1, 2, 3, 5), (1, 2, 16), (1, 3, 9, 30, 100, 65536))
        sizes = tuple(rng.choice(some) for some in numbers)
        if rng.random() < 0.03:
            sizes = (1024, 4096, 16, 65536)
        side = rng.choice(("", "", " uni", " nni", " uni paths", " nni paths"))
        self.add(("card %d %d %d %d" % sizes + side).encode())

    def next_line(self):
        """A cell as a rule, else a command, or seldom a line of another form. Full journals are often cut."""
        rng = self.rng
        if rng.random() < 0.05:
            return rng.choice(ODD_LINES)
        if rng.random() < 0.7:
            return self.cell(0.04)
        full = [vc for vc, connection in self.card.connections.items() if self.is_full(connection)]
        if full and rng.random() < 0.5:
            return ("cut " + self.words_of(rng.choice(full))).encode()
        command = rng.choices(
            (self.load, self.retire, self.setup, self.reload, self.release, self.cut), (4, 4, 6, 5, 4, 7)
        )[0]
        return command(0.25)

    def is_full(self, connection):
        """No further cell fits into the connection's journal."""
        return connection.tally()[0] == self.card.most_judged

    # What there is, and with the given likelihood what perhaps isn't there.

    def program(self, odd):
        if self.rng.random() < odd or not self.card.programs:
            number = self.rng.choice((0, 1, 2, 3, self.card.loaded, self.card.loaded + 1, MOST_NUMBER))
        else:
            number = self.rng.choice(sorted(self.card.programs))
        zeros = "0" * self.rng.choice((0, 0, 0, 0, 0, 1, 20))
        return "p%s%d" % (zeros, number)

    def vc(self, odd):
        if self.rng.random() < odd or not self.card.connections:
            return self.any_vc()
        return self.rng.choice(sorted(self.card.connections))

    def any_vc(self):
        """A path and a channel of few, so that they meet; at the limits here and there."""
        most_path = (1 << PATH_BITS[self.card.side]) - 1
        path = self.rng.choice((0, 1, 1, 2, most_path, self.rng.choice((255, 256, 4095)) if most_path > 255 else 16))
        return path, 0 if has_paths(self.card.side) else self.rng.choice((0, 5, 100, 100, 65535))

    def words_of(self, vc):
        """The words that name a connection."""
        path, channel = vc
        return "%d %s" % (path, channel_name(channel, self.card.side))

    # Commands.

    def load(self, odd):
        rng = self.rng
        if rng.random() < odd:
            program = programs.broken(rng) if rng.random() < 0.5 else programs.any_program(rng)
            octets = programs.octets_of(rng, program)
            return b"load " + (cells.digits(rng, octets) if rng.random() < 0.8 else cells.wrong(rng))
        if rng.random() < 0.2:
            return b"load " + cells.digits(rng, encoded(programs.accepted(rng, rng.randrange(2, 12))))
        return b"load " + cells.digits(rng, encoded(self.chooser()))

    def chooser(self):
        """A short program that names contracts: one for all cells, or by an octet of the cell."""
        rng = self.rng

        def one(mnemonic, form, k=0, jt=0, jf=0):
            return Instruction(CODES[mnemonic, form], jt, jf, k)

        way = rng.random()
        if way < 0.5:
            return [one("ret", "#k", rng.choice((1, 1, 1, 1, 2, 3, 4)))]
        if way < 0.55:
            return [one("ret", "#k", rng.choice((0, 5, 1 << 16, (1 << 32) - 1)))]
        if way < 0.85:
            return [one("ldb", "[k]", 4), one("ret", "a")]
        return [
            one("ldb", "[k]", 3),
            one("jset", "#k", 1, 0, 1),
            one("ret", "#k", rng.choice((1, 2))),
            one("ret", "#k", rng.choice((0, 1, 2))),
        ]

    def retire(self, odd):
        return ("retire " + self.program(odd)).encode()

    def reload(self, odd):
        return ("reload " + self.words_of(self.vc(odd)) + " " + self.program(odd)).encode()

    def release(self, odd):
        return ("release " + self.words_of(self.vc(odd))).encode()

    def cut(self, odd):
        return ("cut " + self.words_of(self.vc(odd))).encode()

    def setup(self, odd):
        vc = self.vc(0) if self.rng.random() < odd else self.any_vc()
        contracts = [self.contract(odd) for _ in range(self.rng.choice((1, 1, 2, 3, 4)))]
        return " ".join(["setup", self.words_of(vc), self.program(odd)] + contracts).encode()

    def contract(self, odd):
        kind = self.rng.choice(KINDS)
        rates = [self.rate(odd, (1, 2, 3, 5, 9))]
        if kind != "cbr1":
            rates.append(self.rate(odd, (1, 4, 5, 9, 12)))
        return ":".join([kind] + rates)

    def rate(self, odd, increments):
        """A bucket: as a rule with one of these increments and a small limit."""
        rng = self.rng
        if rng.random() < odd / 8:
            increment = rng.choice((0, 1, MOST_TICKS + 1, MOST_NUMBER))
            return "%d/%d" % (increment, rng.choice((0, MOST_TICKS + 1, MOST_NUMBER)))
        if self.is_large:
            return "%d/%d" % (
                rng.choice((MOST_TICKS, MOST_TICKS - 1, 1, rng.getrandbits(48) or 1)),
                rng.choice((MOST_TICKS, MOST_TICKS - 1, 0, rng.getrandbits(48))),
            )
        return "%d/%d" % (rng.choice(increments), rng.choice((0, 1, 2, 5, 12)))

    # Cells.

    def cell(self, odd):
        rng = self.rng
        vc = self.vc(odd)
        head = cells.header(rng, *vc, rng.choice((0, 0, 1)), self.card.side)
        if rng.random() < odd:
            word = cells.wrong(rng)
        elif rng.random() < 0.15:
            word = cells.digits(rng, head)
        else:
            word = cells.digits(rng, cells.cell(rng, head, rng.choice((0, 1, 1, 1, 1, 2, 2, 3, 4, 5))))
        return b"cell %d %s" % (self.next_moment(vc, odd), word)

    def next_moment(self, vc, odd):
        """The same moment, one soon, one when a bucket of the connection begins to conform, or an odd one."""
        rng = self.rng
        connection = self.card.connections.get(vc)
        last = connection.last_moment if connection else self.moment
        if rng.random() < odd:
            backs = (0, max(0, last - 1), last // 2)
            return rng.choice(backs + (LAST_MOMENT + 1, MOST_NUMBER, rng.choice((LAST_MOMENT, LAST_MOMENT - 1))))
        self.moment = max(self.moment, last) if self.moment <= LAST_MOMENT else last
        way = rng.random()
        if way < 0.35 and connection:
            bucket = rng.choice(rng.choice(connection.contracts).buckets)
            begins = max(last, bucket.last + bucket.level - bucket.limit)
            self.moment = max(last, near(rng, begins, LAST_MOMENT))
        elif way < 0.9:
            self.moment += rng.choice((0, 0, 1, 1, 2, 3, 5, rng.getrandbits(47) if self.is_large else 11))
        elif self.is_large and way < 0.92:
            self.moment = LAST_MOMENT - rng.randrange(3)
        return self.moment
