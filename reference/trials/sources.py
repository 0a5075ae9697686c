"""Sources in assembly: how a program may be spelled, and what is no source."""

from policer.instructions import BRANCHES, targets

from .numbers_at_limits import word

NAMES = ["a", "x", "M", "len", "ld", "ret", "jeq", "neg", "_", "_0", "L1", "l1", "end", "out", "x0", "Ab_9"]
INVERSES = {"jeq": ("jne", "jneq"), "jge": ("jlt",), "jgt": ("jle",)}

# Lines that are none of the grammar, or nearly none.
ODD_LINES = [
    "ld", "ld #", "ld [x]", "ld [x + 1", "ld [1 + x]", "ld M[x]", "ld #x", "ld x", "ld a", "LD #1", "ld #Len",
    "ldb #1", "ldh M[1]", "ldxb #1", "ldx [1]", "ldx 4*([1]&0xf)", "ldx 5*([1]&0xf)", "ldxb 4*([1]&0xe)",
    "ldxb 0x4 * ( [ 0 ] & 15 )", "ldx 04*([1]&0x0f)", "ldb 4*([1]&0xf)", "ld 4*([1]&0xf)", "st [1]", "st #1",
    "st m[1]", "stx M[1] 2", "stx M 1", "add", "add a", "add M[1]", "add #-1", "add # - 0", "add #--1", "add #+1",
    "sub #-4294967295", "and #-", "jeq #1", "jeq #1,", "jeq #1, 2", "jeq #1 a", "jeq #1, a,", "jeq a, a",
    "jeq #1, a, b, c", "jne #1, a, b", "jneq x", "jlt #1", "jle x, q", "ja", "ja #1", "ja 1", "jmp q", "jmp q, q",
    "ret", "ret x", "ret #", "ret 1", "ret #-1", "ret A", "neg a", "neg #1", "tax x", "txa,", ":", "1:", "a b:",
    "a:: neg", ": neg", "neg: neg: neg", "@", "neg @", "ld #1 ; @", "\x0b", "neg\x0c", "\x80neg", "ldi #1", "ldxi #1",
    "ld %x", "ld [0b1]", "ld #09", "ld #0x", "ld #0X", "ld #0xg", "ld #1a", "ld #1_0", "ld #4294967295",
    "ld #4294967296", "ld #0xffffffff", "ld #0x100000000", "ld #0x0000000000ffffffff", "ld #00000000000000000001",
    "ld #99999999999999999999", "9: neg", "0a: neg", "neg 5g", "@ 5g", "ld #1#2", "ld#1", "ld[0]", "ret#1", "reta",
    "jeq#1,a", "ld #len len", "ldx #length", "ld #len:", "/* */", "neg /* */", "\r", "neg \r", "\rneg", "neg\r\r",
    "a:", "a: neg", "x: ja x", "q : ret a", "M: ld M[0]",
]


# Jumps to `far`, and jumps that have no offset or nearly none.
FAR_JUMPS = ["jeq #%d, far, near", "jset x, near, far", "jne #%d, far", "ja far", "jgt #%d, far", "jle x, far"]
ODD_JUMPS = ["ja up", "jeq #1, down, up", "jeq #1, up, lost", "jlt x, up", "here: ja here", "jeq x, down, lost"]


def stays_inside(program):
    """All targets of jumps are places of the program."""
    return all(target < len(program) for place, one in enumerate(program) for target in targets(one, place))


class Speller:
    """The words of a source: names of places, numbers, and the blanks between tokens."""

    def __init__(self, rng, program):
        self.rng = rng
        self.blanks = rng.choice(("", "", " ", "\t", " \t "))
        self.names = self.names_of(program)
        self.is_astray = rng.random() < 0.1

    def names_of(self, program):
        """A name for each place."""
        names = ["L%d" % place for place in range(len(program))]
        if self.rng.random() < 0.4:
            places = self.rng.sample(range(len(program)), min(len(program), 6))
            for place, name in zip(places, self.rng.sample(NAMES, 6)):
                if name not in names:
                    names[place] = name
        return names

    def target(self, place):
        """The name of a place, or here and there another one."""
        if self.is_astray and self.rng.random() < 0.3:
            return self.rng.choice(self.names + ["nowhere"])
        return self.names[place]

    def blank(self, least=""):
        """Blanks between two tokens: as a rule as few as possible: one if they would run together without it."""
        if self.rng.random() < 0.15:
            return self.rng.choice((" ", "\t", "  ")) if least or self.rng.random() < 0.5 else self.blanks
        return least

    def number(self, value):
        """A number in decimal or hexadecimal, seldom after zeros."""
        way = self.rng.random()
        if way < 0.6:
            return str(value)
        if way < 0.8:
            digits = "%x" % value
            if self.rng.random() < 0.3:
                digits = digits.upper()
            return self.rng.choice(("0x", "0X")) + "0" * self.rng.choice((0, 0, 1, 9)) + digits
        return "0" * self.rng.choice((0, 1, 12)) + str(value)

    def constant(self, value):
        """`#k`, or seldom `#-k`."""
        if self.rng.random() < 0.1:
            negative = 0 if value == 0 else 2**32 - value
            return "#" + self.blank() + "-" + self.blank() + self.number(negative)
        return "#" + self.blank() + self.number(value)

    def joined(self, *tokens):
        """The tokens with perhaps a blank after each."""
        return "".join(token + self.blank() for token in tokens)

    def instruction(self, one, place):
        """The spelling of an instruction at a place."""
        head = one.mnemonic + self.blank(" ")
        form = one.form
        if one.mnemonic in BRANCHES:
            return self.branch(one, place)
        if form == "L":
            return self.rng.choice(("ja", "jmp")) + self.blank(" ") + self.target(place + 1 + one.k)
        if form == "4*([k]&0xf)":
            return self.rng.choice(("ldx", "ldxb")) + self.blank(" ") + self.header(one.k)
        if form == "[k]":
            return head + self.joined("[", self.number(one.k), "]")
        if form == "[x+k]":
            return head + self.joined("[", "x", "+", self.number(one.k), "]")
        if form == "M[k]":
            return head + self.joined("M", "[", self.number(one.k), "]")
        if form == "#len":
            return head + self.joined("#", "len")
        if form == "#k":
            return head + self.constant(one.k)
        return (head + form).rstrip() if form else one.mnemonic

    def header(self, k):
        """`4*([k]&0xf)`, with both numbers in some spelling."""
        four = self.rng.choice(("4", "4", "0x4", "04"))
        fifteen = self.rng.choice(("0xf", "0xf", "15", "0XF", "0x0f"))
        return self.joined(four, "*", "(", "[", self.number(k), "]", "&", fifteen, ")")

    def branch(self, one, place):
        """A branch with both labels, with one, or by its opposite."""
        operand = "x" if one.form == "x" else self.constant(one.k)
        on_true = self.target(place + 1 + one.jt)
        on_false = self.target(place + 1 + one.jf)
        comma = self.blank() + "," + self.blank(" ")
        if one.jt == 0 and one.mnemonic in INVERSES and self.rng.random() < 0.6:
            return self.rng.choice(INVERSES[one.mnemonic]) + self.blank(" ") + operand + comma + on_false
        head = one.mnemonic + self.blank(" ") + operand + comma + on_true
        if one.jf == 0 and self.rng.random() < 0.6:
            return head
        return head + comma + on_false


def source(rng, program):
    """A source that means the program, often with a line more that may be wrong."""
    speller = Speller(rng, program)
    needed = {target for place, one in enumerate(program) for target in targets(one, place)}
    labels_all = rng.random() < 0.2
    lines = []
    for place, one in enumerate(program):
        lines += instruction_lines(rng, speller, one, place, labels_all or place in needed)
    if rng.random() < 0.35:
        lines.insert(rng.randrange(len(lines) + 1), odd_line(rng, lines))
    return joined(rng, lines)


def instruction_lines(rng, speller, one, place, is_labelled):
    """A label, on its line or alone, and an instruction, with remarks here and there."""
    lines = []
    label = speller.names[place] + speller.blank() + ":" if is_labelled else ""
    if label and rng.random() < 0.2:
        lines.append(label)
        label = ""
    if rng.random() < 0.04:
        lines.append(rng.choice(("", " ", "; a remark", "\t;;", "extra%d:" % place)))
    remark = rng.choice(("", "", "", "", " ; why", ";", "\t; 9x @ \x80"))
    head = speller.blank() + label + speller.blank(" " if label else "")
    lines.append(head + speller.instruction(one, place) + remark)
    return lines


def odd_line(rng, lines):
    """A line that may be none of the grammar, name an unknown label, or have a label again."""
    if rng.random() < 0.75:
        return rng.choice(ODD_LINES)
    line = rng.choice(lines)
    return line if rng.random() < 0.5 else line.split(":")[0] + ":"


def joined(rng, lines):
    """The lines as octets, with ends of lines of both kinds."""
    end = "\r\n" if rng.random() < 0.15 else "\n"
    last = rng.choice((end, end, end, "", "\r"))
    return (end.join(lines) + last).encode("latin-1")


def soup(rng):
    """Lines of any tokens, or lines that are nearly right."""
    tokens = NAMES + ["#", "[", "]", "+", "-", "*", "(", ")", "&", ",", ":", "st", "M", "add", "jlt", "ja", "4", "15"]
    lines = []
    for _ in range(rng.randrange(1, 8)):
        if rng.random() < 0.5:
            lines.append(rng.choice(ODD_LINES))
        else:
            lines.append(rng.choice(("", " ")).join(rng.choice(tokens) for _ in range(rng.randrange(1, 7))))
    return joined(rng, lines + rng.choice(([], ["ret #1"], ["ret a"])))


def far(rng):
    """Jumps about the greatest offset of a branch, backward ones, labels at the end and labels that aren't there."""
    way = rng.random()
    if way < 0.45:
        between = rng.choice((254, 255, 256, 257, 300))
        jump = rng.choice(FAR_JUMPS)
        first = jump % word(rng) if "%" in jump else jump
        lines = ["ld [0]", first, "near: neg"] + ["tax"] * (between - 1) + ["far: ret a"]
    elif way < 0.75:
        lines = ["up: ld #1", rng.choice(ODD_JUMPS), "down: ret a"]
    elif way < 0.9:
        lines = ["ld #1", "jmp end", "ret a", "end:"] + rng.choice(([], ["; end"], ["more:"], ["ret #0"]))
    else:
        lines = ["jge #1, lost, lost", rng.choice(("ret a", "lost: ret a", "lost:"))]
    return joined(rng, lines)
