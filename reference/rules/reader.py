"""Reads a text of rules as docs/RULES.md has it."""
import re

from policer.text_lines import source_lines

TOKEN = re.compile(rb"[A-Za-z0-9_]+|->|\.\.|&&|\|\||==|!=|<=|>=|.", re.DOTALL)
NAMES = (
    "BadLine", "BadNumber", "TooLarge", "OutsideCell", "AfterOtherwise", "Unbalanced", "TooDeep", "TooLong", "NoMemory", "UnknownName", "NameTaken",
)
# Other spellings of words and signs.
SYNONYMS = {
    b"==": b"=", b"&&": b"and", b"||": b"or", b"!": b"not", b"drop": b"refuse",
    b"oamf4sc": b"oamf4s", b"oamf4ec": b"oamf4e", b"metac": b"metasig", b"bcc": b"bcast", b"sc": b"signal", b"ilmic": b"ilmi",
}
# Words that are tests, by the numbers of the VCI and the PTI that they hold of.
CHANNELS = {"oamf4": (3, 4), "oamf4s": (3,), "oamf4e": (4,), "metasig": (1,), "bcast": (2,), "signal": (5,), "ilmi": (16,)}
TYPES = {"user": (0, 1, 2, 3), "oamf5": (4, 5), "oamf5s": (4,), "oamf5e": (5,), "rm": (6,)}
SIZES = {b"octet": 1, b"half": 2, b"word": 4}
# Words that are neither tests nor other spellings.
WORDS = {
    b"any", b"oam", b"idle", b"not", b"and", b"or", b"otherwise", b"refuse", b"side", b"uni", b"nni", b"define", b"contract", b"gfc", b"vpi", b"vci", b"pti",
    b"clp", b"octet", b"half", b"word",
}
WORDS |= {it.encode() for it in (*CHANNELS, *TYPES)} | {it for it in SYNONYMS if it.isalnum()}
# What no token is: the number of a contract begins with this, and a definition ends with that.
NUMBER, END = b"=>", b""
# What is read in place of a name whose tokens are more than names may add.
OVER = b"..."
MOST_DEEP = 64
MOST_COMPARISONS = 4096
MOST_NAMES = 4096
MOST_TOKENS = 4096
MOST_ADDED = 262144


class Fault(Exception):
    """The fault of a text: its name, line and column."""

    def __init__(self, name, line, column):
        super().__init__(name)
        self.name, self.line, self.column = name, line, column

    def shown(self):
        """Returns the fault line."""
        return f"fault rules {NAMES.index(self.name) + 1} {self.name} {self.line} {self.column}\n"


def tokens_of(line):
    """Returns the tokens of a line, each with its column from 1, and the column after the last."""
    found, at = [], 0
    while at < len(line):
        if line[at] in b" \t":
            at += 1
            continue
        if line[at] == ord("#"):
            break
        token = TOKEN.match(line, at).group()
        found.append((token, at + 1))
        at += len(token)
    after = found[-1][1] + len(found[-1][0]) if found else 1
    return found, after


def depth_after(depth, token):
    """Returns how many parentheses are open after a token, where this many were open before it. No test goes on after `->`, a `-`, `;` or a brace."""
    if token in (b"->", b"-", b";", b"{", b"}"):
        return 0
    return max(depth + {b"(": 1, b")": -1}.get(token, 0), 0)


class Written:
    """A line of rules as it is written: the place where it begins, its tokens, each with its place, and the place after the last. A place is a
    line and a column from 1."""

    def __init__(self, begin):
        self.begin, self.tokens, self.after = begin, [], begin

    def add(self, token, place):
        """Adds a token at a place."""
        self.tokens.append((token, place))
        self.after = (place[0], place[1] + len(token))

    def place(self):
        """Returns the place that is printed: the line, and the column of the first token, which is 0 where the source line begins with this line
        of rules."""
        return (self.begin[0], 0 if self.begin[1] == 1 else self.tokens[0][1][1])


def rule_lines(lines):
    """Returns the lines of rules of source lines, in order. One goes on over the end of a source line inside parentheses, and ends after `;` and
    after braces, and before `}`."""
    found, depth = [], 0
    for number, line in enumerate(lines, 1):
        if depth == 0:
            found.append(Written((number, 1)))
        for token, column in tokens_of(line)[0]:
            place = (number, column)
            if token == b"}" and found[-1].begin != place:
                found.append(Written(place))
            if token != b";":
                found[-1].add(token, place)
            if token in (b";", b"{", b"}"):
                found.append(Written((number, column + 1)))
            depth = depth_after(depth, token)
    return found


def place_words(place):
    """Returns a place as it is printed."""
    return f"{place[0]}:{place[1]}" if place[1] else f"{place[0]}"


def place_of(words):
    """Returns the place that is printed so."""
    line, _, column = words.partition(":")
    return int(line), int(column or 0)


def is_word(token):
    """Returns whether a token begins as a word does."""
    return re.match(rb"[A-Za-z_]", token) is not None


def test_of_word(word):
    """Returns the test that a word is, or None."""
    if word == "any":
        return ("any",)
    if word == "oam":
        return ("or", test_of_word("oamf4"), test_of_word("oamf5"))
    if word == "idle":
        return ("among", ("octets", 4, 0), None, [(1, 1)])
    if word in CHANNELS:
        return ("among", ("vci",), None, [(it, it) for it in CHANNELS[word]])
    return ("among", ("pti",), None, [(it, it) for it in TYPES[word]]) if word in TYPES else None


def number_of(token):
    """Returns the number that a token spells, or None."""
    if re.fullmatch(rb"0[xX][0-9a-fA-F]+", token):
        value = int(token, 16)
    elif re.fullmatch(rb"[0-9]+", token):
        value = int(token)
    else:
        return None
    return value if value < 2**32 else None


class Line:
    """A line of rules that is read from left to right. `tokens` has its tokens with their places, and `after` is the place after the last."""

    def __init__(self, reader, written):
        self.reader, self.written = reader, written
        self.tokens, self.after = written.tokens, written.after
        self.at = 0
        # What ends a test.
        self.ends = (b"->", b"{")
        self.comparisons = 0
        self.open = []

    def fault(self, name, place=None):
        """Stops at the present token, or at the end of the line."""
        if place is None:
            place = self.tokens[self.at][1] if self.at < len(self.tokens) else self.after
        raise Fault(name, *place)

    def peek(self):
        """Returns the present token, of several spellings the first, None at the end of the line."""
        if self.at >= len(self.tokens):
            return None
        token = self.tokens[self.at][0]
        if is_word(token) and token not in WORDS:
            self.fault("UnknownName")
        if token == OVER:
            self.fault("TooLong")
        return SYNONYMS.get(token, token)

    def expand(self):
        """Puts in place of names, from the present token on, what they mean, as long as they may add so much."""
        rest = self.tokens[self.at:]
        self.tokens[self.at:] = [(it, place) for token, place in rest for it in self.meant(token)]

    def meant(self, token):
        """Returns what is read in place of a token, and counts what a name adds."""
        if token not in self.reader.names:
            return [token]
        tokens = self.reader.names[token]
        if len(tokens) > self.reader.room:
            tokens = [OVER]
        self.reader.room = max(self.reader.room - len(tokens), 0)
        return tokens

    def take(self):
        """Returns the present token and goes on."""
        token = self.peek()
        if token is None:
            self.fault("BadLine")
        self.at += 1
        return token

    def read_number(self, most):
        """Reads a number of at most this."""
        token = self.peek()
        if token is None:
            self.fault("BadLine")
        if not token[:1].isdigit():
            self.fault("BadLine")
        value = number_of(token)
        if value is None:
            self.fault("BadNumber")
        if value > most:
            self.fault("TooLarge")
        self.at += 1
        return value

    def count(self, place=None):
        """Counts a comparison."""
        if self.comparisons >= MOST_COMPARISONS:
            self.fault("TooLong", place)
        self.comparisons += 1

    def test(self):
        """Reads a test."""
        either = self.part()
        while self.peek() == b"or":
            self.at += 1
            either = ("or", either, self.part())
        return either

    def part(self):
        """Reads what `and` puts together."""
        both = self.unit()
        while self.peek() == b"and":
            self.at += 1
            both = ("and", both, self.unit())
        return both

    def unit(self):
        """Reads a test without `and` and `or` around it."""
        token = self.peek()
        if token == b"not":
            self.at += 1
            return ("not", self.unit())
        if token == b"(":
            if self.reader.depth() + len(self.open) >= MOST_DEEP:
                self.fault("TooDeep")
            self.open.append(self.tokens[self.at][1])
            self.at += 1
            inner = self.test()
            if self.peek() in self.ends:
                self.fault("Unbalanced", self.open[0])
            if self.peek() != b")":
                self.fault("BadLine")
            self.open.pop()
            self.at += 1
            return inner
        word = test_of_word(token.decode(errors="replace")) if token else None
        if word:
            self.count()
            self.at += 1
            return word
        return self.channels() if token and token[:1].isdigit() else self.compared()

    def channels(self):
        """Reads a path and its channels."""
        path = self.read_number(4095 if self.reader.nni else 255)
        if self.peek() != b"/":
            self.fault("BadLine")
        self.at += 1
        among = ("among", ("vpi",), None, [(path, path)])
        if self.peek() == b"*":
            self.count()
            self.at += 1
            return among
        return ("and", among, ("among", ("vci",), None, self.list(65535)))

    def compared(self):
        """Reads a field and what it is compared with."""
        field, most = self.field()
        mask = None
        if self.peek() == b"&":
            self.at += 1
            mask = self.read_number(most)
        token = self.peek()
        if token in (b"=", b"!="):
            self.at += 1
            listed = ("among", field, mask, self.list(most))
            return listed if token == b"=" else ("not", listed)
        if token in (b"<", b"<=", b">", b">="):
            self.at += 1
            place = self.tokens[self.at][1] if self.at < len(self.tokens) else None
            value = self.read_number(most)
            self.count(place)
            return ("compare", field, mask, token.decode(), value)
        return ("among", field, mask, self.list(most))

    def list(self, most):
        """Reads numbers and ranges. All but a range are counted where the next token shows that they are none."""
        ranges = []
        while True:
            low = self.read_number(most)
            if self.peek() == b"..":
                self.at += 1
                place = self.tokens[self.at][1] if self.at < len(self.tokens) else None
                high = self.read_number(most)
                if high < low:
                    self.fault("TooLarge", place)
                self.count(place)
            else:
                high = low
                if self.peek() is None:
                    self.fault("BadLine")
                self.count()
            ranges.append((low, high))
            if self.peek() is None:
                self.fault("BadLine")
            if self.peek() != b",":
                return ranges
            self.at += 1

    def field(self):
        """Reads a field, and returns it with its largest number."""
        nni = self.reader.nni
        token = self.peek()
        if token is None:
            self.fault("BadLine")
        if token in SIZES:
            self.at += 1
            size = SIZES[token]
            at = self.read_number(2**32)
            if at + size > 52:
                self.at -= 1
                self.fault("OutsideCell")
            return ("octets", size, at), 2 ** (8 * size) - 1
        most = {b"gfc": 15, b"vpi": 4095 if nni else 255, b"vci": 65535, b"pti": 7, b"clp": 1}
        if token == b"gfc" and nni:
            self.fault("BadLine")
        if token not in most:
            self.fault("BadLine")
        self.at += 1
        return (token.decode(),), most[token]

    def value(self):
        """Reads the value of a rule."""
        token = self.peek()
        if token == b"refuse":
            self.at += 1
            return 0
        if token and token.startswith(NUMBER):
            self.at += 1
            return int(token[len(NUMBER):])
        return self.read_number(2**32)

    def end(self):
        """Reads the end of the line."""
        if self.peek() is not None:
            self.fault("BadLine")


def read_definition(line, tokens):
    """Reads what a name means, the rest of the line with these tokens. Returns them: a list as it stands, a test in parentheses."""
    line.ends = (END,)
    line.tokens.append((END, line.after))
    if tokens and tokens[0][:1].isdigit() and tokens[1:2] != [b"/"]:
        line.list(2**32 - 1)
        if line.peek() != END:
            line.fault("BadLine")
        return tokens
    line.test()
    if line.peek() != END:
        line.fault("Unbalanced" if line.peek() == b")" else "BadLine")
    return [b"(", *tokens, b")"]


class Reader:
    """Reads lines. `heads` has the places of the open blocks."""

    def __init__(self):
        self.nni, self.begun, self.closed = False, False, False
        self.rules, self.otherwise, self.heads = [], 0, []
        # The tokens that each name means.
        self.names = {}
        # How many tokens they may still add.
        self.room = MOST_ADDED

    def depth(self):
        """Returns how many blocks are open."""
        return len(self.heads)

    def read_line(self, written):
        """Reads a line of rules."""
        line = Line(self, written)
        if not line.tokens:
            return
        if self.closed:
            line.fault("AfterOtherwise")
        first = line.tokens[0][1]
        if line.tokens[0][0] in (b"define", b"contract"):
            self.read_name(line)
            self.begun = True
            return
        line.expand()
        token = line.peek()
        if token == b"otherwise":
            if self.heads:
                line.fault("BadLine")
            line.take()
            if line.peek() != b"->":
                line.fault("BadLine")
            line.take()
            value = line.value()
            line.end()
            self.otherwise, self.closed = value, True
        elif token == b"side":
            if self.begun:
                line.fault("BadLine")
            line.take()
            if line.peek() not in (b"uni", b"nni"):
                line.fault("BadLine")
            nni = line.take() == b"nni"
            line.end()
            self.nni = nni
        elif token == b"}":
            if not self.heads:
                line.fault("Unbalanced")
            line.take()
            line.end()
            self.heads.pop()
            self.rules.append(("end",))
        else:
            self.read_rule(line, first)
        self.begun = True

    def read_name(self, line):
        """Reads a line that gives a name."""
        if self.rules:
            line.fault("BadLine")
        kind = line.take()
        if line.at >= len(line.tokens):
            line.fault("BadLine")
        name, place = line.tokens[line.at]
        if not is_word(name):
            line.fault("BadLine")
        if name in WORDS or name in self.names:
            line.fault("NameTaken")
        if len(self.names) >= MOST_NAMES:
            line.fault("TooLong")
        line.at += 1
        if line.tokens[line.at:line.at + 1] == [] or line.tokens[line.at][0] not in (b"=", b"=="):
            line.fault("BadLine")
        line.at += 1
        line.expand()
        if kind == b"contract":
            value = line.value()
            line.end()
            self.names[name] = [NUMBER + str(value).encode()]
            return
        tokens = [token for token, _ in line.tokens[line.at:]]
        if len(tokens) > MOST_TOKENS:
            line.fault("TooLong", place)
        self.names[name] = read_definition(line, tokens)

    def read_rule(self, line, first):
        """Reads a rule or the head of a block."""
        test = line.test()
        token = line.peek()
        if token == b"->":
            line.take()
            value = line.value()
            line.end()
            self.rules.append(("rule", test, value, line.written.place()))
        elif token == b"{":
            if self.depth() >= MOST_DEEP:
                line.fault("TooDeep")
            line.take()
            line.end()
            self.rules.append(("block", test))
            self.heads.append(first)
        elif token == b")":
            line.fault("Unbalanced")
        else:
            line.fault("BadLine")


def read_rules(text):
    """Returns the reader of a text, or raises its first fault."""
    reader = Reader()
    for written in rule_lines(source_lines(text)):
        reader.read_line(written)
    if reader.heads:
        raise Fault("Unbalanced", *reader.heads[0])
    return reader
