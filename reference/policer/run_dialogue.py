"""`upc run`: the first line with words opens a card, each later one is a command or a cell."""

from .card import Card
from .cell import HEADER_OCTETS, PATH_BITS, channel_name
from .eval_dialogue import program_of as program_in
from .faults import Fault
from .hexadecimal import cell_of
from .script_words import bad_line, connection_of, contracts_of, number_of, program_of


def card_of(words):
    """`card PROGRAMS LINES PORTS JOURNAL`, perhaps the side after it, and then perhaps `paths`."""
    side = b" ".join(words[5:]).decode("latin-1") or "uni"
    if words[0] != b"card" or len(words) < 5 or side not in PATH_BITS:
        raise Fault("script", "NoCard")
    try:
        numbers = [number_of(word) for word in words[1:5]]
    except Fault:
        raise Fault("script", "NoCard") from None
    return Card(*numbers, side)


class RunDialogue:
    """No card yet, or the card that obeys each further line. A fault of a line's words goes before one of the card."""

    def __init__(self):
        self.card = None

    @property
    def is_open(self):
        return self.card is not None

    def answer(self, words):
        """The first line opens a card; each later one is a command with as many words as it takes."""
        if not self.is_open:
            self.card = card_of(words)
            return "ready"
        command, *rest = words
        if command == b"setup":
            return self.setup(rest)
        if (command, len(rest)) not in COMMANDS:
            raise bad_line()
        return COMMANDS[command, len(rest)](self, *rest)

    def refuse_end(self):
        """What is wrong with a script that ends without a card."""
        raise Fault("script", "NoCard")

    def vc(self, path, channel):
        """The connection that two words name at the card's side."""
        return connection_of(path, channel, self.card.side)

    def name(self, vc):
        """The name of a connection."""
        path, channel = vc
        return "%d/%s" % (path, channel_name(channel, self.card.side))

    def load(self, word):
        """`load HEX`: its digits, its code and its check go before the card's room."""
        return "loaded p%d" % self.card.load(program_in(word))

    def retire(self, word):
        """`retire pN`"""
        number = program_of(word)
        self.card.retire(number)
        return "retired p%d" % number

    def setup(self, words):
        """`setup VPI VCI pN CONTRACT ..`"""
        if len(words) < 3:
            raise bad_line()
        vc = self.vc(*words[:2])
        self.card.setup(vc, program_of(words[2]), contracts_of(words[3:]))
        return "set %s" % self.name(vc)

    def reload(self, path, channel, name):
        """`reload VPI VCI pN`, whose answer names the new program"""
        vc = self.vc(path, channel)
        number = program_of(name)
        self.card.reload(vc, number)
        return "reloaded %s p%d" % (self.name(vc), number)

    def cut(self, path, channel):
        """`cut VPI VCI`"""
        vc = self.vc(path, channel)
        return "cut %s %d %d %d %d %d" % (self.name(vc), *self.card.cut(vc))

    def release(self, path, channel):
        """`release VPI VCI`"""
        vc = self.vc(path, channel)
        return "released %s %d %d %d %d %d" % (self.name(vc), *self.card.release(vc))

    def cell(self, moment, word):
        """`cell MOMENT HEX`: the answer has the header of a cell that leaves."""
        number = number_of(moment)
        vc, program, value, verdict, leaving = self.card.arrive(number, cell_of(word))
        answer = "%s %s p%d %d" % (verdict, self.name(vc), program, value)
        if verdict in ("pass", "tag"):
            answer += " " + leaving[:HEADER_OCTETS].hex()
        return answer


# Each command but `setup`, with the number of the words after it.
COMMANDS = {
    (b"load", 1): RunDialogue.load,
    (b"retire", 1): RunDialogue.retire,
    (b"reload", 3): RunDialogue.reload,
    (b"cut", 2): RunDialogue.cut,
    (b"release", 2): RunDialogue.release,
    (b"cell", 2): RunDialogue.cell,
}
