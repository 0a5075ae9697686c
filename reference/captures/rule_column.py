"""The column of `upc-lab police --why`: the rule that gave a cell its value."""
from collections import namedtuple

from rules.meaning import decision_of
from rules.reader import place_words, read_rules

# A file of rules: its text, and the digits of the program that is compiled from it.
RulesFile = namedtuple("RulesFile", "text digits")
# What the column has for a cell that no rules gave its value.
NONE = "-"


def escaped(name):
    """Returns the name of a file in printable ASCII: each other octet, and the backslash, as a backslash, `x` and two hexadecimal digits."""
    return "".join(chr(octet) if 32 <= octet < 127 and octet != ord("\\") else f"\\x{octet:02x}" for octet in name)


class NamedRules:
    """The rules of a file."""

    def __init__(self, name, text):
        self.name, self.reader = escaped(name), read_rules(text)

    def shown(self, cell, value):
        """Returns the column of a cell to which the program of these rules gave this value."""
        place, decided = decision_of(self.reader, cell)
        if decided != value:
            raise ValueError(f"the rules of {self.name} give {decided} to {cell.hex()}, and their program gives {value}")
        return f"{self.name}:{'otherwise' if place is None else place_words(place)}"


def rules_by_number(loads, files):
    """Returns the rules of each program that is compiled from a file, by its number. `loads` has for each line that loads a program the name of its
    file, or None."""
    named = {name: NamedRules(name, files[name].text) for name in set(loads) - {None}}
    return {number: named[name] for number, name in enumerate(loads, 1) if name is not None}
