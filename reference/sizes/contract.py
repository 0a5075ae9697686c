"""A contract as it is on paper, from the words of a line."""
import re
from fractions import Fraction

BITS_OF_A_CELL = 53 * 8
MOST = 2 ** 64 - 1
NANOSECONDS = {b"ns": 1, b"us": 10 ** 3, b"ms": 10 ** 6, b"s": 10 ** 9}
NUMBERS = {"BadLine": 1, "BadNumber": 2, "ZeroRate": 3, "TooFast": 4, "ZeroMbs": 5, "PeakSlower": 6, "TooLarge": 7}


class SizeFault(Exception):
    """A line has no answer but a fault line."""

    def shown(self):
        """Returns the fault line."""
        name = self.args[0]
        return f"fault size {NUMBERS[name]} {name}"


def whole(digits):
    """Returns the number of one or more digits."""
    if not re.fullmatch(rb"[0-9]+", digits) or int(digits) > MOST:
        raise SizeFault("BadNumber")
    return int(digits)


def time(word):
    """Returns the nanoseconds of a time."""
    found = re.fullmatch(rb"([0-9]+)(ns|us|ms|s)", word)
    if not found:
        raise SizeFault("BadNumber")
    nanoseconds = whole(found[1]) * NANOSECONDS[found[2]]
    if nanoseconds > MOST:
        raise SizeFault("BadNumber")
    return nanoseconds


def rate(word):
    """Returns a rate in cells a second."""
    found = re.fullmatch(rb"([0-9]+)(?:\.([0-9]{1,6}))?Mbit/s", word)
    if not found:
        return Fraction(whole(word))
    bits = whole(found[1]) * 10 ** 6 + int((found[2] or b"").ljust(6, b"0"))
    if bits > MOST:
        raise SizeFault("BadNumber")
    return Fraction(bits, BITS_OF_A_CELL)


FIGURES = {"pcr": rate, "scr": rate, "mbs": whole, "cdvt": time, "tick": time}
FORMS = {b"cbr1": ("pcr", "cdvt", "tick"), **{b"vbr%d" % n: ("pcr", "scr", "mbs", "cdvt", "tick") for n in (1, 2, 3)}}


def read_contract(words):
    """Returns the kind and the figures by their names. The first fault in the order of the words counts."""
    if words[0] not in FORMS:
        raise SizeFault("BadLine")
    figures, left = {}, words[1:]
    for name in FORMS[words[0]]:
        if len(left) < 2 or left[0] != name.encode():
            raise SizeFault("BadLine")
        figures[name], left = FIGURES[name](left[1]), left[2:]
    if left:
        raise SizeFault("BadLine")
    return words[0].decode(), figures
