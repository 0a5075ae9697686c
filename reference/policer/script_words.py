"""The words of a script. A word of another form is a BadLine; one of the right form may still be refused later."""

import re

from .cell import PATH_BITS, has_paths
from .faults import Fault

MOST_NUMBER = 2**64 - 1
LAST_VCI = 65535
MOST_CONTRACTS = 4

NUMBER = re.compile(rb"0*([0-9]{0,20})")

# How many buckets each kind of contract has.
BUCKETS = {b"cbr1": 1, b"vbr1": 2, b"vbr2": 2, b"vbr3": 2}


def bad_line():
    """The fault of a word or a line of another form."""
    return Fault("script", "BadLine")


def number_of(word, most=MOST_NUMBER):
    """A number of decimal digits, of which the first ones may be zeros, that is at most this one."""
    spelled = NUMBER.fullmatch(word) if word else None
    value = int(spelled.group(1) or b"0") if spelled else most + 1
    if value > most:
        raise bad_line()
    return value


def program_of(word):
    """The number of a program's name, `pN`."""
    if not word.startswith(b"p"):
        raise bad_line()
    return number_of(word[1:])


def connection_of(path, channel, side):
    """The connection that two words name: a path that the side has, and a channel, or `*` where connections are paths."""
    return number_of(path, (1 << PATH_BITS[side]) - 1), channel_of(channel, side)


def channel_of(word, side):
    """The channel of a word."""
    if not has_paths(side):
        return number_of(word, LAST_VCI)
    if word != b"*":
        raise bad_line()
    return 0


def rate_of(word):
    """A bucket, `T/L`: its increment and its limit."""
    parts = word.split(b"/")
    if len(parts) != 2:
        raise bad_line()
    return number_of(parts[0]), number_of(parts[1])


def contract_of(word):
    """A contract: its kind, and as many buckets as that has, each after a colon."""
    kind, *rates = word.split(b":")
    if len(rates) != BUCKETS.get(kind):
        raise bad_line()
    return kind.decode("ascii"), [rate_of(rate) for rate in rates]


def contracts_of(words):
    """One to four contracts."""
    if not 1 <= len(words) <= MOST_CONTRACTS:
        raise bad_line()
    return [contract_of(word) for word in words]
