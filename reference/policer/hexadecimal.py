"""Words of hexadecimal digits."""

from . import cell
from .faults import Fault

DIGITS = frozenset(b"0123456789abcdefABCDEF")


def octets_of(word):
    """The octets that a word spells: an even number of digits, of either case, and nothing else."""
    if len(word) % 2 != 0 or not DIGITS.issuperset(word):
        raise Fault("script", "BadHex")
    return bytes.fromhex(word.decode("ascii"))


def cell_of(word):
    """The cell that a word spells; eight digits are a header, with a payload of zeros."""
    octets = octets_of(word)
    if len(octets) == cell.HEADER_OCTETS:
        return octets + bytes(cell.OCTETS - cell.HEADER_OCTETS)
    if len(octets) != cell.OCTETS:
        raise Fault("cell", "WrongLength", len(octets))
    return octets
