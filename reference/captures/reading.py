"""The records of a capture, and the cells in them."""
import struct
from collections import namedtuple

from captures import formats

HEADER = 16
EXTENSION = 8
CELL = 52
ATM, MC_ATM = 3, 7
# The octets of a multi-channel header, by the types of record that hold cells.
CHANNEL = {ATM: 0, MC_ATM: 4}
# The marks in a multi-channel header, from bit 24 on.
CHANNEL_MARKS = ["lost octet", "corrected header", "wrong CRC-10"]
# The bit of a type that says that another extension header follows.
MORE = 0x80
# The flags of a record that was received or stored with an error.
ERRORS = 0x30

# A record: its number from 1, the word of its link, its time in units of 2^-32 seconds, its cell or None, why it holds none or None, its marks, and
# how many records were lost before it, if it is of a type with cells.
Record = namedtuple("Record", "number link time cell reason marks losses")
# The reason that a record is of a type that holds no cell.
OtherType = namedtuple("OtherType", "kind")


def content_of(octets):
    """Returns the cell of a record, and why it holds none, and its multi-channel header."""
    kind = octets[8] & ~MORE
    if kind not in CHANNEL:
        return None, OtherType(kind), b""
    if octets[9] & ERRORS:
        return None, "errored", b""
    place, has_more = HEADER, octets[8] & MORE
    while has_more:
        has_more = place < len(octets) and octets[place] & MORE
        place += EXTENSION
    channel = octets[place : place + CHANNEL[kind]]
    place += CHANNEL[kind]
    came = struct.unpack_from(">H", octets, 14)[0]
    cell = octets[place : place + min(came, CELL)]
    return (cell, None, channel) if len(cell) == CELL else (None, "cut short", b"")


def link_of(packet, flags, channel):
    """Returns the word of a link."""
    word = str(flags & 3 | (flags & 0x40) >> 4)
    if packet is not None:
        word = f"{packet}:{word}"
    if channel:
        word += f"/{channel[1] & 15}/{(channel[2] & 7) << 8 | channel[3]}"
    return word


def marks_of(octets, channel):
    """Returns the marks of a record, from its first header and its multi-channel header."""
    if octets[8] & ~MORE not in CHANNEL:
        return set()
    marks = {"losses"} if octets[12:14] != bytes(2) else set()
    marks |= {"truncated"} if octets[9] & 8 else set()
    return marks | {name for bit, name in enumerate(CHANNEL_MARKS) if channel and channel[0] >> bit & 1}


def record_of(number, packet, octets, stamped=None):
    """Returns the record that these octets encode. It has the time of its packet, if there is one."""
    cell, reason, channel = content_of(octets)
    time = struct.unpack_from("<Q", octets)[0] if stamped is None else stamped
    losses = struct.unpack_from(">H", octets, 12)[0]
    return Record(number, link_of(packet, octets[9], channel), time, cell, reason, marks_of(octets, channel), losses)


def records_of(octets, by_packet=False):
    """Yields the records of a capture, and the blocks between them that are passed over. Raises what formats.py raises where it is no capture."""
    number = 0
    for it in formats.records_of(octets, by_packet):
        if isinstance(it, formats.Block):
            number += it.what in formats.NUMBERED
            yield it
        else:
            number += 1
            yield record_of(number, *it)


def links_in(octets):
    """Returns the words of the links of a capture's cells, as far as it is one, each once."""
    words = []
    try:
        for record in records_of(octets):
            words += [] if isinstance(record, formats.Block) or record.cell is None else [record.link]
    except (formats.Broken, formats.Refused):
        pass
    return list(dict.fromkeys(words))


def link_for(draw, octets):
    """Returns no link, or the word of one, mostly of one of the capture."""
    words = links_in(octets)
    return draw.choice([None, None, draw.choice(words or ["0"]), draw.choice(words or ["0"]), draw.choice(["0", "7", "0:0", "1:0", "0/0/0", "3:0/15/2047"])])
