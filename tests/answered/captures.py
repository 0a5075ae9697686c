"""Captures by hand: records of each kind, files of each form, and octets that are none. Types, flags and headers are those of the public
descriptions of ERF, pcap and pcapng."""
import struct

from .case import Case

# A record of type 7 made here has a multi-channel header of these octets: physical port 1, connection 0x213.
CHANNEL = "1/531"


def octets_of(kind, flags, length, time=0x1_8000_0000):
    """Returns 96 octets that begin with a record of this type, flags and length, received at this time: a second and a half after 1970 began. From
    octet 16 on, each octet is its place."""
    return struct.pack("<Q", time) + struct.pack(">BBHHH", kind, flags, length, 0, 52) + bytes(range(16, 96))


def line(first, moment=0):
    """Returns the line of a cell that begins with octet `first` of such a record."""
    return f"cell {moment} {bytes(range(first, first + 52)).hex()}\n"


def passed_over(why, number=1):
    """Returns the comment on one record that is passed over."""
    return f"# 1 passed over: {why}; first record {number}\n"


def of_cells(capture, answer, *words):
    """Returns the case that `upc-lab cells` answers a capture so. A fault is the last line."""
    return Case(("upc-lab", "cells", *words), capture, answer.encode(), int("fault " in answer))


# Why a record holds no cell.
OTHER, ERRORED, SHORT = "type {}, not ATM", "received with an error", "fewer than 52 octets of a cell"
# Type, flags and length of a record, and its cell's first octet or why it has none.
CONTENTS = (
    (3, 0x04, 68, 16),
    (3, 0x04, 72, 16),
    (7, 0x07, 72, 20),
    (0x83, 0x00, 76, 24),
    (0x87, 0x02, 80, 28),
    (2, 0x04, 68, OTHER.format(2)),
    (0x82, 0x34, 68, OTHER.format(2)),
    (48, 0x04, 16, OTHER.format(48)),
    (3, 0x14, 68, ERRORED),
    (7, 0x20, 72, ERRORED),
    (3, 0x04, 67, SHORT),
    (7, 0x04, 68, SHORT),
    (0x83, 0x04, 16, SHORT),
)
# Type and flags of a record with a cell, and the word of its link.
LINKS = ((3, 0x04, "0"), (3, 0x43, "7"), (7, 0x80, f"0/{CHANNEL}"), (7, 0xC2, f"6/{CHANNEL}"))
# The length of a record, how many of its octets are there, and the fault.
NO_RECORDS = (
    (68, 0, "file 7 Empty"),
    (0, 15, "capture 1 CutOff 0"),
    (68, 16, "capture 1 CutOff 0"),
    (68, 67, "capture 1 CutOff 0"),
    (97, 96, "capture 1 CutOff 0"),
    (15, 96, "capture 2 ShortLength 15 0"),
    (0, 16, "capture 2 ShortLength 0 0"),
)


def of_records():
    """Yields records, their cells and links, and octets that are no record."""
    for kind, flags, length, content in CONTENTS:
        answer = line(content) if isinstance(content, int) else passed_over(content)
        yield of_cells(octets_of(kind, flags, length)[:length], answer)
    for kind, flags, link in LINKS:
        heading = "link\tcells\tfirst\tlast\tlosses\n"
        text = f"{heading}{link}\t1\t1.500000000\t1.500000000\t0\n"
        yield Case(("upc-lab", "links"), octets_of(kind, flags, 72)[:72], text.encode(), 0)
    for length, given, fault in NO_RECORDS:
        yield of_cells(octets_of(3, 0, length)[:given], f"fault {fault}\n")
    one = octets_of(3, 0, 68)[:68]
    yield of_cells(2 * one + one[:67], 2 * line(16) + "fault capture 1 CutOff 136\n")


# The length of a packet and of the record that it begins with, and whether the record has its cell.
PACKETS = ((68, 68, True), (68, 72, True), (72, 68, True), (67, 68, False), (68, 67, False))
# The length of a packet and of its record, and the fault of a file with 96 octets after the packet's header.
NO_PACKETS = (
    (97, 68, "1 CutOff"),
    (65535, 68, "1 CutOff"),
    (15, 68, "2 ShortLength 15"),
    (0, 68, "2 ShortLength 0"),
    (65536, 68, "3 LongLength 65536"),
    (2**32 - 1, 68, "3 LongLength 4294967295"),
    (68, 15, "4 ShortRecord"),
)


def pcap_of(order, link, packet, length):
    """Returns a pcap file with numbers in this order, in nanoseconds if the highest octets come first, and 96 octets of a packet."""
    magic = 0xA1B23C4D if order == ">" else 0xA1B2C3D4
    head = struct.pack(f"{order}IHHIIIIIIII", magic, 2, 4, 0, 0, 0, link, 0, 0, packet, 0)
    return head + octets_of(3, 1, length)


def of_packets():
    """Yields packets of pcap files, and octets that are none."""
    for order in "<>":
        for packet, length, is_whole in PACKETS:
            yield of_cells(pcap_of(order, 197, packet, length)[: 40 + packet], line(16) if is_whole else passed_over(SHORT))
        for packet, length, fault in NO_PACKETS:
            yield of_cells(pcap_of(order, 197, packet, length), f"fault capture {fault} 24\n")


# The octets of files, and their faults.
FILES = (
    (b"", "file 7 Empty"),
    (b"cell 0 00100640", "capture 14 ShortText 0"),
    (b"cell 0 00100640\n", "file 3 Text"),
    # The octets of a text but for the last are a record, of type 48 and length 0x3036, which isn't whole.
    (b"cell 0 00100640\0", "capture 1 CutOff 0"),
    (bytes(15), "capture 1 CutOff 0"),
    (bytes(16), "capture 2 ShortLength 0 0"),
    (b"\xa1\xb2\xc3\xd4            ", "capture 1 CutOff 0"),
    (b"\x4d\x3c\xb2\xa1            ", "capture 1 CutOff 0"),
    (b"\x0a\x0d\x0d\x0a            ", "capture 8 OtherMagic 538976288 0"),
    (b"\x1f\x8b\x08\x00            ", "file 1 Gzip"),
    (b"\xfd7zXZ\x00\x00\x04        ", "file 4 Xz"),
    (b"BZh91AY&SY\x00\x00\x00\x00\x00\x00", "file 5 Bzip2"),
    (b"\x28\xb5\x2f\xfd            ", "file 6 Zstd"),
    (b"\xef\xbb\xbf# a setup    ", "file 3 Text"),
    (b"\xff\xfe#\x00 \x00a\x00 \x00s\x00e\x00t\x00", "file 3 Text"),
    (b"\xfe\xff\x00#\x00 \x00a\x00 \x00s\x00e\x00t", "file 3 Text"),
    (pcap_of("<", 1, 68, 68)[:23], "capture 1 CutOff 0"),
    (pcap_of("<", 1, 68, 68)[:24], "file 2 OtherLink 1"),
)


def blocks_of(order, *changes):
    """Returns a pcapng file with numbers in this order: a section header at octet 0, an interface of link type 197 at octet 28, and a packet with a
    record of 68 octets at octet 48. Then each change puts a number of four octets at a place."""
    head = struct.pack(f"{order}IIIIIII", 0x0A0D0D0A, 28, 0x1A2B3C4D, 0x00010001, 0, 0, 28)
    interface = struct.pack(f"{order}IIIII", 1, 20, 0x00C500C5, 0, 20)
    packet = struct.pack(f"{order}IIIIIII", 6, 100, 0, 0, 0, 68, 0)
    octets = bytearray(head + interface + packet + octets_of(3, 2, 68)[:68] + struct.pack(f"{order}I", 100))
    for place, number in changes:
        octets[place : place + 4] = struct.pack(f"{order}I", number)
    return bytes(octets)


# A change of such a file, and the answer.
PASSED = (
    ((60, 2**32 - 1), line(16)),
    ((16, 2**32 - 1), line(16)),
    ((68, 16), passed_over(SHORT)),
    ((48, 5), ""),
    ((48, 3), "# 1 passed over: simple packets; first at octet 48\n"),
    ((48, 9), ""),
    ((48, 0x777), "# 1 passed over: blocks of unknown types, the first of type 1911; first at octet 48\n"),
)
# Changes of such a file, and the fault.
BROKEN = (
    (((4, 0), (24, 0)), "2 ShortLength 0 0"),
    (((4, 8), (24, 8)), "2 ShortLength 8 0"),
    (((4, 30), (24, 30)), "6 OddLength 30 0"),
    (((4, 131_076), (24, 0)), "3 LongLength 131076 0"),
    (((4, 2**32 - 1), (24, 0)), "3 LongLength 4294967295 0"),
    (((24, 32),), "7 LengthsDiffer 32 0"),
    (((8, 0x01010101),), "8 OtherMagic 16843009 0"),
    (((12, 0x00020002),), "9 OtherVersion 2 0"),
    (((4, 24), (20, 24)), "10 ShortBlock 24 0"),
    (((32, 16), (40, 16)), "10 ShortBlock 16 28"),
    (((56, 1),), "12 NoInterface 1 48"),
    (((28, 4),), "12 NoInterface 0 48"),
    (((68, 69),), "13 LongPacket 69 48"),
    (((68, 2**32 - 1),), "13 LongPacket 4294967295 48"),
    (((68, 15),), "4 ShortRecord 48"),
    (((52, 28), (72, 28)), "10 ShortBlock 28 48"),
    (((144, 96),), "7 LengthsDiffer 96 48"),
)
# The length of a file that is cut off, and where the block begins that isn't whole.
CUT_OFF = ((27, 0), (39, 28), (47, 28), (59, 48), (147, 48))


def of_files():
    """Yields files of each form, blocks of pcapng files, and octets that are none."""
    for octets, fault in FILES:
        yield of_cells(octets, f"fault {fault}\n")
    for order in "<>":
        yield of_cells(blocks_of(order), line(16), "--link", "0:2")
        for change, answer in PASSED:
            yield of_cells(blocks_of(order, change), answer)
        for changes, fault in BROKEN:
            yield of_cells(blocks_of(order, *changes), f"fault capture {fault}\n")
        for length, place in CUT_OFF:
            yield of_cells(blocks_of(order)[:length], f"fault capture 1 CutOff {place}\n")


# The time of the first cell, and then how much later another one comes, in parts of 2^-32 seconds, a tick, and the moment of that cell.
START = 1_700_000_000 << 32
LATER = (
    (0, "1us", 0),
    (40_802, "1us", 9),
    (40_803, "1us", 10),
    (45_096, "1us", 10),
    (0x8000_0000, "333333334ns", 1),
    (0x8000_0000, "333333333ns", 2),
    (0x8000_0000, "1ns", 500_000_000),
)


def of_times():
    """Yields moments of times, to the nearest tick, and the greatest one."""
    first = octets_of(3, 4, 68, START)[:68]
    for later, tick, moment in LATER:
        yield of_cells(first + octets_of(3, 4, 68, START + later)[:68], line(16) + line(16, moment), "--tick", tick)
    before = octets_of(3, 4, 68, START - 1)[:68]
    yield of_cells(first + before, line(16) + passed_over("a time before that of an earlier cell", 2))
    first, last = octets_of(3, 4, 68, 0)[:68], octets_of(3, 4, 68, 2**64 - 1)[:68]
    for tick, moment in ((1, 4_294_967_296_000_000_000), (2**64 - 1, 0)):
        yield of_cells(first + last, line(16) + line(16, moment), "--tick", f"{tick}ns")


def cases():
    """Yields all cases."""
    for some in (of_records, of_packets, of_files, of_times):
        yield from some()
