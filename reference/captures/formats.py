"""The records in a capture: ERF as it is, in pcap, and in pcapng."""
import struct
from collections import namedtuple

LINK = 197
MOST_FRAME = 65535
MOST_BLOCK = 131072
SECTION = 0x0A0D0D0A
PCAP_ORDERS = {0xA1B2C3D4: ">", 0xA1B23C4D: ">", 0xD4C3B2A1: "<", 0x4D3CB2A1: "<"}
# The files with times of packets in nanoseconds.
PCAP_NANOSECONDS = (0xA1B23C4D, 0x4D3CB2A1)
# The codes of the options of an interface that say in which unit its packets count time.
IF_TSRESOL, IF_TSOFFSET = 9, 14


# A block or a packet that has no record: what it is, and its place. Types that have no packet and no number are none.
Block = namedtuple("Block", "what place")
NO_PACKET = (4, 5, 10)
# Blocks without a packet that have a number as packets have.
ENTRIES = (9, 0xBAD, 0x40000BAD)
# What has a number.
NUMBERED = (2, 3, "other link", *ENTRIES)


# How files begin that were compressed.
COMPRESSED = {
    "1 Gzip": (b"\x1f\x8b\x08",),
    "4 Xz": (b"\xfd7zXZ\x00",),
    "5 Bzip2": tuple(b"BZh" + bytes([size]) + first for size in range(256) for first in (b"1AY&", b"\x17\x72\x45\x38")),
    "6 Zstd": (b"\x28\xb5\x2f\xfd",),
}


class Refused(Exception):
    """The file isn't read at all: the fault, by its number and name."""


class Broken(Exception):
    """The file is no capture from this place on: the fault, by its number and name, and the place."""

    def __init__(self, why, place):
        super().__init__(why)
        self.why, self.place = why, place


def number(octets, place, order, width="I"):
    return struct.unpack_from(order + width, octets, place)[0]


def sized(length, least, most, place):
    if length < least:
        raise Broken(f"2 ShortLength {length}", place)
    if length > most:
        raise Broken(f"3 LongLength {length}", place)
    return length


def frame_at(octets, place, size):
    if len(octets) - place < size:
        raise Broken("1 CutOff", place)
    return octets[place:place + size]


def record_in(packet, place):
    """Returns the record in a packet: as much of it as the record's own length says."""
    length = number(packet, 10, ">", "H") if len(packet) >= 16 else 0
    if length < 16:
        raise Broken("4 ShortRecord", place)
    return packet[:length]


def time_of(stamp, units, ahead):
    """Returns the time of a packet, in units of 2^-32 seconds, of which this many seconds have 32 bits."""
    return ((stamp // units + ahead) % 2**32 << 32) + (stamp % units << 32) // units


def options_of(octets, order):
    """Returns the value of the first option of each code."""
    found, place = {}, 0
    while len(octets) - place >= 4:
        code, size = number(octets, place, order, "H"), number(octets, place + 2, order, "H")
        if code == 0 or len(octets) - place < 4 + size:
            break
        found.setdefault(code, octets[place + 4:place + 4 + size])
        place += 4 + (size + 3) // 4 * 4
    return found


def unit_of(block, order, place):
    """Returns the resolution of the times of an interface's packets, and the seconds that are added to each."""
    options = options_of(block[16:-4], order)
    resolution = options.get(IF_TSRESOL, b"")[:1] or b"\x06"
    offset = options.get(IF_TSOFFSET, b"")
    resolution = resolution[0]
    if 20 <= resolution < 128 or resolution >= 192:
        raise Broken(f"15 OtherResolution {resolution}", place)
    return resolution, number(offset, 0, order, "Q") if len(offset) >= 8 else 0


def units_in(resolution):
    return 10**resolution if resolution < 128 else 2 ** (resolution - 128)


def erf_records(octets):
    place = 0
    while place < len(octets):
        head = frame_at(octets, place, 16)
        size = sized(number(head, 10, ">", "H"), 16, MOST_FRAME, place)
        yield None, frame_at(octets, place, size), None
        place += size


def pcap_records(octets, order, by_packet):
    units = 10**9 if number(octets, 0, ">") in PCAP_NANOSECONDS else 10**6
    place = 24
    while place < len(octets):
        head = frame_at(octets, place, 16)
        size = 16 + sized(number(head, 8, order), 16, MOST_FRAME, place)
        stamp = number(head, 0, order) * units + number(head, 4, order)
        yield None, record_in(frame_at(octets, place, size)[16:], place), time_of(stamp, units, 0) if by_packet else None
        place += size


def block_order(head, order, place):
    """Returns the order of the numbers in a block. A section header gives it."""
    if number(head, 0, ">") != SECTION:
        return order
    magic = number(head, 8, ">")
    if magic == 0x1A2B3C4D:
        return ">"
    if magic == 0x4D3C2B1A:
        return "<"
    raise Broken(f"8 OtherMagic {magic}", place)


def packet_of(block, order, interfaces, place):
    """Returns the interface of a packet, and its octets. The links of the interfaces are given."""
    if len(block) < 32:
        raise Broken(f"10 ShortBlock {len(block)}", place)
    interface, length = number(block, 8, order), number(block, 20, order)
    if interface >= len(interfaces):
        raise Broken(f"12 NoInterface {interface}", place)
    if len(block) < 32 + length:
        raise Broken(f"13 LongPacket {length}", place)
    return interface, block[28:28 + length]


def pcapng_records(octets, by_packet):
    # How many interfaces the sections so far have, the link types of those of the present section, and the unit of its times.
    place, order, before, interfaces, unit = 0, "<", 0, [], None
    while place < len(octets):
        head = frame_at(octets, place, 12)
        own = block_order(head, order, place)
        size = sized(number(head, 4, own), 12, MOST_BLOCK, place)
        if size % 4:
            raise Broken(f"6 OddLength {size}", place)
        block = frame_at(octets, place, size)
        again = number(block, size - 4, own)
        if again != size:
            raise Broken(f"7 LengthsDiffer {again}", place)
        kind = number(block, 0, own)
        if kind == SECTION:
            if size < 28:
                raise Broken(f"10 ShortBlock {size}", place)
            version = number(block, 12, own, "H")
            if version != 1:
                raise Broken(f"9 OtherVersion {version}", place)
            order, before, interfaces, unit = own, before + len(interfaces), [], None
        elif kind == 1:
            if size < 20:
                raise Broken(f"10 ShortBlock {size}", place)
            link = number(block, 8, own, "H")
            if link != LINK and len(interfaces) >= 64:
                raise Broken(f"11 OtherLink {link}", place)
            if link == LINK and by_packet:
                other = unit_of(block, order, place)
                if unit not in (None, other):
                    raise Broken(f"16 OtherUnit {other[0]}", place)
                unit = other
            interfaces.append(link)
        elif kind == 6:
            interface, packet = packet_of(block, own, interfaces, place)
            if interfaces[interface] == LINK:
                stamp = number(block, 12, own) << 32 | number(block, 16, own)
                yield before + interface, record_in(packet, place), time_of(stamp, units_in(unit[0]), unit[1]) if by_packet else None
            else:
                yield Block("other link", place)
        elif kind not in NO_PACKET:
            yield Block(kind, place)
        place += size


def records_of(octets, by_packet=False):
    """Returns an iterator of the records in a file: the interface of the packet of each in a pcapng file, or None, its octets, and the time of its
    packet, if such times are asked for and there is one. Between them are the kinds and places of blocks that are passed over, as `Block`."""
    if not octets:
        raise Refused("7 Empty")
    if len(octets) < 16:
        return short_file(octets)
    magic = number(octets, 0, ">")
    if magic in PCAP_ORDERS:
        if len(octets) < 24:
            return short_file(octets)
        link = number(octets, 20, PCAP_ORDERS[magic]) % 65536
        if link != LINK:
            raise Refused(f"2 OtherLink {link}")
        return pcap_records(octets, PCAP_ORDERS[magic], by_packet)
    if magic == SECTION:
        return pcapng_records(octets, by_packet)
    for why, beginnings in COMPRESSED.items():
        if octets.startswith(beginnings):
            raise Refused(why)
    is_wide = octets[:2] == b"\xff\xfe" and not octets[3] | octets[5] or octets[:2] == b"\xfe\xff" and not octets[2] | octets[4]
    if octets[:3] == b"\xef\xbb\xbf" or is_wide:
        raise Refused("3 Text")
    if all(32 <= octet < 127 or 9 <= octet < 14 for octet in octets[:16]):
        raise Refused("3 Text")
    return erf_records(octets)


def short_file(octets):
    if all(32 <= octet < 127 or 9 <= octet < 14 for octet in octets):
        raise Broken("14 ShortText", 0)
    raise Broken("1 CutOff", 0)
    return iter(())
