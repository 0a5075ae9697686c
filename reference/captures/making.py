"""Random captures, most of them well formed."""
import struct

SECTION_TYPE = 0x0A0D0D0A


# The kind of most cells, and the flags and the multi-channel header that they share.
PLAIN = (3, 0, bytes(4))


def link(draw):
    """Returns the kind, the flags and the multi-channel header of a link's cells."""
    if draw.random() < 0.6:
        return PLAIN
    return draw.choice([3, 7]), draw.choice([0, 1, 3, 0x40, 0x43]), draw.choice([bytes(4), bytes([0, 1, 0, 0]), bytes([0, 0, 4, 1]), draw.randbytes(4)])


def record(draw, time, by=PLAIN):
    """Returns a record at this time, and mostly a cell of this link."""
    kind, bits, channel = by if draw.random() < 0.97 else link(draw)
    kind = kind if draw.random() < 0.88 else draw.choice([2, 1])
    flags = draw.choice([0] * 10 + [4, 0x14, 0x24]) | bits | 8 * (draw.random() < 0.03)
    channel = bytes([draw.choice([0] * 12 + [1, 2, 4, 7, 0xF8])]) + channel[1:]
    octets = channel * (kind == 7) + bytes([0, 0x10, 6, draw.choice([0x40, 0x50])]) + draw.randbytes(48)
    if draw.random() < 0.05:
        octets = octets[:draw.randrange(len(octets))]
    extensions = b""
    for left in range(draw.choice([0] * 8 + [1, 2])):
        extensions = bytes([0x80 if extensions else 5]) + draw.randbytes(7) + extensions
    came = draw.choice([len(octets)] * 30 + [51, 52, 53, 0, 65535])
    kind |= 0x80 * bool(extensions)
    octets = extensions + octets + bytes(draw.choice([0] * 5 + [4]))
    losses = draw.choice([0] * 30 + [1, 256])
    return struct.pack("<QBB", time % 2**64, kind, flags) + struct.pack(">HHH", 16 + len(octets), losses, came) + octets


def records(draw):
    time, made = draw.choice([0, 1_700_000_000 << 32, 2**64 - 2**33]), []
    by = link(draw)
    for _ in range(draw.randrange(12)):
        made.append(record(draw, time, by))
        time += draw.choice([1, 2**20, 2**32, -5, 12345])
    return made


def in_pcap(draw, made):
    order = draw.choice("<>")
    magic = draw.choice([0xA1B2C3D4, 0xA1B23C4D])
    packets, time = [], draw.choice([7, 2**32 - 2])
    for it in made:
        packets.append(struct.pack(order + "IIII", time % 2**32, draw.choice([0, 7, 999999, 999999999, 2**32 - 1]), len(it), len(it)) + it)
        time += draw.choice([0, 0, 1, 1, -1])
    link = draw.choice([197] * 20 + [1])
    return struct.pack(order + "IHHIIII", magic, 2, 4, 0, 0, 65535, link) + b"".join(packets)


def block(order, kind, body):
    body += bytes(-len(body) % 4)
    size = 12 + len(body)
    return struct.pack(order + "II", kind, size) + body + struct.pack(order + "I", size)


def option(order, code, value):
    return struct.pack(order + "HH", code, len(value)) + value + bytes(-len(value) % 4)


def options(draw, order):
    """Returns options of an interface, most of them without a fault."""
    made = b""
    for _ in range(draw.choice([0, 0, 0, 1, 2, 3])):
        resolution = bytes([draw.choice([6, 6, 9, 9, 0, 3, 12, 19, 20, 127, 128, 160, 191, 192, 255])])
        ahead = struct.pack(order + "q", draw.choice([0, 1, -1, 2**33, -(2**63)]))
        made += draw.choice([
            option(order, 9, resolution), option(order, 9, resolution), option(order, 14, ahead), option(order, 2, draw.randbytes(draw.randrange(6))),
            option(order, 9, b""), option(order, 14, ahead[:7]), option(order, 0, b""), struct.pack(order + "HH", 9, 40),
        ])
    return made


def in_pcapng(draw, made):
    blocks, interfaces, time = [], None, draw.choice([1, 2**63])
    for it in made + [None]:
        if interfaces is None or draw.random() < 0.03:
            order, interfaces = draw.choice("<>"), draw.choice([1, 1, 2])
            usual = draw.randrange(interfaces)
            blocks.append(block(order, SECTION_TYPE, struct.pack(order + "IHHq", 0x1A2B3C4D, 1, 0, -1)))
            links = [draw.choice([197] * 15 + [1]) for _ in range(interfaces)]
            shared = options(draw, order)
            described = [struct.pack(order + "HHI", link_type, 0, 0) + (shared if draw.random() < 0.9 else options(draw, order)) for link_type in links]
            blocks += [block(order, 1, it) for it in described]
        if draw.random() < 0.1:
            blocks.append(block(order, draw.choice([2, 3, 4, 5, 9, 0xBAD, 0x40000BAD, 0x80000001]), draw.randbytes(8)))
        if it is not None:
            interface = usual if draw.random() < 0.9 else draw.randrange(interfaces)
            time += draw.choice([0, 1, 999999, 10**9, 2**33, -1])
            blocks.append(block(order, 6, struct.pack(order + "IIIII", interface, time >> 32 & 0xFFFFFFFF, time & 0xFFFFFFFF, len(it), len(it)) + it))
    return b"".join(blocks)


def capture_of(draw):
    """Returns the octets of a capture. A third of them has an octet or a length changed, or is cut off."""
    made = records(draw)
    octets = draw.choice([lambda: b"".join(made), lambda: in_pcap(draw, made), lambda: in_pcapng(draw, made)])()
    if octets and draw.random() < 0.33:
        place = draw.randrange(min(len(octets), draw.choice([40, 10**6])))
        octets = draw.choice([
            octets[:place],
            octets[:place] + draw.randbytes(1) + octets[place + 1:],
            octets[:place] + draw.choice([b"\0\0\0\0", b"\xff\xff\xff\xff", b"text of a capture"]) + octets[place + 4:],
        ])
    return octets
