"""Captures with mutations, most of them no longer well formed."""
import struct

from captures import formats
from captures.fit_cases import records as records_of_few
from captures.making import SECTION_TYPE, block, in_pcap, in_pcapng, record, records

# Lengths at the bounds of what the formats allow, and of what 32 bits hold.
LIES = [*range(37), 65519, 65520, 65534, 65535, 65536, 65551, 65552, 131068, 131071, 131072, 131073, 131076, 2**31 - 1, 2**31, 2**32 - 16, 2**32 - 4, 2**32 - 1]
SECOND = 2**32


class Places:
    """Where a well-formed capture has its frames, and the numbers that decide how the rest is read: the place, width and order of each."""

    def __init__(self, octets):
        self.octets = octets
        self.starts = []
        self.numbers = []
        magic = formats.number(octets, 0, ">") if len(octets) >= 16 else None
        if magic in formats.PCAP_ORDERS:
            self.walk(24, self.packet, formats.PCAP_ORDERS[magic])
        elif magic == SECTION_TYPE:
            self.walk(0, self.block, "<")
        elif magic is not None:
            self.walk(0, self.record, ">")

    def walk(self, place, step, order):
        """Notes the frames from here on."""
        while place + 16 <= len(self.octets):
            self.starts.append(place)
            size, order = step(place, order)
            if size < 12:
                return
            place += size

    def note(self, place, width, order):
        """Notes a number, and returns it."""
        if place < 0 or place + struct.calcsize(width) > len(self.octets):
            return 0
        self.numbers.append((place, width, order))
        return formats.number(self.octets, place, order, width)

    def record(self, place, order):
        """Notes the lengths of a record."""
        self.note(place + 14, "H", ">")
        return self.note(place + 10, "H", ">"), order

    def packet(self, place, order):
        """Notes the lengths of a packet, and of the record in it."""
        self.note(place + 12, "I", order)
        self.record(place + 16, order)
        return 16 + self.note(place + 8, "I", order), order

    def block(self, place, order):
        """Notes the type, the lengths and the numbers of a block, and the lengths of the record in it."""
        kind = formats.number(self.octets, place, order)
        if kind == SECTION_TYPE:
            order = ">" if formats.number(self.octets, place + 8, ">") == 0x1A2B3C4D else "<"
        widths = {SECTION_TYPE: ["I", "H", "H"], 1: ["H", "H", "I"], 6: ["I", "I", "I", "I", "I"]}.get(kind, [])
        at = place + 8
        for width in widths:
            self.note(at, width, order)
            at += struct.calcsize(width)
        if kind == 6:
            self.record(place + 28, order)
        self.note(place, "I", order)
        size = self.note(place + 4, "I", order)
        self.note(place + size - 4, "I", order)
        return size, order


def whole(draw):
    """Returns a capture of some kind that is as it should be, but for some of its records."""
    made = records(draw) if draw.random() < 0.6 else records_of_few(draw, draw.randrange(12), SECOND // 1000)
    return contained(draw, made)


def contained(draw, made):
    """Returns these records as a capture of some kind."""
    return draw.choice([lambda: b"".join(made), lambda: in_pcap(draw, made), lambda: in_pcapng(draw, made)])()


def with_bits(draw, octets):
    """Turns some bits, mostly near the beginning."""
    octets = bytearray(octets)
    for _ in range(draw.choice([1, 1, 1, 2, 8])):
        place = draw.randrange(min(len(octets), draw.choice([32, 120, 10**6])))
        octets[place] ^= 1 << draw.randrange(8)
    return bytes(octets)


def with_octets(draw, octets):
    """Puts other octets in the place of some, or between them, or takes some out."""
    place = draw.randrange(len(octets))
    count, new = draw.choice([(1, 1), (1, 1), (4, 4), (0, 1), (0, 4), (1, 0), (4, 0), (16, 0), (0, 16)])
    return octets[:place] + draw.choice([bytes(new), b"\xff" * new, draw.randbytes(new)]) + octets[place + count :]


def with_lies(draw, octets):
    """Replaces some lengths and other numbers by wrong ones."""
    numbers, octets = Places(octets).numbers, bytearray(octets)
    for place, width, order in draw.choices(numbers, k=draw.choice([1, 1, 1, 2, 3])) if numbers else []:
        most = 2**16 if width == "H" else 2**32
        true = formats.number(octets, place, order, width)
        wrong = draw.choice([draw.choice(LIES), draw.choice([0, most - 1]), true + draw.choice([-16, -12, -4, -1, 1, 4, 12, 16]), len(octets) - place])
        struct.pack_into(order + width, octets, place, wrong % most)
    return bytes(octets)


def cut_off(draw, octets):
    """Cuts a capture off, mostly near a place where a frame begins."""
    starts = Places(octets).starts
    if starts and draw.random() < 0.5:
        return octets[: max(0, draw.choice(starts) + draw.randint(-5, 33))]
    return octets[: draw.randrange(len(octets))]


def joined(draw, octets):
    """Puts another capture, or frames of one, between the frames of a capture."""
    other = whole(draw)
    starts, others = Places(octets).starts, Places(other).starts
    place = draw.choice([*starts, len(octets)])
    first, last = sorted(draw.choice([0, len(other), *others]) for _ in range(2))
    return octets[:place] + draw.choice([other, other[first:last]]) + octets[place:]


def in_other_order(draw, octets):
    """Swaps, repeats or leaves out frames."""
    starts = Places(octets).starts
    if not starts:
        return octets
    frames = [octets[one:other] for one, other in zip(starts, [*starts[1:], len(octets)])]
    frames = draw.choice([lambda: draw.sample(frames, len(frames)), lambda: draw.choices(frames, k=len(frames)), lambda: frames * 2])()
    return octets[: starts[0]] + b"".join(frames)


MUTATIONS = [with_bits, with_bits, with_octets, with_lies, with_lies, with_lies, cut_off, joined, in_other_order]


def mutated(draw, octets):
    """Returns a capture with one mutation, or with some."""
    for _ in range(draw.choice([1, 1, 1, 2, 3])):
        if octets:
            octets = draw.choice(MUTATIONS)(draw, octets)
    return octets


def after_a_header(draw):
    """Returns random octets after a header that is as it should be."""
    order = draw.choice("<>")
    section = block(order, SECTION_TYPE, struct.pack(order + "IHHq", 0x1A2B3C4D, 1, 0, -1))
    interface = block(order, 1, struct.pack(order + "HHI", 197, 0, 0))
    header = draw.choice([in_pcap(draw, []), section, section + interface, record(draw, 0), record(draw, 0)[:16]])
    octets = draw.randbytes(draw.randrange(160))
    # Small numbers are lengths that a capture may have.
    few = draw.choice([range(256), [0, 0, 0, 0, 1, 3, 6, 16, 28, 32, 68, 255], [0, 0, 0, 12, 24]])
    return header + draw.choice([octets, bytes(few[it % len(few)] for it in octets)])


def random_blocks(draw):
    """Returns a section with blocks whose lengths are right, of any type and with any content."""
    order, made = draw.choice("<>"), []
    for number in range(draw.randrange(1, 12)):
        kind = draw.choice([1, 1, 6, 6, 6, SECTION_TYPE, 2, 3, 5, 0x80000001, draw.randrange(2**32)]) if number else SECTION_TYPE
        if kind == SECTION_TYPE:
            order = draw.choice("<>")
            body = struct.pack(order + "IHHq", draw.choice([0x1A2B3C4D] * 9 + [0x4D3C2B1A, 0]), draw.choice([1] * 9 + [0, 2]), 0, -1)
        elif kind == 1:
            body = struct.pack(order + "HHI", draw.choice([197] * 9 + [1]), 0, 0)
        else:
            it = record(draw, number)
            body = struct.pack(order + "IIIII", draw.choice([0, 0, 0, 1, 2, 2**32 - 1]), 0, 0, draw.choice([len(it)] * 5 + LIES), 0) + it
        body = body[: draw.randrange(len(body) + 1)] if draw.random() < 0.15 else body
        made.append(block(order, kind, body))
    return b"".join(made)


def large(draw):
    """Returns a capture with frames about as long as they may be, so that they begin anywhere in what a reader holds."""
    made = []
    for number in range(draw.randrange(1, 7)):
        cell = record(draw, number)
        length = min(65535, draw.choice([65535, 65535, 65534, 65520, 65519, 40000, len(cell)]))
        made.append(cell[:10] + struct.pack(">H", length) + cell[12:] + bytes(max(0, length - len(cell))))
    octets = contained(draw, made)
    if octets[:4] == b"\x0a\x0d\x0d\x0a":
        order = draw.choice("<>")
        section = block(order, SECTION_TYPE, struct.pack(order + "IHHq", 0x1A2B3C4D, 1, 0, -1))
        octets = draw.choice([b"", section + block(order, 5, bytes(draw.choice([131060, 131060, 131056, 131064, 65536])))]) + octets
    return mutated(draw, octets) if draw.random() < 0.4 else octets


def mutated_capture(draw):
    """Returns a capture with mutations, of any kind."""
    kind = draw.random()
    if kind < 0.1:
        return after_a_header(draw)
    if kind < 0.2:
        return random_blocks(draw)
    if kind < 0.204:
        return large(draw)
    return mutated(draw, whole(draw))
