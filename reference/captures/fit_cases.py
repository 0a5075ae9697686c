"""Random captures, and the numbers that `fit` is asked with."""
import random
import struct
from collections import namedtuple

from captures.reading import link_for
from rules.making import text_of

SECOND = 2**32
LONGEST = 65535
# What `fit` is asked: the octets, the increment in ticks, the tick in nanoseconds, the word of a link or None, the side, the cell loss priority or
# None, whether connections are virtual paths, and a text of rules or None.
Case = namedtuple("Case", "octets increment tick link side clp paths rules", defaults=[None, False, None])
# More rules than a code of 4096 instructions holds, so that they are tried in order.
MANY_RULES = b"".join(b"octet %d = %d and octet 4 != 0 -> %d\n" % (5 + it % 47, it % 256, it) for it in range(3000)) + b"vci 0..99 -> 7\n"


def record(time, header, kind=3, flags=0, octets=52, extensions=0, length=None):
    """Returns a record at this time, with a cell of this header."""
    cell = (header + bytes(48))[:octets]
    rest = b"".join(bytes([0x80 if k + 1 < extensions else 0]) + bytes(7) for k in range(extensions))
    rest += bytes(4 if kind == 7 else 0) + cell
    length = 16 + len(rest) if length is None else length
    return struct.pack("<QBBHHH", time, 0, 0, 0, 0, 0)[:8] + struct.pack(
        ">BBHHH", kind | (0x80 if extensions else 0), flags, length, 0, len(cell)
    ) + rest


def header_of(random_, few):
    """Returns a header; `few` of them are usual."""
    path, channel = random_.choice(few) if random_.random() < 0.9 else (random_.randrange(4096), random_.randrange(65536))
    return struct.pack(">I", path << 20 | channel << 4 | random_.randrange(16))


def records(random_, count, unit):
    """Returns records, most of them good cells of a few connections."""
    few = [(random_.randrange(4096), random_.randrange(65536)) for _ in range(random_.randint(1, 4))]
    interfaces = [random_.randrange(4)] * random_.choice([1, 1, 1, 0]) or [0, 1]
    time = random_.choice([0, 1_700_000_000 * SECOND, 2**64 - SECOND])
    made = []
    for _ in range(count):
        time += random_.choice([0, 0, 1, random_.randrange(1 + 2 * unit), unit, unit, unit, 7 * unit, -random_.randrange(1 + unit)])
        time = min(max(time, 0), 2**64 - 1)
        odd = random_.random()
        made.append(record(
            time,
            header_of(random_, few),
            kind=random_.choice([2, 48, 2, 48, 7]) if odd < 0.05 else 3,
            flags=random_.choice(interfaces) | (0x10 if 0.05 < odd < 0.08 else 0),
            octets=random_.randrange(52) if 0.08 < odd < 0.1 else 52,
            extensions=random_.randint(1, 3) if 0.1 < odd < 0.15 else 0,
        ))
    return made


def as_pcap(made, random_):
    """Returns a pcap file with these records, in some order of octets."""
    order, magic = random_.choice([(">", b"\xa1\xb2\xc3\xd4"), ("<", b"\xd4\xc3\xb2\xa1"), (">", b"\xa1\xb2\x3c\x4d"), ("<", b"\x4d\x3c\xb2\xa1")])
    packets = [bytes(8) + struct.pack(order + "II", len(it), len(it)) + it for it in made]
    return magic + struct.pack(order + "HHIIII", 2, 4, 0, 0, LONGEST, 197) + b"".join(packets)


def of_connections(count):
    """Returns a capture with a cell for each of this many connections, the highest first."""
    return b"".join(record(0, struct.pack(">I", number << 4)) for number in reversed(range(count)))


def edges():
    """Returns cases at the bounds of what is held, and one above."""
    return [
        Case(b"", 1, 1, None, "uni"),
        Case(of_connections(65535), 1, 1, None, "uni"),
        Case(of_connections(65536), 1, 1, None, "uni"),
        Case(65535 * record(0, bytes(4)), 2**48, 1, None, "uni"),
        Case(65536 * record(0, bytes(4)), 2**48, 1, None, "uni"),
        Case(record(0, bytes(4)) + record(2**64 - 1, bytes(4)), 2**48, 1, None, "nni"),
        Case(65536 * record(0, bytes(4)), 2**48, 1, None, "uni", 1),
        Case(of_connections(65536), 1, 1, None, "uni", paths=True),
        Case(of_connections(32768), 1, 1, None, "uni", rules=b"otherwise 4294967295\n"),
        Case(of_connections(65536), 1, 1, None, "nni", paths=True, rules=b"vci 0..32767 -> 1\n"),
        Case(of_connections(65536), 1, 1, None, "uni", rules=b"otherwise 1\n"),
        Case(of_connections(200), 1, 1, None, "uni", rules=MANY_RULES),
        Case(of_connections(2), 1, 1, None, "uni", rules=(b"#" * 1023 + b"\n") * 1024),
        Case(of_connections(2), 1, 1, None, "uni", rules=(b"#" * 1023 + b"\n") * 1024 + b"\n"),
        Case(b"", 1, 1, None, "uni", rules=b"vpi\n"),
        Case(b"", 1, 1, None, "uni", rules=b""),
    ]


def rules_for(random_):
    """Returns a text of rules, or None. Some have a fault."""
    kind = random_.random()
    if kind < 0.5:
        return None
    if kind < 0.7:
        return random_.choice([b"clp 0 -> 1\notherwise 2\n", b"pti 0, 1 -> 3\nclp 1 -> refuse\n", b"any { clp 1 -> 2\n pti 3..7 -> 1\n}\n", b"side nni\ngfc 1 -> 2\n"])
    return text_of(random_)


def case_of(seed, number):
    """Returns the case of this number. Seed and number determine it."""
    random_ = random.Random(f"{seed} {number}")
    tick = random_.choice([1, 100, 333, 1000, 2500])
    increment = random_.choice([1, 10, 1000, random_.randrange(1, 5000), 2**48])
    ticks = increment if increment < 2**30 else 1000
    unit = max(1, ticks * tick * SECOND // 10**9)
    made = records(random_, random_.choice([0, 1, 2, 20, 100, 400]), unit)
    octets = as_pcap(made, random_) if random_.random() < 0.3 else b"".join(made)
    if random_.random() < 0.15:
        octets = octets[: random_.randrange(len(octets) + 1)]
    if random_.random() < 0.05 and len(octets) > 11:
        at = random_.randrange(len(octets))
        octets = octets[:at] + bytes([random_.randrange(256)]) + octets[at + 1 :]
    link, side, clp = link_for(random_, octets), random_.choice(["uni", "nni"]), random_.choice([None, None, 0, 1])
    return Case(octets, increment, tick, link, side, clp, random_.random() < 0.2, rules_for(random_))
