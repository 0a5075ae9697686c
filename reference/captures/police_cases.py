"""Random scripts and captures for `upc-lab police`, and some at the bounds.

A capture is made beside a card of the reference that has taken the script, so that cells come just when a bucket begins to conform.
"""
import gzip
import random
import struct
from collections import namedtuple

from captures.fit_cases import LONGEST, SECOND, as_pcap, record
from captures.making import in_pcapng
from captures.policing import card_of, judged
from captures.reading import link_for
from policer.card import LAST_MOMENT
from policer.cell import PATH_BITS, channel_name, has_paths
from policer.faults import Fault
from policer.run_dialogue import RunDialogue
from policer.text_lines import asks_nothing, words_of
from trials import cells
from trials.numbers_at_limits import near
from trials.scripts import Script

# What `police` is asked: the script, the capture, the tick in nanoseconds or None, the word of a link or None, which lines, the nanoseconds of
# a span or None, whether lines say which rule gave a value, and the files of rules that the script names, or None if there are none. A tick of 100
# isn't asked for, since it is the one without any.
Case = namedtuple("Case", "script octets tick link lines every why files", defaults=[None, False, None])

TICKS = [1, 100, 100, 333, 1000, 10**6]
LINES = ["all", "all", "refused", "none"]
LAST_TIME = 2**64 - 1
PASS_ALL = "load 0006000000000001\n"


def without_faults(lines, before=()):
    """Returns the lines of a script that have no fault, after those before them."""
    dialogue, good = RunDialogue(), []
    for place, line in enumerate([*before, *lines]):
        words = words_of(line.removesuffix(b"\r"))
        try:
            if not asks_nothing(words):
                dialogue.answer(words)
            good += [line] * (place >= len(before))
        except Fault:
            pass
    return good


def usual_lines(random_):
    """Returns a script of a few connections, whose program returns the first octet of the payload, or 1."""
    side = random_.choice(list(PATH_BITS))
    most = (1 << PATH_BITS[side]) - 1
    lines = [f"card {random_.choice([2, 4])} 5 1 {random_.choice([1, 2, 7, 1000])} {side}", "load 00300000000000040016000000000000", "load 0006000000000001"]
    for number in range(random_.randint(1, 5)):
        contracts = " ".join(contract_of(random_) for _ in range(random_.randint(1, 4)))
        path, channel = random_.choice([0, 1, most]), random_.choice([number, 65535 - number])
        words = f"{random_.choice([number, most - number])} *" if has_paths(side) else f"{path} {channel}"
        lines.append(f"setup {words} p{random_.choice([1, 1, 2])} {contracts}")
    return [line.encode() for line in lines]


def contract_of(random_):
    """Returns a contract, half of them of the kind that tags."""
    kind = random_.choice(["cbr1", "vbr1", "vbr2", "vbr3", "vbr3", "vbr3"])
    rates = [f"{random_.choice([1, 2, 3, 5])}/{random_.choice([0, 1, 2, 5])}", f"{random_.choice([4, 9, 12])}/{random_.choice([0, 3, 8, 40])}"]
    return ":".join([kind] + rates[: 1 if kind == "cbr1" else 2])


def script_of(random_):
    """Returns a script. One in twenty may have faults; in the others cells mostly come only with the capture."""
    lines = usual_lines(random_) if random_.random() < 0.6 else Script(random_).lines
    if random_.random() < 0.9:
        lines = without_faults(lines)
        if random_.random() < 0.7:
            lines = without_faults(it for it in lines if not it.startswith(b"cell"))
    return b"".join(line + random_.choice([b"\n"] * 9 + [b"\r\n", b"\n# a remark\n", b"\n\n"]) for line in lines)


class Traffic:
    """Cells for a card: their moments in ticks, and the records that hold them."""

    def __init__(self, random_, card, tick):
        self.random = random_
        self.card = card
        self.tick = tick
        self.begun = random_.choice([0, 0, 1_700_000_000 * SECOND + 12345])
        self.last = (LAST_TIME - self.begun) * 10**9 // (SECOND * tick)
        self.moment = 0
        self.interfaces = random_.choice([[0]] * 6 + [[2], [0x40], [0] * 9 + [1], [0] * 19 + [0x40]])

    def time(self):
        """Returns the first time whose moment is the present one."""
        return min(LAST_TIME, self.begun - -self.moment * self.tick * SECOND // 10**9)

    def vc(self):
        """Returns a connection, mostly one that is set up."""
        if self.card.connections and self.random.random() < 0.95:
            return self.random.choice(sorted(self.card.connections))
        return self.random.randrange(256), 0 if has_paths(self.card.side) else self.random.randrange(65536)

    def go_on(self, vc):
        """Goes on to the next moment: soon, or when a bucket of the connection begins to conform."""
        random_ = self.random
        connection = self.card.connections.get(vc)
        if connection and random_.random() < 0.5:
            bucket = random_.choice(random_.choice(connection.contracts).buckets)
            begins = near(random_, bucket.last + bucket.level - bucket.limit, LAST_MOMENT)
            # A wait of years comes once or twice in a capture.
            if begins < self.moment + 1000 or random_.random() < 0.05:
                self.moment = max(self.moment, begins)
        else:
            self.moment += random_.choice([0, 0, 1, 1, 2, 3, 5, 11])
        self.moment = min(self.moment, self.last)

    def record(self):
        """Returns the next record, mostly of a cell that the card has taken."""
        random_, vc = self.random, self.vc()
        self.go_on(vc)
        header = cells.header(random_, *vc, random_.choice([0, 0, 1]), self.card.side)
        cell = cells.cell(random_, header, random_.choice([0, 1, 1, 1, 1, 2, 2, 3, 4, 5]))
        judged(self.card, vc, self.moment, cell)
        odd, time = random_.random(), self.time()
        return record(
            time if odd > 0.02 else max(0, time - random_.randrange(1 + SECOND)),
            cell,
            kind=random_.choice([2, 48, 7]) if 0.02 < odd < 0.05 else 3,
            flags=random_.choice(self.interfaces) | (0x10 if 0.05 < odd < 0.07 else 0),
            octets=random_.randrange(52) if 0.07 < odd < 0.09 else 52,
            extensions=random_.randint(1, 3) if 0.09 < odd < 0.12 else 0,
        )


def broken(random_, octets):
    """Returns a capture that is cut off, has an octet changed, or is of another kind."""
    at = random_.randrange(len(octets) + 1)
    return random_.choice([
        octets[:at],
        octets[:at],
        octets[:at] + random_.randbytes(1) + octets[at + 1 :],
        random_.choice([gzip.compress(octets), b"a text that is no capture\n", octets[:random_.randrange(17)]]),
    ])


def capture_of(random_, script, tick, count):
    """Returns a capture of this many records for a script, or for one without a fault in it."""
    card = card_of(script) or card_of(b"card 1 1 1 1\nload 0006000000000001\nsetup 1 5 p1 cbr1:5/5\n")
    traffic = Traffic(random_, card, tick)
    made = [traffic.record() for _ in range(count)]
    octets = random_.choice([b"".join, b"".join, lambda it: as_pcap(it, random_), lambda it: in_pcapng(random_, it)])(made)
    return broken(random_, octets) if random_.random() < 0.15 else octets


def case_of(seed, number):
    """Returns the case of this number. Seed and number determine it."""
    random_ = random.Random(f"{seed} police {number}")
    script, tick = script_of(random_), random_.choice(TICKS)
    count = random_.choice([0, 1, 10, 30, 60, 100, 200, 300])
    octets = capture_of(random_, script, tick, count)
    script, asked = with_tick(random_, with_times(random_, script, tick), tick)
    link, lines = link_for(random_, octets), random_.choice(LINES)
    return Case(script, octets, asked, link, lines, span_for(random_, tick), random_.random() < 0.2)


def span_for(random_, tick):
    """Returns the nanoseconds of a span, or None."""
    ticks = random_.choice([None, None, 1, 2, 10, 100, 10**6])
    return ticks and max(1, near(random_, ticks * tick, 2**64 - 1) if random_.random() < 0.5 else ticks * tick)


def command_for(random_, card):
    """Returns a command for this card under traffic, or another line."""
    path, channel = random_.choice([*card.connections, (0, 1)])
    vc = b"%d %s" % (path, channel_name(channel, card.side).encode())
    number = random_.choice([*card.programs, card.loaded + 1, card.loaded + 2])
    return random_.choice([
        *[b"reload %s p%d" % (vc, number)] * 5, b"load 00%02x%012x" % (random_.choice([6, 6, 6, 7]), random_.randint(0, 5)), b"load 00300000000000040016000000000000",
        b"# a remark", b"", b"setup %d 7 p1 cbr1:3/2" % random_.randint(0, 3), b"retire p%d" % number, b"cut " + vc, b"release " + vc, b"cell 0 00000000", b"lod 1",
    ])


def with_times(random_, script, tick):
    """Returns a script of which some of the last lines may be carried out while cells arrive, with more commands. In one of five these may have
    faults."""
    lines, card = script.split(b"\n"), card_of(script)
    if random_.random() < 0.5 or len(lines) < 3 or card is None:
        return script
    first = max(random_.randint(1, len(lines)) for _ in range(3))
    present, made, later = 0, lines[:first], lines[first:] + [command_for(random_, card) for _ in range(random_.randint(0, 9))]
    for line in later if random_.random() < 0.2 else without_faults(later, made):
        present += random_.choice([0, 0, 1, 5, 5, 20, 20, 200, 10**6]) * tick + random_.choice([0, 0, 1, tick // 2])
        present -= random_.choice([0] * 60 + [1])
        time = f"{max(0, present)}ns" if present % 1000 or random_.random() < 0.8 else f"{present // 1000}us"
        time = random_.choice([time] * 60 + ["5", "1 us"])
        before = random_.choice(["at {} "] * 8 + ["", " \tat\t {}  ", "at {}\t"]).format(time).encode()
        # A time alone is a fault.
        is_timed = line.strip() or random_.random() < 0.02
        made.append((before or b"at 0ns " * (len(made) == first)) * bool(is_timed) + line)
    return b"\n".join(made)


def with_tick(random_, script, tick):
    """Returns a script that may name its tick, and the tick that is asked for. One in thirty names another one, or none in a line `tick`."""
    if random_.random() < 0.6:
        return script, tick
    odd = random_.random()
    word = f"{tick}ns" if tick % 1000 or random_.random() < 0.5 else f"{tick // 1000}us"
    word = random_.choice(["0us", "10", "1us 2", "7ns", "us", "18446744073709551616ns"]) if odd < 0.08 else word
    before, after = random_.choice([("", "\n")] * 3 + [("# the tick\n\n \t", " \r\n"), ("  ", " \t\n"), ("\r\n", "\n")])
    blank = random_.choice([" ", " ", "\t", "   "])
    return f"{before}tick{blank}{word}{after}".encode() + script, random_.choice([None, None, None, tick])


def long_case(seed, number):
    """Returns a case whose capture fills the buffer that records are read from once or several times: it holds some 7,700 of them."""
    random_ = random.Random(f"{seed} long {number}")
    lines = without_faults(usual_lines(random_))
    script, tick = b"\n".join(lines) + b"\n", random_.choice(TICKS)
    count = random_.choice([7_000, 7_800, 9_000, 16_000, 25_000])
    octets, link, lines = capture_of(random_, script, tick, count), random_.choice([None, "0"]), random_.choice(LINES)
    return Case(script, octets, tick, link, lines, span_for(random_, tick), random_.random() < 0.2)


def cell_at(ticks, header=0x00100640, flags=0, kind=3):
    """Returns a record of a cell at a moment in ticks of a microsecond. Its payload is zeros."""
    return record(-(-ticks * SECOND // 10**6) if ticks else 0, struct.pack(">I", header), kind=kind, flags=flags)


def lossy(made):
    """Returns a record with its loss counter at 2."""
    return made[:12] + struct.pack(">H", 2) + made[14:]


def full_card():
    """Returns a script with as many connections as a card has lines."""
    setups = "".join(f"setup {number >> 6} {number & 63} p1 cbr1:10/0\n" for number in reversed(range(4096)))
    return f"card 1 4096 1 1\n{PASS_ALL}{setups}".encode()


def edges():
    """Returns cases at the bounds."""
    opened = f"card 2 2 1 2\n{PASS_ALL}"
    one = f"{opened}setup 1 100 p1 cbr1:10/5\n".encode()
    ones = cell_at(0) + cell_at(4) + cell_at(5)
    nodes = f"card 1 1 1 1 nni\n{PASS_ALL}setup 2049 100 p1 cbr1:10/5\n".encode()
    path = f"card 1 2 1 1 uni paths\n{PASS_ALL}setup 1 * p1 cbr1:10/5\nsetup 2 * p1 cbr1:10/5\n".encode()
    path_between = f"card 1 1 1 1 nni paths\n{PASS_ALL}setup 2049 * p1 cbr1:10/5\n".encode()
    channels = cell_at(0, 0x00100640) + cell_at(4, 0x00100030) + cell_at(5, 0x001FFFF0) + cell_at(6, 0x00200040) + cell_at(7, 0x00300640)
    second = b"load 0006000000000002\nsetup 1 100 p2 cbr1:10/5 vbr3:10/5:20/0 vbr1:1/1:1/1\n"
    pcap = struct.pack("<IHHIIII", 0xA1B2C3D4, 2, 4, 0, 0, LONGEST, 1)
    given = [
        # Nothing to police.
        (one, b""), (opened.encode(), b""), (opened.encode(), ones),
        # No capture.
        (one, gzip.compress(ones)), (one, b"cell 0 00100640\n"), (one, pcap), (one, ones[:1]), (one, ones[:15]),
        # A capture that is cut off in its first record, and in a later one.
        (one, ones[:67]), (one, ones[:-1]), (one, ones + ones[:16]),
        # A faulty script, whose capture isn't read.
        (b"", ones), (b"# no card\n", ones), (b"card 1 1 1\n", ones), (b"card 1 1 1 0\n", ones), (one + b"setpu 1 2 p1\n", b"a text that is none\n"),
        (one + b"cell 1 00200640\n", ones), (one + b"cell 1 00100640\n" * 3, ones), (one + b"cut 2 2", b""), (one + b"load 00\n" + one, ones),
        (one + b"#" + bytes(70000), ones),
        # A program whose contract there is and isn't, and four contracts.
        (one + b"load 0006000000000002\nreload 1 100 p2\n", ones), (opened.encode() + second, ones), (opened.encode() + second, ones + cell_at(6, 0x00100641)),
        # Journals of one and two cells, cut several times; and cells before the capture, which count.
        (f"card 1 1 1 1\n{PASS_ALL}setup 1 100 p1 cbr1:10/5\n".encode(), ones * 2), (one, cell_at(0) * 9), (one + b"cell 0 00100640\n" * 2, ones),
        (one + b"cell 0 00100640\ncut 1 100\n", ones), (one + b"cell 0 00100640\nrelease 1 100\n", ones),
        (one + b"cell 4 00100640\n", ones), (one + b"cell 5 00100640\n", ones), (one + b"cell 4611686018427387904 00100640\n", ones),
        # A line that served another connection before.
        (one + b"cell 0 00100640\nrelease 1 100\nsetup 1 101 p1 cbr1:1/1\nsetup 1 100 p1 cbr1:7/0\n", ones),
        # Paths of twelve bits, and flow control beside paths of eight.
        (nodes, cell_at(0, 0x80100640) + cell_at(1, 0x00100640)), (one, cell_at(0, 0x80100640) + cell_at(1, 0xF0100641) + cell_at(2, 0x01100640)),
        # Virtual paths: cells of any channel, and of paths without a connection.
        (path, channels), (path, channels * 2), (path_between, cell_at(0, 0x80100640) + cell_at(1, 0x80100040) + cell_at(2, 0x00100640)),
        (path + b"setup 3 100 p1 cbr1:1/1\n", channels), (one + b"setup 1 * p1 cbr1:1/1\n", channels), (path + b"release 1 *\n", channels),
        # Two links, at once and later; and records of each reason, in the wrong order.
        (one, cell_at(0, flags=1) + cell_at(1)), (one, ones + cell_at(6, flags=3) + b"no record"), (one, cell_at(9, flags=0x10) + cell_at(8, kind=2) + ones),
    ]
    cases = [Case(script, octets, 1000, None, lines) for script, octets in given for lines in ("all", "refused", "none")]
    cases += [Case(full_card(), cell_at(0, 0x03F003F0) + cell_at(1, 0), 1000, None, "all"), Case(one + b"\n" * 10**6, ones, 1000, None, "none")]
    both = cell_at(0) + cell_at(1, flags=1) + cell_at(2, flags=2) + cell_at(3)
    cases += [Case(one, both, 1000, link, "all") for link in ("0", "1", "2", "3", "0:0", "0/0/0")]
    # A tick in the script: alone, the same as asked for, another one, one in a line that isn't the first, and lines that name none.
    named = [b"tick 1us\n", b"tick 1000ns\r\n", b"# a remark\n\n  tick\t1us  \n", b"tick 0ns\n", b"tick 1us 1us\n", b"tick\n", b"Tick 1us\n", b"#tick 1us\n", b"tick 1us\ntick 1us\n"]
    cases += [Case(line + one, ones, tick, None, "all") for line in named for tick in (None, 1000, 1001)]
    cases += [Case(one + named[0], ones, 1000, None, "all"), Case(b"tick 1us", ones, None, None, "all"), Case(b"tick" + b" " * 70_000 + b"1us\n" + one, ones, None, None, "all")]
    # Spans: shorter than a tick, with and without cells, with cells that aren't judged, and up to the last moment.
    apart = ones + cell_at(20, 0x00100650) + cell_at(31, 0x00100650) + cell_at(45) + cell_at(45)
    cases += [Case(one, apart, 1000, None, lines, every) for lines in ("all", "none") for every in (1, 999, 1000, 4000, 5000, 5999, 20_000, 10**6, 2**64 - 1)]
    cases += [Case(one, both, 1000, link, "none", 1000) for link in (None, "0", "1")]
    cases += [Case(one, octets, 1000, None, "none", 1000) for octets in (b"", ones[:-1], ones + ones[:16])]
    # Commands under traffic: at, before and after the moments of cells; lines without their own time; commands that aren't taken; times that fall.
    timed = [
        b"at 4us reload 1 100 p2\n", b"at 4001ns reload 1 100 p2\n", b"at 3999ns reload 1 100 p2\n", b"at 0s reload 1 100 p2\n", b"at 1s reload 1 100 p2\nat 2s retire p1",
        b"at 4us\n# a remark\nreload 1 100 p2\n\n\tat 5us  reload 1 100 p1\r\n", b"at 4us load 0006000000000000\n load 0006000000000001\nreload 1 100 p3\n",
        b"at 4us release 1 100\ncut 1 100\ncell 0 00100640\n", b"at 4us setup 2 2 p1 cbr1:1/1\nretire p2\n", b"at 5us reload 1 100 p2\nat 4us reload 1 100 p1\n",
        b"at 5 reload 1 100 p2\n", b"at 5us\n", b"at 4us # a remark\n", b"at 4us at 5us reload 1 100 p2\n", b"at 18446744073709551615ns reload 1 100 p2\n", b"At 4us reload 1 100 p2\n",
        b"at 4us reload 1 101 p2\n", b"at 4us tick 1us\n",
    ]
    two = one.replace(b"setup", b"load 0006000000000000\nsetup", 1)
    cases += [Case(two + line, ones + cell_at(20), 1000, None, lines, every) for line in timed for lines, every in (("all", None), ("none", None), ("none", 4000))]
    # Without files of rules the column of the rule has none.
    cases += [Case(two + line, ones + cell_at(20), 1000, None, lines, 4000, True) for line in timed[:4] for lines in ("all", "refused", "none")]
    cases += [Case(one, octets, 1000, None, "all", None, True) for octets in (b"", channels, apart, both, ones[:-1])]
    cases += [Case(b"at 0us " + one, ones, 1000, None, "all"), Case(b"tick 1us\nat 0us tick 1us\n" + one, ones, None, None, "all")]
    # Cells after a loss.
    cases += [Case(one, ones[:68] + lossy(cell_at(4)) + cell_at(5), 1000, None, lines) for lines in ("all", "none")]
    return cases + [Case(one, cell_at(0) + record(LAST_TIME, bytes.fromhex("00100641")), tick, None, "all") for tick in (1, 100, 10**9)]
