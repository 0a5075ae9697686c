"""What `upc-lab police` and `fit` print for captures by hand, and which files a setup reads."""
import struct

from .case import Case


def record_of(seconds, channel, interface=0):
    """Returns a record with a cell of path 1 and this channel, received after this many seconds at this interface."""
    header = 1 << 20 | channel << 4
    return struct.pack("<II", 0, seconds) + struct.pack(">BBHHHI", 3, interface, 68, 0, 52, header) + bytes(48)


def capture_of(*records):
    """Returns a capture of such records."""
    return b"".join(record_of(*it) for it in records)


def policed(setup, capture, answer, files=None, status=None, words=("--tick", "1s"), errors=b""):
    """Returns the case that `police` prints this for a capture, with a tick of a second."""
    status = int(answer.startswith("fault ")) if status is None else status
    files = {"setup": setup, **(files or {})}
    return Case(("upc-lab", "police", "setup", *words), capture, answer.encode(), status, files, errors)


# A script for one connection: an increment of 4 and a limit of 1, and journals of one entry.
ONE = b"card 1 1 1 1\nload 0006000000000001\nsetup 1 5 p1 cbr1:4/1\n"
# Excesses, a journal that is full, and a cell without a connection.
FIVE = """\
record	moment	vpi	vci	clp	value	verdict	bucket	excess
1	0	1	5	0	1	pass	-	-
2	3	1	5	0	1	pass	-	-
3	6	1	5	0	1	discard	1	1
4	7	1	6	0	-	NoConnection	-	-
5	8	1	5	0	1	pass	-	-

vpi	vci	passed	tagged	discarded	refused
1	5	3	0	1	0
# 1 not judged: no connection; first record 4
# a tick is 1000000000 ns
"""
# A script for two connections, each with rules of its own.
TWO_RULES = b"card 2 2 1 9\nrules first\n rules\tsecond\r\nsetup 1 5 p1 cbr1:4/1\nsetup 1 6 p2 cbr1:4/1"
TWO = """\
record	moment	vpi	vci	clp	value	verdict	bucket	excess
1	0	1	5	0	1	pass	-	-
2	1	1	6	0	0	refuse	-	-

vpi	vci	passed	tagged	discarded	refused
1	5	1	0	0	0
1	6	0	0	0	1
# a tick is 1000000000 ns
"""
MISSPELLED = """\
fault rules 10 UnknownName 2 1
line 3: in the rules of `second`: line 2 column 1: `othrewise` is no word of rules, and no line before gives it as a name; perhaps `otherwise` is meant
"""
HINT = b"# hint line 5 column 11: this program never returns 1, the number of the contract, so each cell of the connection is refused\n"
FULL = "fault desk 6 ProgramsFull\nline {} column 1: the card has no room for a program; `retire` makes some\n"
# Scripts, and the names of the files that are read for each.
FILES = (
    (TWO_RULES, "first second"),
    # A card with room for one program: the second line can't load one, until one is retired.
    (b"card 1 1 1 9\nrules a\nrules b\nretire p1\nrules c", "a c"),
    # A program that is retired makes no more room than the card has.
    (b"card 1 1 1 9\nretire p1\nretire p1\nrules a\nrules b", "a"),
    # Without a card nothing is loaded, and a card of no shape ends the run.
    (b"# one\nrules a\ncard 1 1 1 9\nrules b", ""),
    (b"card 0 1 1 9\nrules a", ""),
    (b"card 1025 1 1 9\nrules a", ""),
)
RULES = b"otherwise -> 1\n"


def of_police():
    """Yields what `police` prints for setups with and without rules, and for faulty ones."""
    yield policed(ONE, capture_of((0, 5), (3, 5), (6, 5), (7, 6), (8, 5)), FIVE)
    sentence = "line 2 column 1: `setpu` is no command; perhaps `setup` is meant\n"
    yield policed(b"card 1 1 1 1\nsetpu 1 5 p1 cbr1:4/1\n", capture_of((0, 5)), "fault script 1 BadLine\n" + sentence)
    both = capture_of((0, 5), (1, 6))
    yield policed(TWO_RULES, both, TWO, {"first": RULES, "second": b"otherwise -> refuse\n"}, errors=HINT)
    yield policed(TWO_RULES, both, MISSPELLED, {"first": RULES, "second": b"# one\nothrewise -> 0\n"})
    for other in (b"vci 6 -> 7\n", b""):
        yield policed(b"card 1 1 1 9\nrules first\nrules second\n", both, FULL.format(3), {"first": RULES, "second": other})


def of_threads():
    """Yields that two threads print what one does, for a capture longer than two buffers that records are read from."""
    capture = capture_of(*((number // 100, 5 + number % 7 // 5) for number in range(20_000)))
    words = ("upc-lab", "police", "setup", "--tick", "1s", "--threads")
    for one, other in (("1", "2"), ("2", "1")):
        yield Case((*words, one), capture, lambda run, other=other: run((*words, other), capture), 0, {"setup": ONE})


def of_files():
    """Yields that a file is read just if a card could load its rules: a setup is refused without it, and isn't without any other."""
    for setup, names in FILES:
        there = {it: RULES for it in names.split()}
        yield policed(setup, b"", "", there, None, errors=None)._replace(seen=lambda _: b"", status=1)
        for missing in there:
            files = {it: octets for it, octets in there.items() if it != missing}
            yield policed(setup, b"", "", files, 3, errors=None)


# The records for `fit`: of each the seconds, the channel and the interface.
RECORDS = ((0, 101, 0), (3, 100, 0), (10, 101, 0), (14, 101, 0), (20, 101, 0), (33, 100, 0), (33, 101, 1), (30, 101, 0))
HEADING = "vpi\tvci\tcells\tlimit\trecord\n"
# How many of the records there are, the words, the rules, and the output.
LIMITS = (
    (0, "--increment 10", None, "fault file 7 Empty\n"),
    (6, "--increment 10", None, f"{HEADING}1\t100\t2\t0\t2\n1\t101\t4\t10\t5\n"),
    (8, "--increment 4 --link 0", None, f"{HEADING}1\t100\t2\t0\t2\n1\t101\t4\t0\t1\n"
        "# 1 passed over: a time before that of an earlier cell; first record 8\n# 1 passed over: another link; first record 7\n"),
    (7, "--increment 10", None, "fault link 1 Several 0 1\n"),
    (6, "--increment 10 --paths", None, f"{HEADING}1\t*\t6\t20\t5\n"),
    (6, "--increment 10 --rules rules", b"vci 100 -> 4294967295\nvci 102 -> 1\n",
        "vpi\tvci\tvalue\tcells\tlimit\trecord\n1\t100\t4294967295\t2\t0\t2\n1\t101\t0\t4\t10\t5\n"),
    (6, "--increment 10 --rules rules --paths", b"vci 100 -> 2\notherwise -> 1\n",
        "vpi\tvci\tvalue\tcells\tlimit\trecord\n1\t*\t1\t4\t10\t5\n1\t*\t2\t2\t0\t2\n"),
    (6, "--increment 10 --rules rules", b"vpi any -> 1\n", "rules: fault rules 1 BadLine 1 5\n"),
)


# Captures of 65,536 cells of one moment, the increment, and the fault: together the cells of one connection are 2^64 ticks, the second has a
# connection for each cell.
TOO_MUCH = (
    (65_536 * record_of(0, 5), 2**48, "2 TooLarge"),
    (b"".join(record_of(0, number) for number in range(65_536)), 1, "1 TooManyConnections"),
)


def of_fit():
    """Yields least limits."""
    for count, words, rules, answer in LIMITS:
        files = {} if rules is None else {"rules": rules}
        words = ("upc-lab", "fit", "--tick", "1s", *words.split())
        yield Case(words, capture_of(*RECORDS[:count]), answer.encode(), int("fault " in answer), files)
    for capture, increment, fault in TOO_MUCH:
        words = ("upc-lab", "fit", "--increment", str(increment))
        yield Case(words, capture, f"fault fit {fault} 65536\n".encode(), 1)


# Words that a subcommand refuses.
WRONG = (
    ("cells", "1us", "--tick", "--tick 0ns", "--tick 1", "--tick 1.5us", "--tick 1us --tick 1us", "--link 8", "--link -1", "--link", "--link :0",
        "--link 0:", "--link 0/0", "--link 0/16/0", "--link 0/0/2048", "--link 18446744073709551616:0", "--record=1", "--threads 2"),
    ("fit", "", "--increment 0", "--increment 281474976710657", "--increment x", "--increment 1 --side both", "--increment 1 --tick 0s",
        "--increment 1 --link 8", "--increment 1 --clp 2", "--increment 1 --paths yes", "--increment 1 --rules="),
    ("police", "", "a b", "a --lines passed", "a --lines", "a --tick 0s", "a --link 8", "a --threads 0", "a --threads 3", "a --time late",
        "a --threads two", "--lines none"),
    ("explain", "a.setup", "--setup", "--setup=", "--setup a --setup b"),
)
# The output for two cells, of which the second is of another link.
LINKED = b"""\
vpi\tvci\tpassed\ttagged\tdiscarded\trefused
1\t5\t1\t0\t0\t0
# a tick is 100 ns
# 1 passed over: another link; first record 2
"""
# Words that a subcommand takes, and what it prints of a cell at interface 1 that comes first and of one at interface 3, a second and a half later.
TAKEN = (
    ("cells --link 1", "cell 0 {one}\n# 1 passed over: another link; first record 2\n"),
    ("cells --tick=2ns --record --link=3", "# record 2\ncell 750000000 {other}\n# 1 passed over: another link; first record 1\n"),
    ("cells --link 3 --tick 1s --time packet", "cell 2 {other}\n# 1 passed over: another link; first record 1\n"),
    ("cells --time=record --link 1 --record", "# record 1\ncell 0 {one}\n# 1 passed over: another link; first record 2\n"),
    ("cells --link 18446744073709551615:1/15/2047", "# 2 passed over: another link; first record 1\n"),
    ("fit --side=nni --link 3 --increment=281474976710656 --clp 0", HEADING + "1\t5\t1\t0\t2\n# 1 passed over: another link; first record 1\n"),
)


def of_words():
    """Yields words that are refused, those that ask for help, and those that are taken."""
    for name, *lines in WRONG:
        for line in lines:
            yield Case(("upc-lab", name, *line.split()), b"", b"", 2, errors=None)
    for line in ("--help", "-h", "--tick 1us --help"):
        yield Case(("upc-lab", "cells", *line.split()), b"", b"", 0, seen=lambda text: text[:0] if b"--link <LINK>" in text else text)
    # The setup is a file with the name of a word.
    words = "--lines=none --threads=2 --link=3 -- --tick".split()
    yield Case(("upc-lab", "police", *words), capture_of((0, 5, 3), (1, 5)), LINKED, 0, {"--tick": ONE})
    yield Case(("upc-lab", "explain", "--setup=--tick"), b"", b"no fault in 3 lines\n", 0, {"--tick": ONE})
    one, other = record_of(0, 5, 1), struct.pack("<II", 0x8000_0000, 1) + record_of(0, 5, 3)[8:]
    for line, answer in TAKEN:
        text = answer.format(one=one[16:].hex(), other=other[16:].hex())
        yield Case(("upc-lab", *line.split()), one + other, text.encode(), 0)


def cases():
    """Yields all cases."""
    for some in (of_police, of_threads, of_files, of_fit, of_words):
        yield from some()
