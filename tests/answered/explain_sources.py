"""Each fault of a source, as `upc-lab explain` explains it."""
from .case import check_variants, explained

# The first lines of a source, the number of lines `tax` after them, the last lines, and the whole answer.
SOURCES = (
    (
        b"jeqq #7, a",
        0,
        b"",
        b"fault asm 1 BadLine 1\n"
        b"line 1 column 1: `jeqq` is no mnemonic; perhaps `jeq` is meant\n",
    ),
    (
        b"x: y: ret #1",
        0,
        b"",
        b"fault asm 1 BadLine 1\n"
        b"line 1 column 4: `y` is no mnemonic\n",
    ),
    (
        b"# a remark",
        0,
        b"",
        b"fault asm 1 BadLine 1\n"
        b"line 1 column 1: `#` begins no instruction and no label; a comment begins with `;`\n",
    ),
    (
        b"ld #0x",
        0,
        b"",
        b"fault asm 2 BadNumber 1\n"
        b"line 1 column 5: `0x` is no number; a number is of decimal digits, or of hexadecimal digits after 0x, and at most 4294967295\n",
    ),
    (
        b"a: ret #1\n"
        b"a: ret #2",
        0,
        b"",
        b"fault asm 3 LabelTwice 2\n"
        b"line 2 column 1: the label `a` is on line 1 already; a label names one place\n",
    ),
    (
        b"jset #-1, a; b",
        0,
        b"",
        b"fault asm 4 UnknownLabel 1\n"
        b"line 1 column 11: no line has the label `a`; it belongs before an instruction further down\n",
    ),
    (
        b"b: ld #1\n"
        b"jeq #1, a, b\n"
        b"a: ret #2",
        0,
        b"",
        b"fault asm 5 Backward 2\n"
        b"line 2 column 12: the label `b` is on line 1; a jump leads to an instruction further down\n",
    ),
    (
        b"a: ja a\n"
        b"ret #1",
        0,
        b"",
        b"fault asm 5 Backward 1\n"
        b"line 1 column 7: the label `a` is on line 1; a jump leads to an instruction further down\n",
    ),
    (
        b"jeq #1, b\n"
        b"jgt x, a\n"
        b"b: ret #1\n",
        256,
        b"a: ret #2",
        b"fault asm 6 TooFar 2\n"
        b"line 2 column 8: the label `a` is on line 260, over more than 255 instructions; `ja` goes further\n",
    ),
    (
        b"ret #1\n"
        b"a:",
        0,
        b"",
        b"fault asm 7 DanglingLabel 2\n"
        b"line 2 column 1: no instruction follows the label `a`\n",
    ),
    (
        b"; nothing",
        0,
        b"",
        b"fault verify 1 Empty\n"
        b"no line has an instruction; the shortest program is `ret #0`\n",
    ),
    (
        b"",
        4096,
        b"ret a",
        b"fault verify 2 TooLong\n"
        b"line 4097 column 1: this is instruction 4097, and a program has at most 4096\n",
    ),
    (
        b"ret #1\n"
        b" st M[16]\n"
        b"ret #1",
        0,
        b"",
        b"fault verify 3 BadScratch 1\n"
        b"line 2 column 7: there are 16 scratch words, M[0] to M[15]\n",
    ),
    (
        b"a: div #0\n"
        b"ret a",
        0,
        b"",
        b"fault verify 4 ZeroDivisor 0\n"
        b"line 1 column 9: the divisor is 0; a constant divisor is at least 1\n",
    ),
    (
        b"\n"
        b"lsh #32\n"
        b"ret a",
        0,
        b"",
        b"fault verify 5 BadShift 0\n"
        b"line 2 column 6: a constant shift is by 0 to 31 bits\n",
    ),
    (
        b"ret #1\n"
        b"\n"
        b"a: tax ; x",
        0,
        b"",
        b"fault verify 7 NoReturn\n"
        b"line 3 column 4: the last instruction is to be a return, as `ret #0`\n",
    ),
    (
        b"jeq #1, a\n"
        b"st M[3]\n"
        b"\n"
        b"a: ldx M[3]\n"
        b"ret a",
        0,
        b"",
        b"fault verify 8 Unwritten 2 3\n"
        b"line 4 column 10: M[3] is read here, and no instruction on this path stores it: lines 1 4\n",
    ),
    (b"ret #1", 0, b"", b"accepted 1\n"),
    (
        b"ld [48]\n"
        b"ldb [52]\n"
        b"ret a",
        0,
        b"",
        b"accepted 3\n"
        b"hint line 2 column 6: a cell has the octets 0 to 51, so this load always ends the program with 0\n",
    ),
)


# No source has a jump that leaves the program: a label names one of its lines.
NEVER = {"verify": {"JumpOutside"}, "asm": {"NoMemory"}}


def cases():
    """Yields the explanation of each source."""
    for group, path, name in (("asm", "crates/bpf_asm/src/fault.rt", "AsmKind"), ("verify", "crates/bpf_verify/src/fault.rt", "Fault")):
        met = {answer.split()[3].decode() for *_, answer in SOURCES if answer.startswith(f"fault {group} ".encode())}
        check_variants(path, name, met, NEVER[group])
    for first, count, last, answer in SOURCES:
        yield explained(b"source\n" + first + count * b"tax\n" + last, answer)
