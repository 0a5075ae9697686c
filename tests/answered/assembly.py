"""Sources as `upc check` answers them.

A row of a table is a source, an arrow and an answer. In a source `|` means a line feed; it isn't a token. A code is written as the digits of its
instructions' octets, a fault of the assembler as its number, its name and its line, one of the check with `verify` before it.
"""
from .case import Case, checked

# Line ends, blanks and comments.
LAWFUL = """\
| => no code
 => no code
||| => no code
\r|\r| => no code
 \t  => no code
\t\r|  => no code
; => no code
; a remark => no code
 ;|\t; another\r| => no code
ret a => 0016000000000000
ret a| => 0016000000000000
ret a\r| => 0016000000000000
|| ret a || => 0016000000000000
ret a; => 0016000000000000
ret a ; one ; two => 0016000000000000
ret a;ret x => 0016000000000000
ret a ; \x00\x0c\xe9\r # 9a => 0016000000000000
ret a;\r => 0016000000000000
ret a;\r\r| => 0016000000000000
ret #1\r|ret #2|ret #3 => 0006000000000001 0006000000000002 0006000000000003
ld #5;|ret a => 0000000000000005 0016000000000000
"""

# Octets that don't end a line, separate words or begin a comment.
FAULTY = """\
ret a\r => 1 BadLine 1
ret a\r\r| => 1 BadLine 1
ret\ra| => 1 BadLine 1
\rret a| => 1 BadLine 1
ret a\rret a| => 1 BadLine 1
\r => 1 BadLine 1
\r\r| => 1 BadLine 1
|\r => 1 BadLine 2
|;|\r| |; ret a|ret x => 1 BadLine 6
re;t a => 1 BadLine 1
ld [3;] => 1 BadLine 1
ret #|1 => 1 BadLine 1
# a remark => 1 BadLine 1
ret a # a remark => 1 BadLine 1
ret a // a remark => 1 BadLine 1
ret #1 # 2 => 1 BadLine 1
ret\x0ba => 1 BadLine 1
ret\x0ca => 1 BadLine 1
\x0cret a => 1 BadLine 1
ret a\x0c| => 1 BadLine 1
ret\x00a => 1 BadLine 1
ret a\x00 => 1 BadLine 1
ret\xa0a => 1 BadLine 1
ret a\x85| => 1 BadLine 1
\ufeffret a => 1 BadLine 1
r\xe9t a => 1 BadLine 1
a\xe9: ret a => 1 BadLine 1
"""

# Lines with a bad number and another error.
BAD_NUMBER_LINES = """\
9a => 2 BadNumber 1
9a: ret a => 2 BadNumber 1
ja 9a => 2 BadNumber 1
jeq x, 9a, 1 => 2 BadNumber 1
ret a 9a => 2 BadNumber 1
no such line 9a => 2 BadNumber 1
? ret 9a => 2 BadNumber 1
ret a ? 9a => 2 BadNumber 1
?9a? => 2 BadNumber 1
\x00\x0c\xe99a => 2 BadNumber 1
9a\xe9 => 2 BadNumber 1
\r9a => 2 BadNumber 1
9a\r => 2 BadNumber 1
#9a => 2 BadNumber 1
ret 1 0x => 2 BadNumber 1
ldxb 3*([9a]&0xf) => 2 BadNumber 1
ldxb 4*([3]&0xg) => 2 BadNumber 1
a: ret a|a: ret #9a => 2 BadNumber 2
ret x|ret #9a => 1 BadLine 1
ret x ; 9a => 1 BadLine 1
ret a ; 9a => 0016000000000000
; 9a|ret a => 0016000000000000
ja x9a|x9a: ret a => 0005000000000000 0016000000000000
ja _9|_9: ret a => 0005000000000000 0016000000000000
"""

# Lines with a minus.
MINUS_LINES = """\
ret #-1 => 00060000ffffffff
ret # - 1 => 00060000ffffffff
ret\t#\t-\t01 => 00060000ffffffff
ret #-0 => 0006000000000000
ret #-00 => 0006000000000000
ret #-0x0 => 0006000000000000
ret #-2147483648 => 0006000080000000
ret #-4294967295 => 0006000000000001
ret #-0xffffffff => 0006000000000001
ret #-4294967296 => 2 BadNumber 1
ret #-0x100000000 => 2 BadNumber 1
ret #-9a => 2 BadNumber 1
ld #--1 => 1 BadLine 1
ld #+1 => 1 BadLine 1
ld #- => 1 BadLine 1
ld #-len => 1 BadLine 1
ld -#1 => 1 BadLine 1
ld -1 => 1 BadLine 1
ld [-1] => 1 BadLine 1
ld [#-1] => 1 BadLine 1
ldh [x-1] => 1 BadLine 1
ldb [x+-1] => 1 BadLine 1
ld M[-1] => 1 BadLine 1
stx M[-0] => 1 BadLine 1
ldxb -4*([1]&0xf) => 1 BadLine 1
ldxb 4*([-1]&0xf) => 1 BadLine 1
ldxb 4*([1]&-15) => 1 BadLine 1
ldx #-4*([1]&0xf) => 1 BadLine 1
add -1 => 1 BadLine 1
add -x => 1 BadLine 1
add #-x => 1 BadLine 1
ret -1 => 1 BadLine 1
ja -1 => 1 BadLine 1
jeq -1, a|a: ret a => 1 BadLine 1
"""

# Lines with no, one and several labels.
LABELLED = """\
jeq: jeq x, x, jeq2|x: jeq2: ret a => 1 BadLine 2
jeq: jeq x, x|x: ret a => 001d000000000000 0016000000000000
a:|b:||c: ret a => 0016000000000000
jeq x, mod, xor|mod: mod x|xor: xor x|ret a => 001d000100000000 009c000000000000 00ac000000000000 0016000000000000
ja b|a:|b: ret a => 0005000000000000 0016000000000000
a: b: ret a => 1 BadLine 1
a:: ret a => 1 BadLine 1
a:b:|ret a => 1 BadLine 1
: ret a => 1 BadLine 1
: => 1 BadLine 1
a b: ret a => 1 BadLine 1
a ret a => 1 BadLine 1
ret a a: => 1 BadLine 1
ret a: ret a => 1 BadLine 1
1: ret a => 1 BadLine 1
a-b: ret a => 1 BadLine 1
a.b: ret a => 1 BadLine 1
M[0]: ret a => 1 BadLine 1
#a: ret a => 1 BadLine 1
a => 1 BadLine 1
ret a, ret a => 1 BadLine 1
ret a ret a => 1 BadLine 1
ja End|end: ret a => 4 UnknownLabel 1
ja END|END: ret #1|end: ret #2 => 0005000000000000 0006000000000001 0006000000000002
"""

# The lowest line with its own error. Within a line, LabelTwice comes last.
FAULTY_LINES = """\
a: ret a|a: ret a => 3 LabelTwice 2
a:|a: ret a => 3 LabelTwice 2
a:|a:|a: => 3 LabelTwice 2
a: ret a|b: ret a|a:|ret x => 3 LabelTwice 3
a: ret a||;|b: ret a||b: ret a|a: ret a => 3 LabelTwice 6
a: ret a|a: ret x => 1 BadLine 2
a: ret a|a: a: ret a => 1 BadLine 2
a: ret a|a: ret 9a => 2 BadNumber 2
a: ret a|ret x|a: ret a => 1 BadLine 2
a: ret x|a:|a: => 1 BadLine 1
ret x|ret #9a => 1 BadLine 1
ret #9a|ret x => 2 BadNumber 1
"""

# Labels that no instruction follows. Errors of single lines come before them.
DANGLING = """\
a: => 7 DanglingLabel 1
ret a|a: => 7 DanglingLabel 2
ret a|a:|b:| => 7 DanglingLabel 2
ret a||a: ; one||; two|b: => 7 DanglingLabel 3
a:|ret a|b: => 7 DanglingLabel 3
a: ret a|b:|ret a|c:||d: => 7 DanglingLabel 4
a:|ret x => 1 BadLine 2
a:|9a => 2 BadNumber 2
a:|b:|a: => 3 LabelTwice 3
"""

# Errors of operands come after them.
DANGLING_BEFORE_OPERANDS = """\
ja end|end: => 7 DanglingLabel 2
ja gone|end: => 7 DanglingLabel 2
jeq x, a, gone|a: ja a|b: => 7 DanglingLabel 3
ja gone|a: ret a|a: => 3 LabelTwice 3
ja gone|ret x => 1 BadLine 2
a: ja a|a: 1x => 2 BadNumber 2
"""

# The first operand with an error, by line and then from left to right. Its line is the jump's.
OPERANDS = """\
top: jeq x, top, gone|ret a => 5 Backward 1
top: jeq x, gone, top|ret a => 4 UnknownLabel 1
jeq x, gone, lost|ret a => 4 UnknownLabel 1
jeq x, on, gone|on: ret a => 4 UnknownLabel 1
top: jeq x, on, top|on: ret a => 5 Backward 1
a: ja a|ret a => 5 Backward 1
a: jeq x, a|ret a => 5 Backward 1
a: jle #1, a|ret a => 5 Backward 1
a:||; on|jmp a|ret a => 5 Backward 4
top: ld #1|ja top|ret a => 5 Backward 2
top:|ld #1||jne x, top|ret a => 5 Backward 4
ja on|on: ret a => 0005000000000000 0016000000000000
jlt x, on|on: ret a => 003d000000000000 0016000000000000
ja gone|a: ja a|ret a => 4 UnknownLabel 1
a: ja a|ja gone|ret a => 5 Backward 1
|; on|on:|ja gone|ret a => 4 UnknownLabel 4
ret #1|jset #1, on, gone||on: ret a => 4 UnknownLabel 2
"""

# Sources with arithmetic. The assembler checks no divisor and no shift: that comes after it.
ARITHMETIC = """\
ld [0]|mod #7|ret a => 0020000000000000 0094000000000007 0016000000000000
ld [0]|xor #0xffffffff|ret a => 0020000000000000 00a40000ffffffff 0016000000000000
ld [0]|xor x|mod x|ret a => 0020000000000000 00ac000000000000 009c000000000000 0016000000000000
mod #0|div #0|xor #0|ret a => verify 4 ZeroDivisor 0
lsh #32|mod #-7|xor #-1 => verify 5 BadShift 0
lsh #31|mod #-7|xor #-1|ret a => 006400000000001f 00940000fffffff9 00a40000ffffffff 0016000000000000
mod 7|ret a => 1 BadLine 1
mod x, x|ret a => 1 BadLine 1
xor M[0]|ret a => 1 BadLine 1
xor a|ret a => 1 BadLine 1
Mod x|ret a => 1 BadLine 1
XOR x|ret a => 1 BadLine 1
"""

TABLES = (LAWFUL, FAULTY, BAD_NUMBER_LINES, MINUS_LINES, LABELLED, FAULTY_LINES, DANGLING, DANGLING_BEFORE_OPERANDS, OPERANDS, ARITHMETIC)

# Words and their values.
NUMBERS = """\
0 => 00000000
00 => 00000000
7 => 00000007
08 => 00000008
010 => 0000000a
0x0 => 00000000
0x10 => 00000010
0X10 => 00000010
0XfF => 000000ff
0xabcdef => 00abcdef
0xABCDEF => 00abcdef
1234567890 => 499602d2
2147483648 => 80000000
4294967295 => ffffffff
00000000000000000000004294967295 => ffffffff
0xffffffff => ffffffff
0x0000000000000000000000ffffffff => ffffffff
0x9 => 00000009
"""

# Words that begin with a digit and aren't numbers.
BAD_NUMBERS = """\
9a 1_0 00x1 0x 0X 0xg 0x1g 0x_1 0x1_ 0x0x1 1x0 0b1 0o7 0_ 0a 1e3 5u32 4294967296 42949672950
0x100000000 18446744073709551616 18446744073709551617 0x10000000000000001
99999999999999999999999999 340282366920938463463374607431768211456
0x100000000000000000000000000000000
"""

# Lines with a number in place of `N`, and the octets before its value.
PLACES = """\
ret #N => 00060000
ld #N => 00000000
ldx #N; => 00010000
rsh #N => 00740000
jset #N, last => 00450000
ldh [N] => 00280000
ldb [x+N] => 00500000
ldx M[N] => 00610000
st M[N] => 00020000
ldxb 4*([N]&0xf) => 00b10000
"""

# Names that have another meaning elsewhere in a line, and names that look like numbers.
NAMES = """\
ld ldh ldb ldx ldxb st stx add sub mul div or and lsh rsh mod xor neg ja jmp jeq jgt jge jset jne jneq
jlt jle ret tax txa a x M len A X m LEN Ret L0 L1 _ __ _1 _0x x1 x9a a_b xf end END e3
abcdefghijklmnopqrstuvwxyz_ABCDEFGHIJKLMNOPQRSTUVWXYZ_0123456789
"""

# Jumps to a label `N` that has an instruction on its line.
BESIDE = "N0: ja N|jeq x, N, N|jne #1, N|N: ret a"

# The same jumps to a label `N` alone on its line, with other blanks.
ALONE = "ja N|jeq x,N ,N|jneq#1,N|\tN :;||ret a"

# The octets of both.
THEIR_OCTETS = "0005000000000002 001d010100000000 0015000000000001 0016000000000000"

# Tokens separated by blanks, their octets, and their form in a listing. Two instructions follow, `near` and `far`.
SPELLINGS = """\
ld [ 3 ] => 0020000000000003 => ld [3]
ldh [ 3 ] => 0028000000000003 => ldh [3]
ldb [ 3 ] => 0030000000000003 => ldb [3]
ld [ x + 3 ] => 0040000000000003 => ld [x+3]
ldh [ x + 3 ] => 0048000000000003 => ldh [x+3]
ldb [ x + 3 ] => 0050000000000003 => ldb [x+3]
ld # 5 => 0000000000000005 => ld #5
ld M [ 15 ] => 006000000000000f => ld M[15]
ld # len => 0080000000000000 => ld #len
ldx # 5 => 0001000000000005 => ldx #5
ldx M [ 15 ] => 006100000000000f => ldx M[15]
ldx # len => 0081000000000000 => ldx #len
ldxb 4 * ( [ 14 ] & 0xf ) => 00b100000000000e => ldxb 4*([14]&0xf)
ldx 4 * ( [ 14 ] & 0xf ) => 00b100000000000e => ldxb 4*([14]&0xf)
st M [ 0 ] => 0002000000000000 => st M[0]
stx M [ 7 ] => 0003000000000007 => stx M[7]
add # 5 => 0004000000000005 => add #5
sub # 5 => 0014000000000005 => sub #5
mul # 5 => 0024000000000005 => mul #5
div # 5 => 0034000000000005 => div #5
or # 5 => 0044000000000005 => or #5
and # 5 => 0054000000000005 => and #5
lsh # 5 => 0064000000000005 => lsh #5
rsh # 5 => 0074000000000005 => rsh #5
mod # 5 => 0094000000000005 => mod #5
xor # 5 => 00a4000000000005 => xor #5
add x => 000c000000000000 => add x
sub x => 001c000000000000 => sub x
mul x => 002c000000000000 => mul x
div x => 003c000000000000 => div x
or x => 004c000000000000 => or x
and x => 005c000000000000 => and x
lsh x => 006c000000000000 => lsh x
rsh x => 007c000000000000 => rsh x
mod x => 009c000000000000 => mod x
xor x => 00ac000000000000 => xor x
neg => 0084000000000000 => neg
ja far => 0005000000000001 => ja L2
jmp far => 0005000000000001 => ja L2
jeq # 5 , far , near => 0015010000000005 => jeq #5, L2, L1
jgt # 5 , far , near => 0025010000000005 => jgt #5, L2, L1
jge # 5 , near , far => 0035000100000005 => jge #5, L1, L2
jset # 5 , far , far => 0045010100000005 => jset #5, L2, L2
jeq x , far , near => 001d010000000000 => jeq x, L2, L1
jgt x , far , near => 002d010000000000 => jgt x, L2, L1
jge x , near , far => 003d000100000000 => jge x, L1, L2
jset x , far , far => 004d010100000000 => jset x, L2, L2
jeq # 5 , far => 0015010000000005 => jeq #5, L2, L1
jgt # 5 , far => 0025010000000005 => jgt #5, L2, L1
jge # 5 , far => 0035010000000005 => jge #5, L2, L1
jset # 5 , far => 0045010000000005 => jset #5, L2, L1
jeq x , far => 001d010000000000 => jeq x, L2, L1
jgt x , far => 002d010000000000 => jgt x, L2, L1
jge x , far => 003d010000000000 => jge x, L2, L1
jset x , far => 004d010000000000 => jset x, L2, L1
jne # 5 , far => 0015000100000005 => jeq #5, L1, L2
jneq # 5 , far => 0015000100000005 => jeq #5, L1, L2
jlt # 5 , far => 0035000100000005 => jge #5, L1, L2
jle # 5 , far => 0025000100000005 => jgt #5, L1, L2
jne x , far => 001d000100000000 => jeq x, L1, L2
jneq x , far => 001d000100000000 => jeq x, L1, L2
jlt x , far => 003d000100000000 => jge x, L1, L2
jle x , far => 002d000100000000 => jgt x, L1, L2
ret # 5 => 0006000000000005 => ret #5
ret a => 0016000000000000 => ret a
tax => 0007000000000000 => tax
txa => 0087000000000000 => txa
"""

# Branches to `far` over 255 instructions, and their octets.
BRANCHES = """\
jeq #0, far => 0015ff0000000000
jeq x, far, near => 001dff0000000000
jgt #0, near, far => 002500ff00000000
jge x, far, far => 003dffff00000000
jset #0, far => 0045ff0000000000
jne #0, far => 001500ff00000000
jneq x, far => 001d00ff00000000
jlt #0, far => 003500ff00000000
jle x, far => 002d00ff00000000
"""

# Lines before 256 instructions and `far`.
OVER_256 = """\
jeq x, near, far => 6 TooFar 1
jeq x, far, gone => 6 TooFar 1
top: jeq x, far, top => 6 TooFar 1
jeq x, gone, far => 4 UnknownLabel 1
top: jeq x, top, far => 5 Backward 1
ja gone => 4 UnknownLabel 1
top: ja top => 5 Backward 1
"""

# Instructions that are almost correct.
BAD_LINES = """\
ret x
ret
ret 5
ret a, a
ret #5 #5
ret #len
ret M[0]
reta
ret ret a
ret a ret a
neg x
neg #5
tax #5
tax a
txa, txa
mov x
add
add a
add [3]
add M[3]
add #len
add x, x
rem #5
xnor x
ld
ld 5
ld x
ld [x]
ld [3+x]
ld [x+3
ld x+3]
ld [x+]
ld [x*3]
ld [a+3]
ld [3][3]
ld M3
ld M[x]
ld M(3)
ld len
ld #
ld # #5
ldh #5
ldb M[3]
ldh #len
ldx [3]
ldx [x+3]
ldxb #5
ldxb M[3]
ldxb [3]
ldxb 4*[3]&0xf
ldxb 4*([x+3]&0xf)
ldxb ([3]&0xf)*4
ldxh 4*([3]&0xf)
st #5
st [3]
stx x
ja
ja far far
ja #5
jmp far, far
"""

# Branches that are almost correct.
BAD_BRANCHES = """\
jeq
jeq far
jeq #5
jeq #5,
jeq #5 far
jeq , far
jeq a, far
jeq M[3], far
jeq 5, far
jeq #5, #1
jeq #5, 1
jeq #5, far near
jeq #5, far,
jeq #5, far, near, far
jne #5, far, near
jneq x, far, near
jlt x, far, near
jle #5, far, near
"""

# Lines with letters of the wrong case.
OTHER_CASES = """\
LD [3]
Ld [3]
LDXB 4*([3]&0xf)
RET a
ret A
NEG
ADD #5
add X
JEQ x, far
jeq X, far
JA far
ld [X+3]
ld m[3]
st m[3]
ldx #LEN
ld #Len
"""


def answered(source, answer):
    """Returns the case of a source, in which `|` is a line feed, with its answer as in a row."""
    octets = source.replace("|", "\n").encode()
    words = answer.split()
    if answer == "no code":
        return checked(octets, b"fault verify 1 Empty\n", 1)
    if words[0] == "verify":
        return checked(octets, f"fault {answer}\n".encode(), 1)
    if len(words) == 3 and len(words[0]) == 1:
        return checked(octets, f"fault asm {answer}\n".encode(), 1)
    return checked(octets, f"accepted {len(words)}\n{''.join(words)}\n".encode(), 0)


def rows_of(table):
    """Returns the rows of a table. A carriage return ends none."""
    return table.rstrip("\n").split("\n")


def parts_of(row):
    """Returns the source and the answer of a row."""
    source, _, answer = row.partition(" => ")
    return source, answer


def in_rows():
    """Yields the answer in each row of the tables."""
    for table in TABLES:
        for row in rows_of(table):
            yield answered(*parts_of(row))


def refusal(line, value):
    """Returns why the check refuses a line with this number, or nothing."""
    if line.startswith("rsh") and value > 31:
        return "verify 5 BadShift 0"
    if "M[" in line and value > 15:
        return "verify 3 BadScratch 0"
    return f"verify 8 Unwritten 0 {value}" if line.startswith("ldx M") else ""


def of_numbers():
    """Yields each number's value in each place, and that a word that is no number is a BadNumber wherever it stands."""
    for row in rows_of(PLACES):
        line, octets = parts_of(row)
        for number, value in map(parts_of, rows_of(NUMBERS)):
            refused = refusal(line, int(value, 16))
            yield answered(f"{line.replace('N', number)}|last: ret a", refused or f"{octets}{value} 0016000000000000")
        for number in BAD_NUMBERS.split():
            yield answered(f"|{line.replace('N', number)}|last: ret a", "2 BadNumber 2")


def of_header_lengths():
    """Yields that a header length has a 4 and a 15 in any spelling, under both names, and no other numbers."""
    for name in ("ldxb", "ldx"):
        for first in "4 04 0x4 0X04".split():
            for last in "15 015 0xf 0XF 0x00f".split():
                yield answered(f"{name} {first}*([9]&{last})|ret a", "00b1000000000009 0016000000000000")
        for other in "0 1 3 5 0xe 14 16 017 0xff 4294967295".split():
            yield answered(f"{name} {other}*([9]&0xf)", "1 BadLine 1")
            yield answered(f"{name} 4*([9]&{other})", "1 BadLine 1")


def of_names():
    """Yields that jumps find the label of each name, with an instruction on its line and alone."""
    for name in NAMES.split():
        for source in (BESIDE, ALONE):
            yield answered(source.replace("N", name), THEIR_OCTETS)


def of_octets():
    """Yields what each octet is alone, before a bad number, and after an instruction."""
    for octet in range(256):
        alone, before, after = "1 BadLine 1", "2 BadNumber 1", "1 BadLine 1"
        if octet in b" \t\n;":
            alone, after = "no code", "0016000000000000"
            before = {b"\n": "2 BadNumber 2", b";": "no code"}.get(bytes([octet]), before)
        for front, back, answer in (("", "", alone), ("", " 9a", before), ("ret a", "", after)):
            case = answered("", answer)
            yield case._replace(given=front.encode() + bytes([octet]) + back.encode())


def of_bad_lines():
    """Yields that a line that is almost correct is a BadLine, between two correct ones."""
    for line in rows_of(BAD_LINES + BAD_BRANCHES + OTHER_CASES):
        yield answered(f"near: ret #1|{line}|far: ret #2", "1 BadLine 2")


def over(line, others, answer):
    """Returns the case of a first line, then `near`, then this number of other instructions, then `far`."""
    return answered(f"{line}||near: ret #1 ; a remark|{others * 'ret #1|'};|far:||ret #2|", answer)


def octets_over(octets, others):
    """Returns the octets of such a source."""
    return f"{octets} 0006000000000001 {others * '0006000000000001 '}0006000000000002"


def of_jumps():
    """Yields that a branch goes over at most 255 instructions and a jump over any number, and the first operand with a fault."""
    for line, octets in map(parts_of, rows_of(BRANCHES)):
        yield over(line, 254, octets_over(octets, 254))
        yield over(line, 255, "6 TooFar 1")
    for line, others in (("ja far", 254), ("jmp far", 255), ("ja far", 4093)):
        yield over(line, others, octets_over(f"0005{others + 1:012x}", others))
    for line, fault in map(parts_of, rows_of(OVER_256)):
        yield over(line, 255, fault)


def with_gap(tokens, at):
    """Returns tokens with a blank in gap `at`, and otherwise only between two words. Gap 0 is before the first token, the last one after the last;
    a larger `at` is no gap."""
    text, after_word = "", False
    for gap, token in enumerate(tokens):
        is_word = token.replace("_", "a").isalnum()
        text += " " * (gap == at or (after_word and is_word)) + token
        after_word = is_word
    return text + " " * (at == len(tokens))


def spelled(tokens):
    """Yields tokens with blanks as they are, in no gap, in all, and in each."""
    words = tokens.split()
    yield tokens
    yield "\t " + "".join(f"{it}  \t \t" for it in words)
    for at in (len(words) + 1, *range(len(words) + 1)):
        yield with_gap(words, at)


def forms_of(tokens):
    """Yields tokens as they are, with a label before them, and with a negative number in place of `#5`."""
    yield tokens
    yield f"here : {tokens}"
    if "# 5" in tokens:
        yield tokens.replace("# 5", "# - 4294967291")


def of_spellings():
    """Yields each spelling with blanks in any gap, and its listing. A word that is read is stored before."""
    for row in rows_of(SPELLINGS):
        tokens, octets, listed = row.split(" => ")
        is_read = tokens.startswith(("ld M", "ldx M"))
        first, its_octets = ("st M[15]|", "000200000000000f ") if is_read else ("", "")
        code = f"{its_octets}{octets} 0006000000000001 0006000000000002"
        for form in forms_of(tokens):
            for line in spelled(form):
                yield answered(f"{first}{line}|near: ret #1|far: ret #2|", code)
        yield listing_of(code.split(), [*(["st M[15]"] if is_read else []), listed, "ret #1", "ret #2"])


def listing_of(code, lines):
    """Returns the case that `upc-lab list` prints these lines for a code whose last two instructions are returns."""
    text = "".join(f"L{place}: {line} ; {octets}\n" for place, (line, octets) in enumerate(zip(lines, code)))
    longest = 1 if lines[0].startswith("ret") else len(lines) - 1
    return Case(("upc-lab", "list"), "".join(code).encode() + b"\n", f"{text}; longest {longest}\n".encode(), 0)


def cases():
    """Yields the cases of all tables."""
    for some in (in_rows, of_numbers, of_header_lengths, of_names, of_octets, of_bad_lines, of_jumps, of_spellings):
        yield from some()
