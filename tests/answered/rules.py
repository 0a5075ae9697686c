"""Texts of rules by hand: their faults, values of cells, and comparisons with other texts and with programs, as docs/RULES.md has them."""
from .case import Case, digits_of

# The faults of texts, in order of their numbers from 1.
KINDS = "BadLine BadNumber TooLarge OutsideCell AfterOtherwise Unbalanced TooDeep TooLong NoMemory UnknownName NameTaken".split()

# Texts of rules, each with its fault, and the line and the column of that.
FIRST = (
    (b"any any", "BadLine", 1, 5),
    (b"Any -> 1", "UnknownName", 1, 1),
    (b"7 -> 1", "BadLine", 1, 3),
    (b"1-2 -> 1", "BadLine", 1, 2),
    (b"1/*, 2 -> 1", "BadLine", 1, 4),
    (b"vci < 1, 2 -> 1", "BadLine", 1, 8),
    (b"vci ! = 1 -> 1", "BadLine", 1, 5),
    (b"any ->", "BadLine", 1, 7),
    (b"any -> # 1", "BadLine", 1, 7),
    (b"any -> 1 x", "UnknownName", 1, 10),
    (b"any -> 1\r\nside uni x", "BadLine", 2, 1),
    (b"side nni\ngfc 1 -> 1", "BadLine", 2, 1),
    (b"any {\notherwise -> 3\n}", "BadLine", 2, 1),
    (b"vci 5 -> 01x", "BadNumber", 1, 10),
    (b"any -> 4294967296", "BadNumber", 1, 8),
    (b"256/5 -> 1", "TooLarge", 1, 1),
    (b"vpi 256 -> 1", "TooLarge", 1, 5),
    (b"vci 5..4 -> 1", "TooLarge", 1, 8),
    (b"vci & 0x10000 = 1 -> 1", "TooLarge", 1, 7),
    (b"half 51 = 1 -> 1", "OutsideCell", 1, 6),
    (b"otherwise -> 3\n\n any -> x", "AfterOtherwise", 3, 2),
    (b"\n any {\n  oam {\n}\n", "Unbalanced", 2, 2),
    (b"} x", "Unbalanced", 1, 1),
    (b" (any or (oam) -> 1", "Unbalanced", 1, 2),
    (b"((any or oam {", "Unbalanced", 1, 1),
    (b"any) -> 1", "Unbalanced", 1, 4),
)

# Texts with parentheses.
INSIDE = (
    (b"(any or\n rm", "BadLine", 2, 4),
    (b"(any or # )\r\n\r\n", "BadLine", 1, 8),
    (b"any and (rm\n\tor lane) -> 1", "UnknownName", 2, 5),
    (b"(any\n vci 5) -> 1", "BadLine", 2, 2),
    (b"(any\r or rm) -> 1", "BadLine", 1, 5),
    (b"rm or\n(any) -> 1", "BadLine", 1, 6),
    (b" ((any) or\nrm -> 1", "Unbalanced", 1, 2),
    (b"\nvpi 1 and (rm\n) {\n", "Unbalanced", 2, 1),
    (b"define a = (any or\n rm)\ndefine a = 1", "NameTaken", 3, 8),
)

# Texts with several lines in one source line.
IN_ONE_LINE = (
    (b"any -> 1; foo -> 2", "UnknownName", 1, 11),
    (b"vpi 1 { oam }", "BadLine", 1, 12),
    (b"vpi 1 { oam}", "BadLine", 1, 12),
    (b"any -> 1 }", "Unbalanced", 1, 10),
    (b"vpi 1 { rm -> 1", "Unbalanced", 1, 1),
    (b"(any; rm) -> 1", "BadLine", 1, 5),
    (b"any -> 1 # ; }\n}", "Unbalanced", 2, 1),
    (b"otherwise -> 1; rm -> 2", "AfterOtherwise", 1, 17),
    (b"oam -> 1; (rm or\n vci 5) {\n any -> 1 } }", "Unbalanced", 3, 13),
)

# Texts with names.
OF_NAMES = (
    (b"define any = 1", "NameTaken", 1, 8),
    (b"contract a = 1\ndefine a = 2", "NameTaken", 2, 8),
    (b"define 1 = 2", "BadLine", 1, 8),
    (b"define a 1", "BadLine", 1, 10),
    (b"define a = b", "UnknownName", 1, 12),
    (b"define a = any -> 1", "BadLine", 1, 16),
    (b"define a = 1, 2 and rm", "BadLine", 1, 17),
    (b"define a = 5..4", "TooLarge", 1, 15),
    (b"define a = (any", "Unbalanced", 1, 12),
    (b"define a = any and", "BadLine", 1, 19),
    (b"any -> 1\n contract a = 1", "BadLine", 2, 2),
    (b"define a = 7, 256\nvpi a -> 1", "TooLarge", 2, 5),
    (b"contract a = 7\nvpi a -> 1", "BadLine", 2, 5),
    (b"define a = 7\nside nni", "BadLine", 2, 1),
)


def faulty(text, kind, line, column):
    """Returns the case that a text has this fault."""
    fault = f"fault rules {KINDS.index(kind) + 1} {kind} {line} {column}\n"
    return Case(("upc-lab", "rules"), text, fault.encode(), 1)


def names_before(last):
    """Returns a text whose names add 262,144 tokens, and then these octets."""
    many, few = (b"define " + name + b" = 7" + (count - 1) * b", 7" + b"\n" for name, count in ((b"many", 2048), (b"few", 32)))
    return b"contract gold = 1\n" + many + few + 64 * b"vci many -> 1\n" + b"vci few -> gold\n" + last


def of_faults():
    """Yields the faults of texts. Names add 262,144 tokens and no more, and 64 parentheses may be open."""
    for row in (*FIRST, *INSIDE, *IN_ONE_LINE, *OF_NAMES):
        yield faulty(*row)
    yield faulty(names_before(b"any -> gold"), "TooLong", 69, 8)
    for last in (b"", b"any -> 1"):
        yield Case(("upc-lab", "why"), names_before(last), b"", 0)
    yield faulty(64 * b"(" + b"any -> 1", "Unbalanced", 1, 1)
    yield faulty(65 * b"(" + b"any -> 1", "TooDeep", 1, 65)


# The example of docs/RULES.md.
CLASSES = b"""# classes of the customer on path 1
vpi 1 and vci 32..127 {
  oamf5 -> 2
  clp 1 -> 3
  any   -> 1
}
not (octet 4 & 0xf0 = 0x30 or word 8 > 7) -> 4
otherwise -> refuse
"""
# Cells, and their values by the example: a header, the first octet of the payload, the line that decides, and the value.
CLASSED = (
    (0x00100648, 0x00, 3, 2),
    (0x0010064A, 0x00, 3, 2),
    (0x00100641, 0x00, 4, 3),
    (0x00100640, 0x00, 5, 1),
    (0x00100200, 0x00, 5, 1),
    (0x001007F6, 0x00, 5, 1),
    (0x001001F0, 0x00, 7, 4),
    (0x00100800, 0x3F, 0, 0),
    (0x00200640, 0x30, 0, 0),
    (0x00200640, 0x40, 7, 4),
)
# Rules with names.
NAMED = b"""contract gold = 2
define customers = 1, 7, 20..30
define voice = vci 32..39 or 7/5
define care = oam or rm
vpi customers and not care {
  voice and clp 0 -> gold
  voice -> 3
}
otherwise -> gold # of all others
"""
WITH_NAMES = (
    (0x00100200, 0, 6, 2),
    (0x00100201, 0, 7, 3),
    (0x00700051, 0, 7, 3),
    (0x00100051, 0, 0, 2),
    (0x01E00201, 0, 7, 3),
    (0x01F00201, 0, 0, 2),
    (0x0010020D, 0, 0, 2),
)
# The example of docs/RULES.md whose tests go on inside parentheses.
LINES = b"""# a customer with two paths
define kept = (oam or rm
  or metasig or signal)   # in both paths

vpi 1, 7 and (kept or ilmi) -> 3
(1/32..39 or
  1/48..55                # the second voice trunk
  or 7/32..39) and not (clp 1
    or pti 2, 3) -> 1
otherwise -> refuse
"""
OVER_LINES = (
    (0x00100010, 0, 5, 3),
    (0x00700050, 0, 5, 3),
    (0x00700100, 0, 5, 3),
    (0x00200010, 0, 0, 0),
    (0x00100200, 0, 6, 1),
    (0x00100300, 0, 6, 1),
    (0x00700300, 0, 0, 0),
    (0x00700270, 0, 6, 1),
    (0x00100201, 0, 0, 0),
    (0x00100204, 0, 0, 0),
    (0x00100208, 0, 5, 3),
)
NOT_NOT = b"not not clp 1 -> 7\nany -> refuse\n"
# Texts, and a cell with its header, first octet, line and value. Words and signs have several spellings.
SPELLED = (
    (CLASSES, CLASSED),
    (NAMED, WITH_NAMES),
    (LINES, OVER_LINES),
    (NOT_NOT, ((1, 0, 1, 7), (0, 0, 2, 0))),
    (b"1/32 || 1/5..7, 9 -> 7\n", ((0x00100090, 0, 1, 7), (0x00200090, 0, 0, 0))),
    (b"1/* && !rm -> 7\n", ((0x0010000A, 0, 1, 7), (0x0010000C, 0, 0, 0))),
    (b"not 1/32 -> 7\n", ((0x00100210, 0, 1, 7),)),
    (b"vci != 3, 5..7 -> 7\n", ((0x00000060, 0, 0, 0), (0x00000040, 0, 1, 7))),
    (b"vci == 3, 5..7 -> 7\n", ((0x00000060, 0, 1, 7),)),
    (b"oam -> 7\n", ((0x00500030, 0, 1, 7), (0x0050064A, 0, 1, 7))),
    (b"any -> drop\nany -> 7\n", ((0, 0, 1, 0),)),
    (b"idle -> 0\nany -> 7\n", ((1, 0, 1, 0),)),
)


def cell_of(header, first):
    """Returns the digits of a cell with this header, whose payload begins with an octet and has zeros else."""
    return f"{header:08x}{first:02x}{47 * '00'}\n"


def without_steps(answer):
    """Returns the values of an answer of `upc eval`: without its first line, and without the numbers of steps."""
    return b"".join(it.partition(b" steps ")[0] + b"\n" for it in answer.splitlines()[1:])


def of_values():
    """Yields the line that decides each cell and its value, and the value by the code of the text."""
    for text, rows in SPELLED:
        cells = "".join(cell_of(header, first) for header, first, _, _ in rows)
        decided = "".join(f"{f'line {line}' if line else 'otherwise'} value {value}\n" for _, _, line, value in rows)
        yield Case(("upc-lab", "why"), text + b"cells\n" + cells.encode(), decided.encode(), 0)
        program = digits_of(("upc-lab", "rules"), text)
        values = "".join(f"value {value}\n" for *_, value in rows)
        yield Case(("upc", "eval"), lambda run, program=program, cells=cells: program(run) + cells.encode(), values.encode(), 0, seen=without_steps)


# A program, rules, and where their values differ: lines without the octets of cells, or none.
PAIRS = (
    ("ldb [4]|jeq #7, t, f|t: ret #1|f: ret #0", b"octet 4 = 7 -> 1\n", ()),
    ("ldb [4]|jeq #7, t, f|t: ret #1|f: ret #0", b"octet 4 = 6 -> 1\n", (
        ("program value 0, new line 1 value 1", "0000000006"),
        ("program value 1, new otherwise value 0", "0000000007"),
    )),
    ("ldh [8]|jgt #300, t, f|t: ret #2|f: ret #0", b"half 8 > 300 -> 2\n", ()),
    ("ld [8]|jge #70000, t, f|t: ret #2|f: ret #3", b"word 8 >= 70000 -> 2\notherwise -> 3\n", ()),
    ("ld [0]|jset #1, t, f|t: ret #1|f: ret #0", b"clp 1 -> 1\n", ()),
    ("ld [0]|rsh #4|and #0xffff|jeq #5, t, f|t: ret #1|f: ret #0", b"vci 5 -> 1\n", ()),
    ("ld [0]|st M[3]|ld #9|tax|ld M[3]|lsh #12|rsh #16|jeq #5, t, f|t: txa|ret a|f: ret #0", b"vci 5 -> 9\n", ()),
    ("ldxb 4*([4]&0xf)|txa|jeq #8, t, f|t: ret #1|f: ret #0", b"octet 4 & 0xf = 2 -> 1\n", ()),
    ("ld [49]|ret #1", b"otherwise -> 0\n", ()),
    ("ld #6|mul #7|add #1|ret a", b"otherwise -> 43\n", ()),
)
# A program, and the instruction at which it isn't followed, if it isn't.
STOPS = (
    ("ld [0]|add #1|ret #0", 1),
    ("ld [0]|mul #2|ret #0", 1),
    ("ld [0]|neg|ret #0", 1),
    ("ld [0]|ret a", 1),
    ("ldb [4]|tax|ldb [x + 4]|ret #0", 2),
    ("ldb [4]|tax|ld #1|lsh x|ret #0", 3),
    ("ldx #4|ldb [x + 4]|ret #0", None),
    ("ld [0]|jeq #1, t, f|t: ld [0]|add #1|f: ret #0", 3),
)
# Two texts, and where their values differ: as above, with the fields of the header.
TEXTS = (
    (b"vpi 1 -> 1\nvpi 2 -> 2\n", b"vpi 2 -> 2\nvpi 1 -> 1\n", ()),
    (b"vpi 1 -> 1\n", b"vpi 1 -> 2\n", (("line 1 value 1, new line 1 value 2", "vpi 1 vci 0", "00100000"),)),
    (b"vpi 1 {\nclp 1 -> 3\nany -> 1\n}\n", b"vpi 1 and clp 1 -> 3\nvpi 1 -> 1\n", ()),
    (b"word 8 > 7 -> 1\n", b"not (word 8 <= 7) -> 1\n", ()),
    (b"vci 32..127 -> 1\n", b"vci 32..126 -> 1\n", (("line 1 value 1, new otherwise value 0", "vpi 0 vci 127", "000007f0"),)),
)
SAME = b"same on every cell\n"


def difference(lines, fields, octets):
    """Returns the line of two values, for the cell that begins with these digits."""
    return f"old {lines}: gfc 0 {fields} pti 0 clp 0: {octets:0<104}\n"


def program_of(source):
    """Returns how a source, in which `|` is a line feed, becomes a program in digits."""
    return digits_of(("upc", "check"), source.replace("|", "\n").encode())


def of_comparisons():
    """Yields comparisons of programs with rules, of programs that aren't followed, and of texts; and that rules agree with their code."""
    for source, text, rows in PAIRS:
        answer = "".join(difference(lines, "vpi 0 vci 0", octets) for lines, octets in rows)
        yield Case(("upc-lab", "differ", "--program", "old", "old"), text, answer.encode() or SAME, int(bool(rows)), {"old": program_of(source)})
    for source, place in STOPS:
        answer, status = (SAME, 0) if place is None else (f"old: not decided at instruction {place}\n".encode(), 3)
        yield Case(("upc-lab", "differ", "--program", "old", "old"), b"otherwise -> 0\n", answer, status, {"old": program_of(source)})
    for old, new, rows in TEXTS:
        answer = "".join(difference(*row) for row in rows)
        yield Case(("upc-lab", "differ", "old"), new, answer.encode() or SAME, int(bool(rows)), {"old": old})
    for text, _ in SPELLED:
        yield Case(("upc-lab", "differ", "--program", "old", "old"), text, SAME, 0, {"old": digits_of(("upc-lab", "rules"), text)})


def cases():
    """Yields all cases."""
    for some in (of_faults, of_values, of_comparisons):
        yield from some()
