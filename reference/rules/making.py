"""Random texts of rules, and cells at the bounds of what they compare."""
MOSTS = {"gfc": 15, "vpi": 255, "vci": 65535, "pti": 7, "clp": 1}
SHIFTS = {"gfc": 28, "vpi": 20, "vci": 4, "pti": 1, "clp": 0}
ORDERS = ("<", "<=", ">", ">=")
WORDS = (
    "any", "user", "oam", "oamf4", "oamf4s", "oamf4e", "oamf5", "oamf5s", "oamf5e", "rm", "metasig", "bcast", "signal", "ilmi", "idle",
    "oamf4sc", "oamf4ec", "metac", "bcc", "sc", "ilmic",
)
# Names that texts give tests, lists and contracts, some of which are nearly words.
TEST_NAMES, LIST_NAMES, CONTRACT_NAMES = ("voice", "oam_f4", "Any", "_t"), ("customers", "vpi2", "l"), ("gold", "cells", "refuse_")
AND, OR, NOT, REFUSE = ("and", "and", "&&"), ("or", "or", "||"), ("not", "not", "!", "! "), ("refuse", "refuse", "drop", "0")


def number(source, most):
    """Returns a number up to this, often near a bound."""
    edges = [0, 1, 2, most - 1, most, most // 2, 32, 127]
    value = source.choice(edges) if source.random() < 0.6 else source.randint(0, most)
    return max(0, min(value, most))


def spelled(source, value):
    """Returns a spelling of a number."""
    return source.choice([str(value), str(value), hex(value), "0" + str(value)])


def field(source):
    """Returns a field and its largest number."""
    if source.random() < 0.7:
        name = source.choice(list(MOSTS))
        return name, MOSTS[name]
    name, size = source.choice([("octet", 1), ("half", 2), ("word", 4)])
    return f"{name} {source.choice([0, 1, 3, 4, 52 - size, source.randint(0, 52 - size)])}", 2 ** (8 * size) - 1


def mask_of(source, most):
    """Returns a mask: sometimes the bits from some bit upwards."""
    if source.random() < 0.4:
        return most + 1 - (1 << source.randrange(most.bit_length()))
    return number(source, most)


def compared(source):
    """Returns a comparison."""
    name, most = field(source)
    mask = f" & {spelled(source, mask_of(source, most))}" if source.random() < 0.25 else ""
    if source.random() < 0.3:
        return f"{name}{mask} {source.choice(ORDERS)} {spelled(source, number(source, most))}"
    return f"{name}{mask} {source.choice(['', '', '', '= ', '== ', '!= ', '!='])}{listed(source, most)}"


def listed(source, most):
    """Returns a list."""
    if most == 255 and source.lists and source.random() < 0.2:
        return source.choice(source.lists)
    ranges = []
    for _ in range(source.choice([1, 1, 2, 4])):
        low, high = sorted([number(source, most), number(source, most)])
        ranges.append(spelled(source, low) if source.random() < 0.5 else f"{spelled(source, low)}..{spelled(source, high)}")
    return ", ".join(ranges)


def channels(source):
    """Returns channels of a path."""
    path = spelled(source, number(source, 255))
    return path + source.choice(["/", " / "]) + (listed(source, 65535) if source.random() < 0.8 else "*")


def test(source, depth):
    """Returns a test."""
    kind = source.random()
    if source.tests and kind < 0.1:
        return source.choice(source.tests)
    if depth == 0 or kind < 0.45:
        return source.choice([compared, compared, compared, compared, channels, lambda source: source.choice(WORDS)])(source)
    if kind < 0.7:
        return f"{test(source, depth - 1)} {source.choice(AND)} {test(source, depth - 1)}"
    if kind < 0.85:
        return f"{test(source, depth - 1)} {source.choice(OR)} {test(source, depth - 1)}"
    if kind < 0.9:
        return f"{source.choice(NOT)} {source.choice([channels, compared])(source)}"
    return f"{source.choice(NOT)}({test(source, depth - 1)})" if kind < 0.95 else f"({test(source, depth - 1)})"


def broken(source, text):
    """Returns a test with line ends in place of some blanks inside its parentheses."""
    made, depth = [], 0
    for it in text:
        depth += (it == "(") - (it == ")")
        if it == " " and depth > 0 and source.random() < 0.15:
            it = source.choice(["\n", "\r\n", " # (\n", "\n\t\n", " #\r\n"])
        made.append(it)
    return "".join(made)


def definitions(source):
    """Returns lines that give names, and lets the tests after them have these names."""
    made = []
    for _ in range(source.choice([1, 2, 4, 7])):
        kind = source.choice(["define", "define", "contract"])
        if kind == "contract":
            name, here, meant = source.choice(CONTRACT_NAMES), source.contracts, source.choice(["1", "5", "0x10", "refuse", "0", *source.contracts])
        elif source.random() < 0.4:
            name, here, meant = source.choice(LIST_NAMES), source.lists, listed(source, 255)
        else:
            name, here, meant = source.choice(TEST_NAMES), source.tests, broken(source, test(source, source.choice([0, 1, 2])))
        # Mostly no name is given twice, and what a name means is of its own kind.
        if name not in here or source.random() < 0.03:
            made.append(f"{kind} {name} {source.choice(['=', '=', '=='])} {meant}")
            here.append(name)
        if source.random() < 0.01:
            here.append(source.choice(["nobody", *source.tests, *source.lists, *source.contracts]))
    return made


def joined(source, lines):
    """Returns lines with some of them on one source line, where `;` or a brace comes between them. No comment has a line after it."""
    made, at_once = [], source.choice([0, 0, 0.2, 0.9])
    for line in lines:
        if not made or "#" in made[-1].rsplit("\n", 1)[-1] or source.random() >= at_once:
            made.append(line)
            continue
        needs = not made[-1].endswith(("{", "}")) and line != "}"
        made[-1] += source.choice(["; ", ";", " ; "]) if needs else source.choice([" ", "", "  ", "; "])
        made[-1] += line
    return made


def lines(source, count, depth):
    """Returns lines."""
    made = []
    for _ in range(count):
        if depth and source.random() < 0.25:
            made.append(f"{broken(source, test(source, 2))} {{")
            made += lines(source, source.randint(0, 4), depth - 1)
            made.append("}")
        else:
            made.append(f"{broken(source, test(source, source.choice([0, 1, 2, 3])))} -> {source.choice([*REFUSE, '1', '2', '3', '4294967295', *source.contracts])}")
        if source.random() < 0.1:
            made.append(source.choice(["", "# remark", "   \t"]))
    return made


def mutated(source, text):
    """Returns the text with a small change."""
    at = source.randrange(len(text) + 1)
    piece = source.choice(["", " ", "(", ")", "{", "}", "->", "..", "x", "9", "0x", "&", ",", "\n", "not ", "otherwise", "-", "99999999999", "gfc", "/", "*", "!", "=", "&&", "|", ";", ";", "}"])
    return text[:at] + piece + text[at + source.choice([0, 0, 1, 2]):]


def deep(source):
    """Returns lines about as deep as blocks and parentheses may be."""
    blocks, parentheses = source.choice([0, 1, 31, 32, 63, 64, 65]), source.choice([0, 1, 31, 32, 33, 64, 65])
    return ["vpi 1 {"] * blocks + ["(" * parentheses + "clp 1" + ")" * parentheses + " -> 1"] + ["}"] * blocks


def doubled(source):
    """Returns lines with names, each of which means the one before it twice, and a test of about as many comparisons as it may have."""
    count = source.choice([1, 2, 11, 12, 13])
    start = source.choice(["define n0 = any", "define n0 = vci 7", "define n0 = 7", "define n0 = not (clp 1)"])
    joint, end = (", ", "vci ") if start.endswith("= 7") else (source.choice([" and ", " or "]), "")
    return [start, *(f"define n{it + 1} = n{it}{joint}n{it}" for it in range(count)), f"{end}n{source.randint(0, count)} -> 1", f"{end}n{count} -> 2"]


def long(source):
    """Returns a line with about as many comparisons as a test may have."""
    count = 4096 - source.choice([0, 1, 2]) + source.choice([0, 0, 1, 2])
    kinds = [
        " or ".join(["clp 1"] * count), "vci " + ", ".join("7" for _ in range(count)), " and ".join(["any"] * count),
        " or ".join(["clp < 1"] * count), " && ".join(["vci != 7"] * count), " || ".join(["1/7"] * count), " or ".join(["1/*"] * count),
    ]
    return [source.choice(kinds) + " -> 1"]


def spent(source):
    """Returns lines whose names add about as many tokens as they may, 64 times 4095 and 64 more."""
    few = source.choice([31, 32, 33])
    uses = [source.choice(["vci many -> 1", "vci many, 5 -> 2"]) for _ in range(64)]
    defined = [f"define more{it} = many" for it in range(source.choice([0, 1, 3]))]
    last = source.choice(["vci few -> 1", "vci few, few -> 1", "vci 5, few -> few", "any -> gold", "vpi 1 and vci few -> gold"])
    named = [f"define many = {', '.join(['7'] * 2048)}", f"define few = {', '.join(['9'] * few)}", "contract gold = 5"]
    return [*named, *defined, *uses[len(defined):], last, source.choice(["any -> gold", "vci few -> 1", "any -> 1"])]


# Lines with a fault, or at a limit.
AT_LIMITS = (
    "octet 51 1 -> 1", "octet 52 1 -> 1", "half 50 1 -> 1", "half 51 1 -> 1", "word 48 1 -> 1", "word 49 1 -> 1", "word 4294967295 1 -> 1",
    "vpi 255 -> 1", "vpi 256 -> 1", "vpi 4095 -> 1", "vpi 4096 -> 1", "gfc 15 -> 1", "gfc 16 -> 1", "vci 65536 -> 1", "pti 8 -> 1",
    "clp < 2 -> 1", "octet 4 & 256 = 0 -> 1", "half 4 & 0xffff = 65536 -> 1", "vci 5..4 -> 1", "vci 5..5 -> 1", "vci 1, 5..4 -> 1",
    "any -> 0", "any -> 4294967295", "any -> 4294967296", "any -> 0x100000000", "any -> 1x", "vpi 0x -> 1", "9a -> 1", "}", "otherwise -> 1",
    "side nni", "side nni 1", "side", "otherwise", "otherwise -> 0", "any", "any {", "any { }", "(any -> 1", "any) -> 1", "((any) {", "( -> 1", "not not any -> 1",
    "any and -> 1", "vci 1, -> 1", "vci 1.. -> 1", "vci & 1 -> 1", "clp 1 2 -> 1", "any -> refuse 1", "any -> 1 # 2", "oam or not user -> 010",
    "1/32 -> 1", "1/* -> 1", "1/32..127, 5 -> 1", "256/1 -> 1", "4096/* -> 1", "1/65536 -> 1", "1/5..4 -> 1", "1/ -> 1", "1/*, 2 -> 1", "1 -> 1",
    "1-2 -> 1", "vci != 1, 2..4 -> 1", "vci = 1..2 -> 1", "vci < 1, 2 -> 1", "!vci 1 -> drop", "vci ! = 1 -> 1", "any & any -> 1", "any | any -> 1",
    "1/32/3 -> 1", "*/32 -> 1", "0x/1 -> 1", "not 1/32 || !1/33..34 and rm -> 3", "idle -> 0", "metac or lane -> 1", "vci 5 == 5 -> 1",
    "define", "define a", "define a =", "define a = vci", "define any = 1", "define && = 1", "define 1 = 1", "define = 1", "define a, b = 1", "define a -> 1",
    "define a b = 1", "define a = 1 and vpi 1", "define a = 1, 2..1", "define a = 1,", "define a = 4294967296", "define a = 4294967295..0xffffffff", "define a = 0x/1",
    "define a = 1 / 2, 3", "define a = 256/1", "define a = (any", "define a = any)", "define a = any -> 1", "define a = (any {", "define a = (any and", "define a = b",
    "define a = }", "define a = refuse", "define a = vci 5..4", "contract", "contract a", "contract a =", "contract a = 1 2", "contract a = any", "contract a = 4294967296",
    "any -> 1;", ";", " ; ;", "any -> 1; rm -> 2", "any -> 1 rm -> 2", "vpi 1 { oam -> 3; rm -> 4; any -> 1 }", "vpi 1 {}", "vpi 1 { } any -> 1", "(any; rm) -> 1",
    "(any } -> 1", "any}", "any }", "any -> 1 } rm -> 2", "define a = 1; define b = 2; vci a, b -> 1", "any { rm -> 1 # }", "vpi 1{any->1}", "side nni; any -> 1",
    "otherwise -> 1; any -> 1", "any -> 1}", "contract a = 1; any -> a", "any -> 1;;rm -> 2 # ; {", "(any\nor rm) { rm -> 1; any -> 2 }", "define a =; any -> 1",
    "vpi 1 { vci 5 -> 2 }; }", "any { rm -> 1; } otherwise -> 2", "(any {", "(any\n; rm -> 1",
    "(any\n-> 1", "(any\nor rm\n) -> 1", "(\n(any\nand\n1/5)) {", "(any # )\n) -> 1", "(any\r\r\n)", "(any\n{", "(vpi\n1,\r\n256) -> 1",
    "define a = (any\nor\nrm)", "define a\n= any", "(any\n\n# (\n", "(any -\n) -> 1", "vci (\n5) -> 1",
    "contract a = 1x", "contract user = 1", "contract a = a", "contract a == drop", "voice", "vci customers, 5 -> 1", "customers/7 -> 1", "not voice or (voice) -> gold",
)


def text_of(source):
    """Returns a text: a third of the time with a small change, and sometimes with a line at a limit."""
    source.tests, source.lists, source.contracts = [], [], []
    made = []
    if source.random() < 0.1:
        made.append(source.choice(["side nni", "side uni"]))
    if source.random() < 0.4:
        made += definitions(source)
    made += lines(source, source.choice([1, 2, 5, 12, 60]), 3)
    made = joined(source, made)
    kind = source.random()
    if kind < 0.2:
        made.insert(source.randrange(len(made) + 1), source.choice(AT_LIMITS))
    elif kind < 0.23:
        made += deep(source)
    elif kind < 0.24:
        made += long(source)
    elif kind < 0.25:
        made = doubled(source)
    elif kind < 0.257:
        made = spent(source)
    if source.random() < 0.5:
        made.append(f"otherwise -> {source.choice(['refuse', '7'])}")
    text = source.choice(["\n", "\n", "\r\n"]).join(made) + source.choice(["", "\n"])
    if source.random() < 0.35:
        text = mutated(source, text)
    return text.encode()


def padded(source, text, most):
    """Returns the text with comments in front of it, about as long as a text may be: one long comment, or many."""
    missing = most + source.choice([-1, 0, 0, 1, 2, 70000]) - len(text)
    if missing < 2:
        return text
    size = source.choice([missing, 70001, 1000, 2])
    # Each comment has as many octets, and the last one those that are left.
    whole, left = divmod(missing, size)
    if left == 1:
        whole, left = whole - 1, size + 1
    return (b"#" * (size - 1) + b"\n") * whole + (b"#" * (left - 1) + b"\n" if left else b"") + text


def comparisons(parts):
    """Returns the comparisons of a test or of lines."""
    found = []
    for part in parts:
        if isinstance(part, tuple):
            if part and part[0] in ("compare", "among"):
                found.append(part)
            else:
                found += comparisons(part)
    return found


def cells_for(reader, source, count=120):
    """Returns cells at the bounds of the comparisons, and random ones."""
    made = []
    found = comparisons(reader.rules)
    for _ in range(count):
        cell = bytearray(source.choice([bytes(52), bytes([255] * 52), source.randbytes(52)]))
        for part in source.sample(found, min(len(found), source.choice([0, 1, 2, 4]))):
            bounds = [part[4]] if part[0] == "compare" else [bound for pair in part[3] for bound in pair]
            value = max(0, source.choice(bounds) + source.choice([-1, 0, 1]))
            place(cell, part[1], value, reader.nni)
        made.append(bytes(cell))
    return made


def place(cell, name, value, nni):
    """Puts a number into a field of the cell."""
    if name[0] == "octets":
        size, at = name[1], name[2]
        cell[at:at + size] = (value % 2 ** (8 * size)).to_bytes(size, "big")
        return
    most = 4095 if nni and name[0] == "vpi" else MOSTS[name[0]]
    header = int.from_bytes(cell[:4], "big")
    shift = SHIFTS[name[0]]
    header = header & ~(most << shift) | (value & most) << shift
    cell[:4] = (header & 0xFFFFFFFF).to_bytes(4, "big")
