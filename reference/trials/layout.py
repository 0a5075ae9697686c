"""How the lines of a script are laid out: blanks, remarks, ends of lines, and lines at the limits."""

MOST_INPUT_LINES = 1_000_000
MOST_LINE_OCTETS = 70_000

REMARKS = (b"", b"  ", b"\t", b"# a remark", b"#", b"  #card 1 1 1 1", b"\r", b" \t # x y")


def text_of(rng, lines):
    """The lines as a text, each as it was given, with other layout here and there."""
    is_returned = rng.random() < 0.2
    text = []
    for line in lines:
        if rng.random() < 0.05:
            text.append(rng.choice(REMARKS))
        if rng.random() < 0.1:
            line = spread(rng, line)
        if is_returned or rng.random() < 0.02:
            line += b"\r"
        text.append(line)
    if text and rng.random() < 0.01:
        stretched(rng, text)
    joined = b"\n".join(text)
    if rng.random() < 0.0015:
        return with_many_lines(rng, joined, len(text))
    return joined + rng.choice((b"\n", b"\n", b"\n", b"\n", b"", b"\r", b"\r\n", b"\n\n"))


def spread(rng, line):
    """The words with other blanks between and about them."""
    blanks = (b" ", b"\t", b"  ", b" \t ")
    spaced = b"".join(rng.choice(blanks) if octet == b" " else octet for octet in octets(line))
    return rng.choice((b"", b" ", b"\t")) + spaced + rng.choice((b"", b" ", b"\t", b"\r"))


def octets(line):
    return [line[at : at + 1] for at in range(len(line))]


def stretched(rng, lines):
    """Makes a line as long as a line may be, or longer by one."""
    at = rng.randrange(len(lines))
    filler = rng.choice((b" ", b" ", b" #", b"\r"))
    wanted = MOST_LINE_OCTETS + rng.choice((-1, 0, 0, 1, 1))
    line = lines[at] + filler * wanted
    lines[at] = line[:wanted]


def with_many_lines(rng, text, count):
    """The text with as many lines as there may be, or one more."""
    empty = MOST_INPUT_LINES - count + rng.choice((0, 0, 1))
    return b"\n" * empty + text + rng.choice((b"", b"\n"))
