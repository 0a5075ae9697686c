"""Small changes to an input."""

PIECES = [bytes([octet]) for octet in b"\n\n\r\t  ;:#[]+-*()&,xXaMp0123456789_/gGzZ\0\x80\xff\x0b\x0c"]
PIECES += [b"\r\n", b"0x", b"4294967295", b"4294967296", b"18446744073709551615", b"18446744073709551616"]


def mutated(rng, text):
    """The text with one to three changes, each at an octet or a line."""
    for _ in range(rng.choice((1, 1, 1, 2, 3))):
        text = rng.choice(MUTATIONS)(rng, text)
    return text


def place(rng, text):
    return rng.randrange(len(text) + 1)


def inserted(rng, text):
    at = place(rng, text)
    return text[:at] + rng.choice(PIECES) + text[at:]


def replaced(rng, text):
    at = place(rng, text)
    return text[:at] + rng.choice(PIECES) + text[at + 1 :]


def taken(rng, text):
    at = place(rng, text)
    return text[:at] + text[at + rng.choice((1, 1, 2, 8)) :]


def turned(rng, text):
    at = place(rng, text)
    if at == len(text):
        return text
    return text[:at] + bytes([text[at] ^ (1 << rng.randrange(8))]) + text[at + 1 :]


def cut_off(rng, text):
    return text[: place(rng, text)]


def lines_changed(rng, text):
    """A line twice, two lines in each other's place, or a line less."""
    lines = text.split(b"\n")
    at = rng.randrange(len(lines))
    other = rng.randrange(len(lines))
    way = rng.randrange(3)
    if way == 0:
        lines.insert(other, lines[at])
    elif way == 1:
        lines[at], lines[other] = lines[other], lines[at]
    else:
        del lines[at]
    return b"\n".join(lines)


def words_changed(rng, text):
    """In one line a word twice, or a word less."""
    lines = text.split(b"\n")
    at = rng.randrange(len(lines))
    words = lines[at].split(b" ")
    word = rng.randrange(len(words))
    if rng.random() < 0.5:
        words.insert(word, words[word])
    else:
        del words[word]
    lines[at] = b" ".join(words)
    return b"\n".join(lines)


MUTATIONS = [inserted, inserted, replaced, replaced, taken, turned, cut_off, lines_changed, words_changed]
