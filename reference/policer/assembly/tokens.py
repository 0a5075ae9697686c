"""The tokens of a line of a source."""

import re
from typing import NamedTuple

MOST = 4294967295

RUN = re.compile(rb"[A-Za-z0-9_]+")
MARKS = b"#[]+-*()&,:"
BLANKS = b" \t"

DECIMAL = re.compile(rb"0*([0-9]{0,10})")
HEXADECIMAL = re.compile(rb"0[xX]0*([0-9A-Fa-f]{0,8})")


class Token(NamedTuple):
    """A `name` with its octets, a `number` with its value, or a `mark` with its octet."""

    kind: str
    value: object


class BadNumber(Exception):
    """A word begins with a digit and is no number."""


class NoToken(Exception):
    """An octet is in no token, and no blank."""


def without_comment(line):
    """From the first `;` on a line is a comment."""
    return line.split(b";", 1)[0]


def number_of(word):
    """The value of a number: decimal, or hexadecimal after `0x` or `0X`, at most 4294967295. No octal."""
    if word[:2] in (b"0x", b"0X"):
        spelled = HEXADECIMAL.fullmatch(word) if len(word) > 2 else None
        base = 16
    else:
        spelled = DECIMAL.fullmatch(word)
        base = 10
    value = int(spelled.group(1) or b"0", base) if spelled else MOST + 1
    if value > MOST:
        raise BadNumber
    return value


def tokens_of(line):
    """The tokens left of the comment. A bad number goes before an octet that is in no token."""
    left = without_comment(line)
    for word in RUN.findall(left):
        if word[:1].isdigit():
            number_of(word)
    tokens = []
    at = 0
    while at < len(left):
        run = RUN.match(left, at)
        if run:
            tokens.append(token_of(run.group()))
            at = run.end()
        elif left[at] in MARKS:
            tokens.append(Token("mark", left[at : at + 1]))
            at += 1
        elif left[at] in BLANKS:
            at += 1
        else:
            raise NoToken
    return tokens


def token_of(run):
    """A longest run of letters, digits and `_` is a number if it begins with a digit, and else a name."""
    if run[:1].isdigit():
        return Token("number", number_of(run))
    return Token("name", run)
