"""Lines of a text, and their words."""

import re

from .faults import Fault

MOST_INPUT_LINES = 1_000_000
MOST_LINE_OCTETS = 70_000

WORD = re.compile(rb"[^ \t]+")


def raw_lines(text):
    """The lines with the carriage return that may end them, and whether a line feed follows.

    A line ends with a line feed, the last one perhaps with the end of the text; after a last line feed there is
    no further line.
    """
    begin = 0
    while begin < len(text):
        end = text.find(b"\n", begin)
        if end == -1:
            yield text[begin:], False
            return
        yield text[begin:end], True
        begin = end + 1


def without_return(line, is_fed):
    """The line without the carriage return just before its line feed; no other one is dropped."""
    return line[:-1] if is_fed and line.endswith(b"\r") else line


def source_lines(text):
    """The lines of a source, which have no limits."""
    return [without_return(line, is_fed) for line, is_fed in raw_lines(text)]


def limited_lines(text):
    """The lines of a script, one after another.

    There are at most 1,000,000, of at most 70,000 octets each; a carriage return counts, a line feed doesn't.
    """
    for number, (line, is_fed) in enumerate(raw_lines(text), start=1):
        if number > MOST_INPUT_LINES or len(line) > MOST_LINE_OCTETS:
            raise Fault("script", "TooLong")
        yield without_return(line, is_fed)


def words_of(line):
    """The words of a line. Spaces and tabs part them, and no other octet does."""
    return WORD.findall(line)


def asks_nothing(words):
    """A line without words, or whose first word begins with `#`, is answered by nothing."""
    return not words or words[0].startswith(b"#")
