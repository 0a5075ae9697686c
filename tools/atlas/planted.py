"""The form of a file of planted bugs: all that change one source file, each a change that the prover must refuse.

    # a listing has a label one too far
    gate: each
    file: src/lister.rt
    old: Instr::Jump(k) => put_label(text, b"ja ", place + 1 + k as usize),
    new: Instr::Jump(k) => put_label(text, b"ja ", place + 2 + k as usize),

    # operands are tried from right to left
    ..

A bug begins with a heading, a sentence of words of small letters and digits. Its name is the heading with a hyphen for each blank.
Then each line has a key, a colon, a blank and a text, of which every octet counts:

    file: PATH          the file of the pairs below it
    old: TEXT           a text that this file has exactly once
    new: TEXT           what replaces it; without the text and the blank nothing does
    refused at: PATH    the function whose contract refuses the bug, if that is not the one which its first pair changes
    gate: each          each gate tries it; without this line it takes turns

Lines `old:` one below another are one text of several lines, and so are lines `new:`. An empty line ends a bug. The first file
of a bug is the one that its file is called after: crates/X/bugs/lister.edits has those of src/lister.rt, and crates/X/bugs/Outcome.edits
those of specs/Outcome.antt. Definitions begin with a capital and modules don't, so no file has both.
"""
import re

HEADING = re.compile(r"# ([a-z0-9]+(?: [a-z0-9]+)*)")
LINE = re.compile(r"(gate|file|refused at|old|new):(?: (.*))?", re.S)


class Misread(Exception):
    """A file of planted bugs that isn't in its form. Its text names the file, the line and the reason."""


class Bug:
    """A planted bug: its name, the line of its heading, what its lines say, and its pairs of a file, an old and a new text."""

    def __init__(self, name, line):
        self.name, self.line, self.refused_at, self.is_each, self.pairs = name, line, "", False, []


def home_of(file):
    """Returns the file in a crate's folder bugs/ for the bugs that change a file of the crate first."""
    return re.sub(r"\.\w+$", "", file.removeprefix("src/").removeprefix("specs/")) + ".edits"


def bugs_in(text, home, path):
    """Returns the bugs of a text, which is that of `home` in a folder bugs/; `path` is what a Misread calls the file."""
    found, reader = [], None
    lines = text.split("\n")
    if lines.pop():
        raise Misread(f"{path}:{len(lines) + 1}: the last line doesn't end")
    for number, line in enumerate([*lines, ""], 1):
        try:
            if reader and line:
                reader.read(line)
            elif reader:
                found.append(reader.ended(home))
                reader = None
            elif line:
                reader = Reader(heading(line, [it.name for it in found]), number)
        except ValueError as error:
            raise Misread(f"{path}:{number}: {error}") from None
    return found


def heading(line, earlier):
    """Returns the name that a heading gives."""
    found = HEADING.fullmatch(line)
    if not found:
        raise ValueError("a bug begins with a heading, # and words of small letters and digits")
    name = found[1].replace(" ", "-")
    if name in earlier:
        raise ValueError("an earlier bug of this file has the same heading")
    return name


class Reader:
    """Reads the lines of one bug."""

    def __init__(self, name, line):
        self.bug, self.file, self.last, self.old, self.new = Bug(name, line), "", "", [], []

    def read(self, line):
        """Reads a line with a key."""
        found = LINE.fullmatch(line)
        if not found:
            raise ValueError("a line of a bug is `file: PATH`, `old: TEXT`, `new: TEXT`, `refused at: PATH` or `gate: each`")
        key, text = found[1], found[2] or ""
        if self.new and key != "new":
            self.put_pair()
        if self.old and key not in ("old", "new"):
            raise ValueError("`old:` is followed by `new:`")
        if key in ("old", "new"):
            self.read_text(key, text)
        else:
            self.read_word(key, text)
        self.last = key

    def read_text(self, key, text):
        """Reads a line of an old or a new text."""
        if not self.file:
            raise ValueError("no line `file:` is above the pair")
        if key == "new" and not self.old:
            raise ValueError("`new:` is below no `old:`")
        (self.old if key == "old" else self.new).append(text)

    def read_word(self, key, text):
        """Reads a line with a path or a word."""
        if not text or text != text.strip():
            raise ValueError(f"`{key}:` is followed by a blank and its text")
        if key == "file":
            self.file = text
        elif key == "gate" and text == "each" and not self.bug.is_each:
            self.bug.is_each = True
        elif key == "refused at" and not self.bug.refused_at:
            self.bug.refused_at = text
        else:
            raise ValueError(f"`{key}:` comes once, and `gate:` has the word each")

    def put_pair(self):
        """Puts what was read to the bug's pairs."""
        old, new = "\n".join(self.old), "\n".join(self.new)
        if not old or old == new:
            raise ValueError("the pair above changes nothing")
        self.bug.pairs.append((self.file, old, new))
        self.old, self.new = [], []

    def ended(self, home):
        """Returns the bug at its end."""
        if self.new:
            self.put_pair()
        if self.old or self.last == "file" or not self.bug.pairs:
            raise ValueError("the bug ends without a pair of `old:` and `new:`")
        if home_of(self.bug.pairs[0][0]) != home:
            raise ValueError(f"a bug of {self.bug.pairs[0][0]} belongs into bugs/{home_of(self.bug.pairs[0][0])}")
        return self.bug
