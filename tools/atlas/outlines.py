"""What each file is about: the comment with which a source, a definition or a script begins."""
import os
import re

from .files import crates, exists, files_below, text_of
from .parts import Part, parts_of

# The folders of scripts and examples, and the files there that have a first comment.
FOLDERS = ("bin", "tests", "tools", "bench", "reference", "examples")
WRITTEN = re.compile(r"(?:/[\w-]+|\.(?:py|sh|c|rs|rt\.in|s|rules|run|setup|ports))$")
LEFT_OUT = re.compile(r"__pycache__|__init__|^tests/passed$|/questions$")
# The page that goes from file to file and how it names them, and the page whose rows have links to them.
WAYS = "docs/ARCHITECTURE.md"
TERMS, LINK = "docs/GLOSSARY.md", re.compile(r"\]\(\.\./([\w./-]+)\)")
FILE = re.compile(r"\b(\w+)/src/(\w+\.rt)?|\b(\w+\.rt)\b")
# The name of a public item or of a definition.
ITEM = re.compile(r"^ *pub (?:fn|struct|enum|trait|const|type) (\w+)|^abbrev pub (\w+)", re.M)
# A line of a first comment without the sign of comments.
SIGN = re.compile(r"^\s*(?:/?\*+|//!?|--|#|;) ?")


def first_comment(text):
    """Returns the comment with which a file begins, as one line: that of a language with signs on each line, or a first string."""
    text = re.sub(r"\A#!.*\n", "", text)
    quoted = re.match(r'"""(.*?)"""', text, re.S)
    if quoted:
        return " ".join(quoted[1].split())
    if text.startswith("/*"):
        return " ".join(SIGN.sub("", it).removesuffix("*/").strip() for it in text.partition("*/")[0].split("\n"))
    lines = []
    for line in text.split("\n"):
        if not SIGN.match(line):
            break
        lines.append(SIGN.sub("", line))
    return " ".join(" ".join(lines).split())


def outline(path, heading, about):
    """Returns the part of a file: its name, its first comment, and what else is said of it. A library has the name of its crate."""
    name = os.path.basename(path)
    return Part(path, 1, heading, heading if name == "lib.rt" else name, first_comment(text_of(path)), about)


def items_of(path):
    """Returns the names of the public items or definitions of a file."""
    return [item or definition for item, definition in ITEM.findall(text_of(path))]


def scripts():
    """Yields the outlines of scripts and examples."""
    for folder in FOLDERS:
        for path in files_below(folder, ""):
            if WRITTEN.search(path) and not LEFT_OUT.search(path):
                yield outline(path, folder, "")


def sources_and_modules():
    """Yields for each file of a crate with code or with definitions its kind and its outline, but those that only list others."""
    ways = said_of_files()
    for crate in crates():
        about = first_comment(text_of(f"crates/{crate}/src/lib.rt")) if exists(f"crates/{crate}/src/lib.rt") else ""
        for kind, folder, ending in (("source", "src", ".rt"), ("module", "specs", ".antt")):
            for path in files_below(f"crates/{crate}/{folder}", ending):
                if os.path.basename(path) not in ("Lib.antt", "inner.antt"):
                    yield kind, outline(path, crate, " ".join([*ways.get(path, []), *items_of(path), about]))


def said_of_files():
    """Returns what pages say of each file: the rows of docs/GLOSSARY.md that lead to it, and the clauses of docs/ARCHITECTURE.md that name
    it, perhaps after the path of another file of its crate."""
    found, named = {}, []
    for row in text_of(TERMS).split("\n"):
        for path in LINK.findall(row):
            found.setdefault(path, []).append(re.sub(r"\[[^]]*\]\([^)]*\)", "", row))
    for part in parts_of(WAYS, text_of(WAYS)):
        for clause in re.split(r"(?<=[.;:]) ", part.text):
            for folder, name, alone in FILE.findall(clause):
                named += [folder] if folder else []
                paths = [f"crates/{crate}/src/{name or alone}" for crate in reversed(named)]
                found.setdefault(next((it for it in paths if exists(it)), ""), []).append(clause)
    return found
