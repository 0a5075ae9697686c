"""The parts of pages, and of the header for C: each is about one thing."""
import re

from .files import crates, exists, files_below, text_of
from .functions import comment_above

HEADER, RESULTS = "include/upc.h", "bench/RESULTS.md"
# The table of docs/GLOSSARY.md with the words of others.
OTHERS = "Other words for the same"
TYPE = re.compile(r"(?:pub(?:\(\w+\))? )?(?:struct|enum|trait|type|const) (\w+)")
# How many parts of a section tell what it is about.
MOST_OF_SECTION = 3
# What begins a declaration of the header, and its name; and a constant of an enum with its comment.
DECLARED = re.compile(r"(?:#define|typedef struct|enum|uint32_t|void|const char) \*?(?:(UPC_MOST_\w+|UPC_LAST_\w+|UPC_VERSION|UPC_\w*STACK|upc_\w+)\b|(?=\{))")
MEMBER = re.compile(r"\s*(UPC_\w+)(?: = ([^,/]*))?,?\s*(?:/\*(.*))?$")


class Part:
    """A part of a page, such as a row of a table or a paragraph: its file and line, the heading above it, its name and its text, and
    for a row what the table is about."""

    def __init__(self, path, line, heading, name, text, about=""):
        self.path, self.line, self.heading, self.name, self.text, self.about = path, line, heading, name, text, about
        self.is_ended = False

    @property
    def sentences(self):
        """Returns the sentences of the text, of which one answers. A declaration is one answer."""
        return [self.text] if self.path == HEADER and self.name else re.split(r"(?<=\w[.?!;]) (?=[A-Z*])|(?<=\)\.) ", self.text)


def pages():
    """Yields the pages that say what holds, those of the crates last."""
    yield from ("README.md", *files_below("docs", ".md"), "bench/README.md", *(f"crates/{it}/README.md" for it in crates() if exists(f"crates/{it}/README.md")))


def parts_of(path, text):
    """Yields the parts of a page: rows, items and paragraphs. Indented lines of code below a paragraph belong to it. The marks of tests/pages don't."""
    heading, columns, open_part, lead = "", [], None, ""
    for number, line in enumerate(re.sub(r" *<!-- .* -->$", "", text, flags=re.M).split("\n"), 1):
        plain = re.sub(r"`|\*\*|\]\([^)]*\)|\[(?=\w+\]\()", "", line).strip()
        is_row, goes_on = line.startswith("|"), open_part and not re.match(r"[#|]|- |\d+\. ", line)
        if goes_on and (not line or not open_part.is_ended or line.startswith("    ")):
            open_part.is_ended |= not line
            open_part.text += " " * bool(line) + plain
            continue
        if open_part:
            yield open_part
            lead = open_part.text
        open_part, columns = None, columns if is_row else []
        if line.startswith("#"):
            heading, lead = plain.lstrip("# "), ""
        elif is_row and not columns:
            columns = cells_of(plain)
        elif is_row and not line.startswith("|--"):
            yield row_of(path, number, heading, columns, cells_of(plain), lead)
        elif plain and not is_row and not line.startswith("!["):
            open_part = Part(path, number, heading, "", plain)
    if open_part:
        yield open_part


def cells_of(row):
    """Returns the cells of a row of a table."""
    return [it.strip() for it in row.strip("|").split("|")]


def row_of(path, number, heading, columns, cells, lead):
    """Returns a row as a part: its first cell is its name, and each other cell goes by its column if there are several."""
    others = [it if len(cells) < 3 else f"{column}: {it}" for column, it in zip(columns[1:], cells[1:]) if it]
    return Part(path, number, heading, cells[0], "; ".join(others), f"{columns[0]} {lead}")


def sections_of(path, text):
    """Yields the sections of a page: each has its heading for a name, and its first parts for a text."""
    found, line = {}, 0
    for it in parts_of(path, text):
        found.setdefault(it.heading, []).append(f"{it.name} {it.text}".strip())
    for number, it in enumerate(text.split("\n"), 1):
        heading = re.sub(r"`| *<!-- .* -->$", "", it).lstrip("# ") if it.startswith("#") else ""
        if heading in found:
            yield Part(path, number, "", heading, " ".join(found.pop(heading)[:MOST_OF_SECTION]))


def header_parts():
    """Yields the parts of the header for C: paragraphs of its first comment, and declarations with the comments above them."""
    lines, heading, comment, at = text_of(HEADER).split("\n"), "", "", 0
    while at < len(lines):
        found = DECLARED.match(lines[at])
        end = last_of(lines, at, bool(found))
        if lines[at].startswith("/*"):
            inside = [re.sub(r"^/?\s?\*+/?|\*/$", "", it).strip() for it in lines[at : end + 1]]
            comment = " ".join(inside)
            heading = comment.strip("- ") if comment.startswith("----") else heading
            yield from first_comment(inside) if not at else ()
        elif found:
            yield from declared(found[1] or "enum", lines[at : end + 1], at + 1, heading, comment)
        elif lines[at].startswith("#"):
            comment = ""
        at = end + 1


def last_of(lines, at, is_declared):
    """Returns the last line of the comment or the declaration that begins on this line."""
    line = lines[at]
    sign = "*/" if line.startswith("/*") else "" if not is_declared or line.startswith("#") else "}" if "{" in line else ";"
    return next(k for k in range(at, len(lines)) if sign in lines[k])


def first_comment(lines):
    """Yields the paragraphs and items of the comment that begins the header."""
    begun, text = 1, ""
    for number, line in enumerate([*lines, ""], 1):
        if line and not line.startswith("- "):
            text += " " + line
        else:
            if text.strip():
                yield Part(HEADER, begun, "rules for callers", "", text.strip())
            begun, text = (number, line[2:]) if line else (number + 1, "")


def declared(name, lines, line, heading, comment):
    """Yields a declaration with the comments of its members, and the constants of an enum."""
    members = " ".join(re.findall(r"(\w+;|/\*.*?\*/)", "\n".join(lines), re.S)) if "struct" in lines[0] else ""
    yield Part(HEADER, line, heading, name, re.sub(r"/\*|\*/|;|\s+", " ", f"{comment} {members}").strip())
    for number, it in enumerate(lines, line):
        found = MEMBER.match(it)
        if found:
            text = " ".join(filter(None, [found[2], (found[3] or "").removesuffix("*/").strip()]))
            yield Part(HEADER, number, heading, found[1], text.strip(), comment)


def types_of(crate):
    """Yields the types and constants of a crate's sources that have a comment, with the comments of their variants and fields."""
    for path in files_below(f"crates/{crate}/src", ".rt"):
        lines = text_of(path).split("\n")
        for at, line in enumerate(lines):
            found = TYPE.match(line)
            comment = comment_above(lines, at, "///") if found else []
            if comment:
                inside = [] if "{" not in line or "}" in line else lines[at + 1 : lines.index("}", at)]
                yield Part(path, at + 1, crate, found[1], " ".join(comment), " ".join(it.strip("/ ,") for it in inside))


def cases():
    """Yields the cases of tests/worked/, each with what it shows."""
    for path in files_below("tests/worked", ".cases"):
        lines = text_of(path).split("\n")
        for number, (line, below) in enumerate(zip(lines, lines[1:]), 1):
            if line.startswith("# "):
                yield Part(path, number, "", line[2:], below.partition(": ")[2])


def all_sections():
    """Yields the sections of all pages, and of the results, whose parts are figures. The words of others are no answer: they lead to one."""
    for path in (*pages(), RESULTS):
        yield from (it for it in sections_of(path, text_of(path)) if it.name != OTHERS)


def all_parts():
    """Yields the parts of all pages and of the header. The words of others are no answer: they lead to one."""
    for path in pages():
        yield from (it for it in parts_of(path, text_of(path)) if it.heading != OTHERS)
    yield from header_parts()
