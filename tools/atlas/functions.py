"""The functions of the sources, with their doc comments, clauses and calls."""
import functools
import re

from .files import files_below, text_of

HEAD = re.compile(r'( *)(pub(?:\([a-z]+\))? )?(?:unsafe )?(?:const )?(?:unsafe )?(?:extern "C" )?fn (\w+)')
OWNER = re.compile(r"(?:pub )?(?:unsafe )?(?:impl|trait)\b")
CLAUSE = re.compile(r"\b(ensures|requires)\*?\s+(?:(\w+)\s*)?\{")
CALL = re.compile(r"(?:(\w+)\s*(?:::<[^()]*?>)?::)?(\.\s*)?\b([a-z_]\w*)\s*(?:::<[^()]*?>)?\(")
NO_EDIT = re.compile(r"no edit: (.*)")


class Clause:
    """One clause of a contract: whether it ensures or requires, its name, its text, and the comment above it."""

    def __init__(self, kind, name, text, sentence):
        self.kind, self.name, self.text, self.sentence = kind, name, text, sentence


class Function:
    """A function: where it is, whose it is, what its comment says, its contract and its body."""

    def __init__(self, crate, path, line, module, owner, trait, name):
        self.crate, self.path, self.line, self.module = crate, path, line, module
        self.owner, self.trait, self.name = owner, trait, name
        self.is_pub = self.is_test = self.is_exported = False
        self.sentence, self.clauses, self.body, self.no_edit = "", [], "", ""

    @property
    def full(self):
        """Returns the function's path as the prover names it: a method goes by its type and trait."""
        middle = f"{self.owner}{self.trait}" if self.owner else ""
        return "::".join(it for it in (self.crate, self.module, middle, self.name) if it)

    @property
    def is_law(self):
        """Returns whether the function does nothing, so that its contract is a law."""
        return bool(self.clauses) and not re.sub(r"//[^\n]*", "", self.body).strip(" \n{}")

    @functools.cached_property
    def calls(self):
        """What the body calls: for each call the type before `::` or nothing, whether it is a method, and the name."""
        code = re.sub(r"//[^\n]*", "", self.body)
        return {(it[1] or "", bool(it[2]), it[3]) for it in CALL.finditer(code)}


def type_of(head):
    """Returns the type of an impl or trait and the trait that it implements, as the prover joins them, or empty names."""
    head = re.sub(r"^(pub )?(unsafe )?(impl|trait)\s*", "", head)
    if head.startswith("<"):
        depth = 0
        for at, sign in enumerate(head):
            depth += (sign == "<") - (sign == ">" and head[at - 1] != "-")
            if not depth:
                head = head[at + 1 :]
                break
    head = re.split(r"\bwhere\b|\{", head)[0]
    trait, _, type_ = head.rpartition(" for ")
    word = lambda it: re.sub(r"[<:].*", "", it.strip().rpartition("::")[2] if "<" not in it else it.strip()).strip("&' ")
    return word(type_), word(trait) if trait else ""


def block(text, at):
    """Returns the text within the braces that open at this place, and where they close."""
    depth = 0
    for k in range(at, len(text)):
        depth += (text[k] == "{") - (text[k] == "}")
        if not depth:
            return text[at + 1 : k], k
    return text[at + 1 :], len(text)


def comment_above(lines, at, sign):
    """Returns the lines of the comment of this sign above a line, without attributes and comments of other signs between."""
    comment = []
    at -= 1
    while at >= 0 and lines[at].strip().startswith(("//", "#[")):
        found = re.match(r"\s*(//[/!]?)\s?(.*)", lines[at])
        if found and found[1] == sign:
            comment.insert(0, found[2].strip())
        at -= 1
    return comment


def clauses_of(text):
    """Returns the clauses of a contract. The comment above a clause is its sentence."""
    found = []
    for match in CLAUSE.finditer(text):
        inside, _ = block(text, match.end() - 1)
        before = text[: match.start()].split("\n")[:-1]
        found.append(Clause(match[1], match[2] or "", inside.strip(), " ".join(comment_above(before, len(before), "//"))))
    return found


def header_end(lines, at, indent):
    """Returns the line on which a function's body opens, or its declaration ends, and whether there is a body."""
    depth = 0
    for end in range(at, len(lines)):
        line = lines[end].rstrip()
        if not depth and line in (indent + "{", indent + "{}"):
            return end, True
        signature = (end == at or line.startswith(indent + ")")) and not CLAUSE.search(line)
        if not depth and signature and line.endswith((" {", " {}")):
            return end, True
        depth += line.count("{") - line.count("}")
        if not depth and line.endswith(";"):
            return end, False
    return len(lines) - 1, False


def read(function, lines, at):
    """Reads a function's contract and body from its first line on. Returns the line on which it ends."""
    indent = re.match(r" *", lines[at])[0]
    end, has_body = header_end(lines, at, indent)
    stop = end
    if has_body and not lines[end].rstrip().endswith("{}"):
        while stop + 1 < len(lines) and lines[stop].rstrip() != indent + "}":
            stop += 1
    header = lines[at:end] if lines[end].rstrip() in (indent + "{", indent + "{}") else lines[at : end + 1]
    function.clauses = clauses_of("\n".join(header))
    function.body = "\n".join(lines[end : stop + 1]) if has_body else ""
    reason = NO_EDIT.search(" ".join(comment_above(lines, at, "//")))
    function.no_edit = reason[1] if reason else ""
    return stop


def functions_of(crate):
    """Yields the functions of a crate's sources."""
    for path in files_below(f"crates/{crate}/src", ".rt"):
        yield from functions_in(crate, path, text_of(path))


def functions_in(crate, path, text):
    """Yields the functions of a source file."""
    module = path.removeprefix(f"crates/{crate}/src/").removesuffix(".rt").replace("/", "::")
    module = "" if module in ("lib", "main") else module
    lines, owner, trait, at = text.split("\n"), "", "", 0
    while at < len(lines):
        line = lines[at]
        if OWNER.match(line):
            head = line
            while "{" not in head and at + 1 < len(lines):
                at += 1
                head += " " + lines[at]
            owner, trait = type_of(head)
        elif line.startswith("}"):
            owner = trait = ""
        found = HEAD.match(line)
        if found:
            it = Function(crate, path, at + 1, module, owner if found[1] else "", trait if found[1] else "", found[3])
            above = [line.strip() for line in lines[max(0, at - 8) : at]]
            it.is_pub = bool(found[2]) and found[2] == "pub "
            it.is_exported = "extern" in line
            it.is_test = any(line.startswith("#[test]") for line in above[-3:])
            comment = [line for line in comment_above(lines, at, "///")]
            it.sentence = " ".join(comment).strip()
            at = read(it, lines, at)
            yield it
        at += 1
