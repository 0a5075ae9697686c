"""What of a source the prover reads: its code, without comments. And what a crate above reads of it: its statements, without bodies."""
import re

from .functions import HEAD, header_end

# A comment, or a text in which what looks like one is none.
RUST = re.compile(r"""//[^\n]*|b?"(?:[^"\\]|\\.)*"|b?'(?:[^'\\\n]|\\[^\n]+?)'""", re.S)
ANTT = re.compile(r"""\{-.*?-\}|(?<![^ \n(){}.;,@"»])--[^\n]*|"(?:[^"\\\n]|\\.)*\"""", re.S)


def code_of(path, text):
    """Returns the code of a source file: its lines without comments and without spaces at their ends. Lines without code are left out."""
    form = ANTT if path.endswith(".antt") else RUST
    is_comment = lambda it: it.startswith(("//", "--", "{-"))
    plain = form.sub(lambda it: "" if is_comment(it[0]) else it[0], text)
    return "\n".join(line.rstrip() for line in plain.split("\n") if line.strip())


def statement_of(path, text):
    """Returns the code of a source file without the bodies of its functions: what the prover reads of it in crates above."""
    lines, kept, at = code_of(path, text).split("\n"), [], 0
    while at < len(lines):
        found = HEAD.match(lines[at])
        if not found:
            kept.append(lines[at])
            at += 1
            continue
        indent = found[1]
        end, has_body = header_end(lines, at, indent)
        kept += lines[at : end + 1]
        at = end + 1
        if has_body and not lines[end].endswith("{}"):
            while at < len(lines) and lines[at] != indent + "}":
                at += 1
    return "\n".join(kept)
