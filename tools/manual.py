#!/usr/bin/env python3
"""Makes the tables of docs/upc.1 and docs/upc-lab.1 from those of docs/FORMATS.md and docs/RULES.md.

    tools/manual.py           writes both pages again
    tools/manual.py --check   reports whether they are what it would write

The page marks each table by a comment `.\\" table NAME` and ends it by `.\\" end`. NAME is a function of TABLES below.
"""
import os
import re
import sys
import textwrap

ROOT = os.path.dirname(os.path.dirname(os.path.realpath(__file__)))
FORMATS = f"{ROOT}/docs/FORMATS.md"
RULES = f"{ROOT}/docs/RULES.md"
PAGES = [f"{ROOT}/docs/upc.1", f"{ROOT}/docs/upc-lab.1"]
# A word of parameters, as VPI/VCI or N.
PARAMETERS = re.compile(r"^[A-Z][A-Z/]*$")


def text(path):
    """The text of a file."""
    with open(path, encoding="utf-8") as file:
        return file.read()


def rows(formats, head):
    """The rows below the table head of these columns, each a list of cells."""
    lines = formats.split("\n")
    at = lines.index("| " + " | ".join(head) + " |")
    found = []
    for line in lines[at + 2 :]:
        if not line.startswith("|"):
            return found
        found.append([it.strip().replace(r"\|", "|") for it in re.split(r"(?<!\\)\|", line.strip("|"))])
    return found


def spelled(words):
    """Words of a line that is read or printed, with its parameters marked."""
    out, kind = [], ""
    for word in words.split():
        now = "Ar" if PARAMETERS.match(word) or word in ("pN", "CONTRACT", "..") else "Li"
        if now == kind:
            out.append(word)
        else:
            out += [now, word]
            kind = now
    return " ".join(out)


def item(cell):
    """The head of a list's item for a cell of a table."""
    words = []
    for part in re.findall(r"`[^`]*`|[^`]+", cell):
        if part.startswith("`"):
            words.append(spelled(part.strip("`")))
        else:
            words += re.sub(r"\w[\w ]*", lambda it: "No " + it[0].strip(), part).split()
    return ".It " + " ".join(words)


def sentence(text):
    """A text with a capital letter at its start and a full stop at its end."""
    return text[:1].upper() + text[1:] + ("" if text.endswith((".", ":")) else ".") if text else ""


def prose(text):
    """Lines of the manual for a text: each sentence starts a line, and codes are quoted."""
    out = []
    for one in re.split(r"(?<=[.:]) (?=[A-Z`])", text):
        for part in re.split(r"(`[^`]*`[.,:;)]*)", one):
            code = re.match(r"`([^`]*)`([.,:;)]*)", part)
            if code:
                out.append(" ".join([".Ql", code.group(1), *code.group(2)]))
            elif part.strip():
                out += textwrap.wrap(part.strip(), 78, break_on_hyphens=False)
    return ["\\&" + it if it.startswith(("'", ".")) and not it.startswith(".Ql") else it for it in out]


def listed(items):
    """A tagged list of (head, text)."""
    out = [".Bl -tag -width Ds"]
    for head, text in items:
        out += [head, *prose(text)]
    return out + [".El"]


def instructions(formats):
    """Each instruction with its codes and its effect."""
    return listed(
        (item(spelling), f"{code}: {sentence(effect)}") for spelling, code, effect in rows(formats, ["Spelling", "Code", "Effect"])
    )


def grammar(formats):
    """The grammar of a line, of assembly in docs/FORMATS.md."""
    block = re.search(r"\n((?:    .*\n)*    line +=.*\n(?:    .*\n)*)", formats).group(1)
    return [".Bd -literal", *(it[4:] for it in block.rstrip("\n").split("\n")), ".Ed"]


def commands(formats):
    """Each line of a script, its answer and what it does."""
    return listed(
        (item(line), f"{answer}: {sentence(does)}" if "`" in answer else sentence(does))
        for line, answer, does in rows(formats, ["Line", "Answer", "What it does"])
    )


def answers(formats):
    """Each answer to a cell."""
    found = rows(formats[formats.index("Its answer:") :], ["Answer", "When"])
    return listed((item(answer), sentence(when)) for answer, when in found)


def contracts(formats):
    """Each kind of contract."""
    head = next(it for it in formats.split("\n") if it.startswith("| Kind |"))
    found = []
    for kind, first, second, excess in rows(formats, head.strip("| ").split(" | ")):
        text = f"Every cell meets {first}."
        if second:
            more = second[:1].upper() + second[1:]
            text += f" {more} meet{'s' if second.startswith('every') else ''} the second bucket. A cell that conforms to the first and not to the second {excess}."
        found.append((item(kind), text))
    return listed(found)


def faults(formats):
    """Each fault line. Those of the assembler have their texts in the table of its errors."""
    errors = {number.strip("`"): when for number, when in rows(formats, ["Error", "When"])}
    found = []
    for line, when in rows(formats, ["Line", "When"]):
        if line.startswith("`fault rules"):
            continue
        asm = re.match(r"`fault asm (\d+ [A-Za-z]+) LINE`", line)
        found.append((item(line), sentence(errors[asm.group(1)] if asm else when)))
    return listed(found)


def rule_tokens(formats):
    """Each kind of token of rules."""
    return listed((f".It No {token}", sentence(form)) for token, form in rows(text(RULES), ["Token", "Form"]))


def rule_grammar(formats):
    """The grammar of a line of rules."""
    return grammar(text(RULES))


def rule_words(formats):
    """What the words of rules hold of."""
    page = text(RULES)
    tests = [(word, f"{holds}: {here}") for word, holds, here, _ in rows(page, ["Word", "Holds of", "As here", "As tcpdump has it"])]
    return listed((item(word), sentence(holds)) for word, holds in rows(page, ["Word", "Holds of"]) + tests)


def rule_faults(formats):
    """Each fault line of rules, with the text of its row in the page of rules."""
    found = {fault.strip("`"): when for fault, when in rows(text(RULES), ["Fault", "When"])}
    lines = [line for line, _ in rows(formats, ["Line", "When"]) if line.startswith("`fault rules")]
    return listed((item(line), sentence(found[" ".join(line.strip("`").split()[2:4])])) for line in lines)


def statuses(formats):
    """Each exit status."""
    return listed((".It " + status, sentence(when)) for status, when in rows(formats, ["Status", "When"]))


TABLES = {it.__name__: it for it in (instructions, grammar, commands, answers, contracts, faults, statuses, rule_tokens, rule_grammar, rule_words, rule_faults)}


def made(page, formats):
    """The page with its tables made again."""
    out, inside = [], False
    for line in page.split("\n"):
        begins = re.match(r'\.\\" table (\w+)$', line)
        if begins:
            out += [line, *TABLES[begins.group(1)](formats)]
            inside = True
        elif line == '.\\" end':
            inside = False
            out.append(line)
        elif not inside:
            out.append(line)
    return "\n".join(out)


def main():
    formats, differs = text(FORMATS), 0
    for path in PAGES:
        page = text(path)
        new = made(page, formats)
        if "--check" not in sys.argv[1:]:
            with open(path, "w", encoding="utf-8") as file:
                file.write(new)
        elif new != page:
            print(f"{os.path.relpath(path, ROOT)} isn't what tools/manual.py makes of docs/FORMATS.md and docs/RULES.md")
            differs = 1
    return differs


if __name__ == "__main__":
    sys.exit(main())
