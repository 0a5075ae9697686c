"""Answers questions: what fits their words, and what belongs to it."""
import itertools
import re
import textwrap

from .definitions import sentence
from .grouping import grouped
from .index import BUGS, TESTS

# How many answers are shown whole, and how many names of tests and bugs of each.
MOST_SHOWN, MOST_NAMES = 4, 6
# The first row of what belongs to a function or a definition.
BELONGS = re.compile(r" {4}(?:clauses|promised by|turns|caught by) ")


def listed(names, most=MOST_NAMES):
    """Returns names in lines, or how many more there are."""
    shown = names[:most]
    if len(names) > most:
        shown = shown + [f"and {len(names) - most} more"]
    return shown


def row(title, values):
    """Returns the lines of one row."""
    values = values or ["none"]
    return [f"    {title if not k else '':<12}{it}" for k, it in enumerate(values)]


def wrapped(text):
    """Returns a sentence in lines."""
    return textwrap.wrap(re.sub(r"\s+", " ", text), 110, initial_indent="    ", subsequent_indent="    ")


def about_function(sources, it):
    """Returns what belongs to a function."""
    called = [f"{other.name} {other.path}:{other.line}" for other in sources.called_by(it)]
    edits = [f"{edit.name} {edit.where}" for edit in sources.edits_of(it)]
    edits += [f"{edit.name} {edit.where} (in {edit.function.rpartition('::')[2]})" for edit in sources.edits_below(it)]
    if not edits:
        edits = ["none: a law has no code to turn" if it.is_law else f"none: {it.no_edit}" if it.no_edit else "none"]
    clauses = [f"{clause.kind} {clause.name}".strip() + (f": {clause.sentence}" if clause.sentence else "") for clause in it.clauses]
    tests = sorted(test.full for test in sources.tests_of(it))
    return [
        *row("clauses", clauses),
        *row("definitions", listed([f"{cited.name} {cited.module.path}:{cited.line}" for cited in sources.cited_by(it)])),
        *row("calls", listed(called)),
        *row("proof", sources.proof_of(it) or ["found by the prover"]),
        *row("tests", listed(tests)),
        *row("bugs", listed(edits)),
    ]


def about_definition(sources, it):
    """Returns what belongs to a definition: the public functions that promise it, and what turns and tests them."""
    promisers = sources.promisers.get(it, [])
    direct = {function for function in promisers if it in sources.cited_by(function)}
    # What has code to turn comes first, and what cites the definition itself before what reaches it by another.
    by = sorted(promisers, key=lambda function: (function.is_law, function not in direct))
    tests = sorted({test.full for function in by[:3] for test in sources.tests_of(function)})
    edits = [f"{edit.name} {edit.where}" for function in by[:3] for edit in sources.edits_of(function) + sources.edits_below(function)]
    clauses = [f"{function.full} {function.path}:{function.line}" for function in by]
    proofs = [proof for function in by[:3] for proof in sources.proof_of(function)]
    return [
        *row("promised by", listed(clauses) if clauses else ["no public contract: it only helps"]),
        *row("proof", proofs or ["found by the prover"] if by else []),
        *row("tests", listed(tests)),
        *row("bugs", listed(edits)),
    ]


def about(sources, found):
    """Returns the lines of one answer."""
    it = found.it
    if found.kind in ("function", "law", "test"):
        return [name_of(found), *wrapped(it.sentence), *(about_function(sources, it) if found.kind != "test" else [])]
    if found.kind == "definition":
        return [name_of(found), *wrapped(sentence(it.sentence) if it.sentence else ""), *about_definition(sources, it)]
    if found.kind in ("page", "declaration", "type", "case", "source", "module", "script"):
        return [name_of(found), *wrapped(it.text)]
    if found.kind == "planted bug":
        turned = next((function for function in sources.functions if function.crate == it.crate and it in sources.edits_of(function)), None)
        head = [name_of(found), *row("turns", [f"{turned.full} {turned.path}:{turned.line}" if turned else it.function or "a table"])]
        return head + (about_function(sources, turned) if turned else [])
    return [name_of(found), *row("caught by", [it.test])]


def name_of(found):
    """Returns what an answer is called, and where it is."""
    it = found.it
    if found.kind == "definition":
        return f"definition {it.name}  {it.module.path}:{it.line}"
    if found.kind == "page":
        return f"page {it.path}:{it.line}  {': '.join(filter(None, [it.heading, it.name]))}"
    if found.kind == "declaration":
        return f"declaration {it.name or it.heading}  {it.path}:{it.line}"
    if found.kind == "planted bug":
        return f"planted bug {it.name}  {it.where}"
    if found.kind == "patch":
        return f"patch {it.path}"
    return f"{found.kind} {getattr(it, 'full', it.name)}  {it.path}:{it.line}"


def brief(lines):
    """Returns what is shown of a further part of a place: what it is called and what it says, without what belongs to it."""
    return list(itertools.takewhile(lambda it: not BELONGS.match(it), lines))


def text_of_answer(sources, found):
    """Returns the text of an answer: a line with what it is called and where it is, and below it what belongs to it."""
    return "\n".join(about(sources, found))


def answer(index, texts, words, whole=False):
    """Returns the answer to a question by an index: the places that fit best with their parts, and the names of some others."""
    groups = grouped(index.search(words))
    if not groups:
        return f"nothing has one of the words {' '.join(words)}\n"
    shown = groups if whole else [it for it in groups if it.rank == groups[0].rank][:MOST_SHOWN]
    lines = []
    for group in shown:
        first, *others = group.answers if whole else group.shown
        lines += texts.of(first) + [line for it in others for line in brief(texts.of(it))] + [""]
    for title, rank in (("others", 0), ("tests", TESTS), ("bugs", BUGS)):
        left = [it for it in groups if it.rank == rank and it not in shown]
        names = [texts.of(it.answers[0])[0] for it in left[:MOST_NAMES]] + [""] * len(left[MOST_NAMES:])
        lines += row(title, listed(names)) if left else []
    return "\n".join(lines).rstrip() + "\n"
