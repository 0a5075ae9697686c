"""Where `upc-lab explain` finds the fault of a text of rules, its line and its column, and which rules have a hint; but no sentence."""
import random
import re

from rules.__main__ import LONG_CODE, MOST_OCTETS, OVER_LIMIT, may_be_too_long
from rules.making import cells_for, mutated, padded
from rules.making import text_of as any_text
from rules.meaning import decision_of
from rules.reader import Fault, place_of, read_rules, tokens_of
from rules.unused import holding, small_text
from policer.text_lines import source_lines

LONG_CODE_WORDS = "the code of these rules has more than 4096 instructions\n"
UNDECIDED = "hint: not decided: too many cases\n"
HINT = re.compile(r"hint line (\d+)(?: column (\d+))?: this rule (holds of no cell|decides no cell; (line .*) takes? (?:its) cells)\n")


def text_of(source):
    """Returns a text of rules, and whether all of its cells that differ can be tried."""
    if source.random() < 0.4:
        text = small_text(source)
        return (mutated(source, text) if source.random() < 0.3 else text).encode(), True
    text = any_text(source)
    return (padded(source, text, MOST_OCTETS) if source.random() < 0.01 else text), False


def begins_of(text, fault):
    """Returns how the explanation of a fault begins: without a column if no token is at its place."""
    tokens, _ = tokens_of(source_lines(text)[fault.line - 1])
    # `;` and the `}` after a line that ends too early are no tokens of the line.
    blamed = [at for token, at in tokens if token != b";" and (token != b"}" or fault.name != "BadLine")]
    column = f" column {fault.column}" if fault.column in blamed else ""
    return f"line {fault.line}{column}: "


def wrong_fault(text, fault, answer, status):
    """Returns what is wrong with the answer to a text with a fault, or None."""
    lines = answer.splitlines(keepends=True)
    if lines[:1] != [fault.shown()] or status != 1:
        return f"{answer[:300]!r} with status {status} and not {fault.shown()!r}"
    begins = begins_of(text, fault)
    is_explained = len(lines) == 2 and lines[1].startswith(begins) and len(lines[1]) > len(begins) + 10
    return None if is_explained else f"{lines[1:]} and not {begins!r}"


def takers_named(words):
    """Returns the lines that a hint names, and how many more there are."""
    places = [place_of(one) for one in re.findall(r"line (\d+(?::\d+)?)", words or "")]
    more = re.search(r" and (\d+) more$", words or "")
    return places, int(more[1]) if more else 0


def wrong_hints(reader, hints, cells, is_all):
    """Returns what is wrong with the hints about rules without a fault, or None."""
    found = HINT.findall(hints)
    if "".join(one.group() for one in HINT.finditer(hints)) != hints:
        return f"the form of {hints[:300]!r}"
    rules = {line[3] for line in reader.rules if line[0] == "rule"}
    decided, takers = set(), {number: set() for number in rules}
    for cell in cells:
        line = decision_of(reader, cell)[0]
        decided.add(line)
        for number in holding(reader, cell):
            takers[number].add(line)
    hinted = [(int(line), int(column or 0)) for line, column, _, _ in found]
    if hinted != sorted(hinted) or not set(hinted) <= rules - decided or (is_all and set(hinted) != rules - decided):
        return f"hints about {hinted}, and {sorted(rules - decided)} decided none of the cells"
    for number, (_, _, kind, words) in zip(hinted, found):
        named, more = takers_named(words)
        if kind.startswith("holds") != (not named) or len(named) > 8 or (more and len(named) < 8) or any(at >= number for at in named):
            return f"the lines of the hint about line {number}: {words!r}"
        first = sorted(takers[number])[:8]
        if (is_all and (named, more) != (first, max(0, len(takers[number]) - 8))) or (not more and not takers[number] <= set(named)):
            return f"the hint about line {number} names {named} and {more} more, and not {sorted(takers[number])}"
    return None


def wrong_rules_explanation(text, is_all, ours, source):
    """Returns what is wrong with the answer to a text of rules, its status and messages, or None."""
    answer, status = ours[0].decode("latin-1"), ours[1]
    if ours[2] != b"":
        return f"the messages {ours[2]}"
    if len(text) > MOST_OCTETS:
        return None if (answer, status) == (OVER_LIMIT, 1) else f"{answer[:300]!r} about a text over the limit"
    try:
        reader = read_rules(text)
    except Fault as fault:
        return wrong_fault(text, fault, answer, status)
    if answer == LONG_CODE + LONG_CODE_WORDS:
        return None if status == 1 and may_be_too_long(reader) else f"{answer!r} with status {status}"
    count = sum(line[0] == "rule" for line in reader.rules)
    begins = f"no fault in {count} rule{'' if count == 1 else 's'}\n"
    if not answer.startswith(begins) or status != 0:
        return f"{answer[:300]!r} with status {status} and not {begins!r}"
    if answer == begins + UNDECIDED:
        return None if not is_all else f"{answer!r} about a small text"
    cells = [bytes([0, 0, 0, low]) + bytes(48) for low in range(16)] if is_all else cells_for(reader, source, 60)
    return wrong_hints(reader, answer[len(begins):], cells, is_all)


def wrong_comments(explained, messages):
    """Returns what is wrong with what `rules` writes to standard error about a text without a fault that is explained so, or None: each
    hint is a comment."""
    wanted = b"".join(b"# " + hint for hint in explained.splitlines(keepends=True)[1:])
    return None if messages == wanted else f"the comments {messages[:300]!r} and not {wanted[:300]!r}"


def rules_input(seed, number):
    """Returns a text of rules, whether all of its cells that differ can be tried, and the source of random numbers after it."""
    source = random.Random(f"explain {seed} {number}")
    return (*text_of(source), source)
