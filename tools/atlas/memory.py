"""Where the code says that memory ran out, and at the failure of which call.

No contract can say that an allocation really failed: a body that answers NoMemory at a size that no test has meets its contract. So
each place that makes such an error has to be the failed result of one call, and of nothing else. bin/find --memory lists them.
"""
import re

# An error that says so, std's own, and the function that makes that of the library for C.
ERROR = re.compile(r"\b(?:\w+::)*(?:NoMemory|OutOfMemory)\b|\bAllocError\b|\bout_of_memory\(\)")
# What follows a pattern, and a type.
PATTERN = re.compile(r"[\s,)}.]*(?:=>|\|(?!\|)|if\b)")
# What may be between a cause and the error that it makes.
WRAPPED = r"(?:return\s+)?(?:\w+\((?:\w+, )*)?(?:Err\()?\(?\s*(?:\w+::)*(?:\w+\()?$"
# What would be larger than any memory, so no call is made for it: a block of more than 2^63 octets, and 2^32 instructions.
TOO_LARGE = re.compile(r"^!may_hold::<[\w<>]+>\(\w+\)$|^self\.reversed\.len\(\) >= ROOM$")
OPERATOR = re.compile(r"\|\||&&|==|!=|<=|>=|[^-=]> |(?<!\w)!| < | [+*/%-] ")
# A run of code on one level: no brace, no statement's end, no other `let`.
RUN = r"((?:(?!\blet\b)[^;{}])*?)"


class Place:
    """A place that makes the error: its function, its line, the call that failed, or why that isn't one call."""

    def __init__(self, function, line, cause, fault):
        self.function, self.line, self.cause, self.fault = function, line, " ".join(cause.split()), fault


def plain(body):
    """Returns a body with its comments and texts blanked, so that places stay the same."""
    blank = lambda found: re.sub(r"[^\n]", " ", found[0])
    return re.sub(r'//[^\n]*|b?"(?:[^"\\]|\\.)*"', blank, body)


def opening(body, at):
    """Returns where the innermost brace opens that is open at this place, or -1."""
    depth = 0
    for k in range(at - 1, -1, -1):
        if body[k] == "}":
            depth += 1
        elif body[k] == "{":
            if not depth:
                return k
            depth -= 1
    return -1


def scrutinee(body, at):
    """Returns what the innermost match around this place matches."""
    while at > 0:
        at = opening(body, at)
        found = re.search(r"\bmatch\s+((?:[^{};]|\{[^{}]*\})*?)\s*$", body[:at]) if at > 0 else None
        if found:
            return found[1]
    return ""


def is_call(text):
    """Returns whether this is one call, or a name, and no test of anything but in a call's arguments."""
    outside = text
    while "(" in outside and outside != (outside := re.sub(r"\([^()]*\)", "", outside)):
        pass
    return bool(re.search(r"\)$|\)\?$|^\*?[\w.]+$", text)) and not OPERATOR.search(outside)


def judged(cause, ending=""):
    """Returns a cause, and what is wrong with it."""
    cause = cause.strip()
    if ending and not cause.endswith(ending) and not TOO_LARGE.match(cause):
        return cause, f"its condition is `{' '.join(cause.split())}`"
    call = cause.removesuffix(ending) if ending else cause
    if not is_call(call) and not TOO_LARGE.match(cause):
        return cause, f"its cause is `{' '.join(cause.split())}`, which isn't one call"
    return cause, ""


def cause_of(body, at):
    """Returns the call whose failure makes the error at this place, and what is wrong with it."""
    before = body[:at]
    found = re.search(r"\.(?:map_err\(\|_\|\s*|ok_or\()(?:\(?\s*)?(?:\w+\()?$", before)
    if found:
        return judged(re.split(r"[;{}]|(?<![=<>!])=(?![=>])|=>", before[: found.start()])[-1])
    found = re.search(r"\blet\s+(?:Ok|Some)\((?:[^()]|\([^()]*\))*\)\s*=\s*" + RUN + r"\s*else\s*\{\s*" + WRAPPED, before)
    if found:
        return judged(found[1])
    found = re.search(r"\bif\s+((?:[^;{}])*?)\s*\{\s*" + WRAPPED, before)
    if found:
        ending = ".is_none()" if found[1].rstrip().endswith(".is_none()") else ".is_err()"
        return judged(found[1], ending)
    found = re.search(r"=>\s*\{?\s*" + WRAPPED, before)
    arm = before[: found.start()].rstrip() if found else ""
    if re.search(r"(?:Err\(_\w*\)|None)$", arm) or ERROR.search(arm.rsplit("=>", 1)[-1]):
        return judged(scrutinee(body, at))
    # The last statement of the arm of a failed call.
    brace = opening(body, at)
    if brace > 0 and re.search(r"\bErr\(\w+\)\s*=>\s*$", body[:brace]) and re.search(r"[;}]\s*" + WRAPPED, before):
        return judged(scrutinee(body, brace))
    return "", "it isn't the failure of a call"


def places(function):
    """Yields the places of a function that make the error."""
    body = plain(function.body)
    for found in ERROR.finditer(body):
        after = body[found.end() :]
        if PATTERN.match(after) or re.match(r"\s*>", after) or after.startswith("::"):
            continue
        if function.trait == "From" and function.name == "from":
            continue
        cause, fault = cause_of(body, found.start())
        line = function.line + function.body[: found.start()].count("\n")
        yield Place(function, line, cause, fault)


def all_places(sources):
    """Yields the places of all crates but those of tests."""
    for it in sources.functions:
        if not it.is_test and it.crate != "memory_trials" and not it.crate.endswith("_tests") and "tests" not in it.module.split("::"):
            yield from places(it)
