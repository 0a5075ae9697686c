"""A case: an input of a program as built, and the whole answer to it."""
import os
import re
from typing import Callable, Dict, NamedTuple, Optional, Tuple, Union

ROOT = os.path.dirname(os.path.dirname(os.path.dirname(os.path.realpath(__file__))))
# Runs a program: words, of which the first is the program, and the input. Returns what it writes.
Run = Callable[[Tuple[str, ...], bytes], bytes]
# Octets, or how other programs make them.
Made = Union[bytes, Callable[[Run], bytes]]


class Case(NamedTuple):
    """Words (the first is the program), the input, and what the program is to write and to end with. `files` are those that lie where it runs.
    What it writes to standard error is looked at only if `errors` says what that is. `seen` returns the part of the output that the case is about."""

    words: Tuple[str, ...]
    given: Made
    answer: Made
    status: int
    files: Dict[str, Made] = {}
    errors: Optional[bytes] = b""
    seen: Callable[[bytes], bytes] = bytes


def checked(source, answer, status):
    """Returns the case that `upc check` answers this source so."""
    return Case(("upc", "check"), source, answer, status)


def explained(given, answer):
    """Returns the case that `upc-lab explain` answers this input so."""
    return Case(("upc-lab", "explain"), given, answer, int(answer.startswith(b"fault ")))


def digits_of(words, text):
    """Returns how a program answers a text that means a code: the line with its digits."""
    return lambda run: run(words, text).split(b"\n")[1] + b"\n"


def variants_of(path, names):
    """Returns the variants of enums in a source."""
    with open(f"{ROOT}/{path}", encoding="utf-8") as it:
        text = it.read()
    found = set()
    for name in names.split():
        body = re.search(rf"^pub enum {name} {{\n(.*?)^}}", text, re.M | re.S)[1]
        found.update(re.findall(r"^    (\w+)", body, re.M))
    return found


def check_variants(path, names, met, never=()):
    """Raises an error unless each variant of these enums is met by a row, or is one of those that no input shows."""
    missing = variants_of(path, names) ^ {*met, *never}
    if missing:
        raise ValueError(f"{path}: variants without a row, or rows without a variant: {' '.join(sorted(missing))}")
