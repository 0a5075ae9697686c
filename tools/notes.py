#!/usr/bin/env python3
"""What of the deep tier has passed, so that its next call goes on after it.

A note is a line with the checksum of all that a part read, and its name. Those of this machine are in out/passed. tests/passed is
committed: it has those of other machines, as far as they are of the present files. A note of other text counts for nothing. Of a planted
bug that is the code and the proofs of its crate, and the statements of the crates below.

    tools/notes.py                   writes tests/passed anew from both
"""
import functools
import hashlib
import os
import sys
import threading

import kit
from atlas.code import code_of, statement_of
from atlas.edits import edits_of
from atlas.files import files_below, text_of

HERE = f"{kit.ROOT}/out/passed"
ELSEWHERE = f"{kit.ROOT}/tests/passed"
# How much of a checksum a note has.
DIGITS = 20
writing = threading.Lock()


def sum_of(*texts):
    """Returns the checksum of these texts, and of the logic that proofs are checked in."""
    summed = hashlib.sha256()
    for it in (kit.logic(), *texts):
        octets = it if isinstance(it, bytes) else it.encode()
        summed.update(b"%d " % len(octets) + octets)
    return summed.hexdigest()[:DIGITS]


def octets_of(path):
    """Returns the octets of a file."""
    with open(f"{kit.ROOT}/{path}", "rb") as it:
        return it.read()


def sum_of_files(*places, pages=True):
    """Returns the checksum of these files, and of those below these folders, with pages or without, and without what was built and notes. Of
    a source only its code counts."""
    texts = []
    for place in places:
        for at, folders, names in os.walk(f"{kit.ROOT}/{place}") if os.path.isdir(f"{kit.ROOT}/{place}") else [(kit.ROOT, [], [place])]:
            folders[:] = sorted(it for it in folders if it not in ("out", "__pycache__"))
            for name in sorted(it for it in names if f"{at}/{it}" != ELSEWHERE and (pages or not it.endswith(".md"))):
                path = os.path.relpath(f"{at}/{name}", kit.ROOT)
                texts += [path, code_of(path, text_of(path)) if name.endswith((".rt", ".antt")) else octets_of(path)]
    return sum_of(*texts)


def code_below(crate, part, read=code_of, only=""):
    """Returns the paths of the sources in a part of a crate, each with what `read` makes of it. `only` is the end of their names."""
    paths = [it for it in files_below(f"crates/{crate.name}/{part}", only) if it.endswith((".rt", ".antt"))]
    return [text for path in paths for text in (path, read(path, text_of(path)))]


@functools.lru_cache(maxsize=None)
def sum_of_statements(crate):
    """Returns the checksum of what the prover reads of a crate in those above it: its definitions and contracts, and the lemmas for others."""
    src, specs = code_below(crate, "src", statement_of), code_below(crate, "specs")
    return sum_of(repr(crate.said), *src, *specs, *code_below(crate, "proofs", only="Public.antt"))


@functools.lru_cache(maxsize=None)
def sum_of_crate(crate):
    """Returns the checksum of what the prover reads of a crate: its own code and proofs, and the statements of this repository's crates below
    it. A comment counts for nothing, and neither does a body below."""
    below = [it for it in crate.below() if os.path.isdir(f"{kit.ROOT}/crates/{it.name}")]
    own = [text for part in ("src", "specs", "proofs") for text in code_below(crate, part)]
    return sum_of(repr(crate.said), *own, *(sum_of_statements(it) for it in below))


def sum_of_edit(crate, edit):
    """Returns the checksum of a planted bug and of all that its refusal rests on."""
    return sum_of(sum_of_crate(crate), edit.noted_as, *(text for pair in edit.pairs for text in pair))


def notes_in(file):
    """Returns the notes of a file: the name of each by its checksum."""
    if not os.path.exists(file):
        return {}
    with open(file, encoding="utf-8") as it:
        return {summed: name.rstrip("\n") for summed, _, name in (line.partition(" ") for line in it) if name}


def passed(here_alone=False):
    """Returns the checksums of what has passed, on this machine alone or on any."""
    return (notes_in(HERE) if here_alone else {**notes_in(ELSEWHERE), **notes_in(HERE)}).keys()


def note(summed, what):
    """Notes that this passed here."""
    with writing:
        os.makedirs(os.path.dirname(HERE), exist_ok=True)
        with open(HERE, "a", encoding="utf-8") as it:
            it.write(f"{summed} {what}\n")


def write_for_others():
    """Writes the last note of each name, by names, but of planted bugs those alone that are of the present files."""
    known = {**notes_in(ELSEWHERE), **notes_in(HERE)}
    last = {name: summed for summed, name in known.items() if not name.endswith(".edit")}
    present = {edit.noted_as: sum_of_edit(crate, edit) for crate in kit.crates() for edit in edits_of(crate.name) if edit.is_deep}
    last |= {name: summed for name, summed in present.items() if summed in known}
    with open(ELSEWHERE, "w", encoding="utf-8") as it:
        it.writelines(f"{summed} {name}\n" for name, summed in sorted(last.items()))


if __name__ == "__main__":
    sys.exit(write_for_others())
