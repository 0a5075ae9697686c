"""The planted bugs: edits that a prover must refuse, and patches that a test must catch."""
import os
import re

from .files import files_below, text_of
from .functions import HEAD, OWNER, type_of
from .planted import Bug, Misread, bugs_in


class Place:
    """A function as a place of a change: its crate and module, its type with the trait, and its name."""

    def __init__(self, crate, module, owner, has_arguments, name):
        self.crate, self.module, self.owner, self.has_arguments, self.name = crate, module, owner, has_arguments, name

    @property
    def full(self):
        """Returns the path with the file's module."""
        return "::".join(it for it in (self.crate, self.module, self.owner, self.name) if it)

    @property
    def short(self):
        """Returns the end of the path by which the prover finds the function: it puts a method under the module of its type."""
        return f"{self.owner}::{self.name}" if self.owner else self.full


class Edit:
    """A planted bug of a crate, the line where it is, and the function that it turns."""

    def __init__(self, crate, path, bug, is_deep):
        self.crate, self.path, self.line, self.name, self.is_deep = crate, path, bug.line, bug.name, is_deep
        self.pairs, self.refused_at, self.is_each = bug.pairs, bug.refused_at, bug.is_each or not is_deep
        self.fault, self.place = self.tried()
        self.function = self.refused_at or (self.place.full if self.place else "")

    @property
    def noted_as(self):
        """Returns what tests/edits and its notes call it."""
        return f"{self.crate}/{self.name}.edit"

    @property
    def where(self):
        """Returns its file and line."""
        return f"{self.path}:{self.line}"

    def tried(self):
        """Returns why the edit can't be applied, or nothing, and where it changes first. A pair that changes spaces alone only makes the
        old text of a later pair unique."""
        texts, place, is_found = {}, None, False
        if not self.pairs:
            return "it changes nothing", None
        for file, old, new in self.pairs:
            path = f"crates/{self.crate}/{file}"
            try:
                text = texts.get(path) or text_of(path)
            except OSError:
                return f"there is no {file}", place
            if text.count(old) != 1:
                return f"its old text is in {file} {text.count(old)} times, and not once", place
            if not is_found and old.replace(" ", "") != new.replace(" ", ""):
                is_found, place = True, place_at(self.crate, file, text, text.find(old) + len(os.path.commonprefix([old, new])))
            texts[path] = text.replace(old, new)
        return "", place


def place_at(crate, file, text, at):
    """Returns the function at this place of a source file, or None."""
    before = text[:at].split("\n")
    heads = [(n, it) for n, it in enumerate(before) if HEAD.match(it)]
    if not file.startswith("src/") or not heads:
        return None
    line, head = heads[-1]
    module = file.removeprefix("src/").removesuffix(".rt").replace("/", "::")
    module = "" if module in ("lib", "main") else module
    owner = ""
    if head.startswith(" "):
        owners = [n for n, it in enumerate(before[:line]) if OWNER.match(it)]
        owner = " ".join(before[owners[-1] : line]).partition("{")[0] if owners else ""
    type_, trait = type_of(owner)
    has_arguments = bool(trait) and "<" in owner.partition(trait)[2].partition(" for ")[0]
    return Place(crate, module, type_ + trait, has_arguments, HEAD.match(head)[3])


def bug_alone(path):
    """Returns the bug of a file of must-fail/, in the form that the toolchain reads."""
    bug, file, old = Bug(os.path.basename(path).removesuffix(".edit"), 1), "", ""
    for line in text_of(path).split("\n"):
        word, _, text = line.partition(":")
        text = text[1:] if text.startswith(" ") else text
        if word == "file":
            file = text
        elif word == "refused at":
            bug.refused_at = text.strip()
        elif word == "old":
            old = text
        elif word == "new":
            bug.pairs.append((file, old, text))
    return bug


def edits_of(crate):
    """Returns the planted bugs of a crate: those of must-fail/, which the toolchain tries, and then the deep ones of bugs/."""
    found = [Edit(crate, it, bug_alone(it), False) for it in files_below(f"crates/{crate}/must-fail", ".edit")]
    homes = {}
    for path in files_below(f"crates/{crate}/bugs", ""):
        for bug in bugs_in(text_of(path), path.removeprefix(f"crates/{crate}/bugs/"), path):
            if bug.name in homes:
                raise Misread(f"{path}:{bug.line}: {homes[bug.name]} has a bug of this heading")
            homes[bug.name] = path
            found.append(Edit(crate, path, bug, True))
    return found


class Patch:
    """A wrong body that only a test can catch: the patch's name, what it says, and the test that has to fail."""

    def __init__(self, crate, path):
        self.crate, self.path, self.name = crate, path, os.path.basename(path).removesuffix(".patch")
        text = text_of(path)
        self.sentence = " ".join(text.partition("\n\n")[0].split("\n"))
        found = re.search(r"^Test: (.+)$", text, re.M)
        self.test = found[1] if found else ""


def patches_of(crate):
    """Returns the patches of a crate's folder must-fail-by-test/."""
    return [Patch(crate, it) for it in files_below(f"crates/{crate}/must-fail-by-test", ".patch")]
