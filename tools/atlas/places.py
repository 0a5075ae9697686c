"""Which paths of the repository the scripts and pages name, and which of them aren't there."""
import glob
import os
import re
import subprocess

from .files import ROOT, exists, files_below, text_of

FOLDERS = "bench|bin|crates|docs|examples|include|reference|tests|tools"
# A path that begins at the top of the repository, in a script, a page or a comment.
PATH = re.compile(rf"(?<![\w./*$}}-])(?:\$root/|\{{kit\.ROOT\}}/|\./)?((?:{FOLDERS})/[\w./*+-]*)")
# What stands for any name in it, as in crates/NAME/src/..
ANY = re.compile(r"\b[A-Z][A-Z-]*\b(?!\.md)|\.\.")
# What the toolchain writes into a crate's out/.
MADE = re.compile(r"(?:$|\*|rlib\b|incremental\b|stamp\b)")


def scripts():
    """Returns the scripts: all that can be run, and what they load."""
    found = []
    for folder in (".ci", "bench", "bin", "reference", "tests", "tools"):
        for at, folders, names in os.walk(f"{ROOT}/{folder}"):
            folders[:] = sorted(it for it in folders if f"{at}/{it}" != f"{ROOT}/tools/atlas/tests" and it not in ("__pycache__", "out", "worked"))
            for name in sorted(names):
                path = os.path.relpath(f"{at}/{name}", ROOT)
                if os.access(f"{ROOT}/{path}", os.X_OK) or name.endswith((".py", ".sh")):
                    found.append(path)
    return [it for it in [*found, "tests/worked/cases.sh", "tests/worked/library-examples"] if exists(it)]


def is_there(path):
    """Returns whether the repository has the path, or a build writes it."""
    if exists(path) or re.search(r"^bench/out\b", path):
        return True
    path = ANY.sub("*", path)
    found = re.match(r"crates/([^/]+)/out(?:/(.*))?$", path)
    if found:
        crate, made = found[1], found[2] or ""
        return "*" in crate or exists(f"crates/{crate}") and (bool(MADE.match(made)) or made in (crate, f"{crate}_tests", f"lib{crate}.a"))
    return bool(glob.glob(f"{ROOT}/{path}"))


def missing(pages):
    """Yields each path that a script or page names, and that isn't there."""
    for file in [*pages, *scripts()]:
        for number, line in enumerate(text_of(file).split("\n"), 1):
            for path in PATH.findall(line):
                named = path.rstrip("./*-+")
                # What follows may be a variable of the script, as in crates/$crate, or a pattern.
                after = line.partition(path)[2][:1]
                if named and after not in ("$", "{", "\\") and not is_there(named):
                    yield f"{file}:{number}: no file {named}"


def former_crates(crates):
    """Returns the names that crates once had, as far as the history is there."""
    words = ["git", "log", "--diff-filter=DR", "--name-only", "--no-renames", "--format=", "--", "crates/*/src/lib.rt", "crates/*/src/main.rt"]
    ran = subprocess.run(words, cwd=ROOT, stdout=subprocess.PIPE, stderr=subprocess.DEVNULL, text=True)
    return {it.split("/")[1] for it in ran.stdout.split()} - set(crates)


def gone(pages, crates):
    """Yields each place where a script or page names a crate that is gone. A name of one word counts only as code."""
    former = former_crates(crates)
    names = [rf"(?<![\w-]){it}(?![\w-])" if "_" in it else rf"`{it}`|\bcrate {it}\b" for it in sorted(former)]
    if not names:
        return
    for file in [*pages, *scripts()]:
        for number, line in enumerate(text_of(file).split("\n"), 1):
            for found in re.findall("|".join(names), line):
                yield f"{file}:{number}: there is no crate {found.strip('`').removeprefix('crate ')}"
