"""Which files there are, and their texts."""
import functools
import os
import re

ROOT = os.path.dirname(os.path.dirname(os.path.dirname(os.path.realpath(__file__))))


@functools.lru_cache(maxsize=None)
def text_of(path):
    """Returns the text of a file below the repository's top."""
    with open(f"{ROOT}/{path}", encoding="utf-8") as it:
        return it.read()


def files_below(folder, ending):
    """Yields the files of this ending below a folder, in order, without what was built."""
    for at, folders, names in os.walk(f"{ROOT}/{folder}"):
        folders[:] = sorted(it for it in folders if it != "out")
        for name in sorted(names):
            if name.endswith(ending):
                yield os.path.relpath(f"{at}/{name}", ROOT)


def exists(path):
    """Returns whether there is such a file or folder below the repository's top."""
    return os.path.exists(f"{ROOT}/{path}")


def crates():
    """Returns the crates of crates.txt, each with the libraries that it lists."""
    found = {}
    for line in text_of("crates.txt").split("\n"):
        match = re.match(r"([a-z]\w*)[^:]*:(.*)", line)
        if match:
            found[match[1]] = match[2].split()
    return found


def below(crate, known):
    """Returns the repository's crates that a crate depends on, and those that these depend on."""
    found, left = set(), [crate]
    while left:
        for it in known.get(left.pop(), []):
            if it in known and it not in found:
                found.add(it)
                left.append(it)
    return found
