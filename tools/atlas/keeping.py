"""What bin/find made of the sources, for the next question: out/find, good as long as no file that was read changed.

The file begins with two checksums: that of the names, sizes and times of the files, which is soon made, and that of their texts, which
counts where only times changed. Then come the two indexes, of all answers and of code, and the text of each answer. A question reads
one index, and the texts of the answers that are shown."""
import gc
import hashlib
import marshal
import os
import struct
import sys

from .files import ROOT
from .index import Index

# What is read, below the repository's top.
READ = ("bench", "bin", "crates", "docs", "examples", "include", "reference", "tests", "tools", "README.md", "crates.txt")
KEPT = f"{ROOT}/out/find"
# The form of what is kept, which an older Python or another machine can't read.
FORM = f"{marshal.version} {sys.byteorder}"
# Two checksums, and the lengths of both indexes and of the list of places of the texts.
SUM = 32
HEAD = struct.Struct(f"{SUM}s{SUM}sQQQ")


class Texts:
    """The texts of the answers, by their numbers: what each is called in its first line, and then what belongs to it."""

    def __init__(self, octets, ends):
        self.octets, self.ends = octets, ends

    def of(self, answer):
        """Returns the lines of an answer."""
        begin = self.ends[answer.number - 1] if answer.number else 0
        return self.octets(begin, self.ends[answer.number] - begin).decode().split("\n")


def entries(path):
    """Yields the path and the state of each file there, without what was built."""
    if os.path.isfile(path):
        yield path, os.stat(path)
        return
    with os.scandir(path) as found:
        found = sorted(found, key=lambda it: it.name)
    for it in found:
        if it.is_file():
            yield it.path, it.stat()
        elif it.name not in ("out", "__pycache__") and it.is_dir():
            yield from entries(it.path)


def files():
    """Yields the path and the state of each file that is read."""
    for path in READ:
        if os.path.exists(f"{ROOT}/{path}"):
            yield from entries(f"{ROOT}/{path}")


def sum_of_states():
    """Returns the checksum of the names, sizes and times of the files."""
    listed = [f"{path} {state.st_size} {state.st_mtime_ns}" for path, state in files()]
    return hashlib.sha256("\n".join([FORM, *listed]).encode()).digest()


def sum_of_texts():
    """Returns the checksum of the names and texts of the files."""
    state = hashlib.sha256(FORM.encode())
    for path, found in files():
        state.update(f"{path} {found.st_size} ".encode())
        with open(path, "rb") as it:
            state.update(it.read())
    return state.digest()


def made():
    """Makes both indexes and the texts, as octets."""
    from .asked import known_questions
    from .finding import text_of_answer
    from .index import answers
    from .sources import Sources

    sources = Sources()
    index = Index.of(list(answers(sources)))
    asked = known_questions(index.answers)
    index.learn(asked)
    code, texts, ends = index.of_code().learn(asked), [], []
    for answer in index.answers:
        if answer.number == len(texts):
            texts.append(text_of_answer(sources, answer).encode())
            ends.append(len(texts[-1]) + (ends[-1] if ends else 0))
    return marshal.dumps(index.kept), marshal.dumps(code.kept), marshal.dumps(ends), b"".join(texts)


def keep(states):
    """Makes all of it anew, and keeps it where that can be done. Nobody meets half of it. Returns its octets."""
    index, code, ends, texts = made()
    octets = HEAD.pack(states, sum_of_texts(), len(index), len(code), len(ends)) + index + code + ends + texts
    try:
        os.makedirs(os.path.dirname(KEPT), exist_ok=True)
        with open(f"{KEPT}.{os.getpid()}", "wb") as it:
            it.write(octets)
        os.replace(it.name, KEPT)
    except OSError:
        pass
    return octets


def is_good(states):
    """Returns whether what is kept is of the present files. If only their times changed, their present ones are noted."""
    try:
        with open(KEPT, "r+b") as it:
            kept = it.read(HEAD.size)
            if len(kept) < HEAD.size:
                return False
            if kept[:SUM] == states:
                return True
            if kept[SUM : 2 * SUM] != sum_of_texts():
                return False
            it.seek(0)
            it.write(states)
            return True
    except OSError:
        return False


def known(is_code):
    """Returns the index of all answers, or that of code, and the texts of the answers."""
    states = sum_of_states()
    if is_good(states):
        file = open(KEPT, "rb")
        read = lambda at, length: file.seek(at) * 0 or file.read(length)
    else:
        octets = keep(states)
        read = lambda at, length: octets[at : at + length]
    _, _, index, code, ends = HEAD.unpack(read(0, HEAD.size))
    # What is read back has no garbage.
    gc.disable()
    begin = HEAD.size + index if is_code else HEAD.size
    found = Index.of_kept(marshal.loads(read(begin, code if is_code else index)))
    places = marshal.loads(read(HEAD.size + index + code, ends))
    gc.enable()
    begin = HEAD.size + index + code + ends
    return found, Texts(lambda at, length: read(begin + at, length), places)
