#!/usr/bin/env python3
"""What the toolchain itself knows of this repository's crates.

`rt` is a Python program. Its module knows which crates there are, what each depends on, and with which words the prover
is called. These scripts use it to call the prover as `rt` does.

    tools/kit.py MINUTES             prints how long the gate takes with this toolchain, if from nothing it takes MINUTES
    tools/kit.py --note COMMIT LAST  prints what bin/test notes of a commit that passed: it, the toolchain, the logic, the last line
"""
import functools
import os
import subprocess
import sys

ROOT = os.path.dirname(os.path.dirname(os.path.realpath(__file__)))


def module():
    """Returns the toolchain's module `rtlib`."""
    page = subprocess.run(["rt", "doc"], check=True, stdout=subprocess.PIPE, text=True).stdout.strip()
    folder = os.path.join(os.path.dirname(page), "bin")
    if folder not in sys.path:
        sys.path.insert(0, folder)
    import rtlib

    return rtlib


@functools.lru_cache(maxsize=None)
def output_of(word):
    """Returns what `rt` prints for a word. (The status of its help isn't 0.)"""
    return subprocess.run(["rt", word], stdout=subprocess.PIPE, stderr=subprocess.STDOUT, text=True).stdout.strip()


def name():
    """Returns the toolchain's name, such as rattle-kit-13f."""
    return output_of("version").split()[0]


def logic():
    """Returns the sum of the logic that proofs are checked in. Toolchains of one logic accept the same proofs."""
    return output_of("version").split()[-1]


def keeps():
    """Returns whether `rt ci` keeps what passed on this machine: some toolchains prove everything in each run."""
    return "rt ci NAME" in output_of("help")


def crates(root=ROOT):
    """Returns the crates of the repository, lowest first."""
    return module().crates_below(root)


def minutes(seconds):
    """Returns a time as people read it."""
    return f"{int(seconds) // 60} min {int(seconds) % 60:02d} s"


def main(words):
    if words[:1] == ["--note"]:
        print(f"commit: {words[1]}\ntoolchain: {name()}\nlogic: {logic()}\nlast line: {words[2]}")
        return
    kept = "what passed on this machine, on the same files, is kept" if keeps() else "it proves everything in each run"
    print(f"{name()}: from nothing the gate takes some {words[0]} minutes on {module().cores()} processors; {kept}")


if __name__ == "__main__":
    main(sys.argv[1:])
