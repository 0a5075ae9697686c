"""Calls the library for C at random, and compares each answer with a model.

    python3 -m library LIBRARY SECONDS [SEED]      LIBRARY is libupc.so

Programs, cards and meters live for some hundred calls; their handles are moved between calls, and some pointers are null. The last
line is 'N passed, M failed', where N are sequences of calls; a sequence that fails is shown with its seed.
"""
import ctypes
import random
import sys
import time

from library.calling import REACHED, Different
from library.card_calling import CardCalls

CALLS_A_SEQUENCE = 300


def main(words):
    """Returns the exit status."""
    library, seconds = ctypes.CDLL(words[0]), float(words[1])
    seed = int(words[2]) if len(words) > 2 else 1
    end, number, failed, made = time.monotonic() + seconds, 0, 0, 0
    while time.monotonic() < end:
        number += 1
        calls = CardCalls(library, random.Random(f"{seed} {number}"))
        try:
            for _ in range(CALLS_A_SEQUENCE):
                calls.one()
        except Different as found:
            failed += 1
            print(f"{seed} {number}, call {calls.made}: {found}")
        finally:
            calls.end()
        made += calls.made
    print(f"{made} calls, {len(REACHED)} different in name or result")
    print(f"{number - failed} passed, {failed} failed")
    return 1 if failed else 0


if __name__ == "__main__":
    sys.exit(main(sys.argv[1:]))
