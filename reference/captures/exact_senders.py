"""Polices senders at exactly their rate with `upc-lab police`, by the buckets that `upc-lab size` answers.

    python3 -m captures.exact_senders UPC_LAB

Stamps are rounded down to 1/2^32 of a second, as capture cards do. The tolerance is 0 if a cell takes a whole number of ticks, and otherwise
a nanosecond. Each cell has to pass. The last line is 'N passed, M failed'.
"""
import random
import struct
import subprocess
import sys
import tempfile
from fractions import Fraction

# Rates in cells a second, of which a cell takes a whole number of ticks and not, and ticks in nanoseconds.
RATES = [1, 3, 7, 100, 999, 1000, 2500, 4096, 9600, 10000, 44100, 48000, 77777, 96000, 99999, 100000, 123456, 149797, 353207, 1000000]
TICKS = [1, 10, 100, 1000]
CELLS = 3000
# Returns on each cell with the first contract.
FIRST = "load 0006000000000001\nsetup 1 100 p1 "
HEADER = struct.pack(">I", 1 << 20 | 100 << 4) + bytes(48)


def capture_of(rate, begun):
    """Returns ERF records at this rate; `begun` is in seconds."""
    after = struct.pack(">BBHHH", 3, 0, 68, 0, 52) + HEADER
    return b"".join(struct.pack("<Q", int((begun + Fraction(number, rate)) * 2**32)) + after for number in range(CELLS))


def wrong(program, setup, rate, tick):
    """Returns what is wrong with the answer for a sender at this rate, or None."""
    tolerance = 0 if 10**9 % (rate * tick) == 0 else 1
    asked = f"cbr1 pcr {rate} cdvt {tolerance}ns tick {tick}ns\n"
    sized = subprocess.run([program, "size"], input=asked.encode(), stdout=subprocess.PIPE).stdout.decode()
    bucket = sized.split(" ")[0]
    setup.truncate(0)
    setup.seek(0)
    setup.write(f"card 1 1 1 {CELLS}\n{FIRST}{bucket}\n")
    setup.flush()
    begun = random.Random(rate * tick).randrange(10**18) * Fraction(1, 10**9)
    words = [program, "police", setup.name, "--lines", "none", "--tick", f"{tick}ns"]
    output = subprocess.run(words, input=capture_of(rate, begun), stdout=subprocess.PIPE).stdout.decode()
    return None if f"1\t100\t{CELLS}\t0\t0\t0\n" in output else f"{asked.strip()} has {bucket}: {output}"


def main(program):
    """Polices each sender, and returns the exit status."""
    with tempfile.NamedTemporaryFile("w") as setup:
        found = [wrong(program, setup, rate, TICKS[number % len(TICKS)]) for number, rate in enumerate(RATES)]
    lines = [it for it in found if it]
    print("\n".join(lines + [f"{len(found) - len(lines)} passed, {len(lines)} failed"]))
    return 1 if lines else 0


if __name__ == "__main__":
    sys.exit(main(sys.argv[1]))
