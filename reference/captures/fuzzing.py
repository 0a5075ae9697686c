"""Mutated captures for `cells`, `fit` and `police`, and the octets by which tests/capture-fuzz passes them to its program."""
import random
import struct
from collections import namedtuple

from captures.cells import cells_of
from captures.fitting import fitted
from captures.mutating import contained, mutated, mutated_capture, whole
from captures.police_cases import Traffic, script_of, usual_lines
from captures.policing import card_of, policed
from captures.reading import link_for

# What is asked: a subcommand, a capture, a tick in nanoseconds, the word of a link or None, the increment and the side of `fit`, the lines and the
# script of `police`, and how many octets a read gives at most.
Case = namedtuple("Case", "subcommand octets tick link increment side lines script most")

SUBCOMMANDS = ["cells", "fit", "police"]
SIDES = ["uni", "nni"]
LINES = ["all", "refused", "none"]
TICKS = [1, 3, 100, 100, 333, 1000, 10**6, 10**9]
INCREMENTS = [1, 10, 1000, 2**48]
READS = [2**32, 2**32, 65536, 4096, 1000, 100, 17, 16, 7, 3, 2, 1]
# How many cases have one script. Each cut of a capture is a case.
CASES_OF_A_SCRIPT = 100


def script_without_faults(draw):
    """Returns a script that opens a card."""
    while True:
        script = script_of(draw) if draw.random() < 0.5 else b"\n".join(usual_lines(draw))
        if len(script) < 10000 and card_of(script):
            return script


def captures_of(draw, script, tick):
    """Yields a mutated capture, or one that is cut off at each place. For `police` most have cells of the script's connections."""
    if draw.random() < 0.004:
        octets = whole(draw)
        yield from (octets[:length] for length in range(min(len(octets), 500) + 1))
    elif script and draw.random() < 0.6:
        traffic = Traffic(draw, card_of(script), tick)
        octets = contained(draw, [traffic.record() for _ in range(draw.randrange(20))])
        yield mutated(draw, octets) if draw.random() < 0.8 else octets
    else:
        yield mutated_capture(draw)


def cases_of(seed):
    """Yields cases without end. The seed determines them."""
    number = 0
    while True:
        if number % CASES_OF_A_SCRIPT == 0:
            script = script_without_faults(random.Random(f"{seed} script {number}"))
        draw = random.Random(f"{seed} fuzz {number}")
        subcommand, tick = draw.choice(["cells"] * 5 + ["fit"] * 4 + ["police"] * 2), draw.choice(TICKS)
        increment = draw.choice([*INCREMENTS, draw.randrange(1, 5000)])
        side, lines, most = draw.choice(SIDES), draw.choice(LINES), draw.choice(READS)
        given = script if subcommand == "police" else b""
        for octets in captures_of(draw, given, tick):
            link = link_for(draw, octets)
            yield Case(subcommand, octets, tick, link, increment, side, lines, given, most if len(octets) < 5000 else max(most, 1000))
        number += 1


def wanted(case):
    """Returns the output for a case and the exit status."""
    if case.subcommand == "cells":
        return cells_of(case.octets, case.tick, case.link)
    if case.subcommand == "fit":
        text, status = fitted(case.octets, case.increment, case.tick, case.link, case.side)
        return text.encode(), status
    return policed(case.script, case.octets, case.tick, case.link, case.lines)


def link_numbers(word):
    """Returns three numbers for a link: the packet's interface plus 1, the card's interface plus 1, and the channel plus 1. 0 says there is none."""
    if word is None:
        return [0, 0, 0]
    packet, _, rest = word.rpartition(":")
    interface, *channel = [int(it) for it in rest.split("/")]
    return [int(packet) + 1 if packet else 0, interface + 1, channel[0] * 2048 + channel[1] + 1 if channel else 0]


def packed(case, output, status):
    """Returns a case and what is wanted for the program: numbers of 64 bits, and three parts with their lengths."""
    numbers = [
        SUBCOMMANDS.index(case.subcommand), case.tick, *link_numbers(case.link), case.increment,
        SIDES.index(case.side), LINES.index(case.lines), case.most, status,
    ]
    parts = [struct.pack("<Q", len(it)) + it for it in (case.script, case.octets, output)]
    return struct.pack("<10Q", *numbers) + b"".join(parts)


def words_of(case, setup):
    """Returns the words that ask the program for a case. The script is in the file `setup`."""
    words = [case.subcommand, "--tick", f"{case.tick}ns"]
    words += [] if case.link is None else ["--link", case.link]
    words += ["--increment", str(case.increment), "--side", case.side] if case.subcommand == "fit" else []
    return words + (["--lines", case.lines, setup] if case.subcommand == "police" else [])


def described(case):
    """Returns the words of a case, and its script and its capture in hexadecimal."""
    script = f"\n  script: {case.script.hex()}" if case.script else ""
    return f"upc-lab {' '.join(words_of(case, 'SETUP'))}, with reads of {case.most} octets at most{script}\n  capture: {case.octets.hex()}"
