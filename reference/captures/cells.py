"""What `upc-lab cells` prints of a capture, and its exit status; and random captures on which the program is compared with it."""
import subprocess

from captures.counting import Capture
from captures.making import capture_of
from captures.reading import link_for


def cells_of(octets, tick, link, numbered=False, by_packet=False):
    """Returns the output for a file and the exit status. A tick is in nanoseconds. The numbers of records may be asked for, and the times of packets."""
    capture = Capture(octets, tick, link, by_packet)
    lines = "".join(f"# record {it.number}\n" * numbered + f"cell {it.moment} {it.cell.hex()}\n" for it in capture.cells)
    ended = capture.refused or capture.several
    text = lines + (ended or capture.closing())
    return text.encode(), 1 if ended or capture.fault else 0


def difference(lab, draw):
    """Returns what differs on a random capture, or None."""
    octets = capture_of(draw)
    (word, tick), link = draw.choice([("1us", 1000), ("100ns", 100), ("3ns", 3), ("1s", 10**9)]), link_for(draw, octets)
    numbered, by_packet = draw.random() < 0.3, draw.random() < 0.4
    words = ["--tick", word] + (["--link", link] if link is not None else []) + ["--record"] * numbered + ["--time", "packet"] * by_packet
    ran = subprocess.run([lab, "cells", *words], input=octets, stdout=subprocess.PIPE, stderr=subprocess.PIPE)
    ours, theirs = (ran.stdout, ran.returncode), cells_of(octets, tick, link, numbered, by_packet)
    if ours == theirs and not ran.stderr:
        return None
    return f"{' '.join(words)} of {octets.hex()} prints {ours} {ran.stderr}, not {theirs}"
