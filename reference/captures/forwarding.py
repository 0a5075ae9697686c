"""What `upc-lab forward` writes and reports of a script and a capture, and its exit status.

    python3 -m captures.forwarding SETUP [--tick NANOSECONDS] [--link LINK] [--others pass|drop] < CAPTURE > CAPTURE
"""
import argparse
import struct
import sys

from captures import formats
from captures.counting import Capture
from captures.policing import judged, policed, tick_of
from captures.reading import CHANNEL, EXTENSION, HEADER, MORE, record_of
from captures.timing import Commands, TimedScript
from policer.cell import connection_of


def whole(octets):
    """Returns a record with zeros in place of the octets that its packet lacks."""
    length = struct.unpack_from(">H", octets, 10)[0]
    return octets + bytes(length - len(octets))


def tagged(octets):
    """Returns a record that holds a cell, with the cell's lowest bit of octet 3 set."""
    place, has_more = HEADER, octets[8] & MORE
    while has_more:
        has_more = octets[place] & MORE
        place += EXTENSION
    at = place + CHANNEL[octets[8] & ~MORE] + 3
    return octets[:at] + bytes([octets[at] | 1]) + octets[at + 1:]


def records_in(octets):
    """Yields the number and the octets of each record, up to the first place at which the file is no capture."""
    try:
        number = 0
        for it in formats.records_of(octets):
            if isinstance(it, formats.Block):
                number += it.what in formats.NUMBERED
                continue
            number += 1
            yield number, it[:2]
    except (formats.Broken, formats.Refused):
        pass


def until_second_link(octets, link):
    """Yields the same records. If no link is asked for, it ends before the first cell of a second one."""
    first = None
    for number, (packet, own) in records_in(octets):
        read = record_of(number, packet, own)
        if read.cell is not None and link is None:
            first = read.link if first is None else first
            if read.link != first:
                return
        yield number, own


def goes_on(commands, counted, octets):
    """Returns what is written of the record of a cell that counts."""
    commands.due(counted.moment)
    card = commands.card
    verdict = judged(card, connection_of(counted.cell, card.side), counted.moment, counted.cell)[1]
    if verdict == "pass":
        return whole(octets)
    return whole(tagged(octets)) if verdict == "tag" else b""


def forwarded(script, octets, asked, link, others):
    """Returns the output, the report and the exit status, or None if `upc-lab explain` has a fault line for the script without its tick and its
    times. No tick need be asked for."""
    report = policed(script, octets, asked, link, "none")
    named, script = tick_of(script)
    if None not in (named, asked) and named != asked:
        return b"", *report
    timed, tick = TimedScript(script), named or asked or 100
    if timed.falls:
        return b"", *report
    if timed.faulty() is not None:
        return None
    commands = Commands(timed, tick)
    capture = Capture(octets, tick, link)
    if capture.several:
        # The report has the fault alone.
        report = capture.several.encode(), 1
    counted = {it.number: it for it in capture.cells}
    other = whole if others == "pass" else lambda own: b""
    written = [
        goes_on(commands, counted[number], own) if number in counted else other(own)
        for number, own in until_second_link(octets, link)
    ]
    return b"".join(written), report[0], report[1]


def main():
    """Writes, and returns the exit status."""
    reader = argparse.ArgumentParser(description=__doc__.split("\n", 1)[0])
    reader.add_argument("setup", type=argparse.FileType("rb"))
    reader.add_argument("--tick", type=int)
    reader.add_argument("--link")
    reader.add_argument("--others", choices=("pass", "drop"), default="pass")
    asked = reader.parse_args()
    given = forwarded(asked.setup.read(), sys.stdin.buffer.read(), asked.tick, asked.link, asked.others)
    if given is None:
        print("a line of the script has a fault: upc-lab explain says where", file=sys.stderr)
        return 1
    sys.stdout.buffer.write(given[0])
    sys.stderr.buffer.write(given[1])
    return given[2]


if __name__ == "__main__":
    sys.exit(main())
