"""Draws the cells of connections by their verdicts, and the levels of their buckets, from what `upc-lab police` prints.

    bin/plot [--connection VPI/VCI].. [--setup SETUP] [--from TICK] [--to TICK] [--remark TICK TEXT].. < VERDICTS > PICTURE.svg

Without --connection the first four with judged cells are drawn. With --setup, the script that was policed, their buckets are drawn too. A connection
with many cells in the time that is drawn has counts of cells, and the greatest level, in spans of time.
"""
import argparse
import sys

from plots.chosen import NotDrawn, drawn
from plots.verdicts import connection_in


def connection(word):
    """Returns the connection that VPI/VCI names, or VPI/* for a virtual path."""
    path, channel = word.split("/")
    return connection_in(path, channel)


def options():
    reader = argparse.ArgumentParser(prog="bin/plot", description=__doc__, formatter_class=argparse.RawDescriptionHelpFormatter)
    reader.add_argument("--connection", type=connection, action="append", metavar="VPI/VCI")
    reader.add_argument("--setup", type=argparse.FileType("rb"), metavar="FILE")
    reader.add_argument("--from", type=int, metavar="TICK", dest="begin")
    reader.add_argument("--to", type=int, metavar="TICK", dest="end")
    reader.add_argument("--remark", nargs=2, action="append", default=[], metavar=("TICK", "TEXT"), help="a remark above the cells of the first connection")
    return reader.parse_args()


def main():
    asked = options()
    try:
        plan, ending = drawn(sys.stdin, asked.setup and asked.setup.read(), asked.connection, asked.begin, asked.end)
    except NotDrawn as fault:
        print(f"plot: {fault}", file=sys.stderr)
        return 1
    if ending:
        print(f"plot: the cells before this line are drawn: {ending}", file=sys.stderr)
    from plots.drawing import draw  # it takes a second, so faults come first

    draw(plan, [(int(moment), text) for moment, text in asked.remark], sys.stdout.buffer)
    return 0


sys.exit(main())
