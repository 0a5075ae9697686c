"""The lines of cells that `upc-lab police --lines all` prints, by connection."""
import itertools
from array import array

from captures.policing import HEADING, RULE, TABLE

# The verdicts in the order in which they are drawn; the last one is that of cells that weren't judged.
VERDICTS = ("pass", "tag", "discard", "refuse", "other")
PASS = VERDICTS.index("pass")
OTHER = VERDICTS.index("other")
NUMBERS = {verdict: number for number, verdict in enumerate(VERDICTS)}


# The channel of a virtual path, as tables have it.
WHOLE_PATH = "*"


class NoVerdicts(Exception):
    """The input isn't what police prints with a line for each cell."""


class Cells:
    """The cells of a connection, in order: four numbers of each."""

    def __init__(self):
        self.moments = array("Q")
        self.priorities = array("B")
        self.values = array("Q")
        self.verdicts = array("B")

    def __len__(self):
        return len(self.moments)

    def add(self, moment, priority, value, verdict):
        """Adds a cell by the words of its line."""
        self.moments.append(int(moment))
        self.priorities.append(int(priority))
        self.values.append(0 if value == "-" else int(value))
        self.verdicts.append(NUMBERS.get(verdict, OTHER))

    def each(self):
        """Yields the numbers of each cell."""
        return zip(self.moments, self.priorities, self.values, self.verdicts)


def connection_in(path, channel):
    """Returns the connection of two columns: a path and a channel, or `*` for a virtual path."""
    return int(path), channel if channel == WHOLE_PATH else int(channel)


def read_verdicts(lines, wanted):
    """Returns the cells of each connection that has some, or of those that are wanted, and the line at which policing ended, if it didn't
    end with the capture. Lines about spans are passed over, and so is the column of the rule."""
    lines = (line for line in lines if not line.startswith("span\t"))
    heading, cells, wanted = next(lines, ""), {}, wanted and set(wanted)
    # Spans alone have an empty line after them.
    heading = heading if heading != "\n" else next(lines, "")
    if heading.split("\t")[: len(TABLE)] == list(TABLE) or heading.rstrip("\n") == "\t".join(TABLE):
        raise NoVerdicts("no cell has a line: police the capture with --lines all")
    columns = heading.rstrip("\n").split("\t")
    if columns not in ([*HEADING], [*HEADING, RULE]):
        raise NoVerdicts("the first line isn't the heading that upc-lab police prints")
    for line in lines:
        fields = line.rstrip("\n").split("\t")
        if len(fields) != len(columns):
            break
        vc = connection_in(*fields[2:4])
        if not wanted or vc in wanted:
            if vc not in cells:
                cells[vc] = Cells()
            cells[vc].add(fields[1], *fields[4:7])
    else:
        line = ""
    return cells, ending(itertools.chain([line], lines), cells)


def ending(lines, cells):
    """Returns the line about a fault or a second link, if there is one. Refuses lines of refused cells alone: a connection then has passed
    cells in the table, and no line of one."""
    found = None
    for line in lines:
        fields = line.split("\t")
        if line.strip() and not line.startswith("#") and len(fields) != len(TABLE):
            found = line.rstrip("\n")
        vc = fields[0].isdigit() and len(fields) == len(TABLE) and connection_in(*fields[:2])
        if vc in cells and int(fields[2]) and PASS not in cells[vc].verdicts:
            raise NoVerdicts("the cells of %d/%s that passed have no lines: police the capture with --lines all" % vc)
    return found
