"""A card: its programs by number, its connections, and what each command and each cell does to them."""

from collections import Counter
from heapq import heappop, heappush

from . import cell as cells
from .contract import Contract
from .faults import Fault
from .machine import value_and_steps

LAST_MOMENT = 2**62
LAST_INCARNATION = 2**62
MOST_TICKS = 2**48

# The limits of a card's shape, in the order in which they are looked at.
SHAPE = (("Programs", 1024), ("Lines", 4096), ("Ports", 16), ("Journal", 65536))


class Connection:
    """A connection since it was set up, on a line of the card."""

    def __init__(self, line, program, contracts):
        self.line = line
        self.program = program
        self.contracts = contracts
        self.last_moment = 0
        self.journal = Counter()  # the verdicts since the last cut
        self.judged = Counter()  # all verdicts since the setup

    def tally(self):
        """How many cells were judged since the last cut, and how many of each verdict."""
        counts = [self.journal[verdict] for verdict in ("pass", "tag", "discard", "refuse")]
        return [sum(counts)] + counts


class Card:
    """A card of a shape, whose numbers are looked at in their order. Each refusal is a Fault and changes nothing."""

    def __init__(self, programs, lines, ports, journal, side):
        for (name, most), number in zip(SHAPE, (programs, lines, ports, journal)):
            if not 1 <= number <= most:
                raise Fault("shape", name)
        self.most_programs = programs
        self.most_connections = lines
        self.most_judged = journal
        self.side = side
        self.programs = {}
        self.loaded = 0
        self.connections = {}
        self.set_up = 0
        self.free_lines = list(range(lines))  # a heap: the lowest is given first

    def load(self, program):
        """Puts an accepted program in; it is named by how many were put in until then."""
        if len(self.programs) == self.most_programs:
            raise Fault("desk", "ProgramsFull")
        self.loaded += 1
        self.programs[self.loaded] = program
        return self.loaded

    def retire(self, number):
        """Takes a program out that no connection names."""
        self.find_program(number)
        if any(connection.program == number for connection in self.connections.values()):
            raise Fault("desk", "InUse")
        del self.programs[number]

    def setup(self, vc, number, wanted):
        """Sets up a connection under contracts, each a kind and its rates, whose faults come first."""
        for _, rates in wanted:
            for rate in rates:
                check_rate(*rate)
        self.find_program(number)
        if vc in self.connections:
            raise Fault("desk", "Taken")
        if len(self.connections) == self.most_connections:
            raise Fault("desk", "NoLine")
        if self.set_up == LAST_INCARNATION:
            raise Fault("desk", "Exhausted")
        self.set_up += 1
        contracts = [Contract(kind, rates) for kind, rates in wanted]
        self.connections[vc] = Connection(heappop(self.free_lines), number, contracts)

    def reload(self, vc, number):
        """Gives a connection another program; its buckets and its journal stay."""
        self.find_program(number)
        self.find_connection(vc).program = number

    def cut(self, vc):
        """Hands the journal out, and makes room in it; the buckets and the last moment stay."""
        connection = self.find_connection(vc)
        tally = connection.tally()
        connection.journal.clear()
        return tally

    def release(self, vc):
        """Ends a connection, frees its line, and hands its journal out."""
        connection = self.find_connection(vc)
        tally = connection.tally()
        heappush(self.free_lines, connection.line)
        del self.connections[vc]
        return tally

    def arrive(self, moment, cell):
        """Judges a cell: its connection, the program, the value, the verdict, and the cell as it leaves."""
        vc = cells.connection_of(cell, self.side)
        if vc not in self.connections:
            raise Fault("arrive", "NoConnection")
        connection = self.connections[vc]
        if moment < connection.last_moment:
            raise Fault("arrive", "MomentBack", connection.last_moment)
        if moment > LAST_MOMENT:
            raise Fault("arrive", "MomentTooLate")
        if connection.tally()[0] == self.most_judged:
            raise Fault("arrive", "JournalFull")
        value, _ = value_and_steps(self.programs[connection.program], cell)
        verdict = "refuse"
        if 1 <= value <= len(connection.contracts):
            verdict = connection.contracts[value - 1].judge(moment, cells.priority_of(cell))
        connection.last_moment = moment
        connection.journal[verdict] += 1
        connection.judged[verdict] += 1
        leaving = cells.tagged(cell) if verdict == "tag" else cell
        return vc, connection.program, value, verdict, leaving

    def find_program(self, number):
        """Refuses a name that no program has, or has no more."""
        if number not in self.programs:
            raise Fault("desk", "NoProgram")

    def find_connection(self, vc):
        """The connection of this path and channel."""
        if vc not in self.connections:
            raise Fault("desk", "NoConnection")
        return self.connections[vc]


def check_rate(increment, limit):
    """A bucket has an increment of 1 to 2^48 ticks and a limit of 0 to 2^48."""
    if increment == 0:
        raise Fault("gcra", "ZeroIncrement")
    if increment > MOST_TICKS or limit > MOST_TICKS:
        raise Fault("gcra", "TooLarge")
