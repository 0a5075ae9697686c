"""What each call of the library has to answer: the faults by their results, and a card whose journals keep their cells."""

from policer import cell as cells
from policer.card import LAST_MOMENT, Card, check_rate
from policer.checking import check
from policer.contract import Contract
from policer.decoding import decoded
from policer.faults import NUMBERS, Fault

KINDS = {"call": 1, "cell": 2, "decode": 3, "asm": 4, "verify": 5, "gcra": 6, "burst": 7, "arrive": 8, "shape": 9, "desk": 10, "rules": 11}
CALL = ("NoMemory", "NoRoom", "UnknownKind", "LateLevels", "UnknownSide", "ProgramThere", "NoProgram", "CardThere", "NoCard", "LargePath")
CALL += ("ManyContracts", "NullPointer")
VERDICTS = ("pass", "tag", "discard", "refuse")
CONTRACTS = ("cbr1", "vbr1", "vbr2", "vbr3")
SIDES = ("uni", "nni", "uni paths", "nni paths")


class Refused(Exception):
    """A call is refused with this result, and the place, word and code of its fault."""

    def __init__(self, family, number, place=0, word=0, code=0, column=0):
        super().__init__(family, number)
        self.result = 256 * KINDS[family] + number
        self.fault = (KINDS[family], number, place, word, code, column)


def refused_call(name, place=0):
    """Returns the refusal of a call for this reason of its own."""
    return Refused("call", CALL.index(name) + 1, place)


def translated(fault):
    """Returns the refusal for a fault of the reference."""
    if (fault.family, fault.name) == ("desk", "BadContracts"):
        return Refused("desk", 8)
    places = list(fault.places)
    code = int(places.pop(), 16) if fault.name == "UnknownCode" else 0
    word = places.pop() if fault.name == "Unwritten" else 0
    return Refused(fault.family, NUMBERS[fault.family][fault.name], places[0] if places else 0, word, code)


def checked(octets):
    """Returns the program that octets are."""
    program = decoded(octets)
    check(program)
    return program


def contract_of(numbers):
    """Returns the kind and the rates of a contract's numbers, or refuses them."""
    if not 1 <= numbers.kind <= 4:
        raise refused_call("UnknownKind")
    rates = [(numbers.peak_increment, numbers.peak_limit), (numbers.sustained_increment, numbers.sustained_limit)]
    rates = rates[: 1 if numbers.kind == 1 else 2]
    for bucket, rate in enumerate(rates, 1):
        try:
            check_rate(*rate)
        except Fault as fault:
            raise Refused("gcra", NUMBERS["gcra"][fault.name], bucket) from fault
    return CONTRACTS[numbers.kind - 1], rates


class Meter:
    """A contract with the levels that the library has stored."""

    def __init__(self, kind, rates, levels):
        self.contract = Contract(kind, rates)
        for bucket, level in zip(self.contract.buckets, levels):
            bucket.level, bucket.last = level, 0

    def judge(self, moment, priority):
        """Returns the verdict and the levels after it: the theoretical arrival times."""
        verdict = self.contract.judge(moment, priority)
        return VERDICTS.index(verdict), [bucket.last + bucket.level for bucket in self.contract.buckets]

    def excess(self, moment, priority):
        """Returns the number of the first bucket that a cell meets and that is over its limit, and by how much; or zeros."""
        return self.contract.excess(moment, priority) or (0, 0)


def meter_numbers(contract):
    """Returns the numbers of a contract and its levels, with zeros for a bucket that it doesn't have."""
    rates = [number for bucket in contract.buckets for number in (bucket.increment, bucket.limit)]
    levels = [bucket.last + bucket.level for bucket in contract.buckets]
    return (CONTRACTS.index(contract.kind) + 1, *rates, *[0] * (4 - len(rates))), (*levels, *[0] * (2 - len(levels)))


class CardModel(Card):
    """A card of the reference that also keeps the cells of its journals, its lines and their counts."""

    def __init__(self, shape):
        super().__init__(*shape[1:], SIDES[shape[0]])
        self.shape = shape
        self.ids = {}        # the library's id of each program
        self.journals = {}   # the entries of each connection
        self.lines = {}      # the line of each connection, once an answer has it
        self.counts = {}     # the counts of each connection's line since the setup
        self.incarnations = {}
        self.given = set()

    def vc_of(self, path, channel):
        """Returns the connection of this path, or refuses it."""
        if path >= 1 << cells.PATH_BITS[self.side]:
            raise refused_call("LargePath")
        return path, channel

    def number_of(self, name):
        """Returns the reference's number of the program with this id."""
        return next((number for number, it in self.ids.items() if it == name), 0)

    def set_up_on(self, vc, name, contracts):
        """Sets up a connection."""
        number = self.number_of(name)
        self.find_program(number)
        if vc in self.connections:
            raise Fault("desk", "Taken")
        if not contracts:
            raise Fault("desk", "BadContracts")
        self.setup(vc, number, contracts)
        self.journals[vc], self.counts[vc], self.incarnations[vc] = [], [0, 0, 0, 0], self.set_up
        self.lines.pop(vc, None)

    def state_of(self, vc):
        """Returns the numbers of a connection's state but for its line, and those of its contracts and their levels."""
        it = self.find_connection(vc)
        state = self.incarnations[vc], it.last_moment, len(self.journals[vc]), len(it.contracts), tuple(self.counts[vc]), self.ids[it.program]
        return state, [meter_numbers(contract) for contract in it.contracts]

    def after(self, vc):
        """Returns the next connection after this one, or the first after None."""
        later = [it for it in self.connections if vc is None or it > vc]
        if not later:
            raise Fault("desk", "NoConnection")
        return min(later)

    def arrived(self, moment, cell):
        """Judges a cell. Returns the connection, the verdict, the value, the program's id and the leaving cell."""
        vc = cells.connection_of(cell, self.side)
        if vc in self.connections and moment > LAST_MOMENT:
            raise Fault("arrive", "MomentTooLate")
        _, number, value, verdict, leaving = self.arrive(moment, cell)
        at = VERDICTS.index(verdict)
        self.counts[vc][at] += 1
        self.journals[vc].append((moment, self.ids[number], value, cells.priority_of(cell), at))
        return vc, at, value, self.ids[number], leaving
