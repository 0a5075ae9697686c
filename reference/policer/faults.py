"""Fault lines: the family of the fault, its number and its name there, and where it was found."""

NUMBERS = {
    "script": {"BadLine": 1, "NoCard": 2, "BadHex": 3, "NoProgram": 4, "TooLong": 5},
    "cell": {"WrongLength": 1},
    "decode": {"Ragged": 1, "UnknownCode": 2},
    "asm": {
        "BadLine": 1,
        "BadNumber": 2,
        "LabelTwice": 3,
        "UnknownLabel": 4,
        "Backward": 5,
        "TooFar": 6,
        "DanglingLabel": 7,
    },
    "verify": {
        "Empty": 1,
        "TooLong": 2,
        "BadScratch": 3,
        "ZeroDivisor": 4,
        "BadShift": 5,
        "JumpOutside": 6,
        "NoReturn": 7,
        "Unwritten": 8,
    },
    "shape": {"Programs": 1, "Lines": 2, "Ports": 3, "Journal": 4},
    "gcra": {"ZeroIncrement": 1, "TooLarge": 2},
    "desk": {
        "NoProgram": 1,
        "NoConnection": 2,
        "Taken": 3,
        "NoLine": 4,
        "InUse": 5,
        "ProgramsFull": 6,
        "Exhausted": 7,
    },
    "arrive": {"NoConnection": 1, "MomentBack": 4, "MomentTooLate": 5, "JournalFull": 6},
}


class Fault(Exception):
    """What is wrong, and where: the numbers or digits after its name."""

    def __init__(self, family, name, *places):
        super().__init__(family, name, *places)
        self.family = family
        self.name = name
        self.places = places

    def line(self):
        """The fault as it is printed."""
        number = NUMBERS[self.family][self.name]
        return " ".join(str(word) for word in ("fault", self.family, number, self.name) + self.places)
