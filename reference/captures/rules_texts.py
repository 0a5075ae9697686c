"""Random texts of rules for the programs of a setup: they compare what differs between the cells of police_cases.py, several of their rules give
the same value, and some hold of none."""
from rules.making import broken, joined

# Lines that give names, and tests with these names.
NAMES = [
    "contract gold = 1", "contract kept=2", "define few = 1, 3, 5", "define odd = (octet 4 few\n  or rm)", "define low = clp 1; define never = low and not low",
]
NAMED_TESTS = ["low", "not low", "odd", "octet 4 few", "vci few", "never"]
NAMED_VALUES = ["gold", "gold", "kept"]
VALUES = ["1", "1", "1", "2", "2", "3", "refuse", "5"]
REMARKS = ["", "# a remark", "  \t", "# vpi 1 { ; }"]
FAULTS = ["any > 1", "vpi 4096 -> 1", "otherwise", "any -> none", "any {", "}"]


class Writer:
    """Writes a text."""

    def __init__(self, random_):
        self.random = random_
        self.names = random_.choice([[], NAMES])

    def numbers(self, most):
        """Returns a number, a range or a list."""
        low = self.random.randint(0, most)
        return self.random.choice([f"{low}", f"{low}", f"{low}..{self.random.randint(low, most)}", f"{low}, {self.random.randint(0, most)}"])

    def one(self):
        """Returns a test without `and` and `or`."""
        random_ = self.random
        return random_.choice([
            f"octet 4 {self.numbers(5)}", f"octet 4 < {random_.randint(1, 5)}", f"octet 4 & {random_.randint(1, 7)} != 0", f"pti {self.numbers(7)}",
            f"vci {self.numbers(5)}", "vci 0..100", "vci > 6", f"{random_.randint(0, 1)}/*", f"{random_.randint(0, 1)}/1..5, 65530..65535",
            "user", "not rm", "oam", "clp 1", "clp 0", "clp 0 and clp 1", "vpi >= 0", *(NAMED_TESTS if self.names else []),
        ])

    def test(self, depth):
        """Returns a test, perhaps over several source lines."""
        if depth == 0 or self.random.random() < 0.4:
            return self.one()
        joint = self.random.choice([" and ", " or ", " or ", " && ", " || "])
        both = f"{self.test(depth - 1)}{joint}{self.test(depth - 1)}"
        return self.random.choice([both, broken(self.random, f"({both})"), broken(self.random, f"not ( {both} )")])

    def value(self):
        """Returns the value of a rule."""
        return self.random.choice([*VALUES, *(NAMED_VALUES if self.names else [])])

    def lines(self, count, depth):
        """Returns rules and blocks."""
        made = []
        for _ in range(count):
            if depth and self.random.random() < 0.25:
                made += [f"{self.test(1)} {{", *self.lines(self.random.randint(0, 3), depth - 1), "}"]
            else:
                made.append(f"{self.test(self.random.randint(0, 2))} -> {self.value()}")
            made += [self.random.choice(REMARKS)] * (self.random.random() < 0.15)
        return made

    def end(self):
        """Returns the last lines: a default, rules for all other cells, or none."""
        return self.random.choice([[], [], ["any -> 1"], ["any -> 1", "any -> 1"], ["otherwise -> 1"], [f"otherwise -> {self.value()}"]])


def text_of(random_):
    """Returns a text; one in twenty has a fault."""
    writer = Writer(random_)
    begin = random_.choice([[], [], ["side nni"], ["# rules", ""]])
    made = [*begin, *writer.names, *writer.lines(random_.choice([0, 1, 3, 5, 9]), 2), *writer.end()]
    if random_.random() < 0.05:
        made.insert(random_.randint(0, len(made)), random_.choice(FAULTS))
    return (random_.choice(["\n", "\n", "\r\n"]).join(joined(random_, made)) + random_.choice(["", "\n"])).encode()
