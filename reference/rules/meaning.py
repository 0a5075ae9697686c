"""The value of rules on a cell, and the rule that decides it, as docs/RULES.md has it."""


def number_in(nni, field, cell):
    """Returns a field of the cell."""
    header = int.from_bytes(cell[:4], "big")
    if field[0] == "octets":
        return int.from_bytes(cell[field[2]:field[2] + field[1]], "big")
    return {
        "gfc": header >> 28,
        "vpi": header >> 20 if nni else header >> 20 & 0xFF,
        "vci": header >> 4 & 0xFFFF,
        "pti": header >> 1 & 7,
        "clp": header & 1,
    }[field[0]]


def is_met(nni, test, cell):
    """Returns whether a test holds of the cell."""
    kind = test[0]
    if kind == "any":
        return True
    if kind == "not":
        return not is_met(nni, test[1], cell)
    if kind == "and":
        return is_met(nni, test[1], cell) and is_met(nni, test[2], cell)
    if kind == "or":
        return is_met(nni, test[1], cell) or is_met(nni, test[2], cell)
    number = number_in(nni, test[1], cell)
    if test[2] is not None:
        number &= test[2]
    if kind == "among":
        return any(low <= number <= high for low, high in test[3])
    k = test[4]
    return {"<": number < k, "<=": number <= k, ">": number > k, ">=": number >= k}[test[3]]


def decision_of(reader, cell):
    """Returns the place of the rule that decides the cell, None if no rule does, and the value."""
    at = 0
    while at < len(reader.rules):
        line = reader.rules[at]
        if line[0] == "rule" and is_met(reader.nni, line[1], cell):
            return line[3], line[2]
        if line[0] == "block" and not is_met(reader.nni, line[1], cell):
            depth = 1
            while depth:
                at += 1
                depth += {"block": 1, "end": -1}.get(reader.rules[at][0], 0)
        at += 1
    return None, reader.otherwise


def value_of(reader, cell):
    """Returns the value of the rules on the cell."""
    return decision_of(reader, cell)[1]
