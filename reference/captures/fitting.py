"""The least limit of each connection, or of each connection and value of rules, found by trying limits in a bucket."""
from captures.counting import Capture
from policer.bucket import Bucket
from rules.meaning import value_of
from rules.reader import Fault, read_rules

MOST_CONNECTIONS = 65535
MOST_RULES_OCTETS = 1048576
SIDES = {"uni": 0xFF, "nni": 0xFFF}


def connection_of(cell, side, paths):
    """Returns the path and the channel of a cell's header, read at this side. On virtual paths the channel is a star."""
    header = int.from_bytes(cell[:4], "big")
    return header >> 20 & SIDES[side], "*" if paths else header >> 4 & 0xFFFF


def rules_of(text):
    """Returns what was read of a text of rules, and the line about its fault or None."""
    if len(text) > MOST_RULES_OCTETS:
        return None, "rules: fault script 5 TooLong\n"
    try:
        return read_rules(text), None
    except Fault as fault:
        return None, f"rules: {fault.shown()}"


def first_early(increment, limit, cells):
    """Returns the first cell that doesn't conform to a bucket with this increment and limit, or None."""
    bucket = Bucket(increment, limit)
    for cell in cells:
        if not bucket.conforms(cell.moment):
            return cell
        bucket.fill(cell.moment)
    return None


def least_limit(increment, cells):
    """Returns the least limit under which all cells conform, by halving, and the cell that needs it."""
    least, most = 0, increment * len(cells)
    while least < most:
        tried = (least + most) // 2
        if first_early(increment, tried, cells) is None:
            most = tried
        else:
            least = tried + 1
    return least, first_early(increment, least - 1, cells) if least else cells[0]


def too_large(increment, cells):
    """Returns the first cell after which the bucket has 2^64 ticks or more, or None."""
    bucket = Bucket(increment, None)
    for cell in cells:
        bucket.fill(cell.moment)
        if bucket.level >= 2**64:
            return cell
    return None


def ended_at(increment, flows):
    """Returns the line of the first cell that ends the run, or None."""
    firsts = sorted(cells[0].number for cells in flows.values())
    faults = [(number, "1 TooManyConnections") for number in firsts[MOST_CONNECTIONS : MOST_CONNECTIONS + 1]]
    for cells in flows.values():
        early = too_large(increment, cells)
        if early:
            faults.append((early.number, "2 TooLarge"))
    return "fault fit {1} {0}\n".format(*min(faults)) if faults else None


def fitted(octets, increment, tick, link, side, clp=None, paths=False, rules=None):
    """Returns the output of `fit` for a capture, and its status. Without a cell loss priority all cells are fitted. With a text of rules the cells of
    a connection have a line for each value."""
    reader, fault = (None, None) if rules is None else rules_of(rules)
    if fault:
        return fault, 1
    capture = Capture(octets, tick, link)
    flows = {}
    for cell in capture.cells:
        if clp is not None and cell.cell[3] % 2 != clp:
            continue
        value = () if reader is None else (value_of(reader, cell.cell),)
        flows.setdefault((*connection_of(cell.cell, side, paths), *value), []).append(cell)
    ended = capture.refused or ended_at(increment, flows) or capture.several
    if ended:
        return ended, 1
    columns = ["vpi", "vci", *([] if reader is None else ["value"]), "cells", "limit", "record"]
    lines = ["\t".join(columns) + "\n"]
    for flow in sorted(flows):
        cells = flows[flow]
        limit, cell = least_limit(increment, cells)
        lines.append("\t".join(str(it) for it in (*flow, len(cells), limit, cell.number)) + "\n")
    return "".join(lines) + capture.closing(), 1 if capture.fault else 0
