"""Which connections a picture shows, and in which time; and why there is no picture."""
from captures.policing import card_of, tick_of
from captures.timing import is_rules
from plots.levels import OtherSetup, Plan
from plots.verdicts import OTHER, WHOLE_PATH, NoVerdicts, read_verdicts
from policer.cell import has_paths
from policer.text_lines import raw_lines, words_of

MOST_CONNECTIONS = 4
NotDrawn = (NoVerdicts, OtherSetup)

# A program that gives a value.
PROGRAM = b"load 0006000000000001"


def with_programs(script):
    """Returns the script with a program in place of each line `rules NAME`. Which program it is makes no difference to a picture, since the
    lines of the cells have its values; but cells of the script itself have none."""
    lines = [line for line, _ in raw_lines(script)]
    words = [words_of(line.removesuffix(b"\r")) for line in lines]
    if not any(map(is_rules, words)):
        return script
    if any(it[:1] == [b"cell"] for it in words):
        raise OtherSetup("a setup with rules and cells of its own can't be drawn")
    return b"".join((PROGRAM if is_rules(it) else line) + b"\n" for line, it in zip(lines, words))


def contracts_of(script):
    """Returns the contracts of each connection of a script."""
    card = card_of(with_programs(tick_of(script)[1]))
    if card is None:
        raise OtherSetup("a line of the setup has a fault: upc-lab police says which")
    return {(path, WHOLE_PATH if has_paths(card.side) else channel): it.contracts for (path, channel), it in card.connections.items()}


def connections(cells, named):
    """Returns the connections that are drawn: those that are named, or the first ones with judged cells."""
    for vc in named or []:
        if vc not in cells:
            raise NoVerdicts("no line has a cell of %d/%s" % vc)
    judged = sorted(vc for vc, it in cells.items() if any(verdict != OTHER for verdict in it.verdicts))
    if not named and not judged:
        raise NoVerdicts("no line has a cell that was judged; --connection names one to draw")
    return named or judged[:MOST_CONNECTIONS]


def check_time(cells, begin, end):
    """Refuses a time without a cell."""
    first = min(it.moments[0] for it in cells.values())
    last = max(it.moments[-1] for it in cells.values())
    begin, end = first if begin is None else begin, last if end is None else end
    if not any(begin <= moment <= end for it in cells.values() for moment in it.moments):
        names = ", ".join("%d/%s" % vc for vc in cells)
        raise NoVerdicts(f"no cell of {names} is from {begin} to {end}: the first is at {first}, the last at {last}")


def drawn(lines, setup, named, begin, end):
    """Returns the plan of a picture, and the line at which policing ended, if it didn't end with the capture."""
    contracts = None if setup is None else contracts_of(setup)
    cells, ending = read_verdicts(lines, named)
    chosen = {vc: cells[vc] for vc in connections(cells, named)}
    for vc in chosen if contracts is not None else []:
        if vc not in contracts:
            raise OtherSetup("the setup has no connection %d/%s" % vc)
    check_time(chosen, begin, end)
    return Plan(chosen, contracts or {}, begin, end), ending
