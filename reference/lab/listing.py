"""The comment at the end of what `upc-lab list` prints, beside the instructions of reference/policer."""
from policer.instructions import successors


def longest_run(program):
    """The most instructions that a path through the program begins: those of the longest path to each place, from the first on."""
    begun = {0: 1}
    for place, instruction in enumerate(program):
        for following in successors(instruction, place) if place in begun else ():
            begun[following] = max(begun.get(following, 0), begun[place] + 1)
    return max(begun.values())


def longest_comment(program):
    """The last line of the listing, without its line feed."""
    return b"; longest %d" % longest_run(program)
