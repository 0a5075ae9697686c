"""`upc check`: the whole input is a source in assembly."""

from .assembly.assembler import assembled
from .checking import check
from .decoding import encoded
from .faults import Fault

MOST_SOURCE_OCTETS = 1_048_576


def checked(source):
    """The octets of the accepted program that the source means, or its fault; and the exit status."""
    try:
        if len(source) > MOST_SOURCE_OCTETS:
            raise Fault("script", "TooLong")
        program = assembled(source)
        check(program)
    except Fault as fault:
        return (fault.line() + "\n").encode("ascii"), 1
    return ("accepted %d\n%s\n" % (len(program), encoded(program).hex())).encode("ascii"), 0
