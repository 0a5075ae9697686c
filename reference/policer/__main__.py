"""`python3 -m policer SUBCOMMAND < INPUT` answers as `upc SUBCOMMAND` does, with the same exit status."""

import sys

from .subcommands import SUBCOMMANDS


def main():
    name = sys.argv[1] if len(sys.argv) == 2 else None
    if name not in SUBCOMMANDS:
        print("one of these is asked for: " + ", ".join(SUBCOMMANDS), file=sys.stderr)
        return 2
    text, status = SUBCOMMANDS[name](sys.stdin.buffer.read())
    sys.stdout.buffer.write(text)
    return status


sys.exit(main())
