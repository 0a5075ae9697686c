"""Compares `upc-lab fit` with the reference on random captures.

    python3 -m captures UPC_LAB [COUNT] [SEED]

A capture has ERF records, in a third of the cases inside a pcap file, of a few connections and now and then of others; some records hold
no good cell, some times go back, some captures are cut off or have a changed octet. Half of the cases have a text of rules, and some connections are
virtual paths. The last line is 'N passed, M failed'.
"""
import subprocess
import sys
import tempfile

from captures.fitting import fitted
from captures.fit_cases import case_of, edges


def ran(program, case):
    """Returns what the program prints for a case, with its messages, and its status."""
    words = [program, "fit", "--increment", str(case.increment), "--tick", f"{case.tick}ns", "--side", case.side]
    words += [] if case.link is None else ["--link", case.link]
    words += [] if case.clp is None else ["--clp", str(case.clp)]
    words += ["--paths"] if case.paths else []
    with tempfile.NamedTemporaryFile() as rules:
        if case.rules is not None:
            rules.write(case.rules)
            rules.flush()
            words += ["--rules", rules.name]
        it = subprocess.run(words, input=case.octets, stdout=subprocess.PIPE, stderr=subprocess.PIPE)
    return it.stdout.decode() + it.stderr.decode(), it.returncode


def main(program, count="200", seed="1"):
    """Compares, and returns the exit status."""
    failed = 0
    cases = edges() + [case_of(seed, number) for number in range(int(count))]
    for number, case in enumerate(cases, -len(edges())):
        ours, theirs = ran(program, case), fitted(*case)
        if ours != theirs:
            failed += 1
            print(f"capture {number} of seed {seed}: {str(ours)[:1000]} for {str(theirs)[:1000]}")
    print(f"{len(cases) - failed} passed, {failed} failed")
    return 1 if failed else 0


if __name__ == "__main__":
    sys.exit(main(*sys.argv[1:]))
