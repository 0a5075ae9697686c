"""What `upc-lab links` prints of a capture, and its exit status; and random captures on which the program is compared with it."""
import subprocess
from fractions import Fraction

from captures.counting import Capture
from captures.formats import Block
from captures.making import capture_of
from captures.reading import records_of

MOST = 4096
HEADING = "link\tcells\tfirst\tlast\tlosses\n"


def seconds(time):
    """Returns a time in seconds, to the nearest nanosecond."""
    nanoseconds = int(Fraction(time * 10**9, 2**32) + Fraction(1, 2))
    return f"{nanoseconds // 10**9}.{nanoseconds % 10**9:09}"


class Links(Capture):
    """The links of a capture, and what was passed over."""

    def __init__(self, octets):
        # The records of the cells of each link, and those of further links.
        self.links = {}
        self.left_out = []
        super().__init__(octets, 1, None)

    def read(self, records):
        for record in records:
            if isinstance(record, Block):
                self.pass_block(record)
                continue
            self.note(record)
            if record.cell is None:
                continue
            if record.link in self.links or len(self.links) < MOST:
                self.links.setdefault(record.link, []).append(record)
            else:
                self.left_out.append(record.number)

    def lines(self):
        """Returns a line for each link, and the comment about cells of further ones."""
        rows = [
            "\t".join([link, str(len(its)), seconds(its[0].time), seconds(its[-1].time), str(sum(it.losses for it in its))]) + "\n"
            for link, its in self.links.items()
        ]
        if self.left_out:
            rows.append(f"# {len(self.left_out)} of links after the first {MOST}; first record {self.left_out[0]}\n")
        return "".join(rows)


def links_of(octets):
    """Returns the output for a file and the exit status."""
    capture = Links(octets)
    if capture.refused:
        return capture.refused.encode(), 1
    return (HEADING + capture.lines() + capture.closing()).encode(), 1 if capture.fault else 0


def links_difference(lab, draw):
    """Returns what differs on a random capture, or None."""
    octets = capture_of(draw)
    ran = subprocess.run([lab, "links"], input=octets, stdout=subprocess.PIPE, stderr=subprocess.PIPE)
    ours, theirs = (ran.stdout, ran.returncode), links_of(octets)
    return None if ours == theirs and not ran.stderr else f"links of {octets.hex()} prints {ours} {ran.stderr}, not {theirs}"
