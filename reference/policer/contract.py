"""The four kinds of contract: which buckets a cell meets, what its verdict is, which buckets it charges."""

from .bucket import Bucket

# Of which cell loss priorities the cells are that meet the second bucket, that of the sustained rate.
MEET_SECOND = {"cbr1": (), "vbr1": (0, 1), "vbr2": (0,), "vbr3": (0,)}

# The verdict on a cell to which the first bucket conforms and the second doesn't.
EXCESS = {"vbr1": "discard", "vbr2": "discard", "vbr3": "tag"}


class Contract:
    """A contract's kind and its buckets: that of the peak rate, and but for `cbr1` that of the sustained rate."""

    def __init__(self, kind, rates):
        self.kind = kind
        self.buckets = [Bucket(increment, limit) for increment, limit in rates]

    def judge(self, moment, priority):
        """The verdict on a cell of this priority. A passed cell charges what it met, a tagged one the first."""
        peak = self.buckets[0]
        if not peak.conforms(moment):
            return "discard"
        if priority in MEET_SECOND[self.kind]:
            sustained = self.buckets[1]
            if not sustained.conforms(moment):
                if EXCESS[self.kind] == "tag":
                    peak.fill(moment)
                return EXCESS[self.kind]
            sustained.fill(moment)
        peak.fill(moment)
        return "pass"

    def excess(self, moment, priority):
        """The number, from 1, of the first bucket that a cell meets and doesn't conform to, and the ticks over its limit."""
        for number, bucket in enumerate(self.buckets, 1):
            over = bucket.level_at(moment) - bucket.limit
            if over > 0 and (number == 1 or priority in MEET_SECOND[self.kind]):
                return number, over
        return None
