"""The buckets of a contract, and the rates that they police."""
from dataclasses import dataclass
from fractions import Fraction
from math import ceil, floor

from .contract import SizeFault

SECOND = 10 ** 9
MOST_TICKS = 2 ** 48


@dataclass
class Bucket:
    """A bucket at a tick, and the rate asked for, in cells a second."""

    asked: Fraction
    tick: int
    increment: int
    limit: int

    def policed(self):
        """Returns the rate that the bucket polices, in cells a second."""
        return Fraction(SECOND, self.increment * self.tick)

    def above(self):
        """Returns by how much that is above the rate asked for, as a part of that."""
        return self.policed() / self.asked - 1


def increment(asked, tick):
    """Returns the greatest increment whose rate is at least this one."""
    if asked == 0:
        raise SizeFault("ZeroRate")
    ticks = floor(Fraction(SECOND, tick) / asked)
    if ticks == 0:
        raise SizeFault("TooFast")
    return ticks


def buckets(figures, tick):
    """Returns the buckets at this tick, that of the peak rate first."""
    if not 1 <= tick <= SECOND:
        raise SizeFault("BadNumber")
    peak = Bucket(figures["pcr"], tick, increment(figures["pcr"], tick), ceil(Fraction(figures["cdvt"], tick)))
    made = [peak]
    if "scr" in figures:
        ticks = increment(figures["scr"], tick)
        if figures["mbs"] == 0:
            raise SizeFault("ZeroMbs")
        if ticks < peak.increment:
            raise SizeFault("PeakSlower")
        burst = (figures["mbs"] - 1) * (ticks - peak.increment)
        made.append(Bucket(figures["scr"], tick, ticks, burst + peak.limit))
    if any(bucket.limit > MOST_TICKS for bucket in made):
        raise SizeFault("TooLarge")
    return made


def is_coarse(made):
    """Returns whether one of the rates is above the one asked for by more than one percent."""
    return any(bucket.above() > Fraction(1, 100) for bucket in made)


def better_tick(figures):
    """Returns the longest tick at which no rate is coarse, in nanoseconds, or None."""
    for power in range(9, -1, -1):
        try:
            if not is_coarse(buckets(figures, 10 ** power)):
                return 10 ** power
        except SizeFault:
            pass
    return None
