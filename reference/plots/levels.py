"""What a picture shows: the time, the cells of each connection or their counts, and the levels of the buckets meanwhile."""
from collections import namedtuple

from plots.verdicts import OTHER, VERDICTS
from policer.contract import MEET_SECOND

# Up to so many cells of a connection are drawn one by one; the others are counted in so many spans.
FEW = 250
SPANS = 200

# A bucket: the number of its contract, its own number, its increment and its limit, and its levels at some moments.
Fill = namedtuple("Fill", "contract bucket increment limit moments levels")


def round_number(least):
    """Returns the least of 1, 2, 5, 10, 20 and so on that is at least this."""
    number = 1
    while number < least:
        number = number * 5 // 2 if str(number)[0] == "2" else number * 2
    return number


class OtherSetup(Exception):
    """The setup isn't the one under which the cells have their verdicts."""


class Corners:
    """The level of a bucket at each moment at which it changes its course."""

    def __init__(self, plan, bucket):
        self.moments, self.levels, self.end = [plan.begin], [0], plan.end
        # The script may have had cells.
        self.add(bucket.last, bucket.level)

    def drain(self, bucket, moment):
        """Adds the level before a cell, and the moment at which the bucket became empty."""
        empty = bucket.last + bucket.level
        if self.moments[-1] < empty < moment:
            self.add(empty, 0)
        self.add(moment, bucket.level_at(moment))

    def add(self, moment, level):
        """Adds a corner, or where it is outside of the time that is drawn, the level at its beginning or its end."""
        if moment <= self.moments[0]:
            self.levels[0] = max(0, level - (self.moments[0] - moment))
        elif moment <= self.end:
            if self.moments[-1] < moment and self.levels[-1] == 0 < level:
                # A bucket rises at once.
                self.moments.append(moment)
                self.levels.append(0)
            self.moments.append(moment)
            self.levels.append(level)
        elif self.moments[-1] < self.end:
            self.levels.append(max(0, self.levels[-1] - (self.end - self.moments[-1])))
            self.moments.append(self.end)

    def fill(self, bucket, moment):
        """Adds the level after a cell."""
        if bucket.last == moment and self.levels[-1] != bucket.level:
            self.add(moment, bucket.level)

    def close(self, bucket):
        """Goes on to the end."""
        self.drain(bucket, max(self.end, bucket.last))


class Greatest:
    """The greatest level of a bucket in each span."""

    def __init__(self, plan, bucket):
        self.plan = plan
        self.moments = [plan.begin + number * plan.span for number in range(plan.spans)]
        self.levels = [0] * plan.spans
        self.see(bucket.last, bucket.level)

    def see(self, moment, level):
        """Notes a level at a moment."""
        place = self.plan.place(moment)
        if 0 <= place < len(self.levels):
            self.levels[place] = max(self.levels[place], level)

    def drain(self, bucket, moment):
        """Notes the levels at the beginnings of the spans up to this moment."""
        place = max(0, self.plan.place(bucket.last) + 1)
        while place < len(self.levels) and self.moments[place] <= min(moment, bucket.last + bucket.level):
            self.see(self.moments[place], bucket.level_at(self.moments[place]))
            place += 1

    def fill(self, bucket, moment):
        """Notes the level after a cell."""
        self.see(moment, bucket.level_at(moment))

    def close(self, bucket):
        """Goes on to the end."""
        self.drain(bucket, self.plan.end)


class Shown:
    """A connection: its contracts, its cells in the time that is drawn, how many have each verdict, and the levels of its buckets."""

    def __init__(self, plan, vc, cells, contracts, few):
        self.vc = vc
        self.contracts = ["%s" % ":".join([it.kind] + ["%d/%d" % (b.increment, b.limit) for b in it.buckets]) for it in contracts]
        within = [plan.begin <= moment <= plan.end for moment in cells.moments]
        self.is_few = sum(within) <= few
        self.cells = [it for it, is_shown in zip(cells.each(), within) if is_shown] if self.is_few else []
        self.spans = [[0] * plan.spans for _ in VERDICTS]
        self.counts = [0] * len(VERDICTS)
        for (moment, _, _, verdict), is_shown in zip(cells.each(), within):
            if is_shown:
                self.counts[verdict] += 1
                self.spans[verdict][plan.place(moment)] += 1
        self.fills = fills(plan, vc, cells, contracts, self.is_few) if contracts else []


class Plan:
    """A picture: the time in ticks, how long a span is, and the connections."""

    def __init__(self, cells, contracts, begin, end, few=FEW):
        self.begin = min(it.moments[0] for it in cells.values()) if begin is None else begin
        last = max(it.moments[-1] for it in cells.values())
        # The levels are seen for a while after the last cell.
        self.end = last + (last - self.begin) // 25 if end is None else end
        self.end = max(self.end, self.begin + 1)
        self.span = round_number((self.end - self.begin) // SPANS + 1)
        self.spans = -(-(self.end - self.begin + 1) // self.span)
        self.shown = [Shown(self, vc, it, contracts.get(vc, []), few) for vc, it in cells.items()]

    def place(self, moment):
        """Returns the number of the span of a moment."""
        return (moment - self.begin) // self.span


def fills(plan, vc, cells, contracts, is_few):
    """Judges the cells again, and returns the levels of each bucket that met one."""
    courses = [[(Corners if is_few else Greatest)(plan, bucket) for bucket in contract.buckets] for contract in contracts]
    meeting = [[False] * len(contract.buckets) for contract in contracts]
    for moment, priority, value, verdict in cells.each():
        if verdict == OTHER or not 1 <= value <= len(contracts):
            continue
        contract = contracts[value - 1]
        for number, (course, bucket) in enumerate(zip(courses[value - 1], contract.buckets)):
            course.drain(bucket, moment)
            meeting[value - 1][number] |= number == 0 or priority in MEET_SECOND[contract.kind]
        given = contract.judge(moment, priority)
        if given != VERDICTS[verdict]:
            words = *vc, moment, given, VERDICTS[verdict]
            raise OtherSetup("the cell of %d/%s at %d is to %s under the setup and not to %s: another one was policed" % words)
        for course, bucket in zip(courses[value - 1], contract.buckets):
            course.fill(bucket, moment)
    made = []
    for at, contract in enumerate(contracts):
        for number, bucket in enumerate(contract.buckets):
            course = courses[at][number]
            if meeting[at][number]:
                course.close(bucket)
                made.append(Fill(at + 1, number + 1, bucket.increment, bucket.limit, course.moments, course.levels))
    return made
