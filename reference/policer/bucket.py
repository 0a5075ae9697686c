"""The continuous-state leaky bucket (ITU-T I.371, annex A)."""


class Bucket:
    """A bucket drains by one unit a tick, and each conforming cell adds the increment to it.

    It keeps the level X that it had when it was last filled, and the moment of that. It opens empty, at 0.
    """

    def __init__(self, increment, limit):
        self.increment = increment
        self.limit = limit
        self.level = 0
        self.last = 0

    def level_at(self, moment):
        """What is left in the bucket at this moment, which isn't before the last one."""
        return max(0, self.level - (moment - self.last))

    def conforms(self, moment):
        """A cell conforms if it finds at most the limit."""
        return self.level_at(moment) <= self.limit

    def fill(self, moment):
        """A conforming cell leaves its increment on top of what it found."""
        self.level = self.level_at(moment) + self.increment
        self.last = moment
