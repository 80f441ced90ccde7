"""How many leaves of the node's key may go to others: a bucket that fills slowly."""

import time


class Bucket:
    """Fills by so many a day, up to a bound, and begins full."""

    def __init__(self, a_day: float, most: int, clock=time.monotonic):
        self.rate, self.most, self.clock = a_day / 86_400.0, most, clock
        self.level, self.at = float(most), clock()

    def left(self) -> int:
        """How many leaves may go now."""
        now = self.clock()
        self.level = min(float(self.most), self.level + (now - self.at) * self.rate)
        self.at = now
        return max(0, int(self.level))

    def spend(self, count: int) -> None:
        """Takes leaves out; what was spent beyond it has to fill again first."""
        self.left()
        self.level -= count
