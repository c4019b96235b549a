"""Numbers that are counted by their values: means, percentiles, histograms."""
from __future__ import annotations

import collections
from collections.abc import Iterator

# The percentiles that are printed.
PERCENTS = (10, 50, 90, 99)
# A histogram has so many bars at most.
MOST_BARS = 40


class Spread:
    """Numbers that are counted by their values."""

    def __init__(self) -> None:
        self.counts: collections.Counter[int] = collections.Counter()

    def note(self, value: int) -> None:
        """Counts a value once more."""
        self.counts[value] += 1

    def number(self) -> int:
        """How many numbers there are."""
        return sum(self.counts.values())

    def mean(self) -> float:
        """The mean of all values; 0 where there is none."""
        number = self.number()
        return sum(value * count for value, count in self.counts.items()) / number if number else 0.0

    def greatest(self) -> int:
        """The greatest value; 0 where there is none."""
        return max(self.counts, default=0)

    def percentile(self, percent: int) -> int:
        """The number at the place, counted from 0, of so many hundredths of them all, in rising order."""
        place = self.number() * percent // 100
        for value in sorted(self.counts):
            place -= self.counts[value]
            if place < 0:
                return value
        return self.greatest()

    def bars(self) -> Iterator[tuple[int, int, int]]:
        """A histogram: the first and the last value of each bar, and how many numbers are in it. All bars are equally
        wide, and there are as many as one a value needs, up to a bound."""
        if not self.counts:
            return
        least, most = min(self.counts), max(self.counts)
        width = -(-(most - least + 1) // MOST_BARS)
        sums: collections.Counter[int] = collections.Counter()
        for value, count in self.counts.items():
            sums[(value - least) // width] += count
        for bar in range((most - least) // width + 1):
            yield least + bar * width, least + (bar + 1) * width - 1, sums[bar]
