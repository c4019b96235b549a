"""How many tasks are where, and what happens in a round: means, the greatest, and curves.

In lockstep the points in time are rounds, since a round serves as time there: in it each core makes at most one step. A
round counts as the mean of what its events left; a round without an event has what the one before it left. In other
modes the points in time are events.
"""
from __future__ import annotations

from collections.abc import Iterator, Sequence
from typing import Optional

# The tasks of a machine: those in task queues are all of them but those in blocks.
PLACES = ("task queues", "running", "stalled", "trapped", "commit queues", "blocks")
# What is counted by the round.
RATES = ("commits", "aborted", "stalled steps", "stalled splits")
# A curve has at least so many points, where there are so many moments, and fewer than twice as many.
FEWEST_POINTS = 60


class Curve:
    """Numbers over moments: their means over all, and points of a curve, each the mean over as many moments."""

    def __init__(self, count: int) -> None:
        self.moments, self.step = 0, 1
        self.sums = [0.0] * count
        self.group = [0.0] * count
        self.points: list[tuple[int, list[float]]] = []

    def note(self, values: Sequence[float]) -> None:
        """Notes a moment's values; where there are many points, each two become one."""
        self.moments += 1
        self.group = [total + value for total, value in zip(self.group, values)]
        if self.moments % self.step == 0:
            self.sums = [total + value for total, value in zip(self.sums, self.group)]
            self.points.append((self.moments, [total / self.step for total in self.group]))
            self.group = [0.0] * len(self.group)
            if len(self.points) == 2 * FEWEST_POINTS:
                self.halve()

    def halve(self) -> None:
        """Makes one point of each two."""
        pairs = zip(self.points[::2], self.points[1::2])
        self.points = [(moment, [(one + other) / 2 for one, other in zip(first, second)])
                       for (_, first), (moment, second) in pairs]
        self.step *= 2

    def means(self) -> list[float]:
        """The mean of each value over all moments; 0 where there is none."""
        return [(total + more) / self.moments if self.moments else 0.0 for total, more in zip(self.sums, self.group)]


class Occupancy:
    """How many tasks were where, by places, over rounds, or over events where there are none; and over rounds what was
    counted in each."""

    def __init__(self, is_in_rounds: bool) -> None:
        self.is_in_rounds = is_in_rounds
        self.curve, self.rates = Curve(len(PLACES)), Curve(len(RATES))
        self.greatest = [0] * len(PLACES)
        # The round that goes on, how many events it had, their sums, and what the last one left.
        self.round = self.events = 0
        self.within = [0] * len(PLACES)
        self.last: Sequence[int] = (0,) * len(PLACES)
        self.counted = [0] * len(RATES)

    def note_event(self, counts: Sequence[int]) -> None:
        """Takes what an event left, by places."""
        if not self.is_in_rounds:
            self.curve.note(counts)
        else:
            self.events += 1
            self.within = [total + count for total, count in zip(self.within, counts)]
        if counts != self.last:
            self.greatest = [one if one > other else other for one, other in zip(self.greatest, counts)]
            self.last = counts

    def count(self, rate: str, number: int = 1) -> None:
        """Counts what happened at an act."""
        if self.is_in_rounds:
            self.counted[RATES.index(rate)] += number

    def end_rounds(self, rounds: int) -> None:
        """Ends all rounds before the one of this number, from 0."""
        while self.round < rounds:
            means = [total / self.events for total in self.within] if self.events else [*map(float, self.last)]
            self.curve.note(means)
            self.rates.note(self.counted)
            self.round += 1
            self.events, self.within, self.counted = 0, [0] * len(PLACES), [0] * len(RATES)

    def close(self, rounds: Optional[int]) -> None:
        """Ends the last round of so many."""
        if rounds is not None:
            self.end_rounds(rounds)

    def over(self) -> str:
        """What the moments are."""
        return "rounds" if self.is_in_rounds else "events"

    def series(self) -> Iterator[tuple[str, list[tuple[int, float]]]]:
        """The curves by name."""
        curves: list[tuple[Sequence[str], Curve]] = [(PLACES, self.curve)]
        if self.is_in_rounds:
            curves.append((RATES, self.rates))
        for names, curve in curves:
            for place, name in enumerate(names):
                yield name, [(moment, values[place]) for moment, values in curve.points]
