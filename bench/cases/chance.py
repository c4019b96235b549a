"""Choices that a seed makes."""
from __future__ import annotations

import random
from collections.abc import Iterable, Mapping, Sequence
from typing import TypeVar


Item = TypeVar("Item")


class Chance:
    """A generator's `random` alone gives the same numbers in all versions of Python, so all is made of it."""

    def __init__(self, seed: int) -> None:
        self.next = random.Random(seed).random

    def below(self, count: int) -> int:
        return int(self.next() * count)

    def between(self, least: int, most: int) -> int:
        return least + self.below(most - least + 1)

    def is_one_of(self, count: float) -> bool:
        """True once in so many times."""
        return self.next() * count < 1

    def pick(self, values: Sequence[Item]) -> Item:
        return values[self.below(len(values))]

    def pick_weighted(self, weights: Mapping[str, float]) -> str:
        """A key of a dictionary, as often as its number says."""
        left = self.next() * sum(weights.values())
        for key, weight in weights.items():
            left -= weight
            if left < 0:
                return key
        return key

    def shuffle(self, values: Iterable[Item]) -> list[Item]:
        """The values in random order."""
        drawn = list(values)
        for last in range(len(drawn) - 1, 0, -1):
            place = self.below(last + 1)
            drawn[last], drawn[place] = drawn[place], drawn[last]
        return drawn

    def word(self) -> int:
        """A number of 32 bits; small ones, and those at the ends, come often."""
        kind = self.below(4)
        if kind == 0:
            return self.below(16)
        if kind == 1:
            return self.pick((0, 1, 0x7FF, 0x800, 0xFFF, 0x7FFFFFFF, 0x80000000, 0xFFFFFFFE, 0xFFFFFFFF, 0xFFFF8000))
        return self.below(1 << 32)
