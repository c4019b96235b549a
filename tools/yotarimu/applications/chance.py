"""Random numbers of a seed: the same in all versions of Python, whose own choices of numbers may change."""
from __future__ import annotations

import random
from typing import Sequence, TypeVar

Item = TypeVar("Item")


class Chance:
    """A source of random numbers."""

    def __init__(self, seed: int) -> None:
        # Of all that this module has, only this is promised to stay.
        self.fraction = random.Random(seed).random

    def number(self, least: int, most: int) -> int:
        """A number from `least` to `most`, each as likely."""
        return least + int(self.fraction() * (most - least + 1))

    def happens(self, percent: int) -> bool:
        """Whether something happens that does so many times in a hundred."""
        return self.number(1, 100) <= percent

    def permutation(self, items: Sequence[Item]) -> list[Item]:
        """The items in another order, each order as likely."""
        mixed = list(items)
        for last in range(len(mixed) - 1, 0, -1):
            other = self.number(0, last)
            mixed[last], mixed[other] = mixed[other], mixed[last]
        return mixed
