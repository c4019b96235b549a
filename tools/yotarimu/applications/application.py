"""What an application is: a program of the folder applications/, problems for it, and what it has to leave."""
from __future__ import annotations

import dataclasses
from typing import Callable, Mapping

from yotarimu.applications.chance import Chance
from yotarimu.applications.inputs import Input
from yotarimu.applications.memory import Memory


@dataclasses.dataclass(frozen=True)
class Problem:
    """What a program is given, and how what it left is checked: a sentence, or `Wrong`."""
    input: Input
    check: Callable[[Memory], str]


@dataclasses.dataclass(frozen=True)
class Application:
    """A program and its problems: the names of its sources, what its size counts, which sizes there may be, and those
    that have names."""
    name: str
    sources: tuple[str, ...]
    size_told: str
    size_range: range
    sizes: Mapping[str, int]
    made: Callable[[int, Chance], Problem]

    def problem(self, size: int, seed: int) -> Problem:
        """The problem of a size and a seed."""
        return self.made(size, Chance(seed))
