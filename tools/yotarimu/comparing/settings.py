"""Under which settings an image is run: tie orders, a grid of options, shuffled rounds with filters, host threads."""
from __future__ import annotations

import dataclasses
import random
from collections.abc import Iterator, Mapping, Sequence

from yotarimu.programs.table import Option, Table, Value, option_words

ORDER, LEAST, LOCKSTEP, WORKERS = "order", "least", "lockstep", "workers"
# In this order they take turns. The first finds most, and needs no program.
KINDS = (ORDER, LOCKSTEP, LEAST, WORKERS)
ROUNDS = 1_000_000
# The values among which is chosen unless others are given: the ends, and what is usual.
CHOSEN: Mapping[str, Sequence[Value]] = {
    "tiles": (1, 2, 4, 16), "cores": (1, 2, 4), "task-queue": (4, 8, 64, 256), "commit-queue": (1, 4, 16),
    "line": (4, 16, 64), "quantum": (1, 7, 64, 1024), "phase": (1, 3, 1_000_000),
    "filter": ("modulo", "bloom", "exact"), "workers": (2, 4, 16)}
# These bound what a program may do, so all runs have the same.
SHARED = ("budget", "commits")


@dataclasses.dataclass(frozen=True)
class Setting:
    """How one run is made: its kind, a number that is the seed or the order, and its options."""
    kind: str
    number: int
    options: Mapping[str, Value]

    @property
    def mode(self) -> list[str]:
        """The arguments of `fractal_watch` for the mode."""
        return [LOCKSTEP, str(ROUNDS), str(self.number)] if self.kind == LOCKSTEP else [LEAST]

    @property
    def words(self) -> list[str]:
        """The options as words of a call."""
        return option_words(self.options)

    def __str__(self) -> str:
        """The setting as a call that makes the run again."""
        if self.kind == ORDER:
            names = {0: "in the order of creation", 1: "in the reverse order of creation"}
            return f"serial, ties {names.get(self.number, f'shuffled by {self.number}')}"
        words = ["run"] if self.kind == WORKERS else ["watch", *self.mode]
        return " ".join([*words, *self.words])


def settings(count: int, seed: int, given: Mapping[str, Sequence[Value]], table: Table) -> Iterator[Setting]:
    """So many settings, the same ones for the same seed. Of the options that are given only these values are taken."""
    source = random.Random(seed)
    bounds = {name: given[name][0] for name in SHARED if name in given}
    for place in range(count):
        kind, number = KINDS[place % len(KINDS)], place // len(KINDS)
        if kind == ORDER:
            yield Setting(ORDER, number if number < 2 else number + 1_000 * seed, bounds)
            continue
        known = table.options if kind == WORKERS else table.mode_options
        chosen = {name: source.choice(values_of(name, option, given)) for name, option in known.items()
                  if name not in SHARED and (kind == WORKERS or name != "workers")
                  and (kind == LOCKSTEP or name != "filter")}
        yield Setting(kind, number + 1 + 1_000 * seed, {**chosen, **bounds})


def values_of(name: str, option: Option, given: Mapping[str, Sequence[Value]]) -> Sequence[Value]:
    """The values of an option among which is chosen."""
    return given.get(name) or CHOSEN.get(name) or (option.default,)
