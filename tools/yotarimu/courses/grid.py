"""A grid of options: each choice of one value an option."""
from __future__ import annotations

import dataclasses
import itertools
import math
from collections.abc import Mapping, Sequence
from typing import Optional, TypeVar

from yotarimu.common.outcome import Refusal
from yotarimu.common.words import number_in
from yotarimu.programs.table import MOST_VALUE, Option, Value

MOST_RUNS = 100_000
Run = TypeVar("Run")


def values_of(option: Option, text: str) -> list[Value]:
    """The values of a list such as `1,5..9,10..100..10`, or of a list of words, each once."""
    pieces = text.split(",")
    values: list[Value] = [*pieces] if option.has_words else [
        value for piece in pieces for value in values_in(option, piece)]
    wrong = next((value for value in values if value not in option.values), None)
    if wrong is not None or not values:
        raise Refusal(f"--{option.name} takes {option.range_text()}, and not `{text if wrong is None else wrong}`.")
    return list(dict.fromkeys(values))


def values_in(option: Option, piece: str) -> Sequence[int]:
    """The values of a number, FROM..TO or FROM..TO..STEP."""
    numbers = [number_in(part, 0, MOST_VALUE) for part in piece.split("..")]
    given = [number for number in numbers if number is not None]
    if len(given) < len(numbers) or len(given) > 3 or given[2:] == [0]:
        raise Refusal(f"--{option.name}: `{piece}` isn't a number, FROM..TO or FROM..TO..STEP.")
    if len(given) == 1:
        return given
    first, last, step = [*given, 1][:3]
    values = range(first, last + 1, step)
    if len(values) > MOST_RUNS:
        raise Refusal(f"--{option.name}: `{piece}` has {len(values):,} values, and {MOST_RUNS:,} are the most.")
    return values


def program_options(given: Mapping[str, Optional[str]], known: Mapping[str, Option]) -> list[str]:
    """The program's options among those of a call, each with one value."""
    options = []
    for name, option in known.items():
        text = given.get(name)
        values = [] if text is None else values_of(option, text)
        if len(values) > 1:
            raise Refusal(f"--{name} takes one value here.")
        options += [f"--{name}={value}" for value in values]
    return options


def cells_of(options: Mapping[str, Option], values: Mapping[str, Sequence[Value]],
             what: str = "runs") -> list[dict[str, Value]]:
    """The cells of the grid: each choice of one value an option, where an option without values has its default."""
    count = math.prod(map(len, values.values()))
    if count > MOST_RUNS:
        raise Refusal(f"the grid has {count:,} {what}, and {MOST_RUNS:,} are the most.")
    lists = [values.get(name, [option.default]) for name, option in options.items()]
    return [dict(zip(options, choice)) for choice in itertools.product(*lists)]


@dataclasses.dataclass(frozen=True)
class Shard:
    """Each run of so many, from one on."""
    number: int = 1
    count: int = 1

    def of(self, runs: Sequence[Run]) -> Sequence[Run]:
        """Those of all runs that are of this shard."""
        return runs[self.number - 1::self.count]


def shard_of(text: Optional[str]) -> Shard:
    """The shard that K/N means; the whole by default."""
    if text is None:
        return Shard()
    part, slash, count = text.partition("/")
    total = number_in(count, 1, MOST_RUNS)
    place = number_in(part, 1, total) if total else None
    if not slash or place is None or total is None:
        raise Refusal(f"--shard takes K/N with K from 1 to N, and not `{text}`.")
    return Shard(place, total)
