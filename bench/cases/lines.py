"""Cases of `fractal_watch`: each of its modes on one image. Lines are the same if only the order differs in which tasks
that an event aborted or spilled are listed."""
from __future__ import annotations

import collections
import json
from typing import Any

from yotarimu.images.image import image_bytes

from cases import scripts
from cases.case import Call, Calls, settle
from cases.chance import Chance
from cases.kinds import Counts
from cases.shape import THEMES

COURSES, ENDS = ("steps", "least", "lockstep"), ("normal", "limit", "open", "trap")
LISTED = ("back", "gone", "spilled")
THEMES_IN_TURN = (*THEMES, "mixed", "conflicts", "queues", "tight", "mixed", "conflicts", "tight")
MOST_ROUNDS, MOST_SEED = 400, 0xFFFFFFFF
CALLS_TABLE, ENDS_TABLE, TAKEN_TABLE = "Calls", "Ends", "Lines that list tasks"


def theme_of(number: int) -> str:
    return THEMES_IN_TURN[number % len(THEMES_IN_TURN)]


def calls_of(seed: int, number: int) -> Calls:
    """A script, the run of the least tasks, and rounds in lockstep, all on the image of a case."""
    chance = Chance(seed << 32 | number)
    image, options, acts = settle(chance, theme_of(number))
    data = image_bytes(image)
    yield Call(("steps", *options), data + scripts.text_of(chance, acts).encode())
    yield Call(("least", *options), data)
    drawn = chance.below(MOST_SEED) if chance.is_one_of(2) else 0
    yield Call(("lockstep", str(chance.between(1, MOST_ROUNDS)), str(drawn), *options), data)


def empty() -> Counts:
    return {title: collections.Counter(dict.fromkeys(names, 0))
            for title, names in ((CALLS_TABLE, COURSES), (ENDS_TABLE, ENDS), (TAKEN_TABLE, LISTED))}


def missing_kinds(counts: Counts) -> list[str]:
    """The kinds that never came."""
    return [f"{title}: {name}" for title, names in counts.items() for name, times in names.items() if not times]


def count(counts: Counts, call: Call, said: bytes) -> None:
    """Adds the outcome of one call."""
    counts[CALLS_TABLE][call.command] += 1
    lines = said.splitlines()
    end = json.loads(lines[-1]).get("end") if lines else None
    if end is not None:
        counts[ENDS_TABLE][end] += 1
    for name in LISTED:
        counts[TAKEN_TABLE][name] += sum(f'"{name}":'.encode() in line for line in lines)


def in_order(line: bytes) -> Any:
    """A line, whose lists of tasks are in an order of their own, where it has such lists."""
    if not any(f'"{name}":'.encode() in line for name in LISTED):
        return line
    told = json.loads(line)
    return {name: sorted(value) if name in LISTED else value for name, value in told.items()}


def is_same_text(one: bytes, other: bytes) -> bool:
    """Whether two texts differ in the order of listed tasks at most."""
    if one == other:
        return True
    first, second = one.split(b"\n"), other.split(b"\n")
    return len(first) == len(second) and all(
        mine == yours or in_order(mine) == in_order(yours) for mine, yours in zip(first, second))
