"""Which lines a task's filter reports, by its kind: a model, written from the definitions of crates/line_table.

A line has bits: one by its number modulo 1,024; or eight, by hashes of its number; or one of its own, so that a filter
is exact. An access sets the bits of its line, those of touches or of writes too, and a line is reported if all of its
bits are set. So if it has eight, noted lines may together cause a false positive, although none of them does so alone.
"""
from __future__ import annotations

import dataclasses
import enum
import functools
import json
import pathlib
from typing import TYPE_CHECKING, Iterable

from yotarimu.images.image import DATA

if TYPE_CHECKING:
    from yotarimu.lines.fields import Line
    from yotarimu.lines.replay import Access

# By numbers modulo: a row has so many bits.
ROW_BITS = 1_024
# By hashes: so many banks, each of so many bits, of which a line has one in each.
BANKS, BANK_BITS = 8, 256
# What a bit of a line's number adds to its hashes, the lowest bit first: the first 2,048 bits of the fraction of pi.
# The page reads the same file.
DIGITS = tuple(int(digits, 16) for digits in json.loads(
    pathlib.Path(__file__).with_suffix(".json").read_text(encoding="utf-8"))["digits of pi"])
# The hashes of so many lines are remembered.
MOST_LINES = 1 << 16
# The bits that stand for a line, by their places in a row or among all banks.
Bits = tuple[int, ...]


class FilterKind(enum.Enum):
    """How a filter distinguishes lines, by the name that the option and the head of the event log have for it."""
    MODULO = "modulo"
    BLOOM = "bloom"
    EXACT = "exact"

    def bits(self, line: int) -> Bits:
        """The bits that stand for a line."""
        if self is FilterKind.BLOOM:
            return hashed_bits(line)
        return (line % ROW_BITS if self is FilterKind.MODULO else line,)


# That of lines from before it could be chosen, whose head has no word on it.
UNLESS_TOLD = FilterKind.MODULO
FILTERS = tuple(kind.value for kind in FilterKind)


def hashes(line: int) -> int:
    """Eight hashes of a line's number, of 8 bits each, as one number with the first in its lowest bits: the class H3 of
    Carter and Wegman (1979)."""
    mixed = 0
    for bit, digits in enumerate(DIGITS):
        if line >> bit & 1:
            mixed ^= digits
    return mixed


@functools.lru_cache(maxsize=MOST_LINES)
def hashed_bits(line: int) -> Bits:
    """The bit of a line in each bank, the first bank first."""
    mixed = hashes(line)
    return tuple(BANK_BITS * bank + (mixed >> 8 * bank) % BANK_BITS for bank in range(BANKS))


class TaskFilter:
    """The bits of the lines that a task touched, and of those that it wrote."""

    def __init__(self, kind: FilterKind) -> None:
        self.kind = kind
        self.touched: set[int] = set()
        self.written: set[int] = set()

    def note(self, line: int, is_store: bool) -> None:
        """Notes an access to a line."""
        bits = self.kind.bits(line)
        self.touched.update(bits)
        if is_store:
            self.written.update(bits)

    def has_touched(self, line: int) -> bool:
        """Whether the task touched the line, by its filter."""
        return self.touched.issuperset(self.kind.bits(line))

    def has_written(self, line: int) -> bool:
        """Whether it wrote the line, by its filter."""
        return self.written.issuperset(self.kind.bits(line))

    def meets(self, line: int, is_store: bool) -> bool:
        """Whether an access of an earlier task to the line aborts the task: a store if it touched the line, a load if
        it wrote it."""
        return self.has_touched(line) if is_store else self.has_written(line)


@dataclasses.dataclass(frozen=True)
class LineRule:
    """How a machine finds conflicts: how many bytes a line has, and of which kind filters are."""
    size: int
    kind: FilterKind = UNLESS_TOLD

    def line_of(self, access: Access) -> int:
        """The line of the data that an access is in."""
        return (access.address - DATA) // self.size

    def filter_of(self, accesses: Iterable[Access]) -> TaskFilter:
        """The filter of a task that made these accesses."""
        made = TaskFilter(self.kind)
        for access in accesses:
            made.note(self.line_of(access), access.is_store)
        return made


def rule_of(head: Line) -> LineRule:
    """The rule of a machine, from the head of its lines."""
    return LineRule(head["line"], FilterKind(head.get("filter", UNLESS_TOLD.value)))
