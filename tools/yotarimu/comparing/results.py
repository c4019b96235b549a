"""What a run leaves, and the first difference between two of them."""
from __future__ import annotations

import dataclasses
from collections.abc import Collection
from typing import NamedTuple, Optional

from yotarimu.images.image import DATA

# What is compared, in this order.
END, OUTPUT, MEMORY = "end", "output", "memory"
PARTS = (END, MEMORY, OUTPUT)


class Result(NamedTuple):
    """What a run leaves: the data memory from a place on, the bytes that were emitted, and how it ended: normal, limit,
    open, or trap with the cause and the address of the instruction."""
    memory: bytes
    output: bytes
    end: str
    # Where in the data the memory begins.
    start: int = 0


@dataclasses.dataclass(frozen=True)
class Difference:
    """The first place in which two runs differ: the part, where in it, and what is there in each, as text."""
    part: str
    place: int
    wanted: str
    seen: str


def first_difference(wanted: Result, seen: Result, parts: Collection[str] = PARTS) -> Optional[Difference]:
    """Where a run leaves something else than another one; None where it doesn't."""
    if END in parts and wanted.end != seen.end:
        return Difference(END, 0, wanted.end, seen.end)
    own = wanted.memory[seen.start:seen.start + len(seen.memory)]
    if MEMORY in parts and own != seen.memory:
        at = first_place(own, seen.memory) & ~3
        return Difference(MEMORY, seen.start + at, word_text(own, at), word_text(seen.memory, at))
    if OUTPUT in parts and wanted.output != seen.output:
        at = first_place(wanted.output, seen.output)
        return Difference(OUTPUT, at, byte_text(wanted.output, at), byte_text(seen.output, at))
    return None


def first_place(one: bytes, other: bytes) -> int:
    """The first place at which bytes differ that aren't the same."""
    size = min(len(one), len(other))
    low = 0
    # Pieces are compared at once: the data may have 16 million bytes.
    while low < size and one[low:low + 4096] == other[low:low + 4096]:
        low += 4096
    return next((at for at in range(low, min(size, low + 4096)) if one[at] != other[at]), size)


def byte_text(data: bytes, at: int) -> str:
    """A byte of the output, or that there is none."""
    return f"{data[at]:02x}" if at < len(data) else "nothing"


def word_text(data: bytes, at: int) -> str:
    """A word of the data in hexadecimal and decimal."""
    word = int.from_bytes(data[at:at + 4], "little")
    return f"{word:08x} ({word:,})"


def address_of(difference: Difference) -> int:
    """The address of a difference of the memory."""
    return DATA + difference.place
