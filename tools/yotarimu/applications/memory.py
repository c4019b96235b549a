"""The memory that a run left, by the names that variables have in the sources."""
from __future__ import annotations

import dataclasses
import struct
from typing import Mapping


@dataclasses.dataclass(frozen=True)
class Place:
    """Where a variable stands: its offset in the data, and its bytes."""
    offset: int
    size: int


class WrongMemory(Exception):
    """What a run left isn't what it should have. The text says where."""


@dataclasses.dataclass(frozen=True)
class Memory:
    """All bytes of the data, and where the variables stand."""
    data: bytes
    places: Mapping[str, Place]

    def bytes_of(self, name: str) -> bytes:
        """The bytes of a variable."""
        place = self.places[name]
        return self.data[place.offset:place.offset + place.size]

    def halves(self, name: str) -> tuple[int, ...]:
        """A variable as numbers of 16 bits."""
        content = self.bytes_of(name)
        return struct.unpack(f"<{len(content) // 2}H", content)

    def words(self, name: str) -> tuple[int, ...]:
        """A variable as numbers of 32 bits."""
        content = self.bytes_of(name)
        return struct.unpack(f"<{len(content) // 4}I", content)

    def rows(self, name: str, width: int) -> list[tuple[int, ...]]:
        """A variable of structs that have so many words each."""
        numbers = self.words(name)
        return [numbers[place:place + width] for place in range(0, len(numbers), width)]


def need(condition: bool, sentence: str) -> None:
    """Holds that a condition is met."""
    if not condition:
        raise WrongMemory(sentence)
