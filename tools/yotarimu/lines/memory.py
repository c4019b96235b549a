"""The data as the lines of a run leave it: each byte that was touched, or all of them where the image is known."""
from __future__ import annotations

from collections.abc import Iterable, Iterator
from typing import TYPE_CHECKING, Optional

from yotarimu.lines.fields import WrongLine

if TYPE_CHECKING:
    from yotarimu.lines.replay import Access

DATA_START = 0x10000000
TOUCHED = b"\x01"


class Memory:
    """The bytes of the data. A byte that nobody touched is unknown, unless `initial` has those of the image from its
    start on; what is after that is 0."""

    def __init__(self, size: int, initial: Optional[bytes] = None) -> None:
        self.data = bytearray(size)
        self.touched = bytearray(size)
        self.is_image_known = initial is not None
        if initial is not None:
            self.data[:len(initial)] = initial

    def copy(self) -> Memory:
        """The same bytes, to be changed apart from these."""
        memory = Memory(0)
        memory.data, memory.touched, memory.is_image_known = self.data[:], self.touched[:], self.is_image_known
        return memory

    def byte(self, address: int) -> Optional[int]:
        """A byte that was touched."""
        place = address - DATA_START
        return self.data[place] if 0 <= place < len(self.data) and self.touched[place] else None

    def known_byte(self, place: int) -> Optional[int]:
        """The byte at a place of the data; None where it isn't known."""
        return self.data[place] if self.is_image_known or self.touched[place] else None

    def number(self, address: int, count: int) -> int:
        """The number in so many bytes from an address on, where all of them are known."""
        place = address - DATA_START
        return int.from_bytes(self.data[place:place + count], "little")

    def meet(self, address: int, count: int, old: int) -> None:
        """Takes what stood at an address before an access; Wrong where something else stood there."""
        if old >> 8 * count:
            raise WrongLine(f"{old} are more than {count} bytes")
        place = address - DATA_START
        told = old.to_bytes(count, "little")
        if self.data[place:place + count] != told:
            for more, byte in enumerate(told, place):
                known = self.known_byte(more)
                if known not in (None, byte):
                    raise WrongLine(f"at {DATA_START + more:08x} it finds the byte {byte}, and {known} is there")
            self.data[place:place + count] = told

    def touch(self, address: int, count: int) -> None:
        """Notes an access to so many bytes."""
        place = address - DATA_START
        self.touched[place:place + count] = TOUCHED * count

    def write(self, address: int, count: int, value: int) -> None:
        """Writes a value of so many bytes at an address of the data, which was met before."""
        place = address - DATA_START
        self.data[place:place + count] = value.to_bytes(count, "little")

    def undo(self, accesses: Iterable[Access]) -> None:
        """Takes the stores among some accesses back, the latest first."""
        for access in sorted((it for it in accesses if it.is_store), key=event_of, reverse=True):
            self.write(access.address, access.bytes, access.old)

    def touched_words(self) -> Iterator[int]:
        """The places of the words of which some byte was touched, in rising order."""
        place = self.touched.find(TOUCHED)
        while place >= 0:
            yield place & ~3
            place = self.touched.find(TOUCHED, (place & ~3) + 4)

    def words(self) -> list[tuple[int, int]]:
        """The words that were touched, by rising address; bytes that nobody touched count as 0."""
        return [(DATA_START + place, sum((self.byte(DATA_START + place + byte) or 0) << 8 * byte for byte in range(4)))
                for place in self.touched_words()]

    def bytes(self) -> dict[int, int]:
        """The bytes that were touched, by address."""
        return {address + byte: self.data[address + byte - DATA_START] for address, _ in self.words()
                for byte in range(4) if self.byte(address + byte) is not None}

    def need_window(self, offset: int, words: list[int]) -> None:
        """Holds the words of a window, which begins so far in the data, against the bytes that are known."""
        for number, word in enumerate(words):
            for place in range(4):
                known = self.known_byte(offset + 4 * number + place)
                if known not in (None, word >> 8 * place & 0xFF):
                    raise WrongLine(f"word {number} of the window is {word}, and at "
                                    f"{DATA_START + offset + 4 * number + place:08x} the byte {known} stands")


def event_of(access: Access) -> int:
    """The number of the event that an access was made in."""
    return access.event
