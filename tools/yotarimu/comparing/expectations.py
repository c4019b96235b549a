"""What a run is expected to leave, from files."""
from __future__ import annotations

import dataclasses
import pathlib
from typing import Optional

from yotarimu.common.files import read_bytes
from yotarimu.common.outcome import Refusal
from yotarimu.common.text import likely
from yotarimu.comparing.results import MEMORY, OUTPUT, Difference, Result, byte_text, first_place, word_text
from yotarimu.images.image import DATA, Image
from yotarimu.images.listing import Listing


@dataclasses.dataclass(frozen=True)
class Expectation:
    """Bytes that are expected: of the output, or of the data from a place on."""
    data: bytes
    # None for the output.
    start: Optional[int] = None

    def difference(self, left: Result) -> Optional[Difference]:
        """Where a run left something else; None where it didn't. The memory may go on after what is expected."""
        if self.start is None:
            if left.output == self.data:
                return None
            at = first_place(self.data, left.output)
            return Difference(OUTPUT, at, byte_text(self.data, at), byte_text(left.output, at))
        own = left.memory[self.start:self.start + len(self.data)]
        if own == self.data:
            return None
        at = first_place(self.data, own)
        place = self.start + at & ~3
        expected = left.memory[:self.start] + self.data + left.memory[self.start + len(self.data):]
        return Difference(MEMORY, place, word_text(expected, place), word_text(left.memory, place))


def expectations_in(text: Optional[str], image: Image, listing: Listing) -> list[Expectation]:
    """What FILE, LABEL:FILE and output:FILE expect, with commas between."""
    return [expectation_in(word, image, listing) for word in (text.split(",") if text else ())]


def expectation_in(word: str, image: Image, listing: Listing) -> Expectation:
    """One expectation: the bytes of a file, and where they are to be."""
    what, mark, path = word.partition(":")
    if not mark or pathlib.Path(word).is_file():
        what, path = "", word
    data = read_bytes(path)
    if what == OUTPUT:
        return Expectation(data)
    start = 0 if not what else place_of(what, listing)
    if start + len(data) > image.size:
        raise Refusal(f"{path}: it has {len(data):,} bytes, and the data has {image.size - start:,} from there on.")
    return Expectation(data, start)


def place_of(name: str, listing: Listing) -> int:
    """Where a label is in the data."""
    found = next((address - DATA for address, label in listing.labels.items() if label == name and address >= DATA),
                 None)
    if found is None:
        raise Refusal(f"no label `{name}` in the data{likely(name, listing.labels.values())}")
    return found
