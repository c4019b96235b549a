"""The values of variables by their names in the sources, in the memory that a run leaves."""
from __future__ import annotations

import dataclasses
import re
from typing import Iterator, Mapping

from yotarimu.common.outcome import Refusal
from yotarimu.common.text import count_text, likely
from yotarimu.images.image import DATA, Image
from yotarimu.images.listing import Listing

WORD = re.compile(r"([A-Za-z_.$][\w.$]*)(?:\[([0-9]{1,8})(?:\.\.([0-9]{1,8}))?\])?")
ADDRESSES = re.compile(r"(0[xX][0-9a-fA-F]{1,8})(?:\.\.(0[xX][0-9a-fA-F]{1,8})|\[([0-9]{1,8})(?:\.\.([0-9]{1,8}))?\])?")
# How many numbers a line has, by their width.
OF_A_LINE = {1: 16, 2: 8, 4: 8}


@dataclasses.dataclass(frozen=True)
class Piece:
    """A part of a variable: its name, its place in the data, and which of its numbers are wanted."""
    name: str
    offset: int
    first: int
    end: int
    width: int


def variables(listing: Listing, image: Image) -> Mapping[str, tuple[int, int]]:
    """Where each variable begins in the data, and where the next one does."""
    places = sorted(address for address in listing.labels if DATA <= address < DATA + image.size)
    ends = [*places[1:], DATA + image.size]
    return {listing.labels[start]: (start - DATA, end - DATA) for start, end in zip(places, ends)}


def piece_of(word: str, known: Mapping[str, tuple[int, int]], width: int, size: int = 0) -> Piece:
    """The piece that NAME, NAME[PLACE] or NAME[FROM..TO] asks for, or an address in place of a name."""
    if found := ADDRESSES.fullmatch(word):
        return piece_at(word, found, width, size)
    found = WORD.fullmatch(word)
    if not found:
        raise Refusal(f"`{word}` isn't NAME, NAME[PLACE] or NAME[FROM..TO], nor an address or a range of addresses "
                      "such as 0x10000000..0x1000000c.")
    name = found[1]
    if name not in known:
        raise Refusal(f"no variable `{name}` in the data{likely(name, known)}")
    start, end = known[name]
    count = (end - start) // width
    first = int(found[2] or 0)
    last = int(found[3] or found[2] or count - 1)
    if not first <= last < count:
        raise Refusal(f"`{word}`: `{name}` has the places 0 to {count - 1}.")
    return Piece(name, start, first, last + 1, width)


def piece_at(word: str, found: re.Match[str], width: int, size: int) -> Piece:
    """The piece that ADDRESS, ADDRESS..ADDRESS, ADDRESS[PLACE] or ADDRESS[FROM..TO] asks for, in data of a size."""
    start = int(found[1], 16)
    first = int(found[3] or 0)
    last = (int(found[2], 16) - start) // width if found[2] else int(found[4] or found[3] or 0)
    offset = start - DATA
    if not (0 <= offset and first <= last and offset + (last + 1) * width <= size):
        raise Refusal(f"`{word}`: the data is from {DATA:#x} up to {DATA + size:#x}.")
    return Piece(f"{start:08x}", offset, first, last + 1, width)


def piece_lines(piece: Piece, data: bytes, is_hex: bool) -> Iterator[str]:
    """The lines of a piece: the place of the first number of each, and the numbers."""
    address = DATA + piece.offset + piece.first * piece.width
    numbers, width = count_text(piece.end - piece.first, "number"), count_text(piece.width, "byte")
    yield f"{piece.name}: {numbers} of {width} from {address:08x} on"
    step = OF_A_LINE[piece.width]
    for place in range(piece.first, piece.end, step):
        row = numbers_of(data, piece, place, min(place + step, piece.end))
        yield f"{place:8}: " + " ".join(f"{it:0{2 * piece.width}x}" if is_hex else str(it) for it in row)


def numbers_of(data: bytes, piece: Piece, first: int, end: int) -> list[int]:
    """Some numbers of a variable."""
    width = piece.width
    row = data[piece.offset + first * width:piece.offset + end * width]
    return [int.from_bytes(row[at:at + width], "little") for at in range(0, len(row), width)]
