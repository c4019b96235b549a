"""Prints values of variables, by their names in the sources or by addresses, in the memory that a run leaves.

usage: ./fractal values IMAGE NAME... [--as KIND] [--hex] [--memory FILE]

NAME is a variable, NAME[PLACE] one of its numbers, and NAME[FROM..TO] several, counted from 0. An address such as
0x10000004 is one number, 0x10000004[FROM..TO] and 0x10000000..0x1000000c are several. The names are those of the
listing beside IMAGE, and a variable goes up to the next one; addresses need no listing. The memory is that which
`./fractal watch memory least` prints.

  --as KIND      what the numbers are; a struct of words is printed as these (bytes, halves or words; default words)
  --hex          prints them in hexadecimal
  --memory FILE  the memory is what `./fractal watch memory` wrote to this file
  --watch FILE   a built fractal_watch in place of the one that answers here
"""
from __future__ import annotations

from typing import Optional, Sequence

from yotarimu.common.files import read_bytes
from yotarimu.common.outcome import Refusal, note
from yotarimu.common.words import Words
from yotarimu.images.contents import WIDTHS
from yotarimu.images.image import DATA, read_image
from yotarimu.images.labels import listing_for
from yotarimu.images.values import ADDRESSES, piece_of, piece_lines, variables
from yotarimu.programs.calls import calls_at
from yotarimu.programs.final_memory import memory_left
from yotarimu.programs.program import SECOND


def main(words: Sequence[str]) -> None:
    """Prints each piece that the arguments name."""
    given = Words("values", page=__doc__).read(words)
    names, kind = given.need("an IMAGE and a NAME", 2, max(2, len(words))), given.values["as"] or "words"
    memory, second = given.values["memory"], given.values["watch"]
    data = read_bytes(names[0])
    image = read_image(data, names[0])
    listing, remark = listing_for(names[0], image, None)
    if remark is not None and not all(map(ADDRESSES.fullmatch, names[1:])):
        raise Refusal(f"{remark.rstrip('.')}: names are taken from the listing that ./fractal build writes, and an "
                      f"address such as {DATA:#x} needs none.")
    known = variables(listing, image)
    pieces = [piece_of(word, known, WIDTHS[kind], image.size) for word in names[1:]]
    left = left_of(data, second) if memory is None else read_bytes(memory)
    if len(left) != image.size:
        raise Refusal(f"the memory has {len(left):,} bytes, and the image's data {image.size:,}.")
    for piece in pieces:
        print(*piece_lines(piece, left, "hex" in given.flags), sep="\n")


def left_of(image: bytes, second: Optional[str]) -> bytes:
    """The memory that a run of the image leaves; prints how the run ended if that isn't normally."""
    left = memory_left(calls_at(second, SECOND), image)
    if left.end != "normal":
        note(f"the run ended otherwise: {left.end}.")
    return left.data
