"""Generated images: a breadth-first walk of a graph, and nested additions. They are those of the command `load`."""
from __future__ import annotations

import struct

from yotarimu.images.image import DATA, TEXT, Image, InitialTask

# The greatest size of each kind.
SIZES = {"walk": 100_000, "nest": 10_000}
MOST_SEED = 0xFFFFFFFF
# The walk: its argument is a node, whose three edges are in the data. If the node's distance is still 0, it is set to
# the timestamp plus 1, and each edge's node is enqueued at the next timestamp, with its number as the hint.
WALK = """
    00251293 00558333 00032383 04039663 00168413 00832023 00351393 007282b3
    100003b7 007282b3 00300493 00058693 00040593 00100893 00010537 0002a603
    00064663 00060793 00000073 00428293 fff48493 fe0494e3 00000893 00000073
"""
# Nested additions: an amount and the addresses of two cells. An ordered subdomain adds the amount to one cell and then
# to the other.
NEST = """
    00400893 00050293 00058313 00060393 00100513 00000073 00200893 00010537
    04850513 00028613 00038693 00100593 00000073 00030693 00000593 00000073
    00000893 00000073 0005a283 00a282b3 0055a023 00000893 00000073
"""
NO_EDGE = 0xFFFFFFFF
CELLS = 8


def generate(kind: str, seed: int, size: int) -> Image:
    """The image of a kind, a seed and a size within its limits."""
    return (walk if kind == "walk" else nest)(seed, size)


def program(text: str) -> bytes:
    """The bytes of instructions that are written as words in hexadecimal."""
    return b"".join(int(word, 16).to_bytes(4, "little") for word in text.split())


def walk(seed: int, size: int) -> Image:
    """Nodes of a binary tree in which each has one more edge, to a node that isn't after it."""
    words, number = [], seed
    for node in range(size):
        words += [child if child < size else NO_EDGE for child in (2 * node + 1, 2 * node + 2)]
        words.append(number % (node + 1))
        number = (1_664_525 * number + 1_013_904_223) % 2 ** 32
    told = min(4, size)
    first = InitialTask(TEXT, 0, (0, DATA + 12 * size, 0))
    return Image(True, program(WALK), struct.pack(f"<{len(words)}I", *words), 16 * size, 16 * size - 4 * told, told,
                 [first])


def nest(seed: int, size: int) -> Image:
    """Additions of rising amounts, each to two of eight cells."""
    tasks = [InitialTask(TEXT, 0, (seed % 1_000 + place, DATA + 4 * (place % CELLS), DATA + 4 * ((place + 3) % CELLS)))
             for place in range(size)]
    return Image(False, program(NEST), b"", 4 * CELLS, 0, CELLS, tasks)
