"""Writes a generated image, the one that `./fractal load` runs, to standard output.

usage: ./fractal generate walk SEED SIZE > IMAGE     a breadth-first walk of 1 to 100,000 nodes
       ./fractal generate nest SEED SIZE > IMAGE     1 to 10,000 nested additions

SEED is a number from 0 to 4,294,967,295.
"""
from __future__ import annotations

import sys

from yotarimu.common.outcome import Refusal
from yotarimu.common.words import Words, need_number
from yotarimu.images.image import image_bytes
from yotarimu.images.loads import MOST_SEED, SIZES, generate


def main(words: list[str]) -> None:
    """Does what the words of the call ask for."""
    kind, seed, size = Words("generate").read(words).need("walk or nest, a SEED and a SIZE", 3)
    if kind not in SIZES:
        raise Refusal(f"it generates {' and '.join(SIZES)}, and not `{kind}`.")
    numbers = need_number("SEED", seed, 0, MOST_SEED), need_number("SIZE", size, 1, SIZES[kind])
    if sys.stdout.isatty():
        raise Refusal("an image isn't text for a terminal: > FILE writes it to a file.")
    sys.stdout.buffer.write(image_bytes(generate(kind, *numbers)))
