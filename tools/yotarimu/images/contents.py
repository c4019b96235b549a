"""The bytes of variables that files give."""
from __future__ import annotations

import array
import dataclasses
import pathlib
import sys

from yotarimu.common.files import read_bytes, read_written
from yotarimu.common.outcome import Refusal
from yotarimu.common.words import number_in
from yotarimu.images.image import DATA, Image
from yotarimu.images.image_line import Line, label_of
from yotarimu.images.source import Assembly

# What a file of numbers is called, how many bytes each may have, and how Python's arrays name these.
NUMBERS = ".csv"
WIDTHS = {"bytes": 1, "halves": 2, "words": 4}
KINDS = {1: "B", 2: "H", 4: "I"}


@dataclasses.dataclass(frozen=True)
class Part:
    """A part of the data that a file filled: from where, up to where, and by which line."""
    start: int
    end: int
    line: Line


class FilledData:
    """The initial data of an image, of which files fill parts."""

    def __init__(self, image: Image) -> None:
        self.image = image
        self.parts: list[Part] = []

    def fill(self, line: Line, assembled: Assembly) -> None:
        """Reads `data LABEL FILE [bytes|halves|words]`, and puts the file's bytes where the label stands."""
        if len(line.words) not in (3, 4):
            line.refuse_form()
        label = label_of(line, assembled, line.words[1], (".data", ".bss"), "data")
        if line.source.is_c and label.is_local:
            line.refuse(f"`{label.name}` is static, so the compiler may use its value in the source; a variable "
                        "that a file fills isn't static")
        content, start = content_of(line), label.address - DATA
        room = label.size or assembled.size - start
        if len(content) > room:
            line.refuse(f"{line.words[2]} has {len(content):,} bytes, and `{label.name}` has room for {room:,}")
        part = Part(start, start + len(content), line)
        for other in self.parts:
            if part.start < other.end and other.start < part.end:
                line.refuse(f"{other.line.place} fills a part of this too")
        self.parts.append(part)
        self.image.initial = splice(self.image.initial, start, content)


def splice(data: bytes, start: int, content: bytes) -> bytes:
    """Bytes with others in the place of some of them, behind zeros where these begin later."""
    return data[:start] + bytes(max(0, start - len(data))) + content + data[start + len(content):]


def content_of(line: Line) -> bytes:
    """The bytes that a file gives: its own, or those of its numbers where its name ends in .csv."""
    path = line.file(line.words[2])
    if path.suffix != NUMBERS:
        if len(line.words) == 4:
            line.refuse(f"`{line.words[3]}` is the width of numbers, and those are in a file *{NUMBERS}")
        return read_bytes(path)
    width = WIDTHS.get(line.words[3] if len(line.words) == 4 else "words")
    if width is None:
        line.refuse_form(f"`{line.words[3]}` isn't a width:")
    return numbers_of(path, width)


def numbers_of(path: pathlib.Path, width: int) -> bytes:
    """The bytes of numbers in a text, which commas, blanks and ends of lines part."""
    text = read_written(path)
    try:
        numbers = array.array(KINDS[width], map(int, text.replace(",", " ").split()))
    except (ValueError, OverflowError):
        numbers = array.array(KINDS[width], odd_numbers(path, text, width))
    if sys.byteorder == "big":
        numbers.byteswap()
    return numbers.tobytes()


def odd_numbers(path: pathlib.Path, text: str, width: int) -> list[int]:
    """The same where a number is below 0, in hexadecimal or none at all."""
    numbers, most = [], (1 << 8 * width) - 1
    least = -(most // 2) - 1
    for place, line in enumerate(text.split("\n"), 1):
        for word in line.replace(",", " ").split():
            sign, digits = (-1, word[1:]) if word[0] == "-" else (1, word)
            value = number_in(digits, 0, most if sign > 0 else -least)
            if value is None:
                raise Refusal(f"{path}:{place}: `{word}` isn't a number from {least} to {most} (0x is hexadecimal).")
            numbers.append(sign * value & most)
    return numbers
