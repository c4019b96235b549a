"""Listings: what is at which address of an image, written beside it and read back by ./fractal explain."""
from __future__ import annotations

import bisect
import dataclasses
import functools
import re
from collections.abc import Iterable, Sequence
from typing import Optional

from yotarimu.common.files import FilePath, is_within, read_written
from yotarimu.common.outcome import Refusal
from yotarimu.common.text import printable
from yotarimu.images.image import DATA, STACK, TEXT, Image
from yotarimu.images.source import Assembly, Instruction, Source

MOST_ARGUMENTS = 3
# How many bytes of data are shown at most.
MOST_BYTES = 65_536


@dataclasses.dataclass
class Listing:
    """The labels of an image by address, the words of its text, and the instructions with their source lines."""
    labels: dict[int, str]
    words: dict[int, int]
    instructions: dict[int, Instruction]
    source_lines: dict[tuple[str, int], str]

    def label(self, address: int) -> Optional[str]:
        """An address by its label, with the distance after it; None before all labels of its range."""
        place = bisect.bisect_right(self.places, address) - 1
        start = TEXT if address < DATA else DATA
        if place < 0 or self.places[place] < start:
            return None
        distance = address - self.places[place]
        return self.labels[self.places[place]] + (f"+{distance}" if distance else "")

    def address_text(self, address: int) -> str:
        """An address by its label, or in hexadecimal where it has none."""
        return self.label(address) or f"{address:08x}"

    def task_words(self, entry: int, arguments: Iterable[int]) -> str:
        """A task's label and its arguments, without the zeros after the last that isn't."""
        arguments = list(arguments)
        while arguments and arguments[-1] == 0:
            arguments.pop()
        return " ".join([self.address_text(entry), *map(self.argument_word, arguments)])

    def whole_words(self, entry: int, arguments: Sequence[int]) -> str:
        """A task's label and all its arguments, of a task in C as many as it has parameters."""
        count = self.parameters(entry)
        while count < len(arguments) and any(arguments[count:]):
            count += 1
        return " ".join([self.address_text(entry), *map(self.argument_word, arguments[:count])])

    def parameters(self, entry: int) -> int:
        """How many arguments the line of a TASK takes; 3 of an entry with no such line."""
        found = self.instructions.get(entry)
        text = self.source_lines.get((found.source, found.line), "") if found else ""
        told = re.search(r"\bTASK\s*\(\s*\w+\s*((?:,[^,()]*)*)\)", text)
        return min(MOST_ARGUMENTS, told[1].count(",")) if told else MOST_ARGUMENTS

    def argument_word(self, argument: int) -> str:
        """An argument as a number, or as a label where it is the address of data that has one."""
        return DATA <= argument < STACK and self.label(argument) or str(argument)

    @functools.cached_property
    def places(self) -> list[int]:
        """The addresses that have a label, in their order."""
        return sorted(self.labels)

    def place(self, address: int) -> Optional[str]:
        """The source's name, line and text of an instruction; None where they aren't known."""
        found = self.instructions.get(address)
        if not found or not found.line:
            return None
        text = self.source_lines.get((found.source, found.line), "")
        return f"{found.source}:{found.line}" + (f": {text}" if text else "")


NO_LISTING = Listing({}, {}, {}, {})


def listing_of(sources: Sequence[Source], assembled: Assembly) -> Listing:
    """The listing of assembled sources."""
    labels: dict[int, str] = {}
    for label in assembled.labels:
        labels.setdefault(label.address, label.name)
    words = {TEXT + place: int.from_bytes(assembled.text[place:place + 4], "little")
             for place in range(0, len(assembled.text), 4)}
    texts = {**texts_beside(sources, assembled), **{source.name: source.lines for source in sources}}
    lines = {(name, number): text.strip() for name, text_lines in texts.items()
             for number, text in enumerate(text_lines, 1)}
    return Listing(labels, words, assembled.instructions, lines)


def texts_beside(sources: Sequence[Source], assembled: Assembly) -> dict[str, list[str]]:
    """The lines of further files in the folder of the sources that instructions come from: headers, and the language
    from which a compiler made assembly."""
    folder = sources[0].path.parent
    paths = {name: folder / name for name in {it.source for it in assembled.instructions.values()} if name}
    return {name: read_written(path).split("\n") for name, path in paths.items()
            if path.is_file() and is_within(path, folder)}


def listing_text(sources: Sequence[Source], assembled: Assembly, image: Image) -> str:
    """The listing as text, a line each for labels, instructions and up to 16 bytes of data."""
    listing = listing_of(sources, assembled)
    names = ", ".join(source.name for source in sources) + (f" by {assembled.compiler}" if assembled.compiler else "")
    lines = [f"What stands where in image.bin, made of {names}: address, word, instruction, source line.", ""]
    code = {at: word for at, word in listing.words.items() if at < TEXT + assembled.code_size}
    for address, word in code.items():
        for place in range(address, address + 4):
            lines += label_lines(assembled, place)
        lines.append(instruction_line(listing, address, word))
    fixed = image.text[len(code) * 4:]
    lines += data_lines(assembled, TEXT + len(code) * 4, fixed, "constants, in the text")
    lines += data_lines(assembled, DATA, image.initial, "data")
    lines += zero_lines(assembled, DATA + len(image.initial), DATA + image.size)
    return "\n".join(lines) + "\n"


def label_lines(assembled: Assembly, address: int) -> list[str]:
    """The lines with the labels of an address."""
    return [f"{address:08x} <{label.name}>:" for label in assembled.labels if label.address == address]


def instruction_line(listing: Listing, address: int, word: int) -> str:
    """The line of an instruction: its address, its word, how it reads, and where it comes from."""
    found = listing.instructions.get(address, Instruction("", "", 0))
    before = listing.instructions.get(address - 4, Instruction("", "", 0))
    line = f"{address:08x}  {word:08x}  {found.words:<28}"
    if found.line:
        is_new = (found.source, found.line) != (before.source, before.line)
        text = listing.source_lines.get((found.source, found.line), "") if is_new else ""
        line += f" | {found.source}:{found.line} | {text}"
    return line.rstrip()


def data_lines(assembled: Assembly, start: int, data: bytes, title: str) -> list[str]:
    """Bytes in rows of at most 16 that begin at each label; of bytes beyond those that are shown the labels alone."""
    if not data:
        return []
    lines = ["", f"{title}: {len(data)} bytes"]
    shown = data[:MOST_BYTES]
    labelled = sorted({label.address - start for label in assembled.labels
                       if start <= label.address < start + len(data)})
    stops = [stop for stop in labelled if stop < len(shown)] + [len(shown)]
    place = 0
    while place < len(shown):
        stop = stops[bisect.bisect_right(stops, place)]
        end = min(place + 16, stop)
        row = shown[place:end]
        lines += label_lines(assembled, start + place)
        lines.append(f"{start + place:08x}  {row.hex(' '):<47}  {printable(row)}".rstrip())
        place = end
    for beyond in labelled[len(stops) - 1:]:
        lines += label_lines(assembled, start + beyond)
    return lines


def zero_lines(assembled: Assembly, start: int, end: int) -> list[str]:
    """The labels of what begins as zeros."""
    if start == end:
        return []
    lines = ["", f"zeros: {end - start} bytes from {start:08x} on"]
    for address in sorted({label.address for label in assembled.labels if start <= label.address < end}):
        lines += label_lines(assembled, address)
    return lines


def read_listing(text: str, name: FilePath) -> Listing:
    """A listing from its text."""
    listing = Listing({}, {}, {}, {})
    for line in text.splitlines():
        if label := re.fullmatch(r"([0-9a-fA-F]{8})\s+<(.+)>:\s*", line):
            listing.labels.setdefault(int(label[1], 16), label[2])
        elif found := re.match(r"([0-9a-fA-F]{8})\s+([0-9a-fA-F]{8})(?:\s+(.*)|$)", line):
            read_instruction(listing, int(found[1], 16), int(found[2], 16), found[3] or "")
    if not listing.words and not listing.labels:
        raise Refusal(f"{name}: this isn't a listing: no line has a label or an instruction, as ./fractal build writes "
                      "them and docs/guest/COMPILERS.md describes.")
    return listing


def read_instruction(listing: Listing, address: int, word: int, rest: str) -> None:
    """Notes the instruction in a line of a listing."""
    words, *place = rest.split(" | ", 2)
    # A line of C has many instructions; its text is beside the first of them.
    found = re.fullmatch("(.+):([0-9]{1,9})", place[0].removesuffix(" |")) if place else None
    source, line = (found[1], int(found[2])) if found else ("", 0)
    listing.words[address] = word
    listing.instructions[address] = Instruction(words.strip(), source, line)
    if len(place) == 2 and place[1].strip():
        listing.source_lines[source, line] = place[1].strip()
