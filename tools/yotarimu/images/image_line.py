"""Lines of the sources that describe an image."""
from __future__ import annotations

import dataclasses
import pathlib
import re
from typing import Iterator, NoReturn, Optional, Sequence

from yotarimu.common.files import is_within
from yotarimu.common.outcome import Refusal
from yotarimu.common.words import number_in
from yotarimu.images.elf import Label
from yotarimu.images.source import Assembly, Source

# So many labels are named where another one is missing.
MOST_TOLD = 6
FORMS = {
    "root": ("root ordered", "root unordered"),
    "data": ("data BYTES", "data LABEL FILE [bytes|halves|words]"),
    "window": ("window LABEL [WORDS]",),
    "task": ("task LABEL [ts N] [args A [B [C]]]",),
    "tasks": ("tasks FILE",),
    "version": ("version 1", "version 2"),
}


@dataclasses.dataclass(frozen=True)
class Line:
    """A line of a source that describes the image: its words after `# image:`, and where it stands. A row of a file
    that such a line names is one too, and has the path of that file."""
    source: Source
    number: int
    words: Sequence[str]
    row_of: Optional[pathlib.Path] = None

    @property
    def place(self) -> str:
        """The path and the number of the line."""
        return f"{self.row_of or self.source.path}:{self.number}"

    def refuse(self, why: str) -> NoReturn:
        """Refuses the line."""
        raise Refusal(f"{self.place}: {why}.")

    def refuse_form(self, why: str = "this isn't", word: Optional[str] = None) -> NoReturn:
        """Refuses the line as misshapen, with the form of lines that begin with that word."""
        self.refuse(f"{why} {form(word or self.words[0], self.source)}")

    def number_of(self, word: str, what: str, most: int) -> int:
        """The number that a word of the line is."""
        number = number_in(word, 0, most)
        if number is None:
            self.refuse(f"{what} is a number from 0 to {most}, in decimal or after 0x, and not `{word}`")
        return number

    def file(self, word: str) -> pathlib.Path:
        """The path of a file that the line names, relative to the source's folder, in which it is unless the source may
        name others."""
        folder = self.source.path.parent
        path = folder / word
        if not path.is_file():
            self.refuse(f"no file {path}")
        if not self.source.is_outside_allowed and not is_within(path, folder):
            self.refuse(f"{path} is outside the source's folder; ./fractal build --outside allows that")
        return path


def form(word: str, source: Source) -> str:
    """How lines on a word are."""
    return " or ".join(f"`{source.mark} image: {words}`" for words in FORMS[word])


def description(sources: Sequence[Source]) -> Iterator[Line]:
    """The lines of the sources that describe the image, in order."""
    for source in sources:
        marks = rf"\s*({source.mark})+"
        for number, text in enumerate(source.lines, 1):
            if found := re.match(marks + r"\s*image\s*:(?P<words>.*)", text, re.IGNORECASE):
                yield Line(source, number, found["words"].split())
            elif found := re.match(marks + rf"\s*image\s+(?P<word>{'|'.join(FORMS)})\b", text):
                Line(source, number, []).refuse_form("a colon is missing after `image`:", found["word"])


def labels_told(assembled: Assembly, section_names: Sequence[str], what: str) -> str:
    """Some of the labels that sections have, behind a sentence; nothing where they have none."""
    there = sorted({label.name for label in assembled.labels if label.section in section_names})
    more = ", .." if len(there) > MOST_TOLD else ""
    return f"; the {what} has {', '.join(there[:MOST_TOLD])}{more}" if there else ""


def label_of(line: Line, assembled: Assembly, name: str, section_names: Sequence[str], what: str) -> Label:
    """The label of a name, which has to be in one of these sections."""
    found = assembled.labels_named(name)
    if not found:
        line.refuse(f"no label `{name}`" + (
            "; a variable stands outside of functions, and is used" if line.source.is_c and what == "data" else
            labels_told(assembled, section_names, what)))
    if len({label.address for label in found}) > 1:
        line.refuse(f"more than one source has a label `{name}`")
    if found[0].section not in section_names:
        line.refuse(f"the label `{name}` isn't in the {what}")
    return found[0]
