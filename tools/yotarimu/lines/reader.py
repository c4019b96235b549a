"""Reads an event log line by line, while a model of the machine follows.

`open_lines` opens a log, and a `Reader` reads it. Each turn of its loop is a line after the head, once the machine has
done what it says:

    with open_lines("lines") as watched:
        for entry in watched:
            entry.number, entry.line         # the line's number in the log, and its fields by name
            entry.task, entry.taken, ...     # what it did, as objects
            watched.machine                  # the machine after it
    watched.head, watched.end                # the fields of the first and the last line; the end is None in a cut log

A line that can't follow is refused by its number.
"""
from __future__ import annotations

import contextlib
import functools
import sys
from typing import IO, Iterator, Optional

from yotarimu.common.files import MOST_READ, FilePath
from yotarimu.common.outcome import Refusal
from yotarimu.courses.schedules import MOST_CORES, MOST_TILES
from yotarimu.images.image import Image
from yotarimu.lines.fields import Line, Shapes, WrongLine
from yotarimu.lines.replay import Machine, ToldLine

# The values that the numbers of a head may have: docs/guest/FORMATS.md.
RANGES = {
    "rounds": range(1, 1_000_001), "seed": range(1 << 32), "starved": range(1, 1_000_001),
    "tiles": range(1, MOST_TILES + 1),
    "cores": range(1, MOST_CORES + 1), "task_queue": range(4, 257), "commit_queue": range(1, 65),
    "line": (4, 8, 16, 32, 64), "quantum": range(1, 1_025), "commits": range(1, 1_000_001),
    "budget": range(1, 65_537), "phase": range(1, 1_000_001), "text": range(65_537), "data": range(16_777_217),
    "tasks": range(1, 65_537),
}
MOST_WINDOW = 4_096


class Reader:
    """A text that is read, line by line. `is_cut_allowed` says whether it may break off before its end."""

    def __init__(self, file: IO[bytes], name: FilePath, is_cut_allowed: bool = False,
                 image: Optional[Image] = None) -> None:
        self.file, self.name, self.is_cut_allowed = file, name, is_cut_allowed
        self.number, self.shapes = 0, Shapes()
        # The lines that weren't taken yet.
        self.texts = self.whole_lines()
        # The last line, once it was read; None where the text was cut before it.
        self.end: Optional[Line] = None
        self.head = self.read_head()
        with self.place_told():
            self.machine = Machine(self.head, image)
        # Its forms are made of the acts' fields where it is first read. The lint reads this module, and is to tell of
        # an act that a list of them lacks.
        from yotarimu.lines.foresight import foresight_of
        self.foresight = foresight_of(self.machine)

    def read_head(self) -> Line:
        """Reads the first line, which describes the machine; refuses an invalid one."""
        text = next(self.texts, None)
        if text is None:
            raise Refusal(f"{self.name}: it has no whole line, so it isn't an event log.")
        with self.place_told():
            head = self.shapes.line_of(text)
            need_head(head)
        return head

    def __iter__(self) -> Iterator[ToldLine]:
        with self.place_told():
            for text in self.texts:
                told = None if self.foresight is None else self.foresight.follow(self.number, text)
                if told is None:
                    told = self.take_apart(text)
                if told is not None:
                    yield told
        if self.end is None and not self.is_cut_allowed:
            raise Refusal(f"{self.name}: it has no end: it was cut behind line {self.number}.")

    def take_apart(self, text: str) -> Optional[ToldLine]:
        """Follows a line by its fields; None where it is the last one."""
        line = self.shapes.line_of(text)
        if self.end is not None:
            raise WrongLine("nothing may follow on the end")
        if "at" in line or "view" in line:
            told = ToldLine(self.number, text, line)
            self.machine.follow(told)
            return told
        self.close(line)
        return None

    def close(self, line: Line) -> None:
        """Takes the last line."""
        if "end" not in line:
            raise WrongLine("this line may only stand alone or first")
        self.machine.close(line)
        # Behind the end nothing is foreseen.
        self.end, self.foresight = line, None

    def whole_lines(self) -> Iterator[str]:
        """The lines without their newlines, each once it has come, up to where there isn't a whole one any more."""
        for data in iter(functools.partial(self.file.readline, MOST_READ), b""):
            if not data.endswith(b"\n"):
                if not self.is_cut_allowed:
                    raise Refusal(f"{self.name}:{self.number + 1}: this line isn't whole: no newline ends it.")
                return
            self.number += 1
            yield data[:-1].decode("ascii", "replace")

    @contextlib.contextmanager
    def place_told(self) -> Iterator[None]:
        """Adds the number of the line that was read last to what is wrong with it."""
        try:
            yield
        except WrongLine as wrong:
            raise Refusal(f"{self.name}:{self.number}: {wrong}.") from None


def need_head(head: Line) -> None:
    """Refuses a first line that isn't a head, or is that of no machine."""
    if "fault" in head:
        told = " ".join(str(value) for value in head.values())
        raise WrongLine(f"the program printed a fault instead of a run: {told}")
    if "watch" not in head:
        raise WrongLine("the first line isn't the head of an event log")
    if head["watch"] != 1:
        raise WrongLine(f"these are lines of version {head['watch']}, and 1 is known")
    odd = next((name for name, values in RANGES.items() if name in head and head[name] not in values), None)
    if odd is not None:
        raise WrongLine(f"no machine has {head[odd]} as `{odd}`")
    offset, words = head["window"]
    if offset % 4 or words > MOST_WINDOW or offset + 4 * words > head["data"]:
        raise WrongLine(f"the data has no window of {words} words from {offset} on")


@contextlib.contextmanager
def open_lines(path: FilePath, is_cut_allowed: bool = False, image: Optional[Image] = None) -> Iterator[Reader]:
    """Opens an event log; `-` is standard input."""
    if str(path) != "-":
        with open(path, "rb") as file:
            yield Reader(file, path, is_cut_allowed, image)
        return
    if sys.stdin is None:
        raise Refusal("standard input is closed.")
    yield Reader(sys.stdin.buffer, path, is_cut_allowed, image)
