"""Reports as files: docs/guest/FORMATS.md."""
from __future__ import annotations

import dataclasses
import re
from typing import NoReturn, Optional

from yotarimu.common.files import FilePath
from yotarimu.common.outcome import Refusal

NUMBER = "([0-9]{1,10})"
# From 1 to 16.
DEPTH = "([1-9]|1[0-6])"


@dataclasses.dataclass(frozen=True)
class Name:
    """A task's name: which turn created it (0: the image), and the place among that turn's children."""
    creator: int
    index: int

    def __str__(self) -> str:
        return f"{self.creator}.{self.index}"


@dataclasses.dataclass
class Entry:
    """A task that took its turn."""
    turn: int
    name: Name
    depth: int
    timestamp: int


@dataclasses.dataclass
class Trap:
    """A trap that ended a run: its cause, the address of its instruction, and the task."""
    cause: int
    pc: int
    name: Name


@dataclasses.dataclass
class Report:
    """A report's parts. `end` is normal, limit, open or trap, and `trap` is given with the last."""
    entries: list[Entry]
    output: bytes
    window: list[tuple[int, int]]
    end: str
    trap: Optional[Trap]


@dataclasses.dataclass
class Lines:
    """The lines of a report, taken one after another."""
    name: FilePath
    texts: list[str]
    taken: int = 0

    def take(self, pattern: str) -> Optional[re.Match[str]]:
        """The match of the next line, which is taken if it has this form; else None."""
        found = re.fullmatch(pattern, self.texts[self.taken]) if self.taken < len(self.texts) else None
        self.taken += found is not None
        return found

    def need(self, pattern: str, what: str) -> re.Match[str]:
        """Takes the next line, or refuses it as none of a pattern."""
        return self.take(pattern) or self.refuse(f"{what} is wanted")

    def refuse(self, why: str) -> NoReturn:
        """Refuses the next line, with its number."""
        raise Refusal(f"{self.name}:{self.taken + 1}: this isn't a report: {why}.")


ENTRY = rf"{NUMBER} {NUMBER}\.{NUMBER} {DEPTH} {NUMBER}"
OUTPUT = "output (-|(?:[0-9a-f]{2})+)"
WORD = "window ([0-9a-f]{8}) ([0-9a-f]{8})"
END = rf"end (normal|limit|open|trap {NUMBER} ([0-9a-f]{{8}}) {NUMBER}\.{NUMBER})"


def read_report(text: str, name: FilePath, start: int = 0) -> Report:
    """The report that a text is, after so many lines of something else."""
    lines = Lines(name, text.removesuffix("\n").split("\n"), start)
    lines.need("fractal 1", "the line `fractal 1`")
    entries = read_entries(lines)
    output = lines.need(OUTPUT, "an entry or the output")
    window = read_window(lines)
    end = lines.need(END, "a word of the window or the end")
    if lines.taken < len(lines.texts):
        lines.refuse("nothing is wanted after the end")
    return Report(entries, output_of(output), window, end[1].split()[0], trap_of(end))


def read_front(text: str, count: int) -> Report:
    """The first lines of a report, each of them inside the grammar; missing parts are empty."""
    lines = Lines("", text.split("\n")[:count])
    lines.take("fractal 1")
    entries = read_entries(lines)
    output = lines.take(OUTPUT)
    window = read_window(lines)
    end = lines.take(END)
    return Report(entries, output_of(output) if output else b"", window, end[1].split()[0] if end else "",
                  trap_of(end) if end else None)


def read_entries(lines: Lines) -> list[Entry]:
    """The tasks that took their turns, whose lines come next."""
    entries: list[Entry] = []
    while found := lines.take(ENTRY):
        turn, creator, index, depth, timestamp = map(int, found.groups())
        if turn != len(entries) + 1:
            lines.taken -= 1
            lines.refuse(f"the turn {len(entries) + 1} is wanted")
        entries.append(Entry(turn, Name(creator, index), depth, timestamp))
    return entries


def read_window(lines: Lines) -> list[tuple[int, int]]:
    """The words of the window, whose lines come next."""
    window = []
    while found := lines.take(WORD):
        window.append((int(found[1], 16), int(found[2], 16)))
    return window


def output_of(found: re.Match[str]) -> bytes:
    """The bytes in the line of the output."""
    return b"" if found[1] == "-" else bytes.fromhex(found[1])


def trap_of(end: re.Match[str]) -> Optional[Trap]:
    """The trap in the line of the end, if it has one."""
    return Trap(int(end[2]), int(end[3], 16), Name(int(end[4]), int(end[5]))) if end[2] else None
