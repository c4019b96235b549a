"""Remakes the tables of a page by the commands above them.

A block of code whose lines all call tools by `./fractal` is run, line by line, in a folder of its own; `> FILE` at the
end of a line writes a file there. What the other lines print is the table, which follows the block in the page.
"""
from __future__ import annotations

import pathlib
import shlex
import subprocess
import tempfile
from collections.abc import Collection, Iterator
from typing import NamedTuple, Optional

from yotarimu.common.files import need_writable, read_bytes, write_whole
from yotarimu.common.outcome import Refusal, say
from yotarimu.common.pages import command_names
from yotarimu.programs.program import LAUNCHER

FENCE, DOOR, INTO = "```", "./fractal", ">"
# So many cells of a line say which one it is.
NAMING_CELLS = 3


class Table(NamedTuple):
    """A table that was remade: its first line in the page, the line after it, and its rows."""
    first: int
    end: int
    rows: list[str]


class Page:
    """The lines of a page. Of its commands only those of some sections are called, if these are given."""

    def __init__(self, path: str, sections: Optional[Collection[str]] = None) -> None:
        self.path, self.data, self.sections = path, read_bytes(path), sections
        try:
            text = self.data.decode()
        except UnicodeDecodeError:
            raise Refusal(f"{path}: this isn't text in UTF-8.") from None
        self.newline = "\r\n" if 0 < text.count("\n") == text.count("\r\n") else "\n"
        self.lines = text.split(self.newline)

    def blocks(self) -> Iterator[tuple[int, int]]:
        """The places of the first and behind the last line of each block of commands."""
        fences = [place for place, line in enumerate(self.lines) if line.startswith(FENCE)]
        for first, end in zip(fences[::2], fences[1::2]):
            inside = self.lines[first + 1:end]
            if inside and all(map(is_call, inside)):
                yield first + 1, end

    def calls(self) -> Iterator[tuple[int, list[str]]]:
        """For each block the place after its last line, and its lines that are called: all in a section that is wanted,
        and elsewhere those that write a file which one of these names."""
        blocks = [(self.section_at(first), end, self.lines[first:end]) for first, end in self.blocks()]
        unknown = next((it for it in self.sections or () if it not in {section for section, *_ in blocks}), None)
        if unknown is not None:
            raise Refusal(f"{self.path}: no section `{unknown}` has commands.")
        wanted = {word for section, _, lines in blocks if self.is_wanted(section)
                  for line in lines for word in words_of(line)}
        for section, end, lines in blocks:
            yield end, [line for line in lines if self.is_wanted(section) or file_of(line) in wanted]

    def is_wanted(self, section: str) -> bool:
        """Whether the commands of a section are called."""
        return self.sections is None or section in self.sections

    def section_at(self, place: int) -> str:
        """The headline that a line is under."""
        return next((line.lstrip("# ") for line in self.lines[place::-1] if line.startswith("#")), "")

    def table_behind(self, place: int) -> Optional[tuple[int, int]]:
        """The places of the first and behind the last line of the next table, up to a headline or a block."""
        for first in range(place + 1, len(self.lines)):
            if self.lines[first].startswith(("#", FENCE)):
                break
            if self.lines[first].startswith("|"):
                end = next((place for place in range(first, len(self.lines)) if not self.lines[place].startswith("|")),
                           len(self.lines))
                return first, end
        return None

    def differs_from(self, table: Table) -> bool:
        """Whether a table in the page differs from the one that was made now."""
        return self.lines[table.first:table.end] != table.rows

    def differences(self, table: Table) -> Iterator[str]:
        """Each cell that a table has now and the page has otherwise, by its line and column; or that their sizes
        differ."""
        old = self.lines[table.first:table.end]
        heads = cells_of(table.rows[0])
        if len(old) != len(table.rows) or cells_of(old[0]) != heads:
            yield (f"{self.path}:{table.first + 1}: the table has {len(old)} lines and {len(cells_of(old[0]))} "
                   f"columns, and now {len(table.rows)} lines and {len(heads)} columns, or other heads")
            return
        for place, (before, after) in enumerate(zip(old, table.rows), table.first + 1):
            cells, others = cells_of(before), cells_of(after)
            for head, cell, other in zip(heads, cells, others):
                if cell != other:
                    row = ", ".join(others[:min(NAMING_CELLS, heads.index(head))]) or "it"
                    yield f"{self.path}:{place}: `{head}` of {row} is {cell}, and {other} now"

    def write(self) -> None:
        """Writes the lines, unless someone else wrote the page meanwhile."""
        if read_bytes(self.path) != self.data:
            raise Refusal(f"{self.path}: it was changed while its commands were called, so it stays as it is.")
        write_whole({self.path: self.newline.join(self.lines).encode()})


def cells_of(line: str) -> list[str]:
    """The cells of a line of a table."""
    return [cell.strip() for cell in line.strip().strip("|").split("|")]


def is_call(line: str) -> bool:
    """Whether a line calls a tool."""
    door, _, further = line.partition(" ")
    return door == DOOR and further.partition(" ")[0] in command_names()


def words_of(line: str) -> list[str]:
    """The words of a line, as a shell takes them."""
    if "\0" in line:
        raise Refusal(f"`{line}` has a byte 0, which no command takes.")
    try:
        return shlex.split(line)
    except ValueError:
        raise Refusal(f"`{line}` breaks off within quotation marks or behind a backslash.") from None


def file_of(line: str) -> Optional[str]:
    """The file that a line writes; None if it prints."""
    *words, sign, name = words_of(line)
    return name if len(words) > 1 and sign == INTO else None


def call_line(line: str, folder: pathlib.Path) -> list[str]:
    """What a command prints, unless it writes that to a file."""
    words, name = words_of(line), file_of(line)
    if name is not None:
        del words[-2:]
    if name is not None and folder.resolve() not in (folder / name).resolve().parents:
        raise Refusal(f"`{line}` writes outside of the folder of its commands.")
    done = subprocess.run([LAUNCHER, *words[1:]], cwd=folder, capture_output=True, stdin=subprocess.DEVNULL)
    if done.returncode != 0:
        said = done.stderr.decode("utf-8", "replace").strip() or f"it ended with status {done.returncode}."
        raise Refusal(f"`{line}`: {said}")
    if name is None:
        return told_lines(line, done.stdout)
    write_whole({folder / name: done.stdout})
    return []


def told_lines(line: str, data: bytes) -> list[str]:
    """The lines that a command wrote; refuses what isn't text."""
    try:
        return data.decode().splitlines()
    except UnicodeDecodeError:
        raise Refusal(f"`{line}` prints no text; `{INTO} FILE` after it writes that to a file.") from None


def make_tables(page: Page, folder: pathlib.Path) -> list[Table]:
    """Each table of a page as its commands print it, from the last one to the first."""
    tables: list[Table] = []
    for end, lines in page.calls():
        told = [text for line in lines for text in call_line(line, folder)]
        rows = [line for line in told if line.startswith("|")]
        if not rows:
            continue
        place = page.table_behind(end)
        if place is None:
            raise Refusal(f"{page.path}:{end + 1}: no table follows these commands.")
        tables.append(Table(*place, rows))
        print(f"{page.path}:{place[0] + 1}: {'differs' if page.differs_from(tables[-1]) else 'as it was'}", flush=True)
    return tables[::-1]


def main(path: str, sections: Optional[str], is_written: bool) -> int:
    """Makes the tables of a page again. The status is 1 where one differs and isn't replaced."""
    if path == "-":
        raise Refusal("--page takes a file, and not standard input.")
    page = Page(path, None if sections is None else sections.split(","))
    if not any(page.blocks()):
        raise Refusal(f"{path}: no block of this page has calls of tools alone, as `{DOOR} study` is one.")
    if is_written:
        need_writable(path)
    with tempfile.TemporaryDirectory() as folder:
        tables = make_tables(page, pathlib.Path(folder))
    different = [table for table in tables if page.differs_from(table)]
    if is_written and different:
        for table in different:
            page.lines[table.first:table.end] = table.rows
        page.write()
    if different and not is_written:
        print(*(told for table in different for told in page.differences(table)), sep="\n")
        say("study", f"{len(different)} of {len(tables)} tables differ; --write replaces them.")
        return 1
    return 0
