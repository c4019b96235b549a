"""The initial tasks of an image: of a line each, or of a file with a row for each."""
from __future__ import annotations

import pathlib
import re
from typing import Sequence

from yotarimu.common.files import read_bytes, read_written
from yotarimu.images.contents import NUMBERS
from yotarimu.images.elf import Label
from yotarimu.images.entries import refusal_of
from yotarimu.images.image import TASK, InitialTask
from yotarimu.images.image_line import Line, label_of
from yotarimu.images.objects import PLACES
from yotarimu.images.source import Assembly

WORD = 0xFFFFFFFF
INSTRUCTION_BYTES = 4


def initial_task(line: Line, assembled: Assembly) -> InitialTask:
    """Reads `task LABEL [ts N] [args A [B [C]]]`."""
    words = list(line.words[1:])
    if not words or words[0] in ("ts", "args") and not assembled.labels_named(words[0]):
        line.refuse_form("the label is missing:")
    entry, timestamp, arguments, rest = entry_of(line, assembled, words[0]), "0", list[str](), words[1:]
    if rest[:1] == ["ts"]:
        if len(rest) == 1:
            line.refuse("a number is missing after `ts`")
        timestamp, rest = rest[1], rest[2:]
    if rest[:1] == ["args"]:
        if not 1 <= len(rest[1:]) <= 3:
            line.refuse(f"`args` has one to three numbers or labels after it, and not {len(rest[1:])}")
        arguments, rest = rest[1:], []
    if rest:
        line.refuse_form(f"`{rest[0]}` isn't known here:")
    return task_of(line, assembled, entry, timestamp, arguments)


def initial_tasks(line: Line, assembled: Assembly) -> list[InitialTask]:
    """Reads `tasks FILE`: a row for each task. Where the name ends in .csv a row is LABEL, TIMESTAMP and up to three
    arguments; else it has the 20 bytes of a task in an image."""
    if len(line.words) != 2:
        line.refuse_form()
    path = line.file(line.words[1])
    if path.suffix == NUMBERS:
        return tasks_told(line, path, assembled)
    content = read_bytes(path)
    if len(content) % TASK.size:
        line.refuse(f"{path} has {len(content):,} bytes, which isn't a multiple of the {TASK.size} of a task")
    return [InitialTask(row[0], row[1], tuple(row[2:])) for row in TASK.iter_unpack(content)]


def tasks_told(line: Line, path: pathlib.Path, assembled: Assembly) -> list[InitialTask]:
    """The tasks in the rows of a text; empty rows have none."""
    entries: dict[str, Label] = {}
    tasks = []
    for number, text in enumerate(read_written(path).split("\n"), 1):
        cells = re.split(r"\s*,\s*", text.strip())
        row = Line(line.source, number, cells, path)
        if cells == [""]:
            continue
        if len(cells) > 5:
            row.refuse(f"a task has a label, a timestamp and up to three arguments, and not {len(cells)} cells")
        if cells[0] not in entries:
            entries[cells[0]] = entry_of(row, assembled, cells[0])
        tasks.append(task_of(row, assembled, entries[cells[0]], cells[1] if len(cells) > 1 else "0", cells[2:]))
    return tasks


def entry_of(line: Line, assembled: Assembly, name: str) -> Label:
    """The label of a task's entry."""
    entry = label_of(line, assembled, name, (".text",), "text")
    if why := refusal_of(assembled, entry):
        line.refuse(why)
    if entry.address % INSTRUCTION_BYTES:
        line.refuse(f"the label `{entry.name}` is at {entry.address:08x}, and a task begins at a multiple of 4: "
                    "`.balign 4` above it helps")
    return entry


def task_of(line: Line, assembled: Assembly, entry: Label, timestamp: str, arguments: Sequence[str]) -> InitialTask:
    """The task of an entry; missing arguments are 0."""
    numbers = [argument(line, assembled, word) for word in arguments]
    first, second, third = (numbers + [0, 0, 0])[:3]
    return InitialTask(entry.address, line.number_of(timestamp, "the timestamp", WORD), (first, second, third))


def argument(line: Line, assembled: Assembly, word: str) -> int:
    """An argument: a number, or a label for its address."""
    if not word[:1].isalpha() and word[:1] != "_":
        return line.number_of(word, "an argument", WORD)
    if not assembled.labels_named(word):
        line.refuse(f"an argument is a number or a label, and no label `{word}`")
    return label_of(line, assembled, word, tuple(PLACES), "image").address
