"""A long run in pieces: each ends at a commit limit, and the next begins with the image that `save` made there.

One folder has all of it: of each piece its image and, once it was run, its report. The tasks pending at its end have no
names in a saved image, so the piece is run again by the plain reading of its instructions, and the pending tasks are
compared with the image.
"""
from __future__ import annotations

import dataclasses
import pathlib
import re
from collections.abc import Iterator, Mapping, Sequence
from typing import Optional

from yotarimu.common.files import FilePath, need_plain, read_bytes, write_whole
from yotarimu.common.outcome import Refusal
from yotarimu.images.image import read_image
from yotarimu.images.serial_machine import Machine, Task
from yotarimu.reports.report import Name, Report, read_report

LIMIT, NESTED, TOO_MANY = 4, 12, 13
MOST_COMMITS = 1_000_000
# As many tasks may an image have.
MOST_TASKS = 65_536
IMAGE, REPORT, WORDS = "image", "report", "words"
# What a call that was killed leaves of a file that it was writing, by `write_whole`.
UNFINISHED = re.compile(r"\.(words|report|[0-9]{4,}\.(image|report))\.[a-z0-9_]{8}")


class DamagedPiece(Refusal):
    """A piece isn't as it was made. It and those after it can be made again, once they are deleted."""

    def __init__(self, number: int, why: str) -> None:
        super().__init__(why)
        self.number = number


@dataclasses.dataclass
class Piece:
    """A piece that was run: its number, its image, its report as written and as read, and whether it is the last."""
    number: int
    image: bytes
    written: bytes
    report: Report
    is_last: bool
    # The names of the tasks that are pending at its end, once they were compared with the next image.
    pending: list[Name] = dataclasses.field(default_factory=list)


class Folder:
    """The pieces of one run. What is there is whole; a piece whose report is missing is run again."""

    def __init__(self, path: FilePath, image: bytes, words: Sequence[str]) -> None:
        self.path = pathlib.Path(path)
        if self.path.exists() and not self.path.is_dir():
            raise Refusal(f"{path}: this isn't a folder.")
        self.path.mkdir(parents=True, exist_ok=True)
        for path in self.path.iterdir():
            if UNFINISHED.fullmatch(path.name):
                path.unlink()
        # The image comes first: a folder that has it alone is one whose beginning was interrupted.
        self.keep({self.name(IMAGE, 1): image, self.name(WORDS): " ".join(words).encode() + b"\n"})

    def name(self, kind: str, number: Optional[int] = None) -> pathlib.Path:
        """The file of a kind, of a piece or of the whole."""
        return self.path / (kind if number is None else f"{number:04}.{kind}")

    def keep(self, files: Mapping[pathlib.Path, bytes]) -> None:
        """Writes files that are missing; an existing one has to be the same."""
        missing = {}
        for path, data in files.items():
            if not path.exists():
                missing[path] = data
            elif path.is_dir() or read_bytes(need_plain(path)) != data:
                raise Refusal(f"{path}: this folder has the pieces of another run; name a new folder.")
        if self.name(IMAGE, 1) in missing and any(self.path.iterdir()):
            raise Refusal(f"{self.path}: this folder holds other files; name a new folder.")
        write_whole(missing)

    def image(self, number: int) -> bytes:
        """The image of a piece; one that is damaged is made again with the piece before."""
        data = read_bytes(self.name(IMAGE, number))
        if number > 1:
            try:
                read_image(data, self.name(IMAGE, number))
            except Refusal as refused:
                raise DamagedPiece(number - 1, str(refused)) from None
        return data

    def report(self, number: int) -> Report:
        """The report of a piece that was run."""
        name = self.name(REPORT, number)
        try:
            return read_report(read_bytes(name).decode("utf-8", "replace"), name)
        except Refusal as refused:
            raise DamagedPiece(number, str(refused)) from None

    def remedy(self, number: int) -> str:
        """What to do about a damaged piece."""
        return (f"delete {self.name(REPORT, number)} and all files of greater numbers, and call it again: these pieces "
                "are made again")

    def has_run(self, number: int) -> bool:
        """Whether the piece was run: its report is there, and the next image where the run goes on."""
        report = self.name(REPORT, number)
        if not report.exists():
            return False
        return self.name(IMAGE, number + 1).exists() or not read_bytes(report).endswith(b"\nend limit\n")

    def write_piece(self, number: int, report: bytes, following: Optional[bytes]) -> None:
        """The next image first: without it a report that ends at its limit counts for nothing."""
        if following is not None:
            write_whole({self.name(IMAGE, number + 1): following})
        write_whole({self.name(REPORT, number): report})

    def pieces(self) -> Iterator[Piece]:
        """The pieces that have run, in their order."""
        number = 1
        while self.has_run(number):
            written = read_bytes(self.name(REPORT, number))
            is_last = not self.name(IMAGE, number + 1).exists()
            yield Piece(number, self.image(number), written, self.report(number), is_last)
            number += 1


def replay(piece: Piece, name: FilePath) -> Machine:
    """The machine after the turns of a piece."""
    machine = Machine(read_image(piece.image, name))
    wrong_turn = machine.follow(piece.report.entries)
    if wrong_turn:
        raise DamagedPiece(piece.number, f"{name}: its tasks can't be run again: {wrong_turn}.")
    return machine


def pending_of(machine: Machine) -> list[Task]:
    """The tasks without a turn, by their names."""
    tasks = [task for task in machine.tasks.values() if not task.turn]
    return sorted(tasks, key=lambda task: (task.name.creator, task.name.index))


def names_in(machine: Machine, following: bytes, number: int, name: FilePath) -> list[Name]:
    """The names of the tasks that pend after the piece of a number, which are those of the saved image in its order;
    else a refusal."""
    saved, pending = read_image(following, name), pending_of(machine)
    if len(saved.tasks) != len(pending):
        raise DamagedPiece(number, f"{name}: it has {len(saved.tasks):,} tasks, and {len(pending):,} pend after the "
                                   "piece before.")
    for place, (task, other) in enumerate(zip(saved.tasks, pending)):
        if (task.entry, task.timestamp, task.arguments) != (other.entry, other.timestamp, other.arguments):
            raise DamagedPiece(number, f"{name}: its task {place} isn't {other.name}, which pends after the piece "
                                       "before.")
    if saved.initial != bytes(machine.memory):
        raise DamagedPiece(number, f"{name}: its data aren't the memory that the piece before left.")
    return [task.name for task in pending]


def next_cut(image: bytes, report: Report, after: int, name: FilePath) -> Optional[int]:
    """The first count of commits above `after` at which all that pends is of the root domain, and not too much; None
    where there is none before the report's end."""
    machine = Machine(read_image(image, name))
    for count, entry in enumerate(report.entries, 1):
        lost = machine.follow([entry])
        if lost:
            raise Refusal(f"{name}: its tasks can't be run again: {lost}.")
        pending = pending_of(machine) if count > after else []
        if pending and len(pending) <= MOST_TASKS and all(task.domain.depth == 1 for task in pending):
            return count
    return None


def join(pieces: Sequence[Piece]) -> bytes:
    """One report of pieces: the names of each in those of the first image, the outputs one after another, the window
    and the end of the last."""
    lines, output, turns = ["fractal 1"], [], 0
    names: Optional[list[Name]] = None
    for piece in pieces:
        report = piece.report
        for entry in report.entries:
            name = name_in_whole(entry.name, names, turns, piece.number)
            lines.append(f"{turns + entry.turn} {name} {entry.depth} {entry.timestamp}")
        output.append(report.output)
        if piece.is_last:
            lines.append(f"output {b''.join(output).hex() or '-'}")
            lines += [f"window {address:08x} {word:08x}" for address, word in report.window]
            lines.append(end_line(report, names, turns, piece.number))
        else:
            names = [name_in_whole(name, names, turns, piece.number) for name in piece.pending]
            turns += len(report.entries)
    return "\n".join(lines).encode() + b"\n"


def name_in_whole(name: Name, names: Optional[Sequence[Name]], turns: int, number: int) -> Name:
    """A task's name in the joined run, for the piece of a number: the first image's own stay, those of a saved image
    are the pending ones."""
    if name.creator:
        return Name(turns + name.creator, name.index)
    if names is None:
        return name
    if name.index >= len(names):
        raise DamagedPiece(number, f"after turn {turns} a piece has the task {name}, and its image has {len(names):,} "
                                   "tasks.")
    return names[name.index]


def end_line(report: Report, names: Optional[Sequence[Name]], turns: int, number: int) -> str:
    """The last line of the whole report; a trap's task has the name that it has in the whole run."""
    if report.trap is None:
        return f"end {report.end}"
    trap = report.trap
    return f"end trap {trap.cause} {trap.pc:08x} {name_in_whole(trap.name, names, turns, number)}"
