"""A command of the program over a grid of options, several runs at once, a row of CSV each."""
from __future__ import annotations

import csv
import dataclasses
import hashlib
import io
import re
import sys
import time
from collections.abc import Iterator, Sequence
from typing import Optional

from yotarimu.common.files import FilePath, encode, read_bytes, read_written, write_whole
from yotarimu.common.outcome import Refusal, is_at_terminal
from yotarimu.common.progress import show_progress
from yotarimu.courses.grid import Shard, cells_of
from yotarimu.programs.calls import Calls
from yotarimu.programs.program import Program, program_at
from yotarimu.programs.table import Table, Value

# The end of a report: the output, the words of the window, and the last line.
REPORT = re.compile(rb"\noutput (-|(?:[0-9a-f]{2})+)\n((?:window [0-9a-f]{8} [0-9a-f]{8}\n)*)end [^\n]+\n\Z")


# The options of a run by name, and what it came to, by column.
Cell = dict[str, Value]
Result = dict[str, object]


class Runner(Calls):
    """Runs one command on one input with different options."""

    def __init__(self, program: Program, words: Sequence[str], data: bytes, wants_check: bool,
                 shows_progress: bool) -> None:
        super().__init__(program.command)
        self.words, self.data = words, data
        self.wants_check, self.shows_progress = wants_check, shows_progress

    def run_all(self, cells: Sequence[Cell], jobs: int) -> Iterator[tuple[Cell, Result]]:
        """Each cell with its result, in order."""
        failed = 0
        for done, (cell, result) in enumerate(self.each(self.result, cells, jobs), 1):
            failed += result["status"] != 0
            if self.shows_progress:
                told_failed = f", {failed} with a status other than 0" if failed else ""
                show_progress("sweep", done, len(cells), told_failed)
            yield cell, result

    def result(self, cell: Cell) -> Result:
        """The columns of one run."""
        options = [f"--{name}={value}" for name, value in cell.items()]
        start = time.monotonic()
        status, written = self.call([*self.words, *options], self.data)
        seconds = f"{time.monotonic() - start:.3f}"
        columns = {"status": status, "seconds": seconds, **result_of(written), "check": ""}
        if self.wants_check and columns["commits"] != "":
            columns["check"], _ = self.call(["check", *options], self.data + written)
        return columns


def result_of(written: bytes) -> Result:
    """The result in a report: how many commits, and digests of the output and of the window; empty for other texts."""
    found = REPORT.search(written)
    if not found:
        return {"commits": "", "output": "", "window": ""}
    before = written[:found.start()].rpartition(b"\n")[2].split(b" ")
    # An entry's name, depth and timestamp follow its number.
    commits = int(before[0]) if before[0].isdigit() else 0
    emitted = b"" if found[1] == b"-" else bytes.fromhex(found[1].decode("ascii"))
    return {"commits": commits, "output": digest(emitted), "window": digest(found[2])}


def digest(data: bytes) -> str:
    """A short name of some bytes: 16 digits of their SHA-256."""
    return hashlib.sha256(data).hexdigest()[:16]


# The column that says which program made a row.
PROGRAM = "program"
RESULTS = ("status", "commits", "seconds", "output", "window", "check")
NUMBERS = ("status", "commits", "seconds", "check")


@dataclasses.dataclass
class Request:
    """What the words ask for."""
    image: Optional[str] = None
    rows: Optional[str] = None
    output: Optional[str] = None
    plot: Optional[str] = None
    axes: Optional[str] = None
    program: Optional[str] = None
    jobs: int = 1
    shard: Shard = Shard()
    wants_check: bool = False
    values: dict[str, Sequence[Value]] = dataclasses.field(default_factory=dict)


def header(table: Table) -> list[str]:
    """The names of the columns of a sweep."""
    return ["input", PROGRAM, *(f"--{name}" for name in table.options), *RESULTS]


def sweep_rows(request: Request, table: Table) -> Iterator[list[object]]:
    """The rows of the runs that are asked for, each as it comes, in the order of the grid."""
    cells = cells_of(table.options, request.values)
    data = read_bytes(request.image) if request.image is not None else b""
    is_apart = request.output is not None or not sys.stdout.isatty()
    program = program_at(request.program)
    runner = Runner(program, ["run"], data, request.wants_check, is_at_terminal() and is_apart)
    for cell, result in runner.run_all(request.shard.of(cells), request.jobs):
        yield [request.image, program.identity, *cell.values(), *(result[column] for column in RESULTS)]


def written_rows(request: Request, table: Table) -> list[dict[str, str]]:
    """Runs all, and returns the rows. Each is written as it is made, or all to a file in the end. If the file can't be
    written, or the sweep is ended early, the rows made so far go to standard output."""
    text = io.StringIO()
    rows: list[dict[str, str]] = []
    file = text if request.output else sys.stdout
    sink = csv.writer(file, lineterminator="\n")
    try:
        for row in sweep_rows(request, table):
            if not rows and request.shard.number == 1:
                sink.writerow(header(table))
            sink.writerow(row)
            file.flush()
            rows.append(dict(zip(header(table), map(str, row))))
        if request.output:
            write_whole({request.output: encode(text.getvalue())})
    except BaseException:
        if request.output:
            sys.stdout.write(text.getvalue())
        raise
    return rows


def has_failed(row: dict[str, str]) -> bool:
    """Whether a run gave no report, or one that was refused."""
    return row["commits"] == "" or row["check"] not in ("", "0")


def read_rows(path: FilePath) -> list[dict[str, str]]:
    """The rows of a file of CSV; refuses one whose rows haven't all columns."""
    text = read_written(path)
    try:
        rows = list(csv.DictReader(io.StringIO(text)))
    except csv.Error as error:
        raise Refusal(f"{path}: this isn't CSV: {error}.") from None
    if any(None in row or None in row.values() for row in rows):
        raise Refusal(f"{path}: its rows haven't as many columns as its first line.")
    if len({row.get(PROGRAM) for row in rows}) > 1:
        raise Refusal(f"{path}: its rows come from different programs, so they can't be compared.")
    return rows
