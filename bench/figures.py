"""What was measured, as rows of CSV; beside frozen figures, and what got slower from one file to another."""
from __future__ import annotations

import csv
import dataclasses
import io
import math
import os
import pathlib
from collections.abc import Iterator, Mapping

from yotarimu.common.files import FilePath, need_writable, read_written, write_whole
from yotarimu.common.outcome import Refusal
from yotarimu.common.tables import table

HEAD = ["table", "case", "figure", "value"]
# A file each: the figures of one state of the program, which the documents discuss.
FROZEN = pathlib.Path(__file__).resolve().parent / "before"
MACHINE, PROCESSORS, BEFORE, AFTER = "machine", "processors", "load before", "load after"
# By which part of it a figure may be off, where nothing changed: counts of instructions repeat, times don't.
COUNTED, TIMED = 0.005, 0.1


@dataclasses.dataclass(frozen=True)
class Key:
    """What was measured: in which table, of what, and which figure of it."""
    table: str
    case: str
    figure: str

    def __str__(self) -> str:
        return f"{self.case}: {self.figure}"

    @property
    def is_counted(self) -> bool:
        return self.figure.startswith(("host instructions", "exponent"))

    def worse(self, old: float, new: float) -> float:
        """How many times worse the new value is: below 1 where it is better."""
        old, new = max(old, 1e-9), max(new, 1e-9)
        return old / new if self.figure.endswith("a second") else new / old


class Figures:
    """Values by key, and how loaded the machine was."""

    def __init__(self) -> None:
        self.values: dict[Key, float] = {}
        self.add(MACHINE, "", PROCESSORS, os.cpu_count() or 1)
        self.add(MACHINE, "", BEFORE, os.getloadavg()[0])

    def add(self, table_name: str, case: str, figure: str, value: float) -> float:
        """Notes a value, and gives it back."""
        self.values[Key(table_name, case, figure)] = value
        return value

    def end(self) -> None:
        self.add(MACHINE, "", AFTER, os.getloadavg()[0])

    def rows(self) -> Iterator[list[str]]:
        yield HEAD
        for key, value in self.values.items():
            yield [key.table, key.case, key.figure, f"{value:.10g}"]


def write(figures: Figures, path: FilePath) -> None:
    sink = io.StringIO()
    csv.writer(sink, lineterminator="\n").writerows(figures.rows())
    write_whole({need_writable(path): sink.getvalue().encode()})


def rows_in(path: FilePath) -> Iterator[list[str]]:
    """The rows of a file."""
    rows = csv.reader(io.StringIO(read_written(path)))
    try:
        yield from rows
    except csv.Error as error:
        raise Refusal(f"{path}:{rows.line_num}: this isn't a row of CSV: {error}.") from None


def read(path: FilePath) -> dict[Key, float]:
    """The values of a file by key."""
    values: dict[Key, float] = {}
    for number, row in enumerate(rows_in(path), 1):
        if number == 1 and row != HEAD:
            raise Refusal(f"{path}: these aren't figures: the first line isn't `{','.join(HEAD)}`.")
        if number == 1:
            continue
        try:
            name, case, figure, text = row
            value = float(text)
            if not math.isfinite(value):
                raise ValueError
        except ValueError:
            raise Refusal(f"{path}:{number}: this isn't a figure: a table, a case, a figure and a number are "
                          "wanted.") from None
        if Key(name, case, figure) in values:
            raise Refusal(f"{path}:{number}: `{case}: {figure}` stands twice.")
        values[Key(name, case, figure)] = value
    if not values:
        raise Refusal(f"{path}: it has no figures.")
    return values


def load_text(values: Mapping[Key, float]) -> str:
    """How loaded the machine was, as a sentence; empty where nobody noted it."""
    count, before, after = (values.get(Key(MACHINE, "", name)) for name in (PROCESSORS, BEFORE, AFTER))
    if count is None or before is None or after is None:
        return ""
    more = "; so its times mean little, and its counts are right" if max(before, after) > count else ""
    return f"{count:.0f} processors, a load of {before:.2f} before and of {after:.2f} after{more}"


def number_text(value: float) -> str:
    """A number with as many digits as are significant."""
    return f"{value:,.0f}" if abs(value) >= 1_000 else f"{value:.4g}"


def beside_frozen(values: Mapping[Key, float]) -> list[str]:
    """A table of the figures that a frozen file also has, with their ratios to those."""
    frozen = {path.stem.replace("_", " "): read(path) for path in sorted(FROZEN.glob("*.csv"))}
    rows = []
    for key, value in values.items():
        if key.table == MACHINE or not any(key in old for old in frozen.values()):
            continue
        cells = []
        for old in frozen.values():
            cells += [number_text(old[key]), f"{value / old[key]:.2f}"] if old.get(key) else ["", ""]
        rows.append([key.case, key.figure, number_text(value), *cells])
    head = [cell for name in frozen for cell in (name.capitalize(), "Ratio")]
    return table(["Case", "Figure", "Now", *head], rows) if rows else []


def compare(old_path: FilePath, new_path: FilePath) -> tuple[list[str], bool]:
    """The lines on what got slower from one file to another, and whether anything did."""
    old, new = read(old_path), read(new_path)
    both = [key for key in old if key in new and key.table != MACHINE]
    if not both:
        raise Refusal(f"{old_path} and {new_path} have no figure in common.")
    worse = {key: key.worse(old[key], new[key]) for key in both}
    slower = sorted((key for key in both if worse[key] > 1 + tolerance(key)), key=lambda key: -worse[key])
    faster = [key for key in both if worse[key] < 1 / (1 + tolerance(key))]
    lines = []
    if slower:
        rows = [[key.case, key.figure, number_text(old[key]), number_text(new[key]), f"{worse[key]:.2f}"]
                for key in slower]
        lines += [*table(["Case", "Figure", "Old", "New", "Times worse"], rows), ""]
    lines.append(f"Of {len(both)} figures {len(slower)} got worse, {len(faster)} better, by more than {COUNTED:.1%} of "
                 f"a count of instructions or {TIMED:.0%} of another.")
    for path, one, other in ((old_path, old, new), (new_path, new, old)):
        alone = sum(key not in other and key.table != MACHINE for key in one)
        told = load_text(one)
        lines.append(f"{path}: {told or 'nobody noted how loaded the machine was'}."
                     + (f" {alone} of its figures are there alone." if alone else ""))
    return lines, bool(slower)


def tolerance(key: Key) -> float:
    return COUNTED if key.is_counted else TIMED
