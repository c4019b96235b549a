"""The rows of a study: comparisons of runs with each other, the table that people read, and CSV."""
from __future__ import annotations

import csv
import dataclasses
import io
import math
import statistics
from collections.abc import Iterator, Mapping, Sequence
from typing import Optional

from yotarimu.common.files import encode
from yotarimu.common.tables import row_of, table
from yotarimu.common.words import number_in
from yotarimu.figures.columns import COLUMNS, END, Plain, Reach, Row, heads, plain_cell, shown_cell
from yotarimu.programs.table import Value

SEED = "seed"
MOST_NUMBER = 10 ** 18
ONE_CORE = {"tiles": 1, "cores": 1}
# Marks of cells, and what is said of them after the table.
FORCED, OTHER_WORK = "†", "*"
NOTES = {FORCED: "the least task starved and was advanced by force", OTHER_WORK:
         "the run committed other work than the one that it is compared with"}
SPREAD_HEAD = "±"
# The columns of CSV before those of the options: of how many shards which one a row is of, and of how many choices.
SHARD_COLUMNS = ("shard", "shards", "choice", "choices", "program", "image")


@dataclasses.dataclass(frozen=True)
class Choice:
    """An image with a value for each option, and its number among all choices, from 1."""
    number: int
    image: str
    options: Mapping[str, Value]

    def key(self, **others: Value) -> tuple[object, ...]:
        """What distinguishes it from others, with other values of some options."""
        return self.image, *{**self.options, **others}.items()


class StudyRows:
    """The rows that are known of choices, by their numbers. The rows of a shard aren't compared, because it may lack
    those that they are compared with."""

    def __init__(self, choices: Sequence[Choice], is_whole: bool = True) -> None:
        self.choices, self.is_whole = choices, is_whole
        self.rows: dict[int, Row] = {}
        self.by_key = {choice.key(): choice for choice in choices}
        self.firsts: dict[tuple[str, Value], list[Choice]] = {}
        for choice in choices:
            self.firsts.setdefault((choice.image, choice.options.get(SEED, 0)), []).append(choice)

    def is_ready(self, choice: Choice) -> bool:
        """Whether the row of a choice is known, and that of one core to compare it with."""
        base = self.one_core(choice)
        return choice.number in self.rows and (base is None or base.number in self.rows)

    def one_core(self, choice: Choice) -> Optional[Choice]:
        """The same choice on one core."""
        return self.by_key.get(choice.key(**ONE_CORE)) if self.is_whole else None

    def bases(self, choice: Choice) -> dict[str, Optional[Reach]]:
        """What the comparisons of a row compare it with, by their columns: the first choice of the same image and seed
        that has figures, and the same choice on one core."""
        found: dict[str, Optional[Reach]] = {"fewer": None, "speedup": None}
        if self.is_whole:
            rows = (self.rows.get(it.number) for it in self.firsts[choice.image, choice.options.get(SEED, 0)])
            first = next((row for row in rows if row is None or row.reach is not None), None)
            found["fewer"] = first.reach if first else None
            one = self.one_core(choice)
            row = self.rows.get(one.number) if one else None
            found["speedup"] = row.reach if row else None
        return found

    def numbers(self, choice: Choice) -> dict[str, Plain]:
        """The numbers of a row, with its comparisons."""
        row = self.rows[choice.number]
        reach, compared = row.reach, {}
        for name, base in self.bases(choice).items():
            compared[name] = reach.fewer_than(base) if reach and base else None
        return {**row.numbers, **compared}

    def marks(self, choice: Choice, name: str) -> str:
        """The mark of a comparison with a run that committed other work; nothing of other columns."""
        base, reach = self.bases(choice).get(name), self.rows[choice.number].reach
        return OTHER_WORK if base and reach and reach.has_other_work(base) else ""

    def groups(self) -> Iterator[list[Choice]]:
        """The choices that differ by their seeds alone, in the order of the choices."""
        found: dict[tuple[object, ...], list[Choice]] = {}
        for choice in self.choices:
            found.setdefault(choice.key(seed=0), []).append(choice)
        yield from found.values()

    def cells(self, head: Sequence[str], program: str, shard: tuple[int, int], choices: int) -> list[list[str]]:
        """The rows that are known, with all columns of CSV, under their head."""
        cells = [list(head)]
        for choice in self.choices:
            row = self.rows.get(choice.number)
            if row is not None:
                numbers = self.numbers(choice)
                cells.append([*map(str, (*shard, choice.number, choices, program, choice.image,
                                         *choice.options.values())),
                              *(plain_cell(numbers.get(name)) for name in COLUMNS), row.end])
        return cells


class StudyTable:
    """The table of a study: a line for each choice, or for each group of choices that differ by their seeds alone,
    which has means and standard deviations."""

    def __init__(self, played: StudyRows, columns: Sequence[str], varying: Sequence[str], has_images: bool) -> None:
        self.played, self.columns, self.has_images = played, columns, has_images
        self.has_spreads = SEED in varying
        self.varying = [name for name in varying if name != SEED]
        self.marks: dict[str, None] = {}

    def head(self) -> list[str]:
        """The first lines."""
        names: list[str] = []
        for name, text in zip(self.columns, heads(self.columns)):
            names += [text, SPREAD_HEAD] if self.has_spreads and name != END else [text]
        return table([*(["Image"] if self.has_images else []), *(f"--{name}" for name in self.varying), *names], [])

    def line(self, group: Sequence[Choice]) -> str:
        """The line of choices whose rows are known."""
        shown = [group[0].image] if self.has_images else []
        shown += [value_text(group[0].options[name]) for name in self.varying]
        cells = [cell for name in self.columns for cell in self.cells(group, name)]
        if any(self.played.rows[choice.number].numbers.get("advances") for choice in group):
            cells[0] += f" {FORCED}"
            self.marks[FORCED] = None
        return row_of([*shown, *cells])

    def cells(self, group: Sequence[Choice], name: str) -> list[str]:
        """The cells of a column: the number, or the mean and the standard deviation of several."""
        if name == END:
            ends = [self.played.rows[choice.number].end for choice in group]
            told = [end if len(set(ends)) == 1 else f"{ends.count(end)} {end}" for end in dict.fromkeys(ends)]
            return [", ".join(told)]
        found = [self.played.numbers(choice).get(name) for choice in group]
        numbers = [number for number in found if number is not None]
        mark = next(filter(None, (self.played.marks(choice, name) for choice in group)), "") if numbers else ""
        if mark:
            self.marks[mark] = None
        text = shown_cell(name, mean_of(numbers)) + (f" {mark}" if mark else "")
        return [text, shown_cell(name, deviation_of(numbers))] if self.has_spreads else [text]

    def notes(self) -> list[str]:
        """What the marks mean."""
        return [f"{mark} {NOTES[mark]}." for mark in self.marks]


def mean_of(numbers: Sequence[float]) -> Plain:
    """The mean; None of no number, and a whole number as it is."""
    if not numbers:
        return None
    return numbers[0] if len(set(numbers)) == 1 else statistics.fmean(numbers)


def deviation_of(numbers: Sequence[float]) -> Plain:
    """The sample standard deviation; None of fewer than two numbers."""
    return statistics.stdev(numbers) if len(numbers) > 1 else None


def value_text(value: Value) -> str:
    """A value of an option as people read it."""
    return value if isinstance(value, str) else f"{value:,}"


def head_of(options: Sequence[str]) -> list[str]:
    """The names of all columns of a study with these options."""
    return [*SHARD_COLUMNS, *(f"--{name}" for name in options), *COLUMNS, END]


def csv_of(cells: Sequence[Sequence[str]]) -> bytes:
    """Rows as a file of CSV."""
    text = io.StringIO()
    csv.writer(text, lineterminator="\n").writerows(cells)
    return encode(text.getvalue())


def rows_in(cells: Sequence[Sequence[str]]) -> list[dict[str, str]]:
    """The rows by their columns."""
    return [dict(zip(cells[0], row)) for row in cells[1:]]


def rows_of_csv(cells: Sequence[Sequence[str]]) -> StudyRows:
    """The rows of a whole study, from its CSV."""
    names = [name.removeprefix("--") for name in cells[0] if name.startswith("--")]
    choices, rows = [], {}
    for row in rows_in(cells):
        number = int(row["choice"])
        choices.append(Choice(number, row["image"], {name: value_in(row[f"--{name}"]) for name in names}))
        rows[number] = Row(row[END], {name: number_in_cell(row[name]) for name in COLUMNS})
    played = StudyRows(choices)
    played.rows = rows
    return played


def value_in(text: str) -> Value:
    """The value of an option in a cell of CSV."""
    number = number_in(text, 0, MOST_NUMBER)
    return text if number is None else number


def number_in_cell(text: str) -> Plain:
    """The number in a cell of CSV; None if it is empty or has no number."""
    whole = number_in(text, 0, MOST_NUMBER)
    if whole is not None:
        return whole
    try:
        number = float(text)
    except ValueError:
        return None
    return number if math.isfinite(number) else None
