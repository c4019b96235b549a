"""Shards of a study, joined: the rows of all, in the order of the choices."""
from __future__ import annotations

import csv
import io
from collections.abc import Sequence
from typing import NamedTuple

from yotarimu.common.files import read_written
from yotarimu.common.outcome import Refusal
from yotarimu.common.words import number_in
from yotarimu.courses.grid import MOST_RUNS
from yotarimu.courses.study_rows import SHARD_COLUMNS, rows_in, rows_of_csv
from yotarimu.figures.columns import COLUMNS, END, plain_cell

Rows = list[dict[str, str]]


class Part(NamedTuple):
    """The rows of a file, all of one shard."""
    path: str
    head: list[str]
    rows: Rows
    shard: int
    shards: int
    choices: int


def read_study(path: str) -> tuple[list[str], Rows]:
    """The head and the rows of what a study wrote as CSV."""
    text = read_written(path)
    try:
        cells = list(csv.reader(io.StringIO(text)))
    except csv.Error as error:
        raise Refusal(f"{path}: this isn't CSV: {error}.") from None
    if not cells or tuple(cells[0][:len(SHARD_COLUMNS)]) != SHARD_COLUMNS:
        raise Refusal(f"{path}: this isn't CSV of ./fractal study: it doesn't begin with "
                      f"{', '.join(SHARD_COLUMNS)}.")
    lacking = next((name for name in (*COLUMNS, END) if cells[0].count(name) != 1), None)
    if lacking is not None:
        raise Refusal(f"{path}: its first line has the column `{lacking}` {cells[0].count(lacking)} times, and once is "
                      "right.")
    for number, row in enumerate(cells[1:], 2):
        if len(row) != len(cells[0]):
            raise Refusal(f"{path}:{number}: this row has {len(row)} columns, and the first line has {len(cells[0])}.")
    return cells[0], rows_in(cells)


def part_of(path: str) -> Part:
    """The rows of one shard in a file; refuses a file that has others."""
    head, rows = read_study(path)
    found = {tuple(number_in(row[name], 1, MOST_RUNS) for name in ("shard", "shards", "choices")) for row in rows}
    if not rows:
        raise Refusal(f"{path}: it has no row, so no one knows which shard it is.")
    shard, shards, choices = sorted(found, key=str)[0]
    if len(found) > 1 or shard is None or shards is None or choices is None or shard > shards:
        raise Refusal(f"{path}: its rows aren't those of one shard.")
    return Part(path, head, rows, shard, shards, choices)


def join_shards(paths: Sequence[str]) -> list[list[str]]:
    """The rows of all shards, which come in their order, under their head."""
    parts = [part_of(path) for path in paths]
    first = parts[0]
    for place, part in enumerate(parts, 1):
        if (part.head, part.shards, part.choices) != (first.head, first.shards, first.choices):
            raise Refusal(f"{part.path}: this isn't of the same study as {first.path}.")
        if part.shard != place:
            raise Refusal(f"{part.path}: this is shard {part.shard} of {part.shards}, and stands where shard {place} "
                          "has to stand.")
        need_whole(part)
    if len(parts) < first.shards:
        raise Refusal(f"shard {len(parts) + 1} of {first.shards} is missing.")
    programs = list(dict.fromkeys(row["program"] for part in parts for row in part.rows))
    if len(programs) > 1:
        raise Refusal(f"these rows come from different programs: {' and '.join(programs)}.")
    rows = sorted((row for part in parts for row in part.rows), key=lambda row: int(row["choice"]))
    for row in rows:
        row["shard"], row["shards"] = "1", "1"
    return with_comparisons([first.head, *([row[name] for name in first.head] for row in rows)])


def need_whole(part: Part) -> None:
    """Refuses a shard that lacks a row, or has one that is another's."""
    wanted = [str(number) for number in range(part.shard, part.choices + 1, part.shards)]
    found = [row["choice"] for row in part.rows]
    if found != wanted:
        lacking = next((number for number in wanted if number not in found), None)
        told = f"choice {lacking} is missing" if lacking else "it has rows that aren't its own, or in another order"
        raise Refusal(f"{part.path}: it isn't the whole of shard {part.shard} of {part.shards}: {told}.")


def with_comparisons(cells: list[list[str]]) -> list[list[str]]:
    """The rows of a whole study, with the columns that compare one with another."""
    played = rows_of_csv(cells)
    places = {name: cells[0].index(name) for name, it in COLUMNS.items() if it.is_comparison}
    for row, choice in zip(cells[1:], played.choices):
        numbers = played.numbers(choice)
        for name, place in places.items():
            row[place] = plain_cell(numbers[name])
    return cells
