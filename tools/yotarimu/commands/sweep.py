"""Runs an image over a grid of options, and writes one row of CSV per run.

Without --workers a run makes one event after another for the least task, so nothing is aborted. ./fractal study plays
runs in which tasks run speculatively.

usage: ./fractal sweep IMAGE [--OPTION VALUES]... [ARGUMENT]...
       ./fractal sweep --rows CSV [--plot COLUMN,OPTION,FILE]

OPTION is one of the program's, as `./fractal help` lists them. VALUES are numbers with commas between, or FROM..TO, or
FROM..TO..STEP; the grid has a run for each choice of one value per option. Further arguments:

  --jobs N                   how many runs are made at once (1 to 1,024; default 1)
  --output FILE              the rows go to this file, which is written whole or not at all
  --plot COLUMN,OPTION,FILE  a plot (SVG) of a column of numbers against an option, a line for each choice of the rest
  --log AXES                 the plot's axes that are logarithmic (x, y or xy)
  --check                    hands each report back to `check`, with the image, and puts its status into the column
                             check; if host threads ran the reports of one image may differ, and each is checked
  --shard K/N                only each N-th run, from the K-th on; the files of shards 1 to N are joined by `cat`
  --sim FILE                 a built fractal_sim to run, in place of the one that answers here
  --rows CSV                 runs nothing, and plots the rows of such a file

Columns: input, the program that ran, each option as --OPTION, status, commits, seconds (on the clock), output and
window (the first 16 digits of a SHA-256 of the bytes that were emitted and of the lines of the window), check. A run
that fails is a row; the status is 1 if each one failed, that is if it gave no report or one that `check` refuses. A
sweep that is ended early, or whose FILE can't be written, writes the rows that it has to standard output.
"""
from __future__ import annotations

from yotarimu.common.files import need_outputs, write_whole
from yotarimu.common.outcome import Difference, Refusal
from yotarimu.common.words import Words
from yotarimu.courses.grid import shard_of, values_of
from yotarimu.courses.row_pictures import picture_of
from yotarimu.courses.sweep import NUMBERS, Request, has_failed, read_rows, written_rows
from yotarimu.programs.table import Table


def read_words(words: list[str], table: Table) -> Request:
    """The request that the arguments make."""
    given = Words("sweep", table.options, more_help=", ./fractal help the program's", page=__doc__).read(words)
    if len(given.others) > 1:
        raise Refusal(f"one image is swept at a time: {given.others[0]} or {given.others[1]}.")
    told, request = given.values, Request(next(iter(given.others), None), wants_check="check" in given.flags)
    request.output, request.rows, request.plot, request.axes = (
        told[name] for name in ("output", "rows", "plot", "log"))
    request.values = {name: values_of(option, text) for name, option in table.options.items()
                      if (text := told[name]) is not None}
    request.jobs, request.shard, request.program = given.number("jobs"), shard_of(told["shard"]), told["sim"]
    if (request.image is None) == (request.rows is None):
        raise Refusal("it needs an IMAGE, or --rows CSV; ./fractal sweep --help has more.")
    return request


def main(words: list[str]) -> None:
    """Does what the arguments ask for."""
    table = Table()
    request = read_words(words, table)
    picture = picture_of(request.plot, request.axes, NUMBERS, table.options)
    need_outputs((request.output, picture.path if picture else None), (request.image, request.rows, request.program))
    rows = written_rows(request, table) if request.rows is None else read_rows(request.rows)
    if picture is not None:
        write_whole(picture.files(rows, request.rows or "this sweep"))
    if request.rows is None and rows and all(map(has_failed, rows)):
        first = f"with status {rows[0]['status']}" if rows[0]["commits"] == "" else "whose report was refused"
        raise Difference(f"each of {len(rows)} runs failed, the first {first}.")
