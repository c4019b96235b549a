"""A run as objects, for a notebook or your own script; docs/guide/LIBRARY.md shows how to begin.

    image = build("mine")                        # what a folder of sources makes
    report = run(image, tiles=2)                 # the journal, the output, the window and the end
    lines = watch(image, "least", tiles=2)       # each act of the run, and its figures
    table = rows({"two tiles": lines.figures()}) # a row for each figure

Options are those of the program, with `_` for `-`. What can't be done raises Refusal, whose text is a sentence.
"""
from __future__ import annotations

import importlib
import io
import pathlib
from collections.abc import Iterator, Mapping, Sequence
from typing import Any, NamedTuple, Optional, Union

from yotarimu.common.files import FilePath, read_bytes
from yotarimu.common.outcome import Refusal
from yotarimu.common.text import likely
from yotarimu.figures.run import Figures, figures_of
from yotarimu.figures.tables import plain_rows
from yotarimu.images.compiler import GCC, Compilers
from yotarimu.images.folder import build as build_folder
from yotarimu.images.image import Image, image_bytes
from yotarimu.images.image import read_image as read_image_bytes
from yotarimu.lines.fields import Line, Shapes
from yotarimu.lines.reader import Reader
from yotarimu.programs.calls import calls_at
from yotarimu.programs.program import FIRST, SECOND, STATUSES, Answer
from yotarimu.programs.table import Table, Value
from yotarimu.reports.report import Report
from yotarimu.reports.report import read_report as read_report_text

Row = dict[str, object]


class Lines(NamedTuple):
    """The event log of a run, as bytes. A loop over a `reader` has each act as an object, while its `machine` is as it
    is after that act."""
    data: bytes

    def __repr__(self) -> str:
        """How many lines there are, and the last one."""
        lines = self.data.splitlines()
        last = lines[-1].decode("ascii", "replace")[:100] if lines else "nothing"
        return f"an event log of {len(lines):,} lines, which ends with\n{last}"

    def lines(self) -> Iterator[Line]:
        """Each line by its fields, from the head to the end."""
        shapes = Shapes()
        for text in self.data.decode("ascii", "replace").splitlines():
            yield shapes.line_of(text)

    def reader(self) -> Reader:
        """A reader of the lines, from the first one on."""
        return Reader(io.BytesIO(self.data), "a run")

    def figures(self) -> Figures:
        """The figures of the run."""
        return figures_of(self.reader())


def read_image(path: FilePath) -> Image:
    """The image of a file."""
    return read_image_bytes(read_bytes(path), path)


def build(folder: FilePath, compiler: str = GCC) -> Image:
    """Writes the image and the listing of a folder's sources, and gives the image."""
    return build_folder(pathlib.Path(folder), Compilers(compiler))[0]


def run(image: Image, program: Optional[FilePath] = None, **options: Value) -> Report:
    """The report of the image's run, by the program at a path or the one that answers here."""
    answer = ask(FIRST, ["run"], image, program, options)
    return read_report_text(answer.written.decode("ascii", "replace"), "run")


def watch(image: Image, mode: str = "least", program: Optional[FilePath] = None, **options: Value) -> Lines:
    """The event log of a run in a mode: `least`, or `lockstep ROUNDS SEED`."""
    return Lines(ask(SECOND, mode.split(), image, program, options).written)


def ask(which: str, words: Sequence[str], image: Image, program: Optional[FilePath],
        options: Mapping[str, Value]) -> Answer:
    """What a program answers to arguments on an image; refuses an unknown option, and a status without an answer."""
    table = Table()
    known = table.mode_options if which == SECOND else table.options
    for name in options:
        if name.replace("_", "-") not in known:
            raise Refusal(f"unknown argument {name}{likely(name, (it.replace('-', '_') for it in known))}")
    given = [f"--{name.replace('_', '-')}" for name in options]
    arguments = [*words, *(word for name, value in zip(given, options.values()) for word in (name, str(value)))]
    answer = calls_at(None if program is None else str(program), which).call(arguments, image_bytes(image))
    if answer.status not in STATUSES.values():
        said = answer.written[:200].decode("ascii", "replace").strip()
        raise Refusal(f"`{' '.join(arguments)}` ended with status {answer.status}{said and f': {said}'}.")
    return answer


def rows(runs: Mapping[str, Figures]) -> list[Row]:
    """The figures of runs by name, a row each; docs/machine/FIGURES.md says what each is."""
    names, *cells = plain_rows(dict(runs))
    return [dict(zip(map(str, names), row)) for row in cells]


def frame(table: Sequence[Row]) -> Union[Sequence[Row], Any]:
    """The rows as a data frame of pandas, where that is installed; else the rows themselves."""
    try:
        pandas = importlib.import_module("pandas")
    except ImportError:
        return table
    return pandas.DataFrame(table)
