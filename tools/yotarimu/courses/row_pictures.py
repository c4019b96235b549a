"""Pictures of the rows of a sweep or a study: plots, and stacked bars of where core time went."""
from __future__ import annotations

import dataclasses
import os
import shutil
import subprocess
from collections.abc import Collection, Mapping, Sequence
from typing import Optional

from yotarimu.common.files import encode
from yotarimu.common.outcome import Refusal
from yotarimu.common.text import likely
from yotarimu.figures.columns import COLUMNS, USES
from yotarimu.pictures import bars, plot

LEAST_PLOTTED, MOST_PLOTTED = 1e-9, 1e15
# What rows have beside options that tells them apart.
INPUTS = ("input", "image")
# So many names are listed where one is refused; of more the help page tells.
MOST_LISTED = 12
ALL_CORES, SEED = "all-cores", "seed"
OPTION_NAMES = {
    ALL_CORES: "Cores", "tiles": "Tiles", "cores": "Cores of each tile", "line": "Line (bytes)",
    "task-queue": "Task queue (tasks of each tile)", "commit-queue": "Commit queue (tasks of each tile)",
    "quantum": "Quantum (instructions of a step)", "phase": "Phase (commits)", "commits": "Limit (commits)",
    "budget": "Budget (instructions of a task)", "seed": "Seed", "starved": "Starved rounds", "workers": "Host threads"}
UNITS = {"fewer": " (times)", "speedup": " (times)", "wasted": " (% of instructions executed)", "seconds": " (s)"}
SHARE = " (% of core time)"
# From the bottom of a bar up: useful work is dark, aborted work has patterns, and what is idle is light.
LOOKS = {
    "committed": ("#1f4e79", ""), "true": ("#c0504d", "rising"), "false": ("#f28e2b", "falling"),
    "cascade": ("#e8b4b2", "crossed"), "task-queue": ("#f7d08a", "across"), "commit-queue": ("#f7e3b5", "upright"),
    "core": ("#fff2cc", "squares"), "stalled-task-queue": ("#7f7f7f", ""),
    "stalled-commit-queue": ("#a6a6a6", "across"),
    "waiting": ("#cfe3f3", ""), "empty": ("#ffffff", ""), "unfinished": ("#d9d9d9", "rising")}
CONVERTER = "rsvg-convert"
Rows = Sequence[Mapping[str, str]]


def files_of(path: str, drawn: str) -> dict[str, bytes]:
    """A picture as the bytes of a file, which is SVG unless its name ends in .pdf or .png."""
    kind = next((kind for kind in ("pdf", "png") if path.endswith(f".{kind}")), None)
    if kind is None:
        return {path: encode(drawn)}
    command = shutil.which(CONVERTER)
    if command is None:
        raise Refusal(f"{path}: {CONVERTER} isn't installed, which makes {kind.upper()} of SVG; name a file .svg.")
    # The date in a PDF is fixed, so that the same picture is the same bytes.
    done = subprocess.run([command, "-f", kind, *(["-z", "2"] if kind == "png" else [])], input=encode(drawn),
                          capture_output=True, check=False, env={**os.environ, "SOURCE_DATE_EPOCH": "0"})
    if done.returncode:
        raise Refusal(f"{path}: {CONVERTER} ended with status {done.returncode}.")
    return {path: done.stdout}


@dataclasses.dataclass(frozen=True)
class Picture:
    """A plot that is asked for: a column against an option, and which of the axes are logarithmic."""
    column: str
    option: str
    path: str
    axes: str

    def files(self, rows: Rows, origin: str) -> dict[str, bytes]:
        """The plot of rows, as the bytes of a file; `origin` says whose rows they are."""
        images = list(dict.fromkeys(row.get("image", "") for row in rows))
        series = series_of(rows, self.column, self.option, origin)
        panels = [plot.Panel("", series, self.limit(rows), self.is_ideal_shown())]
        if len(images) > 1:
            panels = [self.panel(image, rows, origin) for image in images]
        head = COLUMNS[self.column].head if self.column in COLUMNS else self.column.capitalize()
        unit = SHARE if self.column.startswith("time-") else UNITS.get(self.column, "")
        option = OPTION_NAMES.get(self.option, f"--{self.option}")
        return files_of(self.path, plot.draw_panels(panels, option, head + unit, self.axes))

    def panel(self, image: str, rows: Rows, origin: str) -> plot.Panel:
        """The panel of one image."""
        own = [row for row in rows if row["image"] == image]
        title = image.removesuffix(".bin").removesuffix("/image")
        return plot.Panel(title, series_of(own, self.column, self.option, origin, rows), self.limit(own),
                          self.is_ideal_shown())

    def is_ideal_shown(self) -> bool:
        """Whether a line shows where both axes are equal."""
        return self.column == "speedup" and self.option == ALL_CORES

    def limit(self, rows: Rows) -> Optional[float]:
        """The most that dependences allow of a speed-up: in steps, or in instructions if each step is one."""
        if self.column != "speedup":
            return None
        name = "one" if all(row.get("--quantum") == "1" for row in rows) else "one-steps"
        return max((float(row[name]) for row in rows if row.get(name)), default=None)


@dataclasses.dataclass(frozen=True)
class BarPicture:
    """Stacked bars that are asked for: where core time went, a bar for each choice."""
    path: str

    def files(self, rows: Rows, origin: str) -> dict[str, bytes]:
        """The bars of rows, as the bytes of a file."""
        shares = [f"time-{name}" for name in USES]
        groups: dict[str, dict[str, list[list[float]]]] = {}
        names = varying_names(rows, "tiles")
        for row in rows:
            if any(row.get(name, "") == "" for name in shares):
                continue
            group = ", ".join(label_of(name, row) for name in names if name != "--cores")
            cores = str(int(row["--tiles"]) * int(row["--cores"]))
            groups.setdefault(group, {}).setdefault(cores, []).append([float(row[name]) for name in shares])
        if not groups:
            raise Refusal(f"no row of {origin} says where core time went, so there is nothing to draw.")
        drawn = {group: {name: [sum(part) / len(part) for part in zip(*found)] for name, found in bar.items()}
                 for group, bar in groups.items()}
        parts = [bars.Part(USES[name].value, *LOOKS[name]) for name in USES]
        is_fine = all(row.get("--quantum") == "1" for row in rows)
        unit = "core-instructions" if is_fine else "core-rounds"
        return files_of(self.path, bars.draw(drawn, parts, "Cores", f"Core time (% of {unit})"))


def label_of(name: str, row: Mapping[str, str]) -> str:
    """How a column distinguishes a row: the image's name, or an option with its value."""
    if name in INPUTS:
        return row[name].removesuffix(".bin").removesuffix("/image")
    return f"{name} {row[name]}"


def picture_of(text: Optional[str], axes: Optional[str], columns: Collection[str],
               options: Collection[str]) -> Optional[Picture]:
    """The plot that COLUMN,OPTION,FILE and the letters of logarithmic axes mean; None where none is asked for."""
    if axes is not None and (axes not in plot.AXES or text is None):
        raise Refusal(f"--log takes {', '.join(plot.AXES)} beside --plot, and not `{axes}`.")
    if text is None:
        return None
    column, option, path = (text.split(",", 2) + ["", ""])[:3]
    if not path:
        raise Refusal(f"--plot takes COLUMN,OPTION,FILE, and not `{text}`.")
    for name, known, what in ((column, columns, "a column of numbers"), (option, [*options, ALL_CORES], "an option")):
        if name not in known:
            others = f"there are {', '.join(known)}" if len(known) <= MOST_LISTED else "--help lists all"
            fault = f"`{name}` isn't {what}; {others}{likely(name, known)}"
            raise Refusal(f"--plot takes COLUMN,OPTION,FILE, and {fault}")
    return Picture(column, option, path, axes or "")


def varying_names(rows: Rows, option: str) -> list[str]:
    """The columns of inputs and options, but for one and for seeds, that have several values."""
    left_out = {f"--{option}", f"--{SEED}"} | ({"--tiles", "--cores"} if option == ALL_CORES else set())
    names = [name for name in rows[0] if name in INPUTS or name.startswith("--") and name not in left_out]
    return [name for name in names if len({row.get(name) for row in rows}) > 1]


def place_of(row: Mapping[str, str], option: str) -> float:
    """Where a row is on the axis of an option."""
    if option == ALL_CORES:
        return plot_number(row["--tiles"]) * plot_number(row["--cores"])
    return plot_number(row[f"--{option}"])


def series_of(rows: Rows, column: str, option: str, origin: str,
              all_rows: Optional[Rows] = None) -> dict[str, list[tuple[float, float]]]:
    """The points of the rows that have the column, by the choice of all that varies beside the option. With `all_rows`
    the rows are those of one image of them."""
    needed = ("--tiles", "--cores") if option == ALL_CORES else (f"--{option}",)
    if not rows or any(name not in row for row in rows for name in (column, *needed)):
        raise Refusal(f"the rows of {origin} have no columns {column} and --{option}.")
    varying = [name for name in varying_names(all_rows or rows, option) if not all_rows or name not in INPUTS]
    series: dict[str, list[tuple[float, float]]] = {}
    try:
        for row in rows:
            if row[column] != "":
                choice = ", ".join(f"{name} {row.get(name)}" for name in varying)
                series.setdefault(choice, []).append((place_of(row, option), plot_number(row[column])))
    except ValueError:
        raise Refusal(f"a row of {origin} has no number that can be plotted under {column} or --{option}.") from None
    if not series:
        raise Refusal(f"no row of {origin} has a number under {column}, so there is nothing to plot.")
    return series


def plot_number(text: str) -> float:
    """The number that a text is, of a size for which a picture has ticks."""
    number = float(text)
    if number and not LEAST_PLOTTED <= abs(number) <= MOST_PLOTTED:
        raise ValueError
    return number
