"""Draws a run as SVG: a row per core, a bar per attempt at a task, arrows to aborted tasks, commits along the bottom.

usage: ./fractal draw LINES [LISTING] [--by AXIS] [--cut] [--output PICTURE]

LINES is the event log that `./fractal watch` wrote; - is standard input. LISTING is that of the image, as ./fractal
build wrote it: its labels are those of tasks and of arrows. A bar goes from a task's dispatch to its fate: green with a
check mark if it commits, red with slanted lines if it is aborted; a thin bar below is an attempt that is finished and
waits to commit. An arrow goes from the access to each task that it aborts, dashed to those aborted along with these.
Each bar shows its task in words when pointed at. The page draws the same picture.

  --by AXIS          what the axis counts: rounds or acts (default rounds for lockstep, otherwise acts)
  --cut              draws a log that breaks off before its end; otherwise such a log is refused

    cat IMAGE SCRIPT | ./fractal watch steps --tiles 2 --cores 1 > lines
    ./fractal draw lines LISTING --output picture.svg
"""
from __future__ import annotations

from yotarimu.common.outcome import Refusal
from yotarimu.common.words import Words
from yotarimu.images.listing import NO_LISTING
from yotarimu.lines.reader import open_lines
from yotarimu.pictures import timeline
from yotarimu.pictures.history import history_of
from yotarimu.pictures.page import read_rows

ROUNDS, ACTS = "rounds", "acts"


def main(words: list[str]) -> None:
    """Does what the arguments ask for."""
    given = Words("draw", page=__doc__).read(words)
    path, *listing = given.need("LINES and perhaps a LISTING", 1, 2)
    by = given.values["by"]
    with open_lines(path, "cut" in given.flags) as watched:
        names = read_rows(listing[0], watched.head)[0] if listing else NO_LISTING
        history = history_of(watched)
    if by == ROUNDS and watched.head["course"] != "lockstep":
        raise Refusal(f"{path}: only a run in lockstep has rounds; leave --by out.")
    print(timeline.draw(history, names, watched.head["course"] == "lockstep" and by != ACTS), end="")
