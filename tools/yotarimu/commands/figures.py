"""Sums up event logs of runs: which work was wasted, what aborted tasks, and how parallel a run is.

usage: ./fractal figures LINES... [--image IMAGE] [--listing LISTING] [--csv FILE] [--plot FILE] [--log AXES]
                         [--histogram NAME,FILE]
       ./fractal figures --script SCRIPT OUTPUT... [--csv FILE] [--plot FILE]

Each LINES is a whole event log that `./fractal watch` wrote; - is standard input. docs/machine/FIGURES.md says what
each figure is, and what of a log is checked against the lines before it.

  --image IMAGE          the image of the run: each leg is replayed on its text, and each byte of its data is known;
                         settings that no line confirms are named, since an edit of them isn't noticed
  --listing LISTING      that of the image, as ./fractal build wrote it: addresses are shown by their labels
  --csv FILE             the same numbers as CSV, a row for each figure, with all lines, addresses, values and curves
  --plot FILE            a plot (SVG) of how many tasks are where, over rounds in lockstep and otherwise over events
  --log AXES             the plot's axes that are logarithmic (x, y or xy)
  --histogram NAME,FILE  a histogram (SVG) of what tasks have that committed: instructions, loads, stores, lines read,
                         lines written, children
  --script SCRIPT        sums up what `./fractal steps` wrote, each OUTPUT, when it played this script: acts by reply,
                         tasks aborted and by which act, dispatches, stalls, commits; the plot is of commits over acts
"""
from __future__ import annotations

import csv
import dataclasses
import io
import time
from collections.abc import Iterable
from typing import Optional

from yotarimu.common.files import encode, need_outputs, read_bytes, read_text, read_written, write_whole
from yotarimu.common.outcome import Refusal, is_at_terminal, say
from yotarimu.common.text import without_controls
from yotarimu.common.words import GivenWords, Words
from yotarimu.courses.schedules import acts_a_round, read_played, read_script
from yotarimu.figures import feeders, tables
from yotarimu.figures.tally import Tally, acts_by_reply, plain_rows, summary
from yotarimu.figures.run import Figures, read_figures
from yotarimu.figures.tasks import SPREADS
from yotarimu.images.image import read_image
from yotarimu.images.listing import NO_LISTING, Listing, read_listing
from yotarimu.lines.replay import unconfirmed_sentence
from yotarimu.pictures import histogram, plot


@dataclasses.dataclass
class Request:
    """What the arguments ask for."""
    names: list[str]
    image: Optional[str]
    listing: Optional[str]
    csv: Optional[str]
    plot: Optional[str]
    axes: str
    histogram: Optional[str] = None
    histogram_of: str = ""


def read_request(given: GivenWords) -> Request:
    """The request that the arguments make."""
    names, told = given.need("LINES, one log or more", 1, max(1, len(given.others))), given.values
    if len(set(names)) < len(names):
        raise Refusal("a log of LINES is given twice.")
    if told["log"] is not None and told["plot"] is None:
        raise Refusal("--log needs --plot.")
    request = Request(names, told["image"], told["listing"], told["csv"], told["plot"], told["log"] or "")
    if told["histogram"] is not None:
        request.histogram_of, _, path = told["histogram"].partition(",")
        if request.histogram_of not in SPREADS or not path or len(names) > 1:
            raise Refusal(f"--histogram must be NAME,FILE with one log, where NAME is {', '.join(SPREADS)}, not "
                          f"{told['histogram']}.")
        request.histogram = path
    need_outputs((request.csv, request.plot, request.histogram), (*names, request.image, request.listing))
    return request


def read_runs(request: Request) -> dict[str, Figures]:
    """The figures of each event log. Prints on a terminal how long reading took."""
    start = time.monotonic()
    image = None if request.image is None else read_image(read_bytes(request.image), request.image)
    runs = {name: read_figures(name, image) for name in request.names}
    if is_at_terminal():
        lines, seconds = sum(it.text_lines for it in runs.values()), time.monotonic() - start
        say("figures", f"{lines:,} lines in {seconds:.1f} s, {lines / seconds:,.0f} a second.")
    return runs


def print_tables(runs: dict[str, Figures], listing: Listing) -> None:
    """Prints the tables of all runs."""
    print(*tables.summary(runs), "", *tables.taken_tasks(runs), "", *tables.stalls(runs), sep="\n")
    for name, it in runs.items():
        of_run = f" of {name}" if len(runs) > 1 else ""
        if causes := tables.causes(it):
            print("", f"Direct causes of aborts{of_run}, and their root causes:", "", *causes, sep="\n")
        if it.taken_back.lines:
            print("", f"Where loads and stores aborted tasks{of_run}:", "",
                  *tables.places(it, listing), sep="\n")
        print("", f"What the tasks{of_run} are like:", "", *tables.spreads(it), "", *tables.domains(it), "",
              *tables.entries(it, listing), "", *tables.accesses(it), sep="\n")
        print("", f"How many tasks were where{of_run}:", "", *tables.occupancy(it), sep="\n")
        if rates := tables.rates(it):
            print("", *rates, sep="\n")
    print("", *tables.parallelism(runs), sep="\n")
    for name, it in runs.items():
        if told := feeders.sentence(it.feeders, it.limits):
            print("", f"{name}: {told}" if len(runs) > 1 else told, sep="\n")


def print_unconfirmed(runs: dict[str, Figures]) -> None:
    """Prints which settings of each run the reader can't know."""
    for name, it in runs.items():
        print("", unconfirmed_sentence(it.unconfirmed, name if len(runs) > 1 else ""), sep="\n")


def files_of(request: Request, runs: dict[str, Figures]) -> dict[str, bytes]:
    """The files that are asked for."""
    files: dict[str, bytes] = {}
    first = runs[request.names[0]]
    if request.plot is not None:
        picture = plot.draw(tables.curves(runs), first.occupancy.over(), "tasks", request.axes)
        files[request.plot] = encode(picture)
    if request.histogram is not None:
        bars = list(first.tasks.spreads[request.histogram_of].bars())
        files[request.histogram] = encode(histogram.draw(bars, f"{request.histogram_of} of a task", "tasks"))
    if request.csv is not None:
        files[request.csv] = csv_text(tables.plain_rows(runs))
    return files


def csv_text(rows: Iterable[Iterable[object]]) -> bytes:
    """Rows as the bytes of a file of CSV."""
    text = io.StringIO()
    csv.writer(text, lineterminator="\n").writerows(rows)
    return encode(text.getvalue())


def sum_up_script(script: str, given: GivenWords) -> None:
    """Sums up what was written when a script was played."""
    outputs = given.need("one OUTPUT of the script or more", 1, max(1, len(given.others)))
    if len(set(outputs)) < len(outputs):
        raise Refusal("an OUTPUT is given twice.")
    path, csv_path = given.values["plot"], given.values["csv"]
    need_outputs((path, csv_path), (script, *outputs))
    acts = read_script(read_text(script), script)
    if not acts:
        raise Refusal(f"{script}: this script has no act, so there is nothing to sum up.")
    rounds = acts_a_round(acts)
    tallies = {without_controls(name): Tally(read_played(acts, read_text(name), name), rounds) for name in outputs}
    print(*summary(tallies), sep="\n")
    for name, tally in tallies.items():
        print("", f"Acts of {name} by reply:" if len(tallies) > 1 else "Acts by reply:", "", *acts_by_reply(tally),
              sep="\n")
    curves = {name if len(tallies) > 1 else "": tally.curve for name, tally in tallies.items()}
    made = {path: plot.draw(curves, "acts", "commits").encode(), csv_path: csv_text(plain_rows(tallies))}
    write_whole({file: data for file, data in made.items() if file is not None})


def main(words: list[str]) -> None:
    """Does what the arguments ask for."""
    given = Words("figures", page=__doc__).read(words)
    if given.values["script"] is not None:
        sum_up_script(given.values["script"], given)
        return
    request = read_request(given)
    listing = NO_LISTING if request.listing is None else read_listing(read_written(request.listing), request.listing)
    runs = read_runs(request)
    if request.plot is not None and len({it.occupancy.over() for it in runs.values()}) > 1:
        raise Refusal("one plot has no place for rounds and events: --plot takes texts in lockstep, or none of them.")
    files = files_of(request, runs)
    print_tables(runs, listing)
    if request.image is not None:
        print_unconfirmed(runs)
    write_whole(files)
