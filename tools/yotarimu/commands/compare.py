"""Runs an image under many settings, and compares what each run leaves with the serial run, or with expected bytes.

usage: ./fractal compare IMAGE [--runs N] [--seed N] [--parts LIST] [--OPTION VALUES]... [FURTHER]...

A program whose tasks have all the order that they need leaves the same memory and output, and ends in the same way,
under each setting. N runs are made, of four kinds in turn, and the first that differs is reported: where, which tasks
stored there last in both runs, and the turn at which their orders part. The status is 1 then.

  serial      in another order of the tasks with equal timestamps: that of creation, the reverse, or shuffled
  lockstep    rounds shuffled by a seed, with a filter and options, as ./fractal watch lockstep makes them
  least       one event after another for the least task, with other options
  workers     with host threads

  --OPTION VALUES         an option of the programs, or --filter: only these values are taken, as in ./fractal sweep;
                          --budget and --commits have one value, for all runs
  --runs N                how many runs are made (1 to 100,000; default 64)
  --seed N                chooses other settings (0 to 1,000,000; default 0)
  --parts LIST            what is compared, with commas between (default memory,output,end)
  --expect WHAT,..        what the serial run is to leave: FILE has the bytes of the data from its start, LABEL:FILE
                          those from a label on, output:FILE the output
  --reduce FILE           writes a smaller image that still fails to FILE, and the instructions that are left of it
  --jobs N                how many runs at once, by default one per processor (1 to 1,024)
  --sim FILE              names a built fractal_sim in place of the one that answers here
  --watch FILE            names a built fractal_watch in the same way
"""
from __future__ import annotations

import os
import pathlib
from collections.abc import Mapping, Sequence
from typing import Optional

from yotarimu.common.files import need_outputs, read_bytes, write_whole
from yotarimu.common.outcome import Refusal, is_at_terminal, note
from yotarimu.common.progress import show_line, show_progress
from yotarimu.common.words import Words
from yotarimu.comparing.comparison import Found, differing, sentences, unexpected
from yotarimu.comparing.expectations import expectations_in
from yotarimu.comparing.reduction import instruction_lines, judge_of, reduce, size_text
from yotarimu.comparing.results import PARTS
from yotarimu.comparing.runs import Made, Programs, Runner
from yotarimu.comparing.settings import LEAST, SHARED, Setting, settings
from yotarimu.courses.grid import values_of
from yotarimu.images.image import Image, image_bytes, read_image
from yotarimu.images.labels import listing_for
from yotarimu.images.listing import Listing
from yotarimu.programs.calls import calls_at
from yotarimu.programs.program import SECOND
from yotarimu.programs.table import Table, Value

NAME = "compare"


def parts_in(text: Optional[str]) -> tuple[str, ...]:
    """The parts that are compared."""
    parts = PARTS if text is None else tuple(text.split(","))
    for part in parts:
        if part not in PARTS:
            raise Refusal(f"--parts takes {', '.join(PARTS)} with commas between, and not `{part}`.")
    return parts


def reduced(found: Found, image: Image, programs: Programs, parts: tuple[str, ...], path: str,
            listing: Listing) -> None:
    """Writes a smaller image that fails in the same way, and prints what is left of it."""
    judge = judge_of(found, image, programs, parts)
    smaller = reduce(image, judge, lambda it: show_line(f"reduce: {size_text(it)}") if is_at_terminal() else None)
    if is_at_terminal():
        show_line("")
    write_whole({pathlib.Path(path): image_bytes(smaller)})
    again = judge.found(smaller)
    print(f"{path}: {size_text(smaller)}, of {size_text(image)}"
          + (f"; `{again.setting}` differs still:" if again else ":"))
    print(*instruction_lines(smaller, listing), sep="\n")


def expected(text: Optional[str], made: Made, image: Image, serial: Setting, listing: Listing) -> Optional[Found]:
    """Where the serial run leaves something else than is expected; None where it doesn't."""
    differences = (it.difference(made.result) for it in expectations_in(text, image, listing))
    difference = next(filter(None, differences), None)
    return Found(serial, difference, made.entries or ()) if difference else None


def main(words: list[str]) -> int:
    """Does what the words of the call ask for, and gives the status."""
    table = Table()
    given = Words(NAME, table.mode_options, page=__doc__).read(words)
    path, = given.need("an IMAGE", 1)
    told, parts = given.values, parts_in(given.values["parts"])
    values = {name: values_of(option, text) for name, option in table.mode_options.items()
              if (text := told[name]) is not None}
    if wrong := next((name for name in SHARED if len(values.get(name, [0])) > 1), None):
        raise Refusal(f"--{wrong} takes one value here, since all runs have the same.")
    runs, seed = given.number("runs"), given.number("seed")
    jobs = given.number("jobs", unless_given=os.cpu_count() or 1)
    need_outputs([told["reduce"]], [path])
    image = read_image(read_bytes(path), path)
    listing, remark = listing_for(path, image, None)
    if remark is not None:
        note(remark)
    programs = Programs(calls_at(told["sim"]), calls_at(told["watch"], SECOND))
    return compare(Runner(image, programs), list(settings(runs, seed, values, table)), values, parts, jobs, told,
                   listing)


def compare(runner: Runner, chosen: list[Setting], values: Mapping[str, Sequence[Value]], parts: tuple[str, ...],
            jobs: int, told: dict[str, Optional[str]], listing: Listing) -> int:
    """Makes all runs, and prints what is found; gives the status."""
    image = runner.image
    serial = Setting(LEAST, 0, {name: values[name][0] for name in SHARED if name in values})
    made = runner.run(serial)
    reference = runner.entries_of(serial, made)
    if wrong := expected(told["expect"], made, image, serial, listing):
        print(*unexpected(wrong, image, listing), sep="\n")
        return 1

    def tell(done: int) -> None:
        if is_at_terminal():
            show_progress(NAME, done, len(chosen))

    found = differing(runner, made.result, chosen, parts, jobs, tell)
    if found is None:
        left = made.result
        print(f"{len(chosen):,} runs leave what the serial run does: {len(left.memory):,} bytes of memory, "
              f"{len(left.output):,} of output, end {left.end}.")
        return 0
    print(*sentences(found, image, reference, listing), sep="\n")
    if told["reduce"] is not None:
        reduced(found, image, runner.programs, parts, told["reduce"], listing)
    return 1
