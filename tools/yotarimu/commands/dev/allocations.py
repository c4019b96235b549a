"""Refuses each allocation of a schedule in turn. Each run has to end with status 5 and write nothing, or to give its
whole answer.

usage: ./fractal dev allocations NAME... [--sim FILE]
       ./fractal dev allocations --all [--sim FILE]

NAME is a schedule:
  conflict    a reader, its child and a writer that comes later and is to come first
  children    64 children for a task queue of 4, up to the end of the run
  four_cores  a full task queue without an idle task, in a tile of four cores

  --all       all of them, which takes some seconds
  --sim FILE  a built fractal_sim in place of this clone's

A line for each name says how many allocations the schedule makes, and how many runs with one of them refused had which
outcome. The status is 1 if a run answered anything else, a signal ended it, or status 5 never came. It needs cc and the
GNU C library.
"""
from __future__ import annotations

from yotarimu.commands.dev import named
from yotarimu.common.words import Words
from yotarimu.programs.allocations import NAMES, Refuser, refuse_each
from yotarimu.programs.program import native_program
from yotarimu.programs.limits import KILLED, OUT_OF_MEMORY, WHOLE


def main(words: list[str]) -> int:
    """Does what the words of the call ask for, and gives the status."""
    given = Words("dev allocations", page=__doc__).read(words)
    names, program, failed = named(given, NAMES), native_program(given.values["sim"]), 0
    with Refuser() as library:
        for name in names:
            count, counts, faults = refuse_each(name, program, library)
            told = ", ".join(f"{counts[outcome]:,} {outcome}" for outcome in (OUT_OF_MEMORY, WHOLE, KILLED))
            print(f"{name}: {count:,} allocations, each refused once: {told}", *faults[:20], sep="\n  ", flush=True)
            failed += bool(faults)
    return 1 if failed else 0
