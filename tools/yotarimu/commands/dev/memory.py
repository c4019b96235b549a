"""Runs the program with less and less address space, from ample to none. Each run has to give its whole answer, or to
end with status 5 and write nothing.

usage: ./fractal dev memory NAME... [--sim FILE]
       ./fractal dev memory --all [--sim FILE]

NAME is run, workers, save, load, check, steps, trace or stack. `steps` and `trace` play each of the project's
schedules, the others take an example's image and a generated walk; `workers` is `run` with 4 host threads, and `save`
meets its commit limit: where it can save the run, and where it can't. `stack` runs the example with ample memory, 0 to
16 host threads, and a stack of 512 KiB for each, and has to give the whole answer each time.

  --all       all of them, which takes a minute or more
  --sim FILE  a built fractal_sim in place of this clone's

A line for each name says how many runs gave the whole answer, how many ended with status 5, and how many never
answered: they weren't started, by the system or by its loader, or a signal ended them. A thread that can't be started
shows nowhere, since its caller does its work. The status is 1 if a run answered anything else, or if status 5 never
came. It needs Linux.
"""
from __future__ import annotations

from yotarimu.commands.dev import named
from yotarimu.common.words import Words
from yotarimu.programs.program import native_program
from yotarimu.programs.limits import OUTCOMES
from yotarimu.programs.memory import NAMES, fall_of


def main(words: list[str]) -> int:
    """Does what the words of the call ask for, and gives the status."""
    given = Words("dev memory", page=__doc__).read(words)
    names, program, failed = named(given, NAMES), native_program(given.values["sim"]), 0
    for name in names:
        counts, faults = fall_of(name, program)
        runs = ", ".join(f"{counts[outcome]:,} {outcome}" for outcome in OUTCOMES)
        print(f"{name}: {sum(counts.values()):,} runs: {runs}", *faults, sep="\n  ", flush=True)
        failed += bool(faults)
    return 1 if failed else 0
