"""Runs the project's examples again and again with host threads, and has each report checked.

usage: ./fractal dev workers NAME... [--runs N] [--jobs N] [--sim FILE]
       ./fractal dev workers --all [--runs N] [--jobs N] [--sim FILE]

Each example is run N times with 2, with 4 and with 16 workers. Its line says how many different reports there were.
Each has to have the status of its end and to be accepted by `check`; otherwise the status is 1. Then `save` ends it
after half of its commits, as often: each saved image has to run to an accepted report, or the status has to be that
there is none (12).

  --all       all examples, which takes some minutes
  --runs N    how many runs are made (1 to 100,000; default 200)
  --jobs N    how many runs are made at once (1 to 1,024; default 1)
  --sim FILE  a built fractal_sim in place of this clone's
"""
from __future__ import annotations

from yotarimu.commands.dev import named
from yotarimu.common.words import Words
from yotarimu.programs.program import native_program
from yotarimu.programs.examples import EXAMPLES
from yotarimu.programs.workers import failures_of


def main(words: list[str]) -> int:
    """Does what the arguments ask for, and gives the status."""
    given = Words("dev workers", page=__doc__).read(words)
    names = named(given, EXAMPLES)
    program = native_program(given.values["sim"])
    failed = sum(failures_of(name, program, given.number("runs"), given.number("jobs")) for name in names)
    return 1 if failed else 0
