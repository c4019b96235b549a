"""Maintainers' commands, which test the programs and the tools beside CI.

usage: ./fractal dev COMMAND [ARGUMENT]...

  tries          integration tests of the launcher and the tools, in fresh clones
  workers        runs the examples again and again with host threads, and checks each report
  memory         runs the program with less and less memory
  allocations    refuses each allocation of a schedule in turn
  refusal        explains why a line of a script or of a report was refused; the launcher calls it
  table          lists commands, options, statuses and tools for scripts, a line each
  program        prints which program answers: kind, digest, commit, command

./fractal dev COMMAND --help describes each; the last two are the launcher's own..
"""
from __future__ import annotations

from typing import List, Sequence

from yotarimu.common.outcome import Refusal
from yotarimu.common.pages import command_names
from yotarimu.common.text import likely
from yotarimu.common.words import GivenWords


def main(words: List[str]) -> None:
    """Refuses arguments that name no maintainers' command; others are called before."""
    given = f"unknown command {words[0]}{likely(words[0], command_names('dev'))}" if words else "it needs a COMMAND;"
    raise Refusal(f"{given} ./fractal dev --help lists them.")


def named(given: GivenWords, known: Sequence[str]) -> Sequence[str]:
    """The names that a call gives, or all after --all: nothing long begins without an argument."""
    unknown = next((name for name in given.others if name not in known), None)
    if unknown is not None:
        raise Refusal(f"unknown NAME {unknown}{likely(unknown, known).rstrip('.')}; there are {', '.join(known)}.")
    if bool(given.others) == ("all" in given.flags):
        raise Refusal(f"it needs a NAME or --all; there are {', '.join(known)}.")
    return given.others or known
