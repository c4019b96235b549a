"""Says why the program refused a line of a script or of a report, in a sentence.

usage: ./fractal dev refusal 'fault script LINE' steps|trace [--OPTION VALUE]... < INPUT
       ./fractal dev refusal 'fault journal LINE' check [--OPTION VALUE]... < INPUT

The first argument is what the program said, the others are those of its call, and INPUT is its input: an image
followed by the script or the report. The launcher calls it if standard input is a file, which can be read again.
"""
from __future__ import annotations

from yotarimu.common.files import read_bytes
from yotarimu.common.outcome import Refusal
from yotarimu.reports.refusals import why


def main(words: list[str]) -> int:
    """Does what the words of the call ask for, and gives the status."""
    if len(words) < 2:
        raise Refusal("it needs the program's output and its COMMAND; ./fractal dev refusal --help says more.")
    print(why(words[0].strip(), words[1:], read_bytes("-")))
    return 0
