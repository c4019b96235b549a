"""Runs of an application's image, and what they leave."""
from __future__ import annotations

import dataclasses
import time
from typing import Sequence

from yotarimu.applications.application import Problem
from yotarimu.applications.image import ApplicationImage
from yotarimu.applications.memory import Memory, WrongMemory
from yotarimu.common.outcome import Difference
from yotarimu.programs.calls import Calls
from yotarimu.programs.final_memory import memory_left
from yotarimu.programs.program import end_of


@dataclasses.dataclass(frozen=True)
class Run:
    """A run that ended normally: how many tasks committed, and how long it took and its check."""
    commits: int
    seconds: float
    check_seconds: float


def run(calls: Calls, made: ApplicationImage, options: Sequence[str]) -> Run:
    """Runs an image, and has its report checked."""
    start = time.monotonic()
    status, report = calls.call(["run", *options], made.image)
    seconds = time.monotonic() - start
    if end_of(report) != "normal":
        how = f"`end {end_of(report)}`" if end_of(report) else f"with status {status}"
        raise Difference(f"the run ended otherwise: {how}.")
    start = time.monotonic()
    commits = commits_of(report)
    judged = answer_of(calls, ["check", *options], made.image + report)
    if judged != b"check ok %d\n" % commits:
        raise Difference(f"the report is refused: {judged.decode('ascii', 'replace').strip()}.")
    return Run(commits, seconds, time.monotonic() - start)


def answer_of(calls: Calls, words: Sequence[str], data: bytes) -> bytes:
    """What the program writes to a call that has to go well."""
    status, written = calls.call(words, data)
    if status != 0 or written.startswith(b"fault"):
        raise Difference(f"`{' '.join(words)}` ended with status {status}.")
    return written


def commits_of(report: bytes) -> int:
    """How many tasks took their turns: the number of the last line on one."""
    number = report[:report.rfind(b"\noutput ")].rpartition(b"\n")[2].partition(b" ")[0]
    return int(number) if number.isdigit() else 0


def check(second: Calls, made: ApplicationImage, problem: Problem) -> str:
    """Holds the memory that a run leaves against plain programs, and says what was found right."""
    left = memory_left(second, made.image)
    if left.end != "normal":
        raise Difference(f"the run ended otherwise: {left.end}.")
    try:
        return problem.check(Memory(left.data, made.places))
    except WrongMemory as wrong:
        raise Difference(f"what the run left is wrong: {wrong}.") from None
