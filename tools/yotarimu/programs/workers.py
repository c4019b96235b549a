"""Runs with host threads, again and again, each of which has to be right."""
from __future__ import annotations

import collections
import pathlib
import re
from collections.abc import Sequence
from typing import Callable, Optional

from yotarimu.common.outcome import is_at_terminal
from yotarimu.common.places import EXAMPLES_FOLDER
from yotarimu.common.progress import show_progress
from yotarimu.images.image import read_image
from yotarimu.programs.calls import Calls
from yotarimu.programs.pieces import LIMIT, NESTED
from yotarimu.programs.program import STATUSES, Answer, end_of

WORKERS = (2, 4, 16)


def answers_of(program: pathlib.Path, image: bytes, words: Sequence[str], runs: int, jobs: int,
               name: str) -> collections.Counter[Answer]:
    """How often each status and text came."""
    counts: collections.Counter[Answer] = collections.Counter()
    calls = Calls((str(program),))
    for done, (_, answer) in enumerate(calls.each(lambda _: calls.call(words, image), range(runs), jobs), 1):
        counts[answer] += 1
        if is_at_terminal():
            show_progress(name, done, runs)
    return counts


def fault_of(program: pathlib.Path, image: bytes, answer: Answer) -> Optional[str]:
    """What is wrong with a status and a report; None where it is a run's."""
    status, report = answer
    if status != STATUSES.get(end_of(report)):
        return f"ended with status {status} and `{report[-60:].decode('ascii', 'backslashreplace').strip()}`"
    status, told = Calls((str(program),)).call(["check"], image + report)
    if status != 0:
        return f"was refused: {told.decode('ascii', 'replace').strip() or f'`check` ended with status {status}'}"
    return None


def fault_of_saved(program: pathlib.Path, commits: int, answer: Answer) -> Optional[str]:
    """What is wrong with what `save` answered at a commit limit below the run's length; None where all is right."""
    status, written = answer
    if status == NESTED and re.fullmatch(rb"fault nested [0-9]+\n", written):
        return None
    if status != LIMIT:
        return f"`save --commits {commits}` ended with status {status}"
    read_image(written, "a saved image")
    fault = fault_of(program, written, Calls((str(program),)).call(["run"], written))
    return fault and f"an image that was saved after {commits} commits {fault}"


def try_runs(told: str, program: pathlib.Path, image: bytes, words: Sequence[str], runs: int, jobs: int,
             fault_of_answer: Callable[[Answer], Optional[str]]) -> bool:
    """Runs these arguments, prints a line, and returns whether all runs are right."""
    counts = answers_of(program, image, words, runs, jobs, told)
    found = [(count, fault_of_answer(answer)) for answer, count in counts.items()]
    faults = [f"{count} of {runs} {fault}" for count, fault in found if fault]
    kinds = "one answer" if len(counts) == 1 else f"{len(counts)} different answers"
    print(f"{told}: {'; '.join(faults) or f'{runs} runs accepted, {kinds}'}", flush=True)
    return not faults


def failures_of(name: str, program: pathlib.Path, runs: int, jobs: int) -> int:
    """Prints a line for each way to run an example with host threads, and returns how many went wrong."""
    image = (EXAMPLES_FOLDER / name / "image.bin").read_bytes()
    # Half of the example's commits; none of an example with one. The first line of a report isn't an entry.
    commits = ((EXAMPLES_FOLDER / name / "report").read_bytes().partition(b"output ")[0].count(b"\n") - 1) // 2
    failed = 0
    for workers in WORKERS:
        told, by = f"{name} with {workers} workers", ["--workers", str(workers)]
        failed += not try_runs(told, program, image, ["run", *by], runs, jobs,
                               lambda answer: fault_of(program, image, answer))
        if commits:
            failed += not try_runs(f"{told}, saved after {commits}", program, image,
                                   ["save", "--commits", str(commits), *by], runs, jobs,
                                   lambda answer: fault_of_saved(program, commits, answer))
    return failed
