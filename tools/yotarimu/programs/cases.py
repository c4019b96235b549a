"""Calls with the answers that they are to give, played on the program that answers."""
from __future__ import annotations

import itertools
import os
from collections.abc import Iterator, Sequence
from typing import Optional

from yotarimu.common.places import EXAMPLES_FOLDER
from yotarimu.programs.answers import Case
from yotarimu.programs.calls import calls_at
from yotarimu.programs.examples import SCHEDULES, words_of
from yotarimu.programs.program import STATUSES, end_of
from yotarimu.reports.report import read_report


def cases_of(name: str) -> Iterator[Case]:
    """The calls of an example or a schedule: it is played, and its report handed back to be checked."""
    folder = EXAMPLES_FOLDER / name
    image = (folder / "image.bin").read_bytes()
    if name in SCHEDULES:
        words, given = words_of(name), image + (folder / "script").read_bytes()
        stored = (folder / "said").read_bytes()
    else:
        words, given, stored = ["run"], image, (folder / "report").read_bytes()
    yield Case(name, tuple(words), given, STATUSES.get(end_of(stored), 0), stored)
    report = stored[stored.index(b"fractal 1\n"):] if b"fractal 1\n" in stored else b""
    count = len(read_report(report.decode("utf-8", "replace"), f"{name}: its report").entries)
    yield Case(f"{name}: its report is checked", ("check",), image + report, 0, f"check ok {count}\n".encode())


def fault_of(case: Case, status: int, text: bytes) -> Optional[str]:
    """What is wrong with an answer; None where it is the one that is wanted."""
    if text != case.text:
        pairs = itertools.zip_longest(text.split(b"\n"), case.text.split(b"\n"))
        line = next(place for place, (new, old) in enumerate(pairs, 1) if new != old)
        return f"its {case.words[0]} writes something else than what is stored, from line {line} on"
    return None if status == case.status else f"its {case.words[0]} has the status {status}, and not {case.status}"


def play(cases: Sequence[Case]) -> Iterator[tuple[Case, Optional[str]]]:
    """Each case with what is wrong with its answer, in order."""
    calls = calls_at()
    for case, answer in calls.each(lambda case: calls.call(case.words, case.given), cases, os.cpu_count() or 1):
        yield case, fault_of(case, *answer)
