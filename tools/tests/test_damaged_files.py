"""Damaged files: each reader answers with a result or with a sentence, and never with a traceback.

usage: python3 -m tests.test_damaged_files [--cases N] [KIND]...     in tools/; N files of each kind, default 5,000
"""
from __future__ import annotations

import collections
import contextlib
import os
import pathlib
import random
import signal
import tempfile
import unittest
from typing import Iterator, Optional

from yotarimu.common.outcome import Refusal, run_script
from yotarimu.common.words import Words
from yotarimu.courses.exercise_texts import WrongAnswer

from tests.damage import damaged
from tests.damaged_kinds import KINDS, Right

OF_UNIT_TESTS, OF_CALLS, MOST_CASES = 200, 5_000, 1_000_000
# By the clock, which goes on while other processes have the processor.
MOST_SECONDS = 120
# A sentence may cite a word of a file, and no more.
MOST_TOLD = 10_000
TAKEN, REFUSED = "taken", "refused"


class Hang(BaseException):
    """A reader took too long."""


@contextlib.contextmanager
def quiet() -> Iterator[None]:
    """Drops what commands print."""
    with open(os.devnull, "w", encoding="utf-8") as sink:
        with contextlib.redirect_stdout(sink), contextlib.redirect_stderr(sink):
            yield


@contextlib.contextmanager
def soon() -> Iterator[None]:
    """Raises Hang where it lasts too long."""
    def stop(_number: int, _frame: object) -> None:
        raise Hang

    before = signal.signal(signal.SIGALRM, stop)
    signal.alarm(MOST_SECONDS)
    try:
        yield
    finally:
        signal.alarm(0)
        signal.signal(signal.SIGALRM, before)


def outcome_of(right: Right, path: pathlib.Path, chance: random.Random) -> str:
    """The outcome of reading a file: it is accepted, or refused in a sentence; all else is an error."""
    try:
        with soon(), quiet():
            right.read(path, chance)
    except (Refusal, WrongAnswer) as refused:
        told = str(refused)
        if not told.strip() or len(told) > MOST_TOLD:
            raise AssertionError(f"a sentence of {len(told)} letters: {told[:200]}") from None
        return REFUSED
    return TAKEN


def counts_of(kind: str, cases: int, faults: Optional[list[str]] = None) -> collections.Counter[str]:
    """How many damaged files of a kind were taken, and how many refused. Faults are collected, or raised."""
    counts: collections.Counter[str] = collections.Counter()
    all_right = KINDS[kind]()
    with tempfile.TemporaryDirectory() as place:
        for case in range(cases):
            chance = random.Random(f"{kind} {case}")
            right = all_right[case % len(all_right)]
            path = pathlib.Path(place, right.name)
            path.write_bytes(damaged(right.data, chance, right.is_text))
            try:
                counts[outcome_of(right, path, chance)] += 1
            except (Exception, Hang) as error:
                if faults is None:
                    raise AssertionError(f"{kind}, case {case}: {error!r}") from error
                counts["faults"] += 1
                faults.append(fault_told(kind, case, error))
    return counts


def fault_told(kind: str, case: int, error: BaseException) -> str:
    """Where an error was raised, and by which case."""
    trace = error.__traceback__
    while trace is not None and trace.tb_next is not None:
        trace = trace.tb_next
    place = f"{pathlib.Path(trace.tb_frame.f_code.co_filename).name}:{trace.tb_lineno}" if trace else ""
    return f"{kind}, case {case}: {place}: {str(error)[:200] or error!r} ({type(error).__name__})"


class DamagedFiles(unittest.TestCase):
    """Files with some bytes changed."""
    def test_each_is_read_or_refused(self) -> None:
        for kind in KINDS:
            with self.subTest(kind):
                if not KINDS[kind]():
                    self.skipTest("what reads these isn't installed")
                self.assertGreater(counts_of(kind, OF_UNIT_TESTS)[REFUSED], 0)

    def test_right_files_are_taken(self) -> None:
        for kind, all_right in KINDS.items():
            for place, right in enumerate(all_right()):
                with self.subTest(kind, place=place), tempfile.TemporaryDirectory() as folder:
                    path = pathlib.Path(folder, right.name)
                    path.write_bytes(right.data)
                    try:
                        with quiet():
                            right.read(path, random.Random(0))
                    except WrongAnswer:
                        pass


def main(words: list[str]) -> int:
    """Does what the words of the call ask for, and gives the status."""
    given = Words("test_damaged_files", ["cases"], door="python3 -m tests.").read(words)
    cases, faults = given.number("cases", 1, MOST_CASES, OF_CALLS), list[str]()
    for kind in given.others or KINDS:
        if kind not in KINDS or not KINDS[kind]():
            raise Refusal(f"`{kind}` isn't known or can't be read here; the kinds are {', '.join(KINDS)}.")
        counts = counts_of(kind, cases, faults)
        print(f"{kind}: {cases:,} files, " + ", ".join(f"{count:,} {what}" for what, count in sorted(counts.items())),
              flush=True)
    print(*faults, sep="\n")
    return 1 if faults else 0


if __name__ == "__main__":
    run_script("test_damaged_files", main)
