"""Integration tests of ./fractal, its tools and the scripts of bench/, each in a fresh clone of what is committed.

usage: ./fractal dev tries TEST... [--jobs N]     those whose names contain one of these texts
       ./fractal dev tries --all [--jobs N]
       ./fractal dev tries --list [TEST]...

  --all     runs all, which takes up to 20 minutes on four processors
  --list    prints their names, each with what it tests, and runs none
  --jobs N  how many run at once, by default one per processor (1 to 64)

The status is 1 if one fails. They need the toolchain, git, the built programs, GNU binutils, gcc and clang for RISC-V,
qemu's user mode, and Chromium; those that need what isn't installed are left out, and counted. RISCV_TESTS may name a
folder of the public riscv-tests, whose tests of RV32I are then run as tasks.
"""
from __future__ import annotations

import collections
import os
import time
from typing import Callable, Optional

from yotarimu.common.crew import Crew
from yotarimu.common.outcome import Refusal
from yotarimu.common.words import Words

from tries import (
    applications, build, c_tasks, causes, comparing, conforming, contents, core_time, counts, debug, documents,
    evaluations, explain, figures, gate, instruction_set, interrupts, launcher, lockstep, packages, pages, resume,
    schedules, studies, sweep, watch, web, words)
from tries.place import Failure, Omission, Place

Attempt = Callable[[Place], None]
PARTS = (launcher, words, packages, build, c_tasks, instruction_set, contents, applications, explain, gate, sweep,
         resume, comparing, conforming, schedules, lockstep, studies, evaluations, watch, counts, core_time, causes,
         debug, figures, pages, web, interrupts, documents)
TRIES: list[Attempt] = [attempt for part in PARTS for attempt in part.TRIES]
OK, FAILED, LEFT_OUT = "ok", "FAILED", "left"


def verdict_of(attempt: Attempt) -> tuple[str, Optional[str], float]:
    """How a test went, why if it failed, and how many seconds it took."""
    start, place = time.monotonic(), Place()
    verdict, why = OK, None
    try:
        attempt(place)
    except Failure as failed:
        verdict, why = FAILED, str(failed)
    except Omission as left_out:
        verdict, why = LEFT_OUT, str(left_out)
    finally:
        place.remove()
    return verdict, why, time.monotonic() - start


def main(words: list[str]) -> int:
    """Does what the arguments ask for, and gives the status."""
    given = Words("dev tries", page=__doc__).read(words)
    texts, is_list = given.others, "list" in given.flags
    if not texts and not given.flags:
        raise Refusal("which TEST is to run? --all runs all, in up to 20 minutes; --list prints their names.")
    chosen = [attempt for attempt in TRIES if not texts or any(text in attempt.__name__ for text in texts)]
    if not chosen:
        raise Refusal("no test has such a name; ./fractal dev tries --list prints all.")
    if is_list:
        print(*(f"{attempt.__name__}: {attempt.__doc__}" for attempt in chosen), sep="\n")
        return 0
    counts: collections.Counter[str] = collections.Counter()
    crew = Crew(lambda attempt, _tell: verdict_of(attempt), given.number("jobs", unless_given=os.cpu_count() or 1))
    for news in crew.each(chosen):
        (verdict, why, seconds), attempt = news.what, chosen[news.place]
        counts[verdict] += 1
        print(f"{verdict:<7}{seconds:5.1f} s  {attempt.__name__}: {attempt.__doc__}", flush=True)
        if why:
            print(f"        {why}", flush=True)
    left_out = f", {counts[LEFT_OUT]} need what isn't installed and were left out" if counts[LEFT_OUT] else ""
    print(f"{counts[OK]} passed, {counts[FAILED]} failed{left_out}.")
    return 1 if counts[FAILED] else 0
