"""Plays the project's examples, its schedules and its table of answers, and compares what the program answers with what
is stored. Each report is handed back to be checked. Small applications are played too.

usage: ./fractal test [NAME]...     all where no NAME is given

NAME is one of the examples or schedules, or `answers`: calls for each status of each command, and for each fault of
docs/guest/FORMATS.md; and each schedule once more, reported act by act by fractal_watch, and compared line by line with
the file `worked` where its folder has one. Where Node or Deno runs the program, calls that want little memory or
devices that fail are left out.

NAME may also be `applications`: each of these leaves what a plain program finds from its small input, and its report is
accepted. That wants a compiler of C for RISC-V; without one they are left out, and the last line says so.

It writes nothing, and names what it accepts. The last line counts; the status is 0 where all went as stored.
"""
from __future__ import annotations

import time
from typing import Optional

from yotarimu.applications.small import small_faults, why_left_out
from yotarimu.common.outcome import Refusal
from yotarimu.programs.check import ANSWERS, PROVED, REMARKS, check, lines_of
from yotarimu.programs.examples import EXAMPLES, SCHEDULES
from yotarimu.programs.program import answering_program

APPLICATIONS = "applications"


def main(words: list[str]) -> int:
    """Does what the words of the call ask for, and gives the status."""
    known = (*EXAMPLES, *SCHEDULES, ANSWERS, APPLICATIONS)
    for word in words:
        if word not in known:
            raise Refusal(f"`{word}` is none of the project's examples and schedules, which are {', '.join(known)}.")
    names = list(dict.fromkeys(words or known))
    why = why_left_out() if APPLICATIONS in names else None
    if why is not None and words:
        raise Refusal(why)
    failed = APPLICATIONS in names and why is None and not are_right()
    stored = [name for name in names if name != APPLICATIONS]
    if stored:
        failed |= not are_as_stored(stored, why)
    return 1 if failed else 0


def are_right() -> bool:
    """Plays the small applications and reports on them; returns whether all are right."""
    faults = small_faults()
    print(*lines_of(APPLICATIONS, faults, "right"), sep="\n", flush=True)
    return not any(fault for _, fault in faults)


def are_as_stored(names: list[str], left_out: Optional[str]) -> bool:
    """Plays examples, schedules and answers, and reports on them, and why applications were skipped; returns whether
    all went as stored."""
    start, kind = time.monotonic(), answering_program().kind
    count, failed = check(names)
    remarks = [REMARKS.get(kind, PROVED)]
    if left_out is not None:
        remarks.insert(0, f"Applications were left out: {left_out}")
    print(f"{count - failed} of {count} answers are as stored, in {time.monotonic() - start:.0f} s.", *remarks)
    return not failed
