"""Calls of the program under less and less address space, from ample to none."""
from __future__ import annotations

import collections
import pathlib
import sys
from typing import NamedTuple, Optional

from yotarimu.common.outcome import is_at_terminal
from yotarimu.common.places import EXAMPLES_FOLDER
from yotarimu.images.image import image_bytes
from yotarimu.images.loads import generate
from yotarimu.programs.examples import SCHEDULES
from yotarimu.programs.limits import MOST, NO_MEMORY, OUT_OF_MEMORY, WHOLE, Call

EXAMPLE = "nested"
WALK = ("walk", "7", "2000")
NAMES = ("run", "workers", "save", "load", "check", "steps", "trace", "stack")
# The stack that each run has enough of, whatever the number of workers, as docs/guest/TASKS.md says.
LEAST_STACK, WORKERS = 512 << 10, ("0", "1", "2", "4", "8", "16")
# Room for the entries of so many tasks is made before a run; with room for a million, little else shows.
FEW = ("--commits", "10000")
# After so many commits the example can be saved, and after so many it can't.
CUT, NESTED = "4", "2"


class NamedCall(NamedTuple):
    """A call of the program: what names it, its words, and what it reads."""
    told: str
    words: tuple[str, ...]
    given: bytes


def calls_of(name: str, program: pathlib.Path) -> list[NamedCall]:
    """The calls that a command is tried by, or the workers of `run`."""
    if name in ("steps", "trace"):
        return [schedule_of(name, schedule) for schedule in SCHEDULES]
    if name == "load":
        return [NamedCall("walk", (name, *WALK), b""), NamedCall("walk", (name, *WALK, *FEW), b""),
                NamedCall("nest", (name, "nest", "0", "50", *FEW), b"")]
    example = (EXAMPLES_FOLDER / EXAMPLE / "image.bin").read_bytes()
    kind, seed, size = WALK
    walk = image_bytes(generate(kind, int(seed), int(size)))
    if name == "save":
        return [NamedCall(EXAMPLE, (name, "--commits", CUT), example),
                NamedCall(EXAMPLE, (name, "--commits", NESTED), example),
                NamedCall("walk", (name, "--commits", "1000"), walk)]
    if name == "check":
        return [NamedCall(EXAMPLE, (name,), example + (EXAMPLES_FOLDER / EXAMPLE / "report").read_bytes()),
                NamedCall("walk", (name,), walk + Call(program, ("run",), walk).written)]
    words = ("run", "--workers", "4") if name == "workers" else (name,)
    return [NamedCall(EXAMPLE, words, example), NamedCall(EXAMPLE, (*words, *FEW), example),
            NamedCall("walk", (*words, *FEW), walk)]


def schedule_of(name: str, schedule: str) -> NamedCall:
    """The call that plays a schedule by a command."""
    folder = EXAMPLES_FOLDER / schedule
    words = (folder / "words").read_text().split()[1:]
    given = (folder / "image.bin").read_bytes() + (folder / "script").read_bytes()
    return NamedCall(schedule, (name, *words, *FEW), given)


def fall_of(name: str, program: pathlib.Path) -> tuple[collections.Counter[Optional[str]], list[str]]:
    """How many runs of a name's calls had each outcome, and what was wrong, a text each."""
    if name == "stack":
        return on_least_stack(program)
    counts: collections.Counter[Optional[str]] = collections.Counter()
    faults = []
    for told, words, data in calls_of(name, program):
        for limit, outcome in Call(program, words, data).fall():
            counts[outcome.kind] += 1
            if outcome.kind is None and outcome.said is not None:
                status, written = outcome.said
                shown = written[-60:].decode("ascii", "backslashreplace").strip()
                faults.append(f"{told}, {' '.join(words)}, under {limit:,} bytes: status {status} and `{shown}`")
                break
            show_limit(f"{name} of {told} under {limit:,} bytes")
    show_limit("")
    if counts[OUT_OF_MEMORY] == 0:
        faults.append(f"status {NO_MEMORY} never came")
    return counts, faults


def on_least_stack(program: pathlib.Path) -> tuple[collections.Counter[Optional[str]], list[str]]:
    """The same of runs with ample memory and the least stack."""
    counts: collections.Counter[Optional[str]] = collections.Counter()
    faults = []
    data = (EXAMPLES_FOLDER / EXAMPLE / "image.bin").read_bytes()
    for workers in WORKERS:
        kind = Call(program, ("run", "--workers", workers), data).outcome(MOST, LEAST_STACK).kind
        counts[kind] += 1
        if kind is not WHOLE:
            faults.append(f"{EXAMPLE} with {workers} workers, on a stack of {LEAST_STACK:,} bytes: {kind or 'a fault'}")
    return counts, faults


def show_limit(text: str) -> None:
    """On a terminal one line, which is written again and again."""
    if is_at_terminal():
        print(f"\r\x1b[K{text}", end="", file=sys.stderr, flush=True)
