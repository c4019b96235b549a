"""Checks the event logs of schedules against the replies, the length of the journal and the end that `fractal_sim`
prints, and line by line against what was worked out by hand, if a schedule's folder has that."""
from __future__ import annotations

import itertools
import json
import pathlib
from collections.abc import Iterable
from typing import Optional

from yotarimu.common.files import read_text
from yotarimu.common.outcome import Refusal
from yotarimu.common.places import EXAMPLES_FOLDER
from yotarimu.lines.fields import Line
from yotarimu.programs.calls import Calls, calls_at
from yotarimu.programs.examples import SCHEDULES, watched_words_of
from yotarimu.programs.program import SECOND, STATUSES, end_of
from yotarimu.reports.report import read_report

# What `steps` says of an event that `advance` made, where a line has the reply to that event.
MADE = ("moved", "committed")
# The mode whose input is an image and a script.
STEPS = "steps"


def replies_said(said: str, name: str) -> list[tuple[str, int]]:
    """The reply to each act, and how many tasks it aborted, in what `steps` wrote before its report."""
    pairs = [line.split() for line in said.partition("fractal 1\n")[0].splitlines()]
    try:
        return [("ok" if reply in MADE else reply, int(count)) for reply, count in pairs]
    except ValueError:
        raise Refusal(f"{name}: what is stored isn't what `steps` says: a line isn't a reply with a number.") from None


def lines_in(told: bytes) -> Optional[list[Line]]:
    """The lines of an event log; None if there are none, or if one isn't a JSON object."""
    try:
        lines = [json.loads(line) for line in told.splitlines()]
    except (ValueError, RecursionError):
        return None
    return lines if lines and all(isinstance(line, dict) for line in lines) else None


def replies_told(lines: Iterable[Line]) -> list[tuple[str, int]]:
    """The reply to each act, and how many tasks it aborted, in an event log."""
    return [(line["reply"], line.get("aborted", 0)) for line in lines if "reply" in line]


def worked_fault(folder: pathlib.Path, told: bytes) -> Optional[str]:
    """The first line that isn't the one worked out by hand; None where all are, or where a folder has none of these."""
    path = folder / "worked"
    worked = path.read_bytes() if path.exists() else told
    pairs = itertools.zip_longest(told.splitlines(True), worked.splitlines(True), fillvalue=b"")
    for number, (line, wanted) in enumerate(pairs, 1):
        if line != wanted:
            shown = line.decode("ascii", "backslashreplace").strip() or "nothing"
            return f"line {number} isn't the one worked out by hand: fractal_watch prints {shown}"
    return None


def retold_fault(calls: Calls, name: str) -> Optional[str]:
    """What is wrong with the event log of a schedule; None if it agrees with `fractal_sim`, and with what was worked
    out by hand."""
    folder = EXAMPLES_FOLDER / name
    said = read_text(folder / "said")
    words, given = watched_words_of(name), (folder / "image.bin").read_bytes()
    if STEPS in words:
        given += (folder / "script").read_bytes()
    status, written = calls.call(words, given)
    if fault := worked_fault(folder, written):
        return fault
    lines = lines_in(written)
    if lines is None:
        return f"fractal_watch, with status {status}, doesn't print a line of JSON for each act"
    if replies_told(lines) != replies_said(said, name):
        return "fractal_watch prints other replies than steps"
    report = "fractal 1\n" + said.partition("fractal 1\n")[2]
    end, entries = end_of(report.encode()), read_report(report, f"{name}: its report").entries
    if (lines[-1].get("end"), lines[-1].get("journal")) != (end, len(entries)):
        return "fractal_watch prints another end than steps"
    wanted = STATUSES.get(end, 0)
    return None if status == wanted else f"fractal_watch has the status {status}, not {wanted}"


def retold_schedules() -> list[tuple[str, Optional[str]]]:
    """Each schedule with what is wrong with its lines."""
    calls = calls_at(which=SECOND)
    return [(f"{name}, as an event log", retold_fault(calls, name)) for name in SCHEDULES]
