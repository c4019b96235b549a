"""What the program's numbers and words mean: causes of traps, ends, faults, replies."""
from __future__ import annotations

import re
from typing import Optional

from yotarimu.common.sentences import SENTENCES
from yotarimu.images.image import Limits
from yotarimu.programs.table import Table

# A trap's cause, and what usually leads to it, with the limits of the image's version.
CAUSES = {int(cause): tuple(texts) for cause, texts in SENTENCES["causes"].items()}
ENDS = {end: text for end, text in SENTENCES["ends"].items() if end != "trap"}
# The words of causes that an image's version decides, where that isn't known.
EITHER: dict[str, object] = SENTENCES["either version"]
# What a reply says, where it isn't what was asked for.
REPLIES = {
    "empty": "there is nothing to do it with",
    "busy": "no core is free",
    "stall": "a queue is full",
    "stale": "no task runs there, or no leg is held",
    "firm": "the least task is never aborted",
    "spent": "the run may make no more events",
    "ended": "the run was over",
    "moved": "an event was made",
    "committed": "a task committed",
}
IMAGE_FAULTS = {int(number): text for number, text in SENTENCES["image faults"].items()}


def told_without_report(text: str) -> Optional[str]:
    """What the program's lines that aren't a report mean; None if the text isn't one of them."""
    line = text.strip()
    if found := re.fullmatch("check ok ([0-9]{1,10})", line):
        return f"The report is that of a run; {tasks_told(int(found[1]))}."
    if found := re.fullmatch("fault image ([0-9]) ([0-9]{1,10})", line):
        fault = IMAGE_FAULTS.get(int(found[1]), "its fault is unknown")
        return f"The image was refused at its byte {found[2]}: {fault}."
    if found := re.fullmatch("fault journal ([0-9]{1,10})", line):
        return f"The report was refused: its line {found[1]} is the first that is wrong."
    if found := re.fullmatch("fault script ([0-9]{1,10})", line):
        return f"The script was refused: its line {found[1]} is the first outside the grammar."
    if found := re.fullmatch("fault nested ([0-9]{1,10})", line):
        return (f"No image was saved: a task pends in a subdomain, at depth {found[1]}; "
                "another --commits may cut elsewhere.")
    if found := re.fullmatch("fault tasks ([0-9]{1,10})", line):
        return f"No image was saved: {int(found[1]):,} tasks pend, and an image has 65,536 at most."
    statuses = {"fault usage": 1, "fault long": 10}
    if line in statuses:
        return f"The program ran nothing: {Table().statuses[statuses[line]]}."
    return None


def tasks_told(count: int) -> str:
    """How many tasks took their turns."""
    return "1 task took its turn" if count == 1 else f"{count:,} tasks took their turns"


def cause_told(cause: int, limits: Optional[Limits]) -> tuple[str, str]:
    """A cause in words, and what usually leads to it; without limits, those of either version."""
    if cause not in CAUSES:
        return "an unknown cause", "a newer program"
    words = words_of(limits) if limits else EITHER
    meaning, usual = CAUSES[cause]
    return meaning.format(**words), usual.format(**words)


def words_of(limits: Limits) -> dict[str, object]:
    """The words of causes that an image's version decides."""
    return {"readable": "text, data and stack" if limits.stack else "text and data",
            "writable": "data and stack" if limits.stack else "the data",
            "stack": f"more than {limits.stack:,} bytes of stack" if limits.stack else "a stack that version 1 lacks",
            "depth": limits.depth, "child": f"{limits.children + 1}th"}
