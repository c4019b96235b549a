"""The text that `fractal_watch` prints for `counts`: the head, lines of counts, and the end. docs/guest/FORMATS.md has
the fields.

`CountsText` reads it line by line. A number that stopped at its maximum can't be summed, so asking for it as a number
is refused.
"""
from __future__ import annotations

import json
from collections.abc import Iterator
from typing import IO, Any, Optional

from yotarimu.common.files import MOST_READ, FilePath
from yotarimu.common.outcome import Refusal
from yotarimu.lines.fields import Line, Shapes, WrongLine
from yotarimu.lines.reader import need_head

ACTS = ("dispatch", "step", "take", "give", "abort", "commit", "coalesce", "split", "advance")
ACCESSES = ("loads", "stores", "bytes")
CAUSES = ("load", "store", "commit_queue", "task_queue", "core", "asked")
PLACES = ("queued", "running", "stalled", "trapped", "finished", "spilled")
# The groups of a line by their names, with the numbers of each, and its lists, with how many numbers each has.
GROUPS: dict[str, tuple[str, ...]] = {
    "work": ("executed", "useful", "wasted", "left", "refused"),
    "run": ("acts", "rounds", "advances", "opening", "spilled"),
    "stalls": ("task_queue", "commit_queue", "split"), "made": ACTS, "told": ACTS, "passed": ACTS,
    "committed": ACCESSES, "undone": ACCESSES, "taken": CAUSES, "discarded": CAUSES, "now": PLACES,
    "over_events": PLACES, "over_rounds": PLACES, "greatest": PLACES}
LISTS = {"commits_ordered": 16, "commits_unordered": 16, "made_ordered": 16, "made_unordered": 16, "lengths": 17,
         "tile_useful": 16, "tile_wasted": 16, "tile_taken": 16}
# What stands in the place of a number that stopped.
STOPPED = "stopped"


def is_count(value: object) -> bool:
    """Whether a value is a number that a line of counts may have, or says that it stopped."""
    return value == STOPPED or isinstance(value, int) and not isinstance(value, bool) and 0 <= value < (1 << 64) - 1


def need_counts(line: Line) -> None:
    """Refuses a line whose groups or numbers aren't those of counts, in their order."""
    if list(line) != ["counts", *GROUPS, *LISTS] or not is_count(line["counts"]):
        raise WrongLine("these aren't the groups of counts")
    for name, numbers in GROUPS.items():
        group = line[name]
        if not isinstance(group, dict) or tuple(group) != numbers or not all(map(is_count, group.values())):
            raise WrongLine(f"`{name}` hasn't the numbers of its group")
    for name, length in LISTS.items():
        found = line[name]
        if not isinstance(found, list) or len(found) != length or not all(map(is_count, found)):
            raise WrongLine(f"`{name}` isn't a list of {length} counts")


class CountsText:
    """A text of counts. Its head is read at once; a turn of its loop is a line of counts. `last` is the latest of them,
    and `end` the last line of the text, once all was read."""

    def __init__(self, file: IO[bytes], name: FilePath) -> None:
        self.file, self.name, self.number = file, name, 0
        self.last: Optional[dict[str, Any]] = None
        self.end: Optional[Line] = None
        self.head = Shapes().line_of(self.next_text())
        try:
            need_head(self.head)
        except WrongLine as wrong:
            raise Refusal(f"{name}:1: {wrong}.") from None

    def next_text(self) -> str:
        """The next line without its newline."""
        data = self.file.readline(MOST_READ)
        if not data.endswith(b"\n"):
            raise Refusal(f"{self.name}: it was cut behind line {self.number}.")
        self.number += 1
        return data[:-1].decode("ascii", "replace")

    def __iter__(self) -> Iterator[dict[str, Any]]:
        while self.end is None:
            text = self.next_text()
            try:
                if text.startswith('{"counts":'):
                    line = json.loads(text)
                    need_counts(line)
                    self.last = line
                    yield line
                else:
                    self.close(Shapes().line_of(text))
            except (WrongLine, ValueError) as wrong:
                raise Refusal(f"{self.name}:{self.number}: {wrong}.") from None

    def close(self, line: Line) -> None:
        """Takes the last line, and checks it against the last counts."""
        if "end" not in line or self.last is None:
            raise WrongLine("behind the counts comes the end, and nothing else")
        if (line["n"], line["journal"]) != (self.last["counts"], self.last["made"]["commit"]):
            raise WrongLine("the end has other events or commits than the counts")
        self.end = line

    def all(self) -> dict[str, Any]:
        """The counts of the whole text."""
        for _ in self:
            pass
        assert self.last is not None
        return self.last


def number_of(line: dict[str, Any], group: str, name: str) -> int:
    """A number of a line of counts; refuses one that stopped."""
    value = line[group][name]
    if value == STOPPED:
        raise Refusal(f"the count `{name}` of `{group}` stopped at its greatest.")
    number: int = value
    return number
