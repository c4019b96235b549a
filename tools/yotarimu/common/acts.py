"""The acts of a script in one table, from which all lists of acts in the tools come: docs/guest/FORMATS.md has them.

An act is at most one event. `.ci/lint` compares the table with that page, the grammar of the crates, the sentences, and
the page's own lists.
"""
from __future__ import annotations

from typing import NamedTuple

# The reply of an act that is too late, of all but `take`.
ENDED = "ended"


class ActKind(NamedTuple):
    """The properties of an act: how many numbers follow its word, a tile and a core of it; whether event logs have it
    as an event of its own; its replies before the run's end, and the fields of its own line."""
    numbers: int
    is_event: bool
    replies: tuple[str, ...]
    told: tuple[str, ...]


# A step may also stall, if its task requests a child or its end. A leg that is given is logged as a step, and what
# `advance` does under the word of the event.
ACTS = {
    "dispatch": ActKind(1, True, ("ok", "empty", "busy"), ("ok", "empty", "busy")),
    "step": ActKind(2, True, ("ok", "stall", "stale"), ("ok", "stale")),
    "take": ActKind(2, False, ("ok", "stale"), ("ok", "stale")),
    "give": ActKind(2, False, ("ok", "stall", "stale"), ("stale",)),
    "abort": ActKind(1, True, ("ok", "empty", "firm"), ("ok", "empty", "firm")),
    "commit": ActKind(0, True, ("ok", "empty"), ("ok", "empty")),
    "coalesce": ActKind(1, True, ("ok", "empty"), ("ok", "empty")),
    "split": ActKind(1, True, ("ok", "empty", "stall"), ("ok", "empty", "stall")),
    "advance": ActKind(0, False, ("moved", "committed"), ()),
}
# The replies of all acts that were done, and of those that weren't.
DONE = ("ok", "moved", "committed")
REFUSALS = ("empty", "busy", "stall", "stale", "firm", ENDED)
NAMES_OF_NUMBERS = ("T", "C")


def replies_of(word: str) -> tuple[str, ...]:
    """What a script may be answered to an act."""
    return ACTS[word].replies + (() if word == "take" else (ENDED,))


def form_of(word: str) -> str:
    """An act as people type it, with a tile T and a core C."""
    return " ".join((word, *NAMES_OF_NUMBERS[:ACTS[word].numbers]))
