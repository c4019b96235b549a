"""The project's own examples, and the schedules that it plays."""
from __future__ import annotations

import pathlib
from collections.abc import Iterable

from yotarimu.common.files import read_text
from yotarimu.common.outcome import Refusal
from yotarimu.common.places import EXAMPLES_FOLDER

EXAMPLES = ("hello", "fork_join", "pipeline", "reduction", "nested", "trap", "recursion", "shortest_paths") + tuple(
    f"c/{name}" for name in ("shortest_paths", "breadth_first", "tree_of_sums", "quicksort", "bank", "wrong_total"))
SCHEDULES = tuple(f"schedules/{name}" for name in (
    "conflict", "by_hand", "stale_leg", "kept_trap", "commit_queue", "commit_wait", "stall", "four_cores", "two_lines",
    "two_lines_apart", "livelock", "one_word", "domains_by_hand", "rounds_by_hand"))


def words_of(schedule: str) -> list[str]:
    """The words with which the program plays a schedule."""
    return words_in(EXAMPLES_FOLDER / schedule / "words")


def watched_words_of(schedule: str) -> list[str]:
    """The arguments with which `fractal_watch` plays a schedule: those of `fractal_sim`, unless it has its own."""
    path = EXAMPLES_FOLDER / schedule / "watch_words"
    return words_in(path) if path.exists() else words_of(schedule)


def words_in(path: pathlib.Path) -> list[str]:
    """The words of a call that a file has."""
    words = read_text(path).split()
    if not words or not all(word.isascii() and word.isprintable() for word in words):
        raise Refusal(f"{path}: these aren't arguments of a call, as `steps --tiles 2` is one.")
    return words


def with_sources(names: Iterable[str]) -> list[str]:
    """Those of the folders that have sources of their own; the others share an image."""
    return [name for name in names if any(path.suffix in (".s", ".c") for path in (EXAMPLES_FOLDER / name).iterdir())]
