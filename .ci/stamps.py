"""How many files the toolchain reads to decide whether a crate's library is still good.

It reads the crate's files and then, for each crate that the line of crates.txt lists, that crate's in the same way,
with no memory of what it has read: so a file is read once for each path that leads to it. Listing an upper crate twice,
directly and through another crate, doubles all that is below it.

A check also makes some twenty modules of each function that its crate passes on by `pub use`, once for each path by
which it is passed on; so those functions are counted too.
"""
from __future__ import annotations

import functools
import pathlib
import re
from collections.abc import Iterator

from yotarimu.common.places import HOME

# The levels reached. Lower them when they have fallen; before raising one, look for an edge that can go.
MOST_IN_ALL = 1_770_000
MOST_OF_ONE = 238_000
MOST_PASSED_ON = 752

PASSED_ON = re.compile(r"^pub use ((?:\w+::)*)(\w+);", re.M)
FUNCTION = re.compile(r"^\s*(?:pub(?:\(crate\))? )?(?:const )?fn ", re.M)


@functools.lru_cache(maxsize=None)
def listed() -> dict[str, tuple[str, ...]]:
    """The crates of this repository that each crate lists."""
    lines = [line.partition("#")[0] for line in (HOME / "crates.txt").read_text(encoding="utf-8").splitlines()]
    named = {head.split()[0]: rest.split() for head, _, rest in (line.partition(":") for line in lines) if head.strip()}
    return {name: tuple(it for it in rest if it in named) for name, rest in named.items()}


@functools.lru_cache(maxsize=None)
def reads_of(crate: str) -> int:
    """How many files are read for one stamp of a crate."""
    folders = [HOME / "crates" / crate / part for part in ("src", "specs", "proofs")]
    own = sum(path.is_file() for folder in folders for path in folder.rglob("*"))
    return own + sum(map(reads_of, listed()[crate]))


def sources_of(crate: str) -> Iterator[pathlib.Path]:
    """The files of a crate's code."""
    return (HOME / "crates" / crate / "src").rglob("*.rt")


@functools.lru_cache(maxsize=None)
def functions_behind(crate: str) -> int:
    """How many functions can be reached through a crate: its own, and those of each crate that it passes on."""
    own = sum(len(FUNCTION.findall(path.read_text(encoding="utf-8"))) for path in sources_of(crate))
    root = HOME / "crates" / crate / "src" / "lib.rt"
    text = root.read_text(encoding="utf-8") if root.is_file() else ""
    return own + sum(functions_behind(name) for _, name in PASSED_ON.findall(text) if name in listed())


def notes_on_stamps() -> Iterator[tuple[str, bool]]:
    """What is said of the file reads, and whether there are more of them than there may be."""
    reads = {crate: reads_of(crate) for crate in listed()}
    most, total = max(reads, key=lambda crate: reads[crate]), sum(reads.values())
    yield (f"stamps: {total:,} file reads for one stamp of each crate, and {MOST_IN_ALL:,} may be", total > MOST_IN_ALL)
    yield (f"stamps: {reads[most]:,} of them for {most}, and {MOST_OF_ONE:,} may be", reads[most] > MOST_OF_ONE)
    behind = {crate: functions_behind(crate) for crate in listed()}
    widest = max(behind, key=lambda crate: behind[crate])
    yield (f"stamps: {behind[widest]:,} functions are reached through {widest}, and {MOST_PASSED_ON:,} may be",
           behind[widest] > MOST_PASSED_ON)
