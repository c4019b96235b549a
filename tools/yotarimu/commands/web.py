"""Makes one file of HTML that has both proved programs inside, and one that is their command line for Node and Deno.

usage: ./fractal web [FOLDER]
       ./fractal web --compare | --hold [N] | --pictures | --modules

It writes FOLDER/fractal.html and FOLDER/fractal.mjs, by default to the current folder; or it does one of these:

  --compare   says whether the repository's fractal.html is the one that would be made now
  --hold [N]  compares the modules with the built programs, by Node: stored answers, schedules and the calls of N
              generated cases (0 to 10,000,000; default 1,000)
  --pictures  remakes the pictures in the documents, by Chromium and Node
  --modules   makes the modules of WebAssembly that both files contain from what is proved; ./fractal prove --web does

The page has the modules that were made here, or else those of the repository's page. It says which commit and which
sources they were built from. The modules are made by the toolchain's own clang and linker, from the very module of LLVM
that it makes of a proved program, and by wasm-opt of Debian's package binaryen, with a library of its package
libclang-rt-dev-wasm64. The page runs in any browser of the last years, from a disk and without a network. The status is
1 where --compare finds another page, or --hold another answer.
"""
from __future__ import annotations

import pathlib
from typing import List

from yotarimu.common.outcome import Refusal
from yotarimu.common.places import HOME
from yotarimu.common.words import need_number
from yotarimu.web.comparison import compare_all
from yotarimu.web.modules import PAGE, difference, make_files, make_modules
from yotarimu.web.pictures import make_pictures

# The launcher calls this behind ./fractal prove --web.
MODULES, COMPARE, HOLD, PICTURES = "--modules", "--compare", "--hold", "--pictures"
CASES, MOST_CASES, SEED = "1000", 10_000_000, 1
MOST_TOLD = 10


def main(words: List[str]) -> int:
    """Does what the words of the call ask for, and gives the status."""
    if words == [MODULES]:
        make_modules()
        return 0
    if words == [PICTURES]:
        make_pictures()
        return 0
    if words == [COMPARE]:
        return compare(HOME / PAGE)
    if words[:1] == [HOLD] and len(words) <= 2:
        return hold(need_number("N", (words[1:] or [CASES])[0], 0, MOST_CASES))
    if len(words) > 1 or words and words[0].startswith("-"):
        raise Refusal("it takes one FOLDER, or --compare, or nothing; ./fractal web --help says more.")
    make_files(pathlib.Path(words[0] if words else "."))
    return 0


def compare(path: pathlib.Path) -> int:
    """Says whether a page is the one that would be made now; the status is 1 where it isn't."""
    found = difference(path)
    if found is None:
        print(f"{path} is the page that would be made now, but for the commit that it names.")
        return 0
    print(f"{path} isn't the page that would be made now: {found}. ./fractal web {HOME} makes it anew.")
    return 1


def hold(count: int) -> int:
    """Compares the modules with the built programs, and prints the result; the status is 1 if they differ."""
    outcome = compare_all(count, SEED)
    for kind, times in outcome.counts.items():
        print(f"{times:,} calls: {kind}")
    for told in outcome.differences[:MOST_TOLD]:
        print(f"otherwise: {told}")
    print(f"{len(outcome.differences):,} calls were answered otherwise.")
    return 1 if outcome.differences else 0
