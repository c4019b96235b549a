"""The options that name compilers: `--gcc PATH` and `--clang PATH`, and `--clang` alone for the one in the path."""
from __future__ import annotations

import os
import shutil
from collections.abc import Callable, Sequence

from yotarimu.common.outcome import Refusal
from yotarimu.images.compiler import CLANG, GCC, Compilers


def take_compilers(words: Sequence[str], is_other: Callable[[str], bool]) -> tuple[Compilers, list[str]]:
    """The compilers that words name, and the other words. A word after `--clang` that `is_other` knows, or that isn't
    a program, isn't its value."""
    found: dict[str, str] = {}
    others, left = list[str](), list(words)
    while left:
        word = left.pop(0)
        name, mark, value = word.partition("=")
        if name not in ("--gcc", "--clang"):
            others.append(word)
            continue
        if name in found:
            raise Refusal(f"`{name}` is given twice.")
        if not mark and left and not left[0].startswith("-") and not is_other(left[0]) and is_program(left[0]):
            value = left.pop(0)
        if not value and (mark or name == "--gcc"):
            raise Refusal(f"{name} takes the path of a compiler" + (f", and `{left[0]}` isn't one." if left else "."))
        found[name] = value
    of_c = CLANG if "--clang" in found else GCC
    return Compilers(of_c, found.get("--gcc") or GCC, found.get("--clang") or CLANG), others


def is_program(word: str) -> bool:
    """Whether a word names a program: one in the path, or a file that may be executed."""
    return shutil.which(word) is not None and not os.path.isdir(word)
