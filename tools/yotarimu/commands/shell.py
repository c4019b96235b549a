"""Writes the launcher's completion for a shell, or its manual page, to standard output; all by `./fractal dev table`.

usage: ./fractal shell bash > FILE     completion for bash: `. FILE` in ~/.bashrc
       ./fractal shell zsh > FILE      completion for zsh: FILE is `_fractal` in a folder of $fpath
       ./fractal shell fish > FILE     completion for fish: FILE is `fractal.fish` in ~/.config/fish/completions
       ./fractal shell man > FILE      the manual page: `man ./FILE`, where FILE is `fractal.1`
"""
from __future__ import annotations

from yotarimu.common.outcome import Refusal
from yotarimu.common.words import Words
from yotarimu.programs.completion import KINDS
from yotarimu.programs.table import Table


def main(words: list[str]) -> None:
    """Does what the words of the call ask for."""
    kind, = Words("shell").read(words).need("bash, zsh, fish or man", 1)
    if kind not in KINDS:
        raise Refusal(f"it writes for bash, zsh, fish and man, not for {kind}.")
    print(KINDS[kind](Table()), end="")
