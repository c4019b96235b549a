"""How far a long call has come, on a terminal."""
from __future__ import annotations

import sys


def show_progress(name: str, done: int, total: int, more: str = "") -> None:
    """One line on the terminal, which is written again and again."""
    end = "\n" if done == total else ""
    print(f"\r\x1b[K{name}: {done} of {total} runs{more}", end=end, file=sys.stderr, flush=True)


def show_line(text: str) -> None:
    """A line on the terminal in place of the one that this wrote before."""
    print(f"\r\x1b[K{text}", end="", file=sys.stderr, flush=True)
