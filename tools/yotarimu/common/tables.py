"""Tables in Markdown, and quotients as their cells."""
from __future__ import annotations

from collections.abc import Iterable, Sequence
from typing import Optional


def ratio(count: float, whole: Optional[float]) -> str:
    """A count for each of another, or a dash where there is none of that."""
    return f"{count / whole:.2f}" if whole else "-"


def plain_ratio(count: float, whole: Optional[float]) -> str:
    """The same for CSV, in more digits; empty where there is none of it."""
    return f"{count / whole:.6g}" if whole else ""


def row_of(cells: Iterable[str]) -> str:
    """A row of a table in Markdown."""
    return f"| {' | '.join(cells)} |"


def table(head: Sequence[str], rows: Iterable[Sequence[str]]) -> list[str]:
    """A table in Markdown."""
    return [row_of(cells) for cells in (head, ["---"] * len(head), *rows)]
