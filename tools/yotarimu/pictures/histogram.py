"""A histogram of numbers, as SVG: how many there are of each, or in each stretch of values."""
from __future__ import annotations

from collections.abc import Sequence

from yotarimu.pictures.plot import BOTTOM, COLOURS, HEIGHT, LEFT, RIGHT, TOP, WIDTH, Axis, picture_with_axes, number

# Between bars some of the stretch stays free.
GAP = 0.1


def draw(bars: Sequence[tuple[int, int, int]], x_name: str, y_name: str) -> str:
    """The histogram of bars: the first and the last value of each, and how many numbers it has. Values are whole, so a
    bar stands from half below its first value to half above its last."""
    edges = [edge for first, last, _ in bars for edge in (first - 0.5, last + 0.5)] or [-0.5, 0.5]
    x_axis = Axis(edges, LEFT, WIDTH - RIGHT)
    y_axis = Axis([0, *(count for _, _, count in bars)], HEIGHT - BOTTOM, TOP)
    return picture_with_axes(x_axis, y_axis, x_name, y_name, [rectangle(bar, x_axis, y_axis) for bar in bars])


def rectangle(bar: tuple[int, int, int], x_axis: Axis, y_axis: Axis) -> str:
    """The rectangle of a bar: the first and the last value, and how many there are."""
    first, last, count = bar
    left, right = x_axis.place(first - 0.5), x_axis.place(last + 0.5)
    free, top, bottom = GAP * (right - left), y_axis.place(count), y_axis.place(0)
    values = number(first) if first == last else f"{number(first)} to {number(last)}"
    return (f'<rect x="{left + free / 2:.1f}" y="{top:.1f}" width="{right - left - free:.1f}" '
            f'height="{bottom - top:.1f}" fill="{COLOURS[1]}"><title>{values}: {number(count)}</title></rect>')
