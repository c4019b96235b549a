"""Stacked bars as SVG that can be printed: parts of a whole, a bar for each of several names."""
from __future__ import annotations

from collections.abc import Iterator, Mapping, Sequence
from typing import NamedTuple

from yotarimu.pictures.plot import Axis, Frame, names_of_axes, picture, text

BAR, GAP, GROUP_GAP = 20, 5, 24
LEFT, TOP, PLOT_HEIGHT, ROW, LEGEND = 62, 14, 200, 250, 260
MOST_WIDTH = 880


class Part(NamedTuple):
    """How a part is drawn: its name, its colour, and the pattern over it, if any."""
    name: str
    colour: str
    pattern: str = ""


# Lines over a colour, so that parts of one grey can be told apart.
PATTERNS = {
    "rising": "M0 6L6 0", "falling": "M0 0L6 6", "across": "M0 3H6", "upright": "M3 0V6", "crossed": "M0 0L6 6M0 6L6 0",
    "squares": "M0 3H6M3 0V6"}


Groups = Mapping[str, Mapping[str, Sequence[float]]]


def draw(groups: Groups, parts: Sequence[Part], x_name: str, y_name: str) -> str:
    """Stacked bars: for each group by its name, and in it for each bar by its name, the percentage of each part. Groups
    that don't fit beside each other are in several rows. Parts that no bar has are left out."""
    used = [any(values[place] > 0 for bars in groups.values() for values in bars.values())
            for place in range(len(parts))]
    shown = [part for part, is_used in zip(parts, used) if is_used]
    rows = rows_of(groups)
    right = max(LEFT + sum(map(width_of, row.values())) for row in rows)
    drawn: list[str] = []
    for place, row in enumerate(rows):
        drawn += row_parts(row, parts, TOP + place * ROW, right)
    height = TOP + len(rows) * ROW + 26
    names = names_of_axes(((LEFT + right) / 2, height - 8), (16, TOP + PLOT_HEIGHT / 2), x_name, y_name)
    return picture(right + LEGEND, height, [*names, *drawn, *legend(shown, right + 16)], patterns())


def width_of(bars: Mapping[str, Sequence[float]]) -> float:
    """How wide a group is."""
    return GROUP_GAP - GAP + len(bars) * (BAR + GAP)


def rows_of(groups: Groups) -> list[dict[str, Mapping[str, Sequence[float]]]]:
    """The groups in rows, each of which has as many as fit."""
    rows: list[dict[str, Mapping[str, Sequence[float]]]] = [{}]
    for name, bars in groups.items():
        if rows[-1] and sum(map(width_of, rows[-1].values())) + width_of(bars) > MOST_WIDTH:
            rows.append({})
        rows[-1][name] = bars
    return rows


def row_parts(groups: Groups, parts: Sequence[Part], top: float, right: float) -> Iterator[str]:
    """A row of groups, with its axis."""
    axis = Axis([0, 100], top + PLOT_HEIGHT, top)
    yield from lines(Frame(Axis([0, 1], LEFT, right), axis))
    x = LEFT + GROUP_GAP / 2
    for group, bars in groups.items():
        start = x
        for name, values in bars.items():
            yield from stack(values, parts, axis, x, f"{group} {name}")
            yield text(x + BAR / 2, top + PLOT_HEIGHT + 16, name, "middle")
            x += BAR + GAP
        yield text((start + x - GAP) / 2, top + PLOT_HEIGHT + 33, group, "middle")
        x += GROUP_GAP - GAP


def lines(frame: Frame) -> Iterator[str]:
    """The lines and numbers of the upright axis."""
    left, _, right, _ = frame.box
    for tick in frame.y_axis.ticks:
        y = frame.y_axis.place(tick)
        yield f'<line x1="{left:.1f}" y1="{y:.1f}" x2="{right:.1f}" y2="{y:.1f}" stroke="#dddddd"/>'
        yield text(left - 7, y + 4, f"{tick:.0f}", "end")


def stack(values: Sequence[float], parts: Sequence[Part], axis: Axis, x: float, name: str) -> Iterator[str]:
    """One bar: its parts from the bottom up."""
    below = 0.0
    for value, part in zip(values, parts):
        if value > 0:
            top, bottom = axis.place(below + value), axis.place(below)
            yield from box(x, top, BAR, bottom - top, part, f"{name}, {part.name}: {value:.1f} %")
            below += value


def box(x: float, y: float, width: float, height: float, part: Part, title: str) -> Iterator[str]:
    """A rectangle in the colour and the pattern of a part."""
    place = f'x="{x:.1f}" y="{y:.2f}" width="{width:.1f}" height="{height:.2f}"'
    yield f'<rect {place} fill="{part.colour}" stroke="#222222" stroke-width="0.5"><title>{title}</title></rect>'
    if part.pattern:
        yield f'<rect {place} fill="url(#{part.pattern})"/>'


def legend(parts: Sequence[Part], x: float) -> Iterator[str]:
    """The name of each part beside its colour, the topmost first."""
    for place, part in enumerate(reversed(parts)):
        yield from box(x, TOP + 20 * place, 16, 14, part, part.name)
        yield text(x + 24, TOP + 20 * place + 12, part.name)


def patterns() -> str:
    """The patterns that parts use."""
    made = "".join(f'<pattern id="{name}" width="6" height="6" patternUnits="userSpaceOnUse"><path d="{path}" '
                   'stroke="#111111" stroke-width="0.9" fill="none"/></pattern>' for name, path in PATTERNS.items())
    return f"<defs>{made}</defs>"
