"""Plots of points in series, as SVG that can be printed: one panel, or a panel for each of several names.

Series differ by colour, mark and dashes, so that they differ in grey too. Several points of a series at one place are
drawn as their mean, with an error bar of one sample standard deviation.
"""
from __future__ import annotations

import dataclasses
import math
import statistics
from collections.abc import Iterable, Iterator, Mapping, Sequence
from typing import Callable, Optional

from yotarimu.common.outcome import Refusal
from yotarimu.common.text import escape, without_controls

WIDTH, HEIGHT = 860, 460
LEFT, RIGHT, TOP, BOTTOM = 80, 230, 20, 60
PANEL_WIDTH, PANEL_HEIGHT, PANEL_TOP, PANEL_LEFT = 250, 190, 34, 62
MOST_ACROSS = 4
# The axes of a plot, by the letters with which a logarithmic one is asked for.
AXES = ("x", "y", "xy")
MOST_NAMES = 18
# Where so few places are used, each has its tick.
MOST_PLACES = 7
# Colours of Okabe and Ito, which people who see few colours tell apart too, the darkest first.
COLOURS = ("#000000", "#0072b2", "#d55e00", "#009e73", "#cc79a7", "#e69f00", "#56b4e9", "#888888")
DASHES = ("", "6 3", "2 2", "8 3 2 3")
GREY = "#777777"
Points = Sequence[tuple[float, float]]
Series = Mapping[str, Points]


class Axis:
    """Values from the least to the greatest on a stretch of the picture."""

    def __init__(self, values: Sequence[float], start: float, end: float, is_logarithmic: bool = False) -> None:
        least, most = min(values), max(values)
        if is_logarithmic and least <= 0:
            raise Refusal(f"a logarithmic axis has no place for {number(least)}.")
        self.is_logarithmic = is_logarithmic
        self.start, self.end = start, end
        places = sorted(set(values))
        if is_logarithmic and 1 < len(places) <= MOST_PLACES:
            self.ticks = places
        else:
            self.ticks = decades(least, most) if is_logarithmic else steps(least, most)
        self.least = self.scaled_value(min(least, self.ticks[0]))
        self.most = self.scaled_value(max(most, self.ticks[-1]))

    def scaled_value(self, value: float) -> float:
        """A value as it counts on the axis: itself or its logarithm."""
        return math.log10(value) if self.is_logarithmic else value

    def place(self, value: float) -> float:
        """Where a value is, in points."""
        return self.start + (self.scaled_value(value) - self.least) / (self.most - self.least) * (self.end - self.start)


def decades(least: float, most: float) -> list[float]:
    """Powers of ten with their doubles and fives, from the last one below the least value to the first above the most;
    of many decades the powers alone."""
    first, last = math.floor(math.log10(least)), math.ceil(math.log10(most))
    factors = (1, 2, 5) if last - first <= 4 else (1,)
    ticks = [factor * 10.0 ** power for power in range(first, last + 1) for factor in factors]
    start = max(place for place, tick in enumerate(ticks) if tick <= least)
    end = next((place for place, tick in enumerate(ticks) if tick >= most), len(ticks) - 1)
    return ticks[start:max(end, start + 1) + 1]


def steps(least: float, most: float) -> list[float]:
    """Some five round numbers that hold the values between them."""
    if least == most:
        least, most = (0, most) if most > 0 else (least, least + 1)
    least = min(0, least) if least < (most - least) / 2 else least
    raw = (most - least) / 5
    power = 10 ** math.floor(math.log10(raw))
    step = next(factor * power for factor in (1, 2, 5, 10) if raw <= factor * power * 1.0001)
    first, last = math.floor(least / step), math.ceil(most / step)
    return [place * step for place in range(first, last + 1)]


@dataclasses.dataclass(frozen=True)
class Panel:
    """What one panel shows: its title, its series, the greatest value that is possible, if that is known, and whether
    the line is drawn on which both axes are equal."""
    title: str
    series: Series
    limit: Optional[float] = None
    is_ideal_shown: bool = False

    def points(self) -> list[tuple[float, float]]:
        """All its points."""
        return [point for points in self.series.values() for point in points]


@dataclasses.dataclass(frozen=True)
class Frame:
    """Where a panel is: its left, top, right and bottom edges, and its axes."""
    x_axis: Axis
    y_axis: Axis

    @property
    def box(self) -> tuple[float, float, float, float]:
        """The left, top, right and bottom edges."""
        return self.x_axis.start, self.y_axis.end, self.x_axis.end, self.y_axis.start


def draw(series: Series, x_name: str, y_name: str, logarithmic: str = "") -> str:
    """The plot of a dictionary from names to lists of points, with linear axes but for those that are named."""
    return draw_panels([Panel("", series)], x_name, y_name, logarithmic)


def draw_panels(panels: Sequence[Panel], x_name: str, y_name: str, logarithmic: str = "") -> str:
    """A plot with a panel for each name, all with the same axes, and the names of the series outside."""
    names = list(dict.fromkeys(name for panel in panels for name in panel.series))
    xs, ys = values_shown(panels)
    if len(panels) == 1:
        frame = Frame(Axis(xs, LEFT, WIDTH - RIGHT, "x" in logarithmic),
                      Axis(ys, HEIGHT - BOTTOM, TOP + (14 if panels[0].title else 0), "y" in logarithmic))
        parts = [*panel_parts(panels[0], frame, names), *legend(names, panels, WIDTH - RIGHT + 24, TOP)]
        return picture_with_axes(frame.x_axis, frame.y_axis, x_name, y_name, parts, with_grid=False)
    across = min(MOST_ACROSS, len(panels))
    width, rows = PANEL_LEFT + across * PANEL_WIDTH + RIGHT - 20, -(-len(panels) // across)
    height = rows * PANEL_HEIGHT + 36
    parts = []
    for place, panel in enumerate(panels):
        left, top = PANEL_LEFT + place % across * PANEL_WIDTH, place // across * PANEL_HEIGHT
        frame = Frame(Axis(xs, left, left + PANEL_WIDTH - 46, "x" in logarithmic),
                      Axis(ys, top + PANEL_HEIGHT - 12, top + PANEL_TOP, "y" in logarithmic))
        parts += panel_parts(panel, frame, names)
    parts += legend(names, panels, PANEL_LEFT + across * PANEL_WIDTH - 20, PANEL_TOP)
    return picture(width, height, names_of_axes(
        (PANEL_LEFT + (across * PANEL_WIDTH - 46) / 2, height - 8),
        (14, (PANEL_TOP + rows * PANEL_HEIGHT - 12) / 2), x_name, y_name) + parts)


def values_shown(panels: Sequence[Panel]) -> tuple[list[float], list[float]]:
    """The values that both axes have to hold: those of points, ends of error bars, limits and ideal lines."""
    xs = [x for panel in panels for x, _ in panel.points()]
    ys = [y for panel in panels for _, y in panel.points()]
    for panel in panels:
        ys += [end for points in panel.series.values() for _, mean, spread in means(points)
               for end in (mean + spread, mean - spread) if end > 0]
        ys += [panel.limit] if panel.limit is not None else []
        ys += xs if panel.is_ideal_shown else []
    return xs, ys


def panel_parts(panel: Panel, frame: Frame, names: Sequence[str]) -> Iterator[str]:
    """All that is drawn within a panel."""
    left, top, right, bottom = frame.box
    yield from grid(frame)
    if panel.title:
        yield text((left + right) / 2, top - 6, panel.title, "middle")
    if panel.is_ideal_shown:
        start = max(frame.x_axis.ticks[0], frame.y_axis.ticks[0])
        end = min(frame.x_axis.ticks[-1], frame.y_axis.ticks[-1])
        yield rule(frame.x_axis.place(start), frame.y_axis.place(start), frame.x_axis.place(end),
                   frame.y_axis.place(end), "1 3")
    if panel.limit is not None:
        y = frame.y_axis.place(panel.limit)
        yield rule(left, y, right, y, "7 4")
    for name, points in panel.series.items():
        yield from line(points, frame, names.index(name))
    yield f'<rect x="{left:.1f}" y="{top:.1f}" width="{right - left:.1f}" height="{bottom - top:.1f}" fill="none" ' \
          'stroke="#333333"/>'


def rule(x1: float, y1: float, x2: float, y2: float, dashes: str, colour: str = GREY) -> str:
    """A straight dashed line."""
    return f'<line x1="{x1:.1f}" y1="{y1:.1f}" x2="{x2:.1f}" y2="{y2:.1f}" stroke="{colour}" stroke-width="1.3" ' \
           f'stroke-dasharray="{dashes}"/>'


def picture_with_axes(x_axis: Axis, y_axis: Axis, x_name: str, y_name: str, parts: Iterable[str],
                      with_grid: bool = True) -> str:
    """A picture with two axes, and these parts within."""
    names = names_of_axes(((LEFT + WIDTH - RIGHT) / 2, HEIGHT - 14), (16, (TOP + HEIGHT - BOTTOM) / 2),
                          x_name + scale(x_axis), y_name + scale(y_axis))
    return picture(WIDTH, HEIGHT, [*(grid(Frame(x_axis, y_axis)) if with_grid else []), *names, *parts])


def picture(width: float, height: float, parts: Iterable[str], head: str = "") -> str:
    """A picture of a size, with these parts on white."""
    return "\n".join([f'<svg xmlns="http://www.w3.org/2000/svg" width="{width:.0f}" height="{height:.0f}" '
                      f'viewBox="0 0 {width:.0f} {height:.0f}" font-family="sans-serif" font-size="12">{head}',
                      f'<rect width="{width:.0f}" height="{height:.0f}" fill="white"/>', *parts, "</svg>"]) + "\n"


def names_of_axes(x_place: tuple[float, float], y_place: tuple[float, float], x_name: str, y_name: str) -> list[str]:
    """The names of both axes at these places."""
    x, y = y_place
    return [text(*x_place, x_name, "middle"),
            f'<g transform="rotate(-90 {x:.1f} {y:.1f})">{text(x, y, y_name, "middle")}</g>']


def scale(axis: Axis) -> str:
    """What follows the name of an axis."""
    return " (logarithmic)" if axis.is_logarithmic else ""


def text(x: float, y: float, words: str, anchor: str = "start") -> str:
    """Words at a place."""
    # No picture may have other characters, though a name of a file may.
    return f'<text x="{x:.1f}" y="{y:.1f}" text-anchor="{anchor}">{escape(without_controls(words))}</text>'


def number(value: float) -> str:
    """A number with commas or with six digits."""
    return f"{value:,.0f}" if value >= 1000 or value == int(value) else f"{value:.6g}"


def grid(frame: Frame) -> Iterator[str]:
    """The lines and numbers of the ticks of both axes."""
    left, top, right, bottom = frame.box
    for tick in frame.x_axis.ticks:
        x = frame.x_axis.place(tick)
        yield f'<line x1="{x:.1f}" y1="{top:.1f}" x2="{x:.1f}" y2="{bottom:.1f}" stroke="#e4e4e4"/>'
        yield text(x, bottom + 16, number(tick), "middle")
    for tick in frame.y_axis.ticks:
        y = frame.y_axis.place(tick)
        yield f'<line x1="{left:.1f}" y1="{y:.1f}" x2="{right:.1f}" y2="{y:.1f}" stroke="#e4e4e4"/>'
        yield text(left - 7, y + 4, number(tick), "end")


def means(points: Points) -> list[tuple[float, float, float]]:
    """Each place of a series with the mean of its values there, and their sample standard deviation."""
    columns: dict[float, list[float]] = {}
    for x, y in points:
        columns.setdefault(x, []).append(y)
    return [(x, statistics.fmean(ys), statistics.stdev(ys) if len(ys) > 1 else 0.0)
            for x, ys in sorted(columns.items())]


def line(points: Points, frame: Frame, number_of_series: int) -> Iterator[str]:
    """The means of a series with their error bars, and a line through them."""
    colour, dashes = COLOURS[number_of_series % len(COLOURS)], DASHES[number_of_series % len(DASHES)]
    found = means(points)
    path = " ".join(f"{frame.x_axis.place(x):.1f},{frame.y_axis.place(mean):.1f}" for x, mean, _ in found)
    dashed = f' stroke-dasharray="{dashes}"' if dashes else ""
    yield f'<polyline points="{path}" fill="none" stroke="{colour}" stroke-width="1.5"{dashed}/>'
    for x, mean, spread in found:
        place = frame.x_axis.place(x)
        if spread:
            low, high = (frame.y_axis.place(max(end, frame.y_axis.ticks[0])) for end in (mean - spread, mean + spread))
            yield f'<path d="M{place - 3:.1f} {low:.1f}h6m-3 0V{high:.1f}m-3 0h6" fill="none" stroke="{colour}"/>'
        yield mark(place, frame.y_axis.place(mean), number_of_series)


def mark(x: float, y: float, number_of_series: int) -> str:
    """The mark of a series at a place."""
    colour = COLOURS[number_of_series % len(COLOURS)]
    return MARKS[number_of_series % len(MARKS)](x, y, f'fill="{colour}"')


MARKS: tuple[Callable[[float, float, str], str], ...] = (
    lambda x, y, fill: f'<circle cx="{x:.1f}" cy="{y:.1f}" r="3.2" {fill}/>',
    lambda x, y, fill: f'<rect x="{x - 3:.1f}" y="{y - 3:.1f}" width="6" height="6" {fill}/>',
    lambda x, y, fill: f'<path d="M{x:.1f} {y - 4:.1f}l4 7h-8z" {fill}/>',
    lambda x, y, fill: f'<path d="M{x:.1f} {y - 4.2:.1f}l4.2 4.2l-4.2 4.2l-4.2 -4.2z" {fill}/>',
    lambda x, y, fill: f'<path d="M{x:.1f} {y + 4:.1f}l4 -7h-8z" {fill}/>')


def legend(names: Sequence[str], panels: Sequence[Panel], x: float, top: float) -> Iterator[str]:
    """The name of each series beside its line and mark, outside of the panels, and what the other lines are."""
    shown = [name for name in names if name][:MOST_NAMES]
    for place, name in enumerate(shown):
        y = top + 20 * place + 8
        which = names.index(name)
        yield rule(x, y, x + 26, y, DASHES[which % len(DASHES)] or "none", COLOURS[which % len(COLOURS)])
        yield mark(x + 13, y, which)
        yield text(x + 32, y + 4, name)
    place = len(shown)
    if len(names) > MOST_NAMES:
        yield text(x, top + 20 * place + 12, f"and {len(names) - MOST_NAMES} more")
        place += 1
    for is_shown, dashes, name in ((any(panel.is_ideal_shown for panel in panels), "1 3", "ideal"),
                                   (any(panel.limit is not None for panel in panels), "7 4", "limit of the program")):
        if is_shown:
            y = top + 20 * place + 8
            yield rule(x, y, x + 26, y, dashes)
            yield text(x + 32, y + 4, name)
            place += 1
