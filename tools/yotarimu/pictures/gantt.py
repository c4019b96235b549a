"""Gantt charts of a tiny text of tasks: when each unit can be executed, by what tasks wait for.

A text has its tasks in the order of their commits. A dot is a plain instruction, a small letter loads the byte of that
name, a capital stores it, and a digit makes the task of that number, counted from 1. docs/machine/PARALLELISM.md has
the rules.
"""
from __future__ import annotations

import enum
from collections.abc import Iterator, Sequence
from typing import Optional

from yotarimu.common.text import escape

UNIT, ROW, LEFT, TOP, GAP = 26, 30, 64, 58, 26
COLOURS = {"load": "#dbe8f6", "store": "#f6d9b8", "make": "#d8eed9", "plain": "#eeeeee"}


class Dependences(enum.Enum):
    """What tasks wait for."""
    TASK = "task granularity"
    TRUE = "true dependences (RAW)"
    ALL = "all dependences (RAW, WAR, WAW)"


class Plan:
    """The earliest time of each unit of each task."""

    def __init__(self, text: str, dependences: Dependences) -> None:
        self.tasks, self.dependences = text.split(), dependences
        self.times: list[list[int]] = []
        for number, task in enumerate(self.tasks):
            self.times.append(self.times_of(number, task))

    def times_of(self, number: int, task: str) -> list[int]:
        """When the units of a task are executed, once all tasks before it are placed."""
        now, times = self.start(number, task), list[int]()
        for place, unit in enumerate(task):
            now = max(now, self.earliest(number, task[:place], unit))
            times.append(now)
            now += 1
        return times

    def start(self, number: int, task: str) -> int:
        """When a task can start: after the call that makes it, by task granularity after whole tasks."""
        makers = [(maker, text.index(str(number + 1))) for maker, text in enumerate(self.tasks[:number])
                  if str(number + 1) in text]
        starts = [self.times[maker][place] + 1 for maker, place in makers]
        if self.dependences is Dependences.TASK:
            needed = [*(maker for maker, _ in makers), *self.read_from(number, task)]
            starts = [self.times[earlier][-1] + 1 for earlier in needed]
        return max(starts, default=0)

    def read_from(self, number: int, task: str) -> Iterator[int]:
        """The tasks whose stores a task loads."""
        for place, unit in enumerate(task):
            earlier = self.last_store(number, unit)
            if unit.islower() and unit.upper() not in task[:place] and earlier is not None:
                yield earlier

    def last_store(self, number: int, unit: str) -> Optional[int]:
        """The last task before a task that stores the byte of a unit."""
        return next((earlier for earlier in range(number - 1, -1, -1) if unit.upper() in self.tasks[earlier]), None)

    def earliest(self, number: int, before: str, unit: str) -> int:
        """When a unit can be executed, by what it waits for within earlier tasks."""
        if self.dependences is Dependences.TASK or not unit.isalpha():
            return 0
        waits = []
        if unit.islower() and unit.upper() not in before:
            earlier = self.last_store(number, unit)
            if earlier is not None:
                waits.append(self.times[earlier][self.tasks[earlier].rindex(unit.upper())] + 1)
        if unit.isupper() and self.dependences is Dependences.ALL:
            waits += [time + 1 for text, times in zip(self.tasks[:number], self.times)
                      for other, time in zip(text, times) if other.upper() == unit]
        return max(waits, default=0)

    def end(self) -> int:
        """The time after the last unit."""
        return 1 + max(time for times in self.times for time in times)


def draw(text: str) -> str:
    """Three charts of a text, one for each kind of dependences, one above the other."""
    plans = [Plan(text, it) for it in Dependences]
    height = TOP + ROW * len(text.split()) + GAP
    width = LEFT + UNIT * (1 + max(plan.end() for plan in plans)) + 60
    total = height * len(plans)
    parts = [f'<svg xmlns="http://www.w3.org/2000/svg" width="{width}" height="{total}" '
             f'viewBox="0 0 {width} {total}" font-family="sans-serif" font-size="12">',
             f'<rect width="{width}" height="{total}" fill="white"/>']
    for place, plan in enumerate(plans):
        parts += [f'<g transform="translate(0 {place * height})">', *chart(plan), "</g>"]
    return "\n".join([*parts, "</svg>"]) + "\n"


def chart(plan: Plan) -> Iterator[str]:
    """The chart of one plan: a row for each task, a box for each unit."""
    yield label(10, 22, f"{plan.dependences.value}: {plan.end()} units", "start", True)
    bottom = TOP + ROW * len(plan.tasks)
    for time in range(plan.end() + 1):
        x = LEFT + UNIT * time
        yield f'<line x1="{x}" y1="{TOP - 8}" x2="{x}" y2="{bottom}" stroke="#dddddd"/>'
        yield label(x, TOP - 14, str(time), "middle", False)
    for number, (task, times) in enumerate(zip(plan.tasks, plan.times)):
        y = TOP + ROW * number
        yield label(10, y + 18, f"task {number + 1}", "start", False)
        for unit, time in zip(task, times):
            x = LEFT + UNIT * time
            yield (f'<rect x="{x + 1}" y="{y + 2}" width="{UNIT - 2}" height="{ROW - 6}" rx="3" '
                   f'fill="{COLOURS[kind_of(unit)]}" stroke="#888888"/>')
            yield label(x + UNIT / 2, y + 18, unit, "middle", False)


def kind_of(unit: str) -> str:
    """What a unit does."""
    if unit.isdigit():
        return "make"
    return "plain" if unit == "." else "load" if unit.islower() else "store"


def label(x: float, y: float, words: str, anchor: str, is_bold: bool) -> str:
    """Words at a place."""
    weight = ' font-weight="bold"' if is_bold else ""
    return f'<text x="{x}" y="{y}" fill="#333333" text-anchor="{anchor}"{weight}>{escape(words)}</text>'


def ends_of(text: str) -> Sequence[int]:
    """The times after the last unit, for each kind of dependences."""
    return [Plan(text, it).end() for it in Dependences]
