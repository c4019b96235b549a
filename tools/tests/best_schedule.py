"""The best schedule of a tiny text, found by trying all of them: limits of parallelism are compared with it.

A text has at most eight tasks, in the order of their commits, with a blank between. Each character of a task is one
instruction: `.` is a plain one, a small letter loads the byte of that name, a capital stores it, and a digit is a call
that makes the task of that number, counted from 1. For steps, plain instructions belong to the next other one, or to
the end of the task.
"""
from __future__ import annotations

import itertools
from collections.abc import Iterator
from typing import NamedTuple, Optional

from yotarimu.figures.limits import Call, CommittedTask, Manner, Point, WindowKind, Unit, Window

State = tuple[int, ...]


class Source(NamedTuple):
    """The store that a load is to find: a task, and which of its units that is."""
    task: int
    unit: int


class Text:
    """A tiny text, by units of time: each has the characters that others can see."""

    def __init__(self, written: str, unit: Unit = Unit.INSTRUCTION) -> None:
        self.written, self.unit = written, unit
        self.tasks = [units_of(task, unit) for task in written.split(" ")]
        self.calls = {int(mark) - 1: Source(task, unit_at) for task, unit_at, mark in self.marks() if mark.isdigit()}

    def marks(self) -> Iterator[tuple[int, int, str]]:
        """Each mark with its task and its unit, counted from 0."""
        for task, units in enumerate(self.tasks):
            for unit_at, mark in enumerate(units):
                yield task, unit_at, mark

    def source(self, task: int, unit_at: int) -> Optional[Source]:
        """Where a load's number comes from, in the order of the commits; None for the image's, or the task's own."""
        name = self.tasks[task][unit_at].upper()
        if name in self.tasks[task][:unit_at]:
            return None
        stores = [Source(*place) for *place, mark in self.marks() if mark == name and place[0] < task]
        return stores[-1] if stores else None

    def committed_tasks(self) -> list[CommittedTask]:
        """The text as the limits read it."""
        return [committed_task(number, task) for number, task in enumerate(self.written.split(" "))]


def units_of(task: str, unit: Unit) -> list[str]:
    """The marks of a task that take a unit of time each."""
    if unit is Unit.INSTRUCTION:
        return list(task)
    return [mark for mark in task if mark != "."] + (["."] if task.endswith(".") else [])


def committed_task(number: int, task: str) -> CommittedTask:
    """A task of a tiny text as the limits read it."""
    points, calls, steps = [], [], 0
    for place, mark in enumerate(task):
        if mark.isalpha():
            points.append(Point(mark.isupper(), (ord(mark.upper()),), (place, steps)))
        elif mark.isdigit():
            calls.append(Call(int(mark) - 1, (place + 1, steps + 1)))
        steps += mark != "."
    return CommittedTask(number, (len(task), len(units_of(task, Unit.STEP))), points, calls)


class Best:
    """The least time of any schedule of a text. In each unit of time any tasks make their next unit, or none."""

    def __init__(self, text: Text, manner: Manner, window: Window) -> None:
        self.text, self.manner, self.window = text, manner, window
        self.ends = tuple(map(len, text.tasks))

    def time(self) -> int:
        """The time of the best schedule."""
        states, time = {(0,) * len(self.ends)}, 0
        while self.ends not in states:
            states, time = {later for state in states for later in self.next_states(state)}, time + 1
        return time

    def next_states(self, state: State) -> Iterator[State]:
        """The states that one unit of time may lead to."""
        unfinished = [task for task, end in enumerate(self.ends) if state[task] < end]
        # Within a round one unit comes after another; within a moment none sees another.
        if self.text.unit is Unit.INSTRUCTION:
            unfinished = [task for task in unfinished if self.may_go(task, state)]
        for count in range(1, len(unfinished) + 1):
            for chosen in itertools.combinations(unfinished, count):
                later = self.state_after(state, chosen)
                if later is not None:
                    yield later

    def state_after(self, state: State, chosen: tuple[int, ...]) -> Optional[State]:
        """The state after a unit of time in which some tasks go on; None where they may not."""
        later = list(state)
        for task in chosen:
            if self.text.unit is Unit.STEP and not self.may_go(task, tuple(later)):
                return None
            later[task] += 1
            if self.text.unit is Unit.STEP and self.conflicts(task, tuple(later)):
                return None
        made = tuple(later)
        if self.text.unit is Unit.INSTRUCTION and any(self.conflicts(task, made) for task in chosen):
            return None
        return made

    def may_go(self, task: int, state: State) -> bool:
        """Whether what a task's next unit needs has been done."""
        if not state[task] and not self.may_start(task, state):
            return False
        if self.manner is Manner.WHOLE or not self.text.tasks[task][state[task]].islower():
            return True
        source = self.text.source(task, state[task])
        return source is None or state[source.task] > source.unit

    def may_start(self, task: int, state: State) -> bool:
        """Whether all that a whole task waits for has ended."""
        needed = [self.text.calls[task]] if task in self.text.calls else []
        if self.manner is Manner.WHOLE:
            found = [self.text.source(task, at) for at, mark in enumerate(self.text.tasks[task]) if mark.islower()]
            needed = [Source(it.task, self.ends[it.task] - 1) for it in (*needed, *found) if it is not None]
        return all(state[it.task] > it.unit for it in needed) and self.is_in_window(task, state)

    def is_in_window(self, task: int, state: State) -> bool:
        """Whether a task may be at work by the window."""
        most = self.window.tasks
        if most is None:
            return True
        if self.window.kind is WindowKind.ORDER:
            return all(state[it] == self.ends[it] for it in range(task - most + 1))
        return sum(state[it] < self.ends[it] for it in range(task)) < most

    def conflicts(self, task: int, state: State) -> bool:
        """Whether the unit that a task has just made would abort a later task."""
        if self.manner is not Manner.ONE:
            return False
        mark = self.text.tasks[task][state[task] - 1]
        if not mark.isalpha():
            return False
        touching = {mark.upper()} if mark.islower() else {mark.upper(), mark.lower()}
        return any(touching.intersection(self.text.tasks[later][:state[later]])
                   for later in range(task + 1, len(self.ends)))
