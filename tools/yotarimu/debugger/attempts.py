"""Attempts at tasks: each of them from a dispatch on, up to the commit or until the task is aborted."""
from __future__ import annotations

import bisect
from typing import Optional

from yotarimu.debugger.track import Core, Memory, Position, Touch
from yotarimu.images import serial_machine as machine
from yotarimu.images.image import DATA, STACK, Image
from yotarimu.lines.causes import Cause
from yotarimu.lines.replay import Task
from yotarimu.reports.report import Name


class Attempt:
    """A task from one dispatch until it commits or is aborted: a thread. `which` counts the attempts at a task.

    `stretches` has the numbers of its stretches, and `counts` how many instructions are executed by the end of each.
    `loaded` has what its loads found, so that it can be run once more without the memory. From the position `gone` on
    it no longer exists: it commits as a `turn`, or is aborted for a `cause` by an `event`."""

    def __init__(self, number: int, task: Task, which: int, born: Position) -> None:
        self.number, self.task, self.which, self.born = number, task, which, born
        self.stretches: list[int] = []
        self.counts: list[int] = []
        self.loaded: list[int] = []
        self.trap: Optional[tuple[int, int]] = None
        self.gone: Optional[Position] = None
        self.turn: Optional[int] = None
        self.cause: Optional[Cause] = None
        self.event = 0

    @property
    def timestamp(self) -> int:
        """The task's timestamp, which counts as 0 in an unordered domain."""
        return self.task.timestamp if self.task.domain.kinds[-1] else 0

    def note(self, stretch: int, executed: int) -> int:
        """Adds a stretch, by whose end so many instructions are executed; returns how many were executed before it."""
        before = self.counts[-1] if self.counts else 0
        self.counts.append(executed)
        self.stretches.append(stretch)
        return before

    def is_there(self, position: Position) -> bool:
        """Whether the attempt has begun at a position, and isn't gone yet."""
        return self.born <= position and (self.gone is None or position < self.gone)

    def stretches_before(self, stretch: int) -> int:
        """How many of its stretches come before one."""
        return bisect.bisect_left(self.stretches, stretch)

    def count_before(self, stretch: int) -> int:
        """How many instructions are executed where a stretch begins."""
        place = self.stretches_before(stretch)
        return self.counts[place - 1] if place else 0


class Ground(machine.Machine):
    """What attempts run on, in place of a machine that takes turns: the lines have the tasks."""

    def __init__(self, image: Image, memory: Memory) -> None:
        self.image, self.memory = image, memory.data
        self.domain = machine.Domain(1, image.is_ordered)


class AttemptCore(Core):
    """The instructions of an attempt. Its loads find what they found, and its stores are done by the track."""

    def __init__(self, ground: Ground, attempt: Attempt) -> None:
        task = attempt.task
        start = machine.Task(Name(0, 0), task.entry, attempt.timestamp, tuple(task.arguments), ground.domain)
        super().__init__(ground, start)
        self.attempt, self.taken = attempt, 0

    def load(self, kind: int, address: int) -> int:
        """Loads of data find what the event log has; those of text and stack are carried out."""
        if not DATA <= address < STACK:
            return super().load(kind, address)
        value, width = self.attempt.loaded[self.taken], 1 << (kind & 3)
        self.taken += 1
        self.touched = Touch(False, address, width)
        return value if kind & 4 else machine.signed_number(value, 8 * width)

    def store(self, width: int, address: int, value: int) -> None:
        """Stores to data are noted and not made, because the memory follows the event log; those to the stack are
        made."""
        if not DATA <= address < STACK:
            super().store(width, address, value)
        self.touched = Touch(True, address, width)

    def call(self) -> None:
        """Does nothing else for a call, because its effects are in the event log."""
        self.is_over = self.registers[machine.CALL] == 0
