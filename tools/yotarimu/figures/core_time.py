"""Where core time goes: each core in each round of lockstep, by what it did there.

A core-round is one core in one round, in which it has at most one step. If it makes a step, the core-round belongs to
the attempt at that task: it is committed work if the attempt commits, and aborted work, by cause, if it is aborted.
Otherwise the step stalls, or the core has no task that runs.
"""
from __future__ import annotations

import collections
import enum
from typing import TYPE_CHECKING

from yotarimu.figures.taken_tasks import Edge, edge_of

if TYPE_CHECKING:
    from yotarimu.courses.schedules import Act
    from yotarimu.lines.causes import Cause
    from yotarimu.lines.replay import Machine


class Use(enum.Enum):
    """What a core-round was used for."""
    COMMITTED = "committed"
    TRUE = "aborted: true conflict"
    FALSE = "aborted: false conflict"
    CASCADE = "aborted: parent or data aborted"
    TASK_QUEUE = "aborted: task queue full"
    COMMIT_QUEUE = "aborted: commit queue full"
    CORE = "aborted: no core free"
    STALLED_TASK_QUEUE = "stalled: task queue full"
    STALLED_COMMIT_QUEUE = "stalled: commit queue full"
    WAITING = "finished, waiting to commit"
    EMPTY = "empty"
    UNFINISHED = "unfinished at the end"


# What aborts an attempt, by the cause of its task; what makes room is told apart by the event.
USES_OF_EDGES = {
    Edge.MET_BYTE: Use.TRUE, Edge.MET_LINE: Use.FALSE, Edge.MET_ALIAS: Use.FALSE, Edge.TOUCHED_BYTE: Use.CASCADE,
    Edge.TOUCHED_LINE: Use.CASCADE, Edge.TOUCHED_ALIAS: Use.CASCADE, Edge.CHILD: Use.CASCADE,
    Edge.ABORT: Use.CASCADE}
USES_OF_ROOM = {"commit queue": Use.COMMIT_QUEUE, "task queue": Use.TASK_QUEUE, "core": Use.CORE}
ABORTED = (Use.TRUE, Use.FALSE, Use.CASCADE, Use.TASK_QUEUE, Use.COMMIT_QUEUE, Use.CORE)
STALLED = {"enqueue": Use.STALLED_TASK_QUEUE, "end": Use.STALLED_COMMIT_QUEUE}


def use_of(cause: Cause) -> Use:
    """What the core time of an aborted attempt was used for, by the cause of the abort."""
    edge = edge_of(cause)
    return USES_OF_ROOM[cause.event] if edge is Edge.ROOM else USES_OF_EDGES[edge]


class CoreTime:
    """The core-rounds of a run by use, and the wasted instructions of aborted attempts by cause."""

    def __init__(self) -> None:
        self.rounds: collections.Counter[Use] = collections.Counter()
        self.wasted: collections.Counter[Use] = collections.Counter()

    def note_abort(self, cause: Cause) -> None:
        """Counts the core-rounds and instructions of an attempt that is aborted."""
        use = use_of(cause)
        self.rounds[use] += cause.taken.steps
        self.wasted[use] += cause.taken.work

    def note_passed(self, machine: Machine, act: Act) -> None:
        """Counts a core that has no task which runs, at its place in the round."""
        self.rounds[use_without_step(machine, act.tile or 0, act.core or 0)] += 1

    def total(self) -> int:
        """How many core-rounds were counted."""
        return sum(self.rounds.values())

    def share(self, use: Use) -> float:
        """The percentage of all core-rounds with a use; 0 if there are none."""
        total = self.total()
        return 100 * self.rounds[use] / total if total else 0.0


def use_without_step(machine: Machine, tile: int, core: int) -> Use:
    """What a core without a running task does: it waits for a commit if its task trapped, or if its tile has nothing
    to dispatch while a finished task waits there. Otherwise it is empty."""
    if machine.cores[tile][core] is not None:
        return Use.WAITING
    is_waiting = bool(machine.finished[tile]) and machine.has_no_idle(tile)
    return Use.WAITING if is_waiting else Use.EMPTY
