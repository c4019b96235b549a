"""How much of a run could be done at once: limits that its own dependences leave, which docs/machine/PARALLELISM.md
defines.

The tasks that committed are taken in the order of their commits, and all that a task waits for belongs to tasks before
it. So the earliest time of each of its units follows from theirs, and no schedule has one earlier. A unit of time is an
instruction, or a step.

- At task granularity a task starts once those that it depends on have finished. A machine may do better.
- By instructions, or by steps, a task stops where it has to wait, and its later instructions come later. What it did
  before stays where it was. With true dependences (RAW) a load waits for the store whose number it loads, and nothing
  else waits. With all dependences (RAW, WAR, WAW) each access also waits for the accesses of earlier tasks that it
  would conflict with, by bytes.
"""
from __future__ import annotations

import array
import collections
import copy
import dataclasses
import enum
import heapq
import operator
from collections.abc import Callable, Hashable, Iterable, Sequence
from typing import NamedTuple, Optional, Union

from yotarimu.figures.cells import Cells, Table


class Manner(enum.Enum):
    """What a task waits for, and how."""
    WHOLE = "by whole tasks"
    RENAMED = "true dependences (RAW)"
    ONE = "all dependences (RAW, WAR, WAW)"


class WindowKind(enum.Enum):
    """What a window of W tasks means: a task starts once all tasks but the W - 1 right before it have finished, or once
    all but any W - 1 of those before it have."""
    ORDER = "in order"
    SLOTS = "of slots"


@dataclasses.dataclass(frozen=True)
class Window:
    """How many tasks may be at work. None is without bound."""
    tasks: Optional[int]
    kind: WindowKind = WindowKind.ORDER

    def __str__(self) -> str:
        return "without bound" if self.tasks is None else f"{self.tasks:,} {self.kind.value}"


UNBOUNDED = Window(None)
WINDOWS = (Window(64), Window(64, WindowKind.SLOTS), Window(1_024), Window(1_024, WindowKind.SLOTS), UNBOUNDED)


class Unit(enum.Enum):
    """What takes one unit of time. Two steps of a round may depend on each other, since a round makes one after
    another; two instructions of one moment may not."""
    INSTRUCTION = 1
    STEP = 0

    @property
    def delay(self) -> int:
        """How much later than what it waits for a unit has to come."""
        return self.value


# What waits for an instruction comes so much later.
DELAY = Unit.INSTRUCTION.delay


class OrderGate:
    """Lets tasks start by a window, in order. For each task of the window it keeps the time at which all tasks up to
    that one have finished. Once it is full, `entry` is the earliest time for the next task."""

    def __init__(self, tasks: int) -> None:
        # How many tasks the window has, and the latest end so far.
        self.tasks, self.last = tasks, 0
        self.ends: collections.deque[int] = collections.deque()

    def entry(self) -> int:
        """When the next task may start, asked once the window is full: when its first task leaves."""
        return self.ends.popleft()

    def leave(self, end: int) -> None:
        """Notes the end of a task, before which no later one leaves the window."""
        if end > self.last:
            self.last = end
        self.ends.append(self.last)


class SlotGate:
    """The same by slots: it keeps the times at which these get free, as a heap."""

    def __init__(self, tasks: int) -> None:
        self.tasks = tasks
        self.ends: list[int] = []

    def entry(self) -> int:
        """When the next task may start: where the first slot is free."""
        return heapq.heappop(self.ends)

    def leave(self, end: int) -> None:
        """Notes the end of a task, at which its slot is free."""
        heapq.heappush(self.ends, end)


Gate = Union[OrderGate, SlotGate]


GATES: dict[WindowKind, Callable[[int], Gate]] = {WindowKind.ORDER: OrderGate, WindowKind.SLOTS: SlotGate}
# Times, one for each plan.
Times = Sequence[int]


def later(times: Iterable[int], others: Iterable[int]) -> list[int]:
    """The later of two times, for each plan."""
    return [one if one > other else other for one, other in zip(times, others)]


class Gates:
    """The plans of several windows: where each lets the next task start, and when the last one so far is finished."""

    def __init__(self, windows: Sequence[Window]) -> None:
        self.count = len(windows)
        self.gates = [(number, GATES[window.kind](window.tasks)) for number, window in enumerate(windows)
                      if window.tasks is not None]
        self.finish = [0] * self.count

    def starts(self, origin: Optional[Times]) -> list[int]:
        """When the next task may start, by its creator and by the windows."""
        starts = [0] * self.count if origin is None else list(origin)
        for number, gate in self.gates:
            if len(gate.ends) == gate.tasks:
                starts[number] = max(starts[number], gate.entry())
        return starts

    def end(self, ends: Times) -> None:
        """Notes in which units of time a task ends, a time for each plan."""
        for number, gate in self.gates:
            gate.leave(ends[number])
        self.finish = later(self.finish, ends)


# How many instructions, and how many steps.
Counts = tuple[int, int]


class Point(NamedTuple):
    """An access to data: its cells, and how much its task had made before it."""
    is_store: bool
    cells: Sequence[int]
    before: Counts


class Call(NamedTuple):
    """A call that makes a child, and how much the task had made with the call."""
    child: Hashable
    made: Counts


class CommittedTask(NamedTuple):
    """What a task did that committed. `key` is what the call that made it has as its child."""
    key: Hashable
    work: Counts
    points: Sequence[Point]
    calls: Sequence[Call]


class WholePlans:
    """Plans by whole tasks, one for each window."""

    def __init__(self, windows: Sequence[Window], cells: Cells) -> None:
        self.gates = Gates(windows)
        self.origins: dict[Hashable, Times] = {}
        # When the task is finished that stored to a cell last.
        self.stores = cells.table(len(windows))

    def commit(self, task: CommittedTask) -> None:
        """Plans a task whole: it starts where all that it waits for has ended."""
        starts, stores = self.gates.starts(self.origins.pop(task.key, None)), self.stores
        own: set[int] = set()
        for is_store, cells, _ in task.points:
            if is_store:
                own.update(cells)
                continue
            for cell in cells:
                ends = stores.of(cell)
                if ends is not None and cell not in own:
                    starts = later(starts, ends)
        work = task.work[0]
        finish = array.array("q", [start + work for start in starts])
        self.gates.end(finish)
        for cell in own:
            stores.note(cell, finish)
        for call in task.calls:
            self.origins[call.child] = finish


class FinePlans:
    """Plans by instructions, one for each window, and a last one by steps without a window. A task that waits is
    shifted from there on alone: each of its units comes at its place and the shift."""

    def __init__(self, windows: Sequence[Window], cells: Cells) -> None:
        self.windows, self.is_one_memory = len(windows), False
        self.gates = Gates([*windows, UNBOUNDED])
        self.origins: dict[Hashable, Times] = {}
        # The times behind the last store to a cell; and behind all accesses to it so far, for those who ask for them.
        self.stores = cells.table(self.gates.count)
        self.touches: Optional[Table] = cells.table(self.gates.count)

    def in_one_memory(self, cells: Cells) -> FinePlans:
        """The plans of these tasks with true dependences, copied to go on with all dependences."""
        plans = copy.copy(self)
        plans.is_one_memory, plans.gates, plans.origins = True, copy.deepcopy(self.gates), dict(self.origins)
        plans.stores, self.touches = cells.copy_of(self.stores), None
        return plans

    def places(self, instructions: int, steps: int) -> Times:
        """How much a task made, for each plan."""
        return (instructions,) * self.windows + (steps,)

    def holds_a_store_back(self, task: CommittedTask) -> bool:
        """Whether with all dependences a store of the next task might have to wait, so that the kinds of dependences
        make a difference. What its loads wait for can only make its stores later."""
        starts = list(self.origins.get(task.key, (0,) * self.gates.count))
        return any(self.shifts_after(self.touches, cells, before, starts) != starts
                   for is_store, cells, before in task.points if is_store)

    def commit(self, task: CommittedTask) -> None:
        """Plans a task unit by unit: each access waits for those before it that it depends on."""
        calls, stores, touches = list(task.calls), self.stores, self.touches
        shifts = self.gates.starts(self.origins.pop(task.key, None))
        for is_store, cells, before in task.points:
            while calls and calls[0].made[0] <= before[0]:
                self.note_call(calls.pop(0), shifts)
            if not is_store:
                shifts = self.shifts_after(stores, cells, before, shifts)
            elif self.is_one_memory:
                shifts = self.shifts_after(touches, cells, before, shifts)
            behind = sums(shifts, self.places(before[0] + DELAY, before[1]))
            for cell in cells:
                if is_store:
                    stores.note(cell, behind)
                if touches is not None:
                    # No store comes before an access that was noted: where it might, memories make a difference.
                    found = None if is_store else touches.of(cell)
                    touches.note(cell, behind if found is None else array.array("q", later(found, behind)))
        for call in calls:
            self.note_call(call, shifts)
        self.gates.end(sums(shifts, self.places(*task.work)))

    def note_call(self, call: Call, shifts: Times) -> None:
        """Notes when a child may start: in the unit behind its creator's call, or within the same round."""
        instructions, steps = call.made
        self.origins[call.child] = sums(shifts, self.places(instructions, steps - 1))

    def shifts_after(self, waits_for: Optional[Table], cells: Sequence[int], before: Counts,
                     shifts: list[int]) -> list[int]:
        """The shifts behind an access: those before it, and as much more as it has to wait."""
        for cell in cells:
            times = None if waits_for is None else waits_for.of(cell)
            if times is not None:
                shifts = later(shifts, map(operator.sub, times, self.places(*before)))
        return shifts


def sums(shifts: Times, places: Times) -> array.array[int]:
    """When the units at these places finish, for each plan."""
    return array.array("q", map(operator.add, shifts, places))


class FineLimits:
    """Plans for both kinds of memory. They are the same plans up to the first store that might have to wait."""

    def __init__(self, windows: Sequence[Window], cells: Cells) -> None:
        self.cells, self.renamed = cells, FinePlans(windows, cells)
        self.one: Optional[FinePlans] = None

    def commit(self, task: CommittedTask) -> None:
        """Plans the next task, with true dependences, and with all dependences from where the two differ."""
        if self.one is None and self.renamed.holds_a_store_back(task):
            self.one = self.renamed.in_one_memory(self.cells)
        self.renamed.commit(task)
        if self.one is not None:
            self.one.commit(task)

    def finish(self, manner: Manner) -> Times:
        """When all is done, a time for each plan."""
        plans = self.one if manner is Manner.ONE and self.one is not None else self.renamed
        return plans.gates.finish


class Limit(NamedTuple):
    """How much was done at once at most: so many units of the tasks that committed, in so many of time."""
    manner: Manner
    unit: Unit
    window: Window
    work: int
    time: int

    @property
    def at_once(self) -> float:
        """Units at once; 0 where no task committed."""
        return self.work / self.time if self.time else 0.0


FINE = (Manner.RENAMED, Manner.ONE)


class Limits:
    """All plans of a run. Steps are planned without a window alone."""

    def __init__(self, cells: Cells, windows: Sequence[Window] = WINDOWS) -> None:
        self.windows = windows
        self.whole, self.fine = WholePlans(windows, cells), FineLimits(windows, cells)
        self.work = [0, 0]

    def commit(self, task: CommittedTask) -> None:
        """Takes the next task that commits."""
        self.whole.commit(task)
        self.fine.commit(task)
        self.work = [so_far + more for so_far, more in zip(self.work, task.work)]

    def all_limits(self) -> list[Limit]:
        """Each limit, by whole tasks first, and by steps last."""
        pairs = [(Manner.WHOLE, self.whole.gates.finish), *((manner, self.fine.finish(manner)) for manner in FINE)]
        limits = [Limit(manner, Unit.INSTRUCTION, window, self.work[0], time)
                  for manner, finish in pairs for window, time in zip(self.windows, finish)]
        return limits + [Limit(manner, Unit.STEP, UNBOUNDED, self.work[1], self.fine.finish(manner)[-1])
                         for manner in FINE]
