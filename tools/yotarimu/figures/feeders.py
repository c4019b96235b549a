"""Chains of spawners: tasks that only enqueue others, each of which enqueues the next."""
from __future__ import annotations

from collections.abc import Hashable
from typing import NamedTuple, Optional

from yotarimu.figures.limits import CommittedTask, Limit, Manner, Unit, UNBOUNDED

# A shorter chain is told by nobody: a tree of a million tasks isn't a deeper.
FEWEST = 8


class Chain(NamedTuple):
    """The number of spawners in a chain, and their instructions."""
    tasks: int
    instructions: int


class Feeders:
    """The longest chain of spawners of a run."""

    def __init__(self) -> None:
        # The chain that ends with the creator of a child that hasn't committed.
        self.before: dict[Hashable, Chain] = {}
        self.longest = Chain(0, 0)

    def commit(self, task: CommittedTask) -> None:
        """Takes the next task that commits."""
        before = self.before.pop(task.key, Chain(0, 0))
        if not task.calls or any(point.is_store for point in task.points):
            return
        chain = Chain(before.tasks + 1, before.instructions + task.work[0])
        self.longest = max(self.longest, chain, key=lambda it: it.instructions)
        for call in task.calls:
            self.before[call.child] = chain


def sentence(longest: Chain, limits: list[Limit]) -> Optional[str]:
    """What to report if a chain of spawners is most of the critical path at task granularity."""
    time = next((limit.time for limit in limits
                 if (limit.manner, limit.unit, limit.window) == (Manner.WHOLE, Unit.INSTRUCTION, UNBOUNDED)), 0)
    if longest.tasks < FEWEST or 2 * longest.instructions <= time:
        return None
    return (f"{longest.tasks:,} tasks that do nothing but make others come one after another, and have "
            f"{longest.instructions:,} of the {time:,} instructions of the longest way. As a tree they would be sooner "
            "done: `spread` of task.h makes one.")
