"""What tasks are like: how deep, in which domains, what they touch, where they begin, and why steps stall."""
from __future__ import annotations

import collections
import dataclasses
from typing import TYPE_CHECKING

from yotarimu.figures.spread import Spread
from yotarimu.lines.times import Time

if TYPE_CHECKING:
    from yotarimu.lines.replay import Access, Task, ToldLine

# Why a step stalls, by what its task asked for; and a split.
STALLS = {"enqueue": "step, for a task queue", "end": "step, for the commit queue", "split": "split"}
DATA_START = 0x10000000
KINDS = ("unordered", "ordered")
# What is counted of each task that committed.
SPREADS = ("instructions", "loads", "stores", "lines read", "lines written", "children")


@dataclasses.dataclass
class DomainCounts:
    """The domains of one depth and kind: how many the tasks that committed made, how many had a commit, and of how many
    tasks."""
    made: int = 0
    used: int = 0
    commits: int = 0


@dataclasses.dataclass
class EntryCounts:
    """The tasks that begin at one address: how many committed, their instructions, and those that were aborted."""
    commits: int = 0
    useful: int = 0
    taken_back: int = 0
    wasted: int = 0


class TaskFigures:
    """Figures of the tasks that committed, each since its last dispatch, and of all steps."""

    def __init__(self, tiles: int, line: int, root: str) -> None:
        self.line = line
        self.spreads = {name: Spread() for name in SPREADS}
        self.domains: dict[tuple[int, str], DomainCounts] = {(1, root): DomainCounts(made=1)}
        self.entries: dict[int, EntryCounts] = collections.defaultdict(EntryCounts)
        self.accesses = [{"load": 0, "store": 0} for _ in range(tiles)]
        self.stalls = {reason: 0 for reason in STALLS.values()}
        self.spilled_at_opening = 0
        # The makers of the domains in which the last task committed that did, from the root down.
        self.makers: list[Time] = []

    def note_place(self, told: ToldLine) -> None:
        """Notes a task that is placed before the first act; one without an id went to a block."""
        self.spilled_at_opening += "new" not in told.line

    def note_access(self, task: Task, access: Access) -> None:
        """Notes a load or a store, by the task's tile."""
        self.accesses[task.tile]["store" if access.is_store else "load"] += 1

    def note_stall(self, word: str) -> None:
        """Takes what was asked for and stalled."""
        self.stalls[STALLS[word]] += 1

    def note_taken(self, task: Task, work: int) -> None:
        """Notes a task that was aborted, with the work that was wasted."""
        counts = self.entries[task.entry]
        counts.taken_back += 1
        counts.wasted += work

    def note_commit(self, task: Task) -> None:
        """Notes what a committed task was like."""
        lines: dict[bool, set[int]] = {False: set(), True: set()}
        stores = 0
        for access in task.accesses:
            stores += access.is_store
            lines[access.is_store].add((access.address - DATA_START) // self.line)
        values = (task.work, len(task.accesses) - stores, stores, len(lines[False]), len(lines[True]),
                  len(task.children))
        for spread, value in zip(self.spreads.values(), values):
            spread.counts[value] += 1
        counts = self.entries[task.entry]
        counts.commits += 1
        counts.useful += task.work
        self.note_domain(task)

    def note_domain(self, task: Task) -> None:
        """Notes a commit in its domain, and the subdomain that the task made."""
        own = self.counts_of(task.depth, KINDS[task.domain.kinds[-1]])
        own.commits += 1
        # Tasks of one domain commit one after another, but for those of domains within it.
        maker, depth = task.domain.maker, task.depth
        if len(self.makers) < depth or self.makers[depth - 1] != maker:
            own.used += 1
        self.makers[depth - 1:] = [maker]
        if task.subdomain is not None:
            self.counts_of(depth + 1, task.subdomain).made += 1

    def counts_of(self, depth: int, kind: str) -> DomainCounts:
        """What is counted of the domains of a depth and a kind."""
        return self.domains.setdefault((depth, kind), DomainCounts())

    def depths(self) -> dict[int, int]:
        """How many tasks committed, by depth."""
        sums: collections.Counter[int] = collections.Counter()
        for (depth, _), counts in self.domains.items():
            sums[depth] += counts.commits
        return dict(sorted(sums.items()))
