"""How much of a run could be done at once in any order in which its tasks may commit: bounds from above.

Tasks of one timestamp, and those of an unordered domain, may commit in several orders, and each has its own limit. Here
only that is counted which holds in all of them, as long as each task does what it did:

- A task starts no sooner than its creator's call.
- Where the root domain is ordered, an earlier timestamp there comes first; a whole such timestamp is an epoch. With
  all dependences (RAW, WAR, WAW) an access waits for those of earlier epochs that it would conflict with. With true
  dependences (RAW) a load waits for the earliest of the stores of the last epoch that has some of its byte, unless
  another task of its own epoch stores that byte.
- Tasks that load a byte and then store it follow one another, each up to its store: from the load, or with all
  dependences from its first access of that byte. With true dependences a task that only stores the byte may come
  between any two.
"""
from __future__ import annotations

from collections.abc import Hashable, Iterable
from typing import NamedTuple, Optional

from yotarimu.figures.cells import Cells, Table
from yotarimu.figures.limits import CommittedTask, Manner, Point


class Reach(NamedTuple):
    """What a task did with a cell: the place of the load that another task's store reaches, of the first access, and of
    the last store; None where there is none."""
    load: Optional[int]
    first: int
    store: Optional[int]


Reaches = dict[int, Reach]


def reaches_of(points: Iterable[Point]) -> Reaches:
    """What a task did, by cell."""
    found: Reaches = {}
    for is_store, cells, (place, _) in points:
        for cell in cells:
            old = found.get(cell)
            if old is None:
                found[cell] = Reach(None, place, place) if is_store else Reach(place, place, None)
            elif is_store:
                found[cell] = Reach(old.load, old.first, place)
    return found


# Of a cell: how long the tasks that follow one another there take together, and how many may break their chain.
CHAIN = 2


class AnyOrder:
    """A bound for one kind of memory. Tasks come in the order of their commits, `epoch` is the timestamp in the root
    domain of their outermost task, and always the same where that domain is unordered."""

    def __init__(self, cells: Cells) -> None:
        self.origins: dict[Hashable, int] = {}
        self.chains = cells.table(CHAIN)
        self.finish = 0

    def commit(self, task: CommittedTask, epoch: int, reaches: Reaches) -> None:
        """Goes on by a task that commits in an epoch, with what its accesses reach."""
        raise NotImplementedError

    def time(self) -> int:
        """No schedule of any order takes less. Of so many pieces of a chain one is at least as long as their mean."""
        return max([self.finish, *(-(-length // (breaks + 1)) for page in self.chains.pages.values()
                                   for length, breaks in zip(page[::CHAIN], page[1::CHAIN]))])

    def note_chain(self, cell: int, length: int, breaks: int) -> None:
        """Notes that a chain becomes so much longer, and that so many more may break it."""
        page, place = self.chains.at(cell)
        page[place] += length
        page[place + 1] += breaks

    def note_calls(self, task: CommittedTask, shifts: list[tuple[int, int]]) -> None:
        """Notes when children may start, by the shifts of the task and the places from which they hold."""
        for child, (made_at, _) in task.calls:
            self.origins[child] = made_at + next(shift for place, shift in reversed(shifts) if place < made_at)

    def note_end(self, task: CommittedTask, shifts: list[tuple[int, int]]) -> None:
        """Notes when a task ends, and when its children may start."""
        self.note_calls(task, shifts)
        self.finish = max(self.finish, shifts[-1][1] + task.work[0])


class RenamedMemory(AnyOrder):
    """With true dependences. Tasks that depend on others of their epoch are kept up to its end."""

    def __init__(self, cells: Cells) -> None:
        super().__init__(cells)
        self.epoch: Optional[int] = None
        self.kept: list[tuple[CommittedTask, Reaches]] = []
        # The children that tasks make which are kept: nobody knows yet when they may start.
        self.undecided: set[Hashable] = set()
        # Of each cell the earliest time behind a task's last store to it: in earlier epochs, and in this one.
        self.before, self.here = cells.column(), cells.column()
        # How many tasks of this epoch store to a cell, where there was a store in an earlier one.
        self.writers = cells.column()
        cells.called.append(self.split)

    def split(self, word: int, cells: tuple[int, ...]) -> None:
        """Goes on with the bytes of a word in the tasks that are kept."""
        for place, (task, reaches) in enumerate(self.kept):
            if word in reaches:
                points = [point._replace(cells=cells) if word in point.cells else point for point in task.points]
                self.kept[place] = task._replace(points=points), reaches_of(points)

    def commit(self, task: CommittedTask, epoch: int, reaches: Reaches) -> None:
        if epoch != self.epoch:
            self.end_epoch()
            self.epoch = epoch
        for cell, reach in reaches.items():
            if reach.store is not None:
                length, breaks = (0, 1) if reach.load is None else (reach.store - reach.load + 1, 0)
                self.note_chain(cell, length, breaks)
                if self.before.pages:
                    self.writers.put(cell, self.writers.number(cell) + 1)
        if self.hangs_on_others(task):
            self.kept.append((task, reaches))
            self.undecided.update(child for child, _ in task.calls)
        else:
            self.place(task, reaches)

    def hangs_on_others(self, task: CommittedTask) -> bool:
        """Whether it depends on the other tasks of the epoch when a task comes: by its creator, or since one of its
        loads has to wait for an earlier epoch, unless another task stores there."""
        if task.key in self.undecided:
            return True
        shift, number = self.origins.get(task.key, 0), self.before.number
        for is_store, cells, (place, _) in task.points if self.before.pages else ():
            for cell in () if is_store else cells:
                if number(cell) - place > shift:
                    return True
        return False

    def end_epoch(self) -> None:
        """Places the tasks that were kept, once all tasks of the epoch are known."""
        for task, reaches in self.kept:
            self.place(task, reaches)
        self.kept, self.undecided = [], set()
        self.before.take_over(self.here)
        self.writers.pages = {}

    def place(self, task: CommittedTask, reaches: Reaches) -> None:
        """Places a task as early as its loads from earlier epochs permit."""
        shift, before = self.origins.pop(task.key, 0), self.before
        shifts, stored = [(-1, shift)], {}
        for is_store, cells, (place, _) in task.points:
            for cell in cells:
                if is_store:
                    stored[cell] = shift + place + 1
                elif before.number(cell) - place > shift and self.waits(cell, reaches[cell]):
                    shift = before.number(cell) - place
                    shifts.append((place, shift))
        for cell, time in stored.items():
            self.here.put(cell, min(time, self.here.number(cell) or time))
        self.note_end(task, shifts)

    def time(self) -> int:
        self.end_epoch()
        return super().time()

    def waits(self, cell: int, reach: Reach) -> bool:
        """Whether a load has to wait for an earlier epoch: no other task of its own epoch stores to the cell. What the
        task loads behind a store of its own comes later than this anyway, or doesn't wait."""
        return reach.load is not None and self.writers.number(cell) == (reach.store is not None)


# Of the accesses to a cell: the last epoch that has some, and the times behind those of earlier ones and of this one.
WAITS = 3


class OneMemory(AnyOrder):
    """With all dependences."""

    def __init__(self, cells: Cells) -> None:
        super().__init__(cells)
        self.stores, self.touches = cells.table(WAITS), cells.table(WAITS)

    def commit(self, task: CommittedTask, epoch: int, reaches: Reaches) -> None:
        shift = self.origins.pop(task.key, 0)
        shifts = [(-1, shift)]
        for is_store, cells, (place, _) in task.points:
            for cell in cells:
                later = earliest(self.touches if is_store else self.stores, cell, epoch) - place
                if later > shift:
                    shift = later
                    shifts.append((place, shift))
            for cell in cells:
                note_time(self.touches, cell, epoch, shift + place + 1)
                if is_store:
                    note_time(self.stores, cell, epoch, shift + place + 1)
        for cell, reach in reaches.items():
            if reach.store is not None:
                self.note_chain(cell, reach.store - reach.first + 1, 0)
        self.note_end(task, shifts)


def earliest(table: Table, cell: int, epoch: int) -> int:
    """The earliest time for what waits for all accesses of earlier epochs."""
    last, before, here = table.of(cell) or (epoch, 0, 0)
    return before if last == epoch else here


def note_time(table: Table, cell: int, epoch: int, time: int) -> None:
    """Notes that an access of this epoch to a cell ends at a time."""
    page, place = table.at(cell)
    if page[place] != epoch:
        page[place], page[place + 1] = epoch, page[place + 2]
    if time > page[place + 2]:
        page[place + 2] = time


class Bounds:
    """The bounds of a run for both kinds of memory, by instructions and without a window."""

    def __init__(self, cells: Cells) -> None:
        self.by_manner: dict[Manner, AnyOrder] = {Manner.RENAMED: RenamedMemory(cells), Manner.ONE: OneMemory(cells)}
        self.instructions = 0

    def commit(self, task: CommittedTask, epoch: int) -> None:
        """Goes on by a task that commits, in each manner."""
        self.instructions += task.work[0]
        reaches = reaches_of(task.points)
        for bound in self.by_manner.values():
            bound.commit(task, epoch, reaches)

    def at_once(self) -> dict[Manner, float]:
        """Instructions at once, which no order exceeds; 0 where no task committed."""
        times = {manner: bound.time() for manner, bound in self.by_manner.items()}
        return {manner: self.instructions / time if time else 0.0 for manner, time in times.items()}
