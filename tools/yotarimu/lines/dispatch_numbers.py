"""Dispatch numbers, as the event log has them: the next one, and those in use once all are used up and they are
renumbered."""
from __future__ import annotations

from collections.abc import Iterable
from typing import TYPE_CHECKING

from yotarimu.lines.times import Time

if TYPE_CHECKING:
    from yotarimu.lines.replay import Task

# How many dispatch numbers there are.
DISPATCH_NUMBERS = 65_536


class DispatchNumbers:
    """The next dispatch number, and the path: the time of the task that committed last."""

    def __init__(self) -> None:
        self.next = 0
        self.path: Time = ()

    def give(self, tasks: Iterable[Task]) -> int:
        """The number that a dispatch gives, where these are all uncommitted tasks, spilled ones too."""
        if self.next == DISPATCH_NUMBERS:
            self.renumber(list(tasks))
        self.next += 1
        return self.next - 1

    def renumber(self, tasks: list[Task]) -> None:
        """Each number in use becomes its place among them: those of the path, of dispatched tasks, and of the tasks
        that made the domains of all tasks. Times have the places of dispatches, which rise as the numbers do."""
        dispatched = [task for task in tasks if task.number is not None]
        times = [self.path, *(task.domain.maker for task in tasks), *(task.time() for task in dispatched)]
        used = sorted({dispatch for time in times for _, dispatch in time})
        places = {dispatch: place for place, dispatch in enumerate(used)}
        for task in dispatched:
            task.number = places[task.dispatch]
        self.next = len(used)
