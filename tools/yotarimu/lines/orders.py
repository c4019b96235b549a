"""Which of two tasks comes first, and why: by their virtual times, in a sentence.

docs/machine/MACHINE.md has the order under "Which task comes first". The page has the same sentences (orders.js), of
the same table.
"""
from __future__ import annotations

from typing import Optional

from yotarimu.common.sentences import SENTENCES, fill
from yotarimu.images.listing import NO_LISTING, Listing
from yotarimu.lines.replay import Machine, Task
from yotarimu.lines.sentences import label_of, name_told
from yotarimu.lines.times import UNDISPATCHED

TEXTS = SENTENCES["order"]
# Where a task waits: queued ones come before spilled ones, then tiles count, and then places.
Spot = tuple[bool, int, int]


def task_of_label(label: str, machine: Machine) -> Optional[Task]:
    """The uncommitted task that is called so; None where there is none."""
    return next((task for task in machine.all_tasks() if label_of(task) == label), None)


def task_told(task: Task, listing: Listing = NO_LISTING) -> str:
    """What a task begins with, and its domain."""
    return fill(TEXTS["task"], task=label_of(task), words=listing.task_words(task.entry, task.arguments),
                ts=task.timestamp, depth=task.depth, domain=domain_told(task, task.depth - 1))


def order_told(one: Task, other: Task, machine: Machine) -> str:
    """Why one of two uncommitted tasks comes after the other."""
    if one is other:
        return str(TEXTS["same"])
    first, second = sorted((one, other), key=lambda task: (task.time(), spot_of(task, machine)))
    return fill(TEXTS["after"], first=label_of(first), second=label_of(second), why=why_told(first, second, machine))


def spot_of(task: Task, machine: Machine) -> Spot:
    """Where a task waits."""
    if task.id is not None:
        return False, task.tile, machine.queues[task.tile].index(task.id)
    return True, task.tile, next(place for place, it in enumerate(machine.blocks[task.tile].values()) if it is task)


def kind_at(task: Task, level: int) -> str:
    """The kind of the domain of a level of a task's time."""
    return "ordered" if task.domain.kinds[level] else "unordered"


def domain_told(task: Task, level: int) -> str:
    """The domain of a level of a task's time: its own one, or one around that."""
    kind = TEXTS["kinds"][kind_at(task, level)]
    if level == 0:
        return fill(TEXTS["root"], kind=kind)
    return fill(TEXTS["sub"], kind=kind, maker=maker_told(task, level - 1))


def maker_told(task: Task, level: int) -> str:
    """The task that made the domain behind a level of a task's time."""
    maker = task.makers[level]
    return label_of(maker.task) if maker.task is not None else name_told(maker.name or ())


def holder_told(task: Task, level: int) -> str:
    """Which task's place in its domain a level of a task's time is: its own at the last level, else that of a maker."""
    if level == task.depth - 1:
        return label_of(task)
    return fill(TEXTS["maker"], maker=maker_told(task, level), task=label_of(task))


def why_told(first: Task, second: Task, machine: Machine) -> str:
    """By what the second of two tasks comes after the first."""
    time, other_time = first.time(), second.time()
    differing = next((level for level, (one, other) in enumerate(zip(time, other_time)) if one != other), None)
    if differing is None and len(time) < len(other_time):
        return fill(TEXTS["within"], first=label_of(first))
    # Times that don't differ are those of two tasks that wait.
    level = len(time) - 1 if differing is None else differing
    (timestamp, dispatch), (other_timestamp, other_dispatch) = time[level], other_time[level]
    domain, one, other = domain_told(first, level), holder_told(first, level), holder_told(second, level)
    if timestamp != other_timestamp:
        return fill(TEXTS["timestamps"], domain=domain, one=one, other=other, ts=timestamp,
                    other_ts=other_timestamp)
    rule = rule_of(dispatch, other_dispatch, spot_of(first, machine), spot_of(second, machine))
    return fill(TEXTS["equal"], domain=domain, equal=fill(TEXTS["equals"][kind_at(first, level)], ts=timestamp),
                rule=fill(TEXTS[rule], one=one, other=other, tile=first.tile, other_tile=second.tile))


def rule_of(dispatch: float, other_dispatch: float, spot: Spot, other_spot: Spot) -> str:
    """By what the first of two tasks of equal timestamps comes first."""
    if dispatch != other_dispatch:
        return "dispatched" if other_dispatch == UNDISPATCHED else "dispatches"
    if spot[0] != other_spot[0]:
        return "queued"
    return "tiles" if spot[1] != other_spot[1] else "places"
