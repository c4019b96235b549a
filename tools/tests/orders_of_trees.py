"""Trees of tiny tasks in domains, and all orders in which the serial machine may take their turns."""
from __future__ import annotations

import dataclasses
import random
from collections.abc import Iterator
from typing import Optional, Union

from tests.best_schedule import Text

PLAIN = "..abABc"


@dataclasses.dataclass(eq=False)
class Domain:
    """A domain of a tree."""
    is_ordered: bool
    outer: Optional[Domain] = None
    # The timestamp of the task that made it.
    floor: int = 0


@dataclasses.dataclass(eq=False)
class Task:
    """A task: its domain and timestamp, the timestamp of its outermost task in the root domain, and its instructions,
    of which a child stands for the call that makes it."""
    domain: Domain
    timestamp: int
    epoch: int
    units: list[Union[str, Task]]
    subdomain: Optional[Domain] = None
    is_initial: bool = True


@dataclasses.dataclass
class Tree:
    """A root domain and the tasks in it and below it."""
    root: Domain
    tasks: list[Task]

    def orders(self) -> Iterator[list[Task]]:
        """The orders that the serial machine allows."""
        pending = {id(self.root): [task for task in self.tasks if task.is_initial]}
        yield from turns([], [self.root], pending)

    def epoch(self, task: Task) -> int:
        """The epoch of a task; there is one alone in an unordered root domain."""
        return task.epoch if self.root.is_ordered else 0


def turns(done: list[Task], stack: list[Domain], pending: dict[int, list[Task]]) -> Iterator[list[Task]]:
    """All ways to go on: a task of the innermost domain that has one, of the least timestamp there."""
    while len(stack) > 1 and not pending.get(id(stack[-1])):
        stack = stack[:-1]
    waiting = pending.get(id(stack[-1]), [])
    if not waiting:
        yield done
        return
    least = min(task.timestamp for task in waiting)
    for task in waiting:
        if task.timestamp == least:
            left = {key: [other for other in tasks if other is not task] for key, tasks in pending.items()}
            for child in task.units:
                if isinstance(child, Task):
                    left.setdefault(id(child.domain), []).append(child)
            inner = [task.subdomain] if task.subdomain is not None else []
            yield from turns([*done, task], [*stack, *inner], left)


def text_of(order: list[Task]) -> Text:
    """The tasks in an order, as a tiny text."""
    numbers = {id(task): str(number) for number, task in enumerate(order, 1)}
    return Text(" ".join("".join(numbers[id(unit)] if isinstance(unit, Task) else unit for unit in task.units)
                         for task in order))


def random_tree(chance: random.Random, most_tasks: int, most_units: int) -> Tree:
    """A tree of so many tasks of so many units at most."""
    root = Domain(chance.random() < 0.6)
    tree = Tree(root, [])
    for number in range(chance.randint(1, most_tasks)):
        units: list[Union[str, Task]] = [*chance.choices(PLAIN, k=chance.randint(1, most_units))]
        if not number or chance.random() < 0.4:
            timestamp = chance.randint(0, 2) if root.is_ordered else 0
            tree.tasks.append(Task(root, timestamp, timestamp, units))
        else:
            tree.tasks.append(random_child(chance, chance.choice(tree.tasks), units))
    return tree


def random_child(chance: random.Random, creator: Task, units: list[Union[str, Task]]) -> Task:
    """A child of a task, in one of the domains in which it may be."""
    own = creator.domain
    domain, timestamp = own, creator.timestamp + chance.randint(0, 1)
    kind = chance.choice(("same", "same", "sub", "super"))
    if kind == "sub":
        if creator.subdomain is None:
            creator.subdomain = Domain(chance.random() < 0.5, own, creator.timestamp)
        domain, timestamp = creator.subdomain, chance.randint(0, 2)
    elif kind == "super" and own.outer is not None:
        domain, timestamp = own.outer, own.floor + chance.randint(0, 1)
    timestamp = timestamp if domain.is_ordered else 0
    child = Task(domain, timestamp, timestamp if domain.outer is None else creator.epoch, units, None, False)
    creator.units.insert(chance.randrange(len(creator.units) + 1), child)
    return child
