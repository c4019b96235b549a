"""The serial machine with a choice: which of several tasks comes first whose order a program leaves open."""
from __future__ import annotations

import dataclasses
import heapq
import random
from collections.abc import Callable, Iterable, Sequence
from typing import Optional

from yotarimu.common.outcome import Refusal
from yotarimu.comparing.results import Result
from yotarimu.images.image import DATA, Image
from yotarimu.images.serial_machine import MOST_BUDGET, Domain, Machine, Run, Task, TaskTrap
from yotarimu.reports.report import Entry, Name

# A task's key among those of equal timestamps; the least comes first.
Key = Callable[[int], float]
# A run of more instructions takes more than half a minute here.
MOST_STEPS = 20_000_000


def key_of(order: int) -> Key:
    """The keys of an order, by the number of a task: 0 is that of creation, 1 the reverse, and each other number is a
    shuffled one."""
    if order < 2:
        return lambda number: float(-number if order else number)
    source = random.Random(order)
    return lambda _: source.random()


class TooLong(Refusal):
    """A run has more instructions than are executed here."""


@dataclasses.dataclass(frozen=True)
class Origin:
    """Which task did something, in which turn, by which instruction."""
    turn: int
    task: Task
    pc: int


class WatchedRun(Run):
    """A task's run that can be undone, and that notes who stores to a word of the data."""
    machine: WatchedMachine

    def __init__(self, machine: WatchedMachine, task: Task) -> None:
        super().__init__(machine, task)
        self.old: list[tuple[int, bytes]] = []

    def store(self, width: int, address: int, value: int) -> None:
        """Stores as the instructions mean it; what the data had there is kept."""
        place, machine = address - DATA, self.machine
        old = bytes(machine.memory[place:place + width]) if 0 <= place < len(machine.memory) else b""
        super().store(width, address, value)
        if old:
            self.old.append((place, old))
            if machine.word == place & ~3:
                machine.last_store = Origin(self.turn, self.task, self.pc)

    def undo(self) -> None:
        """Rolls the stores back, the last first."""
        for place, old in reversed(self.old):
            self.machine.memory[place:place + len(old)] = old


class WatchedMachine(Machine):
    """The serial machine, which notes who stored to one word of the data last, and who emitted one byte."""

    def __init__(self, image: Image, budget: int = MOST_BUDGET, word: Optional[int] = None,
                 byte: Optional[int] = None) -> None:
        super().__init__(image, budget)
        self.word, self.byte = word, byte
        self.last_store: Optional[Origin] = None
        self.emitter: Optional[Origin] = None

    def run_of(self, task: Task) -> WatchedRun:
        return WatchedRun(self, task)

    def end_of_run(self, run: Run, before: int) -> None:
        """Notes what a run did that reached its end, before which so many bytes had been emitted."""
        if self.byte is not None and before <= self.byte < len(self.output):
            self.emitter = Origin(run.turn, run.task, run.task.entry)
        if run.inner:
            self.domains.append(run.inner)

    def replay(self, entries: Iterable[Entry]) -> None:
        """Takes the turns of a run that was made elsewhere."""
        for entry in entries:
            task = self.task_of(entry)
            if task is None:
                return
            task.turn = entry.turn
            self.turns += 1
            heapq.heappop(task.domain.pending)
            run, before = self.run_of(task), len(self.output)
            try:
                run.go()
            except TaskTrap:
                return
            self.end_of_run(run, before)


class OrderedMachine(WatchedMachine):
    """The serial machine that takes its turns by itself, in an order of tasks of equal timestamps."""

    def __init__(self, image: Image, order: int, budget: int = MOST_BUDGET, most_steps: int = MOST_STEPS) -> None:
        self.key = key_of(order)
        self.queues: dict[int, list[tuple[int, float, int, Task]]] = {}
        self.entries: list[Entry] = []
        self.most_steps = most_steps
        super().__init__(image, budget)

    def add(self, name: Name, entry: int, timestamp: int, arguments: Iterable[int], domain: Domain) -> None:
        """Adds a pending task, with its place among those of equal timestamps."""
        super().add(name, entry, timestamp, arguments, domain)
        task, number = self.tasks[name], len(self.tasks)
        heapq.heappush(self.queues.setdefault(id(domain), []), (task.timestamp, self.key(number), number, task))

    def result(self, most_commits: int) -> Result:
        """Takes all turns, up to the end."""
        while True:
            while len(self.domains) > 1 and not self.queues.get(id(self.domains[-1])):
                self.domains.pop()
            queue = self.queues.get(id(self.domains[-1]))
            if not queue:
                return self.left("normal")
            if len(self.entries) == most_commits:
                return self.left("limit")
            if self.steps > self.most_steps:
                raise TooLong(f"a run of more than {self.most_steps:,} instructions isn't made here.")
            trapped = self.take_turn(heapq.heappop(queue)[3])
            if trapped is not None:
                return self.left(trapped)

    def take_turn(self, task: Task) -> Optional[str]:
        """Runs a task whole; the end of the run where it traps, which leaves nothing of it."""
        heapq.heappop(task.domain.pending)
        run, before = self.run_of(task), len(self.output)
        run.turn = task.turn = self.turns + 1
        try:
            run.go()
        except TaskTrap as trapped:
            run.undo()
            del self.output[before:]
            return f"trap {trapped.cause} {run.pc:08x}"
        self.turns += 1
        self.entries.append(Entry(task.turn, task.name, task.domain.depth, task.timestamp))
        self.end_of_run(run, before)
        return None

    def left(self, end: str) -> Result:
        """What the run leaves."""
        return Result(bytes(self.memory), bytes(self.output), end)


def result_in_order(image: Image, order: int, budget: int, commits: int) -> tuple[Result, Sequence[Entry]]:
    """What a run in an order leaves, and its turns."""
    machine = OrderedMachine(image, order, budget)
    return machine.result(commits), machine.entries
