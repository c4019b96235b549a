"""The first reading of the event log, which notes what each leg did.

The reader checks each leg against the image: where it stops, what it requests, what it finds and what it stores. So the
run that is debugged later is that of the event log, act for act.
"""
from __future__ import annotations

from typing import Any, Iterable, NamedTuple

from yotarimu.common.outcome import Refusal
from yotarimu.debugger.attempts import Attempt
from yotarimu.debugger.track import MOST_STEPS, Memory, Position, Stretch
from yotarimu.images.image import DATA, Image
from yotarimu.lines.causes import causes_of
from yotarimu.lines.filters import rule_of
from yotarimu.lines.legs import Core
from yotarimu.lines.reader import open_lines
from yotarimu.lines.replay import Access, Task, ToldLine

Line = dict[str, Any]


class Origin(NamedTuple):
    """Where a child was made: by which attempt, the position before the call, and the call's address."""
    by: Attempt
    position: Position
    pc: int


class LegNotes:
    """What the event log has, in the order of the legs: `stretches`, and for each its attempt (`owners`), how many
    instructions of that attempt were executed before it (`starts`), and its event (`events`)."""

    def __init__(self, image: Image, path: str) -> None:
        self.memory = Memory(image)
        self.stretches: list[Stretch] = []
        self.owners: list[Attempt] = []
        self.starts: list[int] = []
        self.events: list[int] = []
        self.attempts: list[Attempt] = []
        self.made: dict[Task, Origin] = {}
        # Of positions the attempts that are aborted there, or the one that traps there.
        self.taken: dict[Position, list[Attempt]] = {}
        self.trapped: dict[Position, Attempt] = {}
        self.running: dict[Task, Attempt] = {}
        # How many attempts there were at a task that is uncommitted.
        self.counts: dict[Task, int] = {}
        # The accesses that make stores, by their places among all stores; those that undo others have none.
        self.accesses: dict[int, Access] = {}
        self.steps, self.turns = 0, 0
        # Where legs came by: each set once, and which it is by the path of a leg.
        self.known: dict[frozenset[int], frozenset[int]] = {}
        self.passed: dict[tuple[int, ...], frozenset[int]] = {}
        with open_lines(path, image=image) as watched:
            self.head: Line = watched.head
            legs = watched.machine.legs
            self.cores: dict[Task, Core] = {} if legs is None else legs.cores
            self.machine = watched.machine
            for told in watched:
                self.take(told)
        self.firsts = [stretch.first for stretch in self.stretches]

    def take(self, told: ToldLine) -> None:
        """Takes a line, once the reader has held it."""
        task = told.task
        if told.asks is not None and task is not None:
            self.leg(told, task, told.asks)
            return
        if told.taken:
            last = len(self.stretches) - 1
            here = Position(last, self.stretches[last].length) if self.stretches else Position(0, 0)
            self.take_back(told, here, Position(last + 1, 0))
        if told.dispatched is not None:
            self.begin(told.dispatched)
        elif told.committed is not None:
            self.commit(told.committed)

    def begin(self, task: Task) -> None:
        """A task is dispatched, and begins anew."""
        self.counts[task] = self.counts.get(task, 0) + 1
        attempt = Attempt(len(self.attempts) + 1, task, self.counts[task], Position(len(self.stretches), 0))
        self.attempts.append(attempt)
        self.running[task] = attempt

    def commit(self, task: Task) -> None:
        """Notes a task's commit, with which its attempt is gone."""
        attempt = self.running.pop(task)
        del self.counts[task]
        self.turns += 1
        attempt.gone, attempt.turn = Position(len(self.stretches), 0), self.turns

    def leg(self, told: ToldLine, task: Task, asks: str) -> None:
        """Notes a leg, the tasks that its event aborts, and then the access or the call at its end."""
        attempt, stores, number = self.running[task], self.memory.stores, len(self.stretches)
        first, start = len(stores), attempt.note(number, task.work)
        length, core = task.work - start, self.cores[task]
        self.steps += length
        if self.steps > MOST_STEPS:
            raise Refusal(f"these are more than {MOST_STEPS:,} instructions, and no more are gone along; a run up to "
                          "fewer --commits is shorter.")
        if told.taken:
            self.take_back(told, Position(number, length - 1), Position(number, length))
        if told.access is not None:
            self.access(attempt, told.access)
        elif told.arrived is not None:
            self.made[told.arrived] = Origin(attempt, Position(number, length - 1), task.pc)
        elif asks == "trap":
            attempt.trap = self.machine.traps[task], task.pc
            self.trapped[Position(number, length)] = attempt
        self.starts.append(start)
        self.owners.append(attempt)
        self.events.append(self.machine.events)
        passed = self.passed.get(core.path) or self.passed_by(core)
        self.stretches.append(Stretch(length, passed, first, len(stores)))

    def passed_by(self, core: Core) -> frozenset[int]:
        """Where the last leg of a core came by, on a path that none came before."""
        passed = core.passed
        found = self.passed[core.path] = self.known.setdefault(passed, passed)
        return found

    def access(self, attempt: Attempt, access: Access) -> None:
        """Notes an access: a store changes memory, and of a load the value that it found is kept."""
        if access.is_store:
            self.accesses[len(self.memory.stores)] = access
            self.memory.write(access.address - DATA, access.value.to_bytes(access.bytes, "little"))
        else:
            attempt.loaded.append(access.old)

    def take_back(self, told: ToldLine, here: Position, gone: Position) -> None:
        """Undoes the stores of tasks, whose attempts are gone from a position on."""
        self.undo(access for taken in told.taken for access in taken.accesses)
        for cause in causes_of(told, rule_of(self.head)):
            attempt = self.running.pop(cause.task, None)
            if attempt is not None:
                attempt.gone, attempt.cause, attempt.event = gone, cause, told.line["n"]
                self.taken.setdefault(here, []).append(attempt)

    def undo(self, accesses: Iterable[Access]) -> None:
        """Undoes stores, the latest first."""
        stores = [access for access in accesses if access.is_store]
        for access in sorted(stores, key=event_of, reverse=True):
            self.memory.write(access.address - DATA, access.old.to_bytes(access.bytes, "little"))


def event_of(access: Access) -> int:
    """The number of the event that an access was made in."""
    return access.event
