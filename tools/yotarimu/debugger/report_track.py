"""The track of a report: the tasks whole, in the order of their turns, and the one that traps last.

The turns are run again by a plain reading of RV32I. Each is compared with what may come next, and what they leave with
the report's output, window and trap; ./fractal check judges the report.
"""
from __future__ import annotations

import bisect
import dataclasses
from typing import Iterable, Iterator, Optional, Union

from yotarimu.common.outcome import Refusal
from yotarimu.common.words import number_in
from yotarimu.debugger import goals
from yotarimu.debugger.track import MOST_STEPS, MOST_THREADS, MOST_TOLD, Core, Memory, Position, Stretch, Track
from yotarimu.images import serial_machine as machine
from yotarimu.images.image import DATA, STACK, Image
from yotarimu.images.listing import Listing
from yotarimu.reports.meanings import cause_told
from yotarimu.reports.report import Entry, Name, Report, Trap


class Turn(Core):
    """A task that runs whole."""

    def __init__(self, track: ReportTrack, task: machine.Task) -> None:
        super().__init__(track.turns, task)
        self.track = track
        self.pcs: set[int] = set()

    def go(self) -> None:
        """The first run, up to its end or trap, which notes where it comes by."""
        self.track.core = self
        while not self.is_over:
            self.pcs.add(self.pc)
            self.advance()
        self.track.need_room(self.executed)

    def keep(self, place: int, new: bytes) -> None:
        self.track.store(place, new)


@dataclasses.dataclass(frozen=True)
class Origin:
    """Where a task was made: the position before the call, and the call's address. Tasks of the image have none."""
    position: Position
    pc: int


class Turns(machine.Machine):
    """The machine of the turns. Tasks come in the first run alone, as each run again makes the same."""

    def __init__(self, track: ReportTrack, image: Image) -> None:
        self.track, self.is_first = track, True
        self.made: dict[Name, Origin] = {}
        super().__init__(image)
        self.memory = track.memory.data

    def run_of(self, task: machine.Task) -> Turn:
        return Turn(self.track, task)

    def add(self, name: Name, entry: int, timestamp: int, arguments: Iterable[int], domain: machine.Domain) -> None:
        """Adds a task; on the first way it is noted where a child was made."""
        if self.is_first:
            super().add(name, entry, timestamp, arguments, domain)
            if name.creator:
                core = self.track.core
                self.made[name] = Origin(Position(len(self.track.stretches), core.executed), core.pc)


class ReportTrack(Track):
    """The turns of a report. Its threads are all tasks, by the order in which they are made."""

    core: Turn
    elsewhere = dict.fromkeys(("runs", "why", "stale"), "a report has no attempts; an event log has.")

    def __init__(self, image: Image, report: Report, listing: Listing) -> None:
        super().__init__(image, listing)
        self.memory, self.steps = Memory(image), 0
        # What was stored while the task that runs is no longer the report's.
        self.scratch: list[tuple[int, bytes]] = []
        self.turns = Turns(self, image)
        self.order: list[machine.Task] = []
        self.run_first(report)
        self.names = list(self.turns.tasks)
        self.numbers = {name: number for number, name in enumerate(self.names, 1)}
        self.places = {task.name: place for place, task in enumerate(self.order)}
        self.firsts = [stretch.first for stretch in self.stretches]
        self.begin()
        self.words = {"tasks": self.tasks, "children": self.children, "whence": self.whence, "writes": self.writes,
                      "goto": self.goto}

    # ---- the first run

    def run_first(self, report: Report) -> None:
        """Runs all turns, and notes stretches and stores."""
        known: dict[frozenset[int], frozenset[int]] = {}
        comings: list[Union[Entry, Trap]] = [*report.entries, *([report.trap] if report.trap else [])]
        for coming in comings:
            first = len(self.memory.stores)
            why = self.run_turn(coming)
            if why is not None:
                raise Refusal(f"this isn't a report of a run of the image: {why}.")
            pcs = frozenset(self.core.pcs)
            last = len(self.memory.stores)
            self.stretches.append(Stretch(self.core.executed, known.setdefault(pcs, pcs), first, last))
            self.order.append(self.core.task)
        self.need_stretches("no task took a turn in this report")
        self.turns.is_first = False
        self.need_report(report)

    def run_turn(self, coming: Union[Entry, Trap]) -> Optional[str]:
        """Runs a task whole, or up to its trap; why it isn't so, if it isn't."""
        if isinstance(coming, Entry):
            return self.turns.follow([coming])
        if self.turns.run_at_trap(coming) is None:
            return f"the task {coming.name} doesn't trap so here; ./fractal check says more"
        return None

    def need_room(self, executed: int) -> None:
        """Counts instructions, and refuses more of them than can be gone along."""
        self.steps += executed
        if self.steps > MOST_STEPS:
            raise Refusal(f"these are more than {MOST_STEPS:,} instructions, and no more are gone along; a run up to "
                          "fewer --commits is shorter.")

    def need_report(self, report: Report) -> None:
        """Compares what the turns leave with the report. The task that traps leaves nothing."""
        emitted = bytes(self.turns.output)
        if report.trap:
            self.memory.move(self.stretches[-1].first)
            emitted = emitted[:len(emitted) - self.core.emitted]
        window = [(address, int.from_bytes(self.bytes_at(address, 4, b""), "little")) for address, _ in report.window]
        words = range(DATA + self.image.window_offset, DATA + self.image.window_offset + 4 * self.image.window_words, 4)
        if [address for address, _ in window] != list(words):
            raise Refusal("this isn't a report of a run of the image: its window is another.")
        if emitted != report.output or window != report.window:
            raise Refusal("the turns leave other bytes than the report has; ./fractal check says more.")

    def store(self, place: int, new: bytes) -> None:
        """A store to the data, before the core makes it."""
        if self.is_changed:
            self.scratch.append((place, bytes(self.memory.data[place:place + len(new)])))
        elif self.turns.is_first:
            self.memory.write(place, new)
        else:
            self.memory.done += 1

    # ---- positions

    def begin(self) -> None:
        """Goes to the first instruction of the first turn."""
        self.memory.move(0)
        self.core = Turn(self, self.order[0])

    @property
    def position(self) -> Position:
        return Position(self.stretch, self.core.executed)

    def go_to(self, position: Position) -> None:
        was_changed, self.is_changed = self.is_changed, False
        for place, old in reversed(self.scratch):
            self.memory.data[place:place + len(old)] = old
        self.scratch.clear()
        if was_changed or position.stretch != self.stretch or position.done < self.core.executed:
            self.memory.move(self.stretches[position.stretch].first)
            self.turns.output.clear()
            self.stretch, self.core = position.stretch, Turn(self, self.order[position.stretch])
        while self.core.executed < position.done:
            self.core.advance()

    def is_stretch_over(self) -> bool:
        return self.core.is_over

    def advance(self) -> None:
        self.core.advance()

    def mark_changed(self) -> None:
        self.is_changed = True

    def change(self, address: int, data: bytes) -> None:
        start, held = (STACK, self.core.stack) if address >= STACK else (DATA, self.memory.data)
        place = address - start
        if not 0 <= place <= len(held) - len(data):
            raise Refusal(f"nothing can be written at {address:08x}.")
        self.mark_changed()
        if start == DATA:
            self.scratch.append((place, bytes(held[place:place + len(data)])))
        held[place:place + len(data)] = data

    # ---- threads

    @property
    def thread(self) -> int:
        return self.numbers[self.core.task.name]

    def task_of(self, thread: int) -> machine.Task:
        """The task that a thread is."""
        return self.turns.tasks[self.names[thread - 1]]

    def threads(self) -> list[int]:
        if len(self.names) <= MOST_THREADS:
            return list(range(1, len(self.names) + 1))
        coming = self.order[self.stretch:self.stretch + MOST_THREADS]
        return [self.numbers[task.name] for task in coming if task is coming[0] or self.is_made(task)]

    def is_made(self, task: machine.Task) -> bool:
        """Whether a task is there at this position: it is of the image, or was made before."""
        origin = self.turns.made.get(task.name)
        return origin is None or origin.position < self.position

    def name_of(self, thread: int) -> str:
        task = self.task_of(thread)
        return f"{task.name} {self.listing.address_text(task.entry)} ts {task.timestamp}"

    def state_of(self, thread: int) -> str:
        task = self.task_of(thread)
        if thread == self.thread:
            return f"turn {self.stretch + 1}, {self.core.executed} instructions done"
        if task.turn and task.turn - 1 < self.stretch:
            return f"had turn {task.turn}"
        turn = f", turn {task.turn}" if task.turn else ", without a turn"
        return ("waits" if self.is_made(task) else "isn't made yet") + turn

    def core_of(self, thread: int) -> Core:
        """A task that doesn't run is at its start."""
        return self.core if thread in (0, self.thread) else Turn(self, self.task_of(thread))

    def choose(self, thread: int) -> bool:
        place = self.places.get(self.names[thread - 1])
        if thread != self.thread and place is not None:
            self.go_to(Position(place, 0))
        return thread == self.thread

    def trap_told(self, trapped: machine.TaskTrap) -> str:
        what, usual = cause_told(trapped.cause, self.image.limits)
        where = "" if trapped.address is None else f" at {trapped.address:08x}"
        return f"Trap {trapped.cause}{where}: {what}; usually from {usual}."

    # ---- what may be asked beside

    def line(self, task: machine.Task) -> str:
        """A task as a row of a list, with a mark where it is the one that runs."""
        turn = f"turn {task.turn}" if task.turn else "no turn"
        mark = ">" if task is self.core.task else " "
        return (f"{mark} {turn:>9}  {task.name!s:<8} ts {task.timestamp:<8} depth {task.domain.depth}  "
                f"{self.listing.task_words(task.entry, task.arguments)}")

    def task_named(self, word: Optional[str]) -> machine.Task:
        """The task of a name, or of the number of a thread; by default the one that runs."""
        if word is None:
            return self.core.task
        thread = number_in(word, 1, len(self.names))
        if thread is not None:
            return self.task_of(thread)
        name = goals.name_in(word)
        task = None if name is None else self.turns.tasks.get(name)
        if task is None:
            raise Refusal(f"{word}: no such task.")
        return task

    def tasks(self, first: str = "1") -> list[str]:
        """[TURN]  the tasks by their turns, from one on"""
        start = goals.number_in("tasks", first, len(self.order)) - 1
        left = len(self.order) - start - MOST_TOLD
        more = [f"and {left:,} more: monitor tasks {start + 1 + MOST_TOLD}"] if left > 0 else []
        return [*map(self.line, self.order[start:start + MOST_TOLD]), *more]

    def children(self, word: Optional[str] = None) -> list[str]:
        """[TASK]  its children, and where it makes each"""
        task = self.task_named(word)
        turn = self.places[task.name] + 1 if task.name in self.places else 0
        rows = []
        for name, origin in self.turns.made.items():
            if name.creator == turn:
                not_yet = "" if origin.position < self.position else "  (not yet)"
                rows.append(f"{self.line(self.turns.tasks[name])}  by {self.place_told(origin.pc)}{not_yet}")
        return rows or [f"{task.name} makes no children"]

    def whence(self, word: Optional[str] = None) -> list[str]:
        """[TASK]  which task made it, which made that one, and so on up to the image"""
        task = self.task_named(word)
        rows = [self.line(task)]
        for origin in self.origins(task):
            task = self.order[origin.position.stretch]
            rows.append(f"{self.line(task)}  at {self.place_told(origin.pc)}")
        return rows

    def origins(self, task: machine.Task) -> Iterator[Origin]:
        """Where a task was made, where the task that made it was, and so on."""
        while (origin := self.turns.made.get(task.name)) is not None:
            yield origin
            task = self.order[origin.position.stretch]

    def goto(self, word: str = "1") -> list[str]:
        """TASK, TASK@N, TASK@end, TASK!  to a task's start, N instructions on, its end, or the call that made it"""
        goal = goals.goal_in(word)
        if goal.event is not None:
            raise Refusal(f"{word}: a report has no events; an event log of ./fractal watch has.")
        task = self.task_named(goal.what)
        if goal.is_making:
            origin = self.turns.made.get(task.name)
            if origin is None:
                raise Refusal(f"{task.name} is the image's own, so no call made it.")
            self.go_to(origin.position)
        elif task.name in self.places:
            place = self.places[task.name]
            self.go_to(Position(place, goal.within(self.stretches[place].length)))
        else:
            raise Refusal(f"{task.name} has no turn in this report.")
        return [goals.arrival_text(self.thread)]

    def writes(self, word: str) -> list[str]:
        """ADDRESS or LABEL  all stores to a word of the data"""
        address, here, rows = goals.word_in(word, self.listing), self.position, []
        found = self.memory.stores_touching(address, 4)
        for at in found[-MOST_TOLD:]:
            rows.append(self.write_told(at))
        self.go_to(here)
        more = [f"and {len(found) - MOST_TOLD:,} before these"] if len(found) > MOST_TOLD else []
        return [*more, *rows] or [f"no store touches {self.listing.address_text(address)}"]

    def write_told(self, at: int) -> str:
        """A store, and the instruction that makes it."""
        self.go_to(Position(bisect.bisect_right(self.firsts, at) - 1, 0))
        pc, executed = self.core.pc, 0
        while self.memory.done <= at:
            pc, executed = self.core.pc, self.core.executed
            self.advance()
        told = goals.store_told(self.memory.stores[at], self.place_told(pc))
        return f"turn {self.stretch + 1:<6} {self.name_of(self.thread):<28} @{executed:<6} {told}"
