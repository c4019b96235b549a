"""Why a line of a report can't be that of a run, though the grammar allows it: its turns are taken again, up to the
first contradiction. `./fractal check` is the judge; this only explains to a person what it found."""
from __future__ import annotations

from collections.abc import Iterable, Iterator
from typing import Optional

from yotarimu.images.image import DATA, Image
from yotarimu.images.serial_machine import Domain, Machine, Task, TaskTrap
from yotarimu.reports.meanings import cause_told
from yotarimu.reports.report import Entry, Name, Report, Trap

# No turn is taken again after so many instructions, which take some seconds: the refusal doesn't wait longer.
MOST_STEPS = 3_000_000


class Disagreement:
    """The turns of a report before a line of it, taken again, within so many commits and so many instructions of each
    task. It is lost where one of them can't be taken, or would take too long."""

    def __init__(self, image: Image, before: Report, commits: int, budget: int) -> None:
        self.image, self.before, self.commits = image, before, commits
        self.machine = Machine(image, budget)
        self.is_lost = not self.has_taken(before.entries)

    def has_taken(self, entries: Iterable[Entry]) -> bool:
        """Takes the turns of these entries; whether all were taken."""
        return all(self.machine.steps < MOST_STEPS and self.machine.follow([entry]) is None for entry in entries)

    def with_entry(self, entry: Entry) -> Optional[str]:
        """Why no run has a task there; None if that isn't known."""
        if self.is_lost:
            return None
        if self.machine.turns == self.commits:
            return f"--commits allows {self.commits:,} tasks, and so many have come before it"
        return self.with_turn(entry.name, entry) or self.with_end_of(entry.name)

    def with_turn(self, name: Name, entry: Optional[Entry]) -> Optional[str]:
        """Why a task doesn't come next, or isn't as an entry says; None if it does and is."""
        task = self.machine.tasks.get(name)
        if task is None:
            return self.missing(name)
        if task.turn:
            return f"the task {name} took turn {task.turn:,}"
        others = [] if entry is None or entry.depth == task.domain.depth else [f"its depth is {task.domain.depth}"]
        if entry is not None and entry.timestamp != task.timestamp:
            others.append(f"its timestamp is {task.timestamp}")
        if others:
            return " and ".join(others)
        return None if self.machine.is_next(task) else self.later(task)

    def missing(self, name: Name) -> str:
        """Why no such task."""
        if name.creator > self.machine.turns:
            return f"no task is named {name} before turn {name.creator:,} was taken"
        count = sum(other.creator == name.creator for other in self.machine.tasks)
        whose = "the image has" if name.creator == 0 else f"the task of turn {name.creator:,} made"
        return f"no task {name}: {whose} {'one task' if count == 1 else f'{count:,} tasks'}"

    def later(self, task: Task) -> str:
        """Which task comes before another one that pends."""
        domain = self.machine.domains[-1]
        first = min(self.pending(domain), key=lambda it: it.timestamp)
        if domain is not task.domain:
            return (f"the task {first.name} comes before it: it pends in a subdomain at depth {domain.depth}, and that "
                    "is done first")
        return f"the task {first.name} comes before it: its timestamp is {first.timestamp}"

    def pending(self, domain: Optional[Domain] = None) -> Iterator[Task]:
        """The tasks that pend, in a domain or in all."""
        return (task for task in self.machine.tasks.values()
                if not task.turn and (domain is None or task.domain is domain))

    def with_end_of(self, name: Name) -> Optional[str]:
        """Says that the next task traps; None if it doesn't, or if that isn't known."""
        trap = self.trap_of(name)
        return None if trap is None else f"it traps, with {trap_text(trap, self.image)}"

    def trap_of(self, name: Name) -> Optional[Trap]:
        """The trap of the task that comes next, if it has one."""
        run = self.machine.run_of(self.machine.tasks[name])
        try:
            run.go()
        except TaskTrap as trapped:
            return Trap(trapped.cause, run.pc, name)
        return None

    def with_output(self, output: bytes) -> Optional[str]:
        """In what the bytes differ from those that the tasks emitted."""
        emitted = bytes(self.machine.output)
        if self.is_lost or output == emitted:
            return None
        if len(output) != len(emitted):
            return f"the tasks before it emitted {len(emitted):,} bytes, and not {len(output):,}"
        place = next(place for place in range(len(output)) if output[place] != emitted[place])
        return f"the byte {place:,}, counted from 0, is {emitted[place]:02x}, and not {output[place]:02x}"

    def with_word(self, address: int, value: int) -> Optional[str]:
        """In what a word of the window differs from that of the memory at the end."""
        place = len(self.before.window)
        wanted = DATA + self.image.window_offset + 4 * place
        if place == self.image.window_words:
            return f"the window has {words_text(place)}, so the end is wanted"
        if address != wanted:
            return f"the word {place} of the window, counted from 0, is at {wanted:08x}"
        held = self.machine.memory[address - DATA:address - DATA + 4][::-1].hex()
        return None if self.is_lost or value == int(held, 16) else f"the memory holds {held} there at the end"

    def with_end(self, end: str, trap: Optional[Trap]) -> Optional[str]:
        """Why the run doesn't end so."""
        place = len(self.before.window)
        if place < self.image.window_words:
            address = DATA + self.image.window_offset + 4 * place
            return f"the window has {words_text(self.image.window_words)}, and the one at {address:08x} is missing"
        if self.is_lost:
            return None
        left, turns = sum(1 for _ in self.pending()), self.machine.turns
        if not left:
            return "no task is left, so it is `end normal`"
        if turns == self.commits:
            return f"--commits allows {turns:,} tasks, and so many have come, so it is `end limit`"
        if end == "limit":
            return f"--commits allows {self.commits:,} tasks, and {turns:,} have come"
        if trap is None:
            first = next(self.pending()).name
            return f"{'one task is' if left == 1 else f'{left:,} tasks are'} left: {first}{' is one' * (left > 1)}"
        return self.with_turn(trap.name, None) or self.other_trap(trap)

    def other_trap(self, trap: Trap) -> Optional[str]:
        """What the task that comes next does in place of a trap."""
        found = self.trap_of(trap.name)
        return "the task doesn't trap" if found is None else f"the task traps with {trap_text(found, self.image)}"


def trap_text(trap: Trap, image: Image) -> str:
    """A trap by its cause and its pc."""
    return f"cause {trap.cause} at {trap.pc:08x}: {cause_told(trap.cause, image.limits)[0]}"


def words_text(count: int) -> str:
    """How many words there are."""
    return "one word" if count == 1 else f"{count:,} words"


def disagreement(image: Image, before: Report, upto: Report, commits: int, budget: int) -> Optional[str]:
    """Why a line is none of a run: the last one of `upto`, the front of a report, of which `before` lacks it alone."""
    found = Disagreement(image, before, commits, budget)
    if len(upto.entries) > len(before.entries):
        return found.with_entry(upto.entries[-1])
    if len(upto.window) > len(before.window):
        return found.with_word(*upto.window[-1])
    return found.with_end(upto.end, upto.trap) if upto.end else found.with_output(upto.output)
