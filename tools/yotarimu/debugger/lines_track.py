"""The track of an event log: each leg of each attempt in the order they were executed, including attempts that are
aborted.

A thread is an attempt. The memory at a position is that of the machine, with the stores of all uncommitted tasks, also
of those that will be aborted.
"""
from __future__ import annotations

import bisect
import functools
from typing import Iterable, Iterator, Optional, TypeVar

from yotarimu.common.outcome import Refusal
from yotarimu.common.words import number_in
from yotarimu.debugger import goals
from yotarimu.debugger.attempts import Attempt, AttemptCore, Ground
from yotarimu.debugger.leg_notes import Origin, LegNotes
from yotarimu.debugger.target import Signal, signal_of
from yotarimu.debugger.track import MOST_THREADS, MOST_TOLD, Core, Notice, Position, Track
from yotarimu.images import serial_machine as machine
from yotarimu.images.image import Image
from yotarimu.images.listing import Listing
from yotarimu.lines.causes import Kind, CauseSentences
from yotarimu.lines.filters import rule_of
from yotarimu.lines.replay import Task
from yotarimu.lines.sentences import label_of
from yotarimu.reports.meanings import cause_told

Key = TypeVar("Key")


class LinesTrack(Track):
    """The legs of the lines."""

    core: AttemptCore

    def __init__(self, image: Image, path: str, listing: Listing) -> None:
        super().__init__(image, listing)
        self.notes = LegNotes(image, path)
        self.stretches, self.memory = self.notes.stretches, self.notes.memory
        self.ground = Ground(image, self.memory)
        self.need_stretches("no task takes a leg in these lines")
        self.owners, self.starts = self.notes.owners, self.notes.starts
        self.attempts = self.notes.attempts
        self.sentences = CauseSentences(self.task_told, rule_of(self.notes.head), listing)
        # The runs of attempts, as far as they were followed last.
        self.cores: dict[int, AttemptCore] = {}
        self.go_to(Position(0, 0))
        self.words = {"tasks": self.tasks, "children": self.children, "whence": self.whence, "writes": self.writes,
                      "runs": self.runs, "why": self.why, "stale": self.stale, "goto": self.goto}

    # ---- what there is, looked for once it is asked for

    @functools.cached_property
    def of_task(self) -> dict[Task, list[Attempt]]:
        """The attempts at each task."""
        return grouped((attempt.task, attempt) for attempt in self.attempts)

    @functools.cached_property
    def of_name(self) -> dict[str, list[Attempt]]:
        """The attempts at the tasks of each name."""
        return grouped((label_of(attempt.task), attempt) for attempt in self.attempts)

    # ---- positions

    @property
    def owner(self) -> Attempt:
        """The attempt that takes this stretch's leg."""
        return self.owners[self.stretch]

    @property
    def position(self) -> Position:
        return Position(self.stretch, self.core.executed - self.starts[self.stretch])

    def go_to(self, position: Position) -> None:
        self.stretch = position.stretch
        self.core = self.core_after(self.owner, self.starts[self.stretch] + position.done)
        self.move_memory(position)

    def move_memory(self, position: Position) -> None:
        """Brings memory to what it is at a position."""
        stretch = self.stretches[position.stretch]
        self.memory.move(stretch.last if position.done == stretch.length else stretch.first)

    def core_after(self, attempt: Attempt, count: int) -> AttemptCore:
        """An attempt behind so many of its instructions."""
        core = self.cores.get(attempt.number)
        if core is None or core.executed > count:
            core = self.cores[attempt.number] = AttemptCore(self.ground, attempt)
        while core.executed < count:
            core.advance()
        return core

    def is_stretch_over(self) -> bool:
        return self.position.done == self.stretches[self.stretch].length

    def advance(self) -> None:
        self.core.advance()
        self.move_memory(self.position)

    def before(self, thread: int) -> Optional[Position]:
        if position := super().before(thread):
            return position
        attempt = self.attempts[thread - 1]
        for stretch in reversed(attempt.stretches[:attempt.stretches_before(self.stretch)]):
            if self.stretches[stretch].length:
                return Position(stretch, self.stretches[stretch].length - 1)
        return None

    def notice(self) -> Optional[Notice]:
        position = self.position
        taken, trapped = self.notes.taken.get(position, []), self.notes.trapped.get(position)
        if taken:
            text = "\n".join(f"{self.name_of(it.number)} is about to be aborted (event {it.event}): {self.cause(it)}"
                             for it in taken)
            return Notice(taken[0].number, text, Signal.TAKEN_BACK)
        if trapped is not None and trapped.trap is not None:
            then = "the run ends with it" if trapped.cause is None else (
                "it runs speculatively and is aborted later, so the run goes on")
            text = f"{self.name_of(trapped.number)} {self.trap_words(trapped)}; {then}."
            return Notice(trapped.number, text, signal_of(trapped.trap[0]))
        return None

    def has_notices(self, stretch: int) -> bool:
        length = self.stretches[stretch].length
        positions = {Position(stretch, length - 1), Position(stretch, length)}
        return any(position in self.notes.taken or position in self.notes.trapped for position in positions)

    # ---- threads

    @property
    def thread(self) -> int:
        return self.owner.number

    def threads(self) -> list[int]:
        if len(self.attempts) <= MOST_THREADS:
            return [attempt.number for attempt in self.attempts]
        first = max(0, self.owner.number - MOST_THREADS)
        there = [it.number for it in self.attempts[first:first + 2 * MOST_THREADS]
                 if it.is_there(self.position) and it is not self.owner]
        return [self.owner.number, *there[:MOST_THREADS - 1]]

    def name_of(self, thread: int) -> str:
        attempt = self.attempts[thread - 1]
        which = f", attempt {attempt.which}" if attempt.which > 1 else ""
        return (f"{label_of(attempt.task)} {self.listing.address_text(attempt.task.entry)} ts {attempt.timestamp}"
                f"{which}")

    def task_told(self, task: Task) -> str:
        """A task's name and label, whichever attempt it is."""
        return f"{label_of(task)} {self.listing.address_text(task.entry)}"

    def state_of(self, thread: int) -> str:
        attempt, here = self.attempts[thread - 1], self.position
        if here < attempt.born:
            return "isn't dispatched yet"
        if attempt.gone is not None and attempt.gone <= here:
            return "was aborted" if attempt.turn is None else f"committed as turn {attempt.turn}"
        finished = ", finished" if self.core_of(thread).is_over else ""
        return f"{self.count_of(attempt)} instructions done{finished}"

    def count_of(self, attempt: Attempt) -> int:
        """How many instructions of an attempt are executed at this position."""
        if attempt is self.owner:
            return self.core.executed
        return attempt.count_before(self.stretch)

    def core_of(self, thread: int) -> Core:
        attempt = self.attempts[(thread or self.thread) - 1]
        return self.core if attempt is self.owner else self.core_after(attempt, self.count_of(attempt))

    def choose(self, thread: int) -> bool:
        return thread == self.thread

    def trap_told(self, trapped: machine.TaskTrap) -> str:
        return f"trap {trapped.cause}"

    # ---- what became of an attempt

    def cause(self, attempt: Attempt) -> str:
        """Why it was aborted, with what that goes back to."""
        cause = attempt.cause
        if cause is None:
            return "the log doesn't say why"
        told = self.sentences.sentence(cause)
        if cause.before is not None and cause.root.before is None:
            told += f"; at the root of it {self.task_told(cause.root.task)}: {self.sentences.sentence(cause.root)}"
        return told

    def trap_words(self, attempt: Attempt) -> str:
        """How an attempt traps; no words where it doesn't."""
        if attempt.trap is None:
            return ""
        cause, pc = attempt.trap
        return f"traps with cause {cause}, {cause_told(cause, self.image.limits)[0]}, at {self.place_told(pc)}"

    def end_told(self, attempt: Attempt) -> str:
        """How an attempt ends: by a trap, a commit, or by being aborted; or that it is there at the end."""
        if attempt.turn is not None:
            end = f"commits as turn {attempt.turn}"
        elif attempt.cause is not None:
            end = f"is aborted (event {attempt.event}): {self.cause(attempt)}"
        else:
            end = "is there at the end"
        return ", and ".join(filter(None, (self.trap_words(attempt), end)))

    # ---- what may be asked beside

    def line(self, attempt: Attempt) -> str:
        """An attempt as a row of a list, with a mark where it is the one that runs."""
        task = attempt.task
        turn = "no turn" if attempt.turn is None else f"turn {attempt.turn}"
        mark = ">" if attempt is self.owner else " "
        return (f"{mark} {attempt.number:>5}  {turn:>9}  {label_of(task):<8} ts {attempt.timestamp:<8} "
                f"depth {task.depth}  {self.listing.task_words(task.entry, task.arguments)}")

    def attempt_named(self, word: Optional[str]) -> Attempt:
        """The attempt with a thread's number, a task's name (its last attempt), or NAME#N; by default the one that
        runs."""
        if word is None:
            return self.owner
        thread = number_in(word, 1, len(self.attempts))
        if thread is not None:
            return self.attempts[thread - 1]
        name, _, which = word.partition("#")
        found = self.of_name.get(name, [])
        chosen = [it for it in found if str(it.which) == which] if which else found
        if not chosen:
            raise Refusal(f"{word}: no such task is among the dispatched ones.")
        return chosen[-1]

    def tasks(self, first: str = "1") -> list[str]:
        """[TURN]  the tasks that commit, by their turns, from one on"""
        committed = [it for it in self.attempts if it.turn is not None]
        committed.sort(key=lambda it: it.turn or 0)
        start = goals.number_in("tasks", first, max(1, len(committed))) - 1
        return first_rows([self.line(it) for it in committed[start:start + MOST_TOLD]], "tasks", start, len(committed))

    def runs(self, first: str = "1") -> list[str]:
        """[NUMBER]  all attempts from one on, and how each ended"""
        start = goals.number_in("runs", first, len(self.attempts)) - 1
        rows = [f"{'>' if it is self.owner else ' '} {it.number:>5}  {self.name_of(it.number):<36} {self.end_told(it)}"
                for it in self.attempts[start:start + MOST_TOLD]]
        return first_rows(rows, "runs", start, len(self.attempts))

    def why(self, word: Optional[str] = None) -> list[str]:
        """[TASK]  how an attempt ended; of one that was aborted, why"""
        attempt = self.attempt_named(word)
        if word is not None and "." in word and "#" not in word:
            return [f"{self.name_of(it.number)} {self.end_told(it)}" for it in self.of_task[attempt.task]]
        return [f"{self.name_of(attempt.number)} {self.end_told(attempt)}"]

    def stale(self) -> list[str]:
        """all attempts that were aborted since they loaded what an earlier task stores later"""
        found = [it for it in self.attempts if it.cause is not None and it.cause.kind is Kind.ACCESS
                 and it.cause.meeting is not None and it.cause.meeting.own is not None
                 and not it.cause.meeting.own.is_store]
        rows = [f"{self.name_of(it.number)} {self.end_told(it)}" for it in found]
        return first_rows(rows[:MOST_TOLD], "stale", 0, len(rows)) or ["nothing was aborted for what it loaded"]

    def children(self, word: Optional[str] = None) -> list[str]:
        """[TASK]  the children that an attempt makes, and where it makes each"""
        attempt = self.attempt_named(word)
        rows = []
        for task, origin in self.notes.made.items():
            if origin.by is attempt:
                not_yet = "" if origin.position < self.position else "  (not yet)"
                of_task = self.of_task.get(task)
                told = self.line(of_task[-1]) if of_task else f"  never dispatched  {self.task_told(task)}"
                rows.append(f"{told}  by {self.place_told(origin.pc)}{not_yet}")
        return rows or [f"{self.name_of(attempt.number)} makes no children"]

    def whence(self, word: Optional[str] = None) -> list[str]:
        """[TASK]  which task made it, which made that one, and so on up to the image"""
        attempt = self.attempt_named(word)
        creators = (f"{self.line(it.by)}  at {self.place_told(it.pc)}" for it in self.origins(attempt))
        return [self.line(attempt), *creators]

    def origins(self, attempt: Attempt) -> Iterator[Origin]:
        """Where the attempt's task was made, where the task that made it was, and so on."""
        while (origin := self.notes.made.get(attempt.task)) is not None:
            yield origin
            attempt = origin.by

    def goto(self, word: str = "1") -> list[str]:
        """TASK, TASK#N, TASK@N, TASK@end, TASK!, eN  to a start, the N-th attempt, N instructions on, an end, the call
        that made it, the leg of event N"""
        goal = goals.goal_in(word)
        if goal.event is not None:
            self.go_to(self.at_event(word, goal.event))
            return [goals.arrival_text(self.thread)]
        attempt = self.attempt_named(goal.what)
        if goal.is_making:
            origin = self.notes.made.get(attempt.task)
            if origin is None:
                raise Refusal(f"{goal.what} is the image's own, so no call made it.")
            self.go_to(origin.position)
        elif not attempt.stretches:
            raise Refusal(f"{goal.what} takes no leg in these lines.")
        else:
            self.go_to(self.within(attempt, goal.within(attempt.counts[-1])))
        return [goals.arrival_text(self.thread)]

    def within(self, attempt: Attempt, count: int) -> Position:
        """The position behind so many instructions of an attempt; of its last one before it, so that it is seen."""
        place = min(bisect.bisect_right(attempt.counts, count), len(attempt.stretches) - 1)
        stretch = attempt.stretches[place]
        done = count - self.starts[stretch]
        return Position(stretch, min(done, max(self.stretches[stretch].length - 1, 0)))

    def at_event(self, word: str, event: int) -> Position:
        """The last instruction of the first leg whose event is this one or a later one."""
        stretch = bisect.bisect_left(self.notes.events, event)
        if stretch == len(self.stretches):
            raise Refusal(f"{word}: no leg is handed in by this event or after it.")
        return Position(stretch, max(self.stretches[stretch].length - 1, 0))

    def writes(self, word: str) -> list[str]:
        """ADDRESS or LABEL  all stores to a word of the data, and where they are undone"""
        address, rows = goals.word_in(word, self.listing), []
        found = self.memory.stores_touching(address, 4)
        for at in found[-MOST_TOLD:]:
            rows.append(self.write_told(at))
        more = [f"and {len(found) - MOST_TOLD:,} before these"] if len(found) > MOST_TOLD else []
        return [*more, *rows] or [f"no store touches {self.listing.address_text(address)}"]

    def write_told(self, at: int) -> str:
        """Describes a store: that of a leg, or one that undoes another."""
        stretch = bisect.bisect_right(self.notes.firsts, at) - 1
        access, event = self.notes.accesses.get(at), f"event {self.notes.events[stretch]:>6}"
        if access is None:
            return f"{'':<40} {event}  {goals.store_told(self.memory.stores[at], 'undone')}"
        where = goals.store_told(self.memory.stores[at], self.place_told(access.pc))
        return f"{self.name_of(self.owners[stretch].number):<40} {event}  {where}"


def grouped(pairs: Iterable[tuple[Key, Attempt]]) -> dict[Key, list[Attempt]]:
    """Attempts by their keys, each list in their order."""
    found: dict[Key, list[Attempt]] = {}
    for key, attempt in pairs:
        found.setdefault(key, []).append(attempt)
    return found


def first_rows(rows: list[str], word: str, start: int, count: int) -> list[str]:
    """Rows, and how more of them are asked for."""
    left = count - start - len(rows)
    return [*rows, f"and {left:,} more: monitor {word} {start + len(rows) + 1}"] if left > 0 else rows
