"""The figures of a run, from its event log: docs/machine/FIGURES.md defines each."""
from __future__ import annotations

import collections
import contextlib
import functools
import gc
from collections.abc import Callable, Iterator
from typing import Any, Optional

from yotarimu.common.files import FilePath
from yotarimu.common.outcome import Refusal
from yotarimu.figures.cells import Cells
from yotarimu.figures.core_time import STALLED, CoreTime, Use, use_without_step
from yotarimu.figures.feeders import Chain, Feeders
from yotarimu.figures.limits import Call, CommittedTask, Limit, Limits, Manner, Point, Unit
from yotarimu.figures.occupancy import Occupancy
from yotarimu.figures.orders import Bounds
from yotarimu.figures.taken_tasks import TakenCounts
from yotarimu.figures.tasks import TaskFigures
from yotarimu.images.image import Image
from yotarimu.lines.reader import Reader, open_lines
from yotarimu.lines.filters import rule_of
from yotarimu.lines.replay import NOT_EXECUTED, Machine, Task, ToldLine

# How far a run was read is told once in so many lines.
LINES_BETWEEN = 2_000
# How far a quotient may be off.
ROUNDING = 1e-9
Progress = Callable[[int], None]


class Figures:
    """The figures of a run: plain numbers, which may be handed from one process to another."""

    def __init__(self, head: dict[str, Any]) -> None:
        self.head, self.end, self.text_lines = head, "", 0
        self.executed = self.useful = self.left = self.refused = 0
        self.taken_back = TakenCounts(rule_of(head))
        self.replies: collections.Counter[tuple[str, str]] = collections.Counter()
        self.commits = self.events = self.acts = self.spills = 0
        self.is_in_rounds = head["course"] == "lockstep"
        # In lockstep: how many rounds were begun, the most in a row without a commit, and how many acts advanced the
        # least task because it starved.
        self.begun_rounds = self.longest_without_commit = self.advances = 0
        # How many steps were made, and where core time went.
        self.steps, self.core_time = 0, CoreTime()
        self.occupancy = Occupancy(self.is_in_rounds)
        self.tasks = TaskFigures(head["tiles"], head["line"], head["root"])
        # The limits by the order of the commits, and the bounds for any order.
        self.limits: list[Limit] = []
        self.bounds: dict[Manner, float] = {}
        # The longest chain of tasks that do nothing but make others.
        self.feeders = Chain(0, 0)
        # How many steps the tasks made that committed, since their last dispatch.
        self.useful_steps = 0
        # The settings that no line confirms.
        self.unconfirmed: list[str] = []

    def rounds(self) -> Optional[int]:
        """How many rounds were begun in lockstep; None in another mode."""
        if not self.is_in_rounds:
            return None
        # A run that stays open had all its rounds. Acts that weren't asked for aren't told, so the lines may miss the
        # last ones.
        rounds: int = self.head["rounds"] if self.end == "open" else self.begun_rounds
        return rounds

    def cores(self) -> int:
        """How many cores the machine has."""
        cores: int = self.head["tiles"] * self.head["cores"]
        return cores

    def dispatches(self) -> int:
        """How many tasks were dispatched."""
        return self.replies["dispatch", "ok"]


class RunSums:
    """Sums up a run. Lines are handed in one after another, and the last one at the end."""

    def __init__(self, head: dict[str, Any]) -> None:
        self.figures = Figures(head)
        self.cells = Cells()
        self.limits, self.bounds, self.feeders = Limits(self.cells), Bounds(self.cells), Feeders()
        # Those on cores that wait for room since their last step, and those that trapped.
        self.stalled: set[Task] = set()
        self.trapped: set[Task] = set()

    def note(self, told: ToldLine, machine: Machine) -> None:
        """Takes a line, and the machine after it."""
        line, it = told.line, self.figures
        if not told.is_act():
            if line.get("do") == "place":
                it.tasks.note_place(told)
            return
        it.acts = line["at"]
        self.note_rounds(machine)
        it.replies[line["do"], line["reply"]] += 1
        if not told.is_made:
            self.note_refused(told)
            return
        if "leg" in line:
            self.note_step(told)
        if told.taken:
            self.note_taken(told)
        it.spills += len(told.spilled)
        if told.committed is not None:
            self.note_commit(told.committed)
        stalled, trapped = len(self.stalled), len(self.trapped)
        it.occupancy.note_event((machine.queued, machine.running - stalled - trapped, stalled, trapped,
                                 machine.waiting, machine.spilled))

    def note_rounds(self, machine: Machine) -> None:
        """Notes in which round the machine is, where it runs in rounds."""
        it, rounds = self.figures, machine.rounds
        if rounds is not None:
            it.occupancy.end_rounds(rounds.number)
            it.begun_rounds, it.advances = rounds.begun_rounds, rounds.advances
            it.longest_without_commit = rounds.longest

    def note_refused(self, told: ToldLine) -> None:
        """Notes an act that was refused, and the instructions of its leg."""
        line, it = told.line, self.figures
        it.refused += line.get("leg", 0)
        if line["reply"] == "stall":
            word = line["do"]
            it.tasks.note_stall(line.get("asks", word))
            it.occupancy.count(f"stalled {word}s")
            if word == "step":
                it.core_time.rounds[STALLED[line["asks"]]] += 1
            if told.task is not None:
                self.stalled.add(told.task)

    def note_step(self, told: ToldLine) -> None:
        """Notes a step: its instructions, its access, and whether it traps."""
        line, task = told.line, told.task
        assert task is not None
        self.figures.executed += line["leg"] + (line["asks"] not in NOT_EXECUTED)
        self.figures.steps += 1
        self.stalled.discard(task)
        if line["asks"] == "trap":
            self.trapped.add(task)
        if told.access is not None:
            self.figures.tasks.note_access(task, told.access)

    def note_taken(self, told: ToldLine) -> None:
        """Notes the tasks that an event aborted."""
        it = self.figures
        it.taken_back.note(told, it.core_time.note_abort)
        it.occupancy.count("aborted", len(told.taken))
        for taken in told.taken:
            it.tasks.note_taken(taken.task, taken.work)
            self.stalled.discard(taken.task)
            self.trapped.discard(taken.task)

    def note_commit(self, task: Task) -> None:
        """Notes a commit: its work, and what the limits and the chains of spawners need of it."""
        it = self.figures
        it.useful += task.work
        it.core_time.rounds[Use.COMMITTED] += task.steps
        it.occupancy.count("commits")
        it.tasks.note_commit(task)
        done = committed_task(task, self.cells)
        self.limits.commit(done)
        self.feeders.commit(done)
        # In an unordered root domain each timestamp counts as 0.
        self.bounds.commit(done, task.time()[0][0])

    def close(self, end: dict[str, Any], machine: Machine, name: FilePath) -> Figures:
        """Takes the last line. All work is useful, wasted or left: else the lines don't go together."""
        it = self.figures
        it.end, it.events, it.commits = end["end"], machine.events, machine.commits
        if it.end == "open" and machine.rounds is not None:
            machine.rounds.end_all()
            it.longest_without_commit = machine.rounds.longest
        it.left = sum(task.work for task in machine.tasks.values())
        self.close_core_time(machine)
        it.occupancy.close(it.rounds())
        it.limits, it.bounds, it.useful_steps = self.limits.all_limits(), self.bounds.at_once(), self.limits.work[1]
        it.feeders, it.unconfirmed = self.feeders.longest, machine.unconfirmed()
        need_possible(it)
        wasted = it.taken_back.all_wasted()
        if it.executed != it.useful + wasted + it.left:
            raise Refusal(f"{name}: of {it.executed:,} instructions {it.useful:,} are of tasks that committed, "
                          f"{wasted:,} of tasks that were aborted, and {it.left:,} are left.")
        return it

    def close_core_time(self, machine: Machine) -> None:
        """Counts the core-rounds of attempts that didn't end, and of the round in which the run ends."""
        it, rounds = self.figures, machine.rounds
        uses = it.core_time.rounds
        uses[Use.UNFINISHED] += sum(task.steps for task in machine.tasks.values())
        if rounds is not None:
            if it.end != "open":
                uses.update(use_without_step(machine, act.tile or 0, act.core or 0) for act in rounds.acts_left()
                            if act.word == "step")
            uses[Use.EMPTY] += rounds.advance_rounds * it.cores()


def need_possible(it: Figures) -> None:
    """Refuses figures that can't be true, which would be a fault of the programs or of the tools: in a round each core
    makes at most one step, core time is that of all cores in all rounds, and no run exceeds its own limit."""
    rounds = it.rounds()
    if rounds is None:
        return
    most, timed = rounds * it.cores(), it.core_time.total()
    if it.steps > most:
        raise Refusal(f"these figures can't be true: {it.cores()} cores made {it.steps:,} steps in {rounds:,} rounds.")
    if timed not in (0, most):
        raise Refusal(f"these figures can't be true: {timed:,} core-rounds were counted, and {rounds:,} rounds of "
                      f"{it.cores()} cores have {most:,}.")
    limit = next((limit.at_once for limit in it.limits if limit.manner is Manner.ONE and limit.unit is Unit.STEP), None)
    if limit is not None and rounds and it.useful_steps > rounds * limit * (1 + ROUNDING):
        raise Refusal(f"these figures can't be true: {it.useful_steps / rounds:.2f} useful steps were made per round, "
                      f"and dependences allow {limit:.2f}.")


def committed_task(task: Task, cells: Cells) -> CommittedTask:
    """A committed task, in the form that the limits take."""
    before = len(cells.split)
    points = points_of(task, cells)
    if len(cells.split) > before:
        # A word was split behind the first access to it.
        points = points_of(task, cells)
    # By their names, since tasks that committed are to be forgotten.
    calls = [Call(child.name, (child.made_at, child.made_step)) for child in task.children]
    return CommittedTask(task.name, (task.work, task.steps), points, calls)


def points_of(task: Task, cells: Cells) -> list[Point]:
    """The accesses of a task, as limits see them."""
    return [Point(access.is_store, cells.of(access.address, access.bytes), (access.place, access.step))
            for access in task.accesses]


@contextlib.contextmanager
def no_search_for_cycles() -> Iterator[None]:
    """Python doesn't look for objects that only hold each other. A text makes none, and many others that it would look
    at again and again."""
    was_enabled = gc.isenabled()
    gc.disable()
    try:
        yield
    finally:
        if was_enabled:
            gc.enable()


def figures_of(watched: Reader, progress: Optional[Progress] = None) -> Figures:
    """The figures of a run, from its whole log. Reports now and then how many acts were read."""
    summing = RunSums(watched.head)
    if watched.machine.rounds is not None:
        watched.machine.rounds.note_passed = functools.partial(summing.figures.core_time.note_passed, watched.machine)
    with no_search_for_cycles():
        for told in watched:
            summing.note(told, watched.machine)
            if progress is not None and watched.number % LINES_BETWEEN == 0:
                progress(watched.machine.acts)
    assert watched.end is not None
    figures = summing.close(watched.end, watched.machine, watched.name)
    figures.text_lines = watched.number
    return figures


def read_figures(path: str, image: Optional[Image] = None) -> Figures:
    """The figures of an event log; with an image each leg is checked against it."""
    with open_lines(path, image=image) as watched:
        return figures_of(watched)
