"""The serial machine before a turn of a report.

If the built program can save the run a little before, only the turns from there on are run again; else all of them. A
saved image has no names, so its tasks are matched with those that are pending by the report.
"""
from __future__ import annotations

import dataclasses
import functools
from collections.abc import Iterator, Sequence
from typing import NamedTuple, Optional, Union

from yotarimu.common.outcome import Refusal, is_at_terminal
from yotarimu.common.progress import show_line
from yotarimu.images.image import INITIAL_TASKS, Image, read_image
from yotarimu.images.serial_machine import Machine
from yotarimu.programs.calls import Calls
from yotarimu.programs.program import STATUSES
from yotarimu.reports.one_task import AskingRun, OneTask, way_text
from yotarimu.reports.report import Entry, Name, Report, Trap, read_report

# After so many turns a terminal is told how far it is.
TURNS_TOLD = 10_000


class Reached(NamedTuple):
    """The machine before a turn, the turn after which it began, and why it began there."""
    machine: Machine
    start: int
    why: str


class Pending(NamedTuple):
    """A task that pends: its name, and its timestamp."""
    name: Name
    timestamp: int


@dataclasses.dataclass(frozen=True)
class WrittenRun:
    """An image as bytes and as read, and a report of a run of it as text and as read. The run is made again by the
    program's calls with the options; if `calls` is the reason why none is available, all turns are run again. The
    options include the budget."""
    data: bytes
    image: Image
    text: str
    report: Report
    calls: Union[Calls, str]
    options: Sequence[str]
    budget: int

    def turn_of(self, name: Name) -> int:
        """The turn of a task; that of one which traps is the turn behind the last."""
        found = next((entry.turn for entry in self.report.entries if entry.name == name), None)
        if found is not None:
            return found
        if self.report.trap is None or self.report.trap.name != name:
            raise Refusal(f"the task {name} has no turn in this report.")
        return len(self.report.entries) + 1

    def run_of(self, name: Name) -> OneTask:
        """The run of a task alone, up to its end or its trap."""
        turn, report = self.turn_of(name), self.report
        machine, start, why = self.before(turn)
        task = machine.tasks.get(name) if turn > len(report.entries) else machine.task_of(report.entries[turn - 1])
        if task is None or task.turn:
            raise Refusal(f"this isn't a report of a run of the image, which doesn't allow its turn {turn}; "
                          "./fractal check says more.")
        run = AskingRun(machine, task)
        run.go_to_end()
        self.need_end(run)
        turns = {entry.name: entry.turn for entry in report.entries if entry.name.creator == turn}
        return OneTask(run, len(report.entries), turns, way_text(start, turn, why))

    def need_end(self, run: AskingRun) -> None:
        """Refuses a run of a task that doesn't end as the report says."""
        found = None if run.trap is None else Trap(run.trap.cause, run.pc, run.task.name)
        if found != (self.report.trap if run.turn > len(self.report.entries) else None):
            raise Refusal(f"with these options the task {run.task.name} doesn't end as the report says; "
                          "./fractal check says more.")

    def before(self, turn: int) -> Reached:
        """The machine before a turn."""
        entries, why = self.report.entries, ""
        for start in starts_before(entries, turn):
            machine = self.saved_machine(start)
            if isinstance(machine, str):
                why = machine
            elif machine.follow(entries[start:turn - 1]) is None:
                return Reached(machine, start, "")
        machine = Machine(self.image, self.budget)
        if wrong := machine.follow(shown(entries[:turn - 1])):
            raise Refusal(f"this isn't a report of a run of the image: {wrong}.")
        return Reached(machine, 0, why)

    def saved_machine(self, turns: int) -> Union[Machine, str]:
        """The machine after so many turns, by the image that the program saves there; or why that can't be had."""
        if isinstance(self.calls, str):
            return self.calls
        if self.whole is None:
            return "with these options the program doesn't make this run again"
        status, written = self.calls.call(["save", *self.options, f"--commits={turns}"], self.data)
        if status != STATUSES["limit"]:
            return "the program can't save the run there"
        saved = read_image(written, "what `save` wrote")
        names = names_in(saved, pending_in(self.whole, turns, saved))
        if names is None:
            return "no report says which of the saved tasks it is"
        return Machine.after(turns, saved, names, self.budget)

    @functools.cached_property
    def whole(self) -> Optional[Report]:
        """The report of the whole run, of which this one may have the beginning alone; None where the program makes
        another run."""
        assert isinstance(self.calls, Calls)
        _, written = self.calls.call(["run", *self.options], self.data)
        text = written.decode("ascii", "replace")
        if text == self.text:
            return self.report
        try:
            whole = read_report(text, "what `run` wrote")
        except Refusal:
            return None
        return whole if whole.entries[:len(self.report.entries)] == self.report.entries else None


def pending_in(report: Report, turns: int, saved: Image) -> list[Pending]:
    """The tasks that are pending after so many turns, as far as a report has them, by their names. A task that traps
    after the last of them is the least."""
    found = [Pending(entry.name, entry.timestamp) for entry in report.entries[turns:] if entry.name.creator <= turns]
    if report.trap is not None and turns == len(report.entries):
        found.append(Pending(report.trap.name, min(timestamps_in(saved), default=0)))
    return sorted(found, key=lambda it: (it.name.creator, it.name.index))


def starts_before(entries: Sequence[Entry], turn: int) -> list[int]:
    """After how many turns below `turn` the run may be saved, by its report, the best first. The next task is of the
    root domain, so that no subdomain is left, and not too many tasks are pending. For a task that traps the report has
    no depth."""
    creators = sorted(entry.name.creator for entry in entries)
    made, start = 0, 0
    for count, entry in enumerate(entries[:turn]):
        while made < len(creators) and creators[made] <= count:
            made += 1
        if entry.depth == 1 and made - count <= INITIAL_TASKS:
            start = count
    starts = [turn - 1, start] if turn > len(entries) else [start]
    return [count for count in starts if count]


def timestamps_in(saved: Image) -> list[int]:
    """The timestamps of the tasks of an image, all 0 where its root domain is unordered."""
    return [task.timestamp if saved.is_ordered else 0 for task in saved.tasks]


def names_in(saved: Image, known: Sequence[Pending]) -> Optional[list[Name]]:
    """The names of saved tasks, which are in the order of their names. Some of them may never commit, so that they
    aren't in the report: these get names that no task has. None if it isn't certain which ones they are."""
    timestamps, wanted = timestamps_in(saved), [it.timestamp for it in known]
    first, last = places_of(timestamps, wanted), places_of(timestamps[::-1], wanted[::-1])
    if first is None or last is None or [len(timestamps) - 1 - place for place in last[::-1]] != first:
        return None
    names = [Name(-1, place) for place in range(len(timestamps))]
    for place, it in zip(first, known):
        names[place] = it.name
    return names


def places_of(timestamps: Sequence[int], wanted: Sequence[int]) -> Optional[list[int]]:
    """The first places, one behind another, at which the wanted timestamps stand; None where some don't."""
    places, place = [], 0
    for timestamp in wanted:
        while place < len(timestamps) and timestamps[place] != timestamp:
            place += 1
        if place == len(timestamps):
            return None
        places.append(place)
        place += 1
    return places


def shown(entries: Sequence[Entry]) -> Iterator[Entry]:
    """The entries; a terminal shows how many were taken."""
    is_told = is_at_terminal() and len(entries) > TURNS_TOLD
    for first in range(0, len(entries), TURNS_TOLD):
        if is_told:
            show_line(f"explain: {first:,} of {len(entries):,} turns are run again")
        yield from entries[first:first + TURNS_TOLD]
    if is_told:
        show_line("")
