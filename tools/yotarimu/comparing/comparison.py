"""Runs an image under many settings at once, up to the first that leaves something else than the serial run."""
from __future__ import annotations

import dataclasses
from collections.abc import Callable, Collection, Iterator, Sequence
from typing import Optional

from yotarimu.common.crew import Crew
from yotarimu.comparing.results import END, MEMORY, OUTPUT, Difference, Result, address_of, first_difference
from yotarimu.comparing.runs import Made, Runner, bounds_of
from yotarimu.comparing.serial_orders import Origin, TooLong, WatchedMachine
from yotarimu.comparing.settings import Setting
from yotarimu.images.image import Image
from yotarimu.images.listing import Listing
from yotarimu.images.serial_machine import Task
from yotarimu.reports.report import Entry

Tell = Callable[[object], None]


@dataclasses.dataclass(frozen=True)
class Found:
    """A run that differs: its setting, where, and its turns."""
    setting: Setting
    difference: Difference
    entries: Sequence[Entry]


def differing(runner: Runner, wanted: Result, chosen: Sequence[Setting], parts: Collection[str], jobs: int,
              tell: Callable[[int], None]) -> Optional[Found]:
    """The first run that is found to differ; None if all leave the same. The callback gets how many are done."""

    def work(setting: Setting, _tell: Tell) -> Optional[Found]:
        try:
            made = runner.run(setting)
        except TooLong:
            return None
        difference = first_difference(wanted, made.result, parts)
        return Found(setting, difference, runner.entries_of(setting, made)) if difference else None

    for done, news in enumerate(Crew(work, jobs).each(chosen), 1):
        tell(done)
        if news.what is not None:
            found: Found = news.what
            return found
    return None


def sentences(found: Found, image: Image, reference: Sequence[Entry], listing: Listing) -> Iterator[str]:
    """A difference in words: where it is, which tasks made it in both runs, and where their orders part."""
    difference, setting = found.difference, found.setting
    yield f"`{setting}` leaves something else than the serial run."
    yield f"  {place_text(difference, listing)}: {difference.wanted} in the serial run, {difference.seen} here"
    for name, entries in (("serial run", reference), ("here", found.entries)):
        if difference.part != END:
            yield f"  {name}: {behind(difference, image, entries, listing, setting)}"
    turn = parting(reference, found.entries)
    if turn is None:
        yield "  Both take their tasks in one order."
        return
    yield f"  Their orders part at turn {turn + 1}:"
    for name, entries in (("serial run", reference), ("here", found.entries)):
        yield f"    {name}: {turn_text(image, entries, turn, listing)}"
    yield ("  Tasks with equal timestamps, and those of an unordered domain, may come in any order, and the program "
           "has to leave the same in each.")
    if difference.part == OUTPUT:
        yield "  The end and the memory are the same; --parts end,memory leaves the output out."


def unexpected(found: Found, image: Image, listing: Listing) -> Iterator[str]:
    """Where the serial run leaves something else than is expected, in words, and which task made it."""
    difference = found.difference
    yield "The serial run leaves something else than is expected."
    yield f"  {place_text(difference, listing)}: {difference.wanted} is expected, and {difference.seen} left"
    yield f"  {behind(difference, image, found.entries, listing, found.setting)}"


def place_text(difference: Difference, listing: Listing) -> str:
    """Where a difference is."""
    if difference.part != MEMORY:
        return "the end" if difference.part == END else f"byte {difference.place:,} of the output"
    address = address_of(difference)
    label = listing.label(address)
    return f"the word at {label} ({address:08x})" if label else f"the word at {address:08x}"


def behind(difference: Difference, image: Image, entries: Sequence[Entry], listing: Listing, setting: Setting) -> str:
    """Which task stored to a word last, or emitted a byte, in a run of these turns."""
    is_memory = difference.part == MEMORY
    place = difference.place
    machine = WatchedMachine(image, bounds_of(setting.options)[0], place if is_memory else None,
                             None if is_memory else place)
    machine.replay(entries)
    if is_memory:
        return "no task stores to it" if machine.last_store is None else (
            f"the last store is by {origin_text(machine.last_store, listing)}")
    return "no task emits it" if machine.emitter is None else (
        f"it is emitted by {task_text(machine.emitter.task, listing)}, turn {machine.emitter.turn}")


def origin_text(origin: Origin, listing: Listing) -> str:
    """A task with its turn and the place of an instruction."""
    place = listing.place(origin.pc) or listing.address_text(origin.pc)
    return f"{task_text(origin.task, listing)}, turn {origin.turn}, at {place}"


def task_text(task: Task, listing: Listing) -> str:
    """A task with what it was made of."""
    return f"the task {task.name} ({listing.task_words(task.entry, task.arguments)}; timestamp {task.timestamp})"


def parting(one: Sequence[Entry], other: Sequence[Entry]) -> Optional[int]:
    """The first turn that two runs give to different tasks; None where there is none."""
    size = min(len(one), len(other))
    turn = next((turn for turn in range(size) if one[turn] != other[turn]), size)
    return None if turn == len(one) == len(other) else turn


def turn_text(image: Image, entries: Sequence[Entry], turn: int, listing: Listing) -> str:
    """The task that has a turn."""
    if turn >= len(entries):
        return "no task is left"
    machine = WatchedMachine(image)
    machine.replay(entries[:turn])
    task = machine.tasks.get(entries[turn].name)
    return task_text(task, listing) if task else str(entries[turn].name)


def serial_run(runner: Runner, options: Setting) -> Made:
    """The serial run, by `fractal_watch`, with its turns."""
    made = runner.run(options)
    runner.entries_of(options, made)
    return made
