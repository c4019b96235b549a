"""What ./fractal explain prints, for other programs: as plain data, and tasks as rows; and whether a report is of an
image at all."""
from __future__ import annotations

import csv
from collections.abc import Sequence
from typing import Optional, TextIO, TypedDict

from yotarimu.common.files import FilePath
from yotarimu.common.text import printable
from yotarimu.courses.schedules import ActAnswer
from yotarimu.images.image import DATA, Limits
from yotarimu.images.listing import Listing
from yotarimu.images.serial_machine import REGISTERS, Machine, Run, TaskTrap
from yotarimu.reports.explanation import begins_at_trap
from yotarimu.reports.meanings import cause_told
from yotarimu.reports.report import Entry, Report

ARGUMENTS = 3


class TaskRow(TypedDict):
    """A task that took its turn; what isn't known of it is None."""
    turn: int
    name: str
    creator: int
    index: int
    depth: int
    timestamp: int
    entry: Optional[int]
    label: Optional[str]
    arguments: Optional[list[int]]


def other_run(report: Report, machine: Machine, wrong_turn: Optional[str]) -> Optional[str]:
    """Why a report is of no run of the image that the machine ran again; None where nothing speaks against it."""
    if wrong_turn is not None:
        return wrong_turn
    image = machine.image
    start = DATA + image.window_offset
    count = image.window_words
    if len(report.window) != count or any(address != start + 4 * place
                                          for place, (address, _) in enumerate(report.window)):
        told = f"{count} words from {start:08x} on" if count else "no words"
        return f"the image's window has {told}"
    if report.output != bytes(machine.output):
        return "its tasks emit other bytes"
    for address, value in report.window:
        place = address - DATA
        found = int.from_bytes(machine.memory[place:place + 4], "little")
        if found != value:
            return f"its tasks leave {found:08x} at {address:08x}"
    return None


def all_of(image_path: FilePath, replies: Sequence[ActAnswer], report: Report, machine: Machine, listing: Listing,
           remarks: Sequence[str]) -> dict[str, object]:
    """The explanation in lists, dictionaries, numbers and texts."""
    image = machine.image
    return {
        "image": {"path": str(image_path), "version": image.version,
                  "root": "ordered" if image.is_ordered else "unordered",
                  "text_words": len(image.text) // 4, "data_bytes": image.size},
        "replies": [{"act": number, "reply": said.reply, "taken_back": said.taken_back}
                    for number, said in enumerate(replies, 1)],
        "tasks": [task_of(entry, machine, listing) for entry in report.entries],
        "output": {"bytes": report.output.hex(), "text": printable(report.output)},
        "window": [{"address": address, "label": listing.label(address), "value": value}
                   for address, value in report.window],
        "end": end_of(report, machine, listing),
        "remarks": remarks,
    }


def task_of(entry: Entry, machine: Machine, listing: Listing) -> TaskRow:
    """The row of an entry; what its task was is None where it couldn't be followed."""
    task = machine.tasks.get(entry.name)
    known = task if task is not None and task.turn == entry.turn else None
    return {
        "turn": entry.turn, "name": str(entry.name), "creator": entry.name.creator, "index": entry.name.index,
        "depth": entry.depth, "timestamp": entry.timestamp, "entry": known.entry if known else None,
        "label": listing.label(known.entry) if known else None,
        "arguments": list(known.arguments) if known else None,
    }


def end_of(report: Report, machine: Machine, listing: Listing) -> dict[str, object]:
    """The end of the run; of a trap all that is known."""
    if not report.trap:
        return {"kind": report.end}
    trap, found = report.trap, machine.run_at_trap(report.trap)
    state = state_data(*found) if found else {}
    return {"kind": "trap", **trap_data(trap.cause, trap.pc, machine.image.limits, listing), "task": str(trap.name),
            **state}


def trap_data(cause: int, pc: int, limits: Limits, listing: Listing) -> dict[str, object]:
    """A trap's cause in words, and where it was."""
    meaning, usual = cause_told(cause, limits)
    return {"cause": cause, "meaning": meaning, "usually": usual, "pc": pc, "label": listing.label(pc),
            "place": listing.place(pc)}


def state_data(run: Run, trapped: TaskTrap) -> dict[str, object]:
    """What led a run to its trap, and the registers."""
    return {"address": trapped.address, "registers": dict(zip(REGISTERS, run.registers)),
            "least_timestamp": trapped.least, "begins_at_pc": begins_at_trap(run, trapped)}


def write_tasks(report: Report, machine: Machine, listing: Listing, file: TextIO) -> None:
    """The tasks as rows of CSV."""
    names = [name for name in TaskRow.__annotations__ if name != "arguments"]
    sink = csv.writer(file, lineterminator="\n")
    sink.writerow([*names, *(f"argument {place}" for place in range(1, ARGUMENTS + 1))])
    for entry in report.entries:
        task = task_of(entry, machine, listing)
        cells: dict[str, object] = {**task}
        arguments: Sequence[object] = task["arguments"] or ("",) * ARGUMENTS
        sink.writerow([*("" if cells[name] is None else cells[name] for name in names), *arguments])
