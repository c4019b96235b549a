"""One task of a report alone: what it asked of the machine, as text for people and as plain data."""
from __future__ import annotations

import dataclasses
from collections.abc import Mapping
from typing import Optional

from yotarimu.common.text import count_text
from yotarimu.images.image import DATA, STACK
from yotarimu.images.listing import Listing
from yotarimu.images.serial_machine import CALL, ENTRY, FIRST_ARGUMENT, Machine, Run, Task, TaskTrap
from yotarimu.reports.explanation import run_lines, trap_lines
from yotarimu.reports.plain_data import state_data, trap_data
from yotarimu.reports.report import Name

# So many of a task's requests are printed as text.
MOST_ASKED = 200
HINT = FIRST_ARGUMENT + 3
# The calls of docs/guest/TASKS.md, by number.
ENQUEUES = {1: "child", 2: "child in the subdomain", 3: "child in the superdomain"}
SUBDOMAIN, BYTE = 4, 5


@dataclasses.dataclass(frozen=True)
class Asked:
    """What a task asked for: how many instructions it had executed before, at which address, what it is, and with it
    an address of the data, a width and a value, or a child with its hint; a byte and the kind of a subdomain are
    values."""
    executed: int
    pc: int
    kind: str
    address: Optional[int] = None
    width: Optional[int] = None
    value: Optional[int] = None
    child: Optional[Task] = None
    hint: Optional[int] = None


class AskingRun(Run):
    """A run that keeps what its task asks for: loads and stores of the data, children, a subdomain and bytes."""

    def __init__(self, machine: Machine, task: Task) -> None:
        super().__init__(machine, task)
        self.asked: list[Asked] = []
        self.start = machine.steps
        self.trap: Optional[TaskTrap] = None

    @property
    def executed(self) -> int:
        """How many instructions the task has executed."""
        return self.machine.steps - self.start

    def go_to_end(self) -> None:
        """Runs the task up to its end call, or its trap."""
        try:
            self.go()
        except TaskTrap as trap:
            self.trap = trap

    def load(self, kind: int, address: int) -> int:
        value = super().load(kind, address)
        if DATA <= address < STACK:
            width = 1 << (kind & 3)
            self.asked.append(Asked(self.executed, self.pc, "load", address, width, value & (1 << 8 * width) - 1))
        return value

    def store(self, width: int, address: int, value: int) -> None:
        super().store(width, address, value)
        if DATA <= address < STACK:
            self.asked.append(Asked(self.executed, self.pc, "store", address, width, value & (1 << 8 * width) - 1))

    def call(self) -> None:
        number, children = self.registers[CALL], self.children
        super().call()
        if number in ENQUEUES:
            child = self.machine.tasks[Name(self.turn, children)]
            self.asked.append(Asked(self.executed, self.pc, ENQUEUES[number], child=child, hint=self.registers[HINT]))
        elif number == SUBDOMAIN:
            self.asked.append(Asked(self.executed, self.pc, "subdomain", value=self.registers[ENTRY]))
        elif number == BYTE:
            self.asked.append(Asked(self.executed, self.pc, "byte", value=self.registers[ENTRY] & 0xFF))


@dataclasses.dataclass(frozen=True)
class OneTask:
    """A task that was run alone: its run, how many turns the report has, the turns of its children by their names, and
    a sentence on how its turn was reached."""
    run: AskingRun
    count: int
    turns: Mapping[Name, int]
    way: str

    @property
    def kind(self) -> str:
        """The kind of the task's own domain."""
        return "ordered" if self.run.task.domain.is_ordered else "unordered"


def way_text(start: int, turn: int, why: str) -> str:
    """How a turn was reached, if that began after so many turns, and why it began at the start."""
    again = turn - 1 - start
    if start and again:
        return f"The program saved the run after {count_text(start, 'turn')}; {again:,} more were run again here."
    if start:
        return "The program saved the run right before it."
    if not again:
        return "No turn comes before it."
    return f"All turns before it, {again:,}, were run again here{f', since {why}' if why else ''}."


def text_of(told: OneTask, listing: Listing, wants_all: bool = False) -> list[str]:
    """The explanation as text, for people; for a trap all registers, if that is wanted."""
    run, asked = told.run, told.run.asked
    lines = [*head_lines(told, listing), "", *(asked_line(it, told, listing) for it in asked[:MOST_ASKED])]
    if len(asked) > MOST_ASKED:
        lines.append(f"  and {len(asked) - MOST_ASKED:,} more, which --json has")
    if asked:
        lines.append("")
    if run.trap is not None:
        lines += ["It traps.", *trap_lines(run.trap.cause, run.pc, run.limits, listing),
                  *run_lines(run, run.trap, listing, wants_all), ""]
    return [*lines, told.way]


def head_lines(told: OneTask, listing: Listing) -> list[str]:
    """What the task is, and how much it did."""
    run, task = told.run, told.run.task
    creator = f"the task of turn {task.name.creator:,}" if task.name.creator else "the image"
    place = listing.place(task.entry)
    accesses = [count_text(sum(it.kind == kind for it in run.asked), kind) for kind in ("load", "store")]
    children = "1 child" if run.children == 1 else f"{run.children} children"
    turn = f"turn {run.turn:,} of {told.count:,}" if run.trap is None else f"no turn, after {told.count:,}"
    return [f"The task {task.name} is {listing.whole_words(task.entry, task.arguments)}.",
            f"  {turn}; timestamp {task.timestamp}, depth {task.domain.depth}, in an "
            f"{told.kind} domain; made by {creator}",
            f"  enters at {task.entry:08x}" + (f", {place}" if place else ""),
            f"  {count_text(run.executed, 'instruction')}; {' and '.join(accesses)} of the data, {children}, "
            f"{count_text(run.emitted, 'byte')} emitted"]


def asked_line(asked: Asked, told: OneTask, listing: Listing) -> str:
    """What the task asked for, with how many instructions it had executed before, and the place in the source."""
    words = f"{asked.kind:<5} {asked_words(asked, told, listing)}"
    return f"{asked.executed:>7,}  {words:<64}  {listing.place(asked.pc) or f'at {asked.pc:08x}'}"


def asked_words(asked: Asked, told: OneTask, listing: Listing) -> str:
    """What was asked for, without its kind."""
    if asked.child is not None:
        child = asked.child
        turn = told.turns.get(child.name)
        return (f"{child.name}: {listing.whole_words(child.entry, child.arguments)}, timestamp {child.timestamp}, hint "
                f"{asked.hint}, " + ("no turn" if turn is None else f"turn {turn:,}"))
    if asked.address is not None:
        width = count_text(asked.width or 0, "byte")
        return f"{asked.address:08x} {listing.label(asked.address) or ''}, {width}: {asked.value}"
    if asked.kind == "subdomain":
        return "ordered" if asked.value else "unordered"
    return f"{asked.value:02x}"


def plain_data_of(told: OneTask, listing: Listing) -> dict[str, object]:
    """The explanation in lists, dictionaries, numbers and texts."""
    run, task = told.run, told.run.task
    trap = None
    if run.trap is not None:
        trap = {**trap_data(run.trap.cause, run.pc, run.limits, listing), **state_data(run, run.trap)}
    return {**plain_task(task, listing), "turn": run.turn if run.trap is None else None,
            "turns": told.count, "depth": task.domain.depth, "domain": told.kind,
            "place": listing.place(task.entry), "instructions": run.executed,
            "asked": [plain_asked(it, told, listing) for it in run.asked], "trap": trap, "remark": told.way}


def plain_task(task: Task, listing: Listing) -> dict[str, object]:
    """What a task is."""
    return {"name": str(task.name), "entry": task.entry, "label": listing.label(task.entry),
            "timestamp": task.timestamp, "arguments": list(task.arguments)}


def plain_asked(asked: Asked, told: OneTask, listing: Listing) -> dict[str, object]:
    """What the task asked for."""
    plain: dict[str, object] = {"executed": asked.executed, "pc": asked.pc, "place": listing.place(asked.pc),
                                "kind": asked.kind}
    if asked.child is not None:
        return {**plain, **plain_task(asked.child, listing), "hint": asked.hint,
                "turn": told.turns.get(asked.child.name)}
    if asked.address is not None:
        plain.update(address=asked.address, label=listing.label(asked.address), width=asked.width)
    return {**plain, "value": asked.value}
