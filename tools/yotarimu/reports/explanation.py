"""A report as text for people: tasks with labels, the output as text, the window in decimal, the end in words."""
from __future__ import annotations

from collections.abc import Sequence

from yotarimu.common.files import FilePath
from yotarimu.common.text import printable
from yotarimu.courses.schedules import ActAnswer
from yotarimu.images.image import DATA, STACK, TEXT, Image, Limits
from yotarimu.images.listing import Listing
from yotarimu.images.serial_machine import CALL, FETCH, REGISTERS, TIMESTAMP, Machine, Run, TaskTrap
from yotarimu.reports.meanings import ENDS, REPLIES, cause_told, tasks_told
from yotarimu.reports.report import Report, Trap

# How far below the stack an address is reported as below it.
BELOW_STACK = 65_536
REGISTERS_IN_LINE = 5
ALL_IN_LINE = 4
# Replies to more acts than that are counted.
MOST_REPLIES = 200


def image_line(path: FilePath, image: Image) -> str:
    """An image in a sentence."""
    kind = "ordered" if image.is_ordered else "unordered"
    return (f"{path}: version {image.version}, an {kind} root domain, {len(image.text) // 4:,} words of text from "
            f"{TEXT:08x} on, {image.size:,} bytes of data.")


def tree_lines(report: Report, machine: Machine, listing: Listing) -> list[str]:
    """The tasks in the order of their turns, deeper ones set in."""
    if not report.entries:
        return ["No task took its turn."]
    lines = ["Tasks in the order of their turns; those of a subdomain are set in, and arguments come after labels:",
             "", f"{'turn':>7}  {'task':<11} {'timestamp':>10}  label"]
    for entry in report.entries:
        task = machine.tasks.get(entry.name)
        known = listing.whole_words(task.entry, task.arguments) if task and task.turn == entry.turn else "?"
        lines.append(f"{entry.turn:>7}  {entry.name!s:<11} {entry.timestamp:>10}  {'  ' * (entry.depth - 1)}{known}")
    return lines


def reply_lines(replies: Sequence[ActAnswer]) -> list[str]:
    """What the acts of a script were answered: each of a few, else how often which."""
    if not replies:
        return []
    back = sum(said.taken_back for said in replies)
    acts = "1 act" if len(replies) == 1 else f"{len(replies):,} acts"
    lines = [f"Replies to {acts} of a script; {back:,} tasks were aborted:", ""]
    if len(replies) <= MOST_REPLIES:
        lines += [f"{number:>7}  {reply_text(said)}" for number, said in enumerate(replies, 1)]
    else:
        kinds = dict.fromkeys(said.reply for said in replies)
        lines += [f"{sum(said.reply == kind for said in replies):>7,}  {kind}{meaning(kind)}" for kind in kinds]
    return [*lines, ""]


def reply_text(said: ActAnswer) -> str:
    """What an act was answered, and what that means."""
    back = f", {said.taken_back:,} aborted" if said.taken_back else ""
    return f"{said.reply}{meaning(said.reply)}{back}"


def meaning(reply: str) -> str:
    """What a reply means, behind a colon; no words where it says so itself."""
    return f": {REPLIES[reply]}" if reply in REPLIES else ""


def output_lines(output: bytes) -> list[str]:
    """The output as text."""
    if not output:
        return ["No byte was emitted."]
    count = "1 byte" if len(output) == 1 else f"{len(output):,} bytes"
    return [f"Output, {count}, as text:", "", *(f"  {line}" for line in text_lines(output))]


def text_lines(output: bytes) -> list[str]:
    """Bytes as lines of text, each with its newline written out."""
    pieces = [piece + b"\n" for piece in output.split(b"\n")]
    pieces[-1] = pieces[-1][:-1]
    return [printable(piece) for piece in pieces if piece]


def window_lines(window: Sequence[tuple[int, int]], listing: Listing) -> list[str]:
    """The window, each word in decimal and in hexadecimal."""
    if not window:
        return []
    lines = ["Window, each word in decimal and in hexadecimal:", ""]
    for address, value in window:
        as_signed = f"  or {value - 2 ** 32}" if value >= 2 ** 31 else ""
        lines.append(f"  {listing.label(address) or '':<20} {address:08x} {value:>12} {value:08x}{as_signed}")
    return [*lines, ""]


def end_lines(report: Report, machine: Machine, listing: Listing, wants_all: bool) -> list[str]:
    """How the run ended; of a trap with its registers, all or those that aren't 0."""
    if not report.trap:
        return [ENDS[report.end]]
    trap = report.trap
    task = machine.tasks.get(trap.name)
    known = ""
    if task:
        words = listing.whole_words(task.entry, task.arguments)
        known = f" ({words}; timestamp {task.timestamp}, depth {task.domain.depth})"
    return [f"The run ended in a trap of the task {trap.name}{known}.",
            *trap_lines(trap.cause, trap.pc, machine.image.limits, listing),
            *state_lines(machine, listing, trap, wants_all)]


def trap_lines(cause: int, pc: int, limits: Limits, listing: Listing) -> list[str]:
    """A trap's cause in words, and where it was."""
    what, usual = cause_told(cause, limits)
    place = listing.place(pc)
    return [f"  cause {cause}: {what}; usually from {usual}",
            f"  at {pc:08x}, {listing.label(pc) or 'without a label'}" + (f", {place}" if place else "")]


def state_lines(machine: Machine, listing: Listing, trap: Trap, wants_all: bool) -> list[str]:
    """What led to the trap, and the registers, if running the task again reaches it."""
    found = machine.run_at_trap(trap)
    return run_lines(*found, listing, wants_all) if found else []


def run_lines(run: Run, trapped: TaskTrap, listing: Listing, wants_all: bool) -> list[str]:
    """What led a run to its trap, and the registers, all or those that aren't 0."""
    return [*reason_lines(run, trapped, listing),
            *(all_registers(run.registers) if wants_all else registers_used(run.registers))]


def reason_lines(run: Run, trapped: TaskTrap, listing: Listing) -> list[str]:
    """The address of a load or store, the timestamp that was in the past, or that the task began at no instruction."""
    if trapped.address is not None:
        return [f"  address {address_text(listing, run.machine.image, trapped.address)}"]
    if trapped.least is not None:
        whose = "the task's own" if run.registers[CALL] == 1 else "the floor: that of the task that made the subdomain"
        return [f"  timestamp {run.registers[TIMESTAMP]} was asked for, and {trapped.least} is the least, {whose}"]
    if begins_at_trap(run, trapped):
        why = "no multiple of 4" if run.pc % 4 else "outside of the text"
        return [f"  the task begins there: {'the image' if run.task.name.creator == 0 else 'its creator'} gave it this "
                f"entry address, which is {why}"]
    return []


def begins_at_trap(run: Run, trapped: TaskTrap) -> bool:
    """Whether a task traps before its first instruction, since there is none at its entry address."""
    return trapped.cause == FETCH and run.pc == run.task.entry


def registers_used(values: Sequence[int]) -> list[str]:
    """The registers that aren't 0."""
    used = [f"{name} {value:08x}" for name, value in zip(REGISTERS, values) if value]
    rest = f"{'' if used else 'registers':<9} all {'others ' if used else ''}are 0; --registers shows each"
    return [*in_lines(used, REGISTERS_IN_LINE), f"  {rest}"]


def all_registers(values: Sequence[int]) -> list[str]:
    """All registers, by their numbers and by the names that compilers give them."""
    return in_lines([f"{f'x{number}':<3} {name:<4} {value:08x}"
                     for number, (name, value) in enumerate(zip(REGISTERS, values))], ALL_IN_LINE)


def in_lines(registers: Sequence[str], count: int) -> list[str]:
    """Lines of so many registers each, of which the first has a title."""
    return [f"  {'' if first else 'registers':<9} {'  '.join(registers[first:first + count])}"
            for first in range(0, len(registers), count)]


def address_text(listing: Listing, image: Image, address: int) -> str:
    """An address, with what is there."""
    if TEXT <= address < TEXT + len(image.text):
        place = f"{listing.address_text(address)}, in the text"
    elif DATA <= address < DATA + image.size:
        place = f"{listing.address_text(address)}, in the data"
    elif STACK <= address < STACK + image.limits.stack:
        place = "in the stack"
    elif image.limits.stack and STACK - BELOW_STACK <= address < STACK:
        place = f"{STACK - address:,} bytes below the stack"
    elif DATA <= address < STACK:
        place = f"{address - DATA - image.size:,} bytes after the end of the data"
    else:
        place = "where nothing is"
    return f"{address:08x}, {place}"


def text_of(image_path: FilePath, image: Image, replies: Sequence[ActAnswer], report: Report, machine: Machine,
            listing: Listing, wants_all: bool = False) -> list[str]:
    """The explanation as text, for people; for a trap all registers, if that is wanted."""
    return [image_line(image_path, image), f"{tasks_told(len(report.entries))}.", "", *reply_lines(replies),
            *tree_lines(report, machine, listing), "", *output_lines(report.output), "",
            *window_lines(report.window, listing), *end_lines(report, machine, listing, wants_all)]
