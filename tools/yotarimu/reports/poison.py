"""Checks the tasks of a report for reads before writes, and for accesses that leave the label they started from.

It runs beside the plain reading of RV32I, as a sanitizer does, and changes nothing that a task does. For each register
and each word of the task's stack it knows where the value comes from: nobody wrote it, instructions alone made it, it
was computed from an address, or it is another number. Saving a register in the task's own stack and restoring it are
no reads of it, nor is passing it to a child as an argument: then the child's reads are checked. The hint isn't checked,
since it never changes a result.
"""
from __future__ import annotations

import bisect
import dataclasses
import enum
import functools
from collections.abc import Callable, Sequence
from typing import Optional, Union

from yotarimu.common.text import count_text
from yotarimu.images.image import DATA, STACK, TEXT, Image
from yotarimu.images.listing import Listing
from yotarimu.images.serial_machine import (
    AUIPC, BRANCH, CALL, ENTRY, FIRST_ARGUMENT, IMMEDIATE, JALR, JAL, LOAD, LUI, MASK, REGISTER, REGISTERS,
    STACK_POINTER, STORE, TIMESTAMP, Domain, Instruction, Machine, Run, Task, decode, is_instruction, operation_of)
from yotarimu.reports.report import Name, Trap

# A task starts with three arguments from here on, and its timestamp after them.
ARGUMENT, ARGUMENTS = 10, 3
WORD = 4
# So many findings are printed.
MOST_FINDINGS = 100
ADD, SHIFT_LEFT, SHIFT_RIGHT = 0, 1, 5
BITWISE = (4, 6, 7)


class Mark(enum.Enum):
    """Where a value comes from that no address was in: nobody wrote it, or instructions alone made it."""
    UNWRITTEN = enum.auto()
    CONSTANT = enum.auto()


# A mark; the address that a value was computed from; or None, which is any other number.
Source = Union[None, int, Mark]
UNWRITTEN, CONSTANT = Mark.UNWRITTEN, Mark.CONSTANT


@dataclasses.dataclass
class Finding:
    """What a task did, at which instruction, and how many tasks did the same there."""
    words: str
    pc: int
    task: Task
    tasks: int = 1


@dataclasses.dataclass(frozen=True)
class Piece:
    """What a label names: the bytes from one address up to another, where the next label or the end is."""
    name: str
    start: int
    end: int


class Pieces:
    """The labelled pieces of an image's data, and of the constants after its code."""

    def __init__(self, image: Image, listing: Listing) -> None:
        code_end = max(listing.words, default=TEXT - WORD) + WORD
        self.pieces: list[Piece] = []
        for first, end in ((code_end, TEXT + len(image.text)), (DATA, DATA + image.size)):
            starts = [address for address in listing.places if first <= address < end]
            self.pieces += [Piece(listing.labels[start], start, stop)
                            for start, stop in zip(starts, [*starts[1:], end])]
        self.starts = [piece.start for piece in self.pieces]

    def at(self, address: int) -> Optional[Piece]:
        """The piece that an address is in; None where none is."""
        place = bisect.bisect_right(self.starts, address) - 1
        found = self.pieces[place] if place >= 0 else None
        return found if found and address < found.end else None

    def left(self, start: int, offset: int, address: int, width: int) -> Optional[Piece]:
        """The piece that an access leaves, whose base was computed from an address; None where it leaves none.

        A compiler may fold a constant into the offset, or count down from the end of an array. So the pieces at the
        address, at the address plus the offset, and right before the address are all taken for the one it started from.
        """
        first = self.at(start)
        if first is None or start < DATA <= address:
            return None
        known = (first, self.at(start + offset), self.at(start - 1))
        return None if any(it and it.start <= address and address + width <= it.end for it in known) else first


class CheckedMachine(Machine):
    """The machine of checked tasks, with all that was found."""

    def __init__(self, image: Image, listing: Listing) -> None:
        self.pieces = Pieces(image, listing)
        self.findings: dict[tuple[str, int], Finding] = {}
        self.arguments: dict[Name, tuple[Source, ...]] = {}
        self.checked = 0
        super().__init__(image)

    def run_of(self, task: Task) -> CheckedRun:
        self.checked += 1
        return CheckedRun(self, task)

    def sources_of(self, task: Task) -> tuple[Source, ...]:
        """Where a task's arguments come from; those of an image's task may be addresses."""
        return self.arguments.pop(task.name, tuple(self.start_of(CONSTANT, value) for value in task.arguments))

    def start_of(self, source: Source, value: int) -> Source:
        """Where a value comes from that is kept: a constant is an address if a piece is there."""
        if source is not CONSTANT:
            return source
        return value if self.pieces.at(value) else None

    def check_trap(self, trap: Trap) -> None:
        """Checks the task that traps, up to its trap; the memory has its stores afterwards."""
        self.run_at_trap(trap)

    def note(self, kind: str, words: str, run: CheckedRun) -> None:
        """Notes what a task does, once for each instruction."""
        found = self.findings.setdefault((kind, run.pc), Finding(words, run.pc, run.task, 0))
        found.tasks += (kind, run.pc) not in run.noted
        run.noted.add((kind, run.pc))


class CheckedRun(Run):
    """A run that knows where the value of each register and of each word of its stack comes from."""

    machine: CheckedMachine

    def __init__(self, machine: CheckedMachine, task: Task) -> None:
        super().__init__(machine, task)
        self.sources: list[Source] = [UNWRITTEN] * len(REGISTERS)
        self.sources[0] = CONSTANT
        if self.limits.stack:
            self.sources[STACK_POINTER] = None
        self.sources[ARGUMENT:ARGUMENT + ARGUMENTS + 1] = [*machine.sources_of(task), None]
        self.words: list[Source] = [UNWRITTEN] * (self.limits.stack // WORD)
        self.is_written = bytearray(self.limits.stack)
        self.noted: set[tuple[str, int]] = set()
        self.is_argument = [ARGUMENT <= place < ARGUMENT + ARGUMENTS for place in range(len(REGISTERS))]

    def step(self, word: int) -> None:
        check_of(word)(self)
        operation_of(word)(self)

    def use(self, register: int) -> None:
        """Notes a read of a register that nobody wrote."""
        if self.sources[register] is UNWRITTEN:
            name = REGISTERS[register]
            words = f"reads {name} before it writes it"
            if self.is_argument[register]:
                words = f"reads {name}, an argument that the task of turn {self.task.name.creator:,} never wrote"
            self.machine.note(name, words, self)
            self.sources[register] = None

    def set(self, register: int, source: Source) -> None:
        """Notes where a register's new value comes from."""
        if register:
            self.sources[register] = source
            self.is_argument[register] = False

    def place_in_stack(self, address: int, width: int) -> Optional[int]:
        """Where an access is in the task's stack; None where it isn't in it."""
        place = address - STACK
        return place if 0 <= place <= len(self.stack) - width else None

    def check_access(self, base: int, offset: int, width: int) -> int:
        """The address of a load or store; notes a base that nobody wrote, and an access that leaves its label."""
        self.use(base)
        address = self.registers[base] + offset & MASK
        start = self.sources[base]
        if isinstance(start, int):
            left = self.machine.pieces.left(start, offset, address, width)
            if left:
                self.machine.note("bounds", f"leaves `{left.name}`, where its address started: it accesses "
                                  f"{count_text(width, 'byte')} at {address:08x}, {distance_text(left, address)}", self)
        return address

    def source_in_stack(self, place: int, width: int) -> Source:
        """Where a value of the stack comes from; notes a read of bytes that nobody wrote."""
        if not any(self.is_written[place:place + width]):
            self.machine.note("stack", f"reads {count_text(width, 'byte')} of its stack at {STACK + place:08x} before "
                              "it writes them", self)
            return None
        return self.words[place // WORD] if width == WORD else None

    def keep(self, place: int, width: int, source: Source, value: int) -> None:
        """Notes where a value that is stored in the stack comes from."""
        self.is_written[place:place + width] = b"\1" * width
        self.words[place // WORD] = self.machine.start_of(source, value) if width == WORD else None

    def call(self) -> None:
        number, own = self.registers[CALL], self.task.domain
        self.use(CALL)
        if number:
            self.use(ENTRY)
        domain: Optional[Domain] = {1: own, 2: self.inner, 3: own.outer}.get(number)
        if domain and domain.is_ordered:
            self.use(TIMESTAMP)
        super().call()

    def make_child(self, entry: int, timestamp: int, arguments: Sequence[int], domain: Domain) -> None:
        name = Name(self.turn, self.children)
        self.machine.arguments[name] = tuple(
            self.machine.start_of(self.sources[FIRST_ARGUMENT + place], value) for place, value in enumerate(arguments))
        super().make_child(entry, timestamp, arguments, domain)


def distance_text(piece: Piece, address: int) -> str:
    """How far an address is from a piece."""
    if address < piece.start:
        return f"{count_text(piece.start - address, 'byte')} before it"
    if address < piece.end:
        return "across its end"
    return f"{count_text(address - piece.end, 'byte')} after its end" if address > piece.end else "right after its end"


# What an instruction reads and where its result comes from, which is noted before it is executed.
Check = Callable[[CheckedRun], None]


@functools.lru_cache(maxsize=65_536)
def check_of(word: int) -> Check:
    """The check of an instruction."""
    instruction = decode(word)
    if not is_instruction(word) or instruction.opcode not in CHECKS:
        return nothing
    return CHECKS[instruction.opcode](instruction)


def nothing(_run: CheckedRun) -> None:
    """Checks nothing: a fence, a word that isn't an instruction, and a call, which checks its registers itself."""


def of_constant(instruction: Instruction) -> Check:
    """The check of LUI and AUIPC."""
    return lambda run: run.set(instruction.target, CONSTANT)


def of_jump(instruction: Instruction) -> Check:
    """The check of JAL and JALR."""
    def check(run: CheckedRun) -> None:
        if instruction.opcode == JALR:
            run.use(instruction.first)
        run.set(instruction.target, None)

    return check


def of_branch(instruction: Instruction) -> Check:
    """The check of a branch."""
    def check(run: CheckedRun) -> None:
        run.use(instruction.first)
        run.use(instruction.second)

    return check


def of_load(instruction: Instruction) -> Check:
    """The check of a load."""
    width = 1 << (instruction.kind & 3)

    def check(run: CheckedRun) -> None:
        place = run.place_in_stack(run.check_access(instruction.first, instruction.immediate, width), width)
        run.set(instruction.target, None if place is None else run.source_in_stack(place, width))

    return check


def of_store(instruction: Instruction) -> Check:
    """The check of a store. A whole register may be saved in the stack before it is written."""
    width, value = 1 << (instruction.kind & 3), instruction.second

    def check(run: CheckedRun) -> None:
        place = run.place_in_stack(run.check_access(instruction.first, instruction.immediate, width), width)
        if place is None or width < WORD:
            run.use(value)
        if place is not None:
            run.keep(place, width, run.sources[value], run.registers[value])

    return check


def of_immediate(instruction: Instruction) -> Check:
    """The check of an instruction that computes with an immediate."""
    _, target, first, _, kind, _, _ = instruction
    keeps_address, keeps_constant = kind in (ADD, *BITWISE), kind in (ADD, SHIFT_LEFT, SHIFT_RIGHT, *BITWISE)

    def check(run: CheckedRun) -> None:
        run.use(first)
        source = run.sources[first]
        is_kept = keeps_constant if source is CONSTANT else keeps_address
        run.set(target, source if is_kept else None)

    return check


def of_registers(instruction: Instruction) -> Check:
    """The check of an instruction that computes with two registers."""
    _, target, first, second, kind, _, is_other = instruction
    keeps_address, is_difference = kind in (ADD, *BITWISE), kind == ADD and is_other

    def check(run: CheckedRun) -> None:
        run.use(first)
        run.use(second)
        one, two = run.sources[first], run.sources[second]
        if one is CONSTANT and two is CONSTANT:
            run.set(target, CONSTANT)
            return
        one = run.machine.start_of(one, run.registers[first])
        two = run.machine.start_of(two, run.registers[second])
        # The difference of two addresses is a number, and the sum of two is unlikely to be one's.
        source = one if two is None else two if one is None and not is_difference else None
        run.set(target, source if keeps_address else None)

    return check


CHECKS: dict[int, Callable[[Instruction], Check]] = {
    LUI: of_constant, AUIPC: of_constant, JAL: of_jump, JALR: of_jump, BRANCH: of_branch, LOAD: of_load,
    STORE: of_store, IMMEDIATE: of_immediate, REGISTER: of_registers}


def text_of(machine: CheckedMachine, listing: Listing) -> list[str]:
    """What was found, each with its place in the source, and how much was checked."""
    lines: list[str] = []
    found = list(machine.findings.values())
    for finding in found[:MOST_FINDINGS]:
        lines += finding_lines(finding, listing)
    if len(found) > MOST_FINDINGS:
        lines += [f"and {len(found) - MOST_FINDINGS:,} more.", ""]
    amount = f"{count_text(machine.checked, 'task')} and {count_text(machine.steps, 'instruction')} were checked"
    bounds = "" if machine.pieces.pieces else " No data has a label, so no access was checked against bounds."
    return [*lines, f"{count_text(len(found), 'finding') if found else 'Nothing was found'}: {amount}.{bounds}"]


def finding_lines(finding: Finding, listing: Listing) -> list[str]:
    """A finding as a sentence, its place, and an empty line."""
    task, others, place = finding.task, finding.tasks - 1, listing.place(finding.pc)
    more = f", as {count_text(others, 'other task')} did" if others else ""
    return [f"The task {task.name} ({listing.whole_words(task.entry, task.arguments)}) {finding.words}{more}.",
            ", ".join([f"  at {finding.pc:08x}", listing.label(finding.pc) or "without a label",
                       *([place] if place else [])]), ""]
