"""Runs the tasks of a report again, in its order, to learn what isn't in the report: where each task enters.

This doesn't judge: `./fractal check` says whether a report is that of a run. It follows RV32I (RISC-V Unprivileged ISA
20191213, chapter 2), and the six calls and the traps of docs/guest/TASKS.md.
"""
from __future__ import annotations

import dataclasses
import functools
import heapq
import operator
from collections.abc import Callable, Iterable, Sequence
from typing import NamedTuple, Optional, Union

from yotarimu.images.image import DATA, STACK, TEXT, Image
from yotarimu.reports.report import Entry, Name, Trap

MASK, SIGN = 0xFFFFFFFF, 0x80000000
# The greatest budget of a task, and how many bytes it may emit.
MOST_BUDGET, MOST_BYTES = 65_536, 256
STACK_POINTER, ENTRY, TIMESTAMP, FIRST_ARGUMENT, CALL = 2, 10, 11, 12, 17
REGISTERS = ("zero", "ra", "sp", "gp", "tp", "t0", "t1", "t2", "s0", "s1", *(f"a{place}" for place in range(8)),
             *(f"s{place}" for place in range(2, 12)), "t3", "t4", "t5", "t6")
# Opcodes, and the two instructions that are no more than a word.
LUI, AUIPC, JAL, JALR, BRANCH, LOAD, STORE = 0x37, 0x17, 0x6F, 0x67, 0x63, 0x03, 0x23
IMMEDIATE, REGISTER, FENCE, SYSTEM = 0x13, 0x33, 0x0F, 0x73
ECALL, EBREAK = 0x73, 0x100073
# Causes of traps.
FETCH, ILLEGAL, TARGET, LOAD_MULTIPLE, LOAD_RANGE, STORE_MULTIPLE, STORE_RANGE, BREAK = range(1, 9)
BAD_CALL, EARLY, NO_SUBDOMAIN, SECOND_SUBDOMAIN, NO_SUPERDOMAIN, TOO_DEEP, CHILD, BYTE, BUDGET = range(9, 18)


class TaskTrap(Exception):
    """A task traps: its cause, the address of the load or store that does, and for a timestamp in the past the least
    that might have been given."""

    def __init__(self, cause: int, address: Optional[int] = None, least: Optional[int] = None) -> None:
        super().__init__(cause)
        self.cause, self.address, self.least = cause, address, least


@dataclasses.dataclass
class Domain:
    """A domain of the serial machine, with the timestamps of the tasks that pend in it."""
    depth: int
    is_ordered: bool
    outer: Optional[Domain] = None
    # The timestamp of the task that made it.
    floor: int = 0
    # The timestamps of its pending tasks, as a heap.
    pending: list[int] = dataclasses.field(default_factory=list)


@dataclasses.dataclass
class Task:
    """A task: where it enters, its timestamp and arguments, its domain, and its turn once it has one."""
    name: Name
    entry: int
    timestamp: int
    arguments: tuple[int, ...]
    domain: Domain
    turn: int = 0

    def is_told_by(self, entry: Entry) -> bool:
        """Whether an entry of a report has the task's depth and timestamp."""
        return (self.domain.depth, self.timestamp) == (entry.depth, entry.timestamp)


class Machine:
    """The data memory, and all tasks that the image and the turns so far have made."""

    # How many turns were taken.
    turns = 0

    def __init__(self, image: Image, budget: int = MOST_BUDGET) -> None:
        self.image, self.budget = image, budget
        self.memory = bytearray(image.initial) + bytes(image.size - len(image.initial))
        self.steps = 0
        self.tasks: dict[Name, Task] = {}
        # What the tasks emitted.
        self.output = bytearray()
        root = Domain(1, image.is_ordered)
        # The domains from the root to the innermost one.
        self.domains = [root]
        for index, initial in enumerate(image.tasks):
            self.add(Name(0, index), initial.entry, initial.timestamp, initial.arguments, root)

    @classmethod
    def after(cls, turns: int, saved: Image, names: Sequence[Name], budget: int = MOST_BUDGET) -> Machine:
        """The machine after so many turns, by the image that was saved there, whose tasks have these names."""
        machine = cls(saved, budget)
        machine.turns = turns
        for task, name in zip(machine.tasks.values(), names):
            task.name = name
        machine.tasks = {task.name: task for task in machine.tasks.values()}
        return machine

    def add(self, name: Name, entry: int, timestamp: int, arguments: Iterable[int], domain: Domain) -> None:
        """Adds a pending task; in an unordered domain its timestamp counts as 0."""
        timestamp = timestamp if domain.is_ordered else 0
        self.tasks[name] = Task(name, entry, timestamp, tuple(arguments), domain)
        heapq.heappush(domain.pending, timestamp)

    def run_of(self, task: Task) -> Run:
        """A run of a task, from its start."""
        return Run(self, task)

    def is_next(self, task: Task) -> bool:
        """Whether a task is of the innermost domain that has one pending, and has the least timestamp there."""
        while len(self.domains) > 1 and not self.domains[-1].pending:
            self.domains.pop()
        domain = self.domains[-1]
        return task.domain is domain and task.timestamp == domain.pending[0]

    def task_of(self, entry: Entry) -> Optional[Task]:
        """The task of an entry, if it may take the next turn; else None."""
        task = self.tasks.get(entry.name)
        if task is None or task.turn or not self.is_next(task) or not task.is_told_by(entry):
            return None
        return task

    def follow(self, entries: Iterable[Entry]) -> Optional[str]:
        """Takes the turns of these entries. It ends with None, or with a sentence on why one is none of the image."""
        for entry in entries:
            task = self.task_of(entry)
            if task is None:
                return f"turn {entry.turn} isn't one that the image allows; ./fractal check says more"
            task.turn = entry.turn
            self.turns += 1
            heapq.heappop(task.domain.pending)
            run = self.run_of(task)
            try:
                run.go()
            except TaskTrap as trapped:
                return f"turn {entry.turn} traps with cause {trapped.cause}; ./fractal check says more"
            if run.inner:
                self.domains.append(run.inner)
        return None

    def run_at_trap(self, trap: Trap) -> Optional[tuple[Run, TaskTrap]]:
        """The run of a pending task at its trap, and the trap as it is found here; None where another one is."""
        task = self.tasks.get(trap.name)
        if not task or task.turn:
            return None
        run = self.run_of(task)
        try:
            run.go()
        except TaskTrap as found:
            return (run, found) if (found.cause, run.pc) == (trap.cause, trap.pc) else None
        return None


class Run:
    """One task's run, up to its end call."""

    def __init__(self, machine: Machine, task: Task) -> None:
        self.machine, self.task, self.limits = machine, task, machine.image.limits
        stack, registers = self.limits.stack, [0] * 32
        self.stack, self.registers = bytearray(stack), registers
        registers[STACK_POINTER] = STACK + stack if stack else 0
        registers[10], registers[11], registers[12] = task.arguments
        registers[13] = task.timestamp
        self.pc, self.children, self.emitted, self.is_over = task.entry, 0, 0, False
        # A task that traps gets no turn; its children have names as if it did, so that they take no other task's.
        self.turn = task.turn or machine.turns + 1
        # The subdomain that the task made.
        self.inner: Optional[Domain] = None

    def go(self) -> None:
        """Executes the task up to its end; raises TaskTrap where it traps."""
        machine, last = self.machine, self.machine.steps + self.machine.budget
        while not self.is_over:
            if machine.steps == last:
                raise TaskTrap(BUDGET)
            word = machine.image.word(self.pc)
            if word is None or self.pc % 4:
                raise TaskTrap(FETCH)
            self.step(word)
            machine.steps += 1

    def step(self, word: int) -> None:
        """Executes one instruction, a word of the text; raises TaskTrap where it traps, and changes nothing then."""
        operation_of(word)(self)

    def load(self, kind: int, address: int) -> int:
        """The value of a load of a kind (its funct3) at an address; raises TaskTrap where it traps."""
        width = 1 << (kind & 3)
        if address % width:
            raise TaskTrap(LOAD_MULTIPLE, address)
        start, data = self.readable(address)
        place = address - start
        if not 0 <= place <= len(data) - width:
            raise TaskTrap(LOAD_RANGE, address)
        value = int.from_bytes(data[place:place + width], "little")
        return value if kind & 4 else signed_number(value, 8 * width)

    def store(self, width: int, address: int, value: int) -> None:
        """Stores the low bytes of a value at an address; raises TaskTrap where it traps."""
        if address % width:
            raise TaskTrap(STORE_MULTIPLE, address)
        start, data = self.writable_bytes(address)
        place = address - start
        if not 0 <= place <= len(data) - width:
            raise TaskTrap(STORE_RANGE, address)
        data[place:place + width] = (value & (1 << 8 * width) - 1).to_bytes(width, "little")

    def readable(self, address: int) -> tuple[int, Union[bytes, bytearray]]:
        """The bytes that an address may be read from, and where they begin: the text, the stack, or the data."""
        return (TEXT, self.machine.image.text) if address < DATA else self.writable_bytes(address)

    def writable_bytes(self, address: int) -> tuple[int, bytearray]:
        """The bytes that an address may belong to, and where they begin: the task's stack, or the data."""
        return (STACK, self.stack) if address >= STACK else (DATA, self.machine.memory)

    def call(self) -> None:
        """Makes the call that the registers ask for; raises TaskTrap if it traps."""
        number, registers = self.registers[CALL], self.registers
        if number == 0:
            self.is_over = True
        elif number == 4 and registers[ENTRY] <= 1:
            self.make_subdomain(registers[ENTRY] == 1)
        elif number == 5:
            if self.emitted == MOST_BYTES:
                raise TaskTrap(BYTE)
            self.emitted += 1
            self.machine.output.append(registers[ENTRY] & 0xFF)
        elif number in (1, 2, 3):
            self.enqueue(number, registers[ENTRY], registers[TIMESTAMP], registers[FIRST_ARGUMENT:FIRST_ARGUMENT + 3])
        else:
            raise TaskTrap(BAD_CALL)

    def make_subdomain(self, is_ordered: bool) -> None:
        """Makes the task's subdomain; raises TaskTrap where it can't have one."""
        own = self.task.domain
        if self.inner:
            raise TaskTrap(SECOND_SUBDOMAIN)
        if own.depth == self.limits.depth:
            raise TaskTrap(TOO_DEEP)
        self.inner = Domain(own.depth + 1, is_ordered, own, self.task.timestamp)

    def enqueue(self, number: int, entry: int, timestamp: int, arguments: Sequence[int]) -> None:
        """Makes a child by a call of a number, 1 to 3; raises TaskTrap where it can't be made."""
        own = self.task.domain
        domain: Optional[Domain] = own
        least = self.task.timestamp
        if number == 2:
            # A subdomain's timestamps start afresh.
            domain, least = self.inner, 0
        elif number == 3:
            domain, least = own.outer, own.floor
        if domain is None:
            raise TaskTrap(NO_SUBDOMAIN if number == 2 else NO_SUPERDOMAIN)
        if domain.is_ordered and timestamp < least:
            raise TaskTrap(EARLY, least=least)
        if self.children == self.limits.children:
            raise TaskTrap(CHILD)
        self.make_child(entry, timestamp, arguments, domain)
        self.children += 1

    def make_child(self, entry: int, timestamp: int, arguments: Sequence[int], domain: Domain) -> None:
        """Hands a child to the machine, which has all tasks."""
        self.machine.add(Name(self.turn, self.children), entry, timestamp, arguments, domain)


def signed_number(value: int, bits: int) -> int:
    """The low bits of a value as a two's complement number."""
    value &= (1 << bits) - 1
    return value - (1 << bits) if value >> bits - 1 else value


class Instruction(NamedTuple):
    """The fields of an instruction: opcode, rd, rs1, rs2, funct3, the immediate of its format, and bit 30."""
    opcode: int
    target: int
    first: int
    second: int
    kind: int
    immediate: int
    is_other: bool


def decode(word: int) -> Instruction:
    """The fields of a word, whether or not it is an instruction."""
    opcode = word & 0x7F
    return Instruction(opcode, word >> 7 & 31, word >> 15 & 31, word >> 20 & 31, word >> 12 & 7,
                       immediate_of(opcode, word), bool(word >> 30 & 1))


def immediate_of(opcode: int, word: int) -> int:
    """The immediate of an instruction, by the format that its opcode has."""
    if opcode == BRANCH:
        return branch_offset(word)
    if opcode == JAL:
        return jump_offset(word)
    if opcode == STORE:
        return signed_number(word >> 25 << 5 | word >> 7 & 31, 12)
    return word & 0xFFFFF000 if opcode in (LUI, AUIPC) else signed_number(word >> 20, 12)


# What an instruction does to the task that runs: registers, pc, and what its load, store or call does.
Operation = Callable[[Run], None]


# An image has no more words.
@functools.lru_cache(maxsize=65_536)
def operation_of(word: int) -> Operation:
    """What an instruction does. Where it traps it has changed nothing."""
    if word in ALONE:
        return ALONE[word]
    if not is_instruction(word):
        return illegal
    instruction = decode(word)
    return OPERATIONS[instruction.opcode](instruction)


def is_instruction(word: int) -> bool:
    """Whether a word is an instruction of RV32I: each of its fixed fields has a value that the encoding allows."""
    opcode, kind, upper_bits = word & 0x7F, word >> 12 & 7, word >> 25
    if opcode == SYSTEM:
        return word in ALONE
    if opcode not in KINDS or kind not in KINDS[opcode]:
        return False
    if opcode == IMMEDIATE and kind in SHIFTS or opcode == REGISTER:
        return upper_bits == 0 or upper_bits == OTHER and (kind == 5 or opcode == REGISTER and kind == 0)
    return True


def is_straight(word: int) -> bool:
    """Whether an instruction changes a register at most, and the next one comes then."""
    return word & 0x7F in STRAIGHT and is_instruction(word)


def nothing(run: Run) -> None:
    """Does what a fence does, or an instruction whose result no register takes."""
    run.pc += 4


def illegal(_run: Run) -> None:
    """Traps, as a word does that isn't an instruction."""
    raise TaskTrap(ILLEGAL)


def stop(_run: Run) -> None:
    """Traps, as EBREAK does."""
    raise TaskTrap(BREAK)


def call(run: Run) -> None:
    """Makes the call that the registers ask for."""
    run.call()
    run.pc += 4


def with_immediate(instruction: Instruction) -> Operation:
    """What an instruction does that computes with an immediate."""
    _, target, first, _, kind, immediate, is_other = instruction
    compute, value = arithmetic(kind, is_other and kind == 5), immediate & MASK

    def add(run: Run) -> None:
        run.registers[target] = run.registers[first] + value & MASK
        run.pc += 4

    def other(run: Run) -> None:
        run.registers[target] = compute(run.registers[first], value) & MASK
        run.pc += 4

    return nothing if target == 0 else other if kind else add


def with_register(instruction: Instruction) -> Operation:
    """What one does that computes with two registers."""
    _, target, first, second, kind, _, is_other = instruction
    compute = arithmetic(kind, is_other)

    def result(run: Run) -> None:
        registers = run.registers
        registers[target] = compute(registers[first], registers[second]) & MASK
        run.pc += 4

    return result if target else nothing


def branch(instruction: Instruction) -> Operation:
    """What a branch does."""
    _, _, first, second, kind, offset, _ = instruction
    is_met = comparison(kind)

    def go(run: Run) -> None:
        registers = run.registers
        if not is_met(registers[first], registers[second]):
            run.pc += 4
        elif offset % 4:
            raise TaskTrap(TARGET)
        else:
            run.pc = run.pc + offset & MASK

    return go


def load(instruction: Instruction) -> Operation:
    """What a load does."""
    _, target, first, _, kind, offset, _ = instruction

    def result(run: Run) -> None:
        found = run.load(kind, run.registers[first] + offset & MASK)
        if target:
            run.registers[target] = found & MASK
        run.pc += 4

    return result


def store(instruction: Instruction) -> Operation:
    """What a store does."""
    _, _, first, second, kind, offset, _ = instruction
    width = 1 << (kind & 3)

    def go(run: Run) -> None:
        registers = run.registers
        run.store(width, registers[first] + offset & MASK, registers[second])
        run.pc += 4

    return go


def upper(instruction: Instruction) -> Operation:
    """What LUI does, and AUIPC, which adds the address of the instruction."""
    target, value, is_relative = instruction.target, instruction.immediate, instruction.opcode == AUIPC

    def result(run: Run) -> None:
        run.registers[target] = (run.pc if is_relative else 0) + value & MASK
        run.pc += 4

    return result if target else nothing


def jump(instruction: Instruction) -> Operation:
    """What JAL does, and JALR, which adds to a register in place of the address of the instruction."""
    opcode, target, first, _, _, offset, _ = instruction
    is_far = opcode == JALR

    def go(run: Run) -> None:
        following = run.registers[first] + offset & ~1 if is_far else run.pc + offset
        if following % 4:
            raise TaskTrap(TARGET)
        if target:
            run.registers[target] = run.pc + 4
        run.pc = following & MASK

    return go


# The values of funct3 by opcode. Shifts by an immediate and register instructions have funct7 too, which is 0, or OTHER
# for SUB, SRA and SRAI.
ALL, SHIFTS, OTHER = range(8), (1, 5), 0x20
KINDS: dict[int, Sequence[int]] = {
    LUI: ALL, AUIPC: ALL, JAL: ALL, JALR: (0,), BRANCH: (0, 1, 4, 5, 6, 7), LOAD: (0, 1, 2, 4, 5), STORE: (0, 1, 2),
    IMMEDIATE: ALL, REGISTER: ALL, FENCE: (0,)}
STRAIGHT = (FENCE, IMMEDIATE, AUIPC, REGISTER, LUI)
ALONE: dict[int, Operation] = {ECALL: call, EBREAK: stop}
OPERATIONS: dict[int, Callable[[Instruction], Operation]] = {
    LOAD: load, FENCE: lambda _: nothing, IMMEDIATE: with_immediate, AUIPC: upper, STORE: store,
    REGISTER: with_register, LUI: upper, BRANCH: branch, JALR: jump, JAL: jump}


def arithmetic(kind: int, is_other: bool) -> Callable[[int, int], int]:
    """What a register instruction computes, or one with an immediate, up to the bits of a register; `is_other` selects
    SUB and SRA."""
    return OTHERS[kind] if is_other and kind in OTHERS else ARITHMETIC[kind]


def comparison(kind: int) -> Callable[[int, int], bool]:
    """Whether a branch is taken."""
    return COMPARISONS[kind if kind & 4 else kind & 1]


def is_less(one: int, two: int) -> bool:
    """Whether a register's number is less than another one, both with their signs."""
    return one ^ SIGN < two ^ SIGN


ARITHMETIC: tuple[Callable[[int, int], int], ...] = (
    operator.add, lambda one, two: one << (two & 31), is_less, operator.lt, operator.xor,
    lambda one, two: one >> (two & 31), operator.or_, operator.and_)
OTHERS: dict[int, Callable[[int, int], int]] = {
    0: operator.sub, 5: lambda one, two: signed_number(one, 32) >> (two & 31)}
COMPARISONS: dict[int, Callable[[int, int], bool]] = {
    0: operator.eq, 1: operator.ne, 4: is_less, 5: lambda one, two: one ^ SIGN >= two ^ SIGN, 6: operator.lt,
    7: operator.ge}


def branch_offset(word: int) -> int:
    """How far a branch goes, in bytes."""
    return signed_number((word >> 31) << 12 | (word >> 7 & 1) << 11 | (word >> 25 & 0x3F) << 5 | (word >> 8 & 0xF) << 1,
                         13)


def jump_offset(word: int) -> int:
    """How far a JAL goes, in bytes."""
    bits = (word >> 31) << 20 | (word >> 12 & 0xFF) << 12 | (word >> 20 & 1) << 11 | (word >> 21 & 0x3FF) << 1
    return signed_number(bits, 21)
