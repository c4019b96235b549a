"""Legs, replayed on the image: which plain instructions a task executes, where it stops, and what it requests there.

An image's text is read as RV32I by `yotarimu.images.serial_machine`. Each task that was dispatched has a core here. The
leg in a line has to be the one that this core runs; then what it requested is done, unless it was refused. As nothing
but its core decides how a leg goes, it may be run before its line is read, and waits until a line takes it.
"""
from __future__ import annotations

import functools
import itertools
from collections.abc import Callable
from typing import TYPE_CHECKING, Any, NamedTuple, Optional

from yotarimu.images import serial_machine
from yotarimu.images.image import DATA, Image
from yotarimu.images.serial_machine import (
    MASK, Operation, Run, TaskTrap, decode, is_instruction, is_straight, operation_of, signed_number)
from yotarimu.lines.fields import ASKED, WrongLine
from yotarimu.lines.times import Domain
from yotarimu.reports.report import Name

if TYPE_CHECKING:
    from yotarimu.lines.replay import Task, ToldLine

# Nobody asks a core for the name of its task.
NAMELESS = Name(0, 0)
CHILDREN = {1: "same", 2: "sub", 3: "super"}
FETCH, BUDGET = 1, 17
# A block has so many straight instructions at most, so that blocks of a long text stay short.
MOST_STRAIGHT = 64
# The fields of a line that describe a leg, in their order.
FIELDS = ("leg", "pc", "asks", "addr", "bytes", "value", "to", "entry", "ts", "args", "hint", "byte", "cause")
# The names of those behind `asks`, by what is asked for.
WISHES = {asks: [name for name, _ in fields] for asks, fields in ASKED.items()}
# Where a leg stops: behind how many instructions, at which address, and the word of what is asked for there.
Stop = tuple[int, int, str]
# What is requested: its word, and the values of the fields after `asks`, with the arguments of a child one by one.
Wish = tuple[Any, ...]
Asked = tuple[str, Wish]
# Of an instruction what gives that which it asks for, and None where it asks nothing and was executed; and what
# executes it once that is granted, with the number that a load finds.
Ask = Callable[["Core"], Optional[Asked]]
Grant = Callable[["Core", int], None]


class Nothing(bytearray):
    """It takes what calls emit, and keeps nothing."""

    def append(self, _byte: Any) -> None:
        """The lines have the bytes."""


class Scratch(serial_machine.Machine):
    """A serial machine that calls may change, since nobody reads it: the event log has the results."""

    def __init__(self, image: Image) -> None:
        super().__init__(image)
        self.output, self.blocks = Nothing(), Blocks(image)

    def add(self, *_task: Any) -> None:
        """The lines have the image's tasks."""


# Most tasks of a run are in few domains.
@functools.lru_cache(maxsize=1_024)
def around(domain: Domain) -> serial_machine.Domain:
    """A domain of the lines as a call sees it. The root domain has no maker, whose timestamp counts as 0."""
    outer = around(domain.outer()) if domain.maker else None
    return serial_machine.Domain(len(domain.kinds), domain.kinds[-1], outer, domain.maker[-1][0] if domain.maker else 0)


class Last(NamedTuple):
    """An instruction behind straight ones."""
    ask: Ask
    grant: Grant


# Instructions one after another: those that change a register at most, how many they are, and what the one that comes
# then asks for and does. A tuple with names takes ten times as long to be taken apart.
Block = tuple[tuple[Operation, ...], int, Ask, Grant]


class Blocks(dict[int, Block]):
    """The blocks of a text, by the addresses at which legs came into them."""

    def __init__(self, image: Image) -> None:
        super().__init__()
        self.image = image

    def __missing__(self, pc: int) -> Block:
        straight: list[Operation] = []
        end = pc
        while (word := self.word(end)) is not None and is_straight(word) and len(straight) < MOST_STRAIGHT:
            straight.append(operation_of(word))
            end += 4
        last = NO_INSTRUCTION if word is None else last_of(word)
        found = self[pc] = tuple(straight), len(straight), last.ask, last.grant
        return found

    def word(self, pc: int) -> Optional[int]:
        """The word of the text at an address; None where no instruction is fetched from it."""
        return None if pc & 3 else self.image.word(pc)


# ---- what stops a leg


def last_of(word: int) -> Last:
    """What an instruction asks for, and how it is executed then; most ask nothing."""
    opcode = word & 0x7F
    if opcode in (serial_machine.LOAD, serial_machine.STORE) and is_instruction(word):
        return (load_of if opcode == serial_machine.LOAD else store_of)(word)
    return CALL if word == serial_machine.ECALL else Last(operation_of(word), pass_over)


def load_of(word: int) -> Last:
    """A load, which asks for data; what it finds in text and stack it takes at once. One that may not be traps."""
    _, target, first, _, kind, offset, _ = decode(word)
    width, plainly = 1 << (kind & 3), operation_of(word)

    def ask(core: Core) -> Optional[Asked]:
        address = core.registers[first] + offset & MASK
        if DATA <= address <= core.end - width and not address % width:
            return "load", (address, width)
        plainly(core)
        return None

    def grant(core: Core, found: int) -> None:
        if target:
            core.registers[target] = (signed_number(found, 8 * width) if kind < 2 else found) & MASK
        core.pc += 4

    return Last(ask, grant)


def store_of(word: int) -> Last:
    """A store, which asks for data; one to the stack is made at once. One that may not be traps."""
    _, _, first, second, kind, offset, _ = decode(word)
    width, plainly = 1 << (kind & 3), operation_of(word)

    def ask(core: Core) -> Optional[Asked]:
        address = core.registers[first] + offset & MASK
        if DATA <= address <= core.end - width and not address % width:
            return "store", (address, width, core.registers[second])
        plainly(core)
        return None

    return Last(ask, pass_over)


def ask_by_call(core: Core) -> Asked:
    """What a call asks for. What it changes in the core nothing reads before it is granted."""
    core.call()
    return core.request()


def pass_over(core: Core, _found: int) -> None:
    """Goes on behind an instruction that changes no register."""
    core.pc += 4


def no_instruction(_run: Run) -> None:
    """Traps, as a task does that goes where the text has no word."""
    raise TaskTrap(FETCH)


CALL = Last(ask_by_call, pass_over)
NO_INSTRUCTION = Last(no_instruction, pass_over)


class Core(Run):
    """The core of a dispatched task. An access to data or a call stops it, until it is granted."""

    def __init__(self, scratch: Scratch, task: Task) -> None:
        start = serial_machine.Task(NAMELESS, task.entry, task.timestamp, tuple(task.arguments), around(task.domain))
        super().__init__(scratch, start)
        self.used, self.blocks = 0, scratch.blocks
        # Where the data ends.
        self.end: int = DATA + len(scratch.memory)
        # Where the last leg came into blocks, and where it stopped: at this instruction.
        self.path: tuple[int, ...] = self.pc, self.pc
        # Of that leg where it stopped, what is asked for there, what executes the instruction that asks, and whether
        # it waits for a line that takes it.
        self.stop: Stop = 0, self.pc, "go"
        self.wish: Wish = ()
        self.grant: Optional[Grant] = None
        self.is_waiting = False

    def run(self, quantum: int, budget: int) -> None:
        """Runs a leg, which waits then."""
        count, most, blocks, path = 0, budget - self.used, self.blocks, [self.pc]
        if most > quantum:
            most = quantum
        self.grant = None
        try:
            straight, length, ask, grant = blocks[self.pc]
            while count + length < most:
                for operation in straight:
                    operation(self)
                count += length
                asked = ask(self)
                if asked is not None:
                    self.grant = grant
                    break
                count += 1
                path.append(self.pc)
                straight, length, ask, grant = blocks[self.pc]
            else:
                # The quantum or the budget ends among these, or right after them.
                for operation in straight[:most - count]:
                    operation(self)
                count, asked = most, ("go", ()) if most == quantum else ("trap", (BUDGET,))
        except TaskTrap as trapped:
            asked = "trap", (trapped.cause,)
        asks, self.wish = asked
        self.used += count
        self.path, self.stop, self.is_waiting = (*path, self.pc), (count, self.pc, asks), True

    def go_on(self, found: int) -> None:
        """Goes on behind the leg, as what it asks for is granted; a load finds this number."""
        self.is_waiting = False
        if self.grant is not None:
            self.grant(self, found)
            self.used += 1

    @property
    def leg(self) -> dict[str, Any]:
        """The fields of a line that describe the last leg."""
        leg, pc, asks = self.stop
        wish = self.wish
        if asks == "enqueue":
            wish = *wish[:3], list(wish[3:6]), wish[6]
        return {"leg": leg, "pc": pc, "asks": asks, **dict(zip(WISHES[asks], wish))}

    @property
    def passed(self) -> frozenset[int]:
        """Where the last leg came by."""
        *whole, last, stop = self.path
        ways = (range(start, start + 4 * self.blocks[start][1] + 4, 4) for start in whole)
        return frozenset(itertools.chain(range(last, stop + 4, 4), *ways))

    def make_child(self, *_child: Any) -> None:
        """The lines have the child."""

    def request(self) -> Asked:
        """What a call asks for that doesn't trap."""
        number, registers = self.registers[17], self.registers
        if number == 0:
            return "end", ()
        if number == 4:
            return "ordered" if registers[10] else "unordered", ()
        if number == 5:
            return "emit", (registers[10] & 0xFF,)
        own = self.task.domain
        domain = own if number == 1 else self.inner if number == 2 else own.outer
        assert domain is not None, "else the call traps"
        timestamp = registers[11] if domain.is_ordered else 0
        return "enqueue", (CHILDREN[number], registers[10], timestamp, *registers[12:16])


class Legs:
    """The cores of all dispatched tasks of a run, as far as its lines were read."""

    def __init__(self, image: Image, head: dict[str, Any]) -> None:
        self.image, self.scratch = image, Scratch(image)
        self.quantum, self.budget = head["quantum"], head["budget"]
        self.cores: dict[Task, Core] = {}
        own = {"root": "ordered" if image.is_ordered else "unordered", "text": len(image.text) // 4,
               "data": image.size, "window": [image.window_offset, image.window_words], "tasks": len(image.tasks)}
        for name, value in own.items():
            if head[name] != value:
                raise WrongLine(f"`{name}` is {head[name]}, and of the image it is {value}")

    def note(self, told: ToldLine) -> None:
        """Takes a line, once the machine has done what it describes."""
        for taken in told.taken:
            self.cores.pop(taken.task, None)
        if told.committed is not None:
            self.end(told.committed)
        elif "leg" in told.line and told.task is not None:
            self.need_leg(told.task, told.line)
        elif told.line.get("do") == "place":
            self.need_initial(told.line)

    def end(self, task: Task) -> None:
        """A task has committed, and needs no core any more."""
        self.cores.pop(task, None)

    def need_initial(self, line: dict[str, Any]) -> None:
        """Compares a task that is placed with the image's own."""
        place = line["name"][1]
        if place >= len(self.image.tasks):
            raise WrongLine(f"the image has no task {place}")
        task = self.image.tasks[place]
        timestamp = task.timestamp if self.image.is_ordered else 0
        if [line["entry"], line["ts"], line["args"]] != [task.entry, timestamp, list(task.arguments)]:
            raise WrongLine(f"the image's task {place} is another one")

    def next_leg(self, task: Task) -> Core:
        """The core of a task, behind its next leg. That is run once, however often what it asks for is refused."""
        core = self.cores.get(task)
        if core is None:
            core = self.cores[task] = Core(self.scratch, task)
        if not core.is_waiting:
            core.run(self.quantum, self.budget)
        return core

    def need_leg(self, task: Task, line: dict[str, Any]) -> None:
        """Compares a leg with the one that the task makes by the image's text."""
        core = self.next_leg(task)
        wanted = core.leg
        # What is asked for says which fields a line has, so it has no others where it has these.
        if not wanted.items() <= line.items():
            name = next(it for it in FIELDS if line.get(it) != wanted.get(it))
            raise WrongLine(f"`{name}` is {line.get(name, 'missing')}, and by the image's text it is "
                            f"{wanted.get(name, 'missing')}")
        if line["reply"] == "ok":
            core.go_on(line.get("old", 0))
