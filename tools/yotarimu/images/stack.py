"""How much stack the tasks of C need, read from the linked instructions, whatever compiler or library they are of."""
from __future__ import annotations

import bisect
import dataclasses
from typing import NamedTuple, Optional

from yotarimu.common.outcome import Refusal, note
from yotarimu.images.elf import Label
from yotarimu.images.image import TEXT, Image
from yotarimu.images.serial_machine import (
    AUIPC, BRANCH, EBREAK, FENCE, IMMEDIATE, JAL, JALR, LUI, REGISTER, STORE, SYSTEM, branch_offset, jump_offset,
    signed_number)
from yotarimu.images.source import Assembly

RA, SP, FRAME = 1, 2, 8
# Opcodes whose instructions write no register.
WRITES_NOTHING = (BRANCH, STORE, FENCE, SYSTEM)
# Of a longer way the rest is counted.
MOST_PARTS = 16
# How far above its use the number of a large frame is looked for.
MOST_ABOVE = 8


class Way(NamedTuple):
    """A function with what it takes of the stack, and the way after it."""
    name: str
    taken: int
    behind: Optional[Way]


class Need(NamedTuple):
    """The bytes that a function needs with all that it calls, and the way there."""
    size: int
    way: Optional[Way]


class Function:
    """A function of the text: how far below its caller's its stack goes, which functions it calls with how much of it
    taken, and what can't be determined."""

    def __init__(self, label: Label, text: bytes) -> None:
        self.name, self.start, self.end = label.name, label.address, min(label.address + label.size, TEXT + len(text))
        self.text, self.frame = text, 0
        self.calls: list[tuple[int, int]] = []
        self.is_open = self.calls_pointers = self.has_table = False
        # The bytes that are taken at each instruction. They are the same on each way to it.
        self.taken: dict[int, int] = {}
        self.walk(self.start, 0)
        unreached = [at for at in range(self.start, self.end, 4) if at not in self.taken]
        if self.has_table and unreached:
            for at in unreached:
                self.walk(at, self.frame)
        else:
            self.calls_pointers |= self.has_table

    def word(self, at: int) -> int:
        """The instruction at an address."""
        return int.from_bytes(self.text[at - TEXT:at - TEXT + 4], "little")

    def walk(self, at: int, taken: int) -> None:
        """Follows all ways from an instruction on, with so many bytes taken there."""
        todo = [(at, taken)]
        while todo:
            at, taken = todo.pop()
            if at not in self.taken and self.start <= at < self.end:
                self.taken[at] = taken
                self.frame = max(self.frame, taken)
                todo += self.after(at, self.word(at), taken)

    def after(self, at: int, word: int, taken: int) -> list[tuple[int, int]]:
        """The instructions that may come after one, each with the bytes that are taken then."""
        opcode, rd = word & 0x7F, word >> 7 & 31
        if opcode == BRANCH:
            return [(at + 4, taken), (at + branch_offset(word), taken)]
        if opcode == JAL:
            return self.jump(at, at + jump_offset(word), rd, taken)
        if opcode == JALR:
            return self.jump(at, self.target(at, word), rd, taken)
        if word == EBREAK:
            return []
        if rd == SP and opcode not in WRITES_NOTHING:
            taken = self.after_change(at, word, taken)
        return [(at + 4, taken)]

    def jump(self, at: int, target: Optional[int], rd: int, taken: int) -> list[tuple[int, int]]:
        """Where a jump goes on within the function; notes a call, one by a pointer, or a table of jumps."""
        if rd == 0 and target is not None and self.start <= target < self.end:
            return [(target, taken)]
        if target is not None:
            self.calls.append((taken, target))
        elif rd:
            self.calls_pointers = True
        elif self.word(at) >> 15 & 31 not in (RA, 5):
            self.has_table = True
        return [(at + 4, taken)] if rd else []

    def target(self, at: int, word: int) -> Optional[int]:
        """Where `jalr` leads after `auipc`; None where that isn't known."""
        above, register = self.word(at - 4), word >> 15 & 31
        if at == self.start or above & 0x7F != AUIPC or above >> 7 & 31 != register:
            return None
        return at - 4 + signed_number(above >> 12 << 12, 32) + signed_number(word >> 20, 12) & 0xFFFFFFFF

    def after_change(self, at: int, word: int, taken: int) -> int:
        """The bytes that are taken once an instruction has changed the stack pointer."""
        opcode, rs1, rs2, immediate = word & 0x7F, word >> 15 & 31, word >> 20 & 31, signed_number(word >> 20, 12)
        if opcode == IMMEDIATE and word >> 12 & 7 == 0 and rs1 == SP:
            return taken - immediate
        # The frame pointer of both compilers is the stack pointer of the caller.
        if opcode == IMMEDIATE and word >> 12 & 7 == 0 and rs1 == FRAME:
            return -immediate
        if opcode == REGISTER and word >> 12 & 7 == 0 and rs1 == SP:
            number = self.number(at, rs2)
            if number is not None:
                return taken + (number if word >> 30 & 1 else -number)
        self.is_open = True
        return taken

    def number(self, at: int, register: int) -> Optional[int]:
        """What `lui` and `addi` right above make of a register; None where it is something else."""
        number = 0
        for above in range(at - 4, max(self.start, at - 4 * MOST_ABOVE) - 4, -4):
            word = self.word(above)
            opcode, rd, rs1 = word & 0x7F, word >> 7 & 31, word >> 15 & 31
            if opcode in (JAL, JALR, BRANCH):
                return None
            if rd != register or opcode in WRITES_NOTHING:
                continue
            if opcode == LUI:
                return signed_number(number + (word & 0xFFFFF000), 32)
            if opcode != IMMEDIATE or word >> 12 & 7 != 0 or rs1 not in (0, register):
                return None
            number += signed_number(word >> 20, 12)
            if rs1 == 0:
                return number
        return None


class Stacks:
    """The stacks of all functions of a linked program, in an image whose tasks have so many bytes each."""

    def __init__(self, assembled: Assembly, most: int) -> None:
        self.assembled, self.most = assembled, most
        labels = sorted((label for label in assembled.labels
                         if label.is_function and label.size and label.section == ".text"),
                        key=lambda label: label.address)
        self.functions = [Function(label, assembled.text) for label in labels]
        self.starts = [function.start for function in self.functions]
        self.needs: dict[Function, Need] = {}
        self.told: set[str] = set()

    def function_at(self, address: int) -> Optional[Function]:
        """The function that an address is in; None where it is in none."""
        place = bisect.bisect_right(self.starts, address) - 1
        found = self.functions[place] if place >= 0 else None
        return found if found and address < found.end else None

    def tell(self, function: Function, sentence: str) -> None:
        """Notes a sentence on a function and the stack, once."""
        place = self.assembled.place(function.start)
        has = f"a task's stack has {self.most:,} bytes" if self.most else "a task has no stack"
        sentence = f"`{function.name}` {sentence}; {has}."
        sentence = f"{place}: {sentence}" if place else sentence
        if sentence not in self.told:
            self.told.add(sentence)
            note(sentence)

    def need(self, function: Function) -> Need:
        """What a function needs with all that it calls. Calls may be far too deep for the interpreter's own stack."""
        calls = [] if function in self.needs else [self.begin(function)]
        while calls:
            top = calls[-1]
            if top.place == len(top.function.calls):
                self.needs[top.function] = calls.pop().most
                continue
            callee = self.function_at(top.function.calls[top.place][1])
            if callee and callee not in self.needs and all(call.function is not callee for call in calls):
                calls.append(self.begin(callee))
                continue
            if callee and callee not in self.needs:
                self.tell_ring(calls[[call.function for call in calls].index(callee):])
            if callee:
                top.add(self.needs.get(callee, Need(0, None)))
            top.place += 1
        return self.needs[function]

    def begin(self, function: Function) -> Call:
        """A function whose calls are to be looked at, once what can't be determined of it alone was noted."""
        if function.is_open:
            self.tell(function, "takes a part of the stack whose size is known only when it runs")
        if function.calls_pointers:
            self.tell(function, "calls by a pointer, and what that takes of the stack isn't counted")
        return Call(function, Need(function.frame, Way(function.name, function.frame, None)))

    def tell_ring(self, ring: list[Call]) -> None:
        """Notes that functions call each other in a ring, and how much stack they take each time."""
        others = ", ".join(f"`{call.function.name}`" for call in ring[1:])
        self.tell(ring[0].function, f"calls itself{others and ' by ' + others}, which a loop or a child "
                                    "for each would save, and takes "
                                    f"{sum(call.bytes_taken() for call in ring):,} bytes each time")


@dataclasses.dataclass
class Call:
    """A function on the way to others: the most that it needs so far with the way there, and the call it is at."""
    function: Function
    most: Need
    place: int = 0

    def bytes_taken(self) -> int:
        """How many bytes of stack are taken where the call is made."""
        return self.function.calls[self.place][0]

    def add(self, callee: Need) -> None:
        """What the call it is at needs."""
        size = self.bytes_taken() + callee.size
        if size > self.most.size:
            self.most = Need(size, Way(self.function.name, self.bytes_taken(), callee.way))


def parts_text(way: Optional[Way]) -> str:
    """The functions on a way that take a part of the stack."""
    parts = []
    while way:
        if way.taken:
            parts.append(f"{way.name} {way.taken:,}")
        way = way.behind
    more = [f"and {len(parts) - MOST_PARTS:,} more"] if len(parts) > MOST_PARTS else []
    return ", ".join(parts[:MOST_PARTS] + more)


def check_stack(assembled: Assembly, image: Image) -> None:
    """Refuses a task of C that surely needs more stack than it has, and reports what can't be counted."""
    stacks = Stacks(assembled, image.limits.stack)
    for task in assembled.tasks_of_c():
        entry = stacks.function_at(task.address)
        size, way = stacks.need(entry) if entry else Need(0, None)
        if entry and size > image.limits.stack:
            body = assembled.place(entry.calls[0][1])
            has = f"has {image.limits.stack:,}" if image.limits.stack else f"has none in version {image.version}"
            raise Refusal(f"{body + ': ' if body else ''}the task `{task.name}` needs {size:,} bytes of stack, "
                          f"and {has}: {parts_text(way)}.")
