"""A WebAssembly module's tables, made those of 32 bits: engines of the last years know no tables of 64 bits.

LLVM makes the table of functions as wide as memory. A place in it fits 32 bits, so each indirect call wraps its place
first, and the tables and what fills them say 32 bits.
"""
from __future__ import annotations

from typing import Tuple

from yotarimu.common.outcome import Refusal

HEADER = 8
TABLES, ELEMENTS, CODE = 4, 9, 10
WIDE, HAS_MOST = 4, 1
MOST = 2 ** 32 - 1
I32_CONST, I64_CONST, END, WRAP = 0x41, 0x42, 0x0B, 0xA7
CALLS_INDIRECT = (0x11, 0x13)
BLOCKS = (0x02, 0x03, 0x04)
BRANCH_TABLE, SELECT_TYPED, PREFIX = 0x0E, 0x1C, 0xFC
# How many numbers follow each instruction that has some; others have none.
WITH_ONE = (*BLOCKS, 0x0C, 0x0D, 0x10, 0x12, *range(0x20, 0x27), 0xD2, 0x3F, 0x40, 0x41, 0x42, 0xD0)
NUMBERS = {**dict.fromkeys(WITH_ONE, 1), **dict.fromkeys((*CALLS_INDIRECT, *range(0x28, 0x3F)), 2)}
BYTES = {0x43: 4, 0x44: 8}
# Behind the prefix: memory.init, memory.copy, table.init and table.copy have two numbers, conversions none.
PREFIXED = {**dict.fromkeys(range(8), 0), 8: 2, 9: 1, 10: 2, 11: 1, 12: 2, 13: 1, 14: 2, 15: 1, 16: 1, 17: 1}
PLAIN = frozenset((0x00, 0x01, 0x05, 0x0B, 0x0F, 0x1A, 0x1B, *range(0x45, 0xC5)))


def number_at(data: bytes, place: int) -> Tuple[int, int]:
    """An unsigned number, and where it ends."""
    value = shift = 0
    while True:
        byte = data[place]
        place += 1
        value |= (byte & 127) << shift
        shift += 7
        if byte < 128:
            return value, place


def behind_number(data: bytes, place: int) -> int:
    """The place behind a number."""
    while data[place] & 128:
        place += 1
    return place + 1


def number(value: int) -> bytes:
    """A number as the module has it, in LEB128."""
    made = bytearray()
    while value > 127:
        made.append(value & 127 | 128)
        value >>= 7
    return bytes((*made, value))


def narrow(module: bytes) -> bytes:
    """The module with tables of 32 bits."""
    made, place = bytearray(module[:HEADER]), HEADER
    changes = {TABLES: tables, ELEMENTS: elements, CODE: code}
    while place < len(module):
        kind = module[place]
        size, start = number_at(module, place + 1)
        place = start + size
        section = module[start:place]
        section = changes[kind](section) if kind in changes else section
        made += bytes([kind]) + number(len(section)) + section
    return bytes(made)


def tables(section: bytes) -> bytes:
    """The section of the tables, with those of 32 bits."""
    count, place = number_at(section, 0)
    made = bytearray(number(count))
    for _ in range(count):
        kind, flags = section[place], section[place + 1]
        least, place = number_at(section, place + 2)
        made += bytes([kind, flags & ~WIDE]) + number(least)
        if flags & HAS_MOST:
            most, place = number_at(section, place)
            made += number(min(most, MOST))
    return bytes(made)


def elements(section: bytes) -> bytes:
    """The section of what fills the tables, with places of 32 bits."""
    count, place = number_at(section, 0)
    made = bytearray(number(count))
    for _ in range(count):
        if section[place] != 0 or section[place + 1] != I64_CONST:
            raise Refusal("the linker made a table in a way that isn't known.")
        end = behind_number(section, place + 2)
        if section[end] != END:
            raise Refusal("the linker made a table in a way that isn't known.")
        functions, begin = number_at(section, end + 1)
        after = begin
        for _ in range(functions):
            after = behind_number(section, after)
        made += bytes([0, I32_CONST]) + section[place + 2:after]
        place = after
    return bytes(made)


def code(section: bytes) -> bytes:
    """The section of the functions, where each indirect call wraps its place."""
    count, place = number_at(section, 0)
    made = bytearray(number(count))
    for _ in range(count):
        size, start = number_at(section, place)
        place = start + size
        body = function_body(section, start, place)
        made += number(len(body)) + body
    return bytes(made)


def function_body(section: bytes, start: int, end: int) -> bytes:
    """The body of a function, where each indirect call wraps its place."""
    groups, place = number_at(section, start)
    for _ in range(groups):
        place = behind_number(section, place) + 1
    made, copied = bytearray(), start
    while place < end:
        if section[place] in CALLS_INDIRECT:
            made += section[copied:place] + bytes([WRAP])
            copied = place
        place = behind_instruction(section, place)
    return bytes(made + section[copied:end])


def behind_instruction(section: bytes, place: int) -> int:
    """The place behind an instruction; refuses one that isn't known."""
    opcode = section[place]
    place += 1
    if opcode in BYTES:
        return place + BYTES[opcode]
    numbers = NUMBERS.get(opcode, 0)
    if opcode == BRANCH_TABLE:
        count, place = number_at(section, place)
        numbers = count + 1
    elif opcode == SELECT_TYPED:
        count, place = number_at(section, place)
        return place + count
    elif opcode == PREFIX:
        second, place = number_at(section, place)
        if second not in PREFIXED:
            raise Refusal(f"the compiler made the instruction {PREFIX:#x} {second}, which isn't known.")
        numbers = PREFIXED[second]
    elif opcode not in NUMBERS and opcode not in PLAIN:
        raise Refusal(f"the compiler made the instruction {opcode:#x}, which isn't known.")
    for _ in range(numbers):
        place = behind_number(section, place)
    return place
