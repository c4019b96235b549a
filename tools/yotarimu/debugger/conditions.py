"""Conditions of breakpoints, as gdb sends them: its agent expressions, a machine with a stack of 64-bit numbers.

A condition that is evaluated here and doesn't hold costs no stop. The GDB manual defines the bytes in the chapter "The
GDB Agent Expression Mechanism".
"""
from __future__ import annotations

from typing import Callable, Protocol

from yotarimu.images.serial_machine import signed_number

BITS = 64
WORD = (1 << BITS) - 1
ADDRESS = 0xFFFFFFFF
# Conditions that jump backwards could go on for ever.
MOST_STEPS = 10_000


class Unknown(Exception):
    """It asks for what isn't known here, or has a byte that means nothing: the breakpoint stops, and gdb decides."""


class Values(Protocol):
    """What a condition is about."""

    def register(self, number: int) -> int:
        """The value of a register by gdb's number."""

    def memory(self, address: int, count: int) -> bytes:
        """So many bytes from an address on, or fewer where they can't all be read."""


def quotient_of(one: int, two: int) -> int:
    """A quotient, rounded towards zero."""
    if two == 0:
        raise Unknown
    quotient = abs(one) // abs(two)
    return quotient if (one < 0) == (two < 0) else -quotient


def rest(one: int, two: int) -> int:
    """What is left of a quotient that is rounded towards zero."""
    return one - two * quotient_of(one, two)


def signed_too(operation: Callable[[int, int], int]) -> Callable[[int, int], int]:
    """An operation on numbers with a sign."""
    return lambda one, two: operation(signed_number(one, BITS), signed_number(two, BITS))


# Operations on the two topmost numbers, and on the topmost one.
OF_TWO: dict[int, Callable[[int, int], int]] = {
    0x02: lambda one, two: one + two,
    0x03: lambda one, two: one - two,
    0x04: lambda one, two: one * two,
    0x05: signed_too(quotient_of),
    0x06: quotient_of,
    0x07: signed_too(rest),
    0x08: rest,
    0x09: lambda one, two: one << min(two, BITS),
    0x0A: lambda one, two: signed_number(one, BITS) >> min(two, BITS),
    0x0B: lambda one, two: one >> min(two, BITS),
    0x0F: lambda one, two: one & two,
    0x10: lambda one, two: one | two,
    0x11: lambda one, two: one ^ two,
    0x13: lambda one, two: one == two,
    0x14: signed_too(lambda one, two: one < two),
    0x15: lambda one, two: one < two,
}
OF_ONE: dict[int, Callable[[int], int]] = {0x0E: lambda one: not one, 0x12: lambda one: ~one}
# How many bytes a constant has, and how many a load reads.
CONSTANTS = {0x22: 1, 0x23: 2, 0x24: 4, 0x25: 8}
LOADS = {0x17: 1, 0x18: 2, 0x19: 4, 0x1A: 8}
EXTEND, ZERO_EXTEND, IF_GOTO, GOTO, REGISTER, END, COPY, DROP, SWAP = (
    0x16, 0x2A, 0x20, 0x21, 0x26, 0x27, 0x28, 0x29, 0x2B)


def holds(code: bytes, values: Values) -> bool:
    """Whether a condition holds: its last number isn't 0."""
    machine = Machine(code, values)
    try:
        for _ in range(MOST_STEPS):
            byte = machine.operand(1)
            if byte == END:
                return machine.stack.pop() != 0
            machine.step(byte)
    except IndexError:
        raise Unknown from None
    raise Unknown


class Machine:
    """An expression that is evaluated."""

    def __init__(self, code: bytes, values: Values) -> None:
        self.code, self.values, self.at = code, values, 0
        self.stack: list[int] = []

    def operand(self, count: int) -> int:
        """The number that stands next in the code."""
        data = self.code[self.at:self.at + count]
        if len(data) < count:
            raise Unknown
        self.at += count
        return int.from_bytes(data, "big")

    def push(self, number: int) -> None:
        """Puts a number, cut to 64 bits, on the stack."""
        self.stack.append(int(number) & WORD)

    def step(self, byte: int) -> None:
        """Carries out one byte of an expression, with the operand after it."""
        stack = self.stack
        if byte in OF_TWO:
            two = stack.pop()
            self.push(OF_TWO[byte](stack.pop(), two))
        elif byte in OF_ONE:
            self.push(OF_ONE[byte](stack.pop()))
        elif byte in CONSTANTS:
            self.push(self.operand(CONSTANTS[byte]))
        elif byte in LOADS:
            self.load(LOADS[byte])
        elif byte == REGISTER:
            self.push(self.values.register(self.operand(2)))
        elif byte in (EXTEND, ZERO_EXTEND):
            bits, number = self.operand(1), stack.pop()
            if not 1 <= bits <= BITS:
                raise Unknown
            self.push(signed_number(number, bits) if byte == EXTEND else number & (1 << bits) - 1)
        elif byte in (IF_GOTO, GOTO):
            target = self.operand(2)
            self.at = target if byte == GOTO or stack.pop() else self.at
        elif byte == COPY:
            self.push(stack[-1])
        elif byte == DROP:
            stack.pop()
        elif byte == SWAP:
            stack[-1], stack[-2] = stack[-2], stack[-1]
        else:
            raise Unknown

    def load(self, count: int) -> None:
        """Replaces the address on the stack by the number at it; raises Unknown if it can't be read."""
        found = self.values.memory(self.stack.pop() & ADDRESS, count)
        if len(found) < count:
            raise Unknown
        self.push(int.from_bytes(found, "little"))
