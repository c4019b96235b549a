"""Instructions of RV32I as words (RISC-V Unprivileged ISA 20191213, chapter 2), and texts that are laid out."""
from __future__ import annotations

import dataclasses
from collections.abc import Sequence
from typing import Protocol, Union

from yotarimu.images.image import TEXT

ZERO, RA, SP, GP, TP, T0, T1, T2, S0, S1 = range(10)
A0, A1, A2, A3, A4, A5, A6, A7, S2, S3, S4, S5, S6, S7, S8, S9, S10, S11, T3, T4, T5, T6 = range(10, 32)
ECALL, EBREAK = 0x73, 0x100073
# The third field of an instruction, by what it does.
ADD, SLL, SLT, SLTU, XOR, SR, OR, AND = range(8)
BEQ, BNE, BLT, BGE, BLTU, BGEU = 0, 1, 4, 5, 6, 7
LB, LH, LW, LBU, LHU = 0, 1, 2, 4, 5
SB, SH, SW = range(3)
# A word in which the bit 30 is set: SUB and SRA in place of ADD and SRL.
OTHER = 1 << 30


def immediate(kind: int, rd: int, one: int, value: int) -> int:
    """ADDI, SLTI, SLTIU, XORI, ORI, ANDI; of SLLI and SRLI the value is the shift."""
    return (value & 0xFFF) << 20 | one << 15 | kind << 12 | rd << 7 | 0x13


def addi(rd: int, one: int, value: int) -> int:
    return immediate(ADD, rd, one, value)


def lui(rd: int, value: int) -> int:
    return (value & 0xFFFFF) << 12 | rd << 7 | 0x37


def auipc(rd: int, value: int) -> int:
    return (value & 0xFFFFF) << 12 | rd << 7 | 0x17


def register(kind: int, rd: int, one: int, two: int) -> int:
    return two << 20 | one << 15 | kind << 12 | rd << 7 | 0x33


def branch(kind: int, one: int, two: int, offset: int) -> int:
    high = (offset >> 12 & 1) << 31 | (offset >> 5 & 0x3F) << 25
    low = (offset >> 1 & 0xF) << 8 | (offset >> 11 & 1) << 7
    return high | two << 20 | one << 15 | kind << 12 | low | 0x63


def jal(rd: int, offset: int) -> int:
    high = (offset >> 20 & 1) << 31 | (offset >> 1 & 0x3FF) << 21
    return high | (offset >> 11 & 1) << 20 | (offset >> 12 & 0xFF) << 12 | rd << 7 | 0x6F


def jalr(rd: int, one: int, value: int) -> int:
    return (value & 0xFFF) << 20 | one << 15 | rd << 7 | 0x67


def load(kind: int, rd: int, one: int, value: int) -> int:
    return (value & 0xFFF) << 20 | one << 15 | kind << 12 | rd << 7 | 0x03


def store(kind: int, one: int, two: int, value: int) -> int:
    """Stores `two` at the address `one` plus the value."""
    return (value >> 5 & 0x7F) << 25 | two << 20 | one << 15 | kind << 12 | (value & 0x1F) << 7 | 0x23


def number(rd: int, value: int) -> list[int]:
    """Loads a number, in two instructions."""
    return [lui(rd, value + 0x800 >> 12), addi(rd, rd, value)]


class Reference(Protocol):
    """A word that hangs on where it stands, and where the parts of the text begin."""

    def word(self, _address: int, starts: Sequence[int]) -> int:
        ...


Word = Union[int, Reference]
Words = Sequence[Word]


@dataclasses.dataclass(frozen=True)
class High:
    """The first instruction of two that load the address of a part of a text."""
    rd: int
    part: int

    def word(self, _address: int, starts: Sequence[int]) -> int:
        return lui(self.rd, starts[self.part] + 0x800 >> 12)


@dataclasses.dataclass(frozen=True)
class Low:
    """The second of them."""
    rd: int
    part: int

    def word(self, _address: int, starts: Sequence[int]) -> int:
        return addi(self.rd, self.rd, starts[self.part])


@dataclasses.dataclass(frozen=True)
class Call:
    """A jump to a part of a text, with the address after it in `rd`."""
    rd: int
    part: int

    def word(self, address: int, starts: Sequence[int]) -> int:
        return jal(self.rd, starts[self.part] - address)


@dataclasses.dataclass(frozen=True)
class Address:
    """The address of a part of a text, as a word."""
    part: int

    def word(self, _address: int, starts: Sequence[int]) -> int:
        return starts[self.part]


def lay_out(parts: Sequence[Words]) -> tuple[list[int], list[int]]:
    """The words of the parts, one behind the other, and the address at which each begins."""
    starts: list[int] = []
    address = TEXT
    for part in parts:
        starts.append(address)
        address += 4 * len(part)
    words = [it for part in parts for it in part]
    return [it if isinstance(it, int) else it.word(TEXT + 4 * place, starts) for place, it in enumerate(words)], starts
