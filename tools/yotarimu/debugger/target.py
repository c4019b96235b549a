"""The machine as gdb sees it: its registers, and traps as signals."""
from __future__ import annotations

import enum

from yotarimu.images.serial_machine import (
    BREAK, BUDGET, FETCH, ILLEGAL, LOAD_MULTIPLE, LOAD_RANGE, REGISTERS, STORE_MULTIPLE, STORE_RANGE, TARGET)

PC = len(REGISTERS)
WORD_BYTES = 4
# Sent with each stop, since gdb asks for them anyway.
TOLD_AT_STOPS = (2, 8, PC)


class Signal(enum.IntEnum):
    """Signals by gdb's own numbers."""
    NONE = 0
    INTERRUPT = 2
    ILLEGAL = 4
    TRAP = 5
    ARITHMETIC = 8
    BUS = 10
    SEGMENT = 11
    BAD_CALL = 12
    CPU_TIME = 24
    # A task is about to be aborted.
    TAKEN_BACK = 30


OF_CAUSES = {
    FETCH: Signal.SEGMENT, ILLEGAL: Signal.ILLEGAL, TARGET: Signal.BUS, LOAD_MULTIPLE: Signal.BUS,
    LOAD_RANGE: Signal.SEGMENT, STORE_MULTIPLE: Signal.BUS, STORE_RANGE: Signal.SEGMENT, BREAK: Signal.ARITHMETIC,
    BUDGET: Signal.CPU_TIME,
}


def signal_of(cause: int) -> Signal:
    """The signal for a trap; the causes that aren't listed are those of calls."""
    return OF_CAUSES.get(cause, Signal.BAD_CALL)


def description() -> str:
    """The machine in gdb's XML. Without the word `none` a gdb for many targets takes it for Linux, and then steps by
    breakpoints of its own, over the end of a task too."""
    rows = [f'<reg name="{name}" bitsize="32" type="{"data_ptr" if name == "sp" else "int"}" regnum="{number}"/>'
            for number, name in enumerate(REGISTERS)]
    return ('<?xml version="1.0"?><!DOCTYPE target SYSTEM "gdb-target.dtd"><target version="1.0">'
            '<architecture>riscv:rv32</architecture><osabi>none</osabi><feature name="org.gnu.gdb.riscv.cpu">'
            f'{"".join(rows)}<reg name="pc" bitsize="32" type="code_ptr" regnum="{PC}"/></feature></target>')
