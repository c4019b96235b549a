"""Where a task may enter: a function that returns is none, since nobody calls a task."""
from __future__ import annotations

from yotarimu.images.elf import Label
from yotarimu.images.image import TEXT
from yotarimu.images.serial_machine import (
    BRANCH, CALL, EBREAK, ECALL, IMMEDIATE, JAL, JALR, STORE, branch_offset, jump_offset)
from yotarimu.images.source import Assembly

RETURN_ADDRESS = 1
# `li a7, 0`, and how far above a call the number of the call is looked for.
END_NUMBER, MOST_ABOVE = 0x893, 16
# Instructions that are followed at most; a longer way is left open.
MOST_FOLLOWED = 100_000


def refusal_of(assembled: Assembly, label: Label) -> str:
    """Why no task enters at a label of a function, and what to do; empty where one may."""
    found = assembled.instructions.get(label.address)
    if not label.is_function:
        return ""
    if found is not None and found.source.endswith((".c", ".cpp")):
        if assembled.is_entry_of_c(label.address):
            return ""
        return f"`{label.name}` is a function and no task; TASK({label.name}, ..) makes one"
    if not returns(assembled, label):
        return ""
    stub = f"{label.name}_task"
    return (f"`{label.name}` is a function that returns, and nobody calls a task; write the stub `{stub}: "
            f"jal ra, {label.name}; li a7, 0; ecall` in a source in assembly, and name `{stub}` here")


def returns(assembled: Assembly, label: Label) -> bool:
    """Whether a function can reach a `ret` of its own, before a call that ends the task."""
    ends = {it.address: it.address + it.size for it in assembled.labels if it.is_function and it.size}
    todo, seen = [(label.address, ends.get(label.address, TEXT + assembled.code_size))], set[int]()
    while todo and len(seen) < MOST_FOLLOWED:
        at, end = todo.pop()
        if at in seen or not TEXT <= at < end:
            continue
        seen.add(at)
        word = word_at(assembled, at)
        opcode, written, first = word & 0x7F, word >> 7 & 31, word >> 15 & 31
        if opcode == JALR and written == 0:
            if first == RETURN_ADDRESS:
                return True
        elif opcode == JAL and written == 0:
            target = at + jump_offset(word)
            todo.append((target, ends.get(target, end)))
        elif word != EBREAK and not (word == ECALL and is_end(assembled, at)):
            todo.append((at + 4, end))
            if opcode == BRANCH:
                todo.append((at + branch_offset(word), end))
    return False


def is_end(assembled: Assembly, at: int) -> bool:
    """Whether the call at an address ends the task, by what the instructions right above set a7 to."""
    for above in range(at - 4, max(TEXT, at - 4 * MOST_ABOVE) - 4, -4):
        word = word_at(assembled, above)
        opcode = word & 0x7F
        if opcode in (JAL, JALR, BRANCH) or word == ECALL:
            return False
        if opcode != STORE and word >> 7 & 31 == CALL:
            return opcode == IMMEDIATE and word == END_NUMBER
    return False


def word_at(assembled: Assembly, at: int) -> int:
    """The instruction at an address."""
    return int.from_bytes(assembled.text[at - TEXT:at - TEXT + 4], "little")
