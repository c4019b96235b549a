"""Generated images, whole and malformed."""
from __future__ import annotations

import dataclasses
import struct

from yotarimu.images.image import (
    DATA_BYTES, INITIAL_TASKS, TEXT, TEXT_WORDS, WINDOW_WORDS, Image, InitialTask, image_bytes)

from assembly import (
    A0, A7, ECALL, LW, S2, S3, S4, SW, ZERO, Address, Words, addi, branch, lay_out, load, lui, store)
from cases import bodies, traps
from cases.chance import Chance
from cases.shape import Shape

# Where the numbers of a header stand, and what is above the limit of each.
FIELDS = {8: TEXT_WORDS + 1, 12: DATA_BYTES + 1, 16: DATA_BYTES + 1, 24: WINDOW_WORDS + 1, 28: INITIAL_TASKS + 1}
FAULTS = tuple(range(1, 8))
TOO_DEEP = 14


def text_of(chance: Chance, shape: Shape) -> tuple[list[int], list[int]]:
    """The words of the text, and the addresses at which tasks may enter: first those of any domain."""
    parts: list[Words] = [[Address(1 + chance.below(shape.outer)) for _ in range(bodies.TABLE_WORDS)]]
    parts += [bodies.body(chance, shape, place >= shape.outer) for place in range(shape.outer + shape.inner)]
    if shape.trap:
        parts[1] = with_trap(chance, shape, shape.trap, parts[1])
    parts.append(bodies.functions(chance, shape))
    words, starts = lay_out(parts)
    return words, starts[1:-1]


def with_trap(chance: Chance, shape: Shape, cause: int, words: Words) -> Words:
    """The task with a piece that traps, at its end or at its front. Now and then only some tasks reach it."""
    piece = traps.PIECES[cause](chance, shape)
    front = len(bodies.prologue(chance))
    if cause != TOO_DEEP and chance.is_one_of(3):
        over = branch(chance.pick(bodies.BRANCHES), S3, chance.pick((S2, ZERO)), 4 * len(piece) + 4)
        piece = [over, *piece]
    place = front if cause == TOO_DEEP or chance.is_one_of(3) else len(words) - len(bodies.END)
    return [*words[:place], *piece, *words[place:]]


def image_of(chance: Chance, shape: Shape) -> Image:
    words, entries = text_of(chance, shape)
    outer = entries[:shape.outer]
    tasks = [InitialTask(chance.pick(outer) if place else outer[0], chance.between(0, shape.spread) + chance.below(2),
                         (chance.below(shape.fuel + 1) if chance.is_one_of(4) else shape.fuel, 0, chance.word()))
             for place in range(shape.tasks)]
    if shape.trap == TOO_DEEP:
        tasks[0] = dataclasses.replace(tasks[0], arguments=(1, 0, 0))
    given = chance.below(shape.size + 1) if shape.size <= 256 else 64
    initial = bytes(chance.below(256) if chance.is_one_of(2) else 0 for _ in range(given))
    return Image(shape.is_ordered, struct.pack(f"<{len(words)}I", *words), initial, shape.size,
                 *window_of(chance, shape.size), tasks, shape.version)


def window_of(chance: Chance, size: int) -> tuple[int, int]:
    """The offset of the window, and how many words it has."""
    offset = 4 * chance.below(min(size, 64) // 4)
    return offset, chance.between(0, min(64, (size - offset) // 4))


def spoil(chance: Chance, image: Image, fault: int) -> bytes:
    """The bytes of an image with a fault of this number: docs/guest/FORMATS.md."""
    data = bytearray(image_bytes(image))
    if fault == 1:
        return bytes(data[:chance.below(32) if chance.is_one_of(2) else chance.between(32, len(data) - 1)])
    if fault == 2:
        data[chance.below(4)] ^= 1 << chance.below(8)
    elif fault in (3, 4):
        struct.pack_into("<H", data, 4 if fault == 3 else 6, chance.pick((3, 4, 255, 256, 65_535)))
    elif fault == 5:
        field = chance.pick(tuple(FIELDS))
        struct.pack_into("<I", data, field, FIELDS[field] + chance.pick((0, 0, 1, 1_000_000)))
    elif fault == 6:
        wrong = chance.pick((1, 2, 3, (image.size & -4) + 4, DATA_BYTES, 0xFFFFFFFC))
        struct.pack_into("<I", data, 20, wrong)
    else:
        struct.pack_into("<I", data, 28, 0)
    return bytes(data)


def scramble(chance: Chance, data: bytes) -> bytes:
    """The bytes with a few that are changed, wherever they stand."""
    changed = bytearray(data)
    for _ in range(chance.between(1, 4)):
        changed[chance.below(len(changed))] = chance.below(256)
    return bytes(changed)


def two_tasks() -> Image:
    """A task that only ends, and later ones that add to a word: the second is to be aborted again and again."""
    words = [addi(A7, ZERO, 0), ECALL, lui(S4, 0x10000), load(LW, A0, S4, 0), addi(A0, A0, 1),
             store(SW, S4, A0, 0), addi(A7, ZERO, 0), ECALL]
    tasks = [InitialTask(TEXT, 0, (0, 0, 0)), InitialTask(TEXT + 8, 1, (0, 0, 0)), InitialTask(TEXT + 8, 2, (0, 0, 0))]
    return Image(True, struct.pack(f"<{len(words)}I", *words), b"", 8, 0, 2, tasks)


def crowd() -> Image:
    """As many tasks as an image may have, of which the first makes two more: more than an image may have pend then."""
    call = [addi(11, ZERO, 1), lui(A0, TEXT >> 12), addi(A0, A0, 40), addi(A7, ZERO, 1), ECALL]
    words = [*call, *call[1:], addi(A7, ZERO, 0), addi(A7, ZERO, 0), ECALL]
    tasks = [InitialTask(TEXT if place == 0 else TEXT + 40, place and 1, (0, 0, 0)) for place in range(INITIAL_TASKS)]
    return Image(True, struct.pack(f"<{len(words)}I", *words), b"", 0, 0, 0, tasks)
