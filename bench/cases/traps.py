"""Pieces of a task that trap, by cause: docs/guest/TASKS.md has the causes."""
from __future__ import annotations

from yotarimu.images.image import DATA, TEXT

from assembly import (A0, A1, A7, BNE, EBREAK, ECALL, LH, LHU, LW, S3, S4, S6, SB, SH, SP, SW, T0, T1, ZERO, Words,
                      addi, branch, jal, jalr, load, lui, number, store)
from cases.bodies import END, Fragment, enqueue
from cases.chance import Chance
from cases.shape import Shape


def fetch(chance: Chance, shape: Shape) -> Words:
    """A jump out of the text, or a child that enters where no text is."""
    if chance.is_one_of(2):
        return [lui(T0, chance.pick((0, DATA >> 12, 0x7FFFF))), jalr(ZERO, T0, 0)]
    # The entry is changed right before the call's number is set.
    words = enqueue(chance, shape, 1)
    return [*words[:-2], *number(A0, chance.pick((TEXT + 2, 0, TEXT - 4, 0xFFFFFFFC))), *words[-2:]]


def illegal(chance: Chance, _shape: Shape) -> Words:
    return [chance.pick((0, 0xFFFFFFFF, 0x02A50533, 0x00001073, 0x30200073, 0x00200073, 0x00003003, 0x4501))]


def target(chance: Chance, _shape: Shape) -> Words:
    return chance.pick(([jal(ZERO, 6)], [branch(0, ZERO, ZERO, 10)], [lui(T0, TEXT >> 12), jalr(T0, T0, 2)]))


def load_multiple(chance: Chance, _shape: Shape) -> Words:
    return [load(chance.pick((LW, LH, LHU)), T0, S4, chance.pick((1, 3)))]


def load_range(chance: Chance, shape: Shape) -> Words:
    beyond = (shape.size + 3) & -4
    return chance.pick(([*number(T1, DATA + beyond), load(LW, T0, T1, 0)], [load(LW, T0, ZERO, 0)],
                        [load(LW, T0, SP, 0)], [load(LW, T0, SP, -1_028)], [load(LW, T0, S4, -4)]))


def store_multiple(chance: Chance, _shape: Shape) -> Words:
    return [chance.pick((store(SW, S4, T0, 2), store(SH, S4, T0, 1), store(SW, S4, T0, 1)))]


def store_range(chance: Chance, shape: Shape) -> Words:
    beyond = shape.size
    return chance.pick(([*number(T1, DATA + beyond), store(SB, T1, T0, 0)],
                        [lui(T1, TEXT >> 12), store(SW, T1, T0, 0)],
                        [store(SW, SP, T0, 0)], [store(SW, SP, T0, -1_028)], [store(SB, ZERO, T0, 0)]))


def ebreak(_chance: Chance, _shape: Shape) -> Words:
    return [EBREAK]


def bad_call(chance: Chance, _shape: Shape) -> Words:
    return chance.pick(([addi(A7, ZERO, 6), ECALL], [addi(A7, ZERO, -1), ECALL],
                        [addi(A0, ZERO, 2), addi(A7, ZERO, 4), ECALL]))


def early(chance: Chance, shape: Shape) -> Words:
    """A child below the own timestamp, in an ordered domain."""
    words = enqueue(chance, shape, 1, fuel=0)
    return [*words[:-2], addi(A1, S3, -1), *words[-2:]]


def no_subdomain(chance: Chance, shape: Shape) -> Words:
    return enqueue(chance, shape, 2, fuel=0)


def second_subdomain(chance: Chance, _shape: Shape) -> Words:
    return 2 * [addi(A0, ZERO, chance.below(2)), addi(A7, ZERO, 4), ECALL]


def no_superdomain(chance: Chance, shape: Shape) -> Words:
    return enqueue(chance, shape, 3, fuel=0)


def too_deep(chance: Chance, shape: Shape) -> Words:
    """A subdomain in a subdomain, and so on: the task enters itself, with enough fuel for that."""
    made = [addi(A0, ZERO, chance.below(2)), addi(A7, ZERO, 4), ECALL]
    return [*made, *enqueue(chance, shape, 2, part=1, fuel=1), *END]


def too_many_children(chance: Chance, shape: Shape) -> Words:
    body = [*enqueue(chance, shape, 1, fuel=0), addi(S6, S6, -1)]
    return [addi(S6, ZERO, shape.limits.children + 1), *body, branch(BNE, S6, ZERO, -4 * len(body))]


def too_many_bytes(chance: Chance, _shape: Shape) -> Words:
    count = chance.pick((257, 300))
    body = [addi(A0, S6, 0), addi(A7, ZERO, 5), ECALL, addi(S6, S6, -1)]
    return [addi(S6, ZERO, count), *body, branch(BNE, S6, ZERO, -4 * len(body))]


def endless(chance: Chance, _shape: Shape) -> Words:
    return chance.pick(([jal(ZERO, 0)], [addi(T0, T0, 1), jal(ZERO, -4)], [store(SW, S4, T0, 0), jal(ZERO, -4)],
                        [addi(T0, T0, 1), load(LW, T1, S4, 0), jal(ZERO, -8)]))


PIECES: dict[int, Fragment] = dict(enumerate((
    fetch, illegal, target, load_multiple, load_range, store_multiple, store_range, ebreak, bad_call, early,
    no_subdomain, second_subdomain, no_superdomain, too_deep, too_many_children, too_many_bytes, endless), 1))
