"""The text of generated images: pieces of a task, by what they do. Each is a list of words that can stand anywhere.

A task keeps its first argument in s0: how often it and its children may still enqueue. In s1 stands the least
timestamp for a child of the superdomain, in s3 the own timestamp, in s4 where the data begins.
"""
from __future__ import annotations

from typing import Callable, Optional

from yotarimu.images.image import DATA, STACK, TEXT

from assembly import (A0, A1, A2, A3, A4, A5, A7, ADD, AND, BEQ, BGE, BNE, EBREAK, ECALL, GP, LBU, LW, OR, OTHER, RA,
                      S0, S1, S10, S11, S2, S3, S4, S5, S6, S7, S8, S9, SP, SR, SW, T0, T1, T2, T3, T4, T5, T6, TP, XOR,
                      ZERO, Call, High, Low, Word, Words, addi, auipc, branch, immediate, jal, jalr, load, lui, number,
                      register, store)
from cases.chance import Chance
from cases.shape import Shape

FREE = (GP, TP, S7, S8, S9, S10, S11, T0, T1, T2, T3, T4, T5, T6, A0, A1, A4)
BRANCHES = (0, 1, 4, 5, 6, 7)
LOADS = {0: 1, 1: 2, 2: 4, 4: 1, 5: 2}
OPCODES = (0x37, 0x17, 0x6F, 0x67, 0x63, 0x03, 0x23, 0x13, 0x13, 0x33, 0x33, 0x0F, 0x73)
# What makes a piece of a task.
Fragment = Callable[[Chance, Shape], Words]
# The table at the front of the text, which loads of the text are from.
TABLE_WORDS = 16


def plain(chance: Chance, _shape: Shape, count: Optional[int] = None) -> Words:
    """Computations with registers."""
    return [computation(chance) for _ in range(count or chance.between(1, 5))]


def computation(chance: Chance) -> int:
    rd = chance.pick(FREE) if not chance.is_one_of(12) else ZERO
    one, two, kind = chance.below(32), chance.below(32), chance.below(8)
    form = chance.below(8)
    if form < 3:
        return register(kind, rd, one, two) | (OTHER if kind in (ADD, SR) and chance.is_one_of(2) else 0)
    if form < 6:
        if kind in (1, 5):
            other = OTHER if kind == SR and chance.is_one_of(2) else 0
            return immediate(kind, rd, one, chance.below(32)) | other
        return immediate(kind, rd, one, chance.word())
    return (lui if form == 6 else auipc)(rd, chance.word())


def address(chance: Chance, shape: Shape, width: int) -> tuple[list[int], int, int]:
    """The instructions before an access of the data, its register, and its offset."""
    offset = chance.pick(shape.hot) if not chance.is_one_of(5) else chance.below(shape.size)
    offset = (offset + chance.below(4)) // width * width
    if offset + width > shape.size:
        offset = 0
    form = chance.below(4)
    if form == 0 and shape.size >= 8:
        # By what a register happens to hold.
        mask = min(0x7FC, (1 << (shape.size.bit_length() - 1)) - 4) & -width
        return [immediate(AND, T1, chance.pick(FREE), mask), register(ADD, T1, T1, S4)], T1, 0
    if offset < 2_048 and form != 1:
        return [], S4, offset
    shift = chance.between(-100, 100)
    return number(T1, DATA + offset - shift), T1, shift


def load_words(chance: Chance, shape: Shape) -> Words:
    kind = chance.pick(tuple(LOADS))
    before, one, offset = address(chance, shape, LOADS[kind])
    return [*before, load(kind, chance.pick(FREE), one, offset)]


def store_words(chance: Chance, shape: Shape) -> Words:
    kind = chance.below(3)
    before, one, offset = address(chance, shape, 1 << kind)
    two = chance.pick((*FREE, S3, S0, S2))
    return [*before, store(kind, one, two, offset)]


def add_words(chance: Chance, shape: Shape) -> Words:
    """A word that is loaded, changed and stored."""
    before, one, offset = address(chance, shape, 4)
    change = register(chance.pick((ADD, XOR, OR)), T2, T2, chance.pick((S3, S2, T3)))
    return [*before, load(LW, T2, one, offset), change, addi(T2, T2, chance.below(8)), store(SW, one, T2, offset)]


def text_load(chance: Chance, _shape: Shape) -> Words:
    kind = chance.pick(tuple(LOADS))
    return [lui(T1, TEXT >> 12), load(kind, chance.pick(FREE), T1, chance.below(4 * TABLE_WORDS) & -LOADS[kind])]


def stack(chance: Chance, shape: Shape) -> Words:
    """Accesses of the own stack; in version 1, where there is none, computations."""
    if not shape.limits.stack:
        return plain(chance, shape)
    if chance.is_one_of(3):
        return [addi(SP, SP, -16), store(SW, SP, chance.pick(FREE), 12), store(SW, SP, S1, 8),
                *plain(chance, shape, 2), load(LW, chance.pick(FREE), SP, 12), addi(SP, SP, 16)]
    before, one, first = ([lui(T1, STACK >> 12)], T1, 0) if chance.is_one_of(3) else ([], SP, -1_024)
    words = list(before)
    for _ in range(chance.between(1, 4)):
        kind, place = chance.pick(tuple(LOADS)), chance.below(32) if chance.is_one_of(2) else chance.below(1_024)
        place = first + (place & -LOADS[kind])
        if chance.is_one_of(2):
            words.append(store(kind & 3, one, chance.pick((*FREE[:7], S3)), place))
        else:
            words.append(load(kind, chance.pick(FREE[:7]), one, place))
    return words


def loop(chance: Chance, shape: Shape) -> Words:
    """A few rounds, and now and then many of computations alone."""
    rounds = chance.between(1, 6)
    kinds: tuple[Fragment, ...] = (plain, plain, load_words, store_words, stack)
    inside = [word for _ in range(chance.between(1, 3)) for word in chance.pick(kinds)(chance, shape)]
    if chance.is_one_of(4):
        inside, rounds = [*plain(chance, shape), *stack(chance, shape)], chance.between(20, 120)
    body = [*inside, addi(S5, S5, -1)]
    return [addi(S5, ZERO, rounds), *body, branch(BNE, S5, ZERO, -4 * len(body))]


def skip(chance: Chance, shape: Shape) -> Words:
    """A branch over some instructions."""
    kinds: tuple[Fragment, ...] = (plain, load_words, store_words, emit)
    inside = [word for _ in range(chance.between(1, 2)) for word in chance.pick(kinds)(chance, shape)]
    return [branch(chance.pick(BRANCHES), chance.below(32), chance.below(32), 4 * len(inside) + 4), *inside]


def jump(chance: Chance, _shape: Shape) -> Words:
    """A jump over words, of which some aren't instructions."""
    between = [chance.below(1 << 32) for _ in range(chance.between(1, 3))]
    if chance.is_one_of(2):
        return [jal(chance.pick((ZERO, RA, T0)), 4 * len(between) + 4), *between]
    # The lowest bit of the sum is dropped.
    return [auipc(T2, 0), jalr(RA, T2, 4 * len(between) + 8 + chance.below(2)), *between]


def function(_chance: Chance, shape: Shape) -> Words:
    return [Call(RA, 1 + shape.outer + shape.inner)]


def fence(chance: Chance, _shape: Shape) -> Words:
    return [chance.pick((0x0FF0000F, 0x0330000F, 0x8330000F, 0x0000000F))]


def emit(chance: Chance, _shape: Shape) -> Words:
    return [addi(A0, ZERO, chance.below(256)) if chance.is_one_of(2) else addi(A0, chance.pick(FREE), 0),
            addi(A7, ZERO, 5), ECALL]


def enqueue(chance: Chance, shape: Shape, call: int, part: Optional[int] = None, fuel: Optional[int] = None) -> Words:
    """A child by one of the three calls."""
    if part is None:
        # A task that hands one to its superdomain knows that there is one.
        first, count = (1 + shape.outer, shape.inner) if call == 2 else (1, shape.outer)
        part = first + chance.below(count)
    base = {1: S3, 2: chance.pick((S3, ZERO, ZERO)), 3: S1}[call]
    far = chance.is_one_of(30) and call == 2
    timestamp = number(A1, chance.word()) if far else [addi(A1, base, chance.between(0, min(shape.spread, 2_047)))]
    hint = [addi(A5, chance.pick((S2, S0, S3)), 0)] if chance.is_one_of(2) else [addi(A5, ZERO, chance.below(40))]
    left = [addi(A2, S0, -1)] if fuel is None else [addi(A2, ZERO, fuel)]
    floor = [addi(A3, S3 if call == 2 else S1, 0)]
    other = [addi(A4, S2, chance.between(-3, 3))]
    settings: list[Word] = [High(A0, part), Low(A0, part), *timestamp, *left, *floor, *other, *hint]
    return [*settings, addi(A7, ZERO, call), ECALL]


def child(chance: Chance, shape: Shape, is_inner: bool) -> Words:
    """A child in the own domain. A task of a subdomain goes on with one that knows its floor."""
    part = 1 + shape.outer + chance.below(shape.inner) if is_inner else None
    return guard(enqueue(chance, shape, 1, part))


def guard(words: Words) -> Words:
    """What is done where s0 is above 0 alone."""
    return [branch(BGE, ZERO, S0, 4 * len(words) + 4), *words]


def subdomain(chance: Chance, shape: Shape) -> Words:
    words: list[Word] = [addi(A0, ZERO, chance.below(2)), addi(A7, ZERO, 4), ECALL]
    for _ in range(chance.between(1, shape.first)):
        words += enqueue(chance, shape, 2)
    return guard(words)


def wide(chance: Chance, shape: Shape) -> Words:
    """A loop of enqueues, whose children have no children."""
    body = [*enqueue(chance, shape, 1, 1, 0), addi(S6, S6, -1)]
    return guard([addi(S6, ZERO, shape.width), *body, branch(BNE, S6, ZERO, -4 * len(body))])


def pointer(chance: Chance, shape: Shape) -> Words:
    """A trap where a word of the data is 0, or where it isn't."""
    wrong = chance.pick(([EBREAK], [load(LBU, T0, ZERO, 0)], [store(SW, ZERO, T0, 4)], [0]))
    return [load(LW, T0, S4, min(chance.pick(shape.hot), 2_044)),
            branch(chance.pick((BEQ, BNE)), T0, ZERO, 4 * len(wrong) + 4), *wrong]


def fold(chance: Chance, shape: Shape) -> Words:
    """What some registers hold is emitted or stored, so that it is seen from outside."""
    mixed = [register(XOR, T0, T0, chance.pick(FREE)) for _ in range(chance.between(3, 9))]
    words: list[Word] = [addi(T0, ZERO, 0), *mixed]
    if chance.is_one_of(2):
        before, one, offset = address(chance, shape, 4)
        # The address may be worked out in t1 alone.
        return [*words, *before, store(SW, one, T0, offset)]
    half = [immediate(SR, T1, T0, 16), register(XOR, T0, T0, T1), immediate(SR, T1, T0, 8)]
    return [*words, *half, register(XOR, A0, T0, T1), addi(A7, ZERO, 5), ECALL]


def soup(chance: Chance) -> int:
    """A word of the form of an instruction, whose fields may be none."""
    word = chance.pick(OPCODES) | chance.below(1 << 25) << 7
    return word & 0x41FFFFFF if word & 0x7F in (0x13, 0x33) and not chance.is_one_of(6) else word


FRAGMENTS: dict[str, Fragment] = {
    "plain": plain, "load": load_words, "store": store_words, "add": add_words, "text": text_load, "stack": stack,
    "loop": loop, "skip": skip, "jump": jump, "function": function, "fence": fence, "emit": emit,
    "pointer": pointer, "fold": fold}
END = [addi(A7, ZERO, 0), ECALL]


def prologue(chance: Chance) -> list[int]:
    return [addi(S0, A0, 0), addi(S1, A1, 0), addi(S2, A2, 0), addi(S3, A3, 0), lui(S4, DATA >> 12),
            *number(chance.pick(FREE), chance.word())]


def body(chance: Chance, shape: Shape, is_inner: bool) -> Words:
    """A whole task, with a subdomain at most."""
    if shape.is_soup:
        return [*prologue(chance), *(soup(chance) for _ in range(chance.between(1, 12))), *END]
    words: list[Word] = [*prologue(chance)]
    weights = dict(shape.weights)
    if not is_inner:
        weights.pop("super")
    for _ in range(shape.fragments):
        kind = chance.pick_weighted(weights)
        if kind == "child":
            words += child(chance, shape, is_inner)
        elif kind == "super":
            words += guard(enqueue(chance, shape, 3))
        elif kind in ("subdomain", "wide"):
            words += (subdomain if kind == "subdomain" else wide)(chance, shape)
            weights.pop(kind)
        else:
            words += FRAGMENTS[kind](chance, shape)
    return [*words, *END]


def functions(chance: Chance, shape: Shape) -> Words:
    """What `function` jumps to."""
    return [*plain(chance, shape), *stack(chance, shape), jalr(ZERO, RA, 0)]
