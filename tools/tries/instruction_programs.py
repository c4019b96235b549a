"""Programs in assembly that use the instructions of RV32I: each form with operands at which it turns, and random ones.

A program begins by setting all registers, works on a piece of the data of its own, and ends by storing all registers
there. So it means the same wherever its bytes run. On the machine each is a task, which call 0 ends. In a process of
Linux that call does nothing, and the next program follows; the last one writes the data, and ends.
"""
from __future__ import annotations

import itertools
import random
from collections.abc import Iterator, Sequence
from typing import Optional

from yotarimu.images.image import WINDOW_WORDS

# An area, the data of a program, begins with its registers but x0.
REGISTERS = 31
# Words of the areas of forms and of random programs, and so how many random programs an image has.
FORM_AREA, RANDOM_AREA = 96, 64
RANDOM_PROGRAMS = WINDOW_WORDS // RANDOM_AREA
REGISTER_OPERATIONS = ("add", "sub", "sll", "slt", "sltu", "xor", "srl", "sra", "or", "and")
IMMEDIATE_OPERATIONS = ("addi", "slti", "sltiu", "xori", "ori", "andi")
SHIFTS = ("slli", "srli", "srai")
BRANCHES = ("beq", "bne", "blt", "bge", "bltu", "bgeu")
LOADS = {"lb": 1, "lh": 2, "lw": 4, "lbu": 1, "lhu": 2}
STORES = {"sb": 1, "sh": 2, "sw": 4}
FENCES = ("fence", "fence.tso", "fence rw,w", "fence w,r", "fence i,o", ".insn i 15, 0, x0, x0, 16")
# Operands at which operations turn.
EDGES = (0, 1, 0x1F, 0x7FFFFFFF, 0x80000000, 0xFFFF8001, 0xFFFFFFFF)
MORE_EDGES = (*EDGES, 2, 32, 0x7F, 0x80, 0xFF, 0x7FFF, 0x8000, 0xFFFF, 0x12345678, 0xFFFFFF80, 0xFFFFFFFE)
IMMEDIATES = (0, 1, -1, 31, 2047, -2048, -31)
UPPER = (0, 1, 0x7FFFF, 0x80000, 0xFFFFF)
AMOUNTS = (0, 1, 15, 16, 30, 31)
# The lines of one result, which they leave in x7.
Result = tuple[str, ...]


class Program:
    """The lines of the program number `place`, in which the register `base` points into its area."""

    def __init__(self, place: int, area: int, base: int, values: Sequence[int]) -> None:
        self.place, self.area, self.base, self.labels = place, area, base, 0
        # Loads and stores are before it and after it.
        self.middle = 4 * (REGISTERS + (area - REGISTERS) // 2)
        self.lines = [f"task{place}:"]
        self.lines += [f"li x{register}, {value}" for register, value in enumerate(values) if register not in (0, base)]
        self.lines.append(f"la x{base}, area{place} + {self.middle}")

    def label(self) -> str:
        """A new label."""
        self.labels += 1
        return f"label{self.place}_{self.labels}"

    def word(self, place: int) -> str:
        """A word of the area as an operand."""
        return f"{4 * place - self.middle}(x{self.base})"

    def closed(self, is_last: bool) -> list[str]:
        """All lines, up to where the next program follows."""
        return [*self.lines, *(f"sw x{register}, {self.word(register - 1)}" for register in range(1, 32)),
                "li a7, 0", "ecall", "j leave" if is_last else f"j task{self.place + 1}"]


def text_of(programs: Sequence[Program]) -> str:
    """The source of an image with these programs, whose areas have one size."""
    area = programs[0].area
    lines = [f"# image: window area0 {area * len(programs)}"]
    lines += [f"# image: task task{program.place} ts {program.place}" for program in programs]
    lines += ["    .text", "    .globl task0"]
    for program in programs:
        lines += program.closed(program is programs[-1])
    lines += ["leave:", "li a0, 1", "la a1, area0", f"li a2, {4 * area * len(programs)}", "li a7, 64", "ecall",
              "li a0, 0", "li a7, 93", "ecall", "    .data", "    .balign 4"]
    for program in programs:
        lines += [f"area{program.place}:", f"    .zero {4 * REGISTERS}",
                  *(f"    .word {first_word(program.place, place)}" for place in range(REGISTERS, area))]
    return "\n".join(lines) + "\n"


def first_word(program: int, place: int) -> int:
    """A word of an area as it is at first: bytes with and without the sign bit."""
    return int.from_bytes(bytes((place * 37 + program * 11 + byte * 61) % 256 for byte in range(4)), "little")


# ---- forms


def form_programs() -> list[Program]:
    """A program for each instruction, and for what it does far away."""
    programs = []
    for place, results in enumerate((*operations(), *branches(), *accesses(), *others())):
        program = Program(place, FORM_AREA, 8, [0x01010101 * register & 0xFFFFFFFF for register in range(32)])
        for number, result in enumerate(results):
            words = words_of(program)
            program.lines += [*(line.format(**words) for line in result), f"sw x7, {program.word(REGISTERS + number)}"]
        programs.append(program)
    return programs


def words_of(program: Program) -> dict[str, str]:
    """What stands for itself in the lines of a result: two new labels, and words of the area as operands."""
    return {"there": program.label(), "back": program.label(), "scratch": program.word(FORM_AREA - 1),
            **{f"byte{place}": f"{4 * (REGISTERS + 16) + place - program.middle}(x8)" for place in range(8)},
            **{f"scratch{place}": f"{4 * (FORM_AREA - 1) + place - program.middle}(x8)" for place in range(4)}}


def operations() -> Iterator[list[Result]]:
    """Operations of two registers, of one and a number, and shifts; then the upper parts of a word."""
    pairs = list(itertools.product(EDGES, EDGES))
    for name in REGISTER_OPERATIONS:
        yield [(f"li x5, {one}", f"li x6, {other}", f"{name} x7, x5, x6") for one, other in pairs]
    for name in IMMEDIATE_OPERATIONS:
        yield [(f"li x5, {one}", f"{name} x7, x5, {other}") for one, other in itertools.product(EDGES, IMMEDIATES)]
    for name in SHIFTS:
        yield [(f"li x5, {one}", f"{name} x7, x5, {amount}") for one, amount in itertools.product(EDGES, AMOUNTS)]
    for name in ("lui", "auipc"):
        yield [(f"{name} x7, {upper}",) for upper in UPPER]


def branches() -> Iterator[list[Result]]:
    """Branches of all pairs, forwards; then each way, as far as they go."""
    for name in BRANCHES:
        yield [(f"li x5, {one}", f"li x6, {other}", "li x7, 1", f"{name} x5, x6, {{there}}", "li x7, 0", "{there}:")
               for one, other in itertools.product(EDGES, EDGES)]
    # A branch reaches from 4,096 bytes back to 4,092 bytes on.
    yield [("li x7, 1", "beq x0, x0, {there}", ".rept 1022", "li x7, 2", ".endr", "{there}:"),
           ("j {there}", "{back}:", "addi x7, x0, 5", "j 1f", ".rept 1022", "nop", ".endr", "{there}:",
            "bgeu x0, x0, {back}", "1:")]


def accesses() -> Iterator[list[Result]]:
    """Loads from each byte at which they may be, and stores, with the word that they leave."""
    for name, width in LOADS.items():
        yield [(f"{name} x7, {{byte{place}}}",) for place in range(0, 8, width)]
    for name, width in STORES.items():
        yield [(f"li x5, {value}", "li x6, 0x55AA55AA", "sw x6, {scratch}", f"{name} x5, {{scratch{place}}}",
                "lw x7, {scratch}") for value in EDGES for place in range(0, 4, width)]
    # The text can be read too.
    yield [("la x5, task0", f"{name} x7, {place}(x5)") for name, width in LOADS.items() for place in range(0, 8, width)]


def others() -> Iterator[list[Result]]:
    """Jumps, each way and far, with and without a link; x0 as a target; fences."""
    yield [("jal x7, {there}", "li x7, 0", "{there}:"),
           ("j {there}", "{back}:", "j 1f", "{there}:", "jal x7, {back}", "1:"),
           ("jal x7, {there}", ".rept 4096", "nop", ".endr", "{there}:")]
    yield [*((f"la x5, {{there}} + {before}", f"jalr x7, {behind}(x5)", "li x7, 0", "{there}:")
             for before, behind in ((0, 0), (-2047, 2047), (2048, -2048), (0, 1), (3, -2), (1, 0))),
           ("la x5, {there}", "jalr x5, 0(x5)", "li x5, 0", "{there}:", "mv x7, x5"),
           ("la x5, {there}", "li x7, 3", "jalr x0, 0(x5)", "li x7, 0", "{there}:")]
    yield [("li x5, 7", "addi x0, x5, 1", "add x0, x5, x5", "lui x0, 5", "auipc x0, 5", "lw x0, {byte0}", "mv x7, x0"),
           ("la x5, {there}", "jalr x0, 0(x5)", "{there}:", "jal x0, {back}", "{back}:", "mv x7, x0")]
    yield [(f"li x7, {number}", fence, "addi x7, x7, 1") for number, fence in enumerate(FENCES)]


# ---- random programs


class RandomProgram(Program):
    """A program of random steps."""

    def __init__(self, place: int, chance: random.Random, steps: int) -> None:
        super().__init__(place, RANDOM_AREA, chance.randrange(1, 32), [number_of(chance) for _ in range(32)])
        self.chance = chance
        # A counter of a loop, to which its body may not write.
        self.counter: Optional[int] = None
        for _ in range(steps):
            chance.choice((self.plain, self.plain, self.plain, self.branch, self.jump, self.loop))()

    def target(self) -> str:
        """A register that may be written."""
        kept = (self.base, self.counter)
        return f"x{self.chance.choice([register for register in range(32) if register not in kept])}"

    def held(self) -> str:
        """A register that may be written and holds what is written."""
        register = self.target()
        return register if register != "x0" else self.held()

    def source(self) -> str:
        """Any register."""
        return f"x{self.chance.randrange(32)}"

    def plain(self) -> None:
        """A step after which the next line comes."""
        self.chance.choice((self.compute, self.compute, self.compute, self.set_upper, self.load, self.store,
                            self.load_text, self.fence))()

    def plain_steps(self, most: int) -> None:
        """Some of these."""
        for _ in range(self.chance.randrange(most + 1)):
            self.plain()

    def compute(self) -> None:
        """An operation."""
        name = self.chance.choice(REGISTER_OPERATIONS + IMMEDIATE_OPERATIONS + SHIFTS)
        other: object = self.source()
        if name in IMMEDIATE_OPERATIONS:
            other = self.chance.choice((*IMMEDIATES, self.chance.randrange(-2048, 2048)))
        elif name in SHIFTS:
            other = self.chance.randrange(32)
        self.lines.append(f"{name} {self.target()}, {self.source()}, {other}")

    def set_upper(self) -> None:
        """The upper part of a word, or of the pc and more."""
        self.lines.append(f"{self.chance.choice(('lui', 'auipc'))} {self.target()}, {self.chance.randrange(1 << 20)}")

    def place_of(self, width: int) -> int:
        """Where an access may be, from the middle of the area on."""
        return self.chance.randrange(4 * REGISTERS, 4 * self.area, width) - self.middle

    def load(self) -> None:
        """A load, by the base or by another register."""
        name = self.chance.choice(list(LOADS))
        place, by = self.place_of(LOADS[name]), f"x{self.base}"
        if self.chance.randrange(2):
            by, far = self.held(), self.chance.randrange(-1024, 1024)
            self.lines.append(f"addi {by}, x{self.base}, {far}")
            place -= far
        self.lines.append(f"{name} {self.target()}, {place}({by})")

    def store(self) -> None:
        """A store."""
        name = self.chance.choice(list(STORES))
        self.lines.append(f"{name} {self.source()}, {self.place_of(STORES[name])}(x{self.base})")

    def load_text(self) -> None:
        """A load from the program's first instructions."""
        name, by = self.chance.choice(list(LOADS)), self.held()
        self.lines += [f"la {by}, task{self.place}",
                       f"{name} {self.target()}, {self.chance.randrange(0, 4 * REGISTERS, LOADS[name])}({by})"]

    def fence(self) -> None:
        """A fence."""
        self.lines.append(self.chance.choice(FENCES))

    def branch(self) -> None:
        """A branch over some steps."""
        label = self.label()
        self.lines.append(f"{self.chance.choice(BRANCHES)} {self.source()}, {self.source()}, {label}")
        self.plain_steps(3)
        self.lines.append(f"{label}:")

    def jump(self) -> None:
        """A jump over some steps, by an offset or by a register."""
        label = self.label()
        if self.chance.randrange(2):
            self.lines.append(f"jal {self.target()}, {label}")
        else:
            by, far = self.held(), self.chance.randrange(-2047, 2047)
            # The lowest bit of where a jump by a register leads is dropped.
            self.lines += [f"la {by}, {label} + {far}",
                           f"jalr {self.target()}, {self.chance.randrange(2) - far}({by})"]
        self.plain_steps(3)
        self.lines.append(f"{label}:")

    def loop(self) -> None:
        """Some steps that are repeated."""
        label, counter = self.label(), self.held()
        self.lines += [f"li {counter}, {self.chance.randrange(1, 5)}", f"{label}:"]
        self.counter = int(counter[1:])
        self.plain_steps(4)
        self.counter = None
        self.lines += [f"addi {counter}, {counter}, -1", f"bne {counter}, x0, {label}"]


def number_of(chance: random.Random) -> int:
    """A number of 32 bits: one at which operations turn, a small one, or any."""
    return chance.choice((chance.choice(MORE_EDGES), chance.randrange(64), chance.getrandbits(32)))


def random_programs(seed: int, steps: int) -> list[Program]:
    """As many random programs as an image has, the same for the same seed."""
    chance = random.Random(seed)
    return [RandomProgram(place, chance, steps) for place in range(RANDOM_PROGRAMS)]
