"""A source with each form of each instruction and directive that the page's assembler takes, for GNU as to take too."""
from __future__ import annotations

import itertools
import random
from collections.abc import Iterator

REGISTERS = ("x0", "zero", "ra", "sp", "gp", "tp", "x8", "s0", "fp", "s1", "x31", *(f"t{place}" for place in range(7)),
             *(f"a{place}" for place in range(8)), *(f"s{place}" for place in range(2, 12)))
# Numbers of 12 bits, in each notation and by each operator.
NUMBERS = ("0", "1", "-1", "2047", "-2048", "0x7ff", "0xffffffff", "0b101", "017", "'A'", "1+2*3", "(4-6)<<3", "~5",
           "CONST", "CONST+1", "-CONST", "7&5|8^3", "1+2<<3", "2*3+4&6", "1-2|3", "100>>2-1", "100/7%5")
LOADED = ("0", "1", "-1", "2047", "2048", "-2048", "-2049", "4096", "0x12345678", "0xffffffff", "0x80000000",
          "-2147483648", "0xfffff000", "0x7ffff800", "0xfffff800", "0x800", "0xfff", "305419896", "CONST", "CONST*1000",
          "1<<31", "(1<<31)-1", "'a'")
LOADS, STORES = ("lb", "lh", "lw", "lbu", "lhu"), ("sb", "sh", "sw")
BRANCHES = ("beq", "bne", "blt", "bge", "bltu", "bgeu", "bgt", "ble", "bgtu", "bleu")
BRANCHES_AT_ZERO = ("beqz", "bnez", "blez", "bgez", "bltz", "bgtz")
BOTH = ("add", "slt", "sltu", "xor", "or", "and")
SHIFTS = ("sll", "srl", "sra")
ADDRESSES = ("there", "there+100", "near", "near-4", "far", "text_end")
ONE_REGISTER = ("mv", "move", "not", "neg", "seqz", "snez", "sltz", "sgtz", "zext.b")
FIXED = ("sgt a0,a1,a2", "sgtu a0,a1,a2", "jal near", "jal ra,1f", "jal t0, 1b", "jal x5, near-4", "jal zero,near",
         "j near", "j 1f", "j .+8", "jr a0", "jr 4(a0)", "jr a0, -4", "jalr a0", "jalr 8(a0)", "jalr t0,a0",
         "jalr t0, 4(a0)", "jalr t0,a0,4", "call near", "call there", "call 1f", "tail near", "tail there", "ret",
         "ecall", "ebreak", "scall", "sbreak", "nop", "fence", "fence.tso", "lui t2, %hi(there)",
         "lui s9, %hi(there+4000)", "lui t1, %hi(near)", "lui x31, 0", "lui x8, 1", "lui t0, 0xfffff", "lui s2, CONST",
         "auipc s7, 0", "auipc s3, 1", "auipc s7, 0xfffff", "addi a0,a0,%lo(there)")
BEGINNING = """\
# image: task near
    .equ CONST, 1004
    .cfi_sections .debug_frame
    .text
    .globl near
    .cfi_startproc
    .cfi_undefined ra
near: nop
    .cfi_endproc
"""
PAIRS = """\
2: auipc a0,%pcrel_hi(far)
    addi a0,a0,%pcrel_lo(2b)
3: auipc a0,%pcrel_hi(far)
    lw a0,%pcrel_lo(3b)(a0)
    sw a0,%pcrel_lo(3b)(a2)
    lui a0,%hi(far)
    addi a0, a0, %lo(far)
"""
END = r"""
    .data
there: .word 1, 2, -3, 0xffffffff, near, there+4, . - there
    .byte 1,2,-1,255,'x','\n'
    .half 1, -2, 65535
    .short 7
    .2byte 9
    .balign 8
far: .4byte 5
    .long 6
    .ascii "ab", "c\t\\\"\101\x41"
    .asciz "hello", "w;#/* x */ld"
    .string "s"
    .align 4
    .zero 3
    .space 5, 0xaa
    .skip 2
    .p2align 3
    .word end - there, CONST, (1+2)*4, 10 - 3 - 2
    .balign 16, 0x55
end:
    .set LATER, 12
    .word LATER
    LATER = 13
    .word LATER
    .bss
zeros: .zero 100
    .balign 64
    .zero 4
    .section .rodata
ro: .word 0x1234, there
    .asciz "x"
    .section .rodata.str, "a"
    .byte 1
    .section .sdata, "aw"
    .word 4
    .section .text.other, "ax"
    nop
    .text
text_end: nop ; nop
    .balign 16
    addi a0,a0,1
    .balign 8, 0
    .word 0x73
"""


def forms() -> str:
    """The whole source. Registers are drawn, always alike."""
    chance = random.Random(1)
    lines = [f"1: {line}\n1: nop\n" for line in (*accesses(chance), *jumps(chance), *sums(chance), *FIXED)]
    return "".join([BEGINNING, *lines, PAIRS, END])


def accesses(chance: random.Random) -> Iterator[str]:
    """Loads and stores: at a register and a number, at a label, and by a part of an address."""
    for name in (*LOADS, *STORES):
        further = ", t1" if name in STORES else ""
        yield f"{name} a0, there+8{further}"
        yield f"{name} a1, near+4{further}"
        yield f"{name} a1, %lo(there+4)(a1)"
        yield f"{name} s3, (a1)"
        for number in NUMBERS:
            yield f"{name} {chance.choice(REGISTERS)}, {number}({chance.choice(REGISTERS)})"


def jumps(chance: random.Random) -> Iterator[str]:
    """Branches to labels before and after them, to a place beside one, and to themselves; and addresses of labels."""
    for name, target in itertools.product(BRANCHES, ("near", "1b", "1f", "near+8", ".")):
        yield f"{name} {chance.choice(REGISTERS)},{chance.choice(REGISTERS)},{target}"
    for name, target in itertools.product(BRANCHES_AT_ZERO, ("near", "1b", "1f")):
        yield f"{name} {chance.choice(REGISTERS)},{target}"
    for name, target in itertools.product(("la", "lla"), ADDRESSES):
        yield f"{name} {chance.choice(REGISTERS[2:])},{target}"


def sums(chance: random.Random) -> Iterator[str]:
    """What computes with registers and numbers, also a number where the name is that for a register; and fences."""
    for name in (*BOTH, "sub", *SHIFTS):
        for _ in range(5):
            yield f"{name} {chance.choice(REGISTERS)},{chance.choice(REGISTERS)}, {chance.choice(REGISTERS)}"
    for name, number in ((name, number) for name in BOTH for number in (5, -7)):
        yield f"{name} s6,a1,{number}"
    for name, text in itertools.product(("addi", "slti", "sltiu", "xori", "ori", "andi"), NUMBERS):
        yield f"{name} {chance.choice(REGISTERS)}, {chance.choice(REGISTERS)} ,{text}"
    for name, text in itertools.product(SHIFTS, ("0", "1", "31", "0x10", "CONST-1000")):
        yield f"{name}i {chance.choice(REGISTERS)},{chance.choice(REGISTERS)},{text}"
    yield from (f"{name} s2,t0,5" for name in SHIFTS)
    yield from (f"li {chance.choice(REGISTERS[2:])}, {number}" for number in LOADED)
    yield from (f"{name} a0,{chance.choice(REGISTERS)}" for name in ONE_REGISTER)
    kinds = ("i", "o", "r", "w", "io", "ir", "ow", "rw", "orw", "iorw")
    yield from (f"fence {one},{other}" for one, other in itertools.product(kinds, ("r", "w", "io", "iorw")))
