"""Integration tests of the instruction set against GNU binutils and qemu: tasks of the built program leave what a
process of Linux leaves that runs the same bytes, and legal words are those that objdump knows."""
from __future__ import annotations

import json
import os
import pathlib
import random
import re
import shutil
import signal
import struct
import subprocess
from collections.abc import Sequence
from typing import Optional

from yotarimu.common.places import TOOLS_FOLDER
from yotarimu.images.compiler import GCC, MACHINE, need_compiler
from yotarimu.images.description import describe
from yotarimu.images.image import DATA, TEXT, Image, InitialTask, image_bytes
from yotarimu.images.serial_machine import Machine
from yotarimu.images.source import INSTRUCTIONS, Assembly, assemble, source_at, tool_prefix
from yotarimu.programs.calls import calls_at
from yotarimu.programs.program import PROGRAM
from yotarimu.reports.report import read_report

from tries.instruction_programs import REGISTERS, Program, form_programs, random_programs, text_of
from tries.place import MOST_SECONDS, Omission, Place, expect, need_built

EMULATOR = "qemu-riscv32"
# So many random programs of so many steps each are run in each of the images with these seeds.
SEEDS, STEPS = range(1, 4), 60
# Where the header of an ELF file tells the entry.
ENTRY_AT = 24
# Public tests of what isn't a part of RV32I, or of what it leaves to a machine: FENCE.I, and accesses at no multiple.
OTHER_TESTS = ("fence_i", "ma_data")
RISCV_FOLDER = TOOLS_FOLDER / "tries" / "riscv"
# A test in the form of the public ones, with a number that its one case wants, and what it takes of their macros.
SAMPLE = """#include "riscv_test.h"
#include "test_macros.h"
RVTEST_RV32U
RVTEST_CODE_BEGIN
    TEST_CASE(2, x14, {}, li x11, 3; li x12, 4; add x14, x11, x12)
    TEST_PASSFAIL
RVTEST_CODE_END
    .data
RVTEST_DATA_BEGIN
RVTEST_DATA_END
"""
MACROS = """#define TEST_CASE(number, seen, wanted, code...) li TESTNUM, number; code; li x7, wanted; bne seen, x7, fail
#define TEST_PASSFAIL bne x0, TESTNUM, pass; fail: RVTEST_FAIL; pass: RVTEST_PASS
"""
# li a7, 0; ecall.
END, NOP = b"\x93\x08\x00\x00\x73\x00\x00\x00", 0x13
TILES, CORES = 16, 4


def need_emulator() -> None:
    """Leaves an integration test out if the emulator or the assembler is missing."""
    if not shutil.which(EMULATOR):
        raise Omission(f"it wants {EMULATOR}: Debian's package qemu-user has it")


def held_against_the_emulator(place: Place, name: str, programs: Sequence[Program]) -> None:
    """Compares what programs leave as tasks with what they leave as a process of Linux, word by word."""
    source = place.root / f"{name}.s"
    source.write_text(text_of(programs))
    sources = [source_at(source)]
    assembled = assemble(sources)
    image = describe(sources, assembled)
    answer = place.call("fractal", "run", stdin=image_bytes(image))
    report = read_report(answer.output.decode("ascii", "replace"), name)
    expect((report.end, len(report.entries)) == ("normal", len(programs)), "a turn of each", answer.output[-99:])
    done = emulated(place, assembled)
    expect(done.returncode == 0, f"that {EMULATOR} runs it", done)
    left, told = [value for _, value in report.window], struct.unpack(f"<{len(done.stdout) // 4}I", done.stdout)
    area = programs[0].area
    expect(len(left) == len(told) == area * len(programs), "words of each program", (len(left), len(told)))
    for number, (one, other) in enumerate(zip(left, told)):
        program, word = divmod(number, area)
        what = f"x{word + 1}" if word < REGISTERS else f"the word {word - REGISTERS}"
        expect(one == other, f"{what} of the program {program} of {name} to be {other:08x}", f"{one:08x}")


def emulated(place: Place, assembled: Assembly) -> subprocess.CompletedProcess[bytes]:
    """How the linked program ends as a process of Linux, and what it writes."""
    linked = bytearray(assembled.linked)
    struct.pack_into("<I", linked, ENTRY_AT, TEXT)
    program = place.root / "linked"
    program.write_bytes(linked)
    program.chmod(0o755)
    return subprocess.run([EMULATOR, program], capture_output=True, timeout=MOST_SECONDS, stdin=subprocess.DEVNULL)


def each_form_is_the_emulators(place: Place) -> None:
    """each instruction, by operands at which it turns, leaves the registers and the memory that it has by qemu"""
    place.needs_program()
    need_emulator()
    held_against_the_emulator(place, "forms", form_programs())


def random_programs_are_the_emulators(place: Place) -> None:
    """192 random programs leave the registers and the memory that they have as a process of Linux by qemu"""
    place.needs_program()
    need_emulator()
    for seed in SEEDS:
        held_against_the_emulator(place, f"random_{seed}", random_programs(seed, STEPS))


# ---- legal words


def words_of_each_kind(chance: random.Random) -> list[int]:
    """Words of 32 bits of each opcode and of each value of the field that chooses among its instructions, with other
    bits at random; then words that are near ECALL and EBREAK, and some of fewer bits."""
    words = []
    for opcode in range(3, 128, 4):
        for kind in range(8):
            for upper in (0, 1, 0x20, chance.randrange(128)):
                registers = chance.getrandbits(15)
                words.append(upper << 25 | (registers >> 5) << 15 | kind << 12 | (registers & 31) << 7 | opcode)
    near = [call ^ 1 << bit for call in (0x73, 0x100073) for bit in range(7, 32)]
    return [*words, 0x73, 0x100073, *near, *(chance.getrandbits(32) & ~3 | chance.randrange(3) for _ in range(64)), 0]


def is_told_otherwise(word: int) -> bool:
    """Whether objdump prints something else for a word than the manual: for a FENCE with fields that have no meaning
    yet, which a machine ignores, or a shift by 32 or more, which machines of 64 bits have."""
    return word & 0x707F == 0x0F or word & 0x7F == 0x13 and word & 0x3000 == 0x1000 and word >> 25 & 1 == 1


def runs_in_the_emulator(place: Place, word: int) -> bool:
    """Whether a process of Linux goes on behind a word, or is ended by the signal for what isn't an instruction."""
    source = place.root / "word.s"
    source.write_text(f"    .globl word\nword:\n    .4byte {word}\n    li a0, 0\n    li a7, 93\n    ecall\n")
    done = emulated(place, assemble([source_at(source)]))
    expect(done.returncode in (0, -signal.SIGILL), f"an end of {word:08x}", done)
    return done.returncode == 0


def legal_by_objdump(place: Place, words: Sequence[int]) -> list[bool]:
    """Of each word whether objdump finds an instruction of RV32I there."""
    # What it takes for an instruction of fewer bits, or of more, is over before the next word.
    code = b"".join(struct.pack("<4I", word, NOP, NOP, NOP) for word in words)
    (place.root / "words").write_bytes(code)
    words_to_list = [f"{tool_prefix()}objdump", "-D", "-z", "-b", "binary", "-m", "riscv:rv32", "-M", "no-aliases"]
    listed = subprocess.run([*words_to_list, place.root / "words"], capture_output=True, text=True, check=True).stdout
    names = dict(re.findall(r"(?m)^ *([0-9a-f]+):\s+[0-9a-f]+\s+(\S+)", listed))
    return [names.get(f"{16 * number:x}") in INSTRUCTIONS for number in range(len(words))]


def legal_on_the_machine(place: Place, words: Sequence[int]) -> list[bool]:
    """Of each word whether a task that begins there traps otherwise than with cause 2, or not at all: each makes one
    step. One task more is dispatched first, since with a trap of the least task the run is over."""
    text = b"".join(struct.pack("<I", word) + END for word in (NOP, *words))
    stride = 4 + len(END)
    tasks = [InitialTask(TEXT + stride * number, 0, (0, 0, 0)) for number in range(len(words) + 1)]
    image = Image(False, text, b"", 4096, 0, 0, tasks)
    dispatches = [f"dispatch {tile}" for tile in range(TILES) for _ in range(CORES)]
    steps = [f"step {tile} {core}" for tile in range(TILES) for core in range(CORES)]
    answer = place.call("fractal", "watch", "steps", "--tiles", str(TILES), "--cores", str(CORES), "--quantum", "1",
                        stdin=image_bytes(image) + "\n".join([*dispatches, *steps, ""]).encode())
    expect(answer.status == 0, "lines of each step", answer.errors)
    told = [json.loads(line) for line in answer.output.splitlines()]
    entries = {line["new"]: line["name"][1] for line in told if line.get("do") == "place"}
    legal = [True] * len(words)
    seen = [line for line in told if line.get("do") == "step" and line["reply"] == "ok"]
    for line in seen:
        if (line.get("cause"), line["leg"]) == (2, 0):
            legal[entries[line["task"]] - 1] = False
    expect(len(seen) == len(words) + 1, "a step of each word", len(seen))
    return legal


def legal_words_are_those_of_objdump(place: Place) -> None:
    """of each opcode the words that trap as no instruction are those in which objdump, or qemu, finds none of RV32I"""
    place.needs_second_program()
    need_emulator()
    words = words_of_each_kind(random.Random(1))
    at_once = TILES * CORES - 1
    words += [0] * (-len(words) % at_once)
    known = legal_by_objdump(place, words)
    for first in range(0, len(words), at_once):
        some = words[first:first + at_once]
        for word, is_known, is_legal in zip(some, known[first:], legal_on_the_machine(place, some)):
            wanted = runs_in_the_emulator(place, word) if is_told_otherwise(word) else is_known
            expect(is_legal == wanted, f"{word:08x} to be {'an' if wanted else 'no'} instruction of RV32I")
    expect(150 < sum(known) < len(words) - 150, "words of both kinds", sum(known))


# ---- public tests


def public_tests_pass(place: Place) -> None:
    """the public tests of RV32I, where RISCV_TESTS names their folder, pass as tasks"""
    place.needs_program()
    folder = os.environ.get("RISCV_TESTS")
    if not folder:
        raise Omission("it wants the tests of RISC-V: RISCV_TESTS names a folder of riscv-tests, with isa/ in it")
    need_compiler(GCC, GCC)
    tests = [path for path in sorted(pathlib.Path(folder, "isa", "rv32ui").glob("*.S")) if path.stem not in OTHER_TESTS]
    expect(tests, f"tests in {folder}/isa/rv32ui")
    for path in tests:
        answer = place.call("fractal", "run", stdin=image_bytes(image_of_test(place, path)))
        report = answer.output.decode("ascii", "replace")
        expect(report.endswith("output 50\nend normal\n"), f"that {path.stem} passes", report[-200:])


def tests_in_the_public_form_are_judged(place: Place) -> None:
    """a test in the form of the public ones passes as a task where it is right, and ends in a trap where it isn't"""
    place.needs_program()
    need_compiler(GCC, GCC)
    folder = place.root / "isa"
    for name, text in (("macros/scalar/test_macros.h", MACROS), ("rv32ui/right.S", SAMPLE.format(7)),
                       ("rv32ui/wrong.S", SAMPLE.format(8))):
        path = folder / name
        path.parent.mkdir(parents=True, exist_ok=True)
        path.write_text(text)
    for name, told in (("right", b"output 50\nend normal\n"), ("wrong", b"output -\nend trap 8 ")):
        answer = place.call("fractal", "run", stdin=image_bytes(image_of_test(place, folder / "rv32ui" / f"{name}.S")))
        expect(told in answer.output, f"an end of one that is {name}", answer)


def image_of_test(place: Place, path: pathlib.Path) -> Image:
    """The image of a public test, which is written for the preprocessor of C."""
    folders = (RISCV_FOLDER, path.parents[1] / "macros" / "scalar")
    done = subprocess.run([GCC, *MACHINE, "-E", "-P", *(f"-I{folder}" for folder in folders), path],
                          capture_output=True, text=True)
    expect(done.returncode == 0, f"the text of {path}", done.stderr)
    source = place.root / f"{path.stem}.s"
    source.write_text(f"# image: task start\n{done.stdout}")
    sources = [source_at(source)]
    return describe(sources, assemble(sources))


def words_with_corners() -> list[int]:
    """Each opcode with each funct3 and some funct7, among them all that mean something, and random words."""
    chance = random.Random(86)
    corners = [opcode | kind << 12 | upper << 25 | 10 << 15 | 11 << 20 | 12 << 7
               for opcode in range(128) for kind in range(8) for upper in (0x00, 0x20, 0x01, 0x10, 0x40)]
    calls = [word ^ 1 << bit for word in (0x73, 0x100073) for bit in range(7, 32)]
    return [*corners, *calls, *(chance.getrandbits(30) << 2 | 3 for _ in range(1_000))]


def words_are_decoded_alike(_: Place) -> None:
    """of 6,000 words, all corners of the encoding among them, the tools execute what the program does, and no other"""
    need_built(PROGRAM)
    calls, end = calls_at(str(PROGRAM)), b"\x93\x08\x00\x00\x73\x00\x00\x00"

    def fault_of(word: int) -> Optional[str]:
        image = Image(True, word.to_bytes(4, "little") + end, b"", 64, 0, 0, [InitialTask(TEXT, 5, (DATA, 1, 2))])
        report = read_report(calls.call(["run", "--budget=9"], image_bytes(image)).written.decode(), hex(word))
        machine = Machine(image, 9)
        trap = report.trap
        return machine.follow(report.entries) or (str(trap) if trap and not machine.run_at_trap(trap) else None)

    for word, fault in calls.each(fault_of, words_with_corners(), os.cpu_count() or 1):
        expect(not fault, f"the program's run of {word:08x}", fault)


TRIES = (
    words_are_decoded_alike,
    each_form_is_the_emulators, random_programs_are_the_emulators, legal_words_are_those_of_objdump, public_tests_pass,
    tests_in_the_public_form_are_judged,
)
