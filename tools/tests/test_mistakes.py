"""Mistakes of code generators: each is refused, or noted, in one sentence that says what to do."""
from __future__ import annotations

import contextlib
import dataclasses
import io
import pathlib
import shutil
import subprocess
import tempfile
import unittest
from collections.abc import Mapping

from yotarimu.common.outcome import Refusal
from yotarimu.images.compiler import CLANG, GCC, MACHINE, Compilers
from yotarimu.images.folder import build

END = "main:\n    li a7, 0\n    ecall\n"
GOOD = "# image: task main\n" + END
IR_END = ('define void @main() noreturn {\n  call void asm sideeffect "ecall", "{a7}"(i32 0)\n  unreachable\n}\n'
          "; image: task main\n")
CALLING = ("# image: task main\nmain:\n    call get\n    li a7, 0\n    ecall\n"
           "    .data\n    .globl other\nother: .word 7\n")
LINES = '#include "task.h"\n// image: task main\n'


@dataclasses.dataclass(frozen=True)
class Mistake:
    """A folder of sources with a mistake, perhaps with an object of C compiled by some options, and parts of the
    sentence: the place, what is wrong, and what to do."""
    files: Mapping[str, str]
    parts: tuple[str, ...]
    options: tuple[str, ...] = ()
    by: str = GCC


def assembly(text: str, *parts: str) -> Mistake:
    """A mistake of one source in assembly."""
    return Mistake({"task.s": text}, parts)


def of_object(text: str, options: str, *parts: str, by: str = GCC) -> Mistake:
    """A mistake of an object that other options make of a source in C."""
    return Mistake({"main.s": CALLING, "get.c": text}, parts, tuple(options.split()), by)


GET = "extern unsigned other;\nunsigned get(void) { return other; }\n"
MISTAKES = {
    "a section of its own": assembly(GOOD + '    .section .mine, "aw"\n    .word 1\n', "task.s:5:", "`.data.mine`"),
    "a section without flags": assembly(GOOD + "    .section .sdata\n    .word 1\n", "has no flags", '"aw"'),
    "position-independent code": of_object(GET, "-fPIC", "get.o: `other`", "compile it with -fno-pic"),
    "the same as assembly": assembly(
        CALLING + "    .text\nget:\n    .option pic\n    la a0, other\n    ret\n", "task.s:", "-fno-pic"),
    "a relocation of another width": assembly(
        GOOD + "    .reloc main, R_RISCV_64, main\n", "task.s:", "relocation of kind 2", "-mabi=ilp32"),
    "a thread-local variable": of_object(
        "__thread unsigned x;\nunsigned get(void) { return x++; }\n", "-fno-pic", "get.o:", "thread-local", "locals"),
    "a thread-local variable of IR": Mistake(
        {"task.ll": IR_END + "@x = thread_local global i32 1\n"}, ("task.ll:6:", "thread-local", "locals")),
    "a constructor": Mistake(
        {"task.c": LINES + "unsigned x;\n__attribute__((constructor)) static void f(void) { x = 1; }\n"
                           "TASK(main) { emit(x); }\n"}, ("task.c:4:", "an initial task with the least timestamp")),
    "a constructor of IR": Mistake(
        {"task.ll": IR_END + "@x = global i32 1\ndefine void @f() {\n  store volatile i32 2, i32* @x\n  ret void\n}\n"
                             "@llvm.global_ctors = appending global [1 x { i32, void ()*, i8* }] "
                             "[{ i32, void ()*, i8* } { i32 65535, void ()* @f, i8* null }]\n"},
        ("task.ll:11:", "an initial task with the least timestamp")),
    "a table of constructors": assembly(
        GOOD + '    .section .ctors, "aw"\n    .word main\n', "task.s:5:", "an initial task with the least timestamp"),
    "intermediate code of gcc": of_object(GET, "-flto", "get.o:", "compile it with -fno-lto"),
    "bitcode of clang": of_object(GET, "-flto", "get.o:", "compile it with -fno-lto", by=CLANG),
    "a stack protector": of_object(
        "void use(char *);\nunsigned get(void) { volatile char x[64]; x[3] = 1; return x[5]; }\n",
        "-fstack-protector-all", "`__stack_chk_", "compile it with -fno-stack-protector"),
    "another width of registers": of_object(GET, "-march=rv64i -mabi=lp64", "get.o:", "-march=rv32i -mabi=ilp32"),
    "compressed instructions": of_object(GET, "-march=rv32ic", "get.o:", "`rv32i", "RV32I alone"),
    "an instruction of M": assembly(
        GOOD.replace("ecall", "mul a0, a0, a1\n    ecall"), "task.s:4: `mul`", "call `__mulsi3`"),
    "an atomic instruction": assembly(
        GOOD.replace("ecall", "amoadd.w a0, a0, (a1)\n    ecall"), "task.s:4: `amoadd.w`", "a load and a store"),
    "a product from assembly": assembly(
        GOOD.replace("ecall", "call __mulsi3\n    ecall"), "task.s:4: `__mulsi3`", '`.ident "mine"`', "version 2"),
    "a copy from assembly": assembly(
        GOOD.replace("ecall", "call memcpy\n    ecall"), "task.s:4: `memcpy`", '`.ident "mine"`'),
    "a large immediate": assembly(
        GOOD.replace("ecall", "addi a0, a0, 5000\n    ecall"), "task.s:4: `addi a0,a0,5000`", "-2048 to 2047", "`li`"),
    "a jump too far": assembly(
        GOOD.replace("ecall", "j far\n    ecall") + "    .section .text.far\n    .globl far\n    .space 2097152\nfar:\n"
        "    ecall\n", "task.s:4: `far` is too far away", "`tail far`"),
    "a text too large": assembly(
        GOOD + "    .section .rodata\n    .space 300000\n", "words of text", "65536", "aren't const are in the data"),
    "data too large": assembly(
        GOOD + "    .bss\n    .space 16777220\n", "bytes of data", "16777216", "a smaller part"),
    "an alignment too large": assembly(
        GOOD + "    .p2align 17\n    nop\n", ".text begins at 00010000", "a smaller alignment"),
    "a missing label": assembly("# image: task start\n" + END, "task.s:1: no label `start`", "main"),
    "a function as a task": assembly(
        "# image: task f\n    .type f, @function\nf:\n    ret\n", "task.s:1: `f` is a function that returns",
        "`f_task: jal ra, f; li a7, 0; ecall`"),
    "a function of an object as a task": Mistake(
        {"main.s": "# image: task get\n    .data\n    .globl other\nother: .word 0\n", "get.c": GET},
        ("main.s:1: `get` is a function that returns", "`get_task: jal ra, get; li a7, 0; ecall`"), ("-fno-pic",)),
    "a function of IR as a task": Mistake(
        {"task.ll": "; image: task f\ndefine void @f() {\n  ret void\n}\n"},
        ("task.ll:1: `f` is a function that returns", "`f_task: jal ra, f; li a7, 0; ecall`")),
    "another machine's IR": Mistake(
        {"task.ll": 'target triple = "x86_64-pc-linux-gnu"\n' + IR_END},
        ("task.ll:1: the target `x86_64-pc-linux-gnu`", "clang --target=riscv32")),
    "another data layout": Mistake(
        {"task.ll": 'target datalayout = "e-m:e-p:64:64-i64:64-i128:128-n64-S128"\n' + IR_END},
        ("task.ll:1: the data layout", "clang --target=riscv32")),
    "IR of a newer LLVM": Mistake(
        {"task.ll": IR_END + '!llvm.ident = !{!0}\n!0 = !{!"clang version 99.1.0"}\n%x = type nonesuch\n'},
        ("task.ll:8: clang ", "version 99 of LLVM made it", "--clang PATH")),
    "a call of printf": Mistake(
        {"task.c": LINES + 'TASK(main) { printf("%d", 3); }\n'}, ("task.c:3:", "emit_text and emit_number write")),
    "a call of malloc": assembly(GOOD.replace("ecall", "call malloc\n    ecall"), "task.s:4: `malloc`", "no heap"),
    "profiling": of_object(GET, "-pg", "`_mcount`", "compile it without -pg"),
    "a stack too small": Mistake(
        {"task.c": LINES + "TASK(main, uint32_t n) { volatile uint32_t own[300]; own[n] = 1; emit(own[7]); }\n"},
        ("task.c:3: the task `main` needs 1,2", "and has 1,024")),
    "a stack in version 1": Mistake(
        {"task.c": LINES + "// image: version 1\n"
                           "TASK(main, uint32_t n) { volatile uint32_t x[4]; x[n] = n; emit(x[n]); }\n"},
        ("task.c:4: the task `main` needs", "has none in version 1")),
    "a recursion": Mistake(
        {"task.c": LINES + "static uint32_t f(uint32_t n) { return n < 2 ? n : f(n - 1) ^ f(n - 2); }\n"
                           "TASK(main, uint32_t n) { emit(f(n)); }\n"},
        ("task.c:3: `f` calls itself, which a loop or a child for each would save, and takes",)),
    "an instruction unknown to all": assembly(
        GOOD.replace("ecall", "frobnicate a0\n    ecall"), "task.s:4: `frobnicate` isn't an RV32I instruction",
        "use those alone"),
}


def sentence_of(mistake: Mistake) -> str:
    """What is printed when the folder of a mistake is built."""
    with tempfile.TemporaryDirectory() as place:
        folder = pathlib.Path(place)
        for name, text in mistake.files.items():
            (folder / name).write_text(text)
        if mistake.options:
            target = ["--target=riscv32"] if mistake.by == CLANG else []
            source = folder / "get.c"
            subprocess.run([mistake.by, *target, *MACHINE, "-O2", *mistake.options, "-c", source, "-o",
                            source.with_suffix(".o")], check=True, capture_output=True)
            source.unlink()
        said = io.StringIO()
        try:
            with contextlib.redirect_stderr(said):
                build(folder, Compilers())
        except Refusal as refused:
            return str(refused)
    return said.getvalue().strip()


@unittest.skipUnless(all(map(shutil.which, (GCC, CLANG))), "no compilers")
class Mistakes(unittest.TestCase):
    """The table of mistakes."""
    def test_each_has_one_sentence_with_what_to_do(self) -> None:
        for name, mistake in MISTAKES.items():
            with self.subTest(name):
                told = sentence_of(mistake)
                for part in mistake.parts:
                    self.assertIn(part, told)
                self.assertEqual(told.count("\n"), 0, told)
                self.assertTrue(told.endswith("."), told)


if __name__ == "__main__":
    unittest.main()
