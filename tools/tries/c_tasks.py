"""Tries of tasks in C: what is built by either compiler, and how each mistake of docs/guest/MISTAKES.md shows."""
from __future__ import annotations

import pathlib
import re
import shutil
from collections.abc import Sequence

from yotarimu.images.compiler import CLANG, GCC
from yotarimu.programs.examples import EXAMPLES

from tries.build import folder_with, nothing_is_written
from tries.place import Answer, Place, expect

COMPILERS: tuple[tuple[str, ...], ...] = ((), ("--clang",))
IN_C = [name for name in EXAMPLES if name.startswith("c/")]
# Programs whose tasks need no stack.
WITHOUT_STACK = ("c/shortest_paths", "c/bank")
FIRST_LINES = '#include "task.h"\n// image: task start\n'
# Sources after these two lines that are refused, and parts of the sentence, the same of both compilers.
REFUSED = {
    "a task that is called": (
        "TASK(helper, uint32_t n) { emit(n); }\nTASK(start) { helper(65); }\n", "task.c:4:", "a task is enqueued"),
    "a function that is enqueued": (
        "static void helper(uint32_t n) { emit(n); }\nTASK(start) { enqueue(helper, 0, 65); }\n",
        "task.c:4: only a task can be enqueued"),
    "a pointer that isn't a number": (
        "uint32_t x;\nTASK(start, uint32_t *p) { enqueue(start, 0, &x); }\n",
        "task.c:4:", "a pointer is given as at(pointer)"),
    "a fifth parameter": (
        "TASK(start, uint32_t a, uint32_t b, uint32_t c, uint32_t ts, uint32_t d) { emit(d); }\n",
        "task.c:3: a task has three arguments"),
    "a parameter of 8 bits": (
        "TASK(start, uint32_t a, uint8_t b) { emit(b); }\n", "task.c:3: a parameter of a task has 32 bits"),
    "a parameter of 64 bits": (
        "TASK(start, uint64_t a) { emit(a); }\n", "task.c:3: a parameter of a task has 32 bits"),
    "a floating-point parameter": (
        "TASK(start, float a) { emit(a); }\n", "task.c:3: a parameter of a task has 32 bits"),
    "an argument of 64 bits": (
        "uint64_t x;\nTASK(start, uint32_t a) { enqueue(start, 0, x); }\n",
        "task.c:4: a child is given numbers of 32 bits"),
    "a hint of 64 bits": (
        "uint64_t x;\nTASK(start, uint32_t a) { enqueue_sub(start, 0, a, .hint = x); }\n",
        "task.c:4: a child is given numbers of 32 bits"),
    "a constant of 64 bits": (
        "TASK(start, uint32_t a) { enqueue_super(start, 1ull << 40, a); }\n",
        "task.c:3: a child is given numbers of 32 bits"),
    "a floating-point timestamp": (
        "float x;\nTASK(start, uint32_t a) { enqueue(start, x * 3, a); }\n",
        "task.c:4: a child is given numbers of 32 bits"),
    "a floating-point argument": (
        "double x;\nTASK(start, uint32_t a) { enqueue(start, 0, x); }\n",
        "task.c:4: a child is given numbers of 32 bits"),
    "an end of 64 bits": (
        "uint64_t x;\nTASK(start, uint32_t a, uint32_t b) { if (spread(start, a, a, x)) return; }\n",
        "task.c:4: a child is given numbers of 32 bits"),
    "more arguments than parameters": (
        "TASK(start, uint32_t a) { enqueue(start, 0, a, 2); }\n",
        "task.c:3: the task `start` has fewer parameters than it is given arguments"),
    "an argument of a task without parameters": (
        "TASK(start) { enqueue(start, 0, 0, .hint = 3); }\n",
        "task.c:3: the task `start` has fewer parameters than it is given arguments"),
    "a hint without its name": (
        "TASK(start, uint32_t a, uint32_t b, uint32_t c) { enqueue(start, 0, a, b, c, 4); }\n",
        "task.c:3: a child has a timestamp and up to three arguments, and a hint is given as .hint = h"),
    "a range for a task of one parameter": (
        "TASK(start, uint32_t a) { if (spread(start, a, a, 100)) return; }\n",
        "task.c:3: the task `start` has fewer parameters"),
    "a task that is defined below": (
        "TASK(start) { enqueue(later, 0); }\nTASK(later) { }\n", "task.c:3:", "`extern task_entry later;` above this"),
    "two tasks of one name": (
        "TASK(start) { }\nTASK(start) { }\n", "task.c:4:", "one TASK defines a task"),
    "a call of printf": (
        'TASK(start) { printf("%d", 3); }\n', "task.c:3:", "emit_text and emit_number write"),
    "a header of the C library": (
        "#include <stdio.h>\nTASK(start) { }\n", "task.c:3:", "tasks have no C library"),
    "a name of no task": (
        "TASK(start) { enqueue(elsewhere, 0); }\n", "task.c:3:", "elsewhere"),
    "a task that is nowhere": (
        "extern task_entry elsewhere;\nTASK(start) { enqueue(elsewhere, 0); }\n",
        "task.c:4: `elsewhere` is defined nowhere"),
    "a function in place of a task": (
        "void start(void) { emit(1); }\n", "task.c:2: `start` is a function and no task; TASK(start, ..) makes one"),
    "a task of another name": (
        "TASK(begin) { }\n", "task.c:2: no label `start`"),
    "a thread-local variable": (
        "__thread uint32_t x;\nTASK(start) { emit(x++); }\n", "task.c:3: a thread-local variable"),
    "a constructor": (
        "volatile uint32_t x;\n__attribute__((constructor)) static void early(void) { x += 1; }\n"
        "TASK(start) { emit(x); }\n", "task.c:4: nothing runs before or after the tasks"),
    "a section of its own": (
        '__attribute__((section(".mine"))) uint32_t x;\nTASK(start) { emit(x++); }\n', "task.c:3: the section .mine"),
    "a local that is too large": (
        "TASK(start, uint32_t n) { volatile uint32_t own[300]; own[n] = 1; emit(own[7]); }\n",
        "task.c:3: the task `start` needs 1,2", "bytes of stack, and has 1,024: start_body 1,2"),
    "locals that are too large together": (
        "#define OWN __attribute__((noinline)) static uint32_t\n"
        "OWN inner(uint32_t n) { volatile uint32_t own[130]; own[n] = n; return own[n]; }\n"
        "OWN outer(uint32_t n) { volatile uint32_t own[130]; own[n] = n; return inner(n) + own[n]; }\n"
        "TASK(start, uint32_t n) { emit(outer(n)); }\n",
        "task.c:6: the task `start` needs 1,", "and has 1,024:", "outer 5", "inner 5"),
    "a large frame": (
        "TASK(start, uint32_t n) { volatile uint32_t own[3000]; own[n] = n; emit(own[n]); }\n",
        "task.c:3: the task `start` needs 12,0"),
    "a stack in version 1": (
        "// image: version 1\nTASK(start, uint32_t n) { volatile uint32_t own[4]; own[n] = n; emit(own[n]); }\n",
        "task.c:4: the task `start` needs", "has none in version 1"),
    "a window of a local": (
        "// image: window x\nTASK(start) { static uint32_t x; emit(x++); }\n",
        "task.c:3: no label `x`; a variable stands outside of functions, and is used"),
    "a window of what nobody uses": (
        "// image: window x\nstatic uint32_t x;\nTASK(start) { }\n", "task.c:3: no label `x`"),
    "a window at an odd address": (
        "// image: window b\nuint8_t a = 1, b = 2;\nTASK(start) { emit(a + b); }\n",
        "task.c:3: the label `b` isn't at a multiple of 4: __attribute__((aligned(4))) helps"),
    "a window that is too large": (
        "// image: window x\nuint32_t x[5000];\nTASK(start) { emit(x[3]++); }\n",
        "task.c:3: `x` has 20,000 bytes, and a window up to 4,096 words, so a number of words is wanted"),
    "an unknown version": (
        "// image: version 3\nTASK(start) { }\n", "task.c:3: this isn't `// image: version 1` or"),
    "a line without a colon": (
        "// image version 2\nTASK(start) { }\n", "task.c:3: a colon is missing"),
    "an argument that isn't a label": (
        "// image: task start args N\nTASK(start) { }\n",
        "task.c:3: an argument is a number or a label, and no label `N`"),
}
# Whole sources that are refused.
REFUSED_WHOLE = {
    "no header": ("// image: task start\nTASK(start) { }\n", "task.c:2:", 'TASK needs the line #include "task.h"'),
    "no line on a task": ('#include "task.h"\nTASK(start) { }\n', "no line gives an initial task: `// image: task"),
    "a text that is too large": (
        FIRST_LINES + "const uint8_t table[270000] = {1};\nTASK(start, uint32_t n) { emit(table[n]); }\n",
        "words of text are more than an image may have, which is 65536"),
}
# Sources that are built, with a note.
NOTED = {
    "a recursion": (
        "static uint32_t depth(uint32_t n) { return n < 2 ? n : depth(n - 1) ^ depth(n - 2); }\n"
        "TASK(start, uint32_t n) { emit(depth(n)); }\n",
        "task.c:3: `depth` calls itself, ", " and takes ", "bytes each time; a task's stack has 1,024 bytes"),
    "a recursion of two functions": (
        "#define OWN __attribute__((noinline)) static uint32_t\nOWN odd(uint32_t n);\n"
        "OWN even(uint32_t n) { return n ? odd(n - 1) * n : 1; }\n"
        "OWN odd(uint32_t n) { return n ? even(n - 1) + n : 0; }\n"
        "TASK(start, uint32_t n) { emit(even(n)); }\n", "calls itself by `", "bytes each time"),
    "an array of variable length": (
        "TASK(start, uint32_t n) { volatile uint32_t own[n + 1]; own[n] = n; emit(own[n]); }\n",
        "task.c:3: `start_body` takes a part of the stack whose size is known only when it runs"),
    "a call by a pointer": (
        "static void one(void) { emit('a'); }\nstatic void two(void) { emit('b'); }\n"
        "static void (*const calls[2])(void) = {one, two};\nTASK(start, uint32_t n) { calls[n & 1](); emit('.'); }\n",
        "task.c:6: `start_body` calls by a pointer"),
    "a constant 0 below a line": (
        "uint32_t r;\nTASK(start, uint32_t a) { r = a / 0; }\n", "task.c:4: division by zero"),
    "an unused variable": ("TASK(start) { uint32_t x; }\n", "task.c:3: unused variable 'x' (a warning)."),
}
# Sources whose run ends in a trap, and what ./fractal explain tells of it beside the line.
TRAPS = {
    "a recursion that is too deep": (
        "static uint32_t depth(uint32_t n) { return n < 2 ? n : depth(n - 1) ^ depth(n - 2); }\n"
        "TASK(start, uint32_t n) { emit(depth(n + 200)); }\n", "cause 7:", "below the stack", "depth+"),
    "a store to a constant": (
        "const uint32_t table[2] = {1, 2};\nTASK(start) { *(volatile uint32_t *)table = 3; }\n",
        "cause 7:", "table, in the text", "task.c:4: TASK(start)"),
    "a store through a null pointer": (
        "TASK(start, uint32_t *p) { *p = 3; }\n", "cause 7:", "address 00000000, where nothing is", "task.c:3: TASK("),
    "a load through a null pointer": (
        "uint32_t r;\nTASK(start, uint32_t *p) { r = *p; }\n", "cause 5:", "address 00000000", "task.c:4: TASK("),
    "an index past the end": (
        "uint32_t x[4];\nTASK(start, uint32_t n) { ((volatile uint32_t *)x)[n + 6] = 3; }\n",
        "cause 7:", "8 bytes after the end of the data"),
    "a word at an odd address": (
        "// image: task other args b\nchar b[8];\nTASK(start) { }\n"
        "TASK(other, char *p) { *(volatile uint32_t *)(p + 1) = 3; }\n", "cause 6:", "(other b", "b+1, in the data"),
    "a load from an odd address": (
        "// image: task other args b\nchar b[8];\nuint32_t r;\nTASK(start) { }\n"
        "TASK(other, char *p) { r = *(volatile uint32_t *)(p + 1); }\n", "cause 4:", "b+1, in the data"),
    "a pointer to a local": (
        "TASK(child, uint32_t *p) { emit(*p); }\nTASK(start) { uint32_t x = 65; enqueue(child, 0, at(&x)); }\n",
        "cause 8:", "task.c:4: TASK(start)"),
    "a condition that doesn't hold": (
        "TASK(start, uint32_t n)\n{\n    require(n == 1);\n}\n", "cause 8:", "task.c:5: require(n == 1);"),
    "a child in the past": (
        "// image: task later ts 5\nTASK(start) { }\n"
        "TASK(later, uint32_t, uint32_t, uint32_t, uint32_t ts)\n{\n    enqueue(later, ts - 1);\n}\n",
        "cause 10:", "task.c:7: enqueue(later, ts - 1);", "a1 00000004"),
    "a child below the floor": (
        "// image: task outer ts 5\nTASK(start) { }\nTASK(after) { }\nTASK(inner) { enqueue_super(after, 4); }\n"
        "TASK(outer) { make_subdomain(ORDERED); enqueue_sub(inner, 0); }\n",
        "cause 10:", "(inner; timestamp 0, depth 2)"),
    "a child of no subdomain": (
        "TASK(start) { enqueue_sub(start, 0); }\n", "cause 11:", "task.c:3: TASK(start)"),
    "a second subdomain": (
        "TASK(start) { make_subdomain(ORDERED); make_subdomain(ORDERED); }\n", "cause 12:", "task.c:3:"),
    "a child above the root": (
        "TASK(start) { enqueue_super(start, 0); }\n", "cause 13:", "task.c:3: TASK(start)"),
    "domains that are too deep": (
        "TASK(start) { make_subdomain(ORDERED); enqueue_sub(start, 0); }\n", "cause 14:", "depth 16)"),
    "too many children": (
        "TASK(leaf) { }\nTASK(start) { for (int k = 0; k < 300; k++) enqueue(leaf, 0); }\n",
        "cause 15: a 257th child", "task.c:4: TASK(start)"),
    "too many bytes": (
        'TASK(start) { for (int k = 0; k < 30; k++) emit_text("0123456789"); }\n',
        "cause 16:", "task.c:3: TASK(start)"),
    "a wait for another task": (
        "volatile uint32_t is_ready;\nTASK(child) { is_ready = 1; }\n"
        "TASK(start) { enqueue(child, 0); while (!is_ready) {} }\n", "cause 17:", "task.c:5: TASK(start)"),
}
# Sources whose run ends normally and isn't what was meant, with the output and the window that come.
SILENT = {
    "a result that is taken too early": (
        "uint32_t sum = 7;\nTASK(child) { sum = 42; }\n"
        "TASK(start) { enqueue(child, 0); emit_number(sum); }\n", "7", None),
    "a pointer to a local, by a cast": (
        "// image: window seen\nuint32_t seen = 9;\nTASK(child, uint32_t *p) { seen = *p; }\n"
        "TASK(start) { volatile uint32_t x = 65; enqueue(child, 0, (uint32_t)&x); }\n", "", 0),
    "a timestamp below 0": (
        "TASK(late, uint32_t letter) { emit(letter); }\n"
        "TASK(start, uint32_t, uint32_t, uint32_t, uint32_t ts)\n"
        "{\n    enqueue(late, ts - 1, 'b');\n    enqueue(late, 5, 'a');\n}\n", "ab", None),
    "a quotient by 0": (
        "// image: window seen\nuint32_t seen = 9;\nTASK(divide, uint32_t a, uint32_t b) { seen = a / b; }\n"
        "TASK(start) { enqueue(divide, 0, 100, 0); }\n", "", 0xFFFFFFFF),
    "a remainder by 0": (
        "// image: window seen\nuint32_t seen = 9;\nTASK(divide, uint32_t a, uint32_t b) { seen = a % b; }\n"
        "TASK(start) { enqueue(divide, 0, 100, 0); }\n", "", 100),
    "timestamps of an unordered domain": (
        "// image: root unordered\nTASK(late, uint32_t letter) { emit(letter); }\n"
        "TASK(start) { enqueue(late, 2, 'b', .hint = 0); enqueue(late, 1, 'a', .hint = 1); }\n", "ba", None),
    "a local that is to be kept": (
        "// image: window kept\nuint32_t kept = 9;\nTASK(again, uint32_t is_first)\n{\n    volatile uint32_t own[2];\n"
        "    if (is_first)\n        own[0] = 5;\n    else\n        kept = own[0];\n}\n"
        "TASK(start) { enqueue(again, 1, 1); enqueue(again, 2, 0); }\n", "", 0),
}


def same_but_for_addresses(report: bytes) -> bytes:
    """A report without the addresses of its window: each compiler places variables as it likes."""
    return re.sub(rb"(?m)^window [0-9a-f]{8} ", b"window ", report)


def build_source(place: Place, name: str, text: str, words: Sequence[str] = ()) -> tuple[pathlib.Path, Answer]:
    """A folder with an image of this source, and the answer of the call that made it."""
    folder = folder_in_c(place, name, text)
    answer = place.call("fractal build", *words, str(folder))
    expect(answer.status == 0, f"an image of {name}", answer)
    return folder, answer


def folder_in_c(place: Place, name: str, text: str) -> pathlib.Path:
    """A folder with one source in C."""
    folder = folder_with(place, name)
    (folder / "task.c").write_text(text)
    return folder


def run_of(place: Place, folder: pathlib.Path, *words: str) -> bytes:
    """The report of a folder's image, which `check` accepts."""
    image = (folder / "image.bin").read_bytes()
    answer = place.call("fractal", "run", *words, stdin=image)
    checked = place.call("fractal", "check", stdin=image + answer.output)
    expect(checked.status == 0, "a report that is accepted", checked)
    return answer.output


def examples_in_c_are_one_for_both_compilers(place: Place) -> None:
    """by gcc and by clang the examples in C have their reports but for addresses; with workers, reports are accepted"""
    place.needs_program()
    for name in IN_C:
        wanted = same_but_for_addresses((place.clone / "examples" / name / "report").read_bytes())
        for words in COMPILERS:
            folder = place.root / "-".join(["built", *words, *name.split("/")])
            shutil.copytree(place.clone / "examples" / name, folder)
            answer = place.call("fractal build", *words, str(folder))
            expect(answer.status == 0, f"{name} by {words or GCC}", answer)
            report = same_but_for_addresses(run_of(place, folder))
            expect(report == wanted, f"the report of {name} by {words or GCC}", report)
            run_of(place, folder, "--workers", "4")


def c_and_assembly_are_one(place: Place) -> None:
    """shortest paths by hand and in C have one report, byte by byte"""
    by_hand, in_c = [(place.clone / "examples" / name / "report").read_bytes()
                     for name in ("shortest_paths", "c/shortest_paths")]
    expect(by_hand == in_c, "one report", (by_hand, in_c))


def what_needs_no_stack_runs_in_version_1(place: Place) -> None:
    """programs whose tasks need no stack have the same report in version 1, by both compilers"""
    place.needs_program()
    for name in WITHOUT_STACK:
        text = (place.clone / "examples" / name / "task.c").read_text()
        text = text.replace("// image: root", "// image: version 1\n// image: root")
        wanted = same_but_for_addresses((place.clone / "examples" / name / "report").read_bytes())
        for words in COMPILERS:
            folder, _ = build_source(place, "-".join([*words, name.replace("/", "-")]), text, words)
            expect((folder / "image.bin").read_bytes()[4] == 1, "an image of version 1")
            report = same_but_for_addresses(run_of(place, folder))
            expect(report == wanted, f"the report of {name}", report)


def sources_are_mixed(place: Place) -> None:
    """two files of C and one of assembly are one program, and a label may be an argument"""
    place.needs_program()
    folder = folder_in_c(place, "mixed", """#include "task.h"
// image: task start args 65 numbers
// image: window numbers
extern task_entry other, by_hand;
uint32_t numbers[2];
TASK(start, uint32_t n, uint32_t *to)
{
    to[0] = n;
    enqueue(other, 1, n + 1, at(&to[1]));
    enqueue(by_hand, 2, n + 2);
}
""")
    (folder / "other.c").write_text('#include "task.h"\nTASK(other, uint32_t n, uint32_t *to) { *to = n; emit(n); }\n')
    (folder / "third.s").write_text("    .globl by_hand\nby_hand:\n    li a7, 5\n    ecall\n    li a7, 0\n    ecall\n")
    for words in COMPILERS:
        answer = place.call("fractal build", *words, str(folder))
        expect(answer.status == 0, "an image", answer)
        report = same_but_for_addresses(run_of(place, folder))
        expect(report.endswith(b"output 4243\nwindow 00000041\nwindow 00000042\nend normal\n"), "the numbers", report)


def calls_keep_arguments_apart(place: Place) -> None:
    """products, quotients and calls as arguments of a child come out as they are, by both compilers"""
    place.needs_program()
    for words in COMPILERS:
        folder, _ = build_source(place, "-".join(["arguments", *words]), """#include "task.h"
// image: task start ts 3 args 12 7 100
// image: window seen
uint32_t seen[8], place;
__attribute__((noinline)) static uint32_t shared(uint32_t x, uint32_t y) { return place * 3 + x / y; }
TASK(child, uint32_t a, uint32_t b, uint32_t c, uint32_t ts)
{
    seen[place++] = a, seen[place++] = b, seen[place++] = c, seen[place++] = ts;
}
TASK(start, uint32_t x, uint32_t y, uint32_t z, uint32_t ts)
{
    enqueue(child, ts + x * y, y * z, z / y, shared(x, y), .hint = x % 5);
    enqueue(child, ts + shared(x * y, 3) * 9, (uint32_t)((uint64_t)x * 0x80000001u * z >> 32), x - shared(y, 1), z % y);
}
""", words)
        wanted = [7 * 100, 100 // 7, 12 // 7, 3 + 12 * 7]
        wanted += [12 * 0x80000001 * 100 % 2 ** 64 >> 32, 12 - 7, 100 % 7, 3 + 12 * 7 // 3 * 9]
        seen = [int(it, 16) for it in re.findall(rb"window \w+ (\w+)", run_of(place, folder))]
        expect(seen == wanted, f"the numbers {wanted}", seen)


def mistakes_in_c_are_refused(place: Place) -> None:
    """what sources or the linked program show is refused in a sentence with file and line, and nothing is written"""
    whole = {name: (FIRST_LINES + text, *parts) for name, (text, *parts) in REFUSED.items()} | REFUSED_WHOLE
    for words in COMPILERS:
        for name, (text, *parts) in whole.items():
            folder = folder_in_c(place, "-".join([name, *words]), text)
            answer = place.call("fractal build", *words, str(folder))
            expect(answer.status == 1, f"a refusal of {name} by {words or GCC}", answer)
            answer.tells(*parts)
            nothing_is_written(folder)
    expect(not any(place.temporary.iterdir()), "no temporary file")


def arguments_in_c_are_taken(place: Place) -> None:
    """a child takes numbers of each type up to 32 bits, as many as its task has parameters, in C and in C++"""
    text = FIRST_LINES + """extern task_entry unknown;
int8_t small; long whole; enum { A, B } kind; uint64_t wide; char letter; uint32_t x;
TASK(none) { x++; }
TASK(one, uint32_t a) { x += a; }
TASK(three, uint32_t a, uint32_t b, uint32_t c) { x += a + b + c; }
TASK(four, uint32_t a, uint32_t b, uint32_t c, uint32_t ts) { x += a + b + c + ts; }
TASK(start, uint32_t place, uint32_t end)
{
    if (spread(start, place, place, end))
        return;
    enqueue(none, -1);
    enqueue(none, 0, .hint = small);
    enqueue(one, whole);
    enqueue(one, letter, kind);
    enqueue(one, 5, at(&x), .hint = letter);
    enqueue(three, 0, 'a', x ? 1 : 2, end / 3u, .hint = place);
    enqueue(four, 0, 1, 2, 3, .hint = 4);
    enqueue(four, 0);
    enqueue(unknown, 0, 1, 2, 3);
    enqueue(x ? one : three, 0, 1, 2, 3);
    enqueue(one, (uint32_t)wide, (uint32_t)(wide >> 32));
}
TASK(unknown) { }
"""
    for words in COMPILERS:
        for suffix in (".c", ".cpp"):
            folder = folder_with(place, "-".join(["taken", suffix, *words]))
            (folder / f"task{suffix}").write_text(text)
            answer = place.call("fractal build", *words, str(folder))
            expect((answer.status, answer.errors) == (0, ""), f"an image of {suffix} by {words or GCC}", answer)


def arguments_in_cpp_are_refused(place: Place) -> None:
    """in C++ too an argument of 64 bits, a floating-point one, and one too many are reported with their lines"""
    for words in COMPILERS:
        for number, (call, part) in enumerate((
                ("enqueue(one, 0, wide)", "a child is given numbers of 32 bits"),
                ("enqueue(one, 0, 1, .hint = wide)", "a child is given numbers of 32 bits"),
                ("enqueue(one, point)", "a child is given numbers of 32 bits"),
                ("enqueue(one, 0, 1, 2)", "the task `one` has fewer parameters than it is given arguments"),
                ("enqueue(one, 0, 1, 2, 3, 4)", "a child has a timestamp and up to three arguments"))):
            folder = folder_with(place, "-".join([str(number), *words]))
            (folder / "task.cpp").write_text(FIRST_LINES + "uint64_t wide;\ndouble point;\nTASK(one, uint32_t) { }\n"
                                             f"TASK(start)\n{{\n    {call};\n}}\n")
            answer = place.call("fractal build", *words, str(folder))
            expect(answer.status == 1, f"a refusal of {call}", answer)
            answer.tells(f"task.cpp:8: {part}")
            nothing_is_written(folder)


def names_of_several_sources_are_told(place: Place) -> None:
    """a name that another source keeps to itself, and one that two define, are reported with their places"""
    sources = {
        "task.c": FIRST_LINES + "extern task_entry other, kept;\nvoid own(void);\n"
                                "TASK(start) { enqueue(other, 0); enqueue(kept, 0); own(); }\n",
        "more.c": '#include "task.h"\nuint32_t x;\nstatic void own(void) { x++; }\nTASK(more) { own(); }\n',
        "by_hand.s": "    .text\nother:\n    li a7, 0\n    ecall\n"}
    twice = {
        "task.c": FIRST_LINES + "uint32_t x;\nTASK(start) { emit(x++); }\nTASK(same) { }\n",
        "more.c": '#include "task.h"\nuint32_t x = 3;\nTASK(same) { x++; }\n',
        "by_hand.s": "    .globl more\nmore:\n    ret\n", "other.s": "    .globl more\nmore:\n    ret\n"}
    for words in COMPILERS:
        for name, files, parts in (
                ("kept", sources, ("task.c:5: `other` is defined at ", "by_hand.s:2, without a line `.globl other`",
                                   "task.c:5: `kept` is defined nowhere.",
                                   "task.c:5: `own` is defined at ", "more.c:3, as `static`")),
                ("twice", twice, ("task.c:3: `x` is defined here and at ", "more.c:2;", "more.c:3;",
                                  "task.c:5: `same` is defined here", "other.s:2: `more` is defined here and at ",
                                  "by_hand.s:2;"))):
            folder = folder_with(place, "-".join([name, *words]))
            for file, text in files.items():
                (folder / file).write_text(text)
            answer = place.call("fractal build", *words, str(folder))
            expect(answer.status == 1, f"a refusal of {name}", answer)
            answer.tells(*parts)
            expect("multiple definition" not in answer.errors, "no text of the linker", answer)
            nothing_is_written(folder)


def doubts_in_c_are_noted(place: Place) -> None:
    """what may be wrong is reported in a note, and built all the same"""
    for words in COMPILERS:
        for name, (text, *parts) in NOTED.items():
            _, answer = build_source(place, "-".join([name, *words]), FIRST_LINES + text, words)
            answer.tells("note: ", *parts)


def traps_in_c_are_explained(place: Place) -> None:
    """a trap in C is explained with its task, arguments, file, line, address and registers"""
    place.needs_program()
    for words in COMPILERS:
        for name, (text, *parts) in TRAPS.items():
            folder, _ = build_source(place, "-".join([name, *words]), FIRST_LINES + text, words)
            report = run_of(place, folder)
            answer = place.call("fractal explain", str(folder / "image.bin"), "-", stdin=report)
            for part in ("The run ended in a trap of the task", "task.c:", "  registers ", *parts):
                expect(part in answer.output.decode(), f"`{part}` of {name} by {words or GCC}", answer.output.decode())


def silent_mistakes_are_silent(place: Place) -> None:
    """mistakes that nothing detects have the result that the guide describes"""
    place.needs_program()
    for words in COMPILERS:
        for name, (text, output, word) in SILENT.items():
            folder, answer = build_source(place, "-".join([name, *words]), FIRST_LINES + text, words)
            report = run_of(place, folder)
            expect(report.endswith(b"end normal\n"), f"a normal end of {name}", report)
            wanted = f"output {output.encode().hex() or '-'}\n".encode()
            expect(wanted in report, f"the output {output} of {name}", report)
            if word is not None:
                expect(re.search(rb"window \w+ %08x\n" % word, report), f"the word {word} of {name}", report)


def ties_come_in_any_order(place: Place) -> None:
    """a join at the timestamp of what it joins is accepted in each order, and leaves other sums by other settings"""
    place.needs_program()
    text = (place.clone / "examples" / "c" / "tree_of_sums" / "task.c").read_text()
    folder, _ = build_source(place, "ties", text.replace("enqueue_sub(join, 1,", "enqueue_sub(join, 0,"))
    reports = [run_of(place, folder, "--tiles", str(tiles)) for tiles in range(1, 8)]
    sums = {found[1] for report in reports if (found := re.search(rb"window \w+ (\w+)", report))}
    expect(len(sums) > 1, "more than one sum", sums)


def scratch_of_all_conflicts(place: Place) -> None:
    """tasks that fill one array of all are aborted, those that fill locals are not; their results are the same"""
    place.needs_program()
    place.needs_second_program()
    study = (place.clone / "docs" / "machine" / "STUDY.md").read_text()
    text = study[study.index('#include "task.h"'):].partition("```")[0]
    shared = text.replace("    volatile uint32_t scratch", "    static volatile uint32_t scratch")
    results = []
    for name, source, is_taken_back in (("own", text, False), ("shared", shared, True)):
        folder, _ = build_source(place, name, source)
        results.append(re.findall(rb"window \w+ (\w+)", run_of(place, folder)))
        answer = place.call("fractal study", str(folder / "image.bin"), "--tiles", "4", "--cores", "2")
        head, _, row = (line.strip("| ").split(" | ") for line in answer.output.decode().splitlines())
        taken_back = dict(zip(head, row))["Aborted"]
        expect((taken_back != "0") == is_taken_back, f"what is aborted with {name} scratch", answer)
    expect(results[0] == results[1] and len(results[0]) == 16, "the same results", results)


def packed_structs_are_read(place: Place) -> None:
    """a packed struct is read at any address, by both compilers"""
    place.needs_program()
    source = """#include "task.h"
// image: task start
// image: window seen
struct __attribute__((packed)) odd { uint8_t first; uint32_t word; } odd = {1, 0x12345678};
uint32_t seen;
TASK(start) { seen = ((volatile struct odd *)&odd)->word; }
"""
    for words in COMPILERS:
        folder, _ = build_source(place, "-".join(["packed", *words]), source, words)
        expect(b" 12345678\n" in run_of(place, folder), "the word")


def traps_are_explained_from_sources(place: Place) -> None:
    """a trap in C is explained from the listing, the folder and the source alike"""
    place.needs_program()
    folder, _ = build_source(place, "a trap", FIRST_LINES + "TASK(start)\n{\n    require(0);\n}\n")
    report = run_of(place, folder)
    for source in ((), (folder,), (folder / "task.c",), (folder / "listing",)):
        answer = place.call("fractal explain", str(folder / "image.bin"), "-", *source, stdin=report)
        expect(b"task.c:5: require(0);" in answer.output, "the line", answer)


def long_ways_are_counted(place: Place) -> None:
    """the stack of thousands of functions that call one another is counted, and the sentence stays short"""
    text = "static __attribute__((noinline)) uint32_t f0(uint32_t x) { volatile uint32_t y = x; return y + 1; }\n"
    for number in range(1, 1_500):
        text += (f"static __attribute__((noinline)) uint32_t f{number}(uint32_t x) "
                 f"{{ volatile uint32_t y = x; return f{number - 1}(y) + y; }}\n")
    folder = folder_in_c(place, "long way", FIRST_LINES + text + "uint32_t out;\nTASK(start) { out = f1499(1); }\n")
    answer = place.call("fractal build", str(folder))
    answer.sentence("the task `start` needs", "f1499", "more.")
    expect(len(answer.errors) < 1_000, "a short sentence", answer)
    nothing_is_written(folder)


def missing_compilers_are_told(place: Place) -> None:
    """without gcc, clang, or the library for products it says which package has it"""
    text = FIRST_LINES + "uint32_t x;\nTASK(start, uint32_t a, uint32_t b) { x = a / b; }\n"
    folder = folder_in_c(place, "alone", text)
    place.without(GCC, CLANG)
    place.call("fractal build", str(folder)).sentence(GCC, "gcc-riscv64-unknown-elf")
    place.call("fractal build", "--clang", str(folder)).sentence("clang isn't in the path")
    nothing_is_written(folder)


def missing_libgcc_is_told(place: Place) -> None:
    """clang without gcc's library refuses a quotient, and builds what needs none"""
    text = FIRST_LINES + "uint32_t x;\nTASK(start, uint32_t a, uint32_t b) { x = a / b; }\n"
    folder = folder_in_c(place, "alone", text)
    place.without(GCC)
    place.call("fractal build", "--clang", str(folder)).sentence("task.c:4:", "`__udivsi3`", "gcc-riscv64-unknown-elf")
    (folder / "task.c").write_text(FIRST_LINES + "TASK(start) { }\n")
    expect(place.call("fractal build", "--clang", str(folder)).status == 0, "an image without a quotient")


TRIES = (
    examples_in_c_are_one_for_both_compilers, c_and_assembly_are_one, what_needs_no_stack_runs_in_version_1,
    sources_are_mixed, calls_keep_arguments_apart, mistakes_in_c_are_refused, arguments_in_c_are_taken,
    arguments_in_cpp_are_refused, names_of_several_sources_are_told, doubts_in_c_are_noted, traps_in_c_are_explained,
    silent_mistakes_are_silent, ties_come_in_any_order, scratch_of_all_conflicts, packed_structs_are_read,
    traps_are_explained_from_sources, long_ways_are_counted, missing_compilers_are_told, missing_libgcc_is_told,
)
