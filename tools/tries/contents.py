"""Tries of data and tasks from files, and of sources that other compilers wrote."""
from __future__ import annotations

import pathlib
import shutil
import struct
import subprocess
import time

from yotarimu.images.compiler import GCC, LIBRARY

from tries.build import END, folder_with, nothing_is_written
from tries.c_tasks import COMPILERS, FIRST_LINES, folder_in_c, run_of
from tries.place import Place, expect

TASK = "# image: task main\n" + END
# Two words with a byte before them, and five bytes that begin as zeros.
DATA = "    .data\n    .byte 9\n    .balign 4\nfirst:\n    .word 1, 2\n    .bss\nlast:\n    .zero 5\n"
SIZES = "    .size first, 8\n    .size last, 5\n"
HEADER = 32
# Lines on files, what the file has, and a part of the sentence that refuses it.
ODD_DATA = (
    ("data first given.csv", b"1 two", "given.csv:1: `two` isn't a number from -2147483648 to 4294967295"),
    ("data first given.csv", b"1,\n-2147483649", "given.csv:2: `-2147483649`"),
    ("data first given.csv", b"4294967296", "`4294967296`"),
    ("data first given.csv halves", b"-1, 65536", "`65536` isn't a number from -32768 to 65535"),
    ("data first given.csv bytes", b"0x100", "`0x100` isn't a number from -128 to 255"),
    ("data first given.csv longs", b"1", "`longs` isn't a width"),
    ("data first given.bin words", b"1234", "`words` is the width of numbers"),
    ("data first given.csv", b"1 2 3", "given.csv has 12 bytes, and `first` has room for 8"),
    ("data last given.bin", b"123456", "given.bin has 6 bytes, and `last` has room for 5"),
    ("tasks given.csv", b"main\nother,1", "given.csv:2: no label `other`"),
    ("tasks given.csv", b"main,-1", "given.csv:1: the timestamp is a number"),
    ("tasks given.csv", b"main,1,2,3,4,5", "given.csv:1: a task has a label"),
    ("tasks given.csv", b"first,1", "given.csv:1: the label `first` isn't in the text"),
    ("tasks given.csv", b"main,0,one", "given.csv:1: an argument is a number or a label"),
    ("tasks given.csv", b"main\n" * 65_536, "65537 initial tasks are more"),
    ("tasks given.bin", b"0" * 21, "isn't a multiple of the 20 of a task"),
)
# A program in C whose data a file gives, and what it emits of it.
SUMS = FIRST_LINES + """// image: data numbers numbers.csv
uint32_t numbers[4];
TASK(start)
{
    uint32_t sum = 0;
    for (uint32_t k = 0; k < 4; k++)
        sum += numbers[k];
    emit_number(sum);
}
"""
# What a header for C++ has to take and to refuse, with parts of the sentences.
IN_CPP = FIRST_LINES + """struct cell { uint32_t value; } cells[2];
template <typename T> static T twice(T value) { return value + value; }
TASK(later, uint32_t number, cell *to, uint32_t, uint32_t ts)
{
    to->value = twice(number) + ts;
    emit_number(cells[0].value);
}
TASK(feed, uint32_t place, uint32_t end)
{
    if (spread(feed, 1, place, end))
        return;
    for (; place < end; place++)
        enqueue(later, 2, place, at(&cells[place % 2]), .hint = place);
}
TASK(start) { enqueue(feed, 1, 0, 40); }
"""
REFUSED_IN_CPP = {
    "a pointer": ("uint32_t x;\nTASK(start, uint32_t) { enqueue(start, 0, &x); }\n",
                  "task.cpp:4: a pointer is given as at"),
    "64 bits": ("TASK(start, uint32_t) { enqueue(start, 0, 5ull); }\n",
                "task.cpp:3: a child is given numbers of 32 bits"),
    "a point": ("TASK(start, uint32_t) { enqueue(start, 0, 1.5f); }\n",
                "task.cpp:3: a child is given numbers of 32 bits"),
    "too many": ("TASK(start) { enqueue(start, 0, 1, 2, 3, 4, 5); }\n",
                 "task.cpp:3:", "a timestamp and up to three arguments"),
    "a function": ("void f() {}\nTASK(start) { enqueue(f, 0); }\n", "task.cpp:4: only a task can be enqueued"),
    "a byte": ("TASK(start, char c) { emit(c); }\n", "task.cpp:3: a parameter of a task has 32 bits"),
    "a fifth": ("TASK(start, int, int, int, int, int) { }\n", "task.cpp:3: a task has three arguments"),
}


def initial_data(folder: pathlib.Path) -> tuple[bytes, bytes]:
    """The initial data of an image, and the bytes after it."""
    image = (folder / "image.bin").read_bytes()
    text, initial = struct.unpack_from("<2I", image, 8)
    start = HEADER + 4 * text
    return image[start:start + initial], image[start + initial:]


def data_comes_from_files(place: Place) -> None:
    """a file's bytes, or the numbers of a text, stand where their label is, also where all began as zeros"""
    for number, (line, given, wanted) in enumerate((
            ("data first given.csv", b"-1, 0x10\n", b"\x09\0\0\0\xff\xff\xff\xff\x10\0\0\0"),
            ("data first given.csv", b"7", b"\x09\0\0\0\x07\0\0\0\x02\0\0\0"),
            ("data first given.csv halves", b"1 -2\r\n3\t4", b"\x09\0\0\0\x01\0\xfe\xff\x03\0\x04\0"),
            ("data last given.bin", b"abc", b"\x09\0\0\0\x01\0\0\0\x02\0\0\0abc"),
            ("data last given.csv bytes", b"255,-128", b"\x09\0\0\0\x01\0\0\0\x02\0\0\0\xff\x80"))):
        folder = folder_with(place, f"data {number}", task=f"# image: {line}\n{TASK}{DATA}{SIZES}")
        (folder / line.split()[2]).write_bytes(given)
        answer = place.call("fractal build", str(folder))
        expect(answer.status == 0, "an image", answer)
        expect(initial_data(folder)[0] == wanted, f"the data of `{line}`", initial_data(folder)[0])


def tasks_come_from_files(place: Place) -> None:
    """initial tasks are rows of a text, with labels and numbers, or bytes as in an image, behind those of lines"""
    row = struct.Struct("<5I")
    text = "# image: tasks given.csv\n# image: tasks given.bin\n" + TASK + DATA
    folder = folder_with(place, "tasks", task=text)
    (folder / "given.csv").write_text("main\n\nmain, 5\nmain,0x10,1,first,4294967295\n")
    (folder / "given.bin").write_bytes(row.pack(0x10004, 1, 2, 3, 4))
    answer = place.call("fractal build", str(folder))
    expect(answer.status == 0, "an image", answer)
    tasks = list(row.iter_unpack(initial_data(folder)[1]))
    wanted = [(0x10000, 0, 0, 0, 0), (0x10000, 5, 0, 0, 0), (0x10000, 16, 1, 0x10000004, 0xFFFFFFFF),
              (0x10004, 1, 2, 3, 4), (0x10000, 0, 0, 0, 0)]
    expect(tasks == wanted, "the tasks", tasks)


def odd_files_are_refused(place: Place) -> None:
    """a file that doesn't fit, or has what isn't a number or task, is refused with the line, and nothing is written"""
    for number, (line, given, part) in enumerate(ODD_DATA):
        folder = folder_with(place, f"odd {number}", task=f"# image: {line}\n{TASK}{DATA}{SIZES}")
        (folder / line.split()[-1 if line.startswith("tasks") else 2]).write_bytes(given)
        answer = place.call("fractal build", str(folder))
        answer.sentence(part)
        left = [path.name for path in folder.iterdir() if path.name in ("image.bin", "listing")]
        expect(not left, "nothing written", left)


def places_are_filled_once(place: Place) -> None:
    """two files for one place are refused, and so is a static variable, which a compiler may take as zeros"""
    text = f"# image: data first one.bin\n# image: data first two.bin\n{TASK}{DATA}{SIZES}"
    folder = folder_with(place, "twice", task=text)
    for name in ("one", "two"):
        (folder / f"{name}.bin").write_bytes(b"1")
    place.call("fractal build", str(folder)).sentence("task.s:2:", "task.s:1 fills a part of this too")
    for words in COMPILERS:
        static = SUMS.replace("uint32_t numbers[4]", "__attribute__((used)) static uint32_t numbers[4]")
        folder = folder_in_c(place, "-".join(["static", *words]), static)
        (folder / "numbers.csv").write_text("1")
        place.call("fractal build", *words, str(folder)).sentence("task.c:3: `numbers` is static")


def large_files_cost_little(place: Place) -> None:
    """16 MB of data from a file are built within seconds, and labels beyond what a listing shows are in it"""
    text = "// image: data table table.bin\nuint32_t table[4194304 - 8], after[4];\n"
    text += "TASK(start) { after[1] = table[7]; }\n"
    folder = folder_in_c(place, "large", FIRST_LINES + text)
    (folder / "table.bin").write_bytes(bytes(range(256)) * 65_535)
    start = time.monotonic()
    expect(place.call("fractal build", str(folder)).status == 0, "an image")
    took = time.monotonic() - start
    expect(took < 20, "seconds", took)
    listing = (folder / "listing").read_text()
    expect("<table>:" in listing and "<after>:" in listing, "both labels in the listing")


def data_from_files_is_read(place: Place) -> None:
    """a program in C finds what a file gave, by both compilers"""
    place.needs_program()
    for words in COMPILERS:
        folder = folder_in_c(place, "-".join(["sums", *words]), SUMS)
        (folder / "numbers.csv").write_text("1, 20\n300 4000\n")
        answer = place.call("fractal build", *words, str(folder))
        expect(answer.status == 0, "an image", answer)
        expect(b"\noutput 34333231\n" in run_of(place, folder), "4321")


def cpp_is_built(place: Place) -> None:
    """tasks in C++ are built by both compilers, and what they make is that of C"""
    for words in COMPILERS:
        folder = folder_with(place, "-".join(["cpp", *words]))
        (folder / "task.cpp").write_text(IN_CPP)
        answer = place.call("fractal build", *words, str(folder))
        expect((answer.status, answer.errors) == (0, ""), "an image", answer)
        for name, (text, *parts) in REFUSED_IN_CPP.items():
            folder = folder_with(place, "-".join(["cpp", name, *words]))
            (folder / "task.cpp").write_text(FIRST_LINES + text)
            answer = place.call("fractal build", *words, str(folder))
            expect(answer.status == 1, f"a refusal of {name} by {words or GCC}", answer)
            answer.tells(*parts)
            nothing_is_written(folder)


def cpp_runs(place: Place) -> None:
    """tasks in C++ run, and the children of a tree are all there once"""
    place.needs_program()
    for words in COMPILERS:
        folder = folder_with(place, "-".join(["cpp", *words]))
        (folder / "task.cpp").write_text(IN_CPP)
        expect(place.call("fractal build", *words, str(folder)).status == 0, "an image")
        report = run_of(place, folder)
        # The start, its child, three parts of forty places, and a task for each place.
        expect(report.count(b"\n") - 3 == 1 + 1 + 3 + 40, "45 tasks", report)


def other_compilers_are_linked(place: Place) -> None:
    """what clang writes as assembly, as LLVM's own language and as an object is built, and runs alike"""
    place.needs_program()
    source = place.clone / "examples" / "c" / "breadth_first" / "task.c"
    wanted = (source.parent / "report").read_bytes()
    options = ["clang", "--target=riscv32", "-march=rv32i", "-mabi=ilp32", "-O2", "-ffreestanding",
               "-Wno-c2x-extensions", "-I", str(LIBRARY)]
    about = "image: task visit ts 1 args 0\n{0} image: window level 6\n"
    for suffix, mark, words in (("s", "#", ["-S"]), ("ll", ";", ["-S", "-emit-llvm"]), ("o", "#", ["-c"])):
        folder = folder_with(place, suffix)
        made = folder / f"task.{suffix}"
        subprocess.run([*options, *words, "-o", str(made), str(source)], check=True)
        lines = f"{mark} {about.format(mark)}"
        if suffix == "o":
            (folder / "about.s").write_text(lines)
        else:
            made.write_text(lines + made.read_text())
        answer = place.call("fractal build", str(folder))
        expect((answer.status, answer.errors) == (0, ""), f"an image of .{suffix}", answer)
        report = run_of(place, folder)
        expect(report.splitlines()[:-8] == wanted.splitlines()[:-8], f"the report of .{suffix}", report)


def odd_objects_are_refused(place: Place) -> None:
    """what isn't an object of the machine, and an object beside its source, are refused in a sentence"""
    folder = folder_with(place, "no object")
    (folder / "task.o").write_bytes(b"\x7fELF")
    place.call("fractal build", str(folder)).sentence("task.o: this isn't an object file")
    shutil.copy("/bin/true", folder / "task.o")
    place.call("fractal build", str(folder)).sentence("task.o: this isn't an object file")
    folder = folder_with(place, "both", task=TASK)
    (folder / "task.o").write_bytes(b"\x7fELF")
    place.call("fractal build", str(folder)).sentence("task.o and task.s have one name")


def llvm_wants_clang(place: Place) -> None:
    """without clang a source of LLVM is refused with that reason, also if gcc compiles C"""
    folder = folder_with(place, "llvm")
    (folder / "task.ll").write_text("; image: task main\n")
    place.without("clang")
    place.call("fractal build", str(folder)).sentence("clang isn't in the path")


TRIES = (
    data_comes_from_files, tasks_come_from_files, odd_files_are_refused, places_are_filled_once,
    large_files_cost_little, data_from_files_is_read, cpp_is_built, cpp_runs, other_compilers_are_linked,
    odd_objects_are_refused, llvm_wants_clang,
)
