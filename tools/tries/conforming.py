"""Tries of ./fractal conform, of the page for compiler writers, and of compilers that are named."""
from __future__ import annotations

import pathlib
import re
import shutil

from yotarimu.comparing.conformance import cases_in
from yotarimu.comparing.runs import MOST_COMMITS, end_of_report
from yotarimu.comparing.serial_orders import OrderedMachine
from yotarimu.images.compiler import CLANG, GCC, need_compiler
from yotarimu.images.image import read_image
from yotarimu.reports.report import read_report

from tries.build import END, folder_with, nothing_is_written
from tries.place import Place, expect, one_sentence_each

CALL = "fractal conform"
# Programs of each kind, so that a try takes seconds; all of them are `./fractal conform`.
SOME = ("start_arguments", "call_1", "call_5", "trap_07", "trap_17", "limit_stack_below", "stack_too_large", "wide")
PAGE = pathlib.Path("docs", "guest", "COMPILERS.md")
BLOCK = r"(?m)^```{}\n(# image|; image)(.*?)^```$"


def programs_conform(place: Place) -> None:
    """some of the small programs leave what they must by gcc and by clang, fast and as they are written"""
    need_compiler(GCC, GCC)
    need_compiler(CLANG, CLANG)
    answer = place.call(CALL, *SOME, "--levels", "O0,O2")
    expect(answer.status == 0 and b"32 programs by gcc" in answer.output, "32 right programs", answer)
    answer = place.call(CALL, "call_1", "--clang", "--levels", "Os")
    expect(answer.status == 0 and b"1 program by clang" in answer.output, "one by clang", answer)
    place.is_clean()


def other_compilers_conform(place: Place) -> None:
    """a command that makes objects is called for each program, and one that makes wrong code is printed"""
    need_compiler(GCC, GCC)
    library = place.clone / "examples" / "c" / "library"
    options = f"-march=rv32i -mabi=ilp32 -ffreestanding -msmall-data-limit=0 -fno-pic -mstrict-align -I '{library}' -c"
    right = place.stub(place.root / "right", f'exec {GCC} {options} -O1 "$1" -o "$2"\n')
    wrong = place.stub(place.root / "wrong", "sed 's/enqueue(/enqueue_sub(/' \"$1\" |"
                                             f' {GCC} {options} -x c - -o "$2"\n')
    answer = place.call(CALL, *SOME, "--compiler", f"'{right}'")
    expect(answer.status == 0 and b"8 programs" in answer.output, "8 right programs", answer)
    answer = place.call(CALL, "call_1", "--compiler", f"'{wrong}'")
    expect(answer.status == 1 and b"it ends with `trap 11" in answer.output, "a wrong program", answer)


def images_of_other_languages_conform(place: Place) -> None:
    """images that another tool made are held to what their cases must leave"""
    folder = folder_with(place, "images", task=(
        "# image: task main\n# image: version 2\nmain:\n    li a0, 3\n    lui t0, 0x20000\n    sw a0, -4(t0)\n"
        + END[6:]))
    expect(place.call("fractal build", str(folder)).status == 0, "an image")
    shutil.copy(folder / "image.bin", folder / "limit_stack_below.bin")
    answer = place.call(CALL, "--images", str(folder))
    expect(answer.status == 0 and b"1 program by" in answer.output, "a right image", answer)
    shutil.copy(folder / "image.bin", folder / "call_5.bin")
    answer = place.call(CALL, "--images", str(folder))
    expect(answer.status == 1 and b"call_5 by" in answer.output and b"1 wrong" in answer.output, "a wrong one", answer)


def runs_here_are_the_programs(place: Place) -> None:
    """what the small programs leave here is what the program's report says"""
    place.needs_program()
    need_compiler(GCC, GCC)
    for case in cases_in(place.clone / "examples" / "conformance"):
        if case.refused is not None or case.name == "limit_data":
            continue
        folder = place.root / "own" / case.name
        folder.mkdir(parents=True)
        shutil.copy(case.path, folder / "task.c")
        expect(place.call("fractal build", str(folder)).status == 0, f"an image of {case.name}")
        data = (folder / "image.bin").read_bytes()
        report = read_report(place.call("fractal", "run", stdin=data).output.decode(), case.name)
        left = OrderedMachine(read_image(data, case.name), 0).result(MOST_COMMITS)
        expect((left.end, left.output) == (end_of_report(report), report.output), f"one end of {case.name}", report)


def programs_of_the_page_are_built(place: Place) -> None:
    """the programs of the page in assembly and in LLVM's language are built, and count the same tasks"""
    place.needs_program()
    need_compiler(CLANG, CLANG)
    text = (place.clone / PAGE).read_text()
    for language, name in (("asm", "task.s"), ("llvm", "task.ll")):
        found = re.search(BLOCK.format(language), text, re.DOTALL)
        expect(found, f"a program in {language}")
        folder = place.root / language
        folder.mkdir()
        (folder / name).write_text(f"{found[1]}{found[2]}" if found else "")
        answer = place.call("fractal build", str(folder))
        expect((answer.status, answer.errors) == (0, ""), f"an image of {language}", answer)
        report = place.call("fractal", "run", stdin=(folder / "image.bin").read_bytes()).output
        expect(report.endswith(b" 00000004\nend normal\n"), "four tasks", report)


def compilers_are_named(place: Place) -> None:
    """--gcc and --clang name compilers, whose versions are in the listing; other programs are refused in a sentence"""
    need_compiler(GCC, GCC)
    need_compiler(CLANG, CLANG)
    folder = place.root / "named"
    folder.mkdir()
    (folder / "task.c").write_text('#include "task.h"\n// image: task start\nTASK(start) { emit(65); }\n')
    for name, kind in ((GCC, "gcc"), (CLANG, "clang")):
        own = place.stub(place.root / f"my-{kind}", f'exec {name} "$@"\n')
        answer = place.call("fractal build", f"--{kind}", str(own), str(folder))
        expect((answer.status, answer.errors) == (0, ""), f"an image by {own}", answer)
        expect(re.search(rf"made of task.c by {kind} \d+\.\d+", (folder / "listing").read_text()), "its version")
        (folder / "image.bin").unlink()
        (folder / "listing").unlink()
    other = place.stub(place.root / "other", "echo x86_64-linux-gnu\n")
    one_sentence_each([
        (place.call("fractal build", "--gcc", str(other), str(folder)), ["`x86_64-linux-gnu`", "a gcc for RISC-V"]),
        (place.call("fractal build", "--gcc", "nowhere", str(folder)), ["`nowhere` isn't one"]),
        (place.call("fractal build", "--gcc"), ["--gcc takes the path of a compiler"]),
        (place.call("fractal build", "--gcc=x", "--gcc=y", str(folder)), ["`--gcc` is given twice"]),
    ])
    nothing_is_written(folder)


def conform_refuses_bad_words(place: Place) -> None:
    """unknown cases, levels and folders are refused in a sentence"""
    one_sentence_each([
        (place.call(CALL, "call_7"), ["no case `call_7`", "call_5"]),
        (place.call(CALL, "--levels", "O9"), ["--levels", "`O9`"]),
        (place.call(CALL, "--images", "nowhere"), ["nowhere: no such folder"]),
        (place.call(CALL, "--images", str(place.root)), ["it has no image of a case"]),
        (place.call(CALL, "--compiler", "x", "--levels", "O1"), ["three ways"]),
    ])
    answer = place.call(CALL, "call_5", "--compiler", "false")
    expect(answer.status == 1 and b"the compiler made no object" in answer.output, "a failing compiler", answer)


TRIES = (
    programs_conform, other_compilers_conform, images_of_other_languages_conform, runs_here_are_the_programs,
    programs_of_the_page_are_built, compilers_are_named, conform_refuses_bad_words,
)
