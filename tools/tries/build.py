"""Tries of ./fractal build."""
from __future__ import annotations

import os
import pathlib
import signal
import time

from yotarimu.images.source import SUFFIXES
from yotarimu.programs.examples import EXAMPLES, SCHEDULES, with_sources

from tries.place import Place, expect, one_sentence_each

# A task that ends, and the line that describes it.
END = "main:\n    li a7, 0\n    ecall\n"
GOOD = "# image: task main\n" + END
DATA = "    .data\n    .balign 4\nfirst:\n    .word 1, 2\n"
# Lines that describe nothing, and a part of the sentence that refuses each.
MISSHAPEN = (
    ("# image: root order", "root ordered"),
    ("# image: root", "root ordered"),
    ("# image: root ordered now", "root ordered"),
    ("# image: window", "window LABEL [WORDS]"),
    ("# image: window foo", "no label `foo`"),
    ("# image: window first", "doesn't say how large `first` is, so a number of words is wanted"),
    ("# image: window first 5000", "0 to 4096"),
    ("# image: window foo 1", "no label `foo`"),
    ("# image: window first -1", "0 to 4096"),
    ("# image: window first 3", "ends after the data"),
    ("# image: window main 1", "isn't in the data"),
    ("# image: data", "data BYTES"),
    ("# image: data 7", "8 bytes, which is more than 7"),
    ("# image: data much", "0 to 16777216"),
    ("# image: task", "label is missing"),
    ("# image: task ts 1", "label is missing"),
    ("# image: task nowhere", "no label `nowhere`"),
    ("# image: task first", "isn't in the text"),
    ("# image: task main ts", "number is missing"),
    ("# image: task main ts -1", "0 to 4294967295, in decimal or after 0x, and not `-1`"),
    ("# image: task main ts 4294967296", "0 to 4294967295"),
    ("# image: task main args", "one to three"),
    ("# image: task main args 1 2 3 4", "and not 4"),
    ("# image: task main args one", "no label `one`"),
    ("# image: task main args -1", "0 to 4294967295, in decimal or after 0x, and not `-1`"),
    ("# image: task main arg 5", "`arg` isn't known"),
    ("# image: task main args 5 ts 1", "no label `ts`"),
    ("# image: task main 5", "`5` isn't known"),
    ("# image: tasks", "tasks FILE"),
    ("# image: tasks nowhere.csv", "no file"),
    ("# image: tasks one.csv two.csv", "tasks FILE"),
    ("# image: data first nowhere.bin", "no file"),
    ("# image: data nowhere one.bin", "no label `nowhere`"),
    ("# image: data main one.bin", "isn't in the data"),
    ("# image: data first one.bin words more", "data LABEL FILE"),
    ("# image: todo", "`todo` describes nothing"),
    ("# image:", "describes nothing"),
    ("#image: rooot ordered", "`rooot` describes nothing"),
    ("# image: version", "version 1` or"),
    ("# image: version 3", "version 1` or"),
    ("# image: version 1 2", "version 1` or"),
    ("# image task main", "a colon is missing"),
)


def folder_with(place: Place, name: str, **sources: str) -> pathlib.Path:
    """A folder of sources, in a folder with a blank in its name."""
    folder = place.root / "my tasks" / name
    folder.mkdir(parents=True)
    for source, text in sources.items():
        (folder / f"{source}.s").write_text(text)
    return folder


def nothing_is_written(folder: pathlib.Path) -> None:
    """Expects a folder to have its sources alone."""
    left = sorted(path.name for path in folder.iterdir() if path.suffix not in SUFFIXES)
    expect(not left, "nothing written", left)


def examples_are_rebuilt(place: Place) -> None:
    """the project's examples and schedules come out byte for byte, by name or all, with their listings; C's aside"""
    answer = place.call("fractal build", "--all")
    built = len(with_sources(EXAMPLES + SCHEDULES))
    expect(answer.status == 0 and answer.output.count(b"image.bin\n") == built, "all examples and schedules", answer)
    # Each compiler, and each version of it, makes other images of C.
    place.call("/usr/bin/env", "git", "-C", str(place.clone), "checkout", "-q", "examples/c")
    place.is_clean()
    for name in ("hello", "schedules/stall"):
        expect(place.call("fractal build", name).status == 0, f"{name} by its name")
    place.is_clean()


def folders_are_anywhere(place: Place) -> None:
    """a folder is taken by its relative or absolute path, with blanks in it, through a link, and from anywhere"""
    folder = folder_with(place, "one", task=GOOD)
    (place.root / "link").symlink_to(folder)
    (place.root / "launcher").symlink_to(place.clone / "fractal")
    linked = str(place.root / "launcher")
    for launcher, word, here in (("fractal", "my tasks/one", place.root), ("fractal", ".", folder),
                                 ("fractal", str(folder), pathlib.Path("/")), ("fractal", "link", place.root),
                                 (linked, "../one", folder)):
        answer = place.call(launcher, "build", word, cwd=here)
        expect(answer.status == 0, f"an image in {word} from {here}", answer)
        (folder / "image.bin").unlink()
        (folder / "listing").unlink()


def sources_are_linked(place: Place) -> None:
    """several sources become one image, in the order of their names, and the listing has each address"""
    first = "# image: task main\n    .globl main\nmain:\n    call other\n    li a7, 0\n    ecall\n"
    first += "    .data\n    .byte 7\n"
    second = "    .globl other\nother:\n    ret\n    .data\nword:\n    .word 5\n"
    folder = folder_with(place, "two", a=first, b=second)
    answer = place.call("fractal build", str(folder))
    expect(answer.status == 0, "an image", answer)
    data = (folder / "image.bin").read_bytes()[32 + 4 * 5:][:8]
    expect(data == bytes([7, 0, 0, 0, 5, 0, 0, 0]), "data at multiples of 4", data)
    listing = (folder / "listing").read_text()
    for part in ("00010000 <main>:", "00010010 <other>:", "00010010  00008067  jalr zero,0(ra)", "| b.s:3 | ret",
                 "10000004 <word>:"):
        expect(part in listing, f"`{part}` in the listing", listing)


def sections_are_placed(place: Place) -> None:
    """.rodata, .sdata and .bss are placed, and a program that adds them up has the right sum"""
    place.needs_program()
    folder = folder_with(place, "sections", task="# image: task main\n# image: window sum 1\n" + """
main:
    la t0, constant
    lw a0, 0(t0)
    la t0, small
    lw a1, 0(t0)
    add a0, a0, a1
    la t0, plain
    lw a1, 0(t0)
    add a0, a0, a1
    la t0, sum
    lw a1, 0(t0)
    add a0, a0, a1
    sw a0, 0(t0)
    li a7, 0
    ecall
    .section .rodata.tables, "a"
constant: .word 1000
    .section .sdata, "aw"
small: .word 200
    .data
plain: .word 30
    .bss
    .balign 4
sum: .zero 4
""")
    expect(place.call("fractal build", str(folder)).status == 0, "an image")
    answer = place.call("fractal", "run", stdin=(folder / "image.bin").read_bytes())
    expect(answer.output.endswith(b"window 10000008 000004ce\nend normal\n"), "the sum 1230", answer)


def other_sections_are_refused(place: Place) -> None:
    """a section without a place in the image is refused, and nothing is written"""
    folder = folder_with(place, "section", task=GOOD + '    .section .mine, "aw"\n    .word 1\n')
    place.call("fractal build", str(folder)).sentence("task.s", ".mine", ".bss")
    nothing_is_written(folder)


def sections_without_flags_are_refused(place: Place) -> None:
    """a section that the assembler would leave out of memory is refused, and nothing is written"""
    folder = folder_with(place, "flags", task=GOOD + "    .section .sdata\n    .word 1\n")
    place.call("fractal build", str(folder)).sentence("task.s", ".sdata", "flags")
    nothing_is_written(folder)


def misshapen_lines_are_refused(place: Place) -> None:
    """each unknown or misshapen line is refused with its file and line, and nothing is written"""
    for number, (line, part) in enumerate(MISSHAPEN):
        folder = folder_with(place, f"line {number}", task=f"# image: task main\n{line}\n{END}{DATA}")
        place.call("fractal build", str(folder)).sentence("task.s:2:", part)
        nothing_is_written(folder)


def second_lines_are_refused(place: Place) -> None:
    """a second line on the root, the data or the window is refused, as is a task's label that two sources have"""
    folder = folder_with(place, "twice", a="# image: root ordered\n" + GOOD, b="# image: root unordered\n")
    place.call("fractal build", str(folder)).sentence("b.s:1:", "a.s:1")
    folder = folder_with(place, "same label", a=GOOD, b=END)
    place.call("fractal build", str(folder)).sentence("a.s:1:", "more than one source has a label `main`")


def odd_windows_are_refused(place: Place) -> None:
    """a window at no multiple of 4 is refused with its file and line"""
    data = "    .data\n    .byte 1\nodd:\n    .word 1, 2\n"
    folder = folder_with(place, "odd", task=f"# image: window odd 1\n{GOOD}{data}")
    place.call("fractal build", str(folder)).sentence("task.s:1:", "multiple of 4")


def odd_tasks_are_refused(place: Place) -> None:
    """a task at no multiple of 4 is refused with its line; of another label there explain reads the listing"""
    odd = "    .byte 1\nodd:\n    li a7, 0\n    ecall\n"
    folder = folder_with(place, "odd", task=f"# image: task odd\n{END}{odd}")
    answer = place.call("fractal build", str(folder))
    answer.sentence("task.s:1: the label `odd` is at 00010009, and a task begins at a multiple of 4", "`.balign 4`")
    nothing_is_written(folder)
    child = "main:\n    la a0, odd\n    li a7, 1\n    ecall\n    li a7, 0\n    ecall\n"
    folder = folder_with(place, "odd child", task=f"# image: task main\n{child}{odd}")
    expect(place.call("fractal build", str(folder)).status == 0, "an image")
    report = b"fractal 1\n1 0.0 1 0\noutput -\nend trap 1 00010019 1.0\n"
    answer = place.call("fractal explain", str(folder / "image.bin"), "-", stdin=report)
    for part in ("(odd 0 0 0; timestamp 0", "at 00010019, odd"):
        expect(part in answer.output.decode(), f"`{part}`", answer)


def missing_tasks_are_told(place: Place) -> None:
    """if no line names a task, the refusal says where to add one"""
    for name, text in (("no line", ""), ("no text", DATA)):
        place.call("fractal build", str(folder_with(place, name, task=text))).sentence("no line gives an initial task")
    folder = folder_with(place, "none", task=END)
    place.call("fractal build", str(folder)).sentence("none/task.s", "no line gives an initial task")
    nothing_is_written(folder)


def names_of_sources_are_told(place: Place) -> None:
    """a label that another source keeps to itself, and one that is defined twice, are reported with their lines"""
    for name, sources, parts in (
            ("kept", {"a": GOOD + "    j other\n", "b": "other:\n    ret\n"},
             ("a.s:5: `other` is defined at ", "b.s:1, without a line `.globl other`")),
            ("twice", {"a": GOOD + END}, ("a.s:5: `main` is defined here and at ", "a.s:2.")),
            ("in two", {name: f"    .globl main\n{GOOD}" for name in "ab"},
             ("b.s:3: `main` is defined here and at ", "a.s:3;"))):
        folder = folder_with(place, name, **sources)
        place.call("fractal build", str(folder)).sentence(*parts)
        nothing_is_written(folder)


def faults_of_the_source_are_told(place: Place) -> None:
    """what the assembler or the linker refuses is reported with the source's path and line"""
    folder = folder_with(place, "fault", task=GOOD + "    mul a0, a0, a0\n")
    answer = place.call("fractal build", str(folder))
    answer.tells("fault/task.s:5:", "mul")
    expect(answer.status == 1, "status 1", answer)
    nothing_is_written(folder)
    folder = folder_with(place, "unknown", task=GOOD + "    j nowhere\n")
    answer = place.call("fractal build", str(folder))
    answer.tells("unknown/task.s", "nowhere")
    expect(answer.status == 1, "status 1", answer)
    nothing_is_written(folder)


def other_machines_are_refused(place: Place) -> None:
    """a source that asks for more than RV32I is refused at its line, by attribute, option or instruction"""
    for number, (text, *parts) in enumerate((
            ('    .attribute arch, "rv32im"\n' + GOOD, ":1:", "rv32i", "_m"),
            ("    .option arch, +m\n" + GOOD + "    mul a0, a0, a0\n", ":1:", "_m"),
            ("    .option rvc\n" + GOOD, ":1:", "RV32I alone"),
            (GOOD + "    .insn r 0x33, 0, 1, a0, a0, a0\n", ":5:", "isn't an instruction of RV32I"))):
        folder = folder_with(place, f"machine {number}", task=text)
        place.call("fractal build", str(folder)).sentence("task.s", *parts)
        nothing_is_written(folder)
    folder = folder_with(place, "words", task=GOOD + "    .word 0x02a50533, 0\n    fence.tso\n")
    expect(place.call("fractal build", str(folder)).status == 0, "words that are given as data, and a fence")


def huge_sections_are_refused(place: Place) -> None:
    """a section that no image can have is refused before it is made, at the line that asks for it"""
    small = "    .data\n    .space 4096\n"
    for number, (text, line) in enumerate((
            (small + "    .space 1073741824\n", 7), (small + "    .space 1 << 30\n", 7), ("    .zero 0x40000000\n", 5),
            (small + "    .fill 100000000, 4, 1\n", 7), (small + "    .balign 0x40000000\n    .word 1\n", 7))):
        folder = folder_with(place, f"huge {number}", task=GOOD + text)
        start = time.monotonic()
        place.call("fractal build", str(folder)).sentence(f"task.s:{line}:", "16,777,216")
        expect(time.monotonic() - start < 60, "a refusal before the section is made")
        nothing_is_written(folder)
    for text in ("    .data\n    .space 16777220\n", "    .bss\n    .space 1073741824\n"):
        folder = folder_with(place, f"large {text[5:8]}", task=GOOD + text)
        place.call("fractal build", str(folder)).sentence("bytes of data are more than an image may have")
        nothing_is_written(folder)


def odd_names_are_kept(place: Place) -> None:
    """a source whose name isn't text, or none of the locale, is named in the listing as it is"""
    for number, name in enumerate((b"\xff.s", "t\u00e4sk.s".encode())):
        folder = folder_with(place, f"odd name {number}")
        (folder / os.fsdecode(name)).write_text(GOOD)
        for words in (), ("LC_ALL=C", "PYTHONUTF8=0", "PYTHONCOERCECLOCALE=0"):
            answer = place.call("/usr/bin/env", *words, str(place.clone / "fractal"), "build", str(folder))
            expect((answer.status, answer.errors) == (0, ""), "an image", answer)
            expect(name in (folder / "listing").read_bytes(), "the source's name in the listing")


def claimed_sizes_are_bounded(place: Place) -> None:
    """a function that claims to be longer than the text costs no time"""
    folder = folder_with(place, "long", task=GOOD + "    .type main, @function\n    .size main, 0x7fffffff\n")
    start = time.monotonic()
    expect(place.call("fractal build", str(folder)).status == 0, "an image")
    expect(time.monotonic() - start < 60, "an image at once")


def bad_words_are_refused(place: Place) -> None:
    """paths without a folder, folders without a source, and unknown options are refused in a sentence"""
    empty = folder_with(place, "empty")
    one_sentence_each([
        (place.call("fractal build", "nowhere"), ["nowhere", "no such folder"]),
        (place.call("fractal build", "--fast"), ["--fast"]),
        (place.call("fractal build"), ["which FOLDER of sources", "./fractal prove"]),
        (place.call("fractal build", "--clang"), ["which FOLDER of sources"]),
        (place.call("fractal build", "--all", "hello"), ["--all", "no FOLDER"]),
        (place.call("fractal build", str(empty)), ["empty", "no source"]),
        (place.call("fractal build", ""), ["no such folder"]),
    ])
    expect(b"usage:" in place.call("fractal build", "--help").output, "a help page")


def missing_assembler_is_told(place: Place) -> None:
    """without an assembler for RISC-V it says which is wanted"""
    folder = folder_with(place, "alone", task=GOOD)
    place.without(*(prefix + "as" for prefix in ("riscv64-linux-gnu-", "riscv64-unknown-elf-", "riscv32-unknown-elf-")))
    place.call("fractal build", str(folder)).sentence("binutils-riscv64-linux-gnu")


def unwritable_folders_are_told(place: Place) -> None:
    """a folder that can't be read or written is reported in a sentence, and nothing is left"""
    place.make_unwritable()
    place.call("fractal build", "hello").sentence("permission denied")
    hidden = folder_with(place, "hidden", task=GOOD)
    hidden.chmod(0)
    place.call("fractal build", str(hidden)).sentence("hidden", "permission denied")
    hidden.chmod(0o755)
    expect(not any(place.temporary.iterdir()), "no temporary file")


def interrupts_leave_nothing(place: Place) -> None:
    """an interrupt is reported in a sentence, and leaves neither an image nor a temporary file"""
    folder = folder_with(place, "slow", task=GOOD)
    mark = place.root / "started"
    place.stub_tool("riscv64-linux-gnu-as", f"touch '{mark}'; exec sleep 100\n")
    place.stub_tool("riscv64-linux-gnu-ar", "")
    place.stub_tool("riscv64-linux-gnu-ld", "")
    place.stub_tool("riscv64-linux-gnu-objdump", "")
    for number in (signal.SIGINT, signal.SIGTERM):
        mark.unlink(missing_ok=True)
        answer = place.interrupt("fractal build", str(folder), ready=mark.exists, number=number)
        answer.sentence("interrupted", status=128 + number)
        nothing_is_written(folder)
        place.is_clean()


TRIES = (
    examples_are_rebuilt, folders_are_anywhere, sources_are_linked, sections_are_placed, other_sections_are_refused,
    sections_without_flags_are_refused, misshapen_lines_are_refused, second_lines_are_refused, odd_windows_are_refused,
    odd_tasks_are_refused, missing_tasks_are_told, names_of_sources_are_told, faults_of_the_source_are_told,
    other_machines_are_refused, huge_sections_are_refused, odd_names_are_kept, claimed_sizes_are_bounded,
    bad_words_are_refused, missing_assembler_is_told, unwritable_folders_are_told, interrupts_leave_nothing,
)
