"""Tries of ./fractal applications and ./fractal values."""
from __future__ import annotations

import csv
import signal
import struct

from yotarimu.applications.catalogue import APPLICATIONS

from tries.build import folder_with
from tries.place import Place, expect, one_sentence_each, written_tree

CALL = "fractal applications"
# A task that ends, and data with two variables: two words, and four bytes that begin as zeros.
PAIR = """# image: task main
main:
    li a7, 0
    ecall
    .data
first:
    .word 5, 6
    .bss
last:
    .zero 4
"""
# A second program that tells so many zeros as the memory that is left, with a status.
ZEROS = "cat >/dev/null; head -c {} /dev/zero; exit {}\n"
# A first program whose report has one task, and which accepts each report as that of so many.
ONE_TASK = """cat >/dev/null
case $1 in
    check) echo 'check ok {}' ;;
    *) printf 'fractal 1\\n1 0.0 1 0\\noutput -\\nend {}\\n' ;;
esac
"""


def applications_are_made(place: Place) -> None:
    """each application is made with its input, from anywhere, and ./fractal build makes the same image again"""
    before = written_tree(place.root)
    for name, application in APPLICATIONS.items():
        folder = place.root / f"made {name}"
        answer = place.call(CALL, "make", name, str(folder), "--size", str(application.size_range[0]), cwd="/")
        expect((answer.status, answer.errors) == (0, ""), f"{name} is made", answer)
        expect(answer.output.decode() == f"{folder}/image.bin\n", "the image's path", answer)
        image = (folder / "image.bin").read_bytes()
        (folder / "image.bin").unlink()
        expect(place.call("fractal build", str(folder)).status == 0, f"{name} is built again")
        expect((folder / "image.bin").read_bytes() == image, f"the same image of {name}")
    answer = place.call(CALL, "make", "mis", "--size=100", "--seed", "2", cwd=place.root)
    expect(answer.output == b"mis-100/image.bin\n", "a folder of its own name", answer)
    left = {path.relative_to(place.root).parts[0] for path in written_tree(place.root) - before}
    expect(left == {f"made {name}" for name in APPLICATIONS} | {"mis-100"}, "nothing else", left)
    place.is_clean()


def applications_are_right(place: Place) -> None:
    """each small application leaves what plain programs find, by both compilers, and its reports are accepted"""
    place.needs_program()
    place.needs_second_program()
    answer = place.call(CALL, "check", "--both", "--workers", "0,4")
    expect(answer.status == 0, "all are right", answer)
    lines = answer.output.decode().splitlines()
    told = [line.split()[0] for line in lines]
    expect(told == [name for name in APPLICATIONS for _ in range(2)], "a line for each and both compilers", told)
    place.call(CALL, "run", "sssp", "--size", "10", "--tiles", "2").tells()
    place.is_clean()


def applications_are_compared(place: Place) -> None:
    """a table has a row for each application and choice, by its name, and its CSV stands where the call was made"""
    place.needs_second_program()
    answer = place.call(CALL, "table", "mis", "des", "--size", "1", cwd=place.root)
    answer.sentence("--size of mis")
    answer = place.call(CALL, "table", "mis", "color", "--size", "small", "--tiles", "1,2", "--columns", "commits,end",
                        "--rounds", "50", "--csv", "rows.csv", cwd=place.root)
    rows = [line.split(" | ")[:2] for line in answer.output.decode().splitlines()[2:]]
    expect(rows == [["| mis", "1"], ["| mis", "2"], ["| color", "1"], ["| color", "2"]], "four rows", answer)
    told = list(csv.DictReader((place.root / "rows.csv").read_text().splitlines()))
    expect([row["image"] for row in told] == ["mis", "mis", "color", "color"], "their names in the CSV", told)
    (place.root / "rows.csv").unlink()
    place.is_clean()


def other_results_are_told(place: Place) -> None:
    """wrong memory, runs that end otherwise and refused reports are reported in a sentence"""
    folder = place.root / "made"
    expect(place.call(CALL, "make", "mis", str(folder), "--size", "100").status == 0, "it is made")
    size = struct.unpack_from("<I", (folder / "image.bin").read_bytes(), 16)[0]
    check = [CALL, "check", "mis", "--size", "100"]
    for left, status, report, parts in (
            (size, 0, ("1", "normal"), ["what the run left is wrong: state[0] is 0"]),
            (size, 4, ("1", "normal"), ["the run ended otherwise: limit"]),
            (0, 5, ("1", "normal"), ["`watch memory least` ended with status 5"])):
        place.stub(place.second_program, ZEROS.format(left, status))
        place.stub(place.program, ONE_TASK.format(*report))
        place.call(*check).sentence(*parts)
    for report, parts in ((("2", "normal"), ["the report is refused: check ok 2"]),
                          (("1", "limit"), ["the run ended otherwise: `end limit`"])):
        place.stub(place.program, ONE_TASK.format(*report))
        place.call(CALL, "run", "mis", "--size", "100").sentence(*parts)
    place.is_clean()


def applications_refuse_bad_words(place: Place) -> None:
    """unknown applications, sizes out of range, and existing folders are refused in a sentence"""
    for program in (place.program, place.second_program):
        place.stub(program, "exit 5\n")
    empty = str(place.root / "empty")
    one_sentence_each([
        (place.call(CALL), ["it wants one of list, make, run, check, table"]),
        (place.call(CALL, "build"), ["and not `build`"]),
        (place.call(CALL, "list", "all"), ["no further words"]),
        (place.call(CALL, "make"), ["a NAME and a FOLDER"]),
        (place.call(CALL, "make", "kcore"), ["unknown application `kcore`; they are bfs, "]),
        (place.call(CALL, "make", "bfs", empty, "--size", "1"), ["--size of bfs", "nodes along each side", "2 to 400"]),
        (place.call(CALL, "make", "msf", empty, "--size", "17"), ["--size of msf", "8 to 16", "`17`"]),
        (place.call(CALL, "make", "msf", empty, "--size", "huge"), ["small, medium, large", "`huge`"]),
        (place.call(CALL, "make", "msf", empty, "--size", "small,large"), ["one size"]),
        (place.call(CALL, "make", "msf", empty, "--both"), ["`make` takes no --both"]),
        (place.call(CALL, "make", "msf", empty, "--seed", "4294967296"), ["0 to 4294967295, not 4294967296"]),
        (place.call(CALL, "make", "msf", empty, "--fast"), ["unknown option --fast"]),
        (place.call(CALL, "make", "msf", str(place.clone / "docs")), ["not empty"]),
        (place.call(CALL, "make", "msf", str(place.clone / "README.md")), ["not empty"]),
        (place.call(CALL, "make", "msf", str(place.root / "no" / "folder")), ["isn't a folder"]),
        (place.call(CALL, "run"), ["one NAME"]),
        (place.call(CALL, "run", "bfs", "sssp"), ["one NAME"]),
        (place.call(CALL, "run", "bfs", "--tiles", "1,2"), ["--tiles takes one value"]),
        (place.call(CALL, "run", "bfs", "--tiles", "17"), ["--tiles takes 1 to 16"]),
        (place.call(CALL, "run", "bfs", "--rounds", "1"), ["unknown option --rounds"]),
        (place.call(CALL, "check", "bfs", "bfs"), ["stands twice"]),
        (place.call(CALL, "check", "bfs", "--workers", "17"), ["--workers takes 0 to 16"]),
        (place.call(CALL, "check", "bfs", "--both", "--clang"), ["--both has clang already"]),
        (place.call(CALL, "check", "bfs", "--size", "2,9", "--fast"), ["unknown option --fast"]),
        (place.call(CALL, "table", "bfs", "--columns", "colour"), ["unknown column colour"]),
        (place.call(CALL, "table", "bfs", "--watch", "nowhere"), ["isn't built"]),
    ])
    place.is_clean()


def applications_want_tools(place: Place) -> None:
    """a missing compiler or program is reported, and no folder is left"""
    place.nothing_answers()
    folder = place.root / "made"
    place.call(CALL, "run", "mis").sentence("isn't built")
    place.call(CALL, "check", "mis").sentence("isn't built")
    place.without("riscv64-unknown-elf-gcc", "clang")
    place.call(CALL, "make", "mis", str(folder)).sentence("riscv64-unknown-elf-gcc isn't in the path")
    place.call(CALL, "make", "mis", str(folder), "--clang").sentence("clang isn't in the path")
    expect(not folder.exists(), "no folder")


def interrupted_applications_leave_nothing(place: Place) -> None:
    """an interrupt while an application is built is reported in a sentence, and leaves no folder"""
    before, mark = written_tree(place.root), place.root / "started"
    place.stub_tool("riscv64-unknown-elf-gcc", f"touch '{mark}'; exec sleep 100\n")
    stubs = written_tree(place.root) - before
    for number in (signal.SIGINT, signal.SIGTERM):
        mark.unlink(missing_ok=True)
        answer = place.interrupt(CALL, "make", "mis", "made", cwd=place.root, ready=mark.exists, number=number)
        answer.sentence("interrupted", status=128 + number)
        mark.unlink()
        expect(written_tree(place.root) - stubs == before, "no folder", written_tree(place.root) - before)


def values_have_names(place: Place) -> None:
    """variables are shown by their names, whole and in pieces, as words, halves and bytes, from a memory in a file"""
    folder = folder_with(place, "pair", task=PAIR)
    expect(place.call("fractal build", str(folder)).status == 0, "an image")
    image, memory = folder / "image.bin", place.root / "memory"
    memory.write_bytes(struct.pack("<2I4B", 7, 2 ** 32 - 1, 1, 2, 0xFE, 4))
    for words, wanted in (
            (["first"], "first: 2 numbers of 4 bytes from 10000000 on\n       0: 7 4294967295\n"),
            (["first[1]", "--hex"], "first: 1 number of 4 bytes from 10000004 on\n       1: ffffffff\n"),
            (["last[1..2]", "--as", "bytes"], "last: 2 numbers of 1 byte from 10000009 on\n       1: 2 254\n"),
            (["last", "--as=halves"], "last: 2 numbers of 2 bytes from 10000008 on\n       0: 513 1278\n")):
        answer = place.call("fractal values", str(image), *words, "--memory", str(memory))
        expect((answer.status, answer.output.decode()) == (0, wanted), f"the values of {words}", answer)
    place.stub(place.second_program, ZEROS.format(12, 3))
    answer = place.call("fractal values", str(image), "first")
    expect(answer.output.endswith(b"0: 0 0\n") and "otherwise: trap" in answer.errors, "what a run left", answer)
    place.needs_program()
    place.needs_second_program()
    answer = place.call("fractal values", str(image), "first", "last")
    expect(answer.output.endswith(b"0: 5 6\nlast: 1 number of 4 bytes from 10000008 on\n       0: 0\n"), "both", answer)


def values_refuse_bad_words(place: Place) -> None:
    """an unknown name, a place beyond it, and a memory of another size are refused in a sentence"""
    place.nothing_answers()
    folder = folder_with(place, "pair", task=PAIR)
    expect(place.call("fractal build", str(folder)).status == 0, "an image")
    image, memory, short = str(folder / "image.bin"), place.root / "memory", place.root / "short"
    memory.write_bytes(bytes(12))
    short.write_bytes(bytes(11))
    given = ("--memory", str(memory))
    one_sentence_each([
        (place.call("fractal values"), ["an IMAGE and a NAME"]),
        (place.call("fractal values", image), ["an IMAGE and a NAME"]),
        (place.call("fractal values", image, "firs", *given), ["no variable `firs`", "did you mean first?"]),
        (place.call("fractal values", image, "main", *given), ["no variable `main` in the data"]),
        (place.call("fractal values", image, "first[2]", *given), ["has the places 0 to 1"]),
        (place.call("fractal values", image, "first[1..0]", *given), ["has the places 0 to 1"]),
        (place.call("fractal values", image, "first[", *given), ["no NAME"]),
        (place.call("fractal values", image, "first", "--as", "longs", *given), ["bytes, halves, words"]),
        (place.call("fractal values", image, "first", "--fast", *given), ["unknown option --fast"]),
        (place.call("fractal values", image, "first", "--memory", str(short)), ["11 bytes", "12"]),
        (place.call("fractal values", str(memory), "first", *given), ["this isn't an image"]),
        (place.call("fractal values", image, "first"), ["isn't built"]),
    ])
    (folder / "listing").unlink()
    place.call("fractal values", image, "first", *given).sentence("./fractal build writes the listing")


TRIES = (
    applications_are_made, applications_are_right, applications_are_compared, other_results_are_told,
    applications_refuse_bad_words, applications_want_tools, interrupted_applications_leave_nothing, values_have_names,
    values_refuse_bad_words,
)
