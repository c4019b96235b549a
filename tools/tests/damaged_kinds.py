"""Each kind of file that a tool reads: right ones to begin with, and what a tool does with one."""
from __future__ import annotations

import functools
import pathlib
import random
import shutil
import tempfile
from collections.abc import Sequence
from typing import Callable, NamedTuple
from unittest import mock

from yotarimu.common.files import read_bytes
from yotarimu.common.places import EXAMPLES_FOLDER
from yotarimu.commands import draw, explain, figures, show, study
from yotarimu.commands import sweep as sweep_command
from yotarimu.commands.dev import refusal
from yotarimu.courses import exercises, own_exercises, reasons, scripts, sweep
from yotarimu.courses.study_rows import csv_of, head_of
from yotarimu.debugger.lines_track import LinesTrack
from yotarimu.debugger.report_track import ReportTrack
from yotarimu.images import compiler, contents, initial_tasks, source
from yotarimu.images import objects as objects_of_images
from yotarimu.images.compiler import Compilers
from yotarimu.images.elf import Label
from yotarimu.images.image import DATA, TEXT, Image, read_image
from yotarimu.images.image_line import Line
from yotarimu.images.listing import NO_LISTING, listing_text
from yotarimu.images.stack import check_stack
from yotarimu.programs.table import Table
from yotarimu.reports.report import read_report

from tests.links import packed, page
from tests.test_images import END, elf_of
from tests.test_links import SOURCES

SCHEDULES = EXAMPLES_FOLDER / "schedules"
EXERCISES = EXAMPLES_FOLDER / "exercises"
REPORTED = ("hello", "nested", "trap", "recursion")
PLAYED = ("by_hand", "conflict", "stall", "kept_trap")
WATCHED = {"by_hand/worked": "by_hand", "domains_by_hand/worked": "domains_by_hand", "rounds_by_hand/worked": "by_hand",
           "conflict/lines": "conflict"}
WANTED = """# mine
answer script
acts ..9  # few
reply stall 1..2
taken 0
commits 3
depth 1..
end normal
output Hi
"""
ASSEMBLY = """    .globl main
main:
    la t0, first
    lw a0, 0(t0)
    li a7, 0
    ecall
    .section .rodata.fixed, "a"
    .word 7
    .data
first:
    .word 1, 2
    .bss
    .space 8
"""
Reader = Callable[[pathlib.Path, random.Random], object]


class Right(NamedTuple):
    """A right file, and what reads it."""
    data: bytes
    read: Reader
    name: str = "given"
    is_text: bool = True


def by_command(main: Callable[[list[str]], object], *ways: Sequence[str]) -> Reader:
    """A command that is called in one of some ways, in which FILE stands for the path."""
    def read(path: pathlib.Path, chance: random.Random) -> object:
        return main([str(path) if word == "FILE" else word for word in chance.choice(ways)])
    return read


def images() -> list[Right]:
    """Images, which `explain` compares with their reports."""
    found = []
    for name in REPORTED:
        report = str(EXAMPLES_FOLDER / name / "report")
        read = by_command(explain.main, ["FILE", report], ["FILE", report, "--json"], ["FILE", report, "--picture"])
        found.append(Right((EXAMPLES_FOLDER / name / "image.bin").read_bytes(), read, is_text=False))
    return found


def listings() -> list[Right]:
    """Listings, beside images and as they are named."""
    found = []
    for name in REPORTED:
        image, report, listing = (str(EXAMPLES_FOLDER / name / file) for file in ("image.bin", "report", "listing"))
        ways = (["explain", image, report, "FILE"], ["explain", image, report, "FILE", "--picture"])
        found.append(Right(read_bytes(listing), by_command(named_command, *ways)))
    for name in ("by_hand", "domains_by_hand"):
        lines = str(SCHEDULES / name / "worked")
        found.append(Right((SCHEDULES / name / "listing").read_bytes(), by_command(
            named_command, ["show", lines, "FILE"], ["figures", lines, "--listing", "FILE"])))
    return found


def named_command(words: list[str]) -> object:
    """Calls a command by its name, which comes first."""
    commands: dict[str, Callable[[list[str]], object]] = {
        "explain": explain.main, "show": show.main, "figures": figures.main, "draw": draw.main}
    return commands[words[0]](words[1:])


def reports() -> list[Right]:
    """Reports, which are explained in each form, followed by the debugger, and examined if one was refused."""
    found = []
    for name in REPORTED:
        folder = EXAMPLES_FOLDER / name
        image, data = str(folder / "image.bin"), (folder / "report").read_bytes()
        forms: tuple[list[str], ...] = ([], ["--json"], ["--csv"], ["--picture"], ["--registers"])
        found.append(Right(data, by_command(explain.main, *[[image, "FILE", *form] for form in forms])))
        found.append(Right(data, functools.partial(follow_report, folder / "image.bin")))
        found.append(Right(data, functools.partial(refuse_report, folder / "image.bin")))
    return found


def follow_report(image: pathlib.Path, path: pathlib.Path, _chance: random.Random) -> None:
    """The debugger's track of a report."""
    text = path.read_bytes().decode("ascii", "replace")
    ReportTrack(read_image(image.read_bytes(), image), read_report(text, path), NO_LISTING)


def refuse_report(image: pathlib.Path, path: pathlib.Path, chance: random.Random) -> None:
    """Explains a report that the program refused at a line."""
    with mock.patch.object(refusal, "read_bytes", lambda _: image.read_bytes() + path.read_bytes()):
        refusal.main([f"fault journal {chance.randint(1, 9)}", "check"])


def event_logs() -> list[Right]:
    """Event logs, with their image and without."""
    found = []
    for file, folder in WATCHED.items():
        image, data = str(SCHEDULES / folder / "image.bin"), (SCHEDULES / file).read_bytes()
        found.append(Right(data, by_command(
            named_command, ["figures", "FILE"], ["figures", "FILE", "--image", image], ["explain", image, "FILE"],
            ["explain", image, "FILE", "--json"], ["show", "FILE"], ["show", "FILE", "--cut"])))
        found.append(Right(data, functools.partial(follow_log, pathlib.Path(image))))
    return found


def follow_log(image: pathlib.Path, path: pathlib.Path, _chance: random.Random) -> None:
    """The debugger's track of an event log."""
    LinesTrack(read_image(image.read_bytes(), image), str(path), NO_LISTING)


def sweep_rows() -> bytes:
    """The rows of a sweep of two runs."""
    table = Table()
    rows = [sweep.header(table)] + [
        ["image.bin", "proved 0123456789abcdef",
         *(str(tiles if name == "tiles" else option.default) for name, option in table.options.items()),
         "0", "12", "0.010", "0" * 16, "1" * 16, ""] for tiles in (1, 2)]
    return csv_of(rows)


def study_rows() -> bytes:
    """The rows of a study of two choices."""
    head = head_of(["tiles"])
    rows = [["1", "1", str(number), "2", "image.bin", str(number), *("1" for _ in head[6:-1]), "normal"]
            for number in (1, 2)]
    return csv_of([head, *rows])


def csv() -> list[Right]:
    """Numbers for variables, rows of tasks, and what sweeps and studies write."""
    numbers = b"1, 2\n255\t0x12\n-1\n-128\n"
    tasks = b"main, 5, 1, 2, 3\n\nmain\nmain,0x7, first\n"
    assembled = source.Assembly(END, bytes(8), 8, [Label("main", TEXT, ".text"), Label("first", DATA, ".data")], {}, 8)
    line = Line(source.Source(pathlib.Path("task.s"), []), 1, ["tasks", "given.csv"])
    return [
        Right(numbers, lambda path, chance: contents.numbers_of(path, chance.choice((1, 2, 4))), "given.csv"),
        Right(tasks, lambda path, _: initial_tasks.tasks_told(line, path, assembled), "given.csv"),
        Right(sweep_rows(), lambda path, _: sweep_plot(path)),
        Right(study_rows(), by_command(study.main, ["--join", "FILE"]))]


def sweep_plot(path: pathlib.Path) -> None:
    """The plot of a sweep's rows."""
    sweep_command.main(["--rows", str(path), "--plot", f"commits,tiles,{path}.svg"])


def exercise_files() -> list[Right]:
    """Answers to exercises, and the `wanted` file of an exercise of your own."""
    ran = read_report((EXAMPLES_FOLDER / "hello" / "report").read_text(), "hello")
    table = Table()

    def judge_journal(path: pathlib.Path, _chance: random.Random) -> None:
        with mock.patch.object(exercises, "run_of", lambda _: ran):
            exercises.judge_journal(str(path))

    def judge_reasons(path: pathlib.Path, _chance: random.Random) -> None:
        with mock.patch.object(reasons, "reasons_in", lambda _: []):
            reasons.judge_reasons(str(path), EXERCISES / "why")

    return [
        Right(WANTED.encode(), lambda path, _: own_exercises.read_wanted(path), "wanted"),
        Right((EXERCISES / "answers" / "journal").read_bytes(), judge_journal),
        Right((EXERCISES / "answers" / "why").read_bytes(), judge_reasons),
        Right(b"steps --tiles 2 --cores=1\n", lambda path, _: scripts.options_beside(path.parent, table), "words"),
        Right((EXERCISES / "answers" / "abort").read_bytes(),
              lambda path, _: scripts.acts_in(scripts.read_lines(path), path, {}, table))]


def played_scripts() -> list[Right]:
    """Scripts, and what was said when they were played."""
    found = []
    for name in PLAYED:
        script, said = (str(SCHEDULES / name / file) for file in ("script", "said"))
        found.append(Right(read_bytes(script), by_command(
            named_command, ["draw", "FILE", said], ["figures", "--script", "FILE", said])))
        found.append(Right(read_bytes(said), by_command(
            named_command, ["draw", script, "FILE"], ["figures", "--script", script, "FILE"])))
    return found


def objects() -> list[Right]:
    """Objects: one by hand, which is looked at, and one of the assembler, which is linked and listed too."""
    found = [Right(object_by_hand(), look_at_object, "given.o", False)]
    if shutil.which("riscv64-unknown-elf-as") or shutil.which("riscv64-linux-gnu-as"):
        found += 2 * [Right(assembled_object(), link_object, "given.o", False)]
    return found


def object_by_hand() -> bytes:
    """A file of three sections, as an object."""
    data = bytearray(elf_of(b"main", END, TEXT))
    data[16] = 1
    return bytes(data)


@functools.lru_cache(None)
def assembled_object() -> bytes:
    """The object of a source."""
    with tempfile.TemporaryDirectory() as place:
        path = pathlib.Path(place, "given.s")
        path.write_text(ASSEMBLY)
        one = source.source_at(path)
        return source.object_of(one, pathlib.Path(place, "0.o"), source.tool_prefix(), Compilers(), [one])


def look_at_object(path: pathlib.Path, _chance: random.Random) -> None:
    """What is looked at in an object before it is linked."""
    one = source.source_at(path)
    made = source.object_of(one, path.with_name("0.object"), "", Compilers(), [one])
    source.refuse_other_machine(one, made)
    objects_of_images.section_names(one, made)
    objects_of_images.refuse_relocations(one, made)


def link_object(path: pathlib.Path, _chance: random.Random) -> None:
    """The listing of an object that is linked alone, without the libraries that compiled sources have."""
    one = [source.source_at(path)]
    with mock.patch.object(source, "memory_library", lambda *_: []), \
            mock.patch.object(compiler, "arithmetic", lambda _: []):
        assembled = source.assemble(one)
    image = Image(True, assembled.text, assembled.initial, assembled.size, 0, 0, [], 2)
    check_stack(assembled, image)
    listing_text(one, assembled, image)


def links() -> list[Right]:
    """Addresses of the page, as a whole, and what they have packed."""
    if not shutil.which("node"):
        return []
    # Node starts here, and not within the time that a file may take.
    page()
    script = (SCHEDULES / "conflict" / "script").read_bytes()
    image = (SCHEDULES / "conflict" / "image.bin").read_bytes()
    whole = f"sources={packed(SOURCES)}&acts=lockstep%205%200&tiles=2&at=3".encode()
    return [
        Right(whole, lambda path, _: page().open(path.read_bytes().decode("latin-1"))),
        Right(SOURCES, lambda path, _: page().open(f"acts=least&sources={packed(path.read_bytes())}")),
        Right(script, lambda path, _: page().open(f"example=hello&script={packed(path.read_bytes())}")),
        Right(image, lambda path, _: page().open(f"name=x&image={packed(path.read_bytes())}"), is_text=False)]


KINDS: dict[str, Callable[[], list[Right]]] = {
    "objects": objects, "images": images, "listings": listings, "reports": reports, "event logs": event_logs,
    "CSV": csv, "exercises": exercise_files, "scripts": played_scripts, "links": links}
