"""The table of answers: calls of the program, with the status and the text that docs/guest/FORMATS.md promises. No text
comes from the program: faults are as that page lists them, reports are the stored ones or written by hand, and saved
images are made of a plain reading of the instructions."""
from __future__ import annotations

import dataclasses
import functools
from collections.abc import Iterator, Mapping, Sequence
from typing import Optional, Union

from yotarimu.common.places import EXAMPLES_FOLDER
from yotarimu.images.image import DATA, TEXT, Image, InitialTask, image_bytes, read_image
from yotarimu.images.serial_machine import Machine
from yotarimu.reports.report import read_report

USAGE = b"fault usage\n"
MOST_INPUT = 67_108_864
MOST_TASKS = 65_536
# li a7, 1; ecall; ecall; li a7, 0; ecall: a task that makes two children.
TWINS = (0x00100893, 0x00000073, 0x00000073, 0x00000893, 0x00000073)
# beqz a0, end; addi a2, a0, -1; lui a0, 0x10; addi a1, a3, 1; li a5, 3; li a7, 1; ecall; end: li a7, 0; ecall: a task
# that makes one child, a timestamp later and with the hint 3, as many times as its argument tells.
CHAIN = (0x00050e63, 0xfff50613, 0x00010537, 0x00168593, 0x00300793, 0x00100893, 0x00000073, 0x00000893, 0x00000073)
# The commands that read an image, and the statuses that a call of each can show.
READERS = ("run", "save", "check", "steps", "trace")
SHOWN = {"run": (0, 1, 2, 3, 4, 5, 6, 7, 10), "load": (0, 1, 3, 4, 5, 7), "save": (0, 1, 2, 3, 4, 5, 6, 7, 10, 12, 13),
         "check": (0, 1, 2, 5, 6, 7, 8, 10), "steps": (0, 1, 2, 3, 4, 5, 6, 7, 9, 10),
         "trace": (0, 1, 2, 5, 6, 7, 9, 10)}
# What a tap notes of an event first: docs/guest/FORMATS.md.
DISPATCH, ACCESS, CALL, GOES_ON, ABORT, COMMIT, COALESCING, SPLIT = range(1, 9)


@dataclasses.dataclass(frozen=True)
class Case:
    """A call of the program: its words, what it reads, the status and the text that it is to answer."""
    name: str
    words: tuple[str, ...]
    given: bytes
    status: int
    text: bytes


def answer(name: str, words: str, given: bytes, status: int, text: Union[bytes, str]) -> Case:
    """A row of the table: a text is one line, and bytes stand as they are."""
    return Case(name, tuple(words.split()), given, status, text if isinstance(text, bytes) else f"{text}\n".encode())


@functools.lru_cache(maxsize=None)
def stored_file(name: str, file: str = "image.bin") -> bytes:
    """A file of an example."""
    return (EXAMPLES_FOLDER / name / file).read_bytes()


def with_field(data: bytes, offset: int, number: int, size: int = 4) -> bytes:
    """An image with one field of its header changed."""
    return data[:offset] + number.to_bytes(size, "little") + data[offset + size:]


def all_answers() -> list[Case]:
    """All rows of the table."""
    return [*of_words(), *of_images(), *of_runs(), *of_loads(), *of_checks(), *of_scripts(), *of_ends(), *of_traces(),
            *of_saves()]


def missing_statuses(shown: set[tuple[str, int]]) -> list[str]:
    """A sentence on each status of a command that none of these pairs of a command and a status shows."""
    return [f"no call of `{word}` shows the status {status}" for word, statuses in SHOWN.items() for status in statuses
            if (word, status) not in shown]


def of_words() -> Iterator[Case]:
    """Words that are refused: nothing is read."""
    for words in ("rum", "--tiles 2 run", "run --tiles 17", "run --tiles 0", "run --tiles 2 --tiles 2", "run --tiles",
                  "run --tiles --cores 2", "run --tiles=00000000002", "run --line 12", "run --tower 2", "run --",
                  *(f"{word} twice" for word in READERS), "load walk 7", "load hop 7 20", "load walk 4294967296 20",
                  "load walk 7 100001", "load nest 7 10001"):
        yield answer(f"words: {words}", words, b"", 1, USAGE)


def of_images() -> Iterator[Case]:
    """Inputs that begin with no image."""
    hello = stored_file("hello")
    for name, given, fault in (
            ("no byte", b"", "1 0"), ("31 bytes", hello[:31], "1 31"), ("a byte too few", hello[:-1], "1 105"),
            ("other letters", b"F" * 40, "2 0"), ("version 0", with_field(hello, 4, 0, 2), "3 4"),
            ("version 9", with_field(hello, 4, 9, 2), "3 4"),
            ("a third kind of root", with_field(hello, 6, 2, 2), "4 6"),
            ("too many words", with_field(hello, 8, 65_537), "5 8"),
            ("too much initial data", with_field(hello, 12, 17), "5 12"),
            ("too much data", with_field(hello, 16, 16_777_217), "5 16"),
            ("too large a window", with_field(hello, 24, 4_097), "5 24"),
            ("too many tasks", with_field(hello, 28, MOST_TASKS + 1), "5 28"),
            ("an odd window", with_field(hello, 20, 2), "6 20"),
            ("a window behind the data", with_field(with_field(hello, 20, 16), 24, 1), "6 20"),
            ("no task", with_field(hello, 28, 0), "7 28"),
            ("two faults", with_field(with_field(hello, 16, 16_777_217), 12, 16_777_218), "5 16")):
        yield answer(f"image: {name}", "run", given, 2, f"fault image {fault}")
    long = hello + bytes(MOST_INPUT + 1 - len(hello))
    for word in READERS:
        yield answer(f"image of {word}: 105 bytes", word, hello[:-1], 2, "fault image 1 105")
        yield answer(f"input of {word}: too long", word, long, 10, "fault long")


def of_runs() -> Iterator[Case]:
    """Runs to each end, by each limit, and with host threads."""
    hello, report = stored_file("hello"), stored_file("hello", "report")
    yield answer("run: bytes behind the image", "run", hello + b"more", 0, report)
    yield answer("run: two host threads", "run --workers 2", hello, 0, report)
    yield answer("run: a small machine", "run --tiles=1 --cores 0001 --task-queue=4 --commit-queue 1", hello, 0, report)
    yield answer("run: three instructions", "run --budget 3", hello, 3,
                 "fractal 1\noutput -\nend trap 17 0001000c 0.0")
    yield answer("run: two commits", "run --commits 2", stored_file("pipeline"), 4,
                 "fractal 1\n1 0.0 1 0\n2 1.0 1 1\noutput -\nend limit")
    yield answer("run: all commits", "run --commits 9", stored_file("pipeline"), 0, stored_file("pipeline", "report"))


def of_loads() -> Iterator[Case]:
    """Generated images of one node and of one addition."""
    walk = "load walk 7 1\ncommits 2\noutput -\nwindow 1000000c 00000001\nend normal"
    yield answer("load: a walk", "load walk 7 1", b"", 0, walk)
    yield answer("load: leading zeros", "load --tiles 2 walk 0000000007 --cores=1 01", b"", 0, walk)
    yield answer("load: one commit", "load walk 7 1 --commits 1", b"", 4,
                 "load walk 7 1\ncommits 1\noutput -\nwindow 1000000c 00000001\nend limit")
    yield answer("load: one instruction", "load walk 7 1 --budget 1", b"", 3,
                 "load walk 7 1\ncommits 0\noutput -\nwindow 1000000c 00000000\nend trap 17 00010004 0.0")
    cells = "\n".join(f"window {DATA + 4 * cell:08x} {5 if cell in (0, 3) else 0:08x}" for cell in range(8))
    yield answer("load: nested additions", "load nest 5 1", b"", 0,
                 f"load nest 5 1\ncommits 3\noutput -\n{cells}\nend normal")


def of_checks() -> Iterator[Case]:
    """Reports that are accepted, and one that is refused for each of its lines."""
    image, report = stored_file("nested"), stored_file("nested", "report")
    yield answer("check: no last newline", "check", image + report[:-1], 0, "check ok 8")
    yield answer("check: nobody ran it", "check", stored_file("hello") + b"fractal 1\noutput -\nend open\n", 0,
                 "check ok 0")
    for name, words, old, new, line in (
            ("another first line", "check", b"fractal 1", b"fractal 2", 1),
            ("a wrong timestamp", "check", b"3 1.1 2 2", b"3 1.1 2 3", 4),
            ("a task that pends nowhere", "check", b"3 1.1 2 2", b"3 1.2 2 2", 4),
            ("a task out of turn", "check", b"2 1.0 2 1\n3 1.1 2 2", b"2 1.1 2 2\n3 1.0 2 1", 3),
            ("a leading zero", "check", b"3 1.1 2 2", b"3 1.1 2 02", 4),
            ("a blank", "check", b"3 1.1 2 2", b"3 1.1 2 2 ", 4),
            ("an entry left out", "check", b"3 1.1 2 2\n", b"", 4),
            ("CRLF", "check", b"\n", b"\r\n", 1),
            ("other output", "check", b"output -", b"output 00", 10),
            ("another word of the window", "check", b"00000058", b"00000059", 11),
            ("a word of the window left out", "check", b"window 10000008 00000002\n", b"", 13),
            ("another end", "check", b"end normal", b"end limit", 14),
            ("a line more", "check", b"end normal\n", b"end normal\nend normal\n", 15),
            ("a limit below it", "check --commits 3", b"", b"", 5)):
        yield answer(f"check: {name}", words, image + report.replace(old, new), 8, f"fault journal {line}")
    yield answer("check: no report", "check", image, 8, "fault journal 1")


def of_scripts() -> Iterator[Case]:
    """Scripts that are played, and lines that are none."""
    hello, open_report = stored_file("hello"), "fractal 1\noutput -\nend open"
    yield answer("steps: no act", "steps", hello, 0, open_report)
    yield answer("steps: refused acts", "steps --tiles 2", hello + b"commit\nstep 1 0\ngive 0 1\nsplit 1", 0,
                 f"empty 0\nstale 0\nstale 0\nempty 0\n{open_report}")
    for line in ("halt", "", "commit ", "commit\r", "step 0", "step 00 0", "step 4 0", "step 0 2", "dispatch -1"):
        for word in ("steps", "trace"):
            yield answer(f"{word}: `{line!r}`", word, hello + f"commit\n{line}\ncommit\n".encode(), 9, "fault script 2")
    yield answer("steps: a tile of a larger machine", "steps --tiles 5", hello + b"split 4\n", 0,
                 f"empty 0\n{open_report}")


def of_ends() -> Iterator[Case]:
    """Scripts after which the run is over: in a trap, and at its limit. `trace` prints no end."""
    hello, two = stored_file("hello"), stored_file("schedules/commit_queue")
    trap = "end trap 17 0001000c 0.0"
    yield answer("steps: to a trap", "steps --budget 3", hello + b"advance\nadvance\nadvance\n", 3,
                 f"moved 0\nmoved 0\nended 0\nfractal 1\noutput -\n{trap}")
    yield answer("steps: to the limit", "steps --commits 1", two + b"advance\n" * 4, 4,
                 "moved 0\nmoved 0\ncommitted 0\nended 0\nfractal 1\n1 0.0 1 1\noutput -\nend limit")
    yield answer("trace: to a trap", "trace --budget 3", hello + b"advance\n" * 3, 0,
                 trace_text([(DISPATCH, 0, 0, 0, 0), (GOES_ON, 0, 0, 0, 0)]))
    yield answer("trace: to the limit", "trace --commits 1", two + b"advance\n" * 4, 0,
                 trace_text([(DISPATCH, 0, 0, 0, 0), (CALL, 0, 0, 0, 0), (COMMIT, 0, 0, 0, 1)]))


def trace_text(events: Sequence[tuple[int, ...]], taken_back: Optional[Mapping[int, int]] = None) -> str:
    """What `trace` writes of these events: five numbers of each of the last 16, and how many tasks were aborted by
    accesses to each of the first 16 lines, by their numbers; 16 stands for all further lines."""
    numbers = [number for event in events[-16:] for number in event]
    lines = [(taken_back or {}).get(line, 0) for line in range(17)]
    return "\n".join(map(str, ["trace 1", f"tap 0 {len(numbers)}", *numbers, "tap 1 17", *lines, "end trace"]))


def of_traces() -> Iterator[Case]:
    """What the program's two taps note of each kind of event, and where its three placers put tasks."""
    hello, conflict, stall = (stored_file(name) for name in ("hello", "schedules/conflict", "schedules/stall"))
    yield answer("trace: no act", "trace", hello, 0, trace_text([]))
    yield answer("trace: a dispatch", "trace", hello + b"dispatch 0\n", 0, trace_text([(DISPATCH, 0, 0, 0, 0)]))
    before = [(DISPATCH, 0, 0, 0), (ACCESS, 0, 1, 0), (ACCESS, 0, 1, 0), (CALL, 0, 0, 0), (DISPATCH, 1, 0, 0),
              (ACCESS, 1, 1, 2), (CALL, 1, 0, 0)]
    behind = [(COMMIT, 1, 0, 0), (DISPATCH, 0, 0, 0), (ACCESS, 0, 1, 0), (ACCESS, 0, 1, 0), (CALL, 0, 0, 0),
              (CALL, 0, 0, 0)]
    last = [(COMMIT, 0, 0, 0), (DISPATCH, 0, 0, 0), (CALL, 0, 0, 0)]
    told = [(*event, commits) for commits, events in enumerate((before, behind, last, [(COMMIT, 0, 0, 0)]))
            for event in events]
    yield answer("trace: 17 events", "trace --tiles 2 --cores 1",
                 conflict + stored_file("schedules/conflict", "script"), 0, trace_text(told, {0: 2}))
    yield answer("trace: a coalescing and a split", "trace --tiles 2 --cores 1 --task-queue 4",
                 stall + stored_file("schedules/stall", "script"), 0,
                 trace_text([(DISPATCH, 0, 0, 0, 0), *[(CALL, 0, 0, 0, 0)] * 3, (DISPATCH, 1, 0, 0, 0),
                             (CALL, 1, 0, 0, 0), (COMMIT, 1, 0, 0, 1), (CALL, 0, 0, 0, 1),
                             (COALESCING, 0, 0, 0, 1), (SPLIT, 0, 0, 0, 1)]))
    yield answer("trace: an abort", "trace --tiles 2 --quantum 1", conflict + b"dispatch 0\nstep 0 0\nabort 0\n", 0,
                 trace_text([(DISPATCH, 0, 0, 0, 0), (GOES_ON, 0, 0, 0, 0), (ABORT, 0, 0, 1, 0)]))
    # The writer's first word becomes auipc t0, 0xfff4: it stores to the reader's word, in the line 1,024.
    far = with_field(stored_file("schedules/two_lines"), 52, 0x0fff4297) + stored_file("schedules/two_lines", "script")
    yield answer("trace: a far line", "trace --tiles 2 --cores 1", far, 0,
                 trace_text([(DISPATCH, 0, 0, 0, 0), (ACCESS, 0, 1_025, 0, 0), (DISPATCH, 1, 0, 0, 0),
                             (ACCESS, 1, 1_025, 1, 0)], {16: 1}))
    yield from of_placers()


def of_placers() -> Iterator[Case]:
    """A chain of four tasks beside a task in tile 0, each with the hint 3: the first is placed in tile 1 by its place
    in the image, and makes the second before any commit, that the third after one commit, and that the last after
    two."""
    text = b"".join(word.to_bytes(4, "little") for word in CHAIN)
    tasks = [InitialTask(TEXT, 100, (0, 0, 0)), InitialTask(TEXT, 0, (3, 0, 0))]
    chain = image_bytes(Image(True, text, b"", 0, 0, 0, tasks)) + b"advance\n" * 15
    # With the phase 1: by the hint, to the lowest tile of the least load, and in turn from tile 0 on.
    for words, tiles in (("trace", (1, 3, 3, 3)), ("trace --phase 2", (1, 3, 3, 1)), ("trace --phase 1", (1, 3, 1, 0))):
        told = [(kind, tile, 0, 0, commits + (kind == COMMIT)) for commits, tile in enumerate(tiles)
                for kind in (DISPATCH, CALL, CALL, COMMIT)]
        # The last task makes no child.
        del told[-2]
        yield answer(f"{words}: placers", words, chain, 0, trace_text(told))


def of_saves() -> Iterator[Case]:
    """Runs that end before their limit, and one at each limit."""
    yield answer("save: a normal end", "save", stored_file("hello"), 0, stored_file("hello", "report"))
    yield answer("save: a trap", "save", stored_file("trap"), 3, stored_file("trap", "report"))
    for commits in range(1, 9):
        yield answer(f"save: pipeline at {commits}", f"save --commits {commits}", stored_file("pipeline"), 4,
                     saved_image("pipeline", commits))
    yield answer("save: nested at 4", "save --commits 4", stored_file("nested"), 4, saved_image("nested", 4))
    for commits, depth in ((1, 2), (2, 2), (3, 3), (5, 2)):
        yield answer(f"save: nested at {commits}", f"save --commits {commits}", stored_file("nested"), 12,
                     f"fault nested {depth}")
    twins = image_bytes(Image(False, b"".join(word.to_bytes(4, "little") for word in TWINS), b"", 0, 0, 0,
                              [InitialTask(TEXT, 0, (0, 0, 0))] * MOST_TASKS))
    yield answer("save: too many tasks", "save --commits 1", twins, 13, f"fault tasks {MOST_TASKS + 1}")


def saved_image(name: str, commits: int) -> bytes:
    """The image from which a stored run goes on behind so many commits."""
    image = read_image(stored_file(name), name)
    machine = Machine(image)
    machine.follow(read_report(stored_file(name, "report").decode("utf-8", "replace"), name).entries[:commits])
    left = sorted((task for task in machine.tasks.values() if not task.turn),
                  key=lambda task: (task.name.creator, task.name.index))
    tasks = [InitialTask(task.entry, task.timestamp, task.arguments) for task in left]
    return image_bytes(dataclasses.replace(image, initial=bytes(machine.memory), tasks=tasks))
