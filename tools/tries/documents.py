"""Tries of the commands in documents: each block is called as it stands."""
from __future__ import annotations

import itertools
import os
import pathlib
import shutil
import tempfile
from collections.abc import Iterator
from typing import NamedTuple

from yotarimu.common.places import HOME

from tries.files import picture_in
from tries.place import Place, expect

FENCE, PROMPT, REST = "```", "> ", "..."
ANSWERS_FOLDER = HOME / "examples" / "exercises" / "answers"
# What the first line of a block of commands begins with.
COMMANDS = ("./fractal ", "cat ", "(cat ", "mkdir ", "cp ", "sed ", "head ", "cd ", "rt ", ". ", "apt-get ")
# Blocks that aren't called, by a part of their first line, and why.
LEFT_OUT = {
    "apt-get install": "it installs packages",
    "./fractal prove": "it proves for hours; what it hands out is tried with archives",
    "cd /shared": "it wants an archive, which is tried by itself",
    "cd crates/bench_placers": "it proves a crate",
    "./fractal sweep image.bin --budget": "K stands for a number",
    "./fractal sweep IMAGE": "IMAGE stands for a file",
    "./fractal study image.bin --tiles 1..16": "K stands for a number",
    "./fractal applications table": "it takes minutes; one application is tried with the tool",
    ". <(": "it is for a shell at a terminal",
    "./fractal exercise /tmp/mine": "it wants an exercise of your own, which is tried with the tool",
}
# Pages whose tables or plots are made again by a command that is tried by itself, and takes minutes as a whole.
STUDIES = ("docs/machine/STUDY.md", "docs/machine/STUDY_TABLES.md")
# What is called in place of a line: the gate proves, and blocks of Python are run by themselves.
OTHERWISE = {"rt ci": "true", "PYTHONPATH=tools python3": "true"}
# The statuses of blocks whose last command ends with another one than 0, as the text around them tells, by how they
# begin: exercises that aren't solved yet, a limit, a trap, and reports that are refused.
STATUSES = {"cp -r examples/exercises/": 1, "./fractal run < examples/pipeline/image.bin > /tmp/report": 4,
            "head -n -2 /tmp/letters": 3, "sed 's/^3 1.1 2 2": 8}
# What no command of a document is to be answered.
FAULTS = ("Traceback", "not found", "o such file", "isn't known")
# What a reader writes first, by the block that wants it.
ANSWERS = {"./fractal exercise journal /tmp/journal": "journal", "./fractal exercise why /tmp/why": "why",
           "./fractal console examples/exercises/abort": "abort", "./fractal console examples/exercises/stall": "stall"}


class Block(NamedTuple):
    """A block of a document: the line at which it begins, the language after its fence, and its lines."""
    document: str
    line: int
    language: str
    lines: list[str]

    def is_of_commands(self) -> bool:
        """Whether the block has commands to be typed."""
        return not self.language and self.lines[0].startswith(COMMANDS)

    def is_left_out(self) -> bool:
        """Whether the block is left out, for a reason that is printed."""
        return self.lines[0].startswith(tuple(LEFT_OUT)) or self.document in STUDIES


def documents() -> list[pathlib.Path]:
    """The documents for people who use or change the project; those of crates have no commands."""
    folders = [HOME / name for name in ("docs", "examples", "applications")]
    return [HOME / "README.md", *(path for folder in folders for path in sorted(folder.rglob("*.md")))]


def blocks_of(document: pathlib.Path) -> Iterator[Block]:
    """The blocks of a document, in their order."""
    lines = document.read_text().split("\n")
    fences = [place for place, line in enumerate(lines) if line.startswith(FENCE)]
    for first, end in zip(fences[::2], fences[1::2]):
        yield Block(str(document.relative_to(HOME)), first + 1, lines[first].removeprefix(FENCE), lines[first + 1:end])


def script_of(block: Block, folder: str) -> str:
    """The commands of a block for a shell, with a folder in place of the one for temporary files. What is typed at a
    console is given to it as its input."""
    lines: list[str] = []
    for is_typed, group in itertools.groupby(block.lines, lambda line: line.startswith(PROMPT)):
        if is_typed:
            lines[-1] += " <<'TYPED'"
            lines += [*typed_in(block, list(group)), "TYPED"]
        else:
            lines += [OTHERWISE.get(line, line) for line in group]
    return "\n".join(lines).replace("/tmp/", f"{folder}/")


def typed_in(block: Block, lines: list[str]) -> list[str]:
    """What is typed. Where a reader is to go on alone, the stored answer to the exercise does."""
    typed = [line.removeprefix(PROMPT) for line in lines]
    if REST not in typed:
        return typed
    answer = (ANSWERS_FOLDER / block.lines[0].rpartition("/")[2]).read_text()
    acts = [line.partition("#")[0].strip() for line in answer.splitlines()]
    return [*filter(None, acts), *typed[typed.index(REST) + 1:]]


def call_block(place: Place, block: Block, folder: str) -> None:
    """Calls the commands of a block, and holds them to end as they are to."""
    if (answer := ANSWERS.get(block.lines[0])) is not None:
        shutil.copy(ANSWERS_FOLDER / answer, folder)
    called = place.call("/bin/bash", "-c", script_of(block, folder), cwd=place.clone)
    wanted = next((status for start, status in STATUSES.items() if block.lines[0].startswith(start)), 0)
    where = f"of the commands at {block.document}:{block.line}"
    expect(called.status == wanted, f"status {wanted} {where}", called)
    for fault in FAULTS:
        expect(fault not in called.errors, f"no `{fault}` {where}", called)


def blocks_of_commands_are_called(place: Place) -> None:
    """each block of commands of each document does what the text around it says"""
    place.needs_program()
    place.needs_second_program()
    # A console takes no blank in the name of a file.
    with tempfile.TemporaryDirectory(prefix="documents-") as folder:
        for document in documents():
            for block in blocks_of(document):
                if block.is_of_commands() and not block.is_left_out():
                    call_block(place, block, folder)


def blocks_of_python_are_run(place: Place) -> None:
    """the blocks of Python of a document, one after another, run as they stand, and print what they are to"""
    place.needs_program()
    place.needs_second_program()
    blocks = list(blocks_of(HOME / "docs" / "guide" / "LIBRARY.md"))
    commands = next(block for block in blocks if block.is_of_commands())
    source = "\n".join(line for block in blocks if block.language == "python" for line in block.lines)
    with tempfile.TemporaryDirectory(prefix="documents-") as folder:
        made = place.call("/bin/sh", "-c", script_of(commands, folder), cwd=place.clone)
        expect(made.status == 0, "a folder of sources", made)
        place.environment["PYTHONPATH"] = "tools"
        source = source.replace("/tmp/", f"{folder}/")
        answer = place.call("/usr/bin/env", "python3", "-B", "-c", source, cwd=place.clone)
        expect((answer.status, answer.errors) == (0, ""), "no fault", answer)
        for part in ("normal b'' 15\n", "tasks aborted\n", "normal 15 commits\n", "1 tiles 36\n"):
            expect(part in answer.output.decode(), f"`{part}`", answer)
        picture_in((pathlib.Path(folder) / "mine" / "rounds.svg").read_bytes())


def whole_programs_are_built(place: Place) -> None:
    """each whole program in C of a document compiles, and its run ends normally"""
    place.needs_program()
    blocks = [block for document in documents() for block in blocks_of(document)
              if block.language == "c" and '#include "task.h"' in block.lines]
    expect(bool(blocks), "a document with a whole program in C")
    for number, block in enumerate(blocks):
        folder = place.root / f"program {number}"
        folder.mkdir()
        (folder / "task.c").write_text("\n".join([*block.lines, ""]))
        called = place.call("fractal", "build", folder)
        expect(called.status == 0, f"the program at {block.document}:{block.line} to be built", called)
        called = place.call("fractal", "run", stdin=(folder / "image.bin").read_bytes())
        expect(called.status == 0, f"the program at {block.document}:{block.line} to end normally", called)


def ways_in_are_told(place: Place) -> None:
    """README says that there isn't a licence as long as none exists, and links to how a change or a fault is sent"""
    readme, page = ((place.clone / name).read_text() for name in ("README.md", "docs/maintain/CONTRIBUTING.md"))
    _, _, licence = readme.partition("\n## Licence\n")
    has_one = any(path.name.upper().startswith(("LICEN", "COPYING")) for path in place.clone.iterdir())
    expect(("There is none yet" in licence) != has_one, "what README says of a licence", licence)
    expect("(docs/maintain/CONTRIBUTING.md#sending-a-change)" in licence, "a link to how a change is sent", licence)
    for part in ("\n## Sending a change\n", "Without the toolchain", "With the toolchain", "A maintainer",
                 "To report a fault", "[licence]", "\n## Security\n"):
        expect(part in page, f"`{part}` in how a change is sent")
    # What a change needs can be called.
    for path in (".ci/lint", ".ci/python", ".ci/run", "fractal"):
        expect(os.access(place.clone / path, os.X_OK), f"{path} to be called")


TRIES = (blocks_of_commands_are_called, blocks_of_python_are_run, whole_programs_are_built,
         ways_in_are_told)
