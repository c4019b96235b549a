"""Calls whose answers hang on what stands around the program, which only a built one can be given: an input that can't
be read, an output that can't be written, and memory that doesn't suffice."""
from __future__ import annotations

import dataclasses
import os
import pathlib
import subprocess
from collections.abc import Iterator, Sequence
from typing import IO, Optional, Union

from yotarimu.images.image import DATA_BYTES
from yotarimu.programs import limits
from yotarimu.programs.answers import with_field, stored_file
from yotarimu.programs.program import LAUNCHER, Answer, answering_program

UNREAD, UNWRITTEN = 6, 7
# Enough address space to start the program, and less than the largest data has, or room for a million turns.
SCARCE = 16 << 20
# Where the header of an image has the size of the data.
DATA_SIZE = 16


@dataclasses.dataclass(frozen=True)
class Device:
    """A call of the program: its words, what it reads, what fails, and the status that it is to have."""
    words: tuple[str, ...]
    given: bytes
    what: str
    status: int

    @property
    def name(self) -> str:
        """The call and the device, in words."""
        return f"{' '.join(self.words)}: {self.what}"

    def fault(self) -> Optional[str]:
        """What is wrong with the status, or with what was written; None where it is as it should be."""
        status, written = FAILING[self.what](self.words, self.given)
        if status != self.status:
            return f"its {self.words[0]} has the status {status}, and not {self.status}"
        return "it writes something all the same" if written else None


def call_launcher(words: Sequence[str], given: Optional[bytes], stdout: Union[int, IO[bytes]],
                  stdin: Optional[int] = None) -> Answer:
    """The status of a call of the launcher, and what it wrote where that can be seen."""
    done = subprocess.run([LAUNCHER, *words], stderr=subprocess.DEVNULL, input=given, stdin=stdin, stdout=stdout)
    return Answer(done.returncode, done.stdout or b"")


def unreadable(words: Sequence[str], _given: bytes) -> Answer:
    """The input is a folder, which can't be read."""
    folder = os.open("/", os.O_RDONLY)
    try:
        return call_launcher(words, None, stdout=subprocess.PIPE, stdin=folder)
    finally:
        os.close(folder)


def full(words: Sequence[str], given: bytes) -> Answer:
    """The output is a device that is full."""
    with open("/dev/full", "wb") as sink:
        return call_launcher(words, given, stdout=sink)


def unread_output(words: Sequence[str], given: bytes) -> Answer:
    """The output is a pipe that nobody reads any more."""
    reader, writer = os.pipe()
    os.close(reader)
    try:
        return call_launcher(words, given, stdout=writer)
    finally:
        os.close(writer)


def scarce(words: Sequence[str], given: bytes) -> Answer:
    """The program has little memory."""
    program = pathlib.Path(answering_program().command[0])
    return limits.answer(program, words, given, SCARCE) or Answer(limits.NOT_LOADED, b"")


INPUT, FULL, GONE, MEMORY = "an unreadable input", "a full device", "a pipe without a reader", "little memory"
FAILING = {INPUT: unreadable, FULL: full, GONE: unread_output, MEMORY: scarce}


def devices() -> Iterator[Device]:
    """A call of each command with each device that it may meet, and one for each text in place of a report."""
    hello = stored_file("hello")
    large = with_field(hello, DATA_SIZE, DATA_BYTES)
    report = stored_file("hello", "report")
    behind = {"run": b"", "save": b"", "check": report, "steps": b"commit\n", "trace": b"commit\n"}
    for word, text in behind.items():
        yield Device((word,), b"", INPUT, UNREAD)
        yield Device((word,), large + text, MEMORY, limits.NO_MEMORY)
    yield Device(("load", "walk", "7", "100000"), b"", MEMORY, limits.NO_MEMORY)
    for what in (FULL, GONE):
        yield Device(("load", "walk", "7", "1"), b"", what, UNWRITTEN)
        for word, text in behind.items():
            yield Device((word,), hello + text, what, UNWRITTEN)
    for words, given in ((("rum",), b""), (("run",), b""), (("check",), hello), (("steps",), hello + b"halt\n"),
                         (("trace",), hello + b"halt\n"), (("save", "--commits", "1"), stored_file("nested")),
                         (("save", "--commits", "1"), stored_file("pipeline"))):
        yield Device(words, given, FULL, UNWRITTEN)


def device_answers() -> tuple[list[tuple[str, Optional[str]]], set[tuple[str, int]]]:
    """Each call with what is wrong with its answer, and the pairs of a command and a status that they show."""
    calls = list(devices())
    return [(call.name, call.fault()) for call in calls], {(call.words[0], call.status) for call in calls}
