"""Calls of the built program of which one allocation is refused."""
from __future__ import annotations

import collections
import concurrent.futures
import os
import pathlib
import subprocess
import sys
import tempfile
from collections.abc import Iterator
from typing import NamedTuple, Optional

from yotarimu.common.outcome import Refusal
from yotarimu.common.places import EXAMPLES_FOLDER
from yotarimu.programs.examples import words_of
from yotarimu.programs.limits import KILLED, NO_MEMORY, OUT_OF_MEMORY, WHOLE
from yotarimu.programs.program import Answer

SOURCE = pathlib.Path(__file__).with_suffix(".c")
# More allocations aren't refused one by one.
MOST = 100_000


def compile_to(path: pathlib.Path) -> None:
    """Compiles the library that refuses an allocation; refuses where cc is missing or fails."""
    words = ["cc", "-shared", "-fPIC", "-O1", "-o", str(path), str(SOURCE)]
    try:
        done = subprocess.run(words, capture_output=True, text=True, stdin=subprocess.DEVNULL)
    except FileNotFoundError:
        raise Refusal("the C compiler cc isn't in the path.") from None
    if done.returncode != 0:
        raise Refusal(f"cc makes no library of {SOURCE.name}: {done.stderr.strip()[:300]}")


class Call(NamedTuple):
    """A call of a program: the program, its words, and what it reads."""
    program: pathlib.Path
    words: tuple[str, ...]
    data: bytes


class Refuser:
    """A library that counts allocations, and refuses one. It is in a folder that is removed with this."""

    def __init__(self) -> None:
        self.folder = tempfile.TemporaryDirectory(prefix="fractal-")
        self.library: Optional[int] = None

    def __enter__(self) -> Refuser:
        path = pathlib.Path(self.folder.name, "refusing.so")
        try:
            compile_to(path)
            # The loader gets a number for its path, which may have blanks and colons.
            self.library = os.open(path, os.O_RDONLY)
        except BaseException:
            self.folder.cleanup()
            raise
        return self

    def __exit__(self, *_error: object) -> None:
        if self.library is not None:
            os.close(self.library)
        self.folder.cleanup()

    def answer(self, call: Call, **variables: str) -> Answer:
        """The status of a call, and what it wrote."""
        assert self.library is not None
        try:
            done = subprocess.run([call.program, *call.words], input=call.data, stdout=subprocess.PIPE,
                                  stderr=subprocess.DEVNULL, pass_fds=[self.library],
                                  env={**os.environ, "LD_PRELOAD": f"/proc/self/fd/{self.library}", **variables})
        except OSError as error:
            raise Refusal(f"{call.program}: it can't be run: {error.strerror}.") from None
        return Answer(done.returncode, done.stdout)

    def count(self, call: Call) -> tuple[int, Answer]:
        """How many allocations a call makes, and its answer."""
        place = pathlib.Path(self.folder.name, "counted")
        place.unlink(missing_ok=True)
        said = self.answer(call, COUNTED_ALLOCATIONS=str(place))
        count = int.from_bytes(place.read_bytes(), sys.byteorder) if place.exists() else 0
        if not 0 < count <= MOST:
            raise Refusal(f"{call.program}: no allocations are counted; a program without the GNU C library, or with "
                          "an allocator of its own, can't be watched so.")
        return count, said

    def refused_in_turn(self, call: Call, count: int, whole: Answer) -> Iterator[tuple[int, Optional[str], Answer]]:
        """The number of each allocation, with the outcome of the call in which it was refused, and its answer."""

        def outcome(number: int) -> tuple[int, Optional[str], Answer]:
            said = self.answer(call, REFUSED_ALLOCATION=str(number))
            if said == whole:
                return number, WHOLE, said
            if said == (NO_MEMORY, b""):
                return number, OUT_OF_MEMORY, said
            return number, KILLED if said.status < 0 and not said.written else None, said

        pool = concurrent.futures.ThreadPoolExecutor(os.cpu_count())
        try:
            yield from pool.map(outcome, range(1, count + 1))
        finally:
            pool.shutdown(cancel_futures=True)


NAMES = ("conflict", "children", "four_cores")
# Room for the entries of so many tasks is made before a run.
FEW = ("--commits", "10000")
# One core, a short queue, and more events for the least task than the run has.
ONE_QUEUE = ("steps", "--tiles", "1", "--cores", "1", "--task-queue", "4")
ADVANCES = b"advance\n" * 500


def call_of(name: str, program: pathlib.Path) -> Call:
    """The program, its words, and what it reads."""
    folder = EXAMPLES_FOLDER / "schedules" / ("four_cores" if name == "children" else name)
    image = (folder / "image.bin").read_bytes()
    if name == "children":
        return Call(program, (*ONE_QUEUE, *FEW), image + ADVANCES)
    return Call(program, (*words_of(str(folder)), *FEW), image + (folder / "script").read_bytes())


def refuse_each(name: str, program: pathlib.Path,
                library: Refuser) -> tuple[int, collections.Counter[Optional[str]], list[str]]:
    """How many allocations a schedule makes, how many runs had which outcome, and what was wrong, a text each."""
    call = call_of(name, program)
    count, whole = library.count(call)
    if whole.status != 0:
        raise Refusal(f"{program}: with all allocations the schedule {name} has the status {whole.status}, and not 0.")
    counts: collections.Counter[Optional[str]] = collections.Counter()
    faults = []
    for number, outcome, said in library.refused_in_turn(call, count, whole):
        counts[outcome] += 1
        if outcome not in (WHOLE, OUT_OF_MEMORY):
            shown = said.written[-60:].decode("ascii", "backslashreplace").strip()
            faults.append(f"allocation {number:,} refused: status {said.status} and `{shown}`")
    if counts[OUT_OF_MEMORY] == 0:
        faults.append(f"status {NO_MEMORY} never came")
    return count, counts, faults
