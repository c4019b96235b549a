"""Calls of a program, several at once, all of which can be ended."""
from __future__ import annotations

import contextlib
import os
import subprocess
import tempfile
import threading
from collections.abc import Iterator, Sequence
from typing import IO, Callable, Optional, TypeVar, Union

from yotarimu.common.outcome import Refusal
from yotarimu.common.words import need_number
from yotarimu.programs.program import FIRST, Answer, Command, program_at

# What a shell tells of a program that it can't start.
NOT_STARTED = 126
MOST_AT_ONCE = 1 << 16
# An image of a few bytes may take all memory, so a program that a tool calls has so many GiB of address space, or as
# many as the environment says; 0 isn't a limit. Node and Deno have a limit of their own.
MEMORY_NAME, GIBIBYTES, MOST_GIBIBYTES = "YOTARIMU_MEMORY", 4, 1 << 20
Item = TypeVar("Item")
Made = TypeVar("Made")


def calls_at(path: Optional[str] = None, which: str = FIRST) -> Calls:
    """Calls of the program at a path, or of the one that answers here."""
    return Calls(program_at(path, which).command)


def memory_limit() -> int:
    """How many GiB a program may have that a tool calls; 0 if there isn't a limit."""
    text = os.environ.get(MEMORY_NAME)
    return need_number(MEMORY_NAME, text, 0, MOST_GIBIBYTES) if text else GIBIBYTES


def limit_told() -> str:
    """What a person is to know of the limit if a program ran out of memory."""
    gibibytes = memory_limit()
    return f"a tool gives it {gibibytes} GiB, and {MEMORY_NAME}=N gives it N" if gibibytes else "a tool sets no limit"


class Calls:
    """Calls of a program under a limit of memory, all of which can be ended."""

    def __init__(self, command: Command) -> None:
        self.command = command
        # A program that Node or Deno runs has more than one word.
        self.gibibytes = memory_limit() if len(command) == 1 else 0
        self.running: set[subprocess.Popen[bytes]] = set()
        self.lock, self.is_stopped = threading.Lock(), False

    def each(self, function: Callable[[Item], Made], items: Sequence[Item], jobs: int) -> Iterator[tuple[Item, Made]]:
        """Each item with its result, in order. When it is left early, by an interrupt too, all calls are ended."""
        # Few commands make several calls at once, and the module takes time to import.
        from concurrent.futures import ThreadPoolExecutor
        pool = ThreadPoolExecutor(jobs)
        try:
            yield from zip(items, pool.map(function, items))
        finally:
            self.stop()
            pool.shutdown(cancel_futures=True)

    def stop(self) -> None:
        """Ends all calls that still run, and starts no other."""
        with self.lock:
            self.is_stopped = True
            for process in self.running:
                process.kill()

    def start(self, words: Sequence[str], stdin: Union[int, IO[bytes]]) -> Optional[subprocess.Popen[bytes]]:
        """A call of the program that runs, or None where it can't be started."""
        with self.lock:
            if self.is_stopped:
                return None
            try:
                process = subprocess.Popen([*self.command, *words], stdin=stdin, stdout=subprocess.PIPE)
            except OSError:
                return None
            self.running.add(process)
            self.bound(process)
            return process

    def bound(self, process: subprocess.Popen[bytes]) -> None:
        """Bounds the memory of a call, before it has read its input, on systems that can do so."""
        with contextlib.suppress(ImportError, AttributeError, OSError):
            from resource import RLIM_INFINITY, RLIMIT_AS, prlimit
            hard = prlimit(process.pid, RLIMIT_AS)[1]
            if self.gibibytes and (hard == RLIM_INFINITY or hard > self.gibibytes << 30):
                prlimit(process.pid, RLIMIT_AS, (self.gibibytes << 30, hard))

    def status_of(self, process: subprocess.Popen[bytes]) -> int:
        """The status of a call, once it has ended."""
        process.wait()
        with self.lock:
            self.running.discard(process)
        return process.returncode if process.returncode >= 0 else 128 - process.returncode

    def call(self, words: Sequence[str], data: bytes) -> Answer:
        """The status of a call of the program, and what it wrote."""
        process = self.start(words, subprocess.PIPE)
        if process is None:
            return Answer(NOT_STARTED, b"")
        try:
            written, _ = process.communicate(data)
        except BaseException:
            process.kill()
            raise
        return Answer(self.status_of(process), written)

    def read(self, words: Sequence[str], data: bytes,
             reader: Callable[[IO[bytes]], Made]) -> tuple[int, Union[Made, Refusal, None]]:
        """The status of a call of the program, and what `reader` makes of what it writes, as it comes; or what it
        refuses that for."""
        with tempfile.TemporaryFile() as given:
            given.write(data)
            given.seek(0)
            process = self.start(words, given)
            if process is None:
                return NOT_STARTED, None
            assert process.stdout is not None
            with process.stdout as written:
                try:
                    made: Union[Made, Refusal] = reader(written)
                except Refusal as refused:
                    made = refused
                    # The status is to be the program's own.
                    while written.read(MOST_AT_ONCE):
                        pass
                except BaseException:
                    process.kill()
                    raise
            return self.status_of(process), made
