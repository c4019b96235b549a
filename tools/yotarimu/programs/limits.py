"""Calls of the built program under a limit of address space that falls."""
from __future__ import annotations

import os
import resource
import subprocess
from collections.abc import Iterator, Sequence
from typing import NamedTuple, Optional

from yotarimu.common.files import FilePath
from yotarimu.common.outcome import Refusal
from yotarimu.programs.program import Answer

NO_MEMORY = 5
# The status with which the system's loader ends.
NOT_LOADED = 127
# What may come of a call; its whole answer is the one that it gives with ample memory.
WHOLE, OUT_OF_MEMORY, NOT_STARTED, KILLED = "whole answers", "out of memory", "not started", "killed"
OUTCOMES = (WHOLE, OUT_OF_MEMORY, NOT_STARTED, KILLED)
# An answer that wants more address space isn't looked for.
MOST = 1 << 34
PAGE = resource.getpagesize()
# A limit falls by a page, or by this part of the least ample one.
MOST_STEPS = 1_024
# The C library then asks the system for little at a time, and not by the thread, and a thread's stack is a mebibyte.
ENVIRONMENT = {"MALLOC_TOP_PAD_": "0", "MALLOC_ARENA_MAX": "1"}
STACK = 1 << 20


def answer(program: FilePath, words: Sequence[str], data: bytes, limit: Optional[int] = None,
           stack: int = STACK) -> Optional[Answer]:
    """The status of a call under limits of address space and of stacks, and what it wrote; None if the system can't
    start it."""

    def bound() -> None:
        resource.setrlimit(resource.RLIMIT_STACK, (stack, resource.getrlimit(resource.RLIMIT_STACK)[1]))
        if limit is not None:
            resource.setrlimit(resource.RLIMIT_AS, (limit, resource.getrlimit(resource.RLIMIT_AS)[1]))

    try:
        done = subprocess.run([program, *words], input=data, stdout=subprocess.PIPE, stderr=subprocess.DEVNULL,
                              env={**os.environ, **ENVIRONMENT}, preexec_fn=bound)
    except (OSError, subprocess.SubprocessError):
        return None
    return Answer(done.returncode, done.stdout)


class Outcome(NamedTuple):
    """How a call ended, None if that is a fault, and its answer if the system could start it."""
    kind: Optional[str]
    said: Optional[Answer]


class Call:
    """A call of the program, and the answers that it gives with ample memory."""

    def __init__(self, program: FilePath, words: Sequence[str], data: bytes) -> None:
        self.program, self.words, self.data = program, words, data
        self.has_threads = "--workers" in words
        first = answer(program, words, data)
        if first is None or first.status < 0:
            raise Refusal(f"{program}: it can't be run with `{' '.join(words)}`.")
        (self.status, self.written), self.answers = first, {first}

    def fall(self) -> Iterator[tuple[int, Outcome]]:
        """Each limit, from an ample one to none, with the outcome of the call under it."""
        least = self.least()
        step = max(PAGE, least // MOST_STEPS // PAGE * PAGE)
        # Stacks of threads take what is above the least, and then memory runs out while threads run.
        limit = least + (4 * STACK if self.has_threads else 16 * step)
        while limit >= 0:
            outcome = self.outcome(limit)
            yield limit, outcome
            limit -= 16 * step if outcome.kind in (NOT_STARTED, KILLED) else step

    def least(self) -> int:
        """A limit under which the answer is whole, where a page less is too little."""
        ample, scarce = MOST, 0
        if self.outcome(ample).kind is not WHOLE:
            raise Refusal(f"`{' '.join(self.words)}` has no whole answer in {MOST >> 30} GiB of address space.")
        while ample - scarce > PAGE:
            middle = (ample + scarce) // 2 // PAGE * PAGE
            if self.outcome(middle).kind is WHOLE:
                ample = middle
            else:
                scarce = middle
        return ample

    def outcome(self, limit: int, stack: int = STACK) -> Outcome:
        """The outcome of the call under these limits."""
        said = answer(self.program, self.words, self.data, limit, stack)
        if said is None or said == (NOT_LOADED, b""):
            return Outcome(NOT_STARTED, said)
        if self.is_whole(said):
            return Outcome(WHOLE, said)
        if said == (NO_MEMORY, b""):
            return Outcome(OUT_OF_MEMORY, said)
        return Outcome(KILLED if said.status < 0 and not said.written else None, said)

    def is_whole(self, said: Answer) -> bool:
        """Whether this is an answer of ample memory. Host threads have several, each a report that `check` accepts."""
        if said in self.answers:
            return True
        if not self.has_threads or said.status != self.status or not said.written:
            return False
        checked = answer(self.program, ["check"], self.data + said.written)
        if checked is None or checked.status != 0:
            return False
        self.answers.add(said)
        return True
