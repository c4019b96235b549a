"""Calls of assemblers, compilers and linkers under bounds of time, memory and bytes, since a source may ask for more
than any machine has."""
from __future__ import annotations

import os
import re
import resource
import signal
import subprocess
import tempfile
from collections.abc import Sequence
from typing import IO, NamedTuple, Optional

# Seconds of a processor and on the clock, bytes of address space, and bytes of each file that a tool writes: one for an
# image is far below.
MOST_PROCESSOR, MOST_SECONDS = 120, 300
MOST_MEMORY, MOST_WRITTEN = 2 << 30, 64 << 20
# So much of its complaints is read.
MOST_SAID = 1 << 20
# How tools say that a program of theirs met a bound.
TOO_LARGE = r"File too large|File size limit exceeded"
TOO_LONG = r"CPU time limit exceeded"
TOO_MUCH = r"(out of|exhausted|cannot allocate|failed to map) .*memory|memory exhausted|out of memory|bad_alloc"


class Done(NamedTuple):
    """How a tool ended, what it wrote, and what it complained of."""
    status: int
    output: str
    said: str

    def met_bound(self) -> Optional[str]:
        """Which bound the tool met; None where it met none."""
        if self.status == 0:
            return None
        if self.status == -signal.SIGXCPU or re.search(TOO_LONG, self.said):
            return f"took more than {MOST_PROCESSOR} seconds of a processor"
        if re.search(TOO_MUCH, self.said, re.IGNORECASE):
            return f"wanted more than {MOST_MEMORY >> 30} GiB of memory"
        return None

    def is_too_large(self) -> bool:
        """Whether a file would have been too large."""
        return self.status == -signal.SIGXFSZ or re.search(TOO_LARGE, self.said) is not None


def run_bounded(words: Sequence[str], folder: str) -> Optional[Done]:
    """Runs a tool in a folder; None where it takes too long, and then it and all that it started is ended."""
    with tempfile.TemporaryFile() as output, tempfile.TemporaryFile() as errors:
        process = subprocess.Popen(words, cwd=folder, stdin=subprocess.DEVNULL, stdout=output, stderr=errors,
                                   env={**os.environ, "LC_ALL": "C"}, preexec_fn=bound, start_new_session=True)
        try:
            status = process.wait(MOST_SECONDS)
        except BaseException as error:
            os.killpg(process.pid, signal.SIGKILL)
            process.wait()
            if isinstance(error, subprocess.TimeoutExpired):
                return None
            raise
        return Done(status, text_in(output, MOST_WRITTEN), text_in(errors, MOST_SAID))


def text_in(file: IO[bytes], most: int) -> str:
    """What was written to a file, up to so many bytes."""
    file.seek(0)
    return file.read(most).decode("utf-8", "replace")


def bound() -> None:
    """Bounds a tool that is about to start, and all that it starts."""
    for kind, most in ((resource.RLIMIT_CPU, MOST_PROCESSOR), (resource.RLIMIT_AS, MOST_MEMORY),
                       (resource.RLIMIT_FSIZE, MOST_WRITTEN), (resource.RLIMIT_CORE, 0)):
        hard = resource.getrlimit(kind)[1]
        least = most if hard == resource.RLIM_INFINITY else min(most, hard)
        resource.setrlimit(kind, (least, hard))
