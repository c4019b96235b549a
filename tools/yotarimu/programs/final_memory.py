"""The memory that a run leaves, as `fractal_watch` prints it."""
from __future__ import annotations

from typing import NamedTuple

from yotarimu.common.outcome import Refusal
from yotarimu.programs.calls import Calls
from yotarimu.programs.program import STATUSES

# The arguments of `fractal_watch` for the data memory that the events of the least task leave, and nothing else.
LEAST = ("memory", "least")


class FinalMemory(NamedTuple):
    """The data that a run leaves, and how the run ended."""
    data: bytes
    end: str


def memory_left(second: Calls, image: bytes) -> FinalMemory:
    """The memory that a run of an image leaves."""
    status, data = second.call(LEAST, image)
    end = next((end for end, its_status in STATUSES.items() if its_status == status), None)
    if end is None:
        raise Refusal(f"`watch {' '.join(LEAST)}` ended with status {status}; ./fractal help says what that means.")
    return FinalMemory(data, end)
