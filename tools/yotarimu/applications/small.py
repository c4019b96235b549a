"""The small size of each application, as `./fractal test` plays it by the built programs of this clone."""
from __future__ import annotations

from typing import Optional

from yotarimu.applications.application import Application
from yotarimu.applications.catalogue import APPLICATIONS
from yotarimu.applications.image import Case, made_elsewhere, need_tools
from yotarimu.applications.runs import check, run
from yotarimu.applications.words import SEED_UNLESS_TOLD, SIZE_UNLESS_TOLD
from yotarimu.common.outcome import Refusal
from yotarimu.images.compiler import GCC
from yotarimu.programs.calls import calls_at
from yotarimu.programs.program import SECOND


def why_left_out() -> Optional[str]:
    """A sentence on what is missing to play applications; None where nothing is."""
    try:
        calls_at()
        calls_at(which=SECOND)
        need_tools(GCC)
    except Refusal as refused:
        return str(refused)
    return None


def small_faults() -> list[tuple[str, Optional[str]]]:
    """What is wrong with each application, by its name; None where nothing is."""
    return [(name, fault_of(application)) for name, application in APPLICATIONS.items()]


def fault_of(application: Application) -> Optional[str]:
    """What is wrong with the memory that a small input leaves, or with its report; None where nothing is."""
    made, problem = made_elsewhere(Case(application, application.sizes[SIZE_UNLESS_TOLD], SEED_UNLESS_TOLD), GCC)
    try:
        check(calls_at(which=SECOND), made, problem)
        run(calls_at(), made, [])
    except Refusal as refused:
        return str(refused)
    return None
