"""The project's examples, its schedules and its table of answers, each compared with what is stored."""
from __future__ import annotations

from collections.abc import Sequence
from typing import Optional

from yotarimu.common.places import ARCHIVE
from yotarimu.courses.agreement import retold_schedules
from yotarimu.programs.answers import Case, all_answers, missing_statuses
from yotarimu.programs.cases import cases_of, play
from yotarimu.programs.devices import device_answers
from yotarimu.programs.program import TRANSLATION, answering_program

ANSWERS = "answers"
TRANSLATED = "Calls that want little memory or devices that fail were left out, since Node or Deno runs the program."
UNPROVED = "The program was compiled without proofs; ./fractal prove proves and builds it."
PROVED = "This proved nothing: " + (
    "the file PACKAGE names the commit that was proved, as noted by the builder." if ARCHIVE.is_file()
    else "./fractal prove proves the program, and rt ci proves all.")
REMARKS = {"translation": TRANSLATED, "unproved": UNPROVED}


def lines_of(what: str, faults: Sequence[tuple[str, Optional[str]]], right: str) -> list[str]:
    """All of a kind in a line, with a line for each that went otherwise than right."""
    wrong = [f"  {name}: {fault}" for name, fault in faults if fault]
    told = f"{len(faults) - len(wrong)} of {len(faults)} {right}" if wrong else f"{len(faults)} accepted"
    return [f"{what}: {told}", *wrong]


def of_native(answers: Sequence[Case]) -> list[tuple[str, Optional[str]]]:
    """What is wrong with each answer that only a native program gives, by its name; None where nothing is. The last row
    says that with these and other answers each status of each command was shown."""
    faults, shown = device_answers()
    lacking = missing_statuses(shown | {(case.words[0], case.status) for case in answers})
    return [*faults, ("each status of each command", "; ".join(lacking) or None)]


def check(names: Sequence[str]) -> tuple[int, int]:
    """Writes a line for each name, and gives back how many calls were made, and how many went otherwise."""
    answers = all_answers() if ANSWERS in names else []
    cases = [(name, case) for name in names if name != ANSWERS for case in cases_of(name)]
    cases += [(ANSWERS, case) for case in answers]
    found: dict[str, list[tuple[str, Optional[str]]]] = {}
    for (name, _), (case, fault) in zip(cases, play([case for _, case in cases])):
        found.setdefault(name, []).append((case.name, fault))
        if name != ANSWERS and len(found[name]) == 2:
            wrong = next((fault for _, fault in found[name] if fault), None)
            print(f"{name}: {wrong or 'accepted'}", flush=True)
    if answers:
        found[ANSWERS] += [] if answering_program().kind == TRANSLATION else of_native(answers)
        found[ANSWERS] += retold_schedules()
        print(*lines_of(ANSWERS, found[ANSWERS], "as stored"), sep="\n")
    faults = [fault for calls in found.values() for _, fault in calls]
    return len(faults), sum(fault is not None for fault in faults)
