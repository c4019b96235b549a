"""The evaluation of STUDY and APPLICATIONS in shards: a file of CSV for each study of an application.

A shard depends on the repository and on the program alone, so it is the same bytes wherever it is made. Its image is
built anew, and the memory that each of its runs leaves is checked before its rows are written.
"""
from __future__ import annotations

import dataclasses
import functools
import pathlib
from collections.abc import Iterator, Mapping, Sequence
from typing import Optional

from yotarimu.applications.catalogue import APPLICATIONS
from yotarimu.applications.image import Case, made_elsewhere
from yotarimu.applications.memory import Memory, WrongMemory
from yotarimu.applications.words import SEED_UNLESS_TOLD
from yotarimu.common.files import write_whole
from yotarimu.common.outcome import Refusal
from yotarimu.courses.grid import cells_of, values_of
from yotarimu.courses.shards import read_study, with_comparisons
from yotarimu.courses.study import PlayedRows, Study, grid_options, lockstep_words
from yotarimu.courses.study_rows import Choice, csv_of
from yotarimu.figures.columns import END
from yotarimu.images.compiler import GCC
from yotarimu.programs.calls import Calls
from yotarimu.programs.program import SECOND, Program, program_at
from yotarimu.programs.table import Table, Value

MOST_ROUNDS = 1_000_000
MACHINES = ("1x1", "1x4", "4x4", "16x4")
# Lines, queues and filters as the papers of Swarm and Fractal have them.
AS_PUBLISHED = {"line": "64", "task-queue": "256", "commit-queue": "64", "filter": "bloom"}
FINE = {"quantum": "1"}
SIZES = ("small", "medium", "large")
# In instructions a run on one core has a round for each, and a run has at most a million rounds.
SIZES_IN_INSTRUCTIONS = {"astar": 35, "des": 2}


@dataclasses.dataclass(frozen=True)
class Plan:
    """A study of several applications: their names, the machines, values of options, whether counts are enough, and
    which sizes differ from the one that is asked for."""
    applications: Sequence[str]
    machines: Sequence[str]
    options: Mapping[str, str]
    is_counted: bool
    sizes: Mapping[str, int] = dataclasses.field(default_factory=dict)


def plans(size: str, seeds: str, everyone: Sequence[str]) -> dict[str, Plan]:
    """The studies of an evaluation of applications by their names. Only small inputs keep to a million rounds in
    instructions."""
    is_small = size == SIZES[0]
    in_instructions = {**AS_PUBLISHED, **FINE} if is_small else AS_PUBLISHED
    return {
        "tasks": Plan(everyone, MACHINES[:1], {}, False),
        "speedup": Plan(everyone, MACHINES, in_instructions, True, SIZES_IN_INSTRUCTIONS if is_small else {}),
        "seeds": Plan(everyone, MACHINES[-1:], {**AS_PUBLISHED, "seed": seeds}, True),
        "core-time": Plan(everyone, MACHINES, AS_PUBLISHED, False),
        "lines": Plan(everyone, MACHINES[-1:], {**AS_PUBLISHED, "filter": "modulo", "line": "4,64"}, False)}


@dataclasses.dataclass(frozen=True)
class Task:
    """A shard: a study and an application."""
    study: str
    application: str

    @property
    def name(self) -> str:
        """Its name, which is that of its file without the ending."""
        return f"{self.study}.{self.application}"


def tasks_of(found: Mapping[str, Plan]) -> list[Task]:
    """All shards, in their order."""
    return [Task(study, name) for study, plan in found.items() for name in plan.applications]


def task_named(name: str, found: Mapping[str, Plan]) -> Task:
    """The shard of a name; refuses another name."""
    task = next((task for task in tasks_of(found) if task.name == name), None)
    if task is None:
        raise Refusal(f"unknown shard {name}; --list prints all.")
    return task


def choices_of(name: str, plan: Plan, table: Table) -> list[Choice]:
    """The choices of a shard."""
    grid = grid_options(table)
    choices: list[Choice] = []
    for machine in plan.machines:
        texts = {**plan.options, **dict(zip(("tiles", "cores"), machine.split("x")))}
        values: dict[str, list[Value]] = {option: values_of(grid[option], text) for option, text in texts.items()}
        choices += [Choice(len(choices) + number, name, cell) for number, cell in enumerate(cells_of(grid, values), 1)]
    return choices


class Maker:
    """Makes shards by a program."""

    def __init__(self, size: str, found: Mapping[str, Plan], watch: Optional[str]) -> None:
        self.size, self.plans, self.table = size, found, Table()
        self.program: Program = program_at(watch, SECOND)
        self.calls = Calls(self.program.command)

    def make(self, task: Task, path: pathlib.Path) -> None:
        """Writes the rows of a shard to a file, whole."""
        plan, application = self.plans[task.study], APPLICATIONS[task.application]
        size = plan.sizes.get(task.application, application.sizes[self.size])
        made, problem = made_elsewhere(Case(application, size, SEED_UNLESS_TOLD), GCC)
        choices = choices_of(task.application, plan, self.table)
        study = Study({task.application: made.image}, MOST_ROUNDS, [], self.calls, self.program.identity,
                      is_counted=plan.is_counted)
        played = PlayedRows(study, choices)
        for choice in choices:
            played.rows[choice.number] = study.row(choice, lambda news: None)
            status, data = self.calls.call(["memory", *lockstep_words(MOST_ROUNDS, choice)], made.image)
            if status == 0 and not played.rows[choice.number].end.startswith("none"):
                need_right(task, choice, functools.partial(problem.check, Memory(data, made.places)))
        write_whole({str(path): csv_of(played.known_cells(list(choices[0].options)))})

    def is_made(self, task: Task, path: pathlib.Path) -> bool:
        """Whether a file has all rows of a shard, by this program."""
        if not path.is_file():
            return False
        head, rows = read_study(str(path))
        choices = choices_of(task.application, self.plans[task.study], self.table)
        wanted = [[str(value) for value in choice.options.values()] for choice in choices]
        found = [[row[name] for name in head if name.startswith("--")] for row in rows]
        return wanted == found and {row["program"] for row in rows} == {self.program.identity}


def need_right(task: Task, choice: Choice, check: functools.partial[str]) -> None:
    """Refuses a run that left a wrong result."""
    try:
        check()
    except WrongMemory as wrong:
        raise Refusal(f"{task.name}, choice {choice.number}: what the run left is wrong: {wrong}.") from None


def join_tasks(names: Sequence[str], folder: pathlib.Path) -> list[list[str]]:
    """The rows of several shards as those of one study, with its comparisons."""
    cells: list[list[str]] = []
    for name in names:
        head, rows = read_study(str(folder / f"{name}.csv"))
        if cells and head != cells[0]:
            raise Refusal(f"{folder / name}.csv: its columns aren't those of the other shards.")
        cells = cells or [head]
        cells += [[row[column] for column in head] for row in rows]
    programs = list(dict.fromkeys(row[cells[0].index("program")] for row in cells[1:]))
    if len(programs) > 1:
        raise Refusal(f"these rows come from different programs: {' and '.join(programs)}.")
    places = {name: cells[0].index(name) for name in ("choice", "choices", END)}
    for number, row in enumerate(cells[1:], 1):
        row[places["choice"]], row[places["choices"]] = str(number), str(len(cells) - 1)
    return with_comparisons(cells)


def studies_joined(found: Mapping[str, Plan], folder: pathlib.Path) -> Iterator[tuple[str, list[list[str]]]]:
    """Each study by its name, with all its rows."""
    for study, plan in found.items():
        yield study, join_tasks([Task(study, name).name for name in plan.applications], folder)
