"""Makes every table and figure of the evaluation of all applications: tasks, speed-ups, core time, and forms.

usage: ./fractal evaluation FOLDER [--size SIZE] [--seeds VALUES] [--jobs N]
       ./fractal evaluation --list [--size SIZE] [--seeds VALUES]
       ./fractal evaluation --shard NAME FILE [--size SIZE] [--seeds VALUES]
       ./fractal evaluation --finish FOLDER [--size SIZE] [--seeds VALUES]

FOLDER/evaluation.md has all tables with their figures, FOLDER/figures has these as SVG and, if rsvg-convert is
installed, as PDF and PNG, FOLDER/rows has all numbers as CSV with the program that made each row, and FOLDER/shards has
a file for each study of an application. The result that each run leaves is checked by the application's own check. An
evaluation that was ended goes on with the shards that are missing, or that another program made.

  --size SIZE           the size of all inputs; only for small ones is the speed-up in instructions, because a run has
                        at most 1,000,000 rounds (small, medium or large; default small)
  --seeds VALUES        seeds over which the spread is taken, as ./fractal study has them (default 0..9)
  --applications NAMES  only these applications, with commas between
  --jobs N              so many shards are made at once (1 to 1,024; default 1)
  --watch FILE          a built fractal_watch in place of the one that answers here
  --list                prints the names of the shards, a line each
  --shard NAME          makes one shard, and writes it to FILE
  --finish FOLDER       makes the page and the figures of the shards in FOLDER/shards

The shards are the same bytes wherever they are made, and are joined by --finish. tools/workflow/Snakefile has them as
rules of Snakemake: `snakemake -s tools/workflow/Snakefile --directory FOLDER --cores 4`.
"""
from __future__ import annotations

import pathlib
import shutil
import sys
from collections.abc import Sequence
from typing import NamedTuple, Optional

from yotarimu.applications.catalogue import APPLICATIONS
from yotarimu.applications.words import need_application
from yotarimu.common.crew import Crew
from yotarimu.common.files import write_whole
from yotarimu.common.words import GivenWords, Words
from yotarimu.courses.evaluation import SIZES, Maker, Plan, Task, plans, task_named, tasks_of
from yotarimu.courses.evaluation_page import FIGURES, PAGE, ROWS, TABLES, files_of
from yotarimu.courses.row_pictures import CONVERTER

SHARDS = "shards"
SEEDS = "0..9"


class Asked(NamedTuple):
    """What a call asks for: the size, the seeds, the applications, how many shards at once, and the program."""
    size: str
    seeds: str
    applications: Sequence[str]
    jobs: int
    watch: Optional[str]

    def maker(self) -> Maker:
        """What makes its shards."""
        return Maker(self.size, self.plans(), self.watch)

    def plans(self) -> dict[str, Plan]:
        """Its studies."""
        return plans(self.size, self.seeds, self.applications)


def asked_in(given: GivenWords) -> Asked:
    """What the words ask for."""
    told = given.values
    names = told["applications"]
    chosen = [need_application(name).name for name in names.split(",")] if names else list(APPLICATIONS)
    return Asked(told["size"] or SIZES[0], told["seeds"] or SEEDS, chosen, given.number("jobs"), told["watch"])


def make_shards(asked: Asked, folder: pathlib.Path) -> None:
    """Makes the shards that are missing, so many at once."""
    maker, shards = asked.maker(), folder / SHARDS
    shards.mkdir(parents=True, exist_ok=True)
    tasks = tasks_of(maker.plans)
    left = [task for task in tasks if not maker.is_made(task, path_of(shards, task))]
    done = len(tasks) - len(left)
    for told in Crew(lambda task, tell: maker.make(task, path_of(shards, task)), asked.jobs).each(left):
        if told.is_last:
            done += 1
            print(f"evaluation: {done} of {len(tasks)} shards; {left[told.place].name}", file=sys.stderr, flush=True)


def path_of(shards: pathlib.Path, task: Task) -> pathlib.Path:
    """The file of a shard."""
    return shards / f"{task.name}.csv"


def finish(asked: Asked, folder: pathlib.Path) -> None:
    """Makes the page, the tables and the figures."""
    files = files_of(asked.plans(), folder / SHARDS, shutil.which(CONVERTER) is not None)
    for name in (TABLES, FIGURES, ROWS):
        (folder / name).mkdir(exist_ok=True)
    write_whole({str(folder / name): data for name, data in files.items()})
    print(folder / PAGE)


def main(words: list[str]) -> None:
    """Does what the words of the call ask for."""
    given = Words("evaluation", page=__doc__).read(words)
    asked, shard, finished = asked_in(given), given.values["shard"], given.values["finish"]
    if "list" in given.flags:
        given.need("no FOLDER beside --list", 0)
        print(*(task.name for task in tasks_of(asked.plans())), sep="\n")
    elif shard is not None:
        path, = given.need("a FILE for the shard", 1)
        maker = asked.maker()
        maker.make(task_named(shard, maker.plans), pathlib.Path(path))
    elif finished is not None:
        given.need("one FOLDER", 0)
        finish(asked, pathlib.Path(finished))
    else:
        folder, = given.need("a FOLDER", 1)
        make_shards(asked, pathlib.Path(folder))
        finish(asked, pathlib.Path(folder))
