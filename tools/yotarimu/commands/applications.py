"""Makes the programs of the folder applications/ with their input, runs them, and compares what they leave with the
results of plain programs.

usage: ./fractal applications list
       ./fractal applications make NAME [FOLDER] [--size SIZE] [--seed N] [--clang]
       ./fractal applications run NAME [--size SIZE] [--seed N] [--clang] [--OPTION VALUE]...
       ./fractal applications check [NAME]... [--size SIZES] [--seed N] [--clang | --both] [--workers NUMBERS]
       ./fractal applications table [NAME]... [--size SIZE] [--seed N] [--clang] [ARGUMENT]...

`list` prints the names, what the size of each counts, and which sizes there are.

`make` writes the sources and their input, image.bin and listing to FOLDER, by default NAME-SIZE. It must be empty or
not exist. `run` makes them elsewhere, runs the image with the program's options, and has the report checked.

`check` takes all applications if none is named, and compares the memory that the run leaves with what a plain program
finds. Then it runs the image with each of the NUMBERS of workers, and has each report checked.

`table` plays them in lockstep, and prints what `./fractal study` prints. ARGUMENT is one of that: options of the
program, --columns, --rounds, --csv and --jobs.

  --size SIZE        small, medium, large or a number; for `check` several with commas between (default small)
  --seed N           makes other input (0 to 4,294,967,295; default 1)
  --clang            compiles by clang in place of gcc
  --both             compiles by gcc, and then by clang
  --workers NUMBERS  numbers of host threads, with commas between (default 0)
  --sim FILE         a built fractal_sim in place of the one that answers here
  --watch FILE       a built fractal_watch in place of the one that answers here
"""
from __future__ import annotations

import contextlib
import dataclasses
import os
import pathlib
import tempfile
from typing import Callable, Iterable, Iterator, Mapping, Optional, Sequence

from yotarimu.applications.catalogue import APPLICATIONS
from yotarimu.applications.image import IMAGE, Case, made_elsewhere, make, need_tools, whole_folder
from yotarimu.applications.runs import check, run
from yotarimu.applications.words import Asked, asked_in, cases_of
from yotarimu.commands import study
from yotarimu.common.outcome import Refusal
from yotarimu.common.tables import table
from yotarimu.common.words import Words
from yotarimu.courses.grid import program_options, values_of
from yotarimu.images.compiler import told_by
from yotarimu.programs.calls import calls_at
from yotarimu.programs.program import SECOND
from yotarimu.programs.table import Table

NAME = "applications"
HELP = "./fractal applications --help says more"
MADE = ("size", "seed", "clang")


def main(words: Sequence[str]) -> Optional[int]:
    """Does what the first word asks for."""
    if not words or words[0] not in DOES:
        told = f", and not `{words[0]}`" if words else ""
        raise Refusal(f"it wants one of {', '.join(DOES)}{told}; {HELP}.")
    return DOES[words[0]](list(words[1:]))


def read_words(words: list[str], mode: str, names: Sequence[str], options: Iterable[str] = ()) -> Asked:
    """What a call asks for, by these options of its own and others."""
    given = Words(NAME, options, page=__doc__).read(words)
    given.need_only([*names, *options], f"`{mode}`")
    return asked_in(given)


def list_all(words: list[str]) -> None:
    """Lists each application with its sizes."""
    if words:
        raise Refusal("`list` takes no further words.")
    rows = [(it.name, it.size_told, f"{it.size_range[0]:,} to {it.size_range[-1]:,}",
             *(f"{size:,}" for size in it.sizes.values())) for it in APPLICATIONS.values()]
    print(*table(("Name", "The size counts", "From, to", "small", "medium", "large"), rows), sep="\n")


def make_one(words: list[str]) -> None:
    """Writes an application with its input to a folder."""
    asked = read_words(words, "make", MADE)
    if not 1 <= len(asked.names) <= 2:
        raise Refusal(f"`make` takes a NAME and a FOLDER; {HELP}.")
    case = one_case(dataclasses.replace(asked, names=asked.names[:1]), "make")
    folder = pathlib.Path(asked.names[1] if len(asked.names) > 1 else f"{asked.names[0]}-{asked.size}")
    need_tools(asked.compilers[0])
    with whole_folder(folder) as inside:
        make(case, case.problem(), asked.compilers[0], inside)
    print(folder / IMAGE)


def run_one(words: list[str]) -> None:
    """Runs an application, with options of the program."""
    known = Table().options
    asked = read_words(words, "run", (*MADE, "sim"), known)
    case = one_case(asked, "run")
    options = program_options(asked.values, known)
    calls = calls_at(asked.values["sim"])
    made, _ = made_elsewhere(case, asked.compilers[0])
    told = run(calls, made, options)
    print(f"{case.words_text}: {told.commits:,} tasks took their turns in {told.seconds:.1f} s; `check` accepts the "
          f"report, in {told.check_seconds:.1f} s.")


def check_all(words: list[str]) -> None:
    """Checks what each application leaves, and its reports with workers."""
    asked = read_words(words, "check", (*MADE, "both", "workers", "sim", "watch"))
    numbers = values_of(Table().options["workers"], asked.values["workers"] or "0")
    cases = cases_of(asked)
    calls, second = calls_at(asked.values["sim"]), calls_at(asked.values["watch"], SECOND)
    for case in cases:
        for compiler in asked.compilers:
            made, problem = made_elsewhere(case, compiler)
            right = check(second, made, problem)
            runs = [run(calls, made, [f"--workers={number}"]) for number in numbers]
            print(f"{case.words_text} by {told_by(compiler, compiler)}: {runs[0].commits:,} tasks; {right}. Reports "
                  f"with {', '.join(map(str, numbers))} workers are accepted.", flush=True)


def table_of_all(words: list[str]) -> Optional[int]:
    """Plays each application in lockstep, and prints its figures: a study whose images have the applications' names."""
    given = Words(NAME, ["csv"], page=__doc__).read_known(words)
    given.need_only((*MADE, "watch", "csv"), "`table`")
    asked = asked_in(given)
    if "," in asked.size or any(word.startswith("--plot") for word in asked.rest):
        raise Refusal(f"`table` takes one size, and draws no plot; {HELP}.")
    further = [*asked.rest, *(f"--{name}={os.path.abspath(file)}" for name in ("watch", "csv")
                              if (file := asked.values[name]) is not None)]
    with tempfile.TemporaryDirectory() as folder:
        names = [case.application.name for case in cases_of(asked)]
        for case in cases_of(asked):
            made, _ = made_elsewhere(case, asked.compilers[0])
            pathlib.Path(folder, case.application.name).write_bytes(made.image)
        with working_folder(folder):
            return study.main([*names, *further])


@contextlib.contextmanager
def working_folder(folder: str) -> Iterator[None]:
    """A folder as the one that names of files are sought in."""
    before = os.getcwd()
    os.chdir(folder)
    try:
        yield
    finally:
        os.chdir(before)


def one_case(asked: Asked, word: str) -> Case:
    """The case that a call is about."""
    if len(asked.names) != 1 or "," in asked.size:
        raise Refusal(f"`{word}` takes one NAME and one size; {HELP}.")
    return cases_of(asked)[0]


DOES: Mapping[str, Callable[[list[str]], Optional[int]]] = {
    "list": list_all, "make": make_one, "run": run_one, "check": check_all, "table": table_of_all}
