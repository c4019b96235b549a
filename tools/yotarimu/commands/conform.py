"""Checks a code generator: builds small programs by it, runs them, and compares what each leaves with what it must.

usage: ./fractal conform [CASE]... [--gcc PATH] [--clang [PATH]] [--levels LIST] [--jobs N]
       ./fractal conform [CASE]... --compiler COMMAND [--jobs N]
       ./fractal conform [CASE]... --images FOLDER

The programs are the sources of examples/conformance, each a CASE: the stub, the six calls, each trap, alignment, the
edges of the stack, both sides of each limit, arithmetic, calls. Lines `// expect:` say how one ends, what it emits and
which words its window has, or why it is refused.

  --gcc PATH                 by this gcc; by gcc and clang if both are in the path, unless either is given
  --clang [PATH]             by clang, or by this clang
  --levels LIST              by these options -O (default O0,O1,O2,O3,Os)
  --compiler COMMAND         by another compiler, called as `COMMAND SOURCE.c OBJECT.o`
  --images FOLDER            by a compiler of another language: FOLDER has an image CASE.bin for each case that it can
                             write, and the others are left out
  --jobs N                   how many at once, by default one per processor (1 to 1,024)

It is run here by a plain reading of the instructions, so the programs needn't be built. The status is 1 where one is
wrong.
"""
from __future__ import annotations

import dataclasses
import functools
import os
import pathlib
import re
import shutil
from collections.abc import Callable, Sequence
from typing import Optional

from yotarimu.common.crew import Crew
from yotarimu.common.outcome import Refusal, is_at_terminal
from yotarimu.common.progress import show_progress
from yotarimu.common.text import count_text, likely
from yotarimu.common.words import Words
from yotarimu.comparing.conformance import (
    FOLDER, Case, cases_in, fault_of_command, fault_of_file, fault_of_source)
from yotarimu.images.compiler import CLANG, GCC, Compilers, need_compiler, told_by
from yotarimu.images.compiler_options import take_compilers

NAME = "conform"
LEVELS = "O0,O1,O2,O3,Os"


@dataclasses.dataclass(frozen=True)
class Trial:
    """A case by one compiler: how the compiler is called in sentences on one case and on all, and what finds the case's
    fault."""
    case: Case
    by: str
    all_by: str
    fault: Callable[[Case], Optional[str]]


def trials_of(cases: Sequence[Case], how: Compilers, named: Sequence[str], levels: str) -> list[Trial]:
    """Each case by each compiler at each level."""
    trials = []
    for kind in named:
        need_compiler(how.program(kind), kind)
        for level in levels.split(","):
            if not re.fullmatch("O([0-3sgz]|fast)", level):
                raise Refusal(f"--levels takes {LEVELS} and the like with commas between, and not `{level}`.")
            made = dataclasses.replace(how, of_c=kind, level=f"-{level}")
            name = told_by(how.program(kind), kind)
            trials += [Trial(case, f"{name} -{level}", name, functools.partial(fault_of_source, how=made))
                       for case in cases]
    return trials


def trials_of_images(cases: Sequence[Case], folder: pathlib.Path) -> list[Trial]:
    """The cases of which a folder has an image."""
    if not folder.is_dir():
        raise Refusal(f"{folder}: no such folder.")
    paths = {case.name: folder / f"{case.name}.bin" for case in cases}
    trials = [Trial(case, str(paths[case.name]), "images", lambda case: fault_of_file(case, paths[case.name]))
              for case in cases if paths[case.name].is_file()]
    if not trials:
        raise Refusal(f"{folder}: it has no image of a case, such as {cases[0].name}.bin.")
    return trials


def chosen_cases(names: Sequence[str]) -> list[Case]:
    """The cases of these names; all where none is named."""
    cases = {case.name: case for case in cases_in(FOLDER)}
    for name in names:
        if name not in cases:
            raise Refusal(f"examples/conformance has no case `{name}`{likely(name, cases)}")
    return [cases[name] for name in names] or list(cases.values())


def main(words: list[str]) -> int:
    """Does what the words of the call ask for, and gives the status."""
    named = [kind for kind, name in ((GCC, "--gcc"), (CLANG, "--clang"))
             if any(word.partition("=")[0] == name for word in words)]
    how, words = take_compilers(words, lambda word: (FOLDER / f"{word}.c").is_file())
    given = Words(NAME, page=__doc__).read(words)
    told, cases = given.values, chosen_cases(given.others)
    if sum((bool(named) or told["levels"] is not None, told["compiler"] is not None, told["images"] is not None)) > 1:
        raise Refusal("--compiler, --images, and --gcc, --clang and --levels are three ways, and one of them is taken.")
    jobs = given.number("jobs", unless_given=os.cpu_count() or 1)
    if (command := told["compiler"]) is not None:
        trials = [Trial(case, command, command, lambda case: fault_of_command(case, command or "")) for case in cases]
    elif told["images"] is not None:
        trials = trials_of_images(cases, pathlib.Path(told["images"]))
    else:
        kinds = named or [kind for kind in (GCC, CLANG) if shutil.which(kind)] or [GCC]
        trials = trials_of(cases, how, kinds, told["levels"] or LEVELS)
    return report(trials, jobs)


def report(trials: Sequence[Trial], jobs: int) -> int:
    """Makes all trials, and prints each that is wrong; gives the status."""
    wrong = 0
    crew = Crew(lambda trial, _tell: trial.fault(trial.case), jobs)
    for done, news in enumerate(crew.each(trials), 1):
        if news.what is not None:
            wrong += 1
            trial = trials[news.place]
            print(f"{trial.case.name} by {trial.by}: {news.what.rstrip('.')}.", flush=True)
        if is_at_terminal():
            show_progress(NAME, done, len(trials), f", {wrong} wrong" if wrong else "")
    compilers = " and ".join(dict.fromkeys(trial.all_by for trial in trials))
    print(f"{count_text(len(trials), 'program')} by {compilers}: "
          + (f"{wrong} wrong." if wrong else "each leaves what it must."))
    return 1 if wrong else 0
