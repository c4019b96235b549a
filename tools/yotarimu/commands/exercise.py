"""Says whether an answer to an exercise of docs/guide/EXERCISES.md is right, or what is wrong with it.

usage: ./fractal exercise journal FILE             FILE has the lines of the journal that you expect
       ./fractal exercise abort|stall FILE         FILE is a script; it may have comments and blank lines
       ./fractal exercise false_conflict|order|domains FOLDER
                                                  FOLDER has the task.s that you changed; it is built there
       ./fractal exercise why FILE                 FILE has a line for each task that was aborted, and why
       ./fractal exercise EXERCISE ANSWER          EXERCISE is a folder of your own, whose file `wanted` says what an
                                                  answer is and what has to hold of it

The program has 4 GiB of memory to run what an answer makes; YOTARIMU_MEMORY=N gives it N GiB.

The numbers 1 to 7 stand for the names in this order. The status is 0 for a right answer, and 1 for a wrong one.
"""
from __future__ import annotations

import pathlib

from yotarimu.common.outcome import Refusal
from yotarimu.common.sentences import fill
from yotarimu.common.words import Words
from yotarimu.courses.exercise_texts import TEXTS, WrongAnswer
from yotarimu.courses.exercises import JUDGES
from yotarimu.courses.own_exercises import judge_own


def main(words: list[str]) -> int:
    """Does what the words of the call ask for, and gives the status."""
    name, answer = Words("exercise").read(words).need("an exercise and the FILE or FOLDER of your answer", 2)
    try:
        print(fill(TEXTS["verdicts"]["right"], why=verdict_on(name, answer)))
        return 0
    except WrongAnswer as wrong:
        print(fill(TEXTS["verdicts"]["wrong"], why=wrong))
        return 1


def verdict_on(name: str, answer: str) -> str:
    """Why an answer to an exercise is right, by its name, its number or its folder."""
    names = {str(number): known for number, known in enumerate(JUDGES, 1)}
    judge = JUDGES.get(names.get(name, name))
    if judge is not None:
        return judge(answer)
    if not pathlib.Path(name).is_dir():
        raise Refusal(f"`{name}` isn't an exercise; they are {', '.join(JUDGES)}, and folders of your own.")
    return judge_own(pathlib.Path(name), answer)
