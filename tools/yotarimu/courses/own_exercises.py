"""Your own exercise: a folder whose file `wanted` says what an answer is, and what has to hold of it.

docs/guide/LESSON.md has the lines of that file, under "An exercise of your own".
"""
from __future__ import annotations

import collections
import pathlib
import re
from collections.abc import Sequence
from typing import NamedTuple, Optional

from yotarimu.common.acts import DONE, REFUSALS
from yotarimu.common.files import need_plain, read_written
from yotarimu.common.outcome import Refusal
from yotarimu.common.sentences import fill
from yotarimu.common.text import printable
from yotarimu.courses.exercise_texts import TEXTS, hold
from yotarimu.courses.exercises import build_image, judge_entries, run_of
from yotarimu.courses.reasons import judge_reasons
from yotarimu.courses.scripts import acts_in, options_beside, play, read_lines
from yotarimu.courses.schedules import ActAnswer
from yotarimu.programs.table import Table
from yotarimu.reports.report import Report

ANSWERS = ("script", "source", "journal", "why")
# Of these the conditions alone say what is right.
CONDITIONED = ("script", "source")
ENDS = ("normal", "trap", "limit", "open")
# Conditions that need a script, and how many words follow each condition; of `output` the rest of its line.
OF_SCRIPTS = ("acts", "reply", "taken")
WORDS_BEHIND = {"acts": 1, "reply": 2, "taken": 1, "commits": 1, "depth": 1, "end": 1, "output": 0}
RANGE = re.compile(r"(\d{1,7})?(\.\.)?(\d{1,7})?")


class Condition(NamedTuple):
    """A line of `wanted`: its number, its words, and its text."""
    line: int
    words: Sequence[str]
    text: str


class Wanted(NamedTuple):
    """What an exercise wants: the kind of the answer, and the conditions."""
    answer: str
    conditions: Sequence[Condition]


class Facts(NamedTuple):
    """The results of an answer: its report, and the replies to its acts if it was played."""
    report: Report
    said: Optional[Sequence[ActAnswer]]

    def of(self, words: Sequence[str]) -> str:
        """What a condition is about, as the answer has it."""
        said = self.said or ()
        replies = collections.Counter(it.reply for it in said)
        return {"acts": str(len(said)), "reply": str(replies[words[1]] if len(words) > 1 else 0),
                "taken": str(sum(it.taken_back for it in said)), "commits": str(len(self.report.entries)),
                "depth": str(max((entry.depth for entry in self.report.entries), default=0)),
                "end": self.report.end, "output": printable(self.report.output)}[words[0]]


def read_wanted(path: pathlib.Path) -> Wanted:
    """What the file of an exercise wants."""
    answer, conditions = "", []
    for number, line in enumerate(read_written(path).split("\n"), 1):
        text = line.partition("#")[0].strip()
        words = text.split()
        if not words:
            continue
        if words[0] == "answer":
            if answer or len(words) != 2 or words[1] not in ANSWERS:
                raise Refusal(f"{path}:{number}: `answer` stands once, with one of {', '.join(ANSWERS)}.")
            answer = words[1]
            continue
        need_condition(words, f"{path}:{number}")
        conditions.append(Condition(number, words, text))
    if not answer:
        raise Refusal(f"{path}: no line `answer` says what an answer is: one of {', '.join(ANSWERS)}.")
    if answer in CONDITIONED and not conditions:
        raise Refusal(f"{path}: no line says what has to hold of a {answer}, so each one would be right.")
    return Wanted(answer, conditions)


def need_condition(words: Sequence[str], place: str) -> None:
    """Refuses a line that isn't a condition."""
    word, *further = words
    if word not in WORDS_BEHIND:
        raise Refusal(f"{place}: `{word}` isn't a condition, which is {', '.join(WORDS_BEHIND)}.")
    if word == "output":
        return
    right = len(further) == WORDS_BEHIND[word]
    if right and word == "end":
        right = further[0] in ENDS
    elif right:
        right = is_range(further[-1])
    if not right or word == "reply" and further[0] not in DONE + REFUSALS:
        raise Refusal(f"{place}: `{' '.join(words)}` isn't whole; docs/guide/LESSON.md has the lines.")


def is_range(text: str) -> bool:
    """Whether a text is a range that a number is in."""
    found = RANGE.fullmatch(text)
    if found is None or not any(map(str.isdigit, text)):
        return False
    least, _, most = found.groups()
    return not least or not most or int(least) <= int(most)


def is_in(number: int, text: str) -> bool:
    """Whether a number is in a range such as 3, 1.., ..5 or 1..5."""
    least, dots, most = text.partition("..")
    if not dots:
        return number == int(least)
    return int(least or 0) <= number and (not most or number <= int(most))


def is_met(condition: Condition, seen: str) -> bool:
    """Whether a condition holds of what was seen."""
    word, *further = condition.words
    if word == "output":
        return seen == condition.text[len(word):].strip()
    return seen == further[0] if word == "end" else is_in(int(seen), further[-1])


def facts_of(wanted: Wanted, folder: pathlib.Path, answer: str) -> Facts:
    """The results of an answer."""
    table, image, script = Table(), folder / "image.bin", folder / "script"
    if wanted.answer == "script":
        script = pathlib.Path(answer)
    else:
        image, _ = build_image(answer)
        if not script.is_file():
            return Facts(run_of(image), None)
    options = options_beside(folder, table)
    acts = acts_in(read_lines(script), script, options, table)
    hold(acts, TEXTS["script"]["none"])
    played = play(image, acts, options, str(script)).played
    return Facts(played.report, played.said)


def judge_own(folder: pathlib.Path, answer: str) -> str:
    """Judges an answer, named by its path, to the exercise of a folder: gives the sentence that it is right, raises
    WrongAnswer where it isn't, and refuses a folder or an answer that can't be judged."""
    for name in ("wanted", "image.bin", "script", "words"):
        need_plain(folder / name)
    wanted, texts = read_wanted(folder / "wanted"), TEXTS["own"]
    if wanted.answer == "journal":
        return judge_entries(answer, folder / "image.bin")
    if wanted.answer == "why":
        return judge_reasons(answer, folder)
    facts = facts_of(wanted, folder, answer)
    for condition in wanted.conditions:
        if facts.said is None and condition.words[0] in OF_SCRIPTS:
            raise Refusal(f"{folder / 'wanted'}:{condition.line}: `{condition.words[0]}` wants a script in the folder.")
        seen = facts.of(condition.words)
        hold(is_met(condition, seen), texts["missed"], line=condition.line, text=condition.text, seen=seen)
    return fill(texts["right"], count=len(wanted.conditions))
