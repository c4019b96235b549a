"""An answer that says why tasks were aborted, checked against the event log."""
from __future__ import annotations

import io
import pathlib
from typing import NamedTuple

from yotarimu.common.files import read_written
from yotarimu.common.outcome import Refusal
from yotarimu.common.sentences import fill
from yotarimu.courses.exercise_texts import MOST_SHOWN, TEXTS, hold
from yotarimu.courses.growth import Schedule
from yotarimu.courses.scripts import acts_in, options_beside, read_lines
from yotarimu.lines.causes import Cause, Kind, Sharing, causes_of
from yotarimu.lines.filters import rule_of
from yotarimu.lines.reader import Reader
from yotarimu.lines.sentences import label_of
from yotarimu.programs.table import Table

# The words for what took a task back; of an access by what both share.
WORDS = {Kind.CHILD: "child", Kind.TOUCHED: "touched", Kind.ROOM: "room", Kind.ABORT: "script"}
SHARED = {Sharing.TRUE: "byte", Sharing.LINE: "line", Sharing.ALIAS: "bit"}


class Reason(NamedTuple):
    """Why an act aborted a task: a term, and the task that caused it, or a dash if none did."""
    act: str
    task: str
    word: str
    by: str


def reasons_in(folder: pathlib.Path) -> list[Reason]:
    """Why each task was aborted, in a play of the script of a folder."""
    table = Table()
    options = options_beside(folder, table)
    script = folder / "script"
    acts = acts_in(read_lines(script), script, options, table)
    lines = Schedule(folder / "image.bin", options, table).lines_of([act.text for act in acts])
    reader = Reader(io.BytesIO(lines), "fractal_watch")
    return [reason_of(cause, told.line["at"]) for told in reader if told.taken
            for cause in causes_of(told, rule_of(reader.head))]


def reason_of(cause: Cause, act: int) -> Reason:
    """A cause as a line of an answer."""
    if cause.kind is Kind.ACCESS:
        word = SHARED[cause.meeting.sharing if cause.meeting else Sharing.ALIAS]
    else:
        word = WORDS[cause.kind]
    return Reason(str(act), label_of(cause.task), word, label_of(cause.by) if cause.by else "-")


def reasons_given(path: str) -> list[tuple[int, Reason]]:
    """The lines of an answer, each with its number."""
    given = []
    for number, line in enumerate(read_written(path).split("\n"), 1):
        fields = line.partition("#")[0].split()
        if fields and len(fields) != len(Reason._fields):
            text = fill(TEXTS["why"]["misshapen"], text=" ".join(fields)[:MOST_SHOWN])
            raise Refusal(f"{path}:{number}: {text}.")
        if fields:
            given.append((number, Reason(*fields)))
    return given


def judge_reasons(path: str, folder: pathlib.Path) -> str:
    """Judges why tasks were aborted by the script of a folder, as it was worked out by hand."""
    said, given = TEXTS["why"], reasons_given(path)
    wanted = {(reason.act, reason.task): reason for reason in reasons_in(folder)}
    seen = set()
    for line, reason in given:
        place = reason.act, reason.task
        right = wanted.get(place)
        hold(right, said["stays"], line=line, act=reason.act[:MOST_SHOWN], task=reason.task[:MOST_SHOWN])
        hold(place not in seen, said["twice"], line=line, task=reason.task)
        seen.add(place)
        if right is not None:
            hold(reason.word == right.word, said["word"], line=line, task=reason.task, word=reason.word[:MOST_SHOWN])
            hold(reason.by == right.by, said["by"], line=line, task=reason.task)
    hold(len(given) >= len(wanted), said["fewer"], count=len(given))
    return fill(said["right"], count=len(given))
