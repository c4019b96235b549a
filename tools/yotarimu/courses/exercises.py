"""Judges of answers to the exercises of docs/guide/EXERCISES.md.

Their sentences are in `exercises.json`, which the page with the machine inside reads too.
"""
from __future__ import annotations

import pathlib
import re
from typing import Callable, NamedTuple

from yotarimu.common.files import FilePath, read_bytes, read_written
from yotarimu.common.outcome import Refusal
from yotarimu.common.places import EXAMPLES_FOLDER
from yotarimu.common.sentences import fill
from yotarimu.courses.exercise_texts import MOST_SHOWN, TEXTS, hold
from yotarimu.courses.reasons import judge_reasons
from yotarimu.courses.schedules import Act, ActAnswer
from yotarimu.courses.scripts import acts_in, ask, options_beside, play, read_lines
from yotarimu.images.folder import build
from yotarimu.images.image import Image, read_image
from yotarimu.programs.table import Table
from yotarimu.reports.report import Report, read_report

FOLDER = EXAMPLES_FOLDER / "exercises"
FIELDS = TEXTS["journal"]["fields"]
WORD = TEXTS["order"]["word"].encode()


class PlayedAct(NamedTuple):
    """An act of a script with its line, and what it was answered."""
    line: int
    act: Act
    said: ActAnswer


def run_of(image: FilePath) -> Report:
    """The report of the run of an image."""
    return read_report(ask(["run"], image)[1], str(image))


# ---- 1, the journal


def judge_journal(path: str) -> str:
    """Judges the journal of the first exercise."""
    return judge_entries(path, FOLDER / "journal" / "image.bin")


def judge_entries(path: str, image: FilePath) -> str:
    """Judges the journal of an image, as it was worked out by hand."""
    said = TEXTS["journal"]
    lines = [line.partition("#")[0].split() for line in read_written(path).split("\n")]
    given = [(number, fields) for number, fields in enumerate(lines, 1) if fields]
    for number, fields in given:
        if len(fields) != len(FIELDS):
            raise Refusal(f"{path}:{number}: {fill(said['misshapen'], text=' '.join(fields)[:MOST_SHOWN])}.")
    report = run_of(image)
    for (number, fields), entry in zip(given, report.entries):
        wanted = (entry.turn, entry.name, entry.depth, entry.timestamp)
        wrong = [name for name, field, right in zip(FIELDS, fields, wanted) if field != str(right)]
        hold(not wrong, said["field"], line=number, fields=said["and"].join(wrong), isnt=said["isnt"][len(wrong) > 1])
    hold(len(given) >= len(report.entries), said["fewer"], count=len(given))
    hold(len(given) <= len(report.entries), said["more"], count=len(report.entries))
    return fill(said["right"], count=len(given), output=report.output.decode())


# ---- 2 and 3, scripts


def played_of(name: str, path: str) -> tuple[list[PlayedAct], str]:
    """The lines' numbers and what was said to each act, of a script that brings a run to its end."""
    folder, table = FOLDER / name, Table()
    options = options_beside(folder, table)
    acts = acts_in(read_lines(path), path, options, table)
    hold(acts, TEXTS["script"]["none"])
    _, _, played = play(folder / "image.bin", acts, options, str(path))
    return [PlayedAct(number, act, said) for (number, _), (act, said) in zip(acts, played.pairs())], played.report.end


def judge_abort(path: str) -> str:
    """Judges a script that has to abort a task by a conflict."""
    (played, end), said = played_of("abort", path), TEXTS["abort"]
    back = [it for it in played if it.said.taken_back]
    hold(back, said["none"])
    found = next((it for it in back if it.act.word in ("step", "give", "advance")), back[0])
    hold(found.act.word in ("step", "give", "advance"), said["by itself"], line=found.line, act=found.act)
    hold(end == "normal", said["left"], line=found.line)
    return fill(said["right"], line=found.line, count=found.said.taken_back)


def judge_stall(path: str) -> str:
    """Judges a script that is to fill a queue."""
    (played, end), said = played_of("stall", path), TEXTS["stall"]
    found = next((number for number, _, it in played if it.reply == "stall"), None)
    hold(found, said["none"])
    hold(end == "normal", said["left"], line=found)
    return fill(said["right"], line=found)


# ---- 4 and 5, sources


def build_image(folder: str) -> tuple[pathlib.Path, Image]:
    """The image that the source of a folder makes."""
    place = pathlib.Path(folder)
    if not folder or not place.is_dir():
        raise Refusal(f"{folder}: no such folder; copy that of the exercise.")
    build(place)
    path = place / "image.bin"
    return path, read_image(read_bytes(path), path)


def judge_false_conflict(folder: str) -> str:
    """Judges a program that is to do the same with fewer conflicts."""
    path, _ = build_image(folder)
    table, own, said = Table(), FOLDER / "false_conflict", TEXTS["false_conflict"]
    options = options_beside(own, table)
    acts = acts_in(read_lines(own / "script"), own / "script", options, table)
    before = play(own / "image.bin", acts, options, str(own))[2].report
    played = play(path, acts, options, str(path))[2]
    seen, wanted = ((it.entries, it.output, it.end) for it in (played.report, before))
    hold(seen == wanted, said["changed"], output=before.output.decode())
    back = next((number for (number, _), it in zip(acts, played.said) if it.taken_back), None)
    hold(back is None, said["taken"], line=back)
    return str(said["right"])


def judge_order(folder: str) -> str:
    """Judges tasks that are to emit a word whichever way they run."""
    (path, image), said = build_image(folder), TEXTS["order"]
    own = read_image(read_bytes(FOLDER / "order" / "image.bin"), "order")
    hold(image.text == own.text, said["text"])
    letters = [sorted(task.arguments for task in it.tasks) for it in (image, own)]
    hold(letters[0] == letters[1], said["letters"])
    report = run_of(path)
    hold(report.output == WORD, said["other"], output=re.sub("[^A-Z]", "?", report.output.decode("ascii", "replace")))
    hold(image.is_ordered, said["unordered"])
    times = [task.timestamp for task in image.tasks]
    hold(len(set(times)) == len(times), said["tie"])
    return fill(said["right"], output=WORD.decode())


# ---- 6, a source whose tasks are put into domains


def judge_domains(folder: str) -> str:
    """Judges a source that is to keep the tasks of each order together, by a subdomain."""
    (path, image), said = build_image(folder), TEXTS["domains"]
    own_path = FOLDER / "domains" / "image.bin"
    own = read_image(read_bytes(own_path), own_path)
    begins = [(it.is_ordered, [(task.timestamp, task.arguments) for task in it.tasks]) for it in (image, own)]
    hold(begins[0] == begins[1], said["initial"])
    report, before = run_of(path), run_of(own_path)
    hold(report.end == "normal", said["end"], end=report.end)
    hold(report.output.decode("ascii", "replace") == said["word"], said["other"],
         output=re.sub("[^A-Z]", "?", report.output.decode("ascii", "replace")), word=said["word"])
    times = [sorted(entry.timestamp for entry in it.entries) for it in (report, before)]
    hold(times[0] == times[1], said["times"])
    flat = next((entry for entry in report.entries if entry.depth == 1 and not str(entry.name).startswith("0.")), None)
    if flat is not None:
        hold(False, said["flat"], name=flat.name)
    return fill(said["right"], word=said["word"])


def judge_why(path: str) -> str:
    """Judges the reasons of the last exercise."""
    return judge_reasons(path, FOLDER / "why")


JUDGES: dict[str, Callable[[str], str]] = {
    "journal": judge_journal, "abort": judge_abort, "stall": judge_stall, "false_conflict": judge_false_conflict,
    "order": judge_order, "domains": judge_domains, "why": judge_why}
