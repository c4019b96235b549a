"""Turns a report into text for people: tasks with labels, the output as text, the window in decimal, the end in words.

usage: ./fractal explain IMAGE REPORT [SOURCE] [--picture | --json | --csv | --registers | --poison]
       ./fractal explain IMAGE REPORT [SOURCE] --task NAME [--json | --registers] [--OPTION VALUE]... [--sim FILE]
       ./fractal explain IMAGE LINES [SOURCE] [--json | --csv]

  --picture    the tree of tasks, as SVG
  --json       what it finds, for other programs
  --csv        the tasks alone
  --registers  all registers of a task that traps, and not only those that aren't 0
  --poison     checks every task for reads before writes, and for accesses that leave their label
  --task NAME  one task alone, named as in the report
  --sim FILE   a built fractal_sim in place of the one that answers here

REPORT may be - for standard input; it may be what `steps` wrote, replies and all. SOURCE is a listing of
./fractal build, a source, or the folder of the sources; by default it is the listing beside the image, if there is one.
What isn't in the report is found by running its tasks again, with the registers of one that traps. A report of another
image is refused; ./fractal check judges whether one is a run's.

--poison changes nothing: it lists each instruction that reads a register or a word of the stack before the task wrote
it, and each access that leaves the label its address started from. Saving a register in the stack isn't a read, and an
argument counts for the child that reads it. The hint of a child, addresses that were loaded from data, and those that
instructions alone make aren't checked. The status is 1 if something was found. A listing gives the labels and source
lines.

With --task it lists what one task did: loads and stores of the data, children, a subdomain, bytes, and its trap. The
built program makes the run again with the OPTIONs, which must be those of the `run` that wrote the report, and saves it
as shortly before the task as it can; only the turns from there on are run again here. If no program answers here, or
it makes another run or can't save it, all turns before the task are run again, and a remark says so.

LINES is an event log of `./fractal watch`; for each task that was aborted it prints the cause: the access or the need
of room, and what both share.
"""
from __future__ import annotations

import json
import re
import sys
from collections.abc import Mapping
from typing import NamedTuple, Optional, Union

from yotarimu.common.files import read_bytes
from yotarimu.common.outcome import Refusal
from yotarimu.common.words import GivenWords, Words
from yotarimu.courses.grid import program_options
from yotarimu.courses.schedules import read_replies
from yotarimu.images.image import Image, read_image
from yotarimu.images.labels import listing_for
from yotarimu.images.listing import Listing
from yotarimu.images.serial_machine import Machine
from yotarimu.lines import taken_tasks
from yotarimu.pictures import tree
from yotarimu.pictures.tree import nodes_of
from yotarimu.programs.calls import Calls, calls_at
from yotarimu.programs.table import Option, Table
from yotarimu.programs.turns import WrittenRun, shown
from yotarimu.reports import one_task, plain_data, poison
from yotarimu.reports.explanation import text_of
from yotarimu.reports.meanings import told_without_report
from yotarimu.reports.plain_data import other_run
from yotarimu.reports.refusals import count_of
from yotarimu.reports.report import NUMBER, Name, Report, read_report

REGISTERS, POISON = "registers", "poison"
FORMS = ("picture", "json", "csv", REGISTERS, POISON)
# So lines of the second program begin.
LINES = b"{"


class Request(NamedTuple):
    """The files that are named, the form that is asked for, if one is, and what is asked of one task alone."""
    image: str
    report: str
    source: Optional[str]
    form: Optional[str]
    task: Optional[TaskRequest]


class TaskRequest(NamedTuple):
    """A task's name, the options of its run, and the program that makes it again, or why there is none."""
    name: Name
    options: list[str]
    calls: Union[Calls, str]


def read_words(words: list[str]) -> Request:
    """What the words ask for; refuses others."""
    # The launcher's table takes time, and only the run of one task is made again by its options.
    known = Table().options if any(word.partition("=")[0] == "--task" for word in words) else {}
    given = Words("explain", known, page=__doc__).read(words)
    image, report, *source = given.need("IMAGE REPORT [SOURCE]", 2, 3)
    if len(given.flags) > 1:
        raise Refusal(f"it takes one of {', '.join(f'--{form}' for form in FORMS)}, or none.")
    form, task = next(iter(given.flags), None), task_in(given, known)
    if task is not None and form in ("picture", "csv", POISON):
        raise Refusal(f"--{form} shows all tasks, so --task can't be given with it.")
    return Request(image, report, source[0] if source else None, form, task)


def task_in(given: GivenWords, known: Mapping[str, Option]) -> Optional[TaskRequest]:
    """What is asked of one task alone."""
    text = given.values["task"]
    if text is None:
        given.need_only(FORMS, "without --task it")
        return None
    found = re.fullmatch(rf"{NUMBER}\.{NUMBER}", text)
    if not found:
        raise Refusal(f"--task takes a name as reports have it, such as 2.0, and not `{text}`.")
    if given.values["commits"] is not None:
        raise Refusal("the report says how many tasks committed, so --commits has no place here.")
    options = program_options(given.values, known)
    return TaskRequest(Name(int(found[1]), int(found[2])), options, calls_of(given.values["sim"]))


def calls_of(program: Optional[str]) -> Union[Calls, str]:
    """The calls of a program that is named, which is refused where it can't be called; or those of the one that answers
    here, or why none does."""
    try:
        return calls_at(program)
    except Refusal as refused:
        if program is not None:
            raise
        return str(refused).rstrip(".")


def explain_no_report(text: str, sentence: str, form: Optional[str]) -> None:
    """What the program said in a report's place."""
    if form in ("picture", "csv", POISON):
        raise Refusal(f"`{text.strip()}` has no tasks. {sentence}")
    print(json.dumps({"said": text.strip(), "meaning": sentence}, indent=2) if form == "json" else sentence)


def explain_lines(image_path: str, image: Image, lines_path: str, source: Optional[str], form: Optional[str]) -> None:
    """Prints why the tasks of a run were aborted: as text, or in a form for other programs."""
    if form in ("picture", REGISTERS, POISON):
        what = {"picture": "tree of tasks", REGISTERS: "registers of a trap"}.get(form, "tasks to check")
        raise Refusal(f"lines have no {what}; the report of the run has.")
    listing, remark = listing_for(image_path, image, source)
    run = taken_tasks.Run(lines_path, image, listing)
    if form == "json":
        print(json.dumps(taken_tasks.plain_rows(run), indent=2))
    elif form == "csv":
        taken_tasks.write_rows(run, sys.stdout)
    else:
        print(*taken_tasks.text_of(run), *([f"\n{remark}"] if remark else []), sep="\n")


def explain_task(run: WrittenRun, name: Name, listing: Listing, remark: Optional[str], form: Optional[str]) -> None:
    """What one task asked for."""
    told = run.run_of(name)
    if form == "json":
        print(json.dumps(one_task.plain_data_of(told, listing), indent=2))
    else:
        print(*one_task.text_of(told, listing, form == REGISTERS), *([f"\n{remark}"] if remark else []), sep="\n")


def check_poison(image: Image, report: Report, listing: Listing, remark: Optional[str], of: str) -> int:
    """Prints reads before writes and accesses out of bounds of all tasks of a report; the status."""
    machine = poison.CheckedMachine(image, listing)
    need_same_run(report, machine, of)
    if report.trap:
        machine.check_trap(report.trap)
    print(*poison.text_of(machine, listing), *([f"\n{remark}"] if remark else []), sep="\n")
    return 1 if machine.findings else 0


def need_same_run(report: Report, machine: Machine, of: str) -> None:
    """Takes the turns of a report; refuses one of another image."""
    wrong_turn = machine.follow(shown(report.entries))
    if why := other_run(report, machine, wrong_turn):
        raise Refusal(f"{of}: {why}.")


def begins_as_lines(path: str) -> bool:
    """Whether a file is an event log; standard input is a report."""
    if path == "-":
        return False
    with open(path, "rb") as file:
        return file.read(1) == LINES


def main(words: list[str]) -> int:
    """Does what the words of the call ask for, and returns the status."""
    image_path, report_path, source, form, task = read_words(words)
    data = read_bytes(image_path)
    image = read_image(data, image_path)
    if begins_as_lines(report_path):
        if task is not None:
            raise Refusal("--task wants a report, and not lines; ./fractal show goes through these act by act.")
        explain_lines(image_path, image, report_path, source, form)
        return 0
    text = read_bytes(report_path).decode("ascii", "replace")
    if sentence := told_without_report(text):
        explain_no_report(text, sentence, form)
        return 0
    replies = read_replies(text)
    report = read_report(text, report_path, len(replies))
    listing, remark = listing_for(image_path, image, source)
    if task is not None:
        run = WrittenRun(data, image, text, report, task.calls, task.options, count_of("budget", task.options))
        explain_task(run, task.name, listing, remark, form)
        return 0
    of = f"{report_path}: this isn't a report of a run of {image_path}"
    if form == POISON:
        return check_poison(image, report, listing, remark, of)
    machine = Machine(image)
    need_same_run(report, machine, of)
    remarks = [remark] if remark else []
    if form == "picture":
        print(tree.draw(nodes_of(report, machine, listing), len(report.entries)), end="")
    elif form == "json":
        print(json.dumps(plain_data.all_of(image_path, replies, report, machine, listing, remarks), indent=2))
    elif form == "csv":
        plain_data.write_tasks(report, machine, listing, sys.stdout)
    else:
        told = text_of(image_path, image, replies, report, machine, listing, form == REGISTERS)
        print(*told, sep="\n")
        print(*(f"\n{sentence}" for sentence in remarks), sep="\n", end="\n" if remarks else "")
    return 0
