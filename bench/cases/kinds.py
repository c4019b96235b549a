"""The outcomes of the calls, counted by kind: how runs ended, how acts were answered, what was aborted, which
instructions the tasks executed. Each kind is counted from the start, so that one that never occurred shows as 0."""
from __future__ import annotations

import collections
import re

from yotarimu.common.acts import ACTS, replies_of
from yotarimu.common.outcome import Refusal
from yotarimu.courses.schedules import read_replies
from yotarimu.images.image import image_bytes, read_image
from yotarimu.images.serial_machine import CALL, Machine, Run, Task, TaskTrap
from yotarimu.reports.report import read_report

from cases.case import Call
from cases.images import FAULTS
from cases.shape import TRAPS

ENDS = ("normal", "limit", "open", *(f"trap {cause}" for cause in TRAPS))
REPLIES = {act: replies_of(act) for act in ACTS}
TAKERS = ("dispatch", "step", "give", "abort", "split", "advance")
EVENTS = ("a dispatch", "an access", "a call", "a leg", "an abort", "a commit", "a coalescing", "a split")
OPTIONS = ("tiles", "cores", "task-queue", "commit-queue", "line", "quantum", "workers", "commits", "budget", "phase")
PLAIN = {0x37: "lui", 0x17: "auipc", 0x6F: "jal", 0x67: "jalr", 0x0F: "fence"}
BY_KIND = {
    0x63: {0: "beq", 1: "bne", 4: "blt", 5: "bge", 6: "bltu", 7: "bgeu"},
    0x03: {0: "lb", 1: "lh", 2: "lw", 4: "lbu", 5: "lhu"},
    0x23: {0: "sb", 1: "sh", 2: "sw"},
    0x13: {0: "addi", 1: "slli", 2: "slti", 3: "sltiu", 4: "xori", 5: "srli", 6: "ori", 7: "andi"},
    0x33: {0: "add", 1: "sll", 2: "slt", 3: "sltu", 4: "xor", 5: "srl", 6: "or", 7: "and"},
}
CALLS = ("end", "enqueue", "enqueue to the subdomain", "enqueue to the superdomain", "make a subdomain", "emit")
# How many tasks of a report, and how many instructions, are run again to see what they execute.
MOST_AGAIN, MOST_STEPS = 60, 5_000
TABLES = (
    ("Calls", ("run", "steps", "trace", "check", "load", "save", "other words")),
    ("Ends of `run` and `load`", (*ENDS[:2], *ENDS[3:])),
    ("Ends of `steps`", ENDS),
    ("Other answers", (*(f"fault image {number}" for number in FAULTS), "fault usage", "fault script", "fault journal",
                       "check ok", "a saved image", "fault nested", "fault tasks")),
    ("Replies", tuple(f"{act} {reply}" for act, replies in REPLIES.items() for reply in replies)),
    ("Tasks aborted", (*(f"by {act}" for act in TAKERS), "by accesses, as `trace` prints")),
    ("Last events that `trace` prints", EVENTS),
    ("Scripts", ("more dispatches than dispatch numbers",)),
    ("Options", tuple(f"--{name}" for name in OPTIONS)),
    ("Images", ("version 1", "version 2", "an ordered root domain", "an unordered root domain", "depth 8",
                "depth 16")),
    ("Runs with workers", ("the same report",)),
    ("Executed instructions", (*PLAIN.values(), *(name for names in BY_KIND.values() for name in names.values()),
                               "sub", "sra", "srai", "ecall", *(f"call {name}" for name in CALLS), "load of the stack",
                               "store to the stack", "load of the text")),
)
# What may come and needn't.
RARE = {"Runs with workers": ("another report, that `check` accepts",),
        "Other answers": ("no answer in time", "an answer of no known form")}
DISPATCH_NUMBERS = 65_536
# How often each kind came, by tables.
Counts = dict[str, "collections.Counter[str]"]


def empty() -> Counts:
    return {title: collections.Counter(dict.fromkeys((*names, *RARE.get(title, ())), 0)) for title, names in TABLES}


def missing_kinds(counts: Counts) -> list[str]:
    """The kinds that never came."""
    return [f"{title}: {name}" for title, names in TABLES for name in names if not counts[title][name]]


def count(counts: Counts, call: Call, said: bytes) -> None:
    """Counts the outcome of one call."""
    command = call.command if call.command in counts["Calls"] else "other words"
    counts["Calls"][command] += 1
    for name in OPTIONS:
        counts["Options"][f"--{name}"] += call.option(name) is not None
    try:
        count_answer(counts, call, said)
    except (Refusal, LookupError, ValueError):
        counts["Other answers"]["an answer of no known form"] += 1


def count_answer(counts: Counts, call: Call, said: bytes) -> None:
    if said.startswith(b"fault "):
        count_fault(counts, said)
    elif call.command in ("run", "load", "save"):
        count_run(counts, call, said)
    elif call.command == "steps":
        count_steps(counts, call, said.decode("ascii", "replace"))
    elif call.command == "trace":
        count_trace(counts, said)
    else:
        counts["Other answers"]["check ok"] += said.startswith(b"check ok")


def count_fault(counts: Counts, said: bytes) -> None:
    words = said.decode("ascii", "replace").split()
    name = " ".join(words[:3]) if words[1] == "image" else " ".join(words[:2])
    counts["Other answers"][name] += 1


def end_in(said: str) -> str:
    """The word behind `end` in the last line, with a trap's cause."""
    words = said.rstrip("\n").rpartition("\n")[2].split(" ")
    return " ".join(words[1:3]) if words[1:2] == ["trap"] else " ".join(words[1:2])


def count_run(counts: Counts, call: Call, said: bytes) -> None:
    if said.startswith(b"FRAC"):
        counts["Other answers"]["a saved image"] += 1
        return
    text = said.decode("ascii", "replace")
    counts["Ends of `run` and `load`"][end_in(text)] += 1
    if call.command != "run":
        return
    version, kind = call.data[4], call.data[6]
    counts["Images"][f"version {version}"] += 1
    counts["Images"][f"an {'' if kind else 'un'}ordered root domain"] += 1
    count_executed(counts, call.data, text)


def count_executed(counts: Counts, data: bytes, text: str) -> None:
    """Runs the tasks of a report again, as ./fractal explain does, and counts what they execute."""
    try:
        image, report = read_image(data, "image"), read_report(text, "report")
    except Refusal:
        return
    for entry in report.entries:
        counts["Images"][f"depth {entry.depth}"] += entry.depth in (8, 16)
    machine = Machine(image)
    seen: collections.Counter[tuple[int, int]] = collections.Counter()
    for entry in report.entries[:MOST_AGAIN]:
        task = machine.tasks.get(entry.name)
        if task is None or machine.steps > MOST_STEPS:
            break
        task.turn = entry.turn
        try:
            NotedRun(machine, task, seen).go()
        except TaskTrap:
            break
    for (word, place), times in seen.items():
        add_executed(counts["Executed instructions"], word, place, times)


class NotedRun(Run):
    """A run that notes its instructions: each word, with the register of a call or what part of memory is loaded."""

    def __init__(self, machine: Machine, task: Task, seen: collections.Counter[tuple[int, int]]) -> None:
        super().__init__(machine, task)
        self.seen = seen

    def step(self, word: int) -> None:
        place, opcode = 0, word & 0x7F
        if word == 0x73:
            place = self.registers[CALL]
        elif opcode in (0x03, 0x23):
            offset = word >> 20 if opcode == 0x03 else word >> 25 << 5 | word >> 7 & 31
            place = (self.registers[word >> 15 & 31] + offset - (offset >> 11 << 12) & 0xFFFFFFFF) >> 28
        self.seen[word, place] += 1
        super().step(word)


def add_executed(found: collections.Counter[str], word: int, place: int, times: int) -> None:
    opcode, kind = word & 0x7F, word >> 12 & 7
    if word == 0x73:
        found["ecall"] += times
        if place < len(CALLS):
            found[f"call {CALLS[place]}"] += times
        return
    name = PLAIN.get(opcode) or BY_KIND.get(opcode, {}).get(kind)
    if word >> 30 & 1 and (opcode == 0x33 or (opcode, kind) == (0x13, 5)):
        name = {"add": "sub", "srl": "sra", "srli": "srai"}.get(name or "", name)
    if name:
        found[name] += times
    if opcode in (0x03, 0x23) and place != 1:
        which = {0: "load of the text", 2: "load of the stack" if opcode == 0x03 else "store to the stack"}.get(place)
        if which:
            found[which] += times


def count_steps(counts: Counts, call: Call, text: str) -> None:
    replies, made = read_replies(text), 0
    for word, said in zip(words_played(call.data), replies):
        counts["Replies"][f"{word} {said.reply}"] += 1
        made += (word, said.reply) == ("dispatch", "ok")
        if said.taken_back:
            counts["Tasks aborted"][f"by {word}"] += said.taken_back
    counts["Scripts"]["more dispatches than dispatch numbers"] += made > DISPATCH_NUMBERS
    counts["Ends of `steps`"][end_in(text)] += 1


def words_played(data: bytes) -> list[str]:
    """The first word of each act in the script that follows an image."""
    script = data[len(image_bytes(read_image(data, "image"))):]
    return [line.partition(b" ")[0].decode("ascii", "replace") for line in script.split(b"\n")]


def count_trace(counts: Counts, said: bytes) -> None:
    numbers = re.findall(rb"(?m)^[0-9]+$", said)
    # Tap 0 has five numbers an event, tap 1 seventeen in all.
    for kind in numbers[:len(numbers) - 17:5]:
        counts["Last events that `trace` prints"][EVENTS[int(kind) - 1]] += 1
    counts["Tasks aborted"]["by accesses, as `trace` prints"] += sum(map(int, numbers[-17:]))
