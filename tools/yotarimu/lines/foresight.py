"""Events that are foreseen: the exact text of a line is predicted, so that the line needn't be parsed.

Little of an event is news. The machine has the number of events, where a task runs and its id, the image has the text
where a leg stops and what is requested there, and the memory has the data. So only the few numbers that nothing else
determines are picked out of a line. A line that is exactly as predicted has these fields and no others, so it is
neither parsed nor checked against the machine once more. All other lines are parsed: wrong ones, and those that say
more.
"""
from __future__ import annotations

from collections.abc import Callable
from typing import Optional

from yotarimu.lines.fields import ASKED, MAYBE, MOST_DIGITS, NUMBER, PAIR, TRIPLE, Kind, act_fields
from yotarimu.lines.legs import Legs, Stop
from yotarimu.lines.replay import FINISHED, IDLE, RUNNING, Machine, Task, ToldLine

# How values of a kind are written.
WRITTEN: dict[Kind, str] = {NUMBER: "%d", PAIR: "[%d,%d]", TRIPLE: "[%d,%d,%d]"}
ACCESSES = ("load", "store")


class OtherLine(Exception):
    """A line isn't the foreseen one."""


def form_of(word: str, asks: str = "") -> str:
    """The text of an event's line after its act's number, with a place for each number and for the domain of a child;
    for a step, by what it requests. It is that of an event that aborts and spills no task, and prints no output."""
    words = {"do": word, "asks": asks, "to": "%s", "reply": "ok"}
    parts = []
    for field, kind in act_fields({**words, "leg": 0} if asks else words)[1:]:
        name = field.removesuffix(MAYBE)
        if name in (field, "task"):
            parts.append(f'"{name}":"{words[name]}"' if name in words else f'"{name}":{WRITTEN[kind]}')
    return f"{','.join(parts)}}}"


DISPATCH, COMMIT, SPLIT = map(form_of, ("dispatch", "commit", "split"))
# What steps tell behind their tasks.
STEPS = {asks: form_of("step", asks).partition('"task":%d,')[2] for asks in ASKED}


def start_of_step(act: int, task: Task) -> str:
    """How the line of a step begins that a task makes where it runs."""
    return f'{{"at":{act},"do":"step","tile":{task.tile},"core":{task.core},"task":{task.id},'


def number_in(text: str) -> int:
    """The number that a part of a line is."""
    if not (text.isascii() and text.isdigit()) or len(text) > MOST_DIGITS:
        raise OtherLine
    return int(text)


class Foresight:
    """Follows the events of a machine, using the legs of its image. Each method raises OtherLine, with nothing changed,
    if the line isn't the predicted one.

    What `Machine.act` checks of a line is true of these as well. Their text has the right number of events, an existing
    task, tile and core, and nothing that is forced; a leg keeps to quantum and budget, as its core does. The rest is
    done by the machine's own methods, which refuse what is impossible."""

    def __init__(self, machine: Machine, legs: Legs) -> None:
        self.machine, self.legs = machine, legs
        # The task of the last dispatch or step, which mostly makes the next step.
        self.last: Optional[Task] = None
        # What steps tell behind their tasks, by where their legs stop.
        self.steps: dict[Stop, str] = {}

    def follow(self, number: int, text: str) -> Optional[ToldLine]:
        """Follows the event of a line; None where it is another line."""
        told, machine, task = ToldLine(number, text), self.machine, self.last
        try:
            # In rounds there are acts that aren't told.
            act = machine.acts + 1 if machine.rounds is None else number_in(text[len('{"at":'):text.find(",")])
            if task is not None and task.state is RUNNING:
                start = start_of_step(act, task)
                if text.startswith(start):
                    self.step(told, act, start, task)
                    return told
            fields = text.split(",")
            way = WAYS.get((fields[1], len(fields))) if len(fields) > 1 else None
            if way is not None:
                way(self, told, act, fields)
                return told
        except OtherLine:
            pass
        return None

    def task_in(self, field: str, state: str) -> Task:
        """The task that a field names; it has to be in the given state."""
        task = self.machine.tasks.get(number_in(field[len('"task":'):]))
        if task is None or task.state is not state:
            raise OtherLine
        return task

    def take(self, told: ToldLine, act: int, task: Optional[Task]) -> None:
        """Counts the act and the event of a line that is the foreseen one."""
        self.machine.count_act(told, act)
        self.machine.events += 1
        told.is_made, told.task = True, task

    def step_of_another(self, told: ToldLine, act: int, fields: list[str]) -> None:
        """Follows a step of a task that didn't make the last one."""
        self.last = task = self.task_in(fields[4], RUNNING)
        self.step(told, act, start_of_step(act, task), task)

    def step(self, told: ToldLine, act: int, start: str, task: Task) -> None:
        """Follows a step, whose line begins so: the leg of its task, and what that asks for."""
        machine, core = self.machine, self.legs.next_leg(task)
        leg, pc, asks = core.stop
        form = start + (self.steps.get(core.stop) or self.step_at(core.stop))
        if asks in ACCESSES:
            address, count, *stored = core.wish
            old = machine.memory.number(address, count)
            if told.text != form % (*core.wish, machine.events + 1, old):
                raise OtherLine
            self.take(told, act, task)
            machine.count_leg(told, task, leg, pc, asks)
            machine.need_data(address, count)
            machine.access(told, task, address, count, old, stored[0] if stored else None)
            core.go_on(old)
            return
        child = self.child_in(told.text) if asks == "enqueue" else {}
        if told.text != form % (*core.wish, machine.events + 1, *child.values()):
            raise OtherLine
        self.take(told, act, task)
        if child:
            machine.need_pick(core.wish[-1], child["in"])
        machine.count_leg(told, task, leg, pc, asks)
        machine.request(told, task, asks, {**core.leg, **child})
        core.go_on(0)

    def step_at(self, stop: Stop) -> str:
        """The text of a step's line after its task, if the leg stops so."""
        leg, pc, asks = stop
        self.steps[stop] = STEPS[asks].replace("%d", str(leg), 1).replace("%d", str(pc), 1)
        return self.steps[stop]

    def child_in(self, text: str) -> dict[str, int]:
        """What only the end of a line says about a child: its id, and its tile."""
        _, new, into = text.rsplit(",", 2)
        return {"new": number_in(new[len('"new":'):]), "in": number_in(into[len('"in":'):-len("}")])}

    def dispatch(self, told: ToldLine, act: int, fields: list[str]) -> None:
        """Follows a dispatch."""
        machine, task, core = self.machine, self.task_in(fields[3], IDLE), number_in(fields[6][len('"core":'):])
        number, form = machine.numbers.next, f'{{"at":{act},{DISPATCH}'
        if core >= machine.core_count or told.text != form % (task.tile, task.id, machine.events + 1, core, number):
            raise OtherLine
        self.take(told, act, task)
        machine.dispatch(told, {"tile": task.tile, "core": core, "number": number})
        self.last = task

    def commit(self, told: ToldLine, act: int, fields: list[str]) -> None:
        """Follows a commit."""
        machine, task = self.machine, self.task_in(fields[2], FINISHED)
        name, depth, timestamp, form = task.name, task.depth, task.timestamp, f'{{"at":{act},{COMMIT}'
        if name is None or told.text != form % (task.id, machine.events + 1, *name, depth, timestamp):
            raise OtherLine
        self.take(told, act, task)
        machine.commit(told, {"name": name, "depth": depth, "ts": timestamp})
        self.legs.end(task)

    def split(self, told: ToldLine, act: int, fields: list[str]) -> None:
        """Follows a split."""
        machine, tile, form = self.machine, number_in(fields[2][len('"tile":'):]), f'{{"at":{act},{SPLIT}'
        new, into = number_in(fields[5][len('"new":'):]), number_in(fields[6][len('"in":'):])
        name = number_in(fields[7][len('"name":['):]), number_in(fields[8][:-len("]}")])
        if tile >= machine.tile_count or told.text != form % (tile, machine.events + 1, new, into, *name):
            raise OtherLine
        self.take(told, act, None)
        machine.split(told, {"tile": tile, "new": new, "in": into, "name": name})


# By the event of a line, and how many parts its commas make.
WAYS: dict[tuple[str, int], Callable[[Foresight, ToldLine, int, list[str]], None]] = {
    ('"do":"dispatch"', DISPATCH.count(",") + 2): Foresight.dispatch,
    ('"do":"commit"', COMMIT.count(",") + 2): Foresight.commit,
    ('"do":"split"', SPLIT.count(",") + 2): Foresight.split,
    **{('"do":"step"', step.count(",") + 6): Foresight.step_of_another for step in STEPS.values()}}


def foresight_of(machine: Machine) -> Optional[Foresight]:
    """The foresight of a machine; None where no image says which legs come."""
    return None if machine.legs is None else Foresight(machine, machine.legs)
