"""The attempts at tasks in an event log, as timelines draw them: what each core did from act to act, and how it ended.

`web/page/history.js` makes the same description in the page; an integration test compares both.
"""
from __future__ import annotations

import dataclasses
from collections.abc import Sequence
from typing import Any, Optional

from yotarimu.lines.causes import Cause, Kind, causes_of
from yotarimu.lines.fields import Line
from yotarimu.lines.filters import LineRule, rule_of
from yotarimu.lines.reader import Reader
from yotarimu.lines.replay import Machine, TakenTask, Task, ToldLine
from yotarimu.lines.sentences import label_of, name_told

# What a mark within an attempt says, by what a leg asked for.
MARKS = {"load": "load", "store": "store", "enqueue": "child", "emit": "emit", "ordered": "domain",
         "unordered": "domain", "trap": "trap"}
ABORTED, COMMITTED = "aborted", "committed"
# Why an act aborts a task by itself; all other tasks are aborted along with one of these.
DIRECT = (Kind.ACCESS, Kind.ABORT, Kind.ROOM)


@dataclasses.dataclass
class Arrival:
    """How a task entered a task queue: the tile, the act, the attempt that created it, and how often it was
    dispatched."""
    tile: int
    start: int
    parent: Optional[Attempt] = None
    tries: int = 0


@dataclasses.dataclass
class Attempt:
    """A task on a core from its dispatch to its fate. Acts are counted from 1 on; `finish` is the act by which it
    left its core, `lane` its place among those that wait there to commit."""
    number: int
    row: int
    label: str
    timestamp: int
    entry: int
    arguments: Sequence[int]
    start: int
    arrival: Arrival
    tried: int
    name: Optional[str] = None
    finish: Optional[int] = None
    end: Optional[int] = None
    fate: Optional[str] = None
    lane: int = 0
    turn: Optional[int] = None
    work: int = 0
    trap: Optional[int] = None
    marks: list[tuple[int, str]] = dataclasses.field(default_factory=list)


@dataclasses.dataclass(frozen=True)
class Victim:
    """A task that an act aborts: its attempt, if it was dispatched, and whether the act itself aborts it."""
    attempt: Optional[Attempt]
    tile: int
    label: str
    is_direct: bool
    is_child: bool


@dataclasses.dataclass(frozen=True)
class Arrow:
    """An act that aborts tasks: the attempt that made it, if any, the address that it accessed, and its victims."""
    place: int
    source: Optional[Attempt]
    address: Optional[int]
    asks: Optional[str]
    victims: Sequence[Victim]


@dataclasses.dataclass(frozen=True)
class Stay:
    """A task that was discarded before it was dispatched: its tile, since when it waited, and when it went."""
    tile: int
    start: int
    end: int
    label: str


class History:
    """All attempts of an event log."""

    def __init__(self, head: Line) -> None:
        self.head = head
        self.attempts: list[Attempt] = []
        self.arrows: list[Arrow] = []
        self.commits: list[Attempt] = []
        self.stays: list[Stay] = []
        # The number of each act, and in lockstep where in the rounds it ends; both begin before the first act.
        self.numbers, self.rounds = [0], [0.0]
        self.waiting = 1
        self.alive: dict[int, Attempt] = {}
        self.arrivals: dict[int, Arrival] = {}
        self.spilled: dict[str, Arrival] = {}
        self.held: list[list[Optional[Attempt]]] = [[] for _ in range(head["tiles"] * head["cores"])]
        self.rule: LineRule = rule_of(head)

    @property
    def acts(self) -> int:
        """How many acts there are."""
        return len(self.numbers) - 1

    def place_task(self, line: Line) -> None:
        """Takes an initial task: it waits in a task queue, or in a block."""
        if "new" in line:
            self.arrivals[line["new"]] = Arrival(line["tile"], 0)
        else:
            self.spilled[name_told(line["name"])] = Arrival(line["tile"], 0)

    def take(self, told: ToldLine, machine: Machine) -> None:
        """Takes a line of the log after its head, by the machine after it."""
        if told.is_act():
            self.follow(told, machine)
        elif told.line.get("do") == "place":
            self.place_task(told.line)

    def follow(self, told: ToldLine, machine: Machine) -> None:
        """Takes an act."""
        line = told.line
        self.numbers.append(line["at"])
        if machine.rounds is not None:
            self.rounds.append(machine.rounds.place())
        place = self.acts
        if line["reply"] != "ok":
            self.refuse(line, place)
            return
        if told.taken:
            self.abort(told, place)
        for number, *name in line.get("spilled", ()):
            arrival = self.arrivals.pop(number) if number in self.arrivals else Arrival(line["tile"], place)
            self.spilled[name_told(name)] = arrival
        if line["do"] == "dispatch":
            self.dispatch(line, machine.tasks[line["task"]], place)
        elif line["do"] == "step":
            self.step(line, machine, place)
        elif line["do"] == "commit":
            self.commit(line, machine, place)
        elif line["do"] == "split":
            found = self.spilled.pop(name_told(line["name"]), None)
            self.arrivals[line["new"]] = found or Arrival(line["tile"], place)

    def refuse(self, line: Line, place: int) -> None:
        """Marks a stall."""
        attempt = self.alive.get(line.get("task", -1))
        if attempt and line["reply"] == "stall":
            attempt.marks.append((place, "stall"))

    def abort(self, told: ToldLine, place: int) -> None:
        """Ends the attempts at the tasks that an act aborts."""
        line = told.line
        source = self.alive.get(line.get("task", -1))
        causes = {id(cause.taken.task): cause for cause in causes_of(told, self.rule)}
        numbers = (row[0] for row in line["back"])
        victims = [self.victim(number, taken, causes[id(taken.task)], place)
                   for number, taken in zip(numbers, told.taken)]
        self.arrows.append(Arrow(place, source, line.get("addr"), line.get("asks"), victims))

    def victim(self, number: int, taken: TakenTask, cause: Cause, place: int) -> Victim:
        """A task that is aborted; one that is discarded leaves its queue."""
        attempt = self.alive.get(number)
        arrival = self.arrivals.get(number)
        label = attempt.name or attempt.label if attempt else label_of(taken.task)
        tile = taken.task.tile
        if attempt:
            attempt.work = taken.work
            self.end(number, attempt, place, ABORTED)
        if taken.is_gone:
            if arrival and not attempt:
                self.stays.append(Stay(arrival.tile, arrival.start, place, label))
            self.arrivals.pop(number, None)
        return Victim(attempt, tile, label, cause.kind in DIRECT, cause.kind is Kind.CHILD)

    def end(self, number: int, attempt: Attempt, place: int, fate: str) -> None:
        """Ends an attempt, which frees its lane."""
        attempt.end, attempt.fate = place, fate
        del self.alive[number]
        if attempt.finish is not None:
            self.held[attempt.row][attempt.lane] = None

    def dispatch(self, line: Line, task: Task, place: int) -> None:
        """Begins an attempt."""
        arrival = self.arrivals.setdefault(line["task"], Arrival(line["tile"], place))
        arrival.tries += 1
        row = line["tile"] * self.head["cores"] + line["core"]
        name = None if task.name is None else name_told(task.name)
        attempt = Attempt(len(self.attempts), row, label_of(task), task.timestamp, task.entry, task.arguments, place,
                          arrival, arrival.tries, name)
        self.attempts.append(attempt)
        self.alive[line["task"]] = attempt

    def step(self, line: Line, machine: Machine, place: int) -> None:
        """Goes on with an attempt."""
        attempt, asks = self.alive.get(line["task"]), line["asks"]
        if attempt is None:
            return
        attempt.work = machine.tasks[line["task"]].work
        if asks in MARKS:
            attempt.marks.append((place, MARKS[asks]))
        if asks == "trap":
            attempt.trap = place
        if asks == "enqueue":
            self.arrivals[line["new"]] = Arrival(line["in"], place, attempt)
        if asks == "end":
            self.finish(attempt, place)

    def finish(self, attempt: Attempt, place: int) -> None:
        """A finished attempt waits in a lane of its own below its core."""
        held = self.held[attempt.row]
        attempt.finish = place
        attempt.lane = held.index(None) if None in held else len(held)
        held[attempt.lane:attempt.lane + 1] = [attempt]
        self.waiting = max(self.waiting, len(held))

    def commit(self, line: Line, machine: Machine, place: int) -> None:
        """Ends an attempt by its commit, which gives its children names."""
        attempt = self.alive.get(line["task"])
        self.arrivals.pop(line["task"], None)
        if attempt is None:
            return
        self.end(line["task"], attempt, place, COMMITTED)
        attempt.turn, attempt.name = machine.commits, name_told(line["name"])
        self.commits.append(attempt)
        for number, other in self.alive.items():
            task = machine.tasks.get(number)
            if other.name is None and task is not None and task.name is not None:
                other.name = name_told(task.name)


def history_of(watched: Reader) -> History:
    """The attempts of an event log that is read."""
    history = History(watched.head)
    for told in watched:
        history.take(told, watched.machine)
    return history


def description_of(history: History) -> dict[str, Any]:
    """What a timeline draws, as plain data: `history.js` makes the same."""
    return {"waiting": history.waiting, "rounds": [round(number, 6) for number in history.rounds],
            "attempts": list(map(attempt_told, history.attempts)),
            "arrows": [[it.place, number_of(it.source), it.address, list(map(victim_told, it.victims))]
                       for it in history.arrows],
            "commits": [it.number for it in history.commits],
            "stays": [[it.tile, it.start, it.end, it.label] for it in history.stays]}


def attempt_told(it: Attempt) -> list[Any]:
    """An attempt as plain data."""
    marks = [[place, sign] for place, sign in it.marks]
    return [it.row, it.start, it.finish, it.end, it.fate, it.lane, it.label, it.name, it.timestamp, it.entry, it.turn,
            it.work, it.trap, it.tried, it.arrival.start, number_of(it.arrival.parent), marks]


def victim_told(it: Victim) -> list[Any]:
    """A victim as plain data."""
    return [number_of(it.attempt), it.tile, it.is_direct, it.is_child]


def number_of(attempt: Optional[Attempt]) -> Optional[int]:
    """The number of an attempt; None of none."""
    return None if attempt is None else attempt.number
