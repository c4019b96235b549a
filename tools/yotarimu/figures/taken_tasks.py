"""Tasks that were aborted, counted: by what took each one itself, and by what that goes back to."""
from __future__ import annotations

import collections
import enum
from collections.abc import Callable
from typing import TYPE_CHECKING

from yotarimu.lines.causes import ROOTS, Kind, Sharing, causes_of

if TYPE_CHECKING:
    from yotarimu.lines.causes import Cause
    from yotarimu.lines.filters import LineRule
    from yotarimu.lines.replay import ToldLine


class Edge(enum.Enum):
    """What took a task itself: the event's access met one of its own; it is a child of a task that was aborted, or
    touched what such a task wrote; it stood where room was needed; or a script asked for it."""
    MET_BYTE = "met by the access: byte"
    MET_LINE = "met by the access: line"
    MET_ALIAS = "met by the access: alias"
    TOUCHED_BYTE = "touched what one wrote: byte"
    TOUCHED_LINE = "touched what one wrote: line"
    TOUCHED_ALIAS = "touched what one wrote: alias"
    CHILD = "child of one"
    ROOM = "stood where room was needed"
    ABORT = "asked for by a script"


class Root(enum.Enum):
    """What it goes back to: the access of an event, and what that shares with the task that it met; the room that was
    needed, and where; or a script."""
    BYTE = "access: byte"
    LINE = "access: line"
    ALIAS = "access: alias"
    COMMIT_QUEUE = "room: commit queue"
    TASK_QUEUE = "room: task queue"
    CORE = "room: core"
    ABORT = "script"


MET = {Sharing.TRUE: Edge.MET_BYTE, Sharing.LINE: Edge.MET_LINE, Sharing.ALIAS: Edge.MET_ALIAS}
TOUCHED = {Sharing.TRUE: Edge.TOUCHED_BYTE, Sharing.LINE: Edge.TOUCHED_LINE, Sharing.ALIAS: Edge.TOUCHED_ALIAS}
OTHERS = {Kind.CHILD: Edge.CHILD, Kind.ROOM: Edge.ROOM, Kind.ABORT: Edge.ABORT}
ACCESSES = {Sharing.TRUE: Root.BYTE, Sharing.LINE: Root.LINE, Sharing.ALIAS: Root.ALIAS}
ROOMS = {"commit queue": Root.COMMIT_QUEUE, "task queue": Root.TASK_QUEUE, "core": Root.CORE, "abort": Root.ABORT}
# The events, each once, in the order in which documents list them.
EVENTS = tuple(dict.fromkeys(ROOTS.values()))
ROOTS_OF_ACCESSES = (Root.BYTE, Root.LINE, Root.ALIAS)
ROOTS_OF_ROOM = (Root.COMMIT_QUEUE, Root.TASK_QUEUE, Root.CORE)


def edge_of(cause: Cause) -> Edge:
    """What took a task itself, by its cause."""
    if cause.kind in OTHERS:
        return OTHERS[cause.kind]
    sharing = Sharing.ALIAS if cause.meeting is None else cause.meeting.sharing
    return (MET if cause.kind is Kind.ACCESS else TOUCHED)[sharing]


def root_of(cause: Cause) -> Root:
    """What a task goes back to, by its cause."""
    root = cause.root
    return ROOMS[root.event] if root.event in ROOMS else ACCESSES[root.sharing]


class TakenCounts:
    """The counts of a run: tasks by event, edge and root, how many of them are gone, and the work of all."""

    def __init__(self, rule: LineRule) -> None:
        self.rule = rule
        self.tasks, self.discarded, self.wasted = (collections.Counter[str]() for _ in range(3))
        self.causes: collections.Counter[tuple[Edge, Root]] = collections.Counter()
        self.wasted_by_root: collections.Counter[Root] = collections.Counter()
        # Those whose way from the event shares only a line or a bit of a filter at least once.
        self.by_machine = 0
        self.lines: collections.Counter[int] = collections.Counter()
        self.addresses: collections.Counter[int] = collections.Counter()

    def note(self, told: ToldLine, note_cause: Callable[[Cause], None]) -> None:
        """Takes an event that aborts tasks, and passes on the cause of each."""
        for cause in causes_of(told, self.rule):
            work, root = cause.taken.work, root_of(cause)
            self.tasks[cause.event] += 1
            self.discarded[cause.event] += cause.taken.is_gone
            self.wasted[cause.event] += work
            self.causes[edge_of(cause), root] += 1
            self.wasted_by_root[root] += work
            self.by_machine += cause.is_false
            note_cause(cause)
        if told.access is not None:
            self.lines[self.rule.line_of(told.access)] += len(told.taken)
            self.addresses[told.access.address] += len(told.taken)

    def all(self) -> int:
        """How many tasks were aborted."""
        return sum(self.tasks.values())

    def all_wasted(self) -> int:
        """How many instructions were wasted."""
        return sum(self.wasted.values())

    def by_edge(self, edge: Edge) -> int:
        """How many tasks were themselves aborted by something."""
        return sum(count for (own, _), count in self.causes.items() if own is edge)

    def by_root(self, root: Root) -> int:
        """How many tasks go back to something."""
        return sum(count for (_, found), count in self.causes.items() if found is root)

    def by_access(self) -> int:
        """How many tasks go back to a load or a store."""
        return sum(map(self.by_root, ROOTS_OF_ACCESSES))

    def by_room(self) -> int:
        """How many tasks go back to room that was needed."""
        return sum(map(self.by_root, ROOTS_OF_ROOM))
