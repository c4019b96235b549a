"""The tasks that an event aborts, worked out from the definitions: the conflicts of an access by the filters of all
later tasks, and the cascade of each of them, by its creator or by the stores in an earlier one's log."""
from __future__ import annotations

from typing import NamedTuple

from yotarimu.lines.filters import LineRule, rule_of
from yotarimu.lines.reader import Reader
from yotarimu.lines.replay import Access, Machine, Task, ToldLine
from yotarimu.lines.times import Time


class Member(NamedTuple):
    """A dispatched task as it stood before an event."""
    task: Task
    time: Time
    accesses: list[Access]


def members_before(told: ToldLine, machine: Machine) -> list[Member]:
    """The dispatched tasks before an event, including those that it aborted, the least first; `machine` is the one
    after it."""
    taken = [Member(it.task, it.time, it.accesses) for it in told.taken if it.state != "idle"]
    others = [Member(task, task.time(), task.accesses) for task in machine.tasks.values() if task.state != "idle"]
    gone = {id(it.task) for it in taken}
    # What is dispatched by the event itself has done nothing yet.
    return sorted([*taken, *(it for it in others if id(it.task) not in gone)], key=lambda it: it.time)


def met_by(access: Access, time: Time, members: list[Member], rule: LineRule) -> set[int]:
    """The tasks with which an access conflicts: the later ones whose filters have its line."""
    line = rule.line_of(access)
    return {id(it.task) for it in members
            if it.time > time and rule.filter_of(it.accesses).meets(line, access.is_store)}


def closed(first: set[int], members: list[Member], children: dict[int, list[int]], rule: LineRule) -> set[int]:
    """A set of tasks with all that goes with it: children, and later tasks whose filters have a line of a store."""
    found, waiting = set(first), list(first)
    by_id = {id(it.task): it for it in members}
    while waiting:
        one = waiting.pop()
        pulled = set(children.get(one, ()))
        if one in by_id:
            member = by_id[one]
            lines = {rule.line_of(it) for it in member.accesses if it.is_store}
            for other in members:
                if other.time > member.time and any(map(rule.filter_of(other.accesses).has_touched, lines)):
                    pulled.add(id(other.task))
        waiting += pulled - found
        found |= pulled
    return found


def children_before(told: ToldLine, machine: Machine) -> dict[int, list[int]]:
    """The uncommitted children of each uncommitted task, as they stood before an event."""
    children: dict[int, list[int]] = {}
    for task in (*machine.tasks.values(), *(it.task for it in told.taken)):
        if task.creator is not None:
            children.setdefault(id(task.creator), []).append(id(task))
    return children


def conflicts_held(watched: Reader) -> int:
    """Checks each event of a log against the model: exactly the tasks that the model expects are aborted. Returns how
    many events aborted some."""
    rule, count = rule_of(watched.head), 0
    for told in watched:
        if told.access is None and not told.taken:
            continue
        members = members_before(told, watched.machine)
        if told.access is not None:
            assert told.task is not None
            first = met_by(told.access, told.task.time(), members, rule)
        else:
            first = {id(min(told.taken, key=lambda it: it.time).task)}
        wanted = closed(first, members, children_before(told, watched.machine), rule)
        seen = {id(it.task) for it in told.taken}
        assert seen == wanted, f"line {told.number} takes {len(seen)} tasks back, and the model {len(wanted)}"
        count += bool(told.taken)
    return count
