"""Why tasks were aborted: the direct cause of each one, and its root cause.

An event aborts a set of tasks. If the event is a load or a store, the set begins with the tasks whose accesses conflict
with it; otherwise with one task, which held room that an earlier task needs, or which a script asked to abort. All
others are aborted with a member of the set: they are its children, or read or overwrote data it wrote. So each task has
a direct cause, from which a chain of causes leads to the event: the root cause.

Two accesses conflict if they share a byte, or only the line, or only the bit that a filter has for both lines. Filters
know no more than bits, so tasks are aborted in all three cases. A filter of the kind `bloom` may also report a line for
which several other lines together set the bits; then no single access of the task conflicts. If several chains lead to
a task, the one whose widest link shares the most counts: with a chain of bytes and children alone, the task would have
been aborted with any filter and any line size.

No more than the event log is needed: `causes_of` takes what the reader found about an event.
"""
from __future__ import annotations

import dataclasses
import enum
from typing import Callable, Iterable, Iterator, Optional, Union

from yotarimu.common.sentences import SENTENCES, fill
from yotarimu.common.text import signed
from yotarimu.images.listing import NO_LISTING, Listing
from yotarimu.lines.filters import Bits, FilterKind, LineRule
from yotarimu.lines.replay import Access, TakenTask, Task, ToldLine
from yotarimu.lines.times import Time

TEXTS = SENTENCES["taken causes"]


# A byte, a line, or the bits of one.
Place = Union[int, Bits]


class Sharing(enum.IntEnum):
    """What two accesses share, the narrowest first."""
    TRUE = 0
    LINE = 1
    ALIAS = 2

    @property
    def word(self) -> str:
        """What is shared, as tables have it."""
        return self.name.lower()


class Kind(enum.Enum):
    """Why a task was aborted, by its direct cause."""
    ACCESS = "access"
    ROOM = "room"
    ABORT = "abort"
    CHILD = "child"
    TOUCHED = "touched"


# Of an event that takes tasks back, by what its task asks for or by itself: the word of its root.
ROOTS = {"load": "load", "store": "store", "end": "commit queue", "enqueue": "task queue", "split": "task queue",
         "dispatch": "core", "abort": "abort"}
ROOM_TOLD = {
    "commit queue": "{who} ends, and the commit queue is full",
    "task queue": "{who} needs room in a full task queue",
    "core": "{who} is dispatched, and each core holds a task",
}


@dataclasses.dataclass(frozen=True)
class Meeting:
    """An access of a task that was aborted, the access that it meets, and what both share. The first is None where
    the bits of several accesses together are those of the other's line."""
    own: Optional[Access]
    other: Access
    sharing: Sharing


@dataclasses.dataclass(frozen=True)
class Cause:
    """Why one task was aborted. `by` is the task that caused it: the one that made the event, or the member of the set
    with which this one is aborted; None if no task did. `sharing` is the widest of its chain of causes, `before` the
    cause of that member, and `event` the term for the root cause."""
    taken: TakenTask
    kind: Kind
    by: Optional[Task]
    meeting: Optional[Meeting]
    sharing: Sharing
    before: Optional[Cause]
    event: str

    @property
    def task(self) -> Task:
        """The task that was aborted."""
        return self.taken.task

    @property
    def root(self) -> Cause:
        """The cause at the end of its way, which is the event's own."""
        cause = self
        while cause.before is not None:
            cause = cause.before
        return cause

    @property
    def is_false(self) -> bool:
        """Whether a link of its chain is a false conflict: a shared line or bit, and no shared byte."""
        return self.sharing is not Sharing.TRUE


def root_word(told: ToldLine) -> str:
    """The term for the root cause of an event's aborts."""
    return ROOTS[told.line.get("asks", told.line["do"])]


def causes_of(told: ToldLine, rule: LineRule) -> list[Cause]:
    """The cause of each task that an event aborted, the least task first."""
    found = Cascade(told, rule)
    return [found.take(taken) for taken in sorted(told.taken, key=time_of)]


def time_of(taken: TakenTask) -> Time:
    """The virtual time of a task that was aborted."""
    return taken.time


class Cascade:
    """The causes found so far of one event. Members come in the order of their times, since each goes with a lesser
    one; of each byte, line and bit that members wrote the best store is kept."""

    def __init__(self, told: ToldLine, rule: LineRule) -> None:
        self.told, self.rule, self.event = told, rule, root_word(told)
        self.causes: dict[int, Cause] = {}
        self.written: tuple[dict[Place, tuple[Cause, Access]], ...] = ({}, {}, {})

    def take(self, taken: TakenTask) -> Cause:
        """Finds the cause of the next member."""
        cause = min(self.ways(taken), key=lambda it: it.sharing)
        self.causes[id(taken.task)] = cause
        for access in taken.accesses:
            if access.is_store:
                self.keep(cause, access)
        return cause

    def ways(self, taken: TakenTask) -> list[Cause]:
        """All chains that lead to a member, that of the event itself first."""
        ways = [way for way in (self.by_event(taken), self.by_creator(taken), self.by_touch(taken)) if way]
        # Lines that tell of no way, as no program writes them, leave it to a filter.
        kind = Kind.ACCESS if self.told.access else Kind.TOUCHED
        return ways or [Cause(taken, kind, self.told.task, None, Sharing.ALIAS, None, self.event)]

    def by_event(self, taken: TakenTask) -> Optional[Cause]:
        """The cause of a task that the event itself aborts: its access conflicts, room was needed, or a script
        asked."""
        if self.told.access is not None:
            meeting = self.meeting_with(taken.accesses, self.told.access)
            if meeting is None and self.is_told_jointly(taken, self.told.access):
                meeting = Meeting(None, self.told.access, Sharing.ALIAS)
            by = self.told.task
            if meeting is None:
                return None
            return Cause(taken, Kind.ACCESS, by, meeting, meeting.sharing, None, self.event)
        if self.causes:
            return None
        # The least member is the one that stood there; all others are later, and go with it.
        if self.event in ROOM_TOLD:
            return Cause(taken, Kind.ROOM, self.told.task, None, Sharing.TRUE, None, self.event)
        return Cause(taken, Kind.ABORT, None, None, Sharing.TRUE, None, self.event)

    def meeting_with(self, accesses: Iterable[Access], other: Access) -> Optional[Meeting]:
        """The access that shares the most with another one, the first of several. A load meets stores alone."""
        best: Optional[Meeting] = None
        for own in accesses:
            if own.is_store or other.is_store:
                sharing = sharing_of(own, other, self.rule)
                if sharing is Sharing.TRUE:
                    return Meeting(own, other, sharing)
                if sharing is not None and (best is None or sharing < best.sharing):
                    best = Meeting(own, other, sharing)
        return best

    def by_creator(self, taken: TakenTask) -> Optional[Cause]:
        """Why a task goes with its creator; None where it doesn't."""
        before = self.causes.get(id(taken.task.creator)) if taken.is_gone else None
        if before is None:
            return None
        return Cause(taken, Kind.CHILD, before.task, None, before.sharing, before, self.event)

    def by_touch(self, taken: TakenTask) -> Optional[Cause]:
        """It touched what another member wrote: the way that shares the most, the first of several."""
        best: Optional[Cause] = None
        for own in taken.accesses:
            for sharing, places in self.places(own):
                for before, other in filter(None, map(self.written[sharing].get, places)):
                    widest = max(sharing, before.sharing)
                    if best is None or widest < best.sharing:
                        meeting = Meeting(own, other, sharing)
                        best = Cause(taken, Kind.TOUCHED, before.task, meeting, widest, before, self.event)
            if best is not None and best.sharing is Sharing.TRUE:
                break
        return best or self.by_joint_touch(taken)

    def by_joint_touch(self, taken: TakenTask) -> Optional[Cause]:
        """The first store of another member whose line the task's filter reports because several lines set its bits."""
        if self.rule.kind is not FilterKind.BLOOM:
            return None
        told = self.rule.filter_of(taken.accesses)
        for before, other in self.written[Sharing.LINE].values():
            if told.has_touched(self.rule.line_of(other)):
                meeting = Meeting(None, other, Sharing.ALIAS)
                return Cause(taken, Kind.TOUCHED, before.task, meeting, Sharing.ALIAS, before, self.event)
        return None

    def is_told_jointly(self, taken: TakenTask, other: Access) -> bool:
        """Whether a task's filter reports the line of an access because several lines set its bits."""
        return self.rule.kind is FilterKind.BLOOM and self.rule.filter_of(taken.accesses).meets(
            self.rule.line_of(other), other.is_store)

    def keep(self, cause: Cause, access: Access) -> None:
        """Keeps what a member wrote, by the way there that shares the most."""
        for sharing, places in self.places(access):
            kept = self.written[sharing]
            for place in places:
                if place not in kept or cause.sharing < kept[place][0].sharing:
                    kept[place] = cause, access

    def places(self, access: Access) -> Iterator[tuple[Sharing, Iterable[Place]]]:
        """The bytes, the line and the bits of an access."""
        line = self.rule.line_of(access)
        yield Sharing.TRUE, range(access.address, access.address + access.bytes)
        yield Sharing.LINE, (line,)
        yield Sharing.ALIAS, (self.rule.kind.bits(line),)


def sharing_of(one: Access, other: Access, rule: LineRule) -> Optional[Sharing]:
    """What two accesses share; None where it isn't even the bits of their lines."""
    if one.address < other.address + other.bytes and other.address < one.address + one.bytes:
        return Sharing.TRUE
    line, met = rule.line_of(one), rule.line_of(other)
    if line == met:
        return Sharing.LINE
    return Sharing.ALIAS if rule.kind.bits(line) == rule.kind.bits(met) else None


# ---- in words


class CauseSentences:
    """How causes are said: by the names of tasks, the labels and source lines of a listing, and the bytes of a line."""

    def __init__(self, named: Callable[[Task], str], rule: LineRule, listing: Listing = NO_LISTING) -> None:
        self.named, self.rule, self.listing = named, rule, listing

    def sentence(self, cause: Cause) -> str:
        """Why a task was aborted, as what is said of it behind its name."""
        if cause.kind is Kind.CHILD:
            return f"{self.name_behind(cause)}, which made it, was aborted"
        if cause.kind is Kind.ABORT:
            return "the script asked for it"
        if cause.kind is Kind.ROOM:
            return ROOM_TOLD[cause.event].format(who=self.name_behind(cause))
        if cause.meeting is None:
            return "a filter reports an access that it may not have made"
        return self.meeting_told(cause, cause.meeting)

    def meeting_told(self, cause: Cause, meeting: Meeting) -> str:
        """What two accesses did to each other, in a sentence."""
        own, other, sharing = meeting.own, meeting.other, meeting.sharing
        by = self.name_behind(cause)
        place = "there" if sharing is Sharing.TRUE else f"at {self.listing.address_text(other.address)}"
        if cause.kind is Kind.ACCESS:
            did = f"{by} {'stores' if other.is_store else 'loads'} {place}{self.spot(other)}"
        else:
            did = f"{by}, which was aborted, had stored {place}{self.spot(other)}"
        done = self.did(own) if own is not None else fill(TEXTS["joint"], line=self.line_told(other))
        return f"{done}, and {did}{self.sharing_told(meeting)}"

    def line_told(self, access: Access) -> str:
        """The line that an access is in, by its number."""
        return f"{self.rule.line_of(access):,}"

    def did(self, own: Access) -> str:
        """What a task did by an access of its own."""
        label = self.listing.address_text(own.address)
        value = signed(own.value if own.is_store else own.old, own.bytes)
        did = f"stored {value} to" if own.is_store else f"loaded {value} from"
        return f"it {did} {label}{self.spot(own)}"

    def sharing_told(self, meeting: Meeting) -> str:
        """What accesses share where it isn't a byte; no words where it is one."""
        if meeting.sharing is Sharing.TRUE:
            return ""
        if meeting.sharing is Sharing.LINE:
            return f"; they share the line of {self.rule.size} bytes and no byte"
        if meeting.own is None:
            return str(TEXTS["joint bits"])
        lines = " and ".join(map(self.line_told, (meeting.own, meeting.other)))
        return f"; they share a bit of the filter and no byte, since it has one for the lines {lines}"

    def spot(self, access: Access) -> str:
        """Where in the source an access stands, if that is known."""
        place = self.listing.place(access.pc)
        if place is None:
            return f" at {self.listing.address_text(access.pc)}" if self.listing is not NO_LISTING else ""
        where, _, text = place.partition(": ")
        return f" at {where} (`{text}`)" if text else f" at {where}"

    def name_behind(self, cause: Cause) -> str:
        """The task behind a cause; where none is, a splitter asked."""
        return self.named(cause.by) if cause.by is not None else "the splitter of the tile"
