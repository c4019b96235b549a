"""Going on and back: to the next stop, by one instruction, or through a range of addresses.

What gdb needs of a stop was found by experiment: RISC-V's watchpoints are reported before the access, and gdb then
steps over it alone; going back they are reported right after it. While gdb steps one thread over a breakpoint no other
thread may be reported: gdb would fail. So the last instruction of a task ends within that task, at pc 0, and the next
resume goes on from there; and a step back stays within its task. Nor may the end of history be reported then: gdb would
wait for ever at its next command. Whether gdb is stepping over a breakpoint isn't seen from here.
"""
from __future__ import annotations

import dataclasses
from typing import Optional, Union

from yotarimu.debugger import conditions
from yotarimu.debugger.packets import Connection
from yotarimu.debugger.target import PC, TOLD_AT_STOPS, WORD_BYTES, Signal, signal_of
from yotarimu.debugger.track import Core, Position, Touch, Track
from yotarimu.images.image import DATA, STACK
from yotarimu.images.serial_machine import TaskTrap

# gdb may ask to stop after so many instructions.
LOOK_EVERY = 4_096
# A step back from the start may be in vain this often.
MOST_HELD = 2
WRITTEN, READ, EITHER = "2", "3", "4"
WATCHES = {WRITTEN: "watch", READ: "rwatch", EITHER: "awatch"}
NO_MORE, AT_BEGIN = "replaylog:end;", "replaylog:begin;"


@dataclasses.dataclass(frozen=True)
class Stop:
    """Where a track stops, and why."""
    signal: Signal
    more: str = ""
    thread: int = 0


@dataclasses.dataclass(frozen=True)
class Watch:
    """Bytes that are watched, and for which accesses."""
    kind: str
    address: int
    count: int

    def is_met(self, touch: Touch) -> bool:
        """Whether an access is of the kind that is watched, and meets a watched byte."""
        is_kind = self.kind == EITHER or self.kind == (WRITTEN if touch.is_store else READ)
        return is_kind and self.address < touch.address + touch.width and touch.address < self.address + self.count

    def sentence(self) -> str:
        """How a stop describes the watchpoint to gdb."""
        return f"{WATCHES[self.kind]}:{self.address:x};"


@dataclasses.dataclass(frozen=True)
class Order:
    """How far a track is to go: to the next stop, or while a thread is within a range of addresses; one instruction is
    an empty range. An order for one thread alone is gdb's way over a breakpoint."""
    thread: int = 0
    start: int = 1
    end: int = 0
    is_alone: bool = False

    @property
    def is_step(self) -> bool:
        """Whether one thread alone is to go on, by one instruction or through a range."""
        return self.thread != 0


def register_of(core: Core, number: int) -> int:
    """A register; a task that is over stands nowhere."""
    if number == PC:
        return 0 if core.is_over else core.pc
    return int(core.registers[number])


class Here:
    """The running task's registers and memory, for conditions."""

    def __init__(self, track: Track) -> None:
        self.track = track

    def register(self, number: int) -> int:
        """A register of the running task by gdb's number; raises Unknown for those that it hasn't."""
        if number > PC:
            raise conditions.Unknown
        return register_of(self.track.core, number)

    def memory(self, address: int, count: int) -> bytes:
        """Bytes that the running task sees, or fewer where they can't all be read."""
        return self.track.bytes_at(address, count, bytes(self.track.core.stack))


class Movement:
    """Goes along a track, with breakpoints and watchpoints."""

    def __init__(self, track: Track, connection: Connection) -> None:
        self.track, self.connection, self.here = track, connection, Here(track)
        # Of each address of a breakpoint its conditions; one without any always stops.
        self.breaks: dict[int, list[bytes]] = {}
        self.watches: dict[tuple[str, int], Watch] = {}
        # How many steps back were in vain since breakpoints were set or cleared, as they are around each command.
        self.held = 0
        self.gone = 0

    # ---- forward

    def on(self, order: Order) -> Stop:
        """Goes on, up to the first stop."""
        is_first = True
        while True:
            if self.track.is_stretch_over():
                thread = self.track.thread
                if stop := self.at_end_of_stretch(order, is_first):
                    return stop
                is_first = is_first and self.track.thread == thread
                continue
            if stop := self.before_instruction(order, is_first):
                return stop
            is_first = False
            try:
                self.track.advance()
            except TaskTrap as trapped:
                self.connection.say(self.track.trap_told(trapped))
                return Stop(signal_of(trapped.cause))
            if order.is_step and not (self.track.core.is_over and not order.is_alone) and self.is_done(order):
                return Stop(Signal.TRAP)
            self.gone += 1
            if self.gone % LOOK_EVERY == 0 and self.connection.is_interrupted():
                return Stop(Signal.INTERRUPT)

    def at_end_of_stretch(self, order: Order, is_first: bool) -> Optional[Stop]:
        """Goes on to the next stretch, or stops where the last one ended."""
        track, thread, was_over = self.track, self.track.thread, self.track.core.is_over
        if track.is_changed:
            self.connection.say("The task that was changed has ended; its changes are undone.")
        if stop := self.notice():
            return stop
        if not track.next_stretch():
            return Stop(Signal.NONE, NO_MORE)
        if order.is_step and was_over and thread == order.thread:
            return Stop(Signal.NONE)
        if not order.is_step and not is_first:
            self.skip()
        return None

    def before_instruction(self, order: Order, is_first: bool) -> Optional[Stop]:
        """The stop before the next instruction, if there is one."""
        core = self.track.core
        if not is_first and core.pc in self.breaks and not order.is_alone and self.is_break():
            return Stop(Signal.TRAP)
        if self.watches and (watch := self.watch_of(core.next_access())):
            return Stop(Signal.TRAP, watch.sentence())
        return None if order.is_alone else self.notice()

    def is_done(self, order: Order) -> bool:
        """Whether the thread of an order has left the range that it is to go through."""
        track = self.track
        return track.thread == order.thread and not order.start <= track.core.pc < order.end

    def notice(self) -> Optional[Stop]:
        """The stop at a position of which something is to be said, once."""
        found, track = self.track.notice(), self.track
        if found is None or track.noticed == track.position:
            return None
        track.noticed = track.position
        self.connection.say(found.text)
        return Stop(found.signal, thread=found.thread)

    def is_break(self) -> bool:
        """Whether a breakpoint is here and one of its conditions holds, if it has some."""
        codes = self.breaks.get(self.track.core.pc)
        try:
            return codes is not None and (not codes or any(conditions.holds(code, self.here) for code in codes))
        except conditions.Unknown:
            return True

    def watch_of(self, touch: Optional[Touch]) -> Optional[Watch]:
        """What is watched of an access."""
        return next((watch for watch in self.watches.values() if watch.is_met(touch)), None) if touch else None

    # ---- stretches that nothing stops

    def is_plain(self, stretch: int) -> bool:
        """Whether nothing in a stretch, going on or back, can stop it."""
        if not self.track.stretches[stretch].pcs.isdisjoint(self.breaks):
            return False
        return not any(watch.kind != WRITTEN or not DATA <= watch.address < STACK
                       or self.track.is_touched(stretch, watch.address, watch.count) for watch in self.watches.values())

    def skip(self) -> None:
        """Leaves out stretches that nothing stops; the last one is run, since it may trap."""
        track, stretch = self.track, self.track.stretch
        last = len(track.stretches) - 1
        while stretch < last and not track.has_notices(stretch) and self.is_plain(stretch):
            stretch += 1
        if stretch != track.stretch:
            track.go_to(Position(stretch, 0))

    # ---- back

    def back_step(self, thread: int) -> Stop:
        """One instruction back, of this thread and of no other."""
        track = self.track
        if track.is_changed:
            track.go_to(Position(track.stretch, min(track.position.done, track.stretches[track.stretch].length)))
            return Stop(Signal.TRAP)
        watch = self.watch_of(track.core.touched) if thread == track.thread else None
        if watch is not None:
            return Stop(Signal.TRAP, watch.sentence())
        position = track.before(thread)
        if position is None:
            return self.at_begin(thread)
        track.go_to(position)
        return Stop(Signal.TRAP)

    def at_begin(self, thread: int) -> Stop:
        """A step back of a thread that has nothing before: it stops in its place. If gdb goes on and on by steps, which
        is never over a breakpoint, the answer is that history ends."""
        self.held += 1
        if self.held > MOST_HELD:
            return Stop(Signal.NONE, AT_BEGIN, thread)
        self.connection.say(f"{self.track.name_of(thread)} begins here; reverse-continue goes on before it.")
        return Stop(Signal.TRAP, thread=thread)

    def back(self) -> Stop:
        """To the last position before this one at which a breakpoint stands, or right behind a watched access."""
        track = self.track
        stretch, limit = track.position
        here, limit = stretch, min(limit, track.stretches[stretch].length)
        while stretch >= 0:
            if stretch == here or not self.is_plain(stretch):
                if stop := self.back_through(stretch, limit):
                    return stop
                if self.connection.is_interrupted():
                    return Stop(Signal.INTERRUPT)
            stretch -= 1
            limit = track.stretches[stretch].length if stretch >= 0 else 0
        track.go_to(Position(0, 0))
        return Stop(Signal.NONE, AT_BEGIN)

    def back_through(self, stretch: int, limit: int) -> Optional[Stop]:
        """The last stop of a stretch's first instructions, if there is one; goes there."""
        track = self.track
        track.go_to(Position(stretch, 0))
        found: Union[tuple[int, str], None] = (0, "") if limit and self.is_break() else None
        for done in range(1, limit + 1):
            track.advance()
            if watch := self.watch_of(track.core.touched):
                found = done, watch.sentence()
            elif done < limit and self.is_break():
                found = done, ""
        if found is None:
            return None
        track.go_to(Position(stretch, found[0]))
        return Stop(Signal.TRAP, found[1])


def stop_told(stop: Stop, core: Core, thread: int) -> str:
    """A stop as gdb receives it, with the registers that it would request anyway."""
    registers = "".join(f"{number:02x}:{register_of(core, number).to_bytes(WORD_BYTES, 'little').hex()};"
                        for number in TOLD_AT_STOPS)
    return f"T{stop.signal:02x}{registers}thread:{thread:x};{stop.more}"
