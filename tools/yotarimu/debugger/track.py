"""A run that can be replayed forwards and backwards: what the server asks of it, from whatever it is made.

A track is a list of stretches, each of them some instructions of one task. A position is a stretch, and how many of its
instructions are executed. One list has all stores with what they replaced, so the memory where a stretch begins is
found by undoing stores or by doing them again; a position within a stretch by executing at most one task again.
"""
from __future__ import annotations

import abc
import dataclasses
from typing import Callable, FrozenSet, NamedTuple, Optional, Sequence

from yotarimu.common.outcome import Refusal
from yotarimu.debugger.target import Signal
from yotarimu.images import serial_machine as machine
from yotarimu.images.image import DATA, STACK, TEXT, Image
from yotarimu.images.listing import Listing

# So many instructions are gone through at most, which takes about a minute.
MOST_STEPS = 20_000_000
# Of a track with more threads only those at the position are listed.
MOST_THREADS = 64
# The most lines of an answer that may be long.
MOST_TOLD = 100


class Position(NamedTuple):
    """A stretch of a track, and how many of its instructions are executed."""
    stretch: int
    done: int


class Stretch(NamedTuple):
    """Some instructions of one task: how many, the addresses at which it stands on its way, and how many of all stores
    are done where it begins and where it ends."""
    length: int
    pcs: FrozenSet[int]
    first: int
    last: int


class Store(NamedTuple):
    """Bytes of the data that change: where in the data, as they were, and as they are then."""
    place: int
    old: bytes
    new: bytes

    def touches(self, place: int, count: int) -> bool:
        """Whether the store changed one of so many bytes from a place in the data on."""
        return self.place < place + count and place < self.place + len(self.old)


class Touch(NamedTuple):
    """An access to memory."""
    is_store: bool
    address: int
    width: int


@dataclasses.dataclass(frozen=True)
class Notice:
    """What is said at a position, of which thread, and the signal with which it stops there."""
    thread: int
    text: str
    signal: Signal


class Core(machine.Run):
    """A task that runs: it counts its instructions, and notes what the last one touched."""

    def __init__(self, of: machine.Machine, task: machine.Task) -> None:
        super().__init__(of, task)
        self.executed = 0
        self.touched: Optional[Touch] = None

    def advance(self) -> None:
        """Executes one instruction; or it traps, and nothing changes."""
        if self.executed == machine.MOST_BUDGET:
            raise machine.TaskTrap(machine.BUDGET)
        word = self.machine.image.word(self.pc)
        if word is None or self.pc % 4:
            raise machine.TaskTrap(machine.FETCH)
        self.touched = None
        self.step(word)
        self.executed += 1

    def load(self, kind: int, address: int) -> int:
        """Loads as the instructions mean it, and notes the access."""
        value = super().load(kind, address)
        self.touched = Touch(False, address, 1 << (kind & 3))
        return value

    def store(self, width: int, address: int, value: int) -> None:
        """Stores as the instructions mean it, notes the access, and keeps what the data had there."""
        place = address - DATA
        if 0 <= place <= len(self.machine.memory) - width and address % width == 0:
            self.keep(place, (value & (1 << 8 * width) - 1).to_bytes(width, "little"))
        super().store(width, address, value)
        self.touched = Touch(True, address, width)

    def keep(self, place: int, new: bytes) -> None:
        """Takes note of a store to the data, before it is made."""

    def next_access(self) -> Optional[Touch]:
        """The access that the next instruction makes; None where it makes none."""
        word = self.machine.image.word(self.pc) or 0
        base, width = self.registers[word >> 15 & 31], 1 << (word >> 12 & 3)
        if word & 0x7F == 0x03:
            return Touch(False, base + machine.signed_number(word >> 20, 12) & machine.MASK, width)
        if word & 0x7F == 0x23:
            offset = machine.signed_number(word >> 25 << 5 | word >> 7 & 31, 12)
            return Touch(True, base + offset & machine.MASK, width)
        return None


class Memory:
    """The data at a position, and all stores of a track in their order."""

    def __init__(self, image: Image) -> None:
        self.data = bytearray(image.initial) + bytes(image.size - len(image.initial))
        self.stores: list[Store] = []
        # How many of the stores are done.
        self.done = 0

    def write(self, place: int, new: bytes) -> None:
        """A store that comes for the first time."""
        old = bytes(self.data[place:place + len(new)])
        self.data[place:place + len(new)] = new
        self.stores.append(Store(place, old, new))
        self.done += 1

    def move(self, done: int) -> None:
        """Undoes stores, or does them again, until so many are done."""
        for store in reversed(self.stores[done:self.done]):
            self.data[store.place:store.place + len(store.old)] = store.old
        for store in self.stores[self.done:done]:
            self.data[store.place:store.place + len(store.new)] = store.new
        self.done = done

    def stores_touching(self, address: int, count: int) -> list[int]:
        """The places in the list of the stores that touch some bytes of the data."""
        return [at for at, store in enumerate(self.stores) if store.touches(address - DATA, count)]


Word = Callable[..., Sequence[str]]


class Track(abc.ABC):
    """A run at a position. Threads are numbered from 1; what they are, the two tracks say."""

    def __init__(self, image: Image, listing: Listing) -> None:
        self.image, self.listing = image, listing
        self.stretches: list[Stretch] = []
        self.stretch, self.is_changed = 0, False
        # What was said of a position isn't said again until another one is reported.
        self.noticed: Optional[Position] = None

    memory: Memory
    core: Core
    # The words behind `monitor`, each with what answers it; and those that another kind of track has, with a sentence.
    words: dict[str, Word]
    elsewhere: dict[str, str] = {}

    @property
    @abc.abstractmethod
    def position(self) -> Position:
        """Where it stands."""

    @property
    @abc.abstractmethod
    def thread(self) -> int:
        """The thread that runs at this position."""

    @abc.abstractmethod
    def go_to(self, position: Position) -> None:
        """Goes to a position. Changes by hand are undone."""

    @abc.abstractmethod
    def advance(self) -> None:
        """Executes one instruction of this stretch, or raises TaskTrap."""

    @abc.abstractmethod
    def is_stretch_over(self) -> bool:
        """Whether all of this stretch is executed."""

    @abc.abstractmethod
    def threads(self) -> list[int]:
        """The threads that are listed at this position."""

    @abc.abstractmethod
    def name_of(self, thread: int) -> str:
        """A thread's name for people."""

    @abc.abstractmethod
    def state_of(self, thread: int) -> str:
        """What a thread is doing at this position."""

    @abc.abstractmethod
    def core_of(self, thread: int) -> Core:
        """Registers and stack of a thread at this position; of the running one for 0."""

    @abc.abstractmethod
    def choose(self, thread: int) -> bool:
        """Makes a thread the one that runs, where that is possible; whether it is so then."""

    @abc.abstractmethod
    def trap_told(self, trapped: machine.TaskTrap) -> str:
        """A trap that ends the run, in a sentence."""

    def next_stretch(self) -> bool:
        """Goes to the next stretch; whether there is one."""
        if self.stretch + 1 == len(self.stretches):
            return False
        self.go_to(Position(self.stretch + 1, 0))
        return True

    def before(self, thread: int) -> Optional[Position]:
        """The position before a thread's last instruction; None where it has none."""
        position = self.position
        return Position(position.stretch, position.done - 1) if thread == self.thread and position.done else None

    def notice(self) -> Optional[Notice]:
        """What is to be said at this position."""
        return None

    def has_notices(self, _stretch: int) -> bool:
        """Whether something is to be said within a stretch."""
        return False

    def mark_changed(self) -> None:
        """From here on, up to its end, the task that runs is no longer the run's; a refusal where that can't be."""
        raise Refusal("nothing can be changed here: these are the run's own accesses.")

    def change(self, _address: int, _data: bytes) -> None:
        """Writes memory by hand."""
        self.mark_changed()

    def bytes_at(self, address: int, count: int, stack: bytes) -> bytes:
        """The bytes from an address on, as far as there are any."""
        for start, data in ((TEXT, self.image.text), (DATA, self.memory.data), (STACK, stack)):
            if start <= address < start + len(data):
                return bytes(data[address - start:address - start + count])
        return b""

    def is_touched(self, stretch: int, address: int, count: int) -> bool:
        """Whether a stretch, or what comes before the next one, stores to some bytes."""
        end = self.stretches[stretch + 1].first if stretch + 1 < len(self.stretches) else len(self.memory.stores)
        return any(store.touches(address - DATA, count)
                   for store in self.memory.stores[self.stretches[stretch].first:end])

    def place_told(self, pc: int) -> str:
        """An instruction's source line, or its label."""
        return self.listing.place(pc) or self.listing.address_text(pc)

    def need_stretches(self, why: str) -> None:
        """Refuses a run in which no instruction is executed."""
        if not self.stretches:
            raise Refusal(f"{why}, so there is nothing to go along.")
