"""gdb's remote protocol over a track: a packet, and what is answered."""
from __future__ import annotations

import struct
from typing import Callable, Sequence
from xml.sax.saxutils import quoteattr

from yotarimu.common.outcome import Refusal
from yotarimu.debugger.movement import Movement, Order, Stop, Watch, register_of, stop_told
from yotarimu.debugger.packets import MOST_PACKET, Connection, hex_text
from yotarimu.debugger.target import PC, WORD_BYTES, Signal, description
from yotarimu.debugger.track import MOST_THREADS, Core, Track

OK, FAILED = "OK", "E01"
FEATURES = (f"PacketSize={MOST_PACKET:x};QStartNoAckMode+;qXfer:features:read+;qXfer:threads:read+;ReverseStep+;"
            "ReverseContinue+;ConditionalBreakpoints+;vContSupported+")
BREAKS = ("0", "1")
# The commands of `monitor` that take no argument, and those that need one.
ALONE, NEEDING = ("stale",), ("writes",)


class Server:
    """Answers one gdb, up to its end."""

    def __init__(self, track: Track, connection: Connection) -> None:
        self.track, self.connection = track, connection
        self.movement = Movement(track, connection)
        # The thread that registers and memory are asked of; 0 is the one that runs.
        self.chosen = self.resumed = 0
        # What is to be said as soon as gdb's console takes it.
        self.late = ""
        self.is_over = False

    def serve(self) -> bool:
        """Answers packets until gdb leaves or is gone; whether it was gdb that was there."""
        was_gdb = False
        try:
            while not self.is_over and (packet := self.connection.packet()) is not None:
                was_gdb = True
                answer = self.answer(packet)
                if packet != "k":
                    self.connection.send(answer)
                self.connection.needs_ack &= packet != "QStartNoAckMode"
        except (BrokenPipeError, ConnectionError):
            pass
        return was_gdb

    def answer(self, packet: str) -> str:
        """The answer to a packet; an empty one where it is unknown here."""
        for start, answer in ANSWERS.items():
            if packet.startswith(start):
                try:
                    return answer(self, packet[len(start):])
                except Refusal as refused:
                    self.late = str(refused)
                    return FAILED
                except (ValueError, IndexError, KeyError, OverflowError, struct.error):
                    return FAILED
        return ""

    # ---- what it is

    def features(self, _rest: str) -> str:
        """What the server can do."""
        return FEATURES

    def nothing(self, _rest: str) -> str:
        """The empty answer, by which gdb knows that a command is unknown here."""
        return ""

    def no_acks(self, _rest: str) -> str:
        """Packets are no longer acknowledged from here on."""
        return OK

    def leave(self, _rest: str) -> str:
        """gdb goes, and the server with it."""
        self.is_over = True
        return OK

    def target(self, rest: str) -> str:
        """A part of the description of the machine's registers."""
        return part(description(), rest)

    # ---- threads

    def threads(self, rest: str) -> str:
        """A part of the list of threads in XML, with their names and states."""
        rows = "".join(f'<thread id="{thread:x}" name={quoteattr(ascii_of(self.track.name_of(thread)))}>'
                       f"{self.track.state_of(thread)}</thread>" for thread in self.shown_threads())
        return part(f'<?xml version="1.0"?><threads>{rows}</threads>', rest)

    def shown_threads(self) -> list[int]:
        """The threads that gdb is shown, of which there may be fewer than there are."""
        return self.track.threads()[:MOST_THREADS]

    def first_threads(self, _rest: str) -> str:
        """The numbers of the threads."""
        return "m" + ",".join(f"{thread:x}" for thread in self.shown_threads())

    def more_threads(self, _rest: str) -> str:
        """No thread is left to be listed."""
        return "l"

    def current_thread(self, _rest: str) -> str:
        """The number of the thread that runs at this position."""
        return f"QC{self.track.thread:x}"

    def is_attached(self, _rest: str) -> str:
        """The process was there before gdb came, so gdb doesn't end it."""
        return "1"

    def thread_told(self, rest: str) -> str:
        """The name of a thread, and what state it is in."""
        thread = int(rest, 16)
        return hex_text(f"{self.track.name_of(thread)}, {self.track.state_of(thread)}")

    def is_thread_there(self, rest: str) -> str:
        """Whether a thread is there at this position."""
        return OK if int(rest, 16) in self.shown_threads() else FAILED

    def choose(self, rest: str) -> str:
        """`Hg` and `Hc`: which thread is asked, and which one goes back, from now on; -1 is all of them, and 0 any."""
        thread = 0 if rest[1:] in ("", "-1", "0") else int(rest[1:], 16)
        if rest[0] == "g":
            self.chosen = thread
        else:
            self.resumed = thread
        return OK

    # ---- registers and memory

    def core(self) -> Core:
        """The core of the thread that gdb has chosen."""
        return self.track.core_of(self.chosen)

    def registers(self, _rest: str) -> str:
        """All registers of the chosen thread, in hexadecimal."""
        core = self.core()
        return b"".join(word_bytes(register_of(core, number)) for number in range(PC + 1)).hex()

    def register(self, rest: str) -> str:
        """One register of the chosen thread, in hexadecimal."""
        number = int(rest, 16)
        return word_bytes(register_of(self.core(), number)).hex() if 0 <= number <= PC else FAILED

    def set_registers(self, rest: str) -> str:
        """Changes all registers of the task that runs."""
        data = bytes.fromhex(rest)
        if len(data) != WORD_BYTES * (PC + 1):
            return FAILED
        for number in range(PC + 1):
            self.set_one(number, data[WORD_BYTES * number:WORD_BYTES * (number + 1)])
        return OK

    def set_register(self, rest: str) -> str:
        """Changes one register of the task that runs."""
        place, value = rest.split("=")
        number, data = int(place, 16), bytes.fromhex(value)
        if not 0 <= number <= PC or len(data) != WORD_BYTES:
            return FAILED
        self.set_one(number, data)
        return OK

    def set_one(self, number: int, data: bytes) -> None:
        """Changes a register to the number in its bytes, if that differs."""
        core, value = self.track.core, int.from_bytes(data, "little")
        if number == 0 or value == register_of(self.core(), number):
            return
        self.tell_change()
        self.track.mark_changed()
        if number == PC:
            core.pc = value
        else:
            core.registers[number] = value

    def memory(self, rest: str) -> str:
        """Bytes that the chosen thread sees, in hexadecimal."""
        address, count = (int(word, 16) for word in rest.split(","))
        if count < 0:
            return FAILED
        return self.track.bytes_at(address, count, bytes(self.core().stack)).hex() or FAILED

    def set_memory(self, rest: str) -> str:
        """Changes bytes of the data or the stack."""
        where, data = rest.split(":")
        if data:
            self.tell_change()
            self.track.change(int(where.split(",")[0], 16), bytes.fromhex(data))
        return OK

    def tell_change(self) -> None:
        """Says, once, what becomes of changes by hand; those of a task that doesn't run are refused."""
        if self.chosen not in (0, self.track.thread):
            raise Refusal("this task doesn't run at this position, so it can't be changed.")
        if not self.track.is_changed:
            self.late = ("From here on this task runs on what was written by hand. At its end, or with a step back, "
                         "all of it is undone.")

    # ---- stops

    def set_point(self, rest: str) -> str:
        """Sets a breakpoint, with its conditions, or a watchpoint."""
        kind, address, count = point_in(rest)
        self.movement.held = 0
        if kind in BREAKS:
            self.movement.breaks[address] = [bytes.fromhex(code.partition(",")[2]) for code in rest.split(";X")[1:]]
        else:
            self.movement.watches[kind, address] = Watch(kind, address, count)
        return OK

    def clear_point(self, rest: str) -> str:
        """Takes a breakpoint or a watchpoint away."""
        kind, address, _ = point_in(rest)
        self.movement.held = 0
        if kind in BREAKS:
            self.movement.breaks.pop(address, None)
        else:
            self.movement.watches.pop((kind, address), None)
        return OK

    def why_stopped(self, _rest: str) -> str:
        """The stop at which the run stands now."""
        return self.stop_answer(Stop(Signal.TRAP))

    def actions(self, _rest: str) -> str:
        """In which ways a run can be continued."""
        return "vCont;c;C;s;S;r"

    def go(self, rest: str) -> str:
        """vCont: the first action says what is done."""
        self.say_late()
        actions = rest.split(";")[1:]
        action, _, named = actions[0].partition(":")
        if action[0] in "cC":
            return self.stop_answer(self.movement.on(Order()))
        thread = int(named, 16) if named not in ("", "-1", "0") else self.track.thread
        is_alone = bool(named) and len(actions) == 1
        # gdb steps one thread alone over a breakpoint, and fails if another one is reported then.
        if not self.track.choose(thread) and is_alone or is_alone and self.track.is_stretch_over():
            return self.stop_answer(Stop(Signal.TRAP, thread=thread))
        start, end = (int(word, 16) for word in action[1:].split(",")) if action[0] == "r" else (1, 0)
        return self.stop_answer(self.movement.on(Order(thread, start, end, is_alone)))

    def say_late(self) -> None:
        """gdb's console takes text only while it waits for a stop."""
        if self.late:
            self.connection.say(self.late)
            self.late = ""

    def back_step(self, _rest: str) -> str:
        """Goes back by one instruction, and reports the stop."""
        self.say_late()
        return self.stop_answer(self.movement.back_step(self.resumed or self.chosen or self.track.thread))

    def back(self, _rest: str) -> str:
        """Goes back to the last stop before this position, and reports it."""
        self.say_late()
        return self.stop_answer(self.movement.back())

    def stop_answer(self, stop: Stop) -> str:
        """A stop as gdb receives it; its thread is the chosen one from then on."""
        self.chosen = stop.thread or self.track.thread
        return stop_told(stop, self.core(), self.chosen)

    # ---- what may be asked beside

    def monitor(self, rest: str) -> str:
        """A word behind `monitor`, and what is asked of it."""
        lines = self.answers(bytes.fromhex(rest.lstrip(",")).decode("utf-8", "replace").split())
        self.chosen = 0
        return hex_text("".join(f"{line}\n" for line in lines)) or OK

    def answers(self, typed: list[str]) -> Sequence[str]:
        """The answer to a typed command. The first word may be shortened, as long as it is unambiguous."""
        words = self.track.words
        found = [it for it in words if typed and it.startswith(typed[0])]
        word = typed[0] if typed and typed[0] in words else found[0] if len(found) == 1 else None
        if word is None:
            elsewhere = self.track.elsewhere.get(typed[0]) if typed else None
            return [elsewhere] if elsewhere else [f"monitor {it:<9} {what.__doc__}" for it, what in words.items()]
        if len(typed) > 1 + (word not in ALONE):
            return [f"`{word}` takes fewer words: {words[word].__doc__}"]
        if len(typed) == 1 and word in NEEDING:
            return [f"`{word}` takes a word: {words[word].__doc__}"]
        try:
            return words[word](*typed[1:])
        except Refusal as refused:
            return [str(refused)]


def part(text: str, rest: str) -> str:
    """A piece of a text that is read in pieces."""
    offset, length = (int(word, 16) for word in rest.rpartition(":")[2].split(","))
    return ("m" if offset + length < len(text) else "l") + text[offset:offset + length]


def point_in(rest: str) -> tuple[str, int, int]:
    """The kind, the address and the count of a breakpoint or watchpoint."""
    kind, address, count = rest.split(";")[0].split(",")
    return kind, int(address, 16), int(count, 16)


def word_bytes(value: int) -> bytes:
    """The four bytes of a word, the lowest first."""
    return value.to_bytes(WORD_BYTES, "little")


def ascii_of(text: str) -> str:
    """A text for XML, which goes over the connection byte by byte."""
    return text.encode("ascii", "backslashreplace").decode("ascii")


Answer = Callable[[Server, str], str]
# The first that a packet begins with answers it.
ANSWERS: dict[str, Answer] = {
    "qSupported": Server.features, "QStartNoAckMode": Server.no_acks, "qXfer:features:read:": Server.target,
    "qXfer:threads:read:": Server.threads, "qCRC:": Server.nothing, "qC": Server.current_thread,
    "qAttached": Server.is_attached,
    "qfThreadInfo": Server.first_threads, "qsThreadInfo": Server.more_threads,
    "qThreadExtraInfo,": Server.thread_told, "qRcmd": Server.monitor, "vCont?": Server.actions, "vCont": Server.go,
    "?": Server.why_stopped, "H": Server.choose, "T": Server.is_thread_there, "g": Server.registers,
    "p": Server.register, "P": Server.set_register, "G": Server.set_registers, "m": Server.memory,
    "M": Server.set_memory, "Z": Server.set_point, "z": Server.clear_point, "bs": Server.back_step, "bc": Server.back,
    "D": Server.leave, "k": Server.leave, "vKill": Server.leave,
}
